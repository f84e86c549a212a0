//! The furthest pairings of a word: a search through entries and pairs that explains, and decides nothing.

use super::tables::{Refusal, States, Tables};
use crate::paths::MOST_ENTRIES;
use crate::text::alphabet::NULL;
use crate::text::ways::Ways;
use std::collections::HashSet;

/// Steps after which a search is cut, so that it ends by any grammar.
pub const MOST_STEPS: usize = 200_000;
/// Ways that are kept of those that stop at the furthest letter.
const MOST_DEAD: usize = 4_000;
/// The pairs with a null on one side that a reading may have.
const MOST_NULLS: u8 = 8;

/// What can follow where a way has come to: an entry is opened, or a pair is taken.
#[derive(Clone, Copy, Debug, PartialEq, Eq)]
pub enum Step {
    Opened(usize),
    Paired(usize),
}

/// Why a way goes no further.
#[derive(Clone, Debug, PartialEq, Eq, Hash)]
pub enum Stop {
    /// Rules refuse a pair that fits; at the end of the word it is the boundary pair.
    Refused { pair: usize, by: Vec<Refusal> },
    /// No pair has the entry's next letter and the word's.
    NoPair,
    /// The entry ends the word, and letters of it are left.
    LeftOver,
    /// The word ends inside the entry.
    WordEnds,
    /// A pair fits, but has one null too many on its lexical or its surface side.
    Nulls { pair: usize },
    /// Another entry would be the seventeenth.
    Entries,
}

/// Where a way stops.
#[derive(Clone, Debug)]
pub struct Dead {
    /// Every entry opened and pair taken, in order.
    pub steps: Vec<Step>,
    /// How many letters of the last entry's form are paired.
    pub place: usize,
    pub stop: Stop,
}

/// The entries that steps open.
pub fn opened(steps: &[Step]) -> impl Iterator<Item = usize> + '_ {
    steps.iter().filter_map(|step| match step {
        Step::Opened(entry) => Some(*entry),
        Step::Paired(_) => None,
    })
}

impl Dead {
    /// The pairs that were taken.
    pub fn pairs(&self) -> impl Iterator<Item = usize> + '_ {
        self.steps.iter().filter_map(|step| match step {
            Step::Paired(pair) => Some(*pair),
            Step::Opened(_) => None,
        })
    }

    /// Whether a reading, its entries and its pairs, begins so.
    pub fn begins(&self, (path, pairing): &(Vec<usize>, Vec<usize>)) -> bool {
        let is_beginning = |of: &[usize], with: Vec<usize>| of.starts_with(&with);
        is_beginning(path, opened(&self.steps).collect()) && is_beginning(pairing, self.pairs().collect())
    }
}

/// The ways that come furthest.
#[derive(Debug, Default)]
pub struct Furthest {
    /// How many letters of the word they cover.
    pub covered: usize,
    pub dead: Vec<Dead>,
    /// The search was cut before it had tried every way.
    pub cut: bool,
    /// A way comes through: by all rules that is a reading, which the library has too.
    pub through: bool,
    /// Rules refuse the boundary pair before any word begins.
    pub front: Vec<Refusal>,
}

#[derive(Clone, PartialEq, Eq, Hash)]
struct Spot {
    entry: usize,
    place: usize,
    /// The path ends with this entry, so that no other opens after a pair with a lexical null.
    ended: bool,
    covered: usize,
    entries: u8,
    lexical_nulls: u8,
    surface_nulls: u8,
    states: States,
}

struct Node {
    parent: Option<usize>,
    step: Step,
    spot: Spot,
}

struct Search<'a> {
    tables: &'a Tables<'a>,
    word: &'a [u8],
    rules: bool,
    steps: usize,
    nodes: Vec<Node>,
    open: Vec<usize>,
    seen: HashSet<Spot>,
    /// Nodes that stop at the furthest letter so far.
    dead: Vec<(usize, Stop)>,
    covered: usize,
    cut: bool,
    through: bool,
}

/// The ways through a word that come furthest, by all rules or, to see what the lexicon alone allows, by none; after at most
/// so many steps.
pub fn furthest(tables: &Tables, word: &[u8], rules: bool, steps: usize) -> Furthest {
    let begin = tables.feed(&tables.start(), tables.boundary());
    let states = match begin {
        Err(front) if rules => return Furthest { front, ..Furthest::default() },
        Err(_) => tables.start(),
        Ok(states) => states,
    };
    let mut search = Search::new(tables, word, rules, steps);
    let spot =
        Spot { entry: 0, place: 0, ended: false, covered: 0, entries: 0, lexical_nulls: 0, surface_nulls: 0, states };
    search.open_lexicon(None, &spot, 0);
    while let Some(at) = search.open.pop() {
        if search.nodes.len() >= search.steps {
            search.cut = true;
            break;
        }
        search.go_on(at);
    }
    let dead = search.dead.iter().map(|(at, stop)| search.dead_end(*at, stop.clone())).collect();
    Furthest { covered: search.covered, dead, cut: search.cut, through: search.through, front: Vec::new() }
}

impl<'a> Search<'a> {
    fn new(tables: &'a Tables<'a>, word: &'a [u8], rules: bool, steps: usize) -> Search<'a> {
        let (nodes, open, dead, seen) = (Vec::new(), Vec::new(), Vec::new(), HashSet::new());
        Search { tables, word, rules, steps, nodes, open, seen, dead, covered: 0, cut: false, through: false }
    }

    /// Tries all that can follow a node.
    fn go_on(&mut self, at: usize) {
        let mut spot = self.nodes[at].spot.clone();
        let entry = self.tables.entries[spot.entry].0;
        let lexical = entry.form.get(spot.place).copied();
        if lexical.is_none() && !spot.ended {
            self.open_next(at, &spot, entry.ways);
            if !entry.ways.end {
                return;
            }
            spot.ended = true;
        }
        let surface = self.word.get(spot.covered).copied();
        if lexical.is_none() && surface.is_none() {
            let by = if self.rules { self.tables.end(&spot.states) } else { Vec::new() };
            if by.is_empty() {
                self.through = true;
            } else {
                self.stop(at, Stop::Refused { pair: self.tables.boundary(), by });
            }
        }
        if !self.take_pairs(at, &spot, lexical, surface) {
            match (lexical, surface) {
                (Some(_), Some(_)) => self.stop(at, Stop::NoPair),
                (Some(_), None) => self.stop(at, Stop::WordEnds),
                // Where an entry may go on, how far that comes says more.
                (None, Some(_)) if self.tables.goes_on(entry.ways) => {}
                (None, Some(_)) => self.stop(at, Stop::LeftOver),
                (None, None) => {}
            }
        }
    }

    /// Takes every pair that fits. Whether any does.
    fn take_pairs(&mut self, at: usize, spot: &Spot, lexical: Option<u8>, surface: Option<u8>) -> bool {
        let mut fits = false;
        // The last in comes out first, so that ways are tried in the order of the pairs.
        for (number, pair) in self.tables.grammar.pairs.iter().enumerate().rev() {
            let fits_one = |side: u8, asked: Option<u8>| side == NULL || Some(side) == asked;
            if !fits_one(pair.lexical, lexical) || !fits_one(pair.surface, surface) {
                continue;
            }
            fits = true;
            let mut after = spot.clone();
            after.place += usize::from(pair.lexical != NULL);
            after.covered += usize::from(pair.surface != NULL);
            after.lexical_nulls += u8::from(pair.lexical == NULL);
            after.surface_nulls += u8::from(pair.surface == NULL);
            if after.lexical_nulls > MOST_NULLS || after.surface_nulls > MOST_NULLS {
                self.stop(at, Stop::Nulls { pair: number });
                continue;
            }
            if self.rules {
                match self.tables.feed(&spot.states, number) {
                    Ok(states) => after.states = states,
                    Err(by) => {
                        self.stop(at, Stop::Refused { pair: number, by });
                        continue;
                    }
                }
            }
            self.push(Some(at), Step::Paired(number), after);
        }
        fits
    }

    /// Opens what may follow an entry whose letters are all paired.
    fn open_next(&mut self, at: usize, spot: &Spot, ways: Ways) {
        if ways.bits != 0 && usize::from(spot.entries) == MOST_ENTRIES {
            return self.stop(at, Stop::Entries);
        }
        for lexicon in ways.lexicons().rev() {
            self.open_lexicon(Some(at), spot, lexicon);
        }
    }

    fn open_lexicon(&mut self, parent: Option<usize>, spot: &Spot, lexicon: usize) {
        for entry in self.tables.entries_of(lexicon).rev() {
            let after = Spot { entry, place: 0, ended: false, entries: spot.entries + 1, ..spot.clone() };
            self.push(parent, Step::Opened(entry), after);
        }
    }

    fn push(&mut self, parent: Option<usize>, step: Step, spot: Spot) {
        if self.seen.insert(spot.clone()) {
            self.open.push(self.nodes.len());
            self.nodes.push(Node { parent, step, spot });
        }
    }

    fn stop(&mut self, at: usize, stop: Stop) {
        let covered = self.nodes[at].spot.covered;
        if covered > self.covered {
            self.dead.clear();
            self.covered = covered;
        }
        if covered == self.covered && self.dead.len() < MOST_DEAD {
            self.dead.push((at, stop));
        }
    }

    fn dead_end(&self, at: usize, stop: Stop) -> Dead {
        let mut steps = Vec::new();
        let mut next = Some(at);
        while let Some(node) = next.map(|at| &self.nodes[at]) {
            steps.push(node.step);
            next = node.parent;
        }
        steps.reverse();
        Dead { steps, place: self.nodes[at].spot.place, stop }
    }
}

#[cfg(test)]
mod tests {
    use super::*;
    use crate::library;
    use crate::text::{read_grammar, sealed_image};

    const LUZ: &str = include_str!("../../../grammars/luz.txt");

    fn by_luz(word: &str, rules: bool, steps: usize) -> Furthest {
        let grammar = read_grammar(LUZ.as_bytes()).unwrap();
        let letters: Vec<u8> = word.chars().map(|c| grammar.alphabet.number(c).unwrap()).collect();
        furthest(&Tables::new(&grammar), &letters, rules, steps)
    }

    #[test]
    fn a_rule_refuses_a_pair_at_the_furthest_letter() {
        let found = by_luz("luzes", true, MOST_STEPS);
        assert_eq!((found.covered, found.cut), (3, false));
        let refused = found.dead.iter().find(|dead| matches!(dead.stop, Stop::Refused { .. })).unwrap();
        assert_eq!(refused.stop, Stop::Refused { pair: 2, by: vec![Refusal { rule: 0, state: 4, next: 0 }] });
        assert_eq!(opened(&refused.steps).collect::<Vec<_>>(), [0, 3]);
        assert_eq!(refused.pairs().collect::<Vec<_>>(), [3, 5, 7, 0]);
        assert!(refused.begins(&(vec![0, 3], vec![3, 5, 7, 0, 2, 4])));
        assert!(!refused.begins(&(vec![1, 3], vec![3, 5, 7, 0, 2, 4])));
    }

    #[test]
    fn a_way_comes_through_where_the_library_has_a_reading() {
        for (name, words) in [
            ("luz", "bench/luz"),
            ("quichua", "grammars/quichua"),
            ("quichua_ways", "grammars/quichua"),
            ("spanish", "grammars/spanish"),
        ] {
            let read =
                |file: String| std::fs::read_to_string(format!("{}/../{file}", env!("CARGO_MANIFEST_DIR"))).unwrap();
            let grammar = read_grammar(read(format!("grammars/{name}.txt")).as_bytes()).unwrap();
            let (image, tables) = (sealed_image(&grammar), Tables::new(&grammar));
            let mut rows = [0; library::ROW];
            let mut found = [0, 0];
            for line in read(format!("{words}.words")).lines() {
                let word: Vec<u8> = line.split(' ').map(|number| number.parse().unwrap()).collect();
                let has = library::analyse(&image, &word, &mut rows).rows() > 0;
                let way = furthest(&tables, &word, true, MOST_STEPS);
                assert_eq!((way.through, way.cut), (has, false), "{name}: {line}");
                found[usize::from(has)] += 1;
            }
            assert!(found[0] > 0 && found[1] > 0, "{name}: {found:?}");
        }
    }

    #[test]
    fn without_rules_a_way_comes_further() {
        assert_eq!(by_luz("luzeu", true, MOST_STEPS).covered, 3);
        let found = by_luz("luzeu", false, MOST_STEPS);
        assert_eq!((found.covered, found.dead.len(), &found.dead[0].stop), (4, 1, &Stop::NoPair));
    }

    #[test]
    fn a_search_is_cut_after_its_steps() {
        assert!(by_luz("luzes", true, 3).cut);
    }

    #[test]
    fn an_entry_ends_and_goes_on() {
        let text = LUZ.replace("  Number  ", "  # Number  ").replace("  0    #       \"singular\"\n", "");
        let grammar = read_grammar(text.as_bytes()).unwrap();
        let found = |word: &str| {
            let letters: Vec<u8> = word.chars().map(|c| grammar.alphabet.number(c).unwrap()).collect();
            furthest(&Tables::new(&grammar), &letters, true, MOST_STEPS)
        };
        assert!(found("luz").through && found("luc").through && found("luces").through);
        let luzs = found("luzs");
        // That luZ may end is not told, since +es comes as far.
        let stops: Vec<(&Stop, usize)> =
            luzs.dead.iter().map(|dead| (&dead.stop, opened(&dead.steps).count())).collect();
        assert_eq!((luzs.through, luzs.covered, stops), (false, 3, vec![(&Stop::NoPair, 2)]));
        assert_eq!(found("lucesl").dead.iter().map(|dead| &dead.stop).collect::<Vec<_>>(), [&Stop::LeftOver]);
    }

    #[test]
    fn ways_stop_where_the_word_or_the_path_ends() {
        let stops = |word: &str| -> Vec<Stop> {
            by_luz(word, true, MOST_STEPS).dead.into_iter().map(|dead| dead.stop).collect()
        };
        assert_eq!(stops("lu"), [Stop::WordEnds, Stop::WordEnds]);
        assert_eq!(stops("lucesu"), [Stop::LeftOver]);
        assert_eq!(stops("lus"), [Stop::NoPair, Stop::NoPair]);
    }
}
