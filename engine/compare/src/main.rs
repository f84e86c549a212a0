//! Every call is made to the linked library and to the second engine, and the first reply or byte that differs ends the run.

mod claims;
mod converted;
mod decided;
mod lent;
mod library;
mod many;
mod met;
mod reached;
mod ruled;
mod spelled;
mod tables;
mod tally;
mod touched;

use draw::damage::{damaged, damaged_often, Damaged};
use draw::grammars::{self, Many};
use draw::inputs::{any_room, any_word, entry, room, Pool};
use draw::points::{any_points, folding_trials, letters_room, point_bytes, points_given};
use draw::prng::Prng;
use draw::records::{asked, record, Asked};
use draw::rule_texts::{any_pairing, any_rules, rules_given, RuleText};
use lent::Lent;
use other_engine::calls::{self, Known, PLACE, RECORD};
use other_engine::draft::Draft;
use other_engine::image::{read, BLOCK};
use other_engine::listing::{list, refused, ROW};
use other_engine::pairings::Budget;
use other_engine::reading::{Reading, Stop};
use ruled::Judged;
use std::ops::Range;
use std::process::exit;
use tally::{Kind, Tally};

const USAGE: &str = "usage: compare [SEED [CALLS]], or compare --tables IMAGE CLAIMS";

/// The refusals that images are damaged for, with their weights; 0 is a change that does no harm, and none is several at once.
const DAMAGES: [(usize, Option<u8>); 11] = [
    (12, Some(0)),
    (6, Some(1)),
    (10, Some(2)),
    (20, Some(3)),
    (10, Some(4)),
    (10, Some(5)),
    (14, Some(6)),
    (12, Some(7)),
    (16, Some(8)),
    (14, Some(14)),
    (18, None),
];

fn main() {
    let given: Vec<String> = std::env::args().skip(1).collect();
    if let [mode, image, claims] = &given[..] {
        let files = (std::fs::read(image), std::fs::read_to_string(claims));
        let (true, (Ok(image), Ok(claims))) = (mode == "--tables", files) else {
            eprintln!("{USAGE}");
            exit(2);
        };
        tables::run(&image, &claims);
        return;
    }
    let mut arguments = given.into_iter();
    let mut number = |otherwise: u64| match arguments.next() {
        None => otherwise,
        Some(text) => text.parse().unwrap_or_else(|_| {
            eprintln!("{USAGE}");
            exit(2);
        }),
    };
    let seed = number(1);
    let calls = number(100_000);
    if arguments.next().is_some() {
        eprintln!("{USAGE}");
        exit(2);
    }
    touched::watch();
    let mut folding = Run::new(seed, "folding call", u64::MAX);
    folding.folding();
    // A run of its own, so that what the trials of the folding met is not taken for something drawn.
    let mut run = Run::new(seed, "call", calls);
    run.many_readings();
    run.most_words();
    run.longest_conversions();
    // Late entries are seldom listed, so a run begins with grammars that have them.
    let first: [fn(&mut Prng) -> Draft; 5] = [
        grammars::largest,
        grammars::largest_in_form_2,
        grammars::widest,
        grammars::widest,
        grammars::widest,
    ];
    for drawn in first {
        let draft = drawn(&mut run.prng);
        run.grammar(&draft);
    }
    while !run.over() {
        let draft = grammars::grammar(&mut run.prng);
        run.grammar(&draft);
    }
    println!(
        "seed {seed} folding calls {} calls {} skipped {}{}",
        folding.calls,
        run.calls,
        run.skipped,
        run.tally.line()
    );
    let missing = run.tally.missing();
    if !missing.is_empty() {
        eprintln!("poor coverage, never met: {}", missing.join(", "));
        exit(3);
    }
    if run.skipped * 20 > run.calls {
        eprintln!("poor coverage, over 5 in 100 calls skipped");
        exit(3);
    }
}

/// A run: its numbers, what it has met, and how far it has come.
struct Run {
    prng: Prng,
    tally: Tally,
    seed: u64,
    /// What its calls are named.
    part: &'static str,
    calls: u64,
    most: u64,
    skipped: u64,
}

/// An image that is lent to call after call, as it was and as the engine read it.
struct Image {
    bytes: Vec<u8>,
    lent: Lent,
    known: Known,
}

/// One call's outcome on both sides.
struct Outcome<'a> {
    kind: Kind,
    given: &'a [(&'a str, &'a [u8])],
    entry: Option<usize>,
    reply: (u64, u64),
    /// Each written range before the call, as the engine leaves it, and as the library left it.
    written: &'a [(&'a str, &'a [u8], &'a [u8], &'a Lent)],
    kept: &'a [(&'a str, &'a [u8], &'a Lent)],
}

impl Run {
    fn new(seed: u64, part: &'static str, most: u64) -> Run {
        Run {
            prng: Prng::new(seed),
            tally: Tally::default(),
            seed,
            part,
            calls: 0,
            most,
            skipped: 0,
        }
    }

    fn over(&self) -> bool {
        self.calls >= self.most
    }

    fn image(&mut self, bytes: Vec<u8>) -> Image {
        let lent = Lent::new(&mut self.prng, &bytes);
        let known = read(&bytes);
        Image { bytes, lent, known }
    }

    /// Notes the call that is about to be made.
    fn under_way(&self, kind: Kind) {
        touched::under_way(self.seed, self.part, self.calls + 1, kind);
    }

    /// Every code point alone, over alphabets by which each place of the folding tells.
    fn folding(&mut self) {
        for trial in folding_trials() {
            let image = self.image(trial.draft.image());
            for point in trial.points {
                self.spelled(&image, &point_bytes(&[point]), 1);
            }
        }
    }

    /// A word and a path with more readings than two bytes count, in buffers of about 65,536 rows and of about all.
    fn many_readings(&mut self) {
        let Many { draft, word, path } = grammars::many_readings(&mut self.prng);
        let image = self.image(draft.image());
        let budget = || Budget::of(1_000_000);
        let listings = [
            (
                Kind::Analyse,
                "word",
                &word,
                calls::analyse_within(budget(), &image.known, &word),
            ),
            (
                Kind::Generate,
                "path",
                &path,
                calls::generate_within(budget(), &image.known, &path),
            ),
        ];
        for (kind, name, given, readings) in listings {
            let all = readings.as_ref().map_or(0, Vec::len);
            let few = self.prng.one_of(&[65_535, 65_537]);
            let most = all + self.prng.below(2);
            for rows in [65_536, few, most] {
                if !self.over() {
                    let length = rows * ROW + self.prng.one_of(&[0, 1, 115]);
                    self.listed(&image, kind, name, given, &readings, length);
                }
            }
        }
    }

    /// More words than two bytes count, all refused but the last.
    fn most_words(&mut self) {
        let image = self.image(Draft::luz().image());
        let count = 65_536 + self.prng.below(3);
        let mut words = vec![0; RECORD * (count - 1)];
        words.extend(record(&mut self.prng, &[5, 7, 8]));
        let asked = Asked {
            words,
            places: PLACE * count,
            rows: ROW * count,
        };
        self.answered(&image, &asked);
    }

    /// One grammar: calls on its image, then on damaged ones.
    fn grammar(&mut self, draft: &Draft) {
        let image = self.image(draft.image());
        let pool = Pool::of(&mut self.prng, &image.known);
        let accepted = image.known.is_ok();
        let big = image.bytes.len() > 40 * BLOCK;
        let turns = match (accepted, big) {
            (false, _) => 3,
            (true, true) => 20,
            (true, false) => 30,
        };
        for _ in 0..turns {
            self.any_call(&image, &pool);
        }
        let damages = if big { 4 } else { 14 };
        for _ in 0..damages {
            let weights = DAMAGES.map(|(weight, _)| weight);
            let Damaged {
                image: bytes,
                refusal,
            } = match DAMAGES[self.prng.weighted(&weights)].1 {
                Some(k) => damaged(&mut self.prng, draft, k),
                None => damaged_often(&mut self.prng, draft),
            };
            let image = self.image(bytes);
            let found = image.known.as_ref().err().copied().unwrap_or(0);
            if accepted && refusal.is_some_and(|wanted| wanted != found) {
                println!(
                    "seed {}: an image made for refusal {refusal:?} gets {found}",
                    self.seed
                );
                println!("image {}", hex(&image.bytes));
                exit(4);
            }
            for _ in 0..self.prng.between(1, 2) {
                self.any_call(&image, &pool);
            }
        }
    }

    fn any_call(&mut self, image: &Image, pool: &Pool) {
        if self.over() {
            return;
        }
        let weights = if image.known.is_ok() {
            [34, 22, 2, 4, 19, 5, 9, 8, 24, 12]
        } else {
            [15, 16, 16, 5, 14, 14, 10, 10, 10, 12]
        };
        match self.prng.weighted(&weights) {
            0 => self.analyse(image, pool),
            1 => self.generate(image, pool),
            2 => self.check(image),
            3 => self.seal(image),
            4 => self.judge(image, pool),
            5 => self.form(image),
            6 => self.spell(image),
            7 => self.words(image, pool),
            9 => self.convert(image, pool),
            _ => self.rules(image, pool),
        }
    }

    /// Calls analysis with many words, of which a few are unlike.
    fn words(&mut self, image: &Image, pool: &Pool) {
        let unlike = self.prng.between(1, 4);
        let words: Vec<Vec<u8>> = (0..unlike)
            .map(|_| match &image.known {
                Ok(grammar) => pool.word(&mut self.prng, grammar),
                Err(_) => any_word(&mut self.prng),
            })
            .collect();
        let asked = asked(&mut self.prng, &words);
        self.answered(image, &asked);
    }

    /// One call with many words.
    fn answered(&mut self, image: &Image, asked: &Asked) {
        let Asked {
            words,
            places,
            rows,
        } = asked;
        let before = (self.prng.bytes(*places), self.prng.bytes(*rows));
        let mut expected = before.clone();
        let Ok(reply) = calls::words_reply(&image.known, words, &mut expected.0, &mut expected.1)
        else {
            self.skipped += 1;
            return;
        };
        let lent = Lent::new(&mut self.prng, words);
        let mut replies = Lent::new(&mut self.prng, &before.0);
        let mut rows = Lent::new(&mut self.prng, &before.1);
        self.under_way(Kind::Words);
        let got = library::analyse_words(&image.lent, &lent, &mut replies, &mut rows);
        self.compared(Outcome {
            kind: Kind::Words,
            given: &[("image", &image.bytes), ("words", words)],
            entry: None,
            reply: (reply, got),
            written: &[
                ("replies", &before.0, &expected.0, &replies),
                ("rows", &before.1, &expected.1, &rows),
            ],
            kept: &[
                ("image", &image.bytes, &image.lent),
                ("words", words, &lent),
            ],
        });
        if image.known.is_ok() {
            self.tally.count_words(words, &expected.0, before.1.len());
        }
    }

    /// Calls analysis with one word and one or two buffers.
    fn analyse(&mut self, image: &Image, pool: &Pool) {
        let word = match &image.known {
            Ok(grammar) => pool.word(&mut self.prng, grammar),
            Err(_) => any_word(&mut self.prng),
        };
        let readings = calls::analyse(&image.known, &word);
        self.listing(image, Kind::Analyse, "word", &word, readings);
    }

    /// Calls generation with one path and one or two buffers.
    fn generate(&mut self, image: &Image, pool: &Pool) {
        let path = match &image.known {
            Ok(grammar) => pool.path_given(&mut self.prng, grammar),
            Err(_) => {
                let length = self.prng.one_of(&[0, 1, 2, 4, 34]);
                vec![0; length]
            }
        };
        let readings = calls::generate(&image.known, &path);
        self.listing(image, Kind::Generate, "path", &path, readings);
    }

    fn listing(
        &mut self,
        image: &Image,
        kind: Kind,
        name: &str,
        given: &[u8],
        readings: Result<Vec<Reading>, Stop>,
    ) {
        let buffers = match &readings {
            Err(Stop::TooBig) => {
                self.skipped += 1;
                return;
            }
            Err(Stop::Refused(_)) => 1,
            Ok(readings) if readings.is_empty() => 1,
            Ok(_) => self.prng.between(1, 2),
        };
        for _ in 0..buffers {
            if self.over() {
                return;
            }
            let length = match &readings {
                Ok(readings) => room(&mut self.prng, readings.len()),
                Err(_) => any_room(&mut self.prng),
            };
            self.listed(image, kind, name, given, &readings, length);
        }
    }

    /// One listing into a buffer of this length.
    fn listed(
        &mut self,
        image: &Image,
        kind: Kind,
        name: &str,
        given: &[u8],
        readings: &Result<Vec<Reading>, Stop>,
        length: usize,
    ) {
        let before = self.prng.bytes(length);
        let mut expected = before.clone();
        let reply = match readings {
            Ok(readings) => list(readings, &mut expected),
            Err(Stop::Refused(k)) => refused(*k),
            Err(Stop::TooBig) => unreachable!("such a call is skipped, or has budget enough"),
        };
        let lent = Lent::new(&mut self.prng, given);
        let mut rows = Lent::new(&mut self.prng, &before);
        self.under_way(kind);
        let got = if kind == Kind::Analyse {
            library::analyse(&image.lent, &lent, &mut rows)
        } else {
            library::generate(&image.lent, &lent, &mut rows)
        };
        self.compared(Outcome {
            kind,
            given: &[("image", &image.bytes), (name, given)],
            entry: None,
            reply: (reply, got),
            written: &[("rows", &before, &expected, &rows)],
            kept: &[("image", &image.bytes, &image.lent), (name, given, &lent)],
        });
        if let (Ok(grammar), Ok(readings)) = (&image.known, readings) {
            let written = readings.len().min(length / ROW);
            self.tally.count_limits(kind, grammar, &readings[..written]);
        }
    }

    fn check(&mut self, image: &Image) {
        self.under_way(Kind::Check);
        let got = library::check(&image.lent);
        self.compared(Outcome {
            kind: Kind::Check,
            given: &[("image", &image.bytes)],
            entry: None,
            reply: (calls::check_reply(&image.known), got),
            written: &[],
            kept: &[("image", &image.bytes, &image.lent)],
        });
    }

    /// Calls sealing on the image, on one with wrong numbers and checks, or on any bytes.
    fn seal(&mut self, image: &Image) {
        let prng = &mut self.prng;
        let mut before = image.bytes.clone();
        match prng.below(4) {
            0 => {}
            1 => {
                for block in before.chunks_exact_mut(BLOCK) {
                    for at in [0, 1, 510, 511] {
                        block[at] = prng.below(256) as u8;
                    }
                }
            }
            2 => {
                let blocks = if prng.percent(5) {
                    128
                } else {
                    prng.between(1, 6)
                };
                before = prng.bytes(blocks * BLOCK);
            }
            _ => {
                let length = prng.one_of(&[0, 1, 511, 512, 513, 1_024, 66_048, 65_537]);
                before = vec![255; length];
            }
        }
        let mut expected = before.clone();
        let reply = calls::seal_reply(&mut expected);
        let mut lent = Lent::new(prng, &before);
        self.under_way(Kind::Seal);
        let got = library::seal(&mut lent);
        self.compared(Outcome {
            kind: Kind::Seal,
            given: &[],
            entry: None,
            reply: (reply, got),
            written: &[("image", &before, &expected, &lent)],
            kept: &[],
        });
    }

    fn judge(&mut self, image: &Image, pool: &Pool) {
        let prng = &mut self.prng;
        let (path, pairing) = match &image.known {
            Ok(grammar) => pool.judged(prng, grammar),
            Err(_) => {
                let path = prng.one_of(&[0, 1, 2, 34]);
                let pairing = prng.one_of(&[0, 1, 3, 41]);
                (vec![0; path], vec![0; pairing])
            }
        };
        let reply = calls::judge_reply(&image.known, &path, &pairing);
        let lent_path = Lent::new(prng, &path);
        let lent_pairing = Lent::new(prng, &pairing);
        self.under_way(Kind::Judge);
        let got = library::judge(&image.lent, &lent_path, &lent_pairing);
        self.compared(Outcome {
            kind: Kind::Judge,
            given: &[
                ("image", &image.bytes),
                ("path", &path),
                ("pairing", &pairing),
            ],
            entry: None,
            reply: (reply, got),
            written: &[],
            kept: &[
                ("image", &image.bytes, &image.lent),
                ("path", &path, &lent_path),
                ("pairing", &pairing, &lent_pairing),
            ],
        });
    }

    /// Calls the judge of rules, with a pairing as the other judge gets it or with any pairs.
    fn rules(&mut self, image: &Image, pool: &Pool) {
        let prng = &mut self.prng;
        let known = &image.known;
        let Ok(grammar) = known else {
            let length = prng.one_of(&[0, 1, 3, 41]);
            let text = any_rules(prng);
            self.ruled(image, &vec![0; length], &text);
            return;
        };
        let pairing = if prng.percent(45) {
            pool.judged(prng, grammar).1
        } else {
            any_pairing(prng, grammar)
        };
        let RuleText { text, fault } = rules_given(prng, known, grammar, &pairing);
        let reply = self.ruled(image, &pairing, &text);
        if reply == refused(13) {
            return;
        }
        let judged = Judged {
            grammar,
            pairing: &pairing,
            text: &text,
            fault,
            reply,
        };
        if let Some(wanted) = judged.wanted_in_vain() {
            let (seed, got) = (self.seed, spoken(reply));
            println!("seed {seed}: rules made for {wanted} get {got}");
            println!("image {}", hex(&image.bytes));
            println!("text {}", hex(&text));
            exit(4);
        }
        self.tally.count_rules(&judged);
    }

    /// One call of the judge of rules, and its reply.
    fn ruled(&mut self, image: &Image, pairing: &[u8], text: &[u8]) -> u64 {
        let reply = calls::judge_rules_reply(&image.known, pairing, text);
        let lent_pairing = Lent::new(&mut self.prng, pairing);
        let lent_text = Lent::new(&mut self.prng, text);
        self.under_way(Kind::Rules);
        let got = library::judge_rules(&image.lent, &lent_pairing, &lent_text);
        self.compared(Outcome {
            kind: Kind::Rules,
            given: &[
                ("image", &image.bytes),
                ("pairing", pairing),
                ("text", text),
            ],
            entry: None,
            reply: (reply, got),
            written: &[],
            kept: &[
                ("image", &image.bytes, &image.lent),
                ("pairing", pairing, &lent_pairing),
                ("text", text, &lent_text),
            ],
        });
        reply
    }

    fn form(&mut self, image: &Image) {
        let prng = &mut self.prng;
        let entries = image
            .known
            .as_ref()
            .map_or(3, |grammar| grammar.entries.len());
        let number = entry(prng, entries);
        let form = calls::form(&image.known, number).map_or(0, <[u8]>::len);
        let length = match prng.below(5) {
            0 => form,
            1 => form.saturating_sub(1),
            2 => form + 1,
            3 => prng.below(16),
            _ => 12,
        };
        let before = prng.bytes(length);
        let mut expected = before.clone();
        let reply = calls::form_reply(&image.known, number, &mut expected);
        let mut letters = Lent::new(prng, &before);
        self.under_way(Kind::Form);
        let got = library::form(&image.lent, number as library::EntryNumber, &mut letters);
        self.compared(Outcome {
            kind: Kind::Form,
            given: &[("image", &image.bytes)],
            entry: Some(number),
            reply: (reply, got),
            written: &[("letters", &before, &expected, &letters)],
            kept: &[("image", &image.bytes, &image.lent)],
        });
    }

    /// Calls spelling with code points that are mostly letters, or capitals of letters, and one or two outputs.
    fn spell(&mut self, image: &Image) {
        let Ok(grammar) = &image.known else {
            let points = any_points(&mut self.prng);
            let room = letters_room(&mut self.prng, points.len() / 2);
            return self.spelled(image, &points, room);
        };
        let points = points_given(&mut self.prng, grammar);
        for _ in 0..self.prng.between(1, 2) {
            if self.over() {
                return;
            }
            let room = letters_room(&mut self.prng, points.len() / 2);
            self.spelled(image, &points, room);
            self.tally.count_spelling(grammar, &points, room);
        }
    }

    /// One spelling into so many bytes.
    fn spelled(&mut self, image: &Image, points: &[u8], room: usize) {
        let before = self.prng.bytes(room);
        let mut expected = before.clone();
        let reply = calls::spell_reply(&image.known, points, &mut expected);
        let lent = Lent::new(&mut self.prng, points);
        let mut letters = Lent::new(&mut self.prng, &before);
        self.under_way(Kind::Spell);
        let got = library::spell(&image.lent, &lent, &mut letters);
        self.compared(Outcome {
            kind: Kind::Spell,
            given: &[("image", &image.bytes), ("points", points)],
            entry: None,
            reply: (reply, got),
            written: &[("letters", &before, &expected, &letters)],
            kept: &[
                ("image", &image.bytes, &image.lent),
                ("points", points, &lent),
            ],
        });
    }

    /// Counts a call whose outcome is the same on both sides, and ends the run at any other.
    fn compared(&mut self, outcome: Outcome) {
        self.calls += 1;
        let mut faults = Vec::new();
        if outcome.reply.0 != outcome.reply.1 {
            faults.push("the replies differ".to_string());
        }
        for (name, _, expected, lent) in outcome.written {
            if lent.bytes() != *expected {
                faults.push(format!("the {name} differ"));
            }
            if !lent.rest_kept() {
                faults.push(format!("bytes outside the {name} are changed"));
            }
        }
        for (name, bytes, lent) in outcome.kept {
            if lent.bytes() != *bytes {
                faults.push(format!("the {name} lent to be read is changed"));
            }
            if !lent.rest_kept() {
                faults.push(format!("bytes outside the {name} are changed"));
            }
        }
        if faults.is_empty() {
            self.tally.count(outcome.kind, outcome.reply.0);
            return;
        }
        println!(
            "seed {} {} {} {}: {}",
            self.seed,
            self.part,
            self.calls,
            outcome.kind.name(),
            faults.join("; ")
        );
        for (name, bytes) in outcome.given {
            println!("{name} ({} bytes) {}", bytes.len(), hex(bytes));
        }
        if let Some(entry) = outcome.entry {
            println!("entry {entry}");
        }
        println!(
            "reply, engine {} library {}",
            spoken(outcome.reply.0),
            spoken(outcome.reply.1)
        );
        for (name, before, expected, lent) in outcome.written {
            let part = shown(expected, lent.bytes());
            println!("{name} ({} bytes), from byte {}", before.len(), part.start);
            println!("{name}, before  {}", hex(&before[part.clone()]));
            println!("{name}, engine  {}", hex(&expected[part.clone()]));
            println!("{name}, library {}", hex(&lent.bytes()[part]));
        }
        for (name, bytes, lent) in outcome.kept {
            if lent.bytes() != *bytes {
                println!("{name} after, library {}", hex(lent.bytes()));
            }
        }
        exit(1);
    }
}

fn hex(bytes: &[u8]) -> String {
    bytes.iter().map(|byte| format!("{byte:02x}")).collect()
}

/// The part to be shown where two ranges of one length differ: all, or of a long one some rows from the first difference on.
fn shown(one: &[u8], other: &[u8]) -> Range<usize> {
    const LONG: usize = 128 * BLOCK;
    if one.len() <= LONG {
        return 0..one.len();
    }
    let equal = one.iter().zip(other).take_while(|(a, b)| a == b).count();
    equal..one.len().min(equal + 4 * ROW)
}

/// A reply as its number, and as four times something and a rest.
fn spoken(reply: u64) -> String {
    format!("{reply} (4 * {} + {})", reply / 4, reply % 4)
}
