//! Where everything stands in a rule's picture: the states in a row, arcs to later states above it, to earlier ones below.

use super::arcs::Shown;
use super::curve::{point, Area, Curve, Point};
use std::rc::Rc;

/// The inner ring of a state; a final one has another, this much wider.
pub const RADIUS: f64 = 17.0;
pub const RING: f64 = 4.0;
/// What a character of a label, and a line of it, takes up.
pub const CHARACTER: f64 = 7.3;
pub const LINE: f64 = 15.0;
/// The length of an arrowhead.
pub const HEAD: f64 = 9.0;
/// Characters in a line of a label, where it has several columns.
const WRAP: usize = 15;

pub struct Picture {
    /// The state's number and where it stands; failure, 0, is last where it is shown.
    pub states: Vec<(usize, f64)>,
    pub arcs: Vec<DrawnArc>,
}

pub struct DrawnArc {
    pub from: usize,
    pub to: usize,
    /// From ring to arrowhead.
    pub curve: Curve,
    /// Points of the curve, close to each other.
    pub points: Rc<[Point]>,
    pub label: Vec<String>,
    pub area: Area,
}

/// The names of columns, several to a line.
pub fn wrap(names: &[String]) -> Vec<String> {
    let mut lines: Vec<String> = Vec::new();
    for name in names {
        match lines.last_mut().filter(|line| line.chars().count() + 1 + name.chars().count() <= WRAP) {
            Some(line) => *line += &format!(" {name}"),
            None => lines.push(name.clone()),
        }
    }
    lines
}

/// An arc that has no place yet: the places of its states in the row, and its label.
struct Waiting {
    from: usize,
    to: usize,
    label: Vec<String>,
}

impl Waiting {
    /// An arc to the next state is a straight line.
    fn is_straight(&self) -> bool {
        self.to == self.from + 1
    }

    fn span(&self) -> usize {
        self.from.abs_diff(self.to)
    }

    fn area(&self, middle: Point) -> Area {
        let characters = self.label.iter().map(|line| line.chars().count()).max().unwrap_or(0);
        let (width, height) = (CHARACTER * characters as f64 + 6.0, LINE * self.label.len() as f64);
        Area { middle, width, height }
    }
}

pub fn picture(shown: &Shown, failures: bool) -> Picture {
    let mut waiting = waiting(shown, failures);
    let count = shown.states.len() + usize::from(failures);
    let at = row(count, &waiting);
    // Short arcs first, so that long ones go round them.
    waiting.sort_by_key(|arc| (!arc.is_straight(), arc.span()));
    let mut placed: Vec<DrawnArc> = Vec::new();
    for arc in waiting {
        if let Some(Way { curve, points, area, .. }) = cheapest(candidates(&arc, &at), &placed, &at) {
            let number = |place: usize| if place == shown.states.len() { 0 } else { place + 1 };
            let (from, to) = (number(arc.from), number(arc.to));
            placed.push(DrawnArc { from, to, curve, points, label: arc.label, area });
        }
    }
    let numbers = (1..=shown.states.len()).chain(failures.then_some(0));
    Picture { states: numbers.zip(at).collect(), arcs: placed }
}

fn waiting(shown: &Shown, failures: bool) -> Vec<Waiting> {
    let mut waiting = Vec::new();
    for (from, state) in shown.states.iter().enumerate() {
        for arc in state.arcs.iter().filter(|arc| failures || arc.to != 0) {
            let to = arc.to.checked_sub(1).unwrap_or(shown.states.len());
            waiting.push(Waiting { from, to, label: wrap(&shown.labels(arc)) });
        }
    }
    waiting
}

/// Where the states stand: far enough apart for the labels between them.
fn row(count: usize, waiting: &[Waiting]) -> Vec<f64> {
    let mut at = vec![0.0];
    for place in 1..count {
        let near = |arc: &&Waiting| arc.from.min(arc.to) + 1 == place && arc.from.max(arc.to) == place;
        let widths = waiting.iter().filter(near).map(|arc| arc.area(point(0.0, 0.0)).width);
        let gap = widths.fold(40.0, f64::max) + 2.0 * (RADIUS + RING) + HEAD + 16.0;
        at.push(at[place - 1] + gap);
    }
    at
}

/// A way to draw an arc.
struct Way {
    curve: Curve,
    points: Rc<[Point]>,
    area: Area,
    /// What it costs by itself.
    cost: f64,
}

fn candidates(arc: &Waiting, at: &[f64]) -> Vec<Way> {
    let (from, to) = (point(at[arc.from], 0.0), point(at[arc.to], 0.0));
    let ends = (RADIUS + RING, RADIUS + RING + HEAD);
    let height = arc.area(from).height;
    if arc.is_straight() {
        let curve = Curve::line(from, to).clipped(ends.0, ends.1);
        let area = arc.area(point(curve.at(0.5).x, -4.0 - height / 2.0));
        return vec![Way { curve, points: curve.points(), area, cost: 0.0 }];
    }
    let mut ways = Vec::new();
    for step in 0..40 {
        let rise = 12.0 * f64::from(step);
        if arc.from == arc.to {
            let top = 78.0 + rise;
            let (left, right) = (point(from.x - 36.0, -top), point(from.x + 36.0, -top));
            let curve = Curve([from, left, right, to]).clipped(ends.0, ends.1);
            let area = arc.area(point(from.x, -0.75 * top - 2.0 - height / 2.0));
            ways.push(Way { curve, points: curve.points(), area, cost: rise });
            continue;
        }
        let reach = (to.x - from.x).abs();
        let top = 34.0 + 0.1 * reach + rise;
        let side = if arc.from < arc.to { -1.0 } else { 1.0 };
        let lean = (0.3 * reach).min(0.9 * top) * (to.x - from.x).signum();
        let drawn = 4.0 / 3.0 * top * side;
        let whole = Curve([from, point(from.x + lean, drawn), point(to.x - lean, drawn), to]);
        let curve = whole.clipped(ends.0, ends.1);
        let points = curve.points();
        for aside in [0.0, 0.06, -0.06, 0.12, -0.12, 0.18, -0.18, 0.24, -0.24] {
            let area = arc.area(whole.at(0.5 + aside));
            ways.push(Way { curve, points: points.clone(), area, cost: rise + 60.0 * f64::abs(aside) });
        }
    }
    ways
}

fn cheapest(ways: Vec<Way>, placed: &[DrawnArc], at: &[f64]) -> Option<Way> {
    let mut best = None;
    let mut least = f64::INFINITY;
    for way in ways {
        let cost = cost(&way, placed, at, least);
        if cost < least {
            least = cost;
            best = Some(way);
        }
    }
    best
}

/// What a way costs beside the arcs that have their places: labels over each other most, then lines through labels or
/// states. Where that is too much, counting ends.
fn cost(way: &Way, placed: &[DrawnArc], at: &[f64], most: f64) -> f64 {
    let wide = |area: Area| Area { width: area.width + 4.0, height: area.height + 4.0, ..area };
    let inside = |points: &[Point], area: Area| points.iter().filter(|&&at| area.has(at)).count() as f64;
    let ring = 2.0 * (RADIUS + RING) + 6.0;
    let mut cost = way.cost;
    for &x in at {
        let state = Area { middle: point(x, 0.0), width: ring, height: ring };
        cost += 40.0 * (inside(&way.points, state) - 2.0).max(0.0) + if state.meets(way.area) { 800.0 } else { 0.0 };
    }
    for other in placed {
        if cost >= most {
            return cost;
        }
        let label = wide(other.area);
        cost += if label.meets(way.area) { 2000.0 } else { 0.0 };
        cost += 25.0 * (inside(&way.points, label) + inside(&other.points, wide(way.area)));
    }
    cost
}

#[cfg(test)]
mod tests {
    use super::wrap;

    #[test]
    fn names_of_columns_stand_several_to_a_line() {
        let names = ["a:a", "e:e", "i:i", "o:o", "CPos:@"].map(String::from);
        assert_eq!(wrap(&names), ["a:a e:e i:i o:o", "CPos:@"]);
        assert_eq!(wrap(&[]), [""; 0]);
    }
}
