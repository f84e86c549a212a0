//! Points, boxes and Bézier curves of a picture.

use std::rc::Rc;

#[derive(Clone, Copy, Debug, PartialEq)]
pub struct Point {
    pub x: f64,
    pub y: f64,
}

pub fn point(x: f64, y: f64) -> Point {
    Point { x, y }
}

/// The point a share `t` of the way from one to the other.
fn between(one: Point, other: Point, t: f64) -> Point {
    point(one.x + t * (other.x - one.x), one.y + t * (other.y - one.y))
}

fn distance(one: Point, other: Point) -> f64 {
    (one.x - other.x).hypot(one.y - other.y)
}

/// A rectangle by its middle.
#[derive(Clone, Copy, Debug)]
pub struct Area {
    pub middle: Point,
    pub width: f64,
    pub height: f64,
}

impl Area {
    pub fn has(self, at: Point) -> bool {
        2.0 * (at.x - self.middle.x).abs() < self.width && 2.0 * (at.y - self.middle.y).abs() < self.height
    }

    pub fn meets(self, other: Area) -> bool {
        let both = Area { width: self.width + other.width, height: self.height + other.height, ..self };
        both.has(other.middle)
    }
}

/// A cubic Bézier curve: where it begins, the two points that it is drawn to, and where it ends.
#[derive(Clone, Copy, Debug)]
pub struct Curve(pub [Point; 4]);

impl Curve {
    pub fn line(from: Point, to: Point) -> Curve {
        Curve([from, between(from, to, 1.0 / 3.0), between(from, to, 2.0 / 3.0), to])
    }

    pub fn at(self, t: f64) -> Point {
        self.before(t).0[3]
    }

    /// The part up to `t`, by de Casteljau's construction.
    fn before(self, t: f64) -> Curve {
        let [a, b, c, d] = self.0;
        let (ab, bc, cd) = (between(a, b, t), between(b, c, t), between(c, d, t));
        let (abc, bcd) = (between(ab, bc, t), between(bc, cd, t));
        Curve([a, ab, abc, between(abc, bcd, t)])
    }

    fn reversed(self) -> Curve {
        let [a, b, c, d] = self.0;
        Curve([d, c, b, a])
    }

    /// Without the parts that lie within `first` of its beginning and `last` of its end.
    pub fn clipped(self, first: f64, last: f64) -> Curve {
        let (start, end) = (self.leaves(first), 1.0 - self.reversed().leaves(last));
        self.before(end).reversed().before(1.0 - start / end).reversed()
    }

    /// How far along it first is `radius` from its beginning.
    fn leaves(self, radius: f64) -> f64 {
        let steps = 400;
        let far = |step: &i32| distance(self.at(f64::from(*step) / f64::from(steps)), self.0[0]) >= radius;
        f64::from((0..=steps).find(far).unwrap_or(0)) / f64::from(steps)
    }

    pub fn points(self) -> Rc<[Point]> {
        (0..=48).map(|step| self.at(f64::from(step) / 48.0)).collect()
    }
}

#[cfg(test)]
mod tests {
    use super::{distance, point, Curve};

    #[test]
    fn a_clipped_curve_begins_and_ends_at_the_rings() {
        let curve = Curve([point(0.0, 0.0), point(10.0, -80.0), point(90.0, -80.0), point(100.0, 0.0)]);
        let clipped = curve.clipped(18.0, 25.0);
        assert!((distance(clipped.0[0], curve.0[0]) - 18.0).abs() < 1.0, "{clipped:?}");
        assert!((distance(clipped.0[3], curve.0[3]) - 25.0).abs() < 1.0, "{clipped:?}");
        assert!(distance(clipped.at(0.5), curve.at(0.5)) < 3.0);
    }
}
