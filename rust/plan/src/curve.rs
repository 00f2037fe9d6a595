//! Points, frames and curves in the plane of a drawing; y grows downward.

#[derive(Clone, Copy, Debug, PartialEq)]
pub struct Point {
    pub x: f64,
    pub y: f64,
}

impl Point {
    pub fn new(x: f64, y: f64) -> Point {
        Point { x, y }
    }

    /// The point so far away in a direction, in radians.
    pub fn towards(self, angle: f64, distance: f64) -> Point {
        Point::new(
            self.x + distance * angle.cos(),
            self.y + distance * angle.sin(),
        )
    }

    pub fn plus(self, other: Point, times: f64) -> Point {
        Point::new(self.x + other.x * times, self.y + other.y * times)
    }

    pub fn minus(self, other: Point) -> Point {
        self.plus(other, -1.0)
    }

    pub fn length(self) -> f64 {
        self.x.hypot(self.y)
    }

    /// The point between two, at a share of the way.
    fn between(self, other: Point, share: f64) -> Point {
        self.plus(other.minus(self), share)
    }
}

/// A rectangle along the axes.
#[derive(Clone, Copy, Debug, PartialEq)]
pub struct Frame {
    pub left: f64,
    pub top: f64,
    pub width: f64,
    pub height: f64,
}

impl Frame {
    pub fn around(centre: Point, width: f64, height: f64) -> Frame {
        Frame {
            left: centre.x - width / 2.0,
            top: centre.y - height / 2.0,
            width,
            height,
        }
    }

    pub fn right(&self) -> f64 {
        self.left + self.width
    }

    pub fn bottom(&self) -> f64 {
        self.top + self.height
    }

    pub fn centre(&self) -> Point {
        Point::new(self.left + self.width / 2.0, self.top + self.height / 2.0)
    }

    pub fn grown(&self, by: f64) -> Frame {
        Frame::around(self.centre(), self.width + 2.0 * by, self.height + 2.0 * by)
    }

    pub fn contains(&self, point: Point) -> bool {
        (self.left..=self.right()).contains(&point.x)
            && (self.top..=self.bottom()).contains(&point.y)
    }

    pub fn overlaps(&self, other: &Frame) -> bool {
        self.left < other.right()
            && other.left < self.right()
            && self.top < other.bottom()
            && other.top < self.bottom()
    }

    /// The smallest frame around both.
    pub fn joined(&self, other: &Frame) -> Frame {
        let (left, top) = (self.left.min(other.left), self.top.min(other.top));
        let (right, bottom) = (
            self.right().max(other.right()),
            self.bottom().max(other.bottom()),
        );
        Frame {
            left,
            top,
            width: right - left,
            height: bottom - top,
        }
    }
}

/// A cubic Bézier curve.
#[derive(Clone, Copy, Debug, PartialEq)]
pub struct Curve(pub [Point; 4]);

/// How many pieces a curve is cut into to look along it.
const PIECES: usize = 64;

impl Curve {
    pub fn at(&self, t: f64) -> Point {
        self.cut(t).0 .0[3]
    }

    /// The parts before and after t (de Casteljau's construction).
    fn cut(&self, t: f64) -> (Curve, Curve) {
        let [a, b, c, d] = self.0;
        let (ab, bc, cd) = (a.between(b, t), b.between(c, t), c.between(d, t));
        let (abc, bcd) = (ab.between(bc, t), bc.between(cd, t));
        let middle = abc.between(bcd, t);
        (Curve([a, ab, abc, middle]), Curve([middle, bcd, cd, d]))
    }

    pub fn part(&self, from: f64, to: f64) -> Curve {
        let before = self.cut(to).0;
        before.cut(from / to).1
    }

    pub fn points(&self) -> Vec<Point> {
        (0..=PIECES)
            .map(|at| self.at(at as f64 / PIECES as f64))
            .collect()
    }

    /// The curve as a track.
    pub fn track(&self) -> Track {
        let points = self.points();
        let dots = points.iter().map(|&point| Frame::around(point, 0.0, 0.0));
        let around = dots.reduce(|all, dot| all.joined(&dot));
        Track {
            around: around.expect("a curve has points"),
            points,
        }
    }

    /// The part outside the frames that it comes from and goes to.
    pub fn outside(&self, from: &Frame, to: &Frame) -> Curve {
        let share = |at: usize| at as f64 / PIECES as f64;
        let inside = |frame: &Frame, at: usize| frame.contains(self.at(share(at)));
        let first = (1..PIECES).find(|&at| !inside(from, at)).unwrap_or(1);
        let last = (first..PIECES)
            .rev()
            .find(|&at| !inside(to, at))
            .unwrap_or(PIECES - 1);
        let begin = self.border(from, share(first - 1), share(first));
        let end = self.border(to, share(last + 1), share(last));
        self.part(begin, end)
    }

    /// Where the curve crosses a border, between a t inside and one outside.
    fn border(&self, frame: &Frame, mut inside: f64, mut outside: f64) -> f64 {
        for _ in 0..20 {
            let middle = (inside + outside) / 2.0;
            if frame.contains(self.at(middle)) {
                inside = middle;
            } else {
                outside = middle;
            }
        }
        outside
    }

    /// The direction in which the curve arrives, in radians.
    pub fn arrival(&self) -> f64 {
        let last = self.0[3].minus(self.at(0.97));
        last.y.atan2(last.x)
    }
}

/// The points along a curve, and the frame around them.
#[derive(Clone, Debug)]
pub struct Track {
    points: Vec<Point>,
    pub around: Frame,
}

impl Track {
    pub fn runs_through(&self, frame: &Frame) -> bool {
        self.around.overlaps(frame)
            && self.points.windows(2).any(|pair| {
                frame.contains(pair[0]) || frame.contains(pair[0].between(pair[1], 0.5))
            })
    }
}

#[cfg(test)]
mod tests {
    use super::*;

    #[test]
    fn a_part_lies_on_the_curve() {
        let points = [(0.0, 0.0), (10.0, 30.0), (40.0, -10.0), (50.0, 20.0)];
        let curve = Curve(points.map(|(x, y)| Point::new(x, y)));
        let part = curve.part(0.25, 0.75);
        for (inner, outer) in [(0.0, 0.25), (0.5, 0.5), (1.0, 0.75)] {
            assert!(part.at(inner).minus(curve.at(outer)).length() < 1e-9);
        }
    }

    #[test]
    fn outside_ends_at_the_borders() {
        let (from, to) = (Point::new(0.0, 0.0), Point::new(100.0, 0.0));
        let curve = Curve([from, from.between(to, 0.3), from.between(to, 0.7), to]);
        let frame = |centre| Frame::around(centre, 20.0, 20.0);
        let part = curve.outside(&frame(from), &frame(to));
        assert!((part.0[0].x - 10.0).abs() < 0.01 && (part.0[3].x - 90.0).abs() < 0.01);
    }
}
