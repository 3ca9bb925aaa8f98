//! Lines, and the points that they are held against. Every question is the sign of a whole number.

#[derive(Clone, Copy)]
pub struct Point {
    pub time: i64,
    pub value: i64,
}

impl Point {
    pub fn negated(self) -> Point {
        Point { value: -self.value, ..self }
    }
}

/// The line whose value at t is (p·t + q)/d, with d above 0.
#[derive(Clone, Copy)]
pub struct Line {
    pub p: i64,
    pub q: i64,
    pub d: i64,
}

/// The greatest common divisor, by Euclid's rule.
fn gcd(mut a: u64, mut b: u64) -> u64 {
    while b != 0 {
        (a, b) = (b, a % b);
    }
    a
}

impl Line {
    pub fn through(a: Point, b: Point) -> Line {
        Line { p: b.value - a.value, q: a.value * b.time - b.value * a.time, d: b.time - a.time }
    }

    /// Above 0 where the line is above the point, and 0 where it touches it.
    fn height_over(self, point: Point) -> i64 {
        self.p * point.time + self.q - self.d * point.value
    }

    pub fn is_above(self, point: Point) -> bool {
        0 < self.height_over(point)
    }

    pub fn reaches(self, point: Point) -> bool {
        0 <= self.height_over(point)
    }

    pub fn is_steeper_than(self, other: Line) -> bool {
        0 < self.p * other.d - other.p * self.d
    }

    /// Every value negated.
    pub fn negated(self) -> Line {
        Line { p: -self.p, q: -self.q, d: self.d }
    }

    /// The line with no common divisor above 1.
    pub fn reduced(self) -> Line {
        let shared = gcd(self.p.unsigned_abs(), self.q.unsigned_abs());
        let g = gcd(shared, self.d.unsigned_abs()) as i64;
        Line { p: self.p / g, q: self.q / g, d: self.d / g }
    }
}
