//! Points, turns and areas in whole numbers.
use crate::math::Vector;

pub type Point = (i64, i64);

/// Above 0 where a, b, c turn left, below 0 where they turn right.
pub fn turn(a: Point, b: Point, c: Point) -> i64 {
    (b.0 - a.0) * (c.1 - a.1) - (b.1 - a.1) * (c.0 - a.0)
}

/// The doubled area of an outline, by the trapezoids between its edges and the line y = 0: below 0 where it goes clockwise.
pub fn area2(points: &[Point]) -> i64 {
    let next = points.iter().cycle().skip(1);
    points.iter().zip(next).map(|(a, b)| (a.0 - b.0) * (a.1 + b.1)).sum()
}

/// Whether p is on the segment from a to b: whether the way over p is as long as the segment. Of the squared lengths u, v and w that is to say that
/// 2 times the root of u v is w - u - v.
fn on_segment(p: Point, a: Point, b: Point) -> bool {
    let squared = |s: Point, t: Point| (s.0 - t.0).pow(2) + (s.1 - t.1).pow(2);
    let (u, v, w) = (squared(a, p), squared(p, b), squared(a, b));
    u + v <= w && 4 * u * v == (w - u - v).pow(2)
}

/// Whether p is on some edge of an outline, ends counted.
pub fn on_border(p: Point, points: &[Point]) -> bool {
    let next = points.iter().cycle().skip(1);
    points.iter().zip(next).any(|(&a, &b)| on_segment(p, a, b))
}

/// Points of the grid.
pub fn whole(points: &[Vector]) -> Vec<Point> {
    points.iter().map(|p| (p.x as i64, p.y as i64)).collect()
}
