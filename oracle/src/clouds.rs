//! Clouds of points on the grid: at random, and those of the benchmark.
use crate::random::Random;
use crate::shapes::Outline;
use std::f64::consts::TAU;

fn square(r: &mut Random, n: usize, size: i32) -> Outline {
    (0..n).map(|_| (r.within(-size, size), r.within(-size, size))).collect()
}

/// In a square of one of several sizes.
pub fn some_square(r: &mut Random, n: usize) -> Outline {
    let size = [1, 2, 3, 10, 1024][r.below(5)];
    square(r, n, size)
}

fn circle(r: &mut Random, n: usize) -> Outline {
    let radius = (1 + r.below(1024)) as f64;
    let at = |angle: f64| ((radius * angle.cos()).round() as i32, (radius * angle.sin()).round() as i32);
    (0..n).map(|_| at(TAU * r.below(1 << 20) as f64 / f64::from(1 << 20))).collect()
}

/// A small square drawn large and slanted, so that many points are on one line.
fn slanted(r: &mut Random, n: usize) -> Outline {
    let size = 1 + r.below(6) as i32;
    let most = 512 / size;
    let steps = square(r, 2, most);
    let ((a, b), (c, d)) = (steps[0], steps[1]);
    square(r, n, size).into_iter().map(|(x, y)| (a * x + c * y, b * x + d * y)).collect()
}

/// On one line, at times but for one point.
fn line(r: &mut Random, n: usize) -> Outline {
    let size = 1 + r.below(6) as i32;
    let ((x, y), (a, b)) = (square(r, 1, 511)[0], square(r, 1, 512 / size)[0]);
    let mut points: Outline = (0..n).map(|_| r.within(-size, size)).map(|k| (x + k * a, y + k * b)).collect();
    if n > 0 && r.below(2) == 0 {
        points[r.below(n)].0 += r.within(-1, 1);
    }
    points
}

/// A few points, each given often.
fn repeated(r: &mut Random, n: usize) -> Outline {
    let few = 1 + r.below(8);
    let points = some_square(r, few);
    (0..n).map(|_| points[r.below(few)]).collect()
}

/// One of these.
pub fn random(r: &mut Random, n: usize) -> Outline {
    match r.below(8) {
        0 => circle(r, n),
        1 => slanted(r, n),
        2 => line(r, n),
        3 => repeated(r, n),
        _ => some_square(r, n),
    }
}

/// Points of a square, the same at each call.
pub fn cloud(n: usize) -> Outline {
    square(&mut Random::new(1), n, 1000)
}
