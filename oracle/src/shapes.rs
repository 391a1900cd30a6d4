//! Outlines on the grid, counter-clockwise, by their number of corners.
use crate::plane::{area2, Point};
use std::f64::consts::TAU;

pub type Outline = Vec<(i32, i32)>;

pub const KINDS: [(&str, fn(usize) -> Outline); 5] =
    [("convex", convex), ("star", star), ("comb", comb), ("spiral", spiral), ("cover", cover)];

pub fn coords(outline: &[(i32, i32)]) -> Vec<f32> {
    outline.iter().flat_map(|&(x, y)| [x as f32, y as f32]).collect()
}

/// The other way round where the area is below 0.
pub fn counter_clockwise(mut outline: Outline) -> Outline {
    let points: Vec<Point> = outline.iter().map(|&(x, y)| (x.into(), y.into())).collect();
    if area2(&points) < 0 {
        outline.reverse();
    }
    outline
}

/// The corners of the grid 128 times, with its right side at `right`, which is 1024, or -1024 for clockwise: no doubled area is larger in size.
pub fn round_the_grid(right: i32) -> Outline {
    [(-right, -1024), (right, -1024), (right, 1024), (-right, 1024)].repeat(128)
}

fn polar(n: usize, radius: impl Fn(usize, f64) -> f64) -> Outline {
    (0..n)
        .map(|i| {
            let angle = TAU * i as f64 / n as f64;
            let r = radius(i, angle);
            ((r * angle.cos()).round() as i32, (r * angle.sin()).round() as i32)
        })
        .collect()
}

pub fn convex(n: usize) -> Outline {
    polar(n, |_, _| 1000.0)
}

pub fn star(n: usize) -> Outline {
    polar(n, |i, _| if i % 2 == 0 { 1000.0 } else { 700.0 })
}

/// Two corners below, and teeth from the right to the left.
pub fn comb(n: usize) -> Outline {
    let mut outline = vec![(-1020, -1020), (1020, -1020)];
    let teeth = n as i32 - 2;
    outline.extend((0..teeth).map(|i| (1020 - 2040 * i / (teeth - 1), if i % 2 == 0 { 900 } else { -900 })));
    outline
}

/// Out along one arm and back beside it, in as many turns as the corners allow, at most two and a half.
pub fn spiral(n: usize) -> Outline {
    let half = n / 2;
    let turns = (half as f64 / 12.0).min(2.5);
    let arm = |i: usize, shift: f64| {
        let angle = turns * TAU * i as f64 / half as f64;
        let r = 200.0 + 300.0 * angle / TAU - shift;
        ((r * angle.cos()).round() as i32, (r * angle.sin()).round() as i32)
    };
    let mut outline: Outline = (0..half).map(|i| arm(i, 0.0)).collect();
    outline.extend((0..n - half).rev().map(|i| arm(i, 120.0)));
    outline
}

/// A cover like a gasket's: a rectangle with round corners, and an ear at each of eight bolts.
pub fn cover(n: usize) -> Outline {
    polar(n, |_, angle| {
        let side = 1.0 / (angle.cos().abs() / 850.0).max(angle.sin().abs() / 550.0);
        let from_bolt = (angle / TAU * 8.0 + 0.5).fract() - 0.5;
        side.min(900.0) + 90.0 * (1.0 - (from_bolt * 5.0).powi(2)).max(0.0)
    })
}

/// Convex, and no two edges go the same way: the shortest steps of the grid that are no multiple of a shorter one, each with its opposite, by
/// their angle. An odd number of corners is rounded down.
pub fn round(n: usize) -> Outline {
    let shortest = |x: i32, y: i32| (2..=20).all(|d| x % d != 0 || y % d != 0);
    let mut half: Outline = (-20..=20).flat_map(|x| (0..=20).map(move |y| (x, y))).filter(|&(x, y)| (y > 0 || x > 0) && shortest(x, y)).collect();
    half.sort_by_key(|&(x, y)| (x * x + y * y, x));
    half.truncate(n / 2);
    half.sort_by(|&(x, y), &(v, w)| f64::from(y).atan2(f64::from(x)).total_cmp(&f64::from(w).atan2(f64::from(v))));
    let across = half.iter().fold((0, 0), |(x, y), step| (x + step.0, y + step.1));
    let back: Outline = half.iter().map(|&(x, y)| (-x, -y)).collect();
    let corner = |at: &mut (i32, i32), (x, y): (i32, i32)| Some(std::mem::replace(at, (at.0 + x, at.1 + y)));
    half.into_iter().chain(back).scan((-across.0 / 2, -across.1 / 2), corner).collect()
}
