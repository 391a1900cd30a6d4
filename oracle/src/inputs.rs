//! The inputs on which both sides must agree, whatever is done with each: it is compared by a call, or written down with what must come back.
use crate::clouds;
use crate::expected::MOST;
use crate::lent::{bytes_of, bytes_of_floats};
use crate::random::Random;
use crate::shapes::{coords, counter_clockwise, Outline, KINDS};
use crate::slots;

pub trait Side {
    /// The written bytes, where the cut is accepted.
    fn cut(&mut self, coords: &[u8], room: usize) -> Option<Vec<u8>>;
    fn merge(&mut self, coords: &[u8], triangles: &[u8], room: usize, places: usize);
    /// Both point tests.
    fn ask(&mut self, x: f32, y: f32, coords: &[u8]);
    fn hull(&mut self, coords: &[u8], room: usize);
    /// The roots of so many radicands from the first on.
    fn roots(&mut self, first: u32, count: u32);
}

const FLOATS: [f32; 14] = [
    1024.0, -1024.0, 1025.0, -1025.0, 1024.5, 0.5, -0.0, 1.0e-45, -1.0e-40, f32::NAN, f32::INFINITY, f32::NEG_INFINITY, f32::MAX, 8388608.0,
];

const OUTLINES: usize = 1 + 9 + 81 + 729 + 6561;
const SETS: [[i32; 8]; 4] = [[0, 0, 2, 0, 2, 2, 0, 2], [0, 0, 4, 0, 1, 1, 0, 4], [0, 0, 1, 0, 2, 0, 3, 0], [1, 1, 1, 1, 0, 2, 2, 0]];
const LISTS: usize = SETS.len() * (1 + 125 + 15625);

/// How many short inputs there are.
pub const SHORT: usize = OUTLINES + LISTS;

/// All radicands, and some that are too large.
pub const ROOTS: u32 = MOST + 65;

/// The digits of number `i` among those to the base `base` of these lengths.
fn digits(mut i: usize, base: usize, lens: &[usize]) -> Vec<usize> {
    for &len in lens {
        let all = base.pow(len as u32);
        if i < all {
            return (0..len as u32).map(|k| i / base.pow(k) % base).collect();
        }
        i -= all;
    }
    unreachable!("there are not so many")
}

/// An outline of up to four corners on three by three points, cut, merged and asked at all points in and round it; and its hull.
fn short_outline(side: &mut impl Side, i: usize) {
    let outline: Outline = digits(i, 9, &[0, 1, 2, 3, 4]).into_iter().map(|d| ((d % 3) as i32, (d / 3) as i32)).collect();
    let bytes = bytes_of_floats(&coords(&outline));
    if let Some(triangles) = side.cut(&bytes, 12 * outline.len().saturating_sub(2)) {
        side.merge(&bytes, &triangles, triangles.len(), triangles.len() / 3);
    }
    for p in 0..25 {
        side.ask((p % 5) as f32 - 1.0, (p / 5) as f32 - 1.0, &bytes);
    }
    side.hull(&bytes, 4 * outline.len());
}

/// A list of up to two triangles over four points, and an index past them.
fn short_list(side: &mut impl Side, i: usize) {
    let bytes = bytes_of_floats(&SETS[i % SETS.len()].map(|c| c as f32));
    let list: Vec<u32> = digits(i / SETS.len(), 5, &[0, 3, 6]).into_iter().map(|d| d as u32).collect();
    side.merge(&bytes, &bytes_of(&list), 4 * list.len(), 4 * (list.len() / 3));
}

/// Number `i` of the short inputs.
pub fn short(side: &mut impl Side, i: usize) {
    if i < OUTLINES {
        short_outline(side, i);
    } else {
        short_list(side, i - OUTLINES);
    }
}

/// How many corners or points: any number up to the most and some more.
fn number(r: &mut Random) -> usize {
    match r.below(8) {
        0 => 500 + r.below(20),
        1 | 2 => 16 + r.below(100),
        _ => r.below(16),
    }
}

/// Corners of one of the shapes or at random, most often counter-clockwise, or with slots.
pub fn random_outline(r: &mut Random) -> Outline {
    if r.below(4) == 0 {
        return slots::random(r);
    }
    let n = number(r);
    if n >= 4 && r.below(2) == 0 {
        return KINDS[r.below(KINDS.len())].1(n);
    }
    let outline = clouds::some_square(r, n);
    if r.below(4) == 0 {
        return outline;
    }
    counter_clockwise(outline)
}

/// A room of about so many bytes.
pub fn about(r: &mut Random, bytes: usize) -> usize {
    match r.below(4) {
        0 => (bytes + r.below(9)).saturating_sub(8),
        1 => bytes + r.below(9),
        2 => r.below(bytes + 1),
        _ => bytes,
    }
}

/// A copy with a few changes: a special float, a byte, or another length.
fn damaged(r: &mut Random, bytes: &[u8]) -> Vec<u8> {
    let mut copy = bytes.to_vec();
    for _ in 0..r.below(3) {
        match r.below(3) {
            0 if copy.len() >= 4 => {
                let at = 4 * r.below(copy.len() / 4);
                copy[at..at + 4].copy_from_slice(&FLOATS[r.below(FLOATS.len())].to_le_bytes());
            }
            1 if !copy.is_empty() => {
                let at = r.below(copy.len());
                copy[at] = r.next() as u8;
            }
            _ => copy.resize((copy.len() + r.below(17)).saturating_sub(8), r.below(2) as u8),
        }
    }
    copy
}

fn random_list(r: &mut Random, points: usize) -> Vec<u8> {
    let n = match r.below(8) {
        0 => 1520 + r.below(20),
        _ => 3 * r.below(20) + r.below(8) / 7,
    };
    bytes_of(&(0..n).map(|_| r.below(points.max(1)) as u32).collect::<Vec<_>>())
}

/// A point on the line of an edge: on the edge, or one step beyond an end.
fn along_edge(r: &mut Random, outline: &Outline) -> (i32, i32) {
    let i = r.below(outline.len());
    let (a, b) = (outline[i], outline[(i + 1) % outline.len()]);
    let (dx, dy) = (b.0 - a.0, b.1 - a.1);
    let steps = common_divisor(dx.abs(), dy.abs()).max(1);
    let k = r.within(-1, steps + 1);
    (a.0 + k * dx / steps, a.1 + k * dy / steps)
}

fn common_divisor(a: i32, b: i32) -> i32 {
    if b == 0 { a } else { common_divisor(b, a % b) }
}

/// A point near the middle, a corner, or a point on the line of an edge.
pub fn random_spot(r: &mut Random, outline: &Outline) -> (i32, i32) {
    match r.below(4) {
        0 | 1 if outline.is_empty() => (r.within(-12, 12), r.within(-12, 12)),
        0 => outline[r.below(outline.len())],
        1 => along_edge(r, outline),
        _ => (r.within(-12, 12), r.within(-12, 12)),
    }
}

fn random_ask(side: &mut impl Side, r: &mut Random, outline: &Outline, bytes: &[u8]) {
    let (x, y) = random_spot(r, outline);
    side.ask(x as f32, y as f32 + [0.0, 0.0, 0.0, 1.0][r.below(4)], bytes);
    if r.below(8) == 0 {
        side.ask(FLOATS[r.below(FLOATS.len())], y as f32, bytes);
    }
}

/// A cloud and three damaged ones.
fn random_hulls(side: &mut impl Side, r: &mut Random) {
    let n = number(r);
    let good = bytes_of_floats(&coords(&clouds::random(r, n)));
    for round in 0..4 {
        let bytes = if round == 0 { good.clone() } else { damaged(r, &good) };
        let room = if round < 2 { 4 * n } else { about(r, 4 * n) };
        side.hull(&bytes, room);
    }
}

/// An outline and three damaged ones, cut, merged and asked; and the hulls of three clouds and of damaged ones.
pub fn random(side: &mut impl Side, r: &mut Random) {
    random_outlines(side, r);
    (0..3).for_each(|_| random_hulls(side, r));
}

fn random_outlines(side: &mut impl Side, r: &mut Random) {
    let outline = random_outline(r);
    let good = bytes_of_floats(&coords(&outline));
    for round in 0..4 {
        let bytes = if round == 0 { good.clone() } else { damaged(r, &good) };
        let room = 12 * outline.len().saturating_sub(2);
        let room = if round < 2 { room } else { about(r, room) };
        let list = match side.cut(&bytes, room) {
            Some(list) if r.below(4) != 0 => list,
            _ => random_list(r, outline.len()),
        };
        let list = if round < 2 { list } else { damaged(r, &list) };
        let (room, places) = if round < 3 { (list.len(), list.len() / 3) } else { (about(r, list.len()), about(r, list.len() / 3)) };
        side.merge(&bytes, &list, room, places);
        for _ in 0..4 {
            random_ask(side, r, &outline, &bytes);
        }
    }
}
