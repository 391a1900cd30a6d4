//! What must come back: the refusals in document 01's order, with request M-105's between 5 and 6, and on accepted input what the crate
//! gives; of a cut where a point is passed twice, what request M-103 gives, of a hull, what request M-104 gives, and of a spot on the border of an
//! outline, what request M-106 gives.
use crate::hull::{self, Relation};
use crate::lent::{bytes_of, words};
use crate::math::Vector;
use crate::plane::{area2, on_border, whole};
use crate::{cutter, parry};

#[repr(C)]
#[derive(Clone, Copy, Debug, PartialEq, Eq)]
pub struct Answer {
    pub number: u32,
    pub count: u32,
}

/// The answer is 0 for outside or refused, 1 for inside, 2 for border.
#[repr(C)]
#[derive(Clone, Copy, Debug, PartialEq, Eq)]
pub struct Verdict {
    pub number: u32,
    pub answer: u32,
}

fn floats(coords: &[u8]) -> Vec<f32> {
    words(coords).into_iter().map(f32::from_bits).collect()
}

fn on_grid(x: f32) -> bool {
    x.abs() <= 1024.0 && x.trunc() == x
}

fn points(floats: &[f32]) -> Vec<Vector> {
    floats.chunks_exact(2).map(|c| Vector { x: c[0], y: c[1] }).collect()
}

fn refused(number: u32) -> Answer {
    Answer { number, count: 0 }
}

fn equal_neighbours(ps: &[Vector]) -> bool {
    (0..ps.len()).any(|i| ps[i] == ps[(i + 1) % ps.len()])
}

/// The crate's triangles, or those of the second cutter where a point is passed twice. Elsewhere both must be the same.
fn cut(ps: &[Vector]) -> Option<Vec<[u32; 3]>> {
    let second = cutter::cut(ps);
    if cutter::repeats(ps) {
        return second;
    }
    let first = parry::triangulate_ear_clipping(ps);
    assert_eq!(first, second, "the crate's cut and the second cutter's of {ps:?}");
    first
}

/// Whether the outline of these bytes passes a point twice.
pub fn passes_twice(coords: &[u8]) -> bool {
    cutter::repeats(&points(&floats(coords)))
}

pub fn triangulate_ear_clipping(coords: &[u8], indices: &mut [u8]) -> Answer {
    let fs = floats(coords);
    let ps = points(&fs);
    if fs.len() % 2 == 1 {
        return refused(1);
    }
    if ps.len() < 3 {
        return refused(2);
    }
    if ps.len() > 512 {
        return refused(3);
    }
    if !fs.iter().all(|&f| on_grid(f)) {
        return refused(4);
    }
    if equal_neighbours(&ps) {
        return refused(5);
    }
    if area2(&whole(&ps)) <= 0 {
        return refused(13);
    }
    if indices.len() / 4 < 3 * (ps.len() - 2) {
        return refused(6);
    }
    match cut(&ps) {
        None => refused(7),
        Some(triangles) => {
            let written = bytes_of(&triangles.concat());
            indices[..written.len()].copy_from_slice(&written);
            Answer { number: 0, count: triangles.len() as u32 }
        }
    }
}

pub fn hertel_mehlhorn_idx(coords: &[u8], triangles: &[u8], indices: &mut [u8], lengths: &mut [u8]) -> Answer {
    let fs = floats(coords);
    let ps = points(&fs);
    let ts = words(triangles);
    if fs.len() % 2 == 1 {
        return refused(1);
    }
    if ps.len() > 512 {
        return refused(3);
    }
    if !fs.iter().all(|&f| on_grid(f)) {
        return refused(4);
    }
    if ts.len() % 3 != 0 {
        return refused(8);
    }
    if ts.len() / 3 > 510 {
        return refused(10);
    }
    if ts.iter().any(|&i| i as usize >= ps.len()) {
        return refused(9);
    }
    if indices.len() / 4 < ts.len() || lengths.len() / 4 < ts.len() / 3 {
        return refused(6);
    }
    let given: Vec<[u32; 3]> = ts.chunks_exact(3).map(|c| [c[0], c[1], c[2]]).collect();
    let pieces = parry::hertel_mehlhorn_idx(&ps, &given);
    let written = bytes_of(&pieces.concat());
    indices[..written.len()].copy_from_slice(&written);
    let sizes: Vec<u32> = pieces.iter().map(|p| p.len() as u32).collect();
    lengths[..4 * sizes.len()].copy_from_slice(&bytes_of(&sizes));
    Answer { number: 0, count: pieces.len() as u32 }
}

pub fn convex_hull2_idx(coords: &[u8], indices: &mut [u8]) -> Answer {
    let fs = floats(coords);
    let ps = points(&fs);
    if fs.len() % 2 == 1 {
        return refused(1);
    }
    if ps.len() < 2 {
        return refused(2);
    }
    if ps.len() > 512 {
        return refused(3);
    }
    if !fs.iter().all(|&f| on_grid(f)) {
        return refused(4);
    }
    let ps = whole(&ps);
    if hull::one_line(&ps) {
        return refused(12);
    }
    if indices.len() / 4 < ps.len() {
        return refused(6);
    }
    let corners = hull::corners(&ps);
    let written = bytes_of(&corners.iter().map(|&i| i as u32).collect::<Vec<_>>());
    indices[..written.len()].copy_from_slice(&written);
    Answer { number: 0, count: corners.len() as u32 }
}

/// How the crate's hull of a cloud that is accepted relates to the expected corners. It must have every one of these that is not straight.
pub fn beside_crate(coords: &[u8], corners: &[u8]) -> Relation {
    let ps = points(&floats(coords));
    let corners: Vec<usize> = words(corners).into_iter().map(|i| i as usize).collect();
    let theirs = parry::convex_hull2_idx(&ps);
    let ps = whole(&ps);
    let lost = hull::turning(&ps, &corners).into_iter().find(|&p| !theirs.iter().any(|&i| ps[i] == p));
    assert_eq!(lost, None, "a corner of {corners:?} that the crate's hull {theirs:?} of {ps:?} does not have");
    hull::relation(&ps, &corners, &theirs)
}

fn asked(x: f32, y: f32, coords: &[u8], test: fn(Vector, &[Vector]) -> u32) -> Verdict {
    let fs = floats(coords);
    if fs.len() % 2 == 1 {
        return Verdict { number: 1, answer: 0 };
    }
    if fs.len() / 2 > 512 {
        return Verdict { number: 3, answer: 0 };
    }
    if !on_grid(x) || !on_grid(y) || !fs.iter().all(|&f| on_grid(f)) {
        return Verdict { number: 4, answer: 0 };
    }
    Verdict { number: 0, answer: test(Vector { x, y }, &points(&fs)) }
}

fn border_first(p: Vector, ps: &[Vector]) -> u32 {
    if on_border(whole(&[p])[0], &whole(ps)) {
        return 2;
    }
    parry::point_in_poly2d(p, ps) as u32
}

pub fn point_in_poly2d(x: f32, y: f32, coords: &[u8]) -> Verdict {
    asked(x, y, coords, border_first)
}

pub fn point_in_convex_poly2d(x: f32, y: f32, coords: &[u8]) -> Verdict {
    asked(x, y, coords, |p, ps| parry::point_in_convex_poly2d(p, ps) as u32)
}

/// The largest radicand.
pub const MOST: u32 = 1 << 23;

pub fn root(m: u32) -> f32 {
    if m <= MOST {
        (m as f32).sqrt()
    } else {
        0.0
    }
}
