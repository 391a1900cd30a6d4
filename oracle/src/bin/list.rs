//! list: a sample of inputs with what must come back, and some roots, for the program `replay`. See crates/replay/LIST.md.
use oracle::clouds;
use oracle::expected::MOST;
use oracle::inputs::Side;
use oracle::lent::{bytes_of, bytes_of_floats};
use oracle::random::Random;
use oracle::records::Records;
use oracle::shapes::{convex, coords, counter_clockwise, Outline, KINDS};
use oracle::slots;
use std::io::Write;

/// An outline cut with this much room to spare, merged, and asked at a corner and beside it.
fn outline(side: &mut impl Side, floats: &[f32], spare: isize) {
    let bytes = bytes_of_floats(floats);
    let room = (6 * floats.len() as isize - 24 + spare).max(0) as usize;
    let triangles = side.cut(&bytes, room).unwrap_or_default();
    side.merge(&bytes, &triangles, triangles.len() + 5, triangles.len() / 3 + 2);
    if floats.len() >= 2 {
        side.ask(floats[0], floats[1], &bytes);
        side.ask(floats[0] + 1.0, floats[1], &bytes);
    }
}

fn edges(list: &mut impl Side) {
    let square = [0.0, 0.0, 4.0, 0.0, 4.0, 4.0, 0.0, 4.0];
    let special = [1024.0, 1025.0, 0.5, -0.0, 1.0e-45, f32::NAN, f32::INFINITY, f32::NEG_INFINITY];
    for f in special {
        let mut changed = square;
        changed[1] = f;
        outline(list, &changed, 7);
        list.ask(f, 2.0, &bytes_of_floats(&square));
    }
    for n in 0..=square.len() {
        outline(list, &square[..n], 0);
    }
    for spare in [-5, -4, -1, 1, 3] {
        outline(list, &square, spare);
    }
    let bytes = bytes_of_floats(&square);
    for triangles in [&[0u32, 1][..], &[0, 1, 4], &[0, 1, 2, 0], &[0, 1, 2, 2, 1, 0], &[1, 1, 1, 1, 1, 1], &[u32::MAX, 0, 0]] {
        let given = bytes_of(triangles);
        list.merge(&bytes, &given, given.len(), given.len() / 3);
        list.merge(&bytes, &given, given.len().saturating_sub(1), given.len() / 3);
    }
    list.merge(&bytes, &[0; 4 * 1533], 0, 0);
    list.ask(1.0, 1.0, &[0; 4 * 1026]);
}

/// Outlines that their area or their ears decide.
#[rustfmt::skip]
const RINGS: [&[(i32, i32)]; 8] = [
    // clockwise, on a line, there and back
    &[(0, 0), (0, 4), (4, 0)],
    &[(0, 0), (0, 4), (4, 4), (4, 0)],
    &[(0, 0), (1, 0), (2, 0)],
    &[(0, 0), (1, 0), (2, 0), (3, 0)],
    &[(0, 0), (1, 0), (0, 0), (0, 1)],
    // the last triangle is clockwise
    &[(0, 0), (0, 1), (1, 0), (1, 2)],
    // no ear, and none after one cut
    &[(0, 0), (0, 1), (1, 1), (2, 0), (0, 2)],
    &[(0, 0), (1, 1), (0, 1), (2, 0), (0, 2)],
];

/// Each with room, and with a slot too few.
fn rings(list: &mut impl Side) {
    for ring in RINGS {
        outline(list, &coords(ring), 0);
        outline(list, &coords(ring), -4);
    }
}

/// Outlines, and spots on their border, on prolongations of their edges, level with corners, inside and outside.
#[rustfmt::skip]
const SPOTS: [(&[(i32, i32)], &[(i32, i32)]); 7] = [
    (&[(0, 0), (4, 0), (4, 4), (0, 4)], &[(0, 2), (4, 2), (2, 0), (2, 4), (2, 2), (5, 2), (4, 4), (6, 0), (4, 6), (-1, 4)]),
    // a slot, drawn in and out
    (&[(0, 0), (4, 0), (4, 2), (2, 2), (4, 2), (4, 4), (0, 4)], &[(3, 2), (2, 2), (1, 2), (5, 2)]),
    (&[(2, 0), (4, 2), (2, 4), (0, 2)], &[(1, 1), (3, 1), (1, 2), (5, 2), (-1, 2), (0, 0)]),
    // as wide as the grid: one beside the edge from corner to corner
    (&[(-1024, -1024), (1024, -1024), (1024, 1024)], &[(0, 0), (1023, 1023), (1022, 1023), (1023, 1022), (0, -1024), (-1024, 1024)]),
    // no corner, one, two
    (&[], &[(0, 0)]),
    (&[(1, 1)], &[(1, 1), (1, 2), (2, 1)]),
    (&[(0, 0), (4, 2)], &[(0, 0), (2, 1), (4, 2), (6, 3), (-2, -1), (2, 2), (2, 0)]),
];

fn spots(list: &mut impl Side) {
    for (outline, spots) in SPOTS {
        let bytes = bytes_of_floats(&coords(outline));
        spots.iter().for_each(|&(x, y)| list.ask(x as f32, y as f32, &bytes));
    }
}

/// A cloud's hull with this much room to spare.
fn hull(side: &mut impl Side, floats: &[f32], spare: isize) {
    side.hull(&bytes_of_floats(floats), (2 * floats.len() as isize + spare).max(0) as usize);
}

/// Clouds that tell neighbouring rules apart.
#[rustfmt::skip]
const CLOUDS: [&[(i32, i32)]; 19] = [
    // a square, with a point in it, with points on its sides, and a corner given twice
    &[(0, 0), (4, 0), (4, 4), (0, 4)],
    &[(0, 0), (4, 0), (2, 2), (4, 4), (0, 4)],
    &[(1, 1), (0, 0), (4, 0), (2, 0), (4, 4), (0, 4), (4, 2), (4, 4), (2, 2)],
    // facets of three rounds, and of two
    &[(0, 0), (6, 0), (3, 1), (3, -1), (1, 0), (5, 0), (3, 5), (1, 3), (5, 3), (3, -4)],
    &[(0, 2), (1, 0), (3, 0), (4, 2), (3, 4), (1, 4), (2, 2), (0, 2)],
    // equally far: the first is taken, and its straight corner stays, or there is none
    &[(0, 0), (6, 0), (2, 4), (1, 4), (4, 4)],
    &[(0, 0), (6, 0), (1, 4), (2, 4), (4, 4)],
    // of equal points at the ends and between them the first
    &[(0, 0), (5, 1), (0, 0), (5, 1), (2, 3), (2, 3)],
    &[(5, 1), (5, 3), (0, 2), (0, 0), (5, 2), (0, 1)],
    // on one line: slanted, upright, level, all equal, and two points
    &[(0, 0), (1, 1), (2, 2)],
    &[(3, 1), (3, 5), (3, 2)],
    &[(1, 3), (5, 3), (2, 3), (2, 3)],
    &[(2, 2), (2, 2)],
    &[(-1024, -1024), (1024, 1024)],
    // the crate has a straight corner more
    &[(-3, -4), (1, 0), (1, 3), (-2, 0), (-3, -1)],
    &[(-81, 129), (102, -84), (50, 116), (163, -155)],
    // its corners turn back, or go round twice
    &[(45, -50), (60, -110), (-85, 70), (240, -230), (-20, 10)],
    &[(52, -68), (106, -146), (57, 126), (106, -146), (-110, 166)],
    &[(-435, 166), (-435, 166), (0, 0), (-435, 166), (-250, -329), (-65, -824), (-250, -329), (0, 0), (-65, -824), (0, 0)],
];

fn hulls(list: &mut impl Side) {
    for cloud in CLOUDS {
        hull(list, &coords(cloud), 5);
    }
    // each refusal beside those that come after it
    let square = [0.0, 0.0, 4.0, 0.0, 4.0, 4.0, 0.0, 4.0];
    for n in 0..square.len() {
        hull(list, &square[..n], 0);
    }
    hull(list, &[0.5], -4);
    hull(list, &[0.5, 0.5], -4);
    hull(list, &[0.5; 1026], -4);
    hull(list, &[0.5, 0.5, 0.5, 0.5], -4);
    hull(list, &[1.0, 1.0, 1.0, 1.0], -4);
    hull(list, &[0.0, 0.0, 1.0, 2.0, 2.0, 4.0], -1);
    for f in [1024.0, 1025.0, 0.5, -0.0, 1.0e-45, f32::NAN, f32::INFINITY] {
        let mut changed = square;
        changed[1] = f;
        hull(list, &changed, 0);
    }
    for spare in [-16, -5, -4, -1, 1, 3] {
        hull(list, &square, spare);
    }
    for n in [16, 30, 512] {
        hull(list, &coords(&convex(n)), 0);
    }
    let mut r = Random::new(7);
    for n in 20..40 {
        hull(list, &coords(&clouds::random(&mut r, n)), 0);
    }
    for _ in 0..100 {
        let n = 3 + r.below(6);
        let floats: Vec<f32> = (0..2 * n).map(|_| r.within(-3, 3) as f32).collect();
        hull(list, &floats, 0);
    }
}

fn main() {
    let mut list: Vec<u8> = Vec::new();
    // of these, as many as 65536 bytes hold
    let mut side = Records::new(|_, record: &[u8]| {
        if list.len() + record.len() <= 65536 {
            list.extend(record);
        }
    });
    edges(&mut side);
    rings(&mut side);
    spots(&mut side);
    for (_, shape) in KINDS {
        outline(&mut side, &coords(&shape(16)), 8);
        outline(&mut side, &coords(&shape(30)), 0);
    }
    let mut r = Random::new(7);
    for _ in 0..8 {
        outline(&mut side, &coords(&slots::random(&mut r)), 0);
    }
    for i in 0..400 {
        let n = 3 + r.below(6);
        let corners: Outline = (0..n).map(|_| (r.within(-3, 3), r.within(-3, 3))).collect();
        let corners = if i % 4 == 0 { corners } else { counter_clockwise(corners) };
        outline(&mut side, &coords(&corners), 0);
    }
    let mut rest = Records::new(|_, record: &[u8]| list.extend(record));
    rest.roots(0, 2048);
    rest.roots(MOST - 64, 129);
    hulls(&mut rest);
    std::io::stdout().write_all(&list).expect("standard output takes the list");
}
