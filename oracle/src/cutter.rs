//! The cutter a second time, from document 01's steps and request M-103: turns in whole numbers, pointiness in f32 as 01 has it.
//! For outlines that pass a point twice, on which the crate has another rule.
use crate::math::Vector;
use crate::plane::{turn, whole, Point};
use std::collections::HashSet;

/// In the triangle of a left turn, its border included, and none of its corners.
fn blocks([a, b, c]: [Point; 3], q: Point) -> bool {
    let within = turn(a, b, q) >= 0 && turn(b, c, q) >= 0 && turn(c, a, q) >= 0;
    within && ![a, b, c].contains(&q)
}

fn direction(p: Point, to: Point) -> (f32, f32) {
    let (dx, dy) = (to.0 - p.0, to.1 - p.1);
    let r = 1.0 / ((dx * dx + dy * dy) as f32).sqrt();
    (dx as f32 * r, dy as f32 * r)
}

/// The pointiness of a corner that is an ear.
fn ear(points: &[Point], [before, at, after]: [usize; 3]) -> Option<f32> {
    let (q, p, s) = (points[before], points[at], points[after]);
    if turn(q, p, s) <= 0 || points.iter().any(|&o| blocks([q, p, s], o)) {
        return None;
    }
    let (u, v) = (direction(p, q), direction(p, s));
    Some(u.0 * v.0 + u.1 * v.1)
}

/// The corner at a place of the ring, with its neighbours.
fn corner(ring: &[usize], place: usize) -> [usize; 3] {
    let n = ring.len();
    [ring[(place + n - 1) % n], ring[place], ring[(place + 1) % n]]
}

/// The triangles, or nothing where a ring of four or more has no ear.
pub fn cut(outline: &[Vector]) -> Option<Vec<[u32; 3]>> {
    let points = whole(outline);
    let mut ring: Vec<usize> = (0..points.len()).collect();
    let mut ears: Vec<Option<f32>> = ring.iter().map(|&i| ear(&points, corner(&ring, i))).collect();
    let mut triangles = Vec::new();
    while ring.len() > 3 {
        // of equals the later, which is the higher index
        let mut best: Option<(usize, f32)> = None;
        for (place, found) in ears.iter().enumerate() {
            if let Some(f) = *found {
                if best.is_none_or(|(_, most)| f >= most) {
                    best = Some((place, f));
                }
            }
        }
        let (place, _) = best?;
        triangles.push(corner(&ring, place).map(|i| i as u32));
        ring.remove(place);
        ears.remove(place);
        for near in [(place + ring.len() - 1) % ring.len(), place % ring.len()] {
            ears[near] = ear(&points, corner(&ring, near));
        }
    }
    triangles.push(corner(&ring, 0).map(|i| i as u32));
    Some(triangles)
}

/// Whether some point stands at two corners.
pub fn repeats(outline: &[Vector]) -> bool {
    let mut seen = HashSet::new();
    !whole(outline).into_iter().all(|p| seen.insert(p))
}
