//! The hull of a cloud a second time, from request M-104 in whole numbers: the walk of the crate's `convex_hull2_idx`, where the sign of a turn
//! says who sees a facet, and the normal by which the farthest point is picked is not scaled. And how the crate's own hull relates to it.
use crate::plane::{turn, Point};
use std::fmt;

/// From one corner of the hull so far to the next, with the places of the facets before and behind it and the points that see it.
struct Facet {
    from: usize,
    to: usize,
    before: usize,
    behind: usize,
    seen_by: Vec<usize>,
}

struct Walk<'a> {
    points: &'a [Point],
    /// In the order in which they are made, those that have been split among them.
    facets: Vec<Facet>,
    /// The points on the line of the first two facets, for any later facet that they see.
    beside: Vec<usize>,
}

/// Of these points the one that is farthest in a direction, of equals the first.
fn farthest(points: &[Point], (x, y): Point, of: impl Iterator<Item = usize>) -> Option<usize> {
    of.min_by_key(|&i| -(x * points[i].0 + y * points[i].1))
}

impl Walk<'_> {
    /// Adds two facets from corner to corner between the facets at two places. The first gets the points that see it, and the second those of
    /// the others that see it; the rest is given back.
    fn attach(&mut self, [from, at, to]: [usize; 3], [before, behind]: [usize; 2], of: Vec<usize>) -> Vec<usize> {
        let points = self.points;
        let sees = |i: usize, a: usize, b: usize| turn(points[a], points[b], points[i]) < 0;
        let (mut first, others): (Vec<_>, Vec<_>) = of.into_iter().partition(|&i| sees(i, from, at));
        let (mut second, rest): (Vec<_>, Vec<_>) = others.into_iter().partition(|&i| sees(i, at, to));
        let mut k = 0;
        while k < self.beside.len() {
            let i = self.beside[k];
            if sees(i, from, at) {
                first.push(self.beside.swap_remove(k));
            } else if sees(i, at, to) {
                second.push(self.beside.swap_remove(k));
            } else {
                k += 1;
            }
        }
        let new = self.facets.len();
        self.facets.push(Facet { from, to: at, before, behind: new + 1, seen_by: first });
        self.facets.push(Facet { from: at, to, before: new, behind, seen_by: second });
        self.facets[before].behind = new;
        self.facets[behind].before = new + 1;
        rest
    }

    /// Whether the facet at a place stays, as no point sees it; else it is split at the farthest point that does.
    fn stays(&mut self, place: usize) -> bool {
        let Facet { from, to, before, behind, .. } = self.facets[place];
        let seen_by = std::mem::take(&mut self.facets[place].seen_by);
        let (a, b) = (self.points[from], self.points[to]);
        let Some(at) = farthest(self.points, (b.1 - a.1, a.0 - b.0), seen_by.iter().copied()) else { return true };
        self.attach([from, at, to], [before, behind], seen_by);
        false
    }

    /// Round the hull from the facet at a place, which stays.
    fn corners(&self, first: usize) -> Vec<usize> {
        let mut corners = vec![self.facets[first].from];
        let mut place = self.facets[first].behind;
        while place != first {
            corners.push(self.facets[place].from);
            place = self.facets[place].behind;
        }
        corners
    }
}

/// Whether all points are on one line.
pub fn one_line(points: &[Point]) -> bool {
    match points.iter().find(|&&p| p != points[0]) {
        None => true,
        Some(&other) => points.iter().all(|&p| turn(points[0], other, p) == 0),
    }
}

/// The corners of the hull of points that are not on one line, begun at the first facet that stays.
pub fn corners(points: &[Point]) -> Vec<usize> {
    let all = 0..points.len();
    let end = |x: i64| farthest(points, (x, 0), all.clone()).expect("there are points");
    let (right, left) = (end(1), end(-1));
    let mut walk = Walk { points, facets: Vec::new(), beside: Vec::new() };
    walk.beside = walk.attach([right, left, right], [1, 0], all.clone().filter(|&i| i != right && i != left).collect());
    let mut first = None;
    let mut place = 0;
    while place < walk.facets.len() {
        if walk.stays(place) && first.is_none() {
            first = Some(place);
        }
        place += 1;
    }
    walk.corners(first.expect("some facet stays"))
}

/// How the crate's corners relate to ours.
#[derive(Clone, Copy, Debug, PartialEq, Eq)]
pub enum Relation {
    Same,
    /// The same indices, begun elsewhere.
    Start,
    /// The same points but for straight corners, begun anywhere.
    Straight,
    /// No hull: points on the line of a facet were taken to see it, so that the corners turn back or go round twice.
    Other,
}

fn begun_elsewhere<T: PartialEq>(a: &[T], b: &[T]) -> bool {
    let n = a.len();
    n == b.len() && (0..n).any(|k| a[k..] == b[..n - k] && a[..k] == b[n - k..])
}

/// Whether the way from a by b to c goes straight on.
fn straight(a: Point, b: Point, c: Point) -> bool {
    turn(a, b, c) == 0 && (b.0 - a.0) * (c.0 - b.0) + (b.1 - a.1) * (c.1 - b.1) > 0
}

/// The corners that are not straight.
pub fn turning(points: &[Point], corners: &[usize]) -> Vec<Point> {
    let n = corners.len();
    let at = |k: usize| points[corners[k % n]];
    (0..n).filter(|&k| !straight(at(k + n - 1), at(k), at(k + 1))).map(at).collect()
}

pub fn relation(points: &[Point], ours: &[usize], theirs: &[usize]) -> Relation {
    if ours == theirs {
        Relation::Same
    } else if begun_elsewhere(ours, theirs) {
        Relation::Start
    } else if begun_elsewhere(&turning(points, ours), &turning(points, theirs)) {
        Relation::Straight
    } else {
        Relation::Other
    }
}

/// How many hulls were accepted, and how many of these the crate gives otherwise.
#[derive(Default)]
pub struct Tally {
    accepted: u64,
    start: u64,
    straight: u64,
    other: u64,
}

impl Tally {
    pub fn add(&mut self, relation: Relation) {
        self.accepted += 1;
        match relation {
            Relation::Same => {}
            Relation::Start => self.start += 1,
            Relation::Straight => self.straight += 1,
            Relation::Other => self.other += 1,
        }
    }
}

impl fmt::Display for Tally {
    fn fmt(&self, f: &mut fmt::Formatter) -> fmt::Result {
        let Tally { accepted, start, straight, other } = self;
        write!(f, "{accepted} hulls accepted, of which the crate begins {start} elsewhere, has other straight corners in {straight} and no hull in {other}")
    }
}
