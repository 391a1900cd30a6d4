//! bench: ours and the crate's, and CGAL's where it is linked, on the same inputs in one run; prints a table of times and ratios.
use oracle::clouds::cloud;
use oracle::hull::Relation;
use oracle::lent::{bytes_of_floats, words};
use oracle::math::Vector;
use oracle::shapes::{convex, coords, round, Outline, KINDS};
use oracle::text::{self, multipolygon, polygon};
use oracle::{expected, ours, parry};
use std::hint::black_box;
use std::time::Instant;

/// The least time of one call of each job in nanoseconds, of several rounds of about two milliseconds. The jobs take turns, so that a processor
/// that others share is as slow for one as for the other.
fn times<const N: usize>(mut jobs: [&mut dyn FnMut(); N]) -> [f64; N] {
    let mut calls = [1u32; N];
    let mut least = [f64::INFINITY; N];
    for k in 0..N {
        while repeated(calls[k], &mut jobs[k]) < 2e6 {
            calls[k] *= 2;
        }
    }
    for _ in 0..24 {
        for k in 0..N {
            least[k] = least[k].min(repeated(calls[k], &mut jobs[k]) / f64::from(calls[k]));
        }
    }
    least
}

/// The time of so many calls in nanoseconds.
fn repeated(calls: u32, job: &mut dyn FnMut()) -> f64 {
    let begin = Instant::now();
    (0..calls).for_each(|_| job());
    begin.elapsed().as_nanos() as f64
}

fn row(kind: &str, n: usize, job: &str, [ours, theirs]: [f64; 2], partitions: &str) {
    println!("| {kind} | {n} | {job} | {:.2} | {:.2} | {:.2} |{partitions}", ours / 1000.0, theirs / 1000.0, ours / theirs);
}

/// CGAL's two partitions, where it is linked: their columns.
#[cfg(feature = "cgal")]
mod partitions {
    use super::{black_box, times};
    use oracle::cgal::Polygon;

    pub const HEADINGS: &str = " CGAL by Hertel and Mehlhorn, µs | CGAL by Greene, µs | ours / Greene | areas: ours, by Hertel and Mehlhorn, by Greene |";
    pub const RULES: &str = "---:|---:|---:|---|";
    pub const NONE: &str = " | | | |";

    /// A number of areas, with a mark where CGAL's own check does not take them for a convex partition.
    fn marked(areas: usize, valid: bool) -> String {
        format!("{areas}{}", if valid { "" } else { " (invalid)" })
    }

    /// Our time and the crate's for an outline of which ours are so many areas, and the cells of CGAL's.
    pub fn beside(floats: &[f32], areas: u32, ours: &mut dyn FnMut(), theirs: &mut dyn FnMut()) -> ([f64; 2], String) {
        let outline = Polygon::new(floats);
        let by_hertel = marked(outline.approx_convex_partition_2(), outline.approx_convex_is_valid());
        let by_greene = marked(outline.greene_approx_convex_partition_2(), outline.greene_approx_convex_is_valid());
        let mut partition = || {
            black_box(black_box(&outline).approx_convex_partition_2());
        };
        let mut partition_by_greene = || {
            black_box(black_box(&outline).greene_approx_convex_partition_2());
        };
        let [ours, theirs, hertel, greene] = times([ours, theirs, &mut partition, &mut partition_by_greene]);
        let cells = format!(" {:.2} | {:.2} | {:.2} | {areas}, {by_hertel}, {by_greene} |", hertel / 1000.0, greene / 1000.0, ours / greene);
        ([ours, theirs], cells)
    }
}

#[cfg(not(feature = "cgal"))]
mod partitions {
    use super::times;

    pub const HEADINGS: &str = "";
    pub const RULES: &str = "";
    pub const NONE: &str = "";

    pub fn beside(_: &[f32], _: u32, ours: &mut dyn FnMut(), theirs: &mut dyn FnMut()) -> ([f64; 2], String) {
        (times([ours, theirs]), String::new())
    }
}

fn vectors(floats: &[f32]) -> Vec<Vector> {
    floats.chunks_exact(2).map(|c| Vector { x: c[0], y: c[1] }).collect()
}

/// An outline in the forms in which both sides take it, with its triangles and room for what comes back.
struct Case<'a> {
    kind: &'a str,
    n: usize,
    floats: Vec<f32>,
    bytes: Vec<u8>,
    points: Vec<Vector>,
    triangles: Vec<u8>,
    indices: Vec<u8>,
    lengths: Vec<u8>,
}

impl<'a> Case<'a> {
    fn new(kind: &'a str, outline: &[(i32, i32)]) -> Case<'a> {
        let n = outline.len();
        let floats = coords(outline);
        let bytes = bytes_of_floats(&floats);
        let points = vectors(&floats);
        let mut triangles = vec![0u8; 12 * (n - 2)];
        let answer = ours::triangulate_ear_clipping(&bytes, &mut triangles);
        assert_eq!(answer.number, 0, "{kind} of {n} corners is cut");
        Case { kind, n, floats, bytes, points, triangles, indices: vec![0; 12 * (n - 2)], lengths: vec![0; 4 * (n - 2)] }
    }

    fn row(&self, job: &str, times: [f64; 2]) {
        row(self.kind, self.n, job, times, partitions::NONE);
    }

    fn cut(&mut self) {
        let mut ours = || {
            black_box(ours::triangulate_ear_clipping(black_box(&self.bytes), &mut self.indices));
        };
        let mut theirs = || {
            black_box(parry::triangulate_ear_clipping(black_box(&self.points)));
        };
        let times = times([&mut ours, &mut theirs]);
        self.row("cut", times);
    }

    fn merge(&mut self) {
        let given: Vec<[u32; 3]> = words(&self.triangles).chunks_exact(3).map(|c| [c[0], c[1], c[2]]).collect();
        let mut ours = || {
            black_box(ours::hertel_mehlhorn_idx(black_box(&self.bytes), black_box(&self.triangles), &mut self.indices, &mut self.lengths));
        };
        let mut theirs = || {
            black_box(parry::hertel_mehlhorn_idx(black_box(&self.points), black_box(&given)));
        };
        let times = times([&mut ours, &mut theirs]);
        self.row("merge", times);
    }

    /// From the outline to its areas, beside CGAL's partitions of it.
    fn cut_and_merge(&mut self) {
        let areas = ours::hertel_mehlhorn_idx(&self.bytes, &self.triangles, &mut self.indices, &mut self.lengths).count;
        let mut ours = || {
            black_box(ours::triangulate_ear_clipping(black_box(&self.bytes), &mut self.triangles));
            black_box(ours::hertel_mehlhorn_idx(&self.bytes, &self.triangles, &mut self.indices, &mut self.lengths));
        };
        let mut theirs = || {
            let triangles = parry::triangulate_ear_clipping(black_box(&self.points)).expect("the outline is cut");
            black_box(parry::hertel_mehlhorn_idx(&self.points, &triangles));
        };
        let (times, cells) = partitions::beside(&self.floats, areas, &mut ours, &mut theirs);
        row(self.kind, self.n, "cut and merge", times, &cells);
    }

    fn point_test(&self) {
        let asked: Vec<(f32, f32)> = (0..16).map(|i| ((i * 61 % 997) as f32 - 498.0, (i * 113 % 991) as f32 - 495.0)).collect();
        let mut ours = || asked.iter().for_each(|&(x, y)| {
            black_box(ours::point_in_poly2d(x, y, black_box(&self.bytes)));
        });
        let mut theirs = || asked.iter().for_each(|&(x, y)| {
            black_box(parry::point_in_poly2d(Vector { x, y }, black_box(&self.points)));
        });
        self.row("point test, 16 points", times([&mut ours, &mut theirs]));
    }
}

/// A line read, cut, merged and written. Beside it the crate's cut and merge with Rust's own parsing and formatting, of a line that is taken
/// to be in form.
fn measure_line(kind: &str, n: usize, outline: &[(i32, i32)]) {
    let line = polygon(outline).into_bytes();
    let mut out = vec![0u8; 28575];
    let answer = ours::fill(&line, false, &mut out);
    let written = crate_fill(&line);
    assert_eq!(&out[..answer.count as usize], written.as_bytes(), "{kind} of {n} corners is filled alike");
    let mut ours = || {
        black_box(ours::fill(black_box(&line), false, &mut out));
    };
    let mut theirs = || {
        black_box(crate_fill(black_box(&line)));
    };
    row(kind, n, "line", times([&mut ours, &mut theirs]), partitions::NONE);
}

fn crate_fill(line: &[u8]) -> String {
    let points = text::corners(line).expect("the line is in form");
    let points: Vec<Vector> = points.iter().map(|(x, y)| Vector { x: x.parse().unwrap(), y: y.parse().unwrap() }).collect();
    let triangles = parry::triangulate_ear_clipping(&points).expect("the outline is cut");
    let areas = parry::hertel_mehlhorn_idx(&points, &triangles);
    let corner = |i: &u32| (points[*i as usize].x as i32, points[*i as usize].y as i32);
    multipolygon(&areas.iter().map(|a| a.iter().map(corner).collect()).collect::<Vec<_>>())
}

fn measure_hull(kind: &str, points: &[(i32, i32)]) {
    let floats = coords(points);
    let (bytes, vectors) = (bytes_of_floats(&floats), vectors(&floats));
    let mut indices = vec![0u8; 4 * points.len()];
    let answer = ours::convex_hull2_idx(&bytes, &mut indices);
    let relation = expected::beside_crate(&bytes, &indices[..4 * answer.count as usize]);
    assert!(answer.number == 0 && relation != Relation::Other, "{kind} of {} points has one hull", points.len());
    let mut ours = || {
        black_box(ours::convex_hull2_idx(black_box(&bytes), &mut indices));
    };
    let mut theirs = || {
        black_box(parry::convex_hull2_idx(black_box(&vectors)));
    };
    row(kind, points.len(), "hull", times([&mut ours, &mut theirs]), partitions::NONE);
}

/// A thousand roots, each by itself.
fn alone(root: fn(u32) -> f32) {
    (0..1000).for_each(|i| {
        black_box(root(8388 * i));
    });
}

/// A thousand roots, each of a radicand that the root before it gives.
fn chained(root: fn(u32) -> f32) {
    black_box((0..1000).fold(1, |m, _| (5 * m + root(m).to_bits()) % (1 << 23)));
}

/// The time of a thousand roots in microseconds is that of a million in milliseconds.
fn measure_roots() {
    let ours: fn(u32) -> f32 = black_box(ours::root);
    let machine: fn(u32) -> f32 = black_box(|m| (m as f32).sqrt());
    let [a, b, c, d] = times([&mut || alone(ours), &mut || alone(machine), &mut || chained(ours), &mut || chained(machine)]).map(|t| t / 1000.0);
    println!("A million roots: ours {a:.1} ms, the machine's own square root {b:.1} ms.");
    println!("A million roots, each of a radicand that the one before it gives: ours {c:.1} ms, the machine's own {d:.1} ms.");
}

fn measure(kind: &str, outline: &[(i32, i32)]) {
    let mut case = Case::new(kind, outline);
    case.cut();
    case.merge();
    case.cut_and_merge();
    case.point_test();
    if [64, 512].contains(&case.n) {
        measure_line(kind, case.n, outline);
    }
}

fn main() {
    println!("| outline | corners | job | ours, µs | the crate, µs | ours / the crate |{}", partitions::HEADINGS);
    println!("|---|---:|---|---:|---:|---:|{}", partitions::RULES);
    for (kind, shape) in KINDS.into_iter().chain([("round", round as fn(usize) -> Outline)]) {
        for n in [16, 64, 256, 512] {
            measure(kind, &shape(n));
        }
    }
    for (kind, shape) in [("cloud", cloud as fn(usize) -> Outline), ("convex", convex)] {
        for n in [16, 64, 512] {
            measure_hull(kind, &shape(n));
        }
    }
    println!();
    measure_roots();
}
