//! Lines for the comparison: outlines as text, and damaged ones.
use crate::inputs::{about, random_outline};
use crate::random::Random;
use crate::shapes::{round_the_grid, Outline};
use crate::text::polygon;

/// A line whose first and last point have so many digits.
fn long(digits: usize, second: &str) -> Vec<u8> {
    let many = "1".repeat(digits);
    format!("POLYGON (({many} 0, {second} 0, 1 1, {many} 0))").into_bytes()
}

/// The drawings in examples/.
const EXAMPLES: [&str; 5] = [
    include_str!("../../examples/cover.wkt"),
    include_str!("../../examples/gasket.wkt"),
    include_str!("../../examples/mirrored.wkt"),
    include_str!("../../examples/slotted.wkt"),
    include_str!("../../examples/square.wkt"),
];

/// Lines that tell neighbouring rules apart, and the examples.
pub fn fixed() -> Vec<Vec<u8>> {
    #[rustfmt::skip]
    let texts = [
        "POLYGON ((0 0, 4 0, 4 4, 0 4, 0 0))", "POLYGON ((0 0, 4 0, 0 4, 0 0))", "POLYGON ((99999 0, 1 0, 1 1, 88888 0))", "POLYGON ((99999 0, 1 0, 1 1, 99999 0))",
        "POLYGON ((5 5, 5 5))", "POLYGON ((5 5))", "POLYGON ((5 5, 6 6, 5 5))", "POLYGON ((00 0, 4 0, 0 4, 00 0))", "POLYGON ((-0 0, 4 0, 0 4, -0 0))", "POLYGON ((+1 0, 4 0, 0 4, +1 0))",
        "POLYGON ((0 0, 1024 0, 0 -1024, 0 0))", "POLYGON ((0 0, 1025 0, 0 4, 0 0))", "POLYGON ((0 0, -1025 0, 0 4, 0 0))", "POLYGON ((0 0, 0 0, 4 0, 0 0))",
        "POLYGON ((0 0, 0 4, 4 4, 4 0, 0 0))", "POLYGON ((0 0, 1 0, 2 0, 3 0, 0 0))", "POLYGON ((0 0, 0 4, 4 0, 0 0))", "POLYGON ((0 0, 0 1, 1 1, 2 0, 0 2, 0 0))", "POLYGON ((0 0, 0 1, 1 0, 1 2, 0 0))", "POLYGON((0 0, 4 0, 0 4, 0 0))", "polygon ((0 0, 4 0, 0 4, 0 0))", "POLYGON ((0 0,4 0,0 4,0 0))",
        "POLYGON ((0  0, 4 0, 0 4, 0 0))", "POLYGON ((0\t0, 4 0, 0 4, 0 0))", "POLYGON ((0 0, 4 0, 0 4, 0 0)) ", "POLYGON ((0 0, 4 0, 0 4, 0 0))\r", "POLYGON ((0 0, 4 0, 0 4, 0 0), (1 1, 2 1, 1 2, 1 1))",
        "POLYGON ((0 0, 1 0, 0 0, 0 1, 0 0))", "POLYGON ((0 0, 4 0, 4 4, 0 4, 4 0, 0 0))", "POLYGON ((0 0, 3 0, 3 3, 0 3, 0 0, 1 1, 1 2, 2 2, 2 1, 1 1, 0 0))",
        "POLYGON EMPTY", "POLYGON (())", "POLYGON ((", "POLYGON ((0 0, 4 0, 0 4, 0 0)", "", " ", "11",
    ];
    let mut lines: Vec<Vec<u8>> = texts.iter().map(|t| t.as_bytes().to_vec()).collect();
    lines.extend(EXAMPLES.map(|text| text.trim_end().as_bytes().to_vec()));
    lines.push(long(4082, "1"));
    lines.push(long(4082, "10"));
    lines.extend([1024, -1024].map(|right| polygon(&round_the_grid(right)).into_bytes()));
    for (corners, end) in [(512, "0 0))"), (513, "0 0))"), (513, "0 0) )"), (514, "0 1))")] {
        lines.push(["POLYGON ((".to_string(), "0 0, ".repeat(corners), end.to_string()].concat().into_bytes());
    }
    lines
}

/// Those that a line has, and some others.
const BYTES: &[u8] = b"POLYGON(), -0123456789\t\r+.";

/// Some of these bytes put in, or put in place of others, or others taken out.
pub fn damage(r: &mut Random, line: &mut Vec<u8>, bytes: &[u8]) {
    for _ in 0..1 + r.below(3) {
        let byte = bytes[r.below(bytes.len())];
        let at = r.below(line.len());
        match r.below(3) {
            0 => line[at] = byte,
            1 => line.insert(at, byte),
            _ => drop(line.remove(at)),
        }
    }
}

/// At times one corner at the end of the grid, or beyond it.
pub fn at_the_end(r: &mut Random, outline: &mut Outline) {
    if r.below(8) == 0 && !outline.is_empty() {
        let at = r.below(outline.len());
        outline[at].0 = [1024, -1024, 1025, -1025, i32::MAX, i32::MIN][r.below(6)];
    }
}

/// A line, most often in form.
pub fn random(r: &mut Random) -> Vec<u8> {
    let mut outline = random_outline(r);
    at_the_end(r, &mut outline);
    let mut line = polygon(&outline).into_bytes();
    if r.below(3) == 0 {
        damage(r, &mut line, BYTES);
    }
    line.retain(|&b| b != b'\n');
    line
}

/// Room for the answer to a line, most often enough: 15 bytes, and 56 for each comma but the last two.
pub fn room(r: &mut Random, line: &[u8]) -> usize {
    let commas = line.iter().filter(|&&b| b == b',').count();
    about(r, 15 + 56 * commas.saturating_sub(2))
}
