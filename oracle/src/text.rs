//! What must come back of a line, from request M-101: read with Rust's own means, cut and merged as `expected` has it, and written.
use crate::expected::{self, Answer};
use crate::lent::{bytes_of, bytes_of_floats, words};

/// A number as it is written: no leading zero, no `-0`, nothing but digits and a minus.
fn number(text: &str) -> Option<&str> {
    let digits = text.strip_prefix('-').unwrap_or(text);
    let canonical = match digits.as_bytes() {
        [] => false,
        [b'0'] => text == "0",
        [b'0', ..] => false,
        all => all.iter().all(u8::is_ascii_digit),
    };
    canonical.then_some(text)
}

/// The two numbers of a point.
fn pair(text: &str) -> Option<(&str, &str)> {
    let (x, y) = text.split_once(' ')?;
    Some((number(x)?, number(y)?))
}

/// What stands between these in a line that is not too long.
fn between<'a>(line: &'a [u8], before: &str, after: &str) -> Option<&'a str> {
    if line.len() > 8192 {
        return None;
    }
    std::str::from_utf8(line).ok()?.strip_prefix(before)?.strip_suffix(after)
}

/// The points of a ring but the last, which must be the first again.
fn closed(ring: &str) -> Option<Vec<(&str, &str)>> {
    let mut points = ring.split(", ").map(pair).collect::<Option<Vec<_>>>()?;
    let closing = points.pop()?;
    (points.first() == Some(&closing)).then_some(points)
}

/// The corners of a POLYGON line as written, where it is in form.
pub fn corners(line: &[u8]) -> Option<Vec<(&str, &str)>> {
    closed(between(line, "POLYGON ((", "))")?)
}

/// The three corners of a TRIANGLE line as written, where it is in form.
pub fn three_corners(line: &[u8]) -> Option<Vec<(&str, &str)>> {
    closed(between(line, "TRIANGLE ((", "))")?).filter(|corners| corners.len() == 3)
}

/// The spot of a POINT line as written, where it is in form.
pub fn spot(line: &[u8]) -> Option<(&str, &str)> {
    pair(between(line, "POINT (", ")")?)
}

/// The number of a text, or where it is far off the grid another one that is off it.
pub fn whole(text: &str) -> f32 {
    text.parse::<i32>().map_or(4096.0, |n| n as f32)
}

fn ring(points: &[(i32, i32)]) -> String {
    let closed = points.iter().chain(points.first());
    let texts: Vec<String> = closed.map(|(x, y)| format!("{x} {y}")).collect();
    format!("({})", texts.join(", "))
}

pub fn polygon(points: &[(i32, i32)]) -> String {
    format!("POLYGON ({})", ring(points))
}

pub fn triangle(points: &[(i32, i32)]) -> String {
    format!("TRIANGLE ({})", ring(points))
}

pub fn point((x, y): (i32, i32)) -> String {
    format!("POINT ({x} {y})")
}

pub fn multipolygon(areas: &[Vec<(i32, i32)>]) -> String {
    let texts: Vec<String> = areas.iter().map(|a| format!("({})", ring(a))).collect();
    format!("MULTIPOLYGON ({})", texts.join(", "))
}

/// The plan of a line, or the number of its refusal: 11, and then document 01's. Of the room for the text only its size is asked.
pub fn plan(line: &[u8], triangles_only: bool, room: usize) -> Result<String, u32> {
    let corners = corners(line).ok_or(11u32)?;
    let floats: Vec<f32> = corners.iter().flat_map(|&(x, y)| [whole(x), whole(y)]).collect();
    let coords = bytes_of_floats(&floats);
    let n = corners.len();
    let short = room < 15 + 56 * n.saturating_sub(2);
    let mut triangles = vec![0u8; if short { 0 } else { 12 * n.saturating_sub(2) }];
    let cut = expected::triangulate_ear_clipping(&coords, &mut triangles);
    if cut.number != 0 {
        return Err(cut.number);
    }
    let mut lengths = bytes_of(&vec![3; n - 2]);
    let mut indices = triangles.clone();
    let mut count = n - 2;
    if !triangles_only {
        let merged = expected::hertel_mehlhorn_idx(&coords, &triangles, &mut indices, &mut lengths);
        assert_eq!(merged.number, 0, "the merger takes what the cutter gives");
        count = merged.count as usize;
    }
    let point = |i: u32| (floats[2 * i as usize] as i32, floats[2 * i as usize + 1] as i32);
    let mut left = words(&indices).into_iter();
    let areas: Vec<Vec<(i32, i32)>> = words(&lengths)[..count].iter().map(|&len| left.by_ref().take(len as usize).map(point).collect()).collect();
    Ok(multipolygon(&areas))
}

/// The same over lent memory.
pub fn fill(line: &[u8], triangles_only: bool, out: &mut [u8]) -> Answer {
    match plan(line, triangles_only, out.len()) {
        Err(number) => Answer { number, count: 0 },
        Ok(text) => {
            out[..text.len()].copy_from_slice(text.as_bytes());
            Answer { number: 0, count: text.len() as u32 }
        }
    }
}

/// What the program writes to standard output.
pub fn answer(line: &[u8], triangles_only: bool) -> String {
    plan(line, triangles_only, 28575).unwrap_or_else(|number| number.to_string()) + "\n"
}
