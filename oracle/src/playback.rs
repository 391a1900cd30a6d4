//! What must come back of a log, from request M-107: each line read with Rust's own means, and each spot asked by itself, as `expected` has it,
//! of the outline that was accepted last.
use crate::expected::{point_in_convex_poly2d, point_in_poly2d, Verdict};
use crate::lent::bytes_of_floats;
use crate::text;

/// A line in form, with the numbers of its points.
pub enum Event {
    Polygon(Vec<f32>),
    Triangle(Vec<f32>),
    Point(f32, f32),
}

fn floats(corners: &[(&str, &str)]) -> Vec<f32> {
    corners.iter().flat_map(|&(x, y)| [text::whole(x), text::whole(y)]).collect()
}

/// What a line says, where it is in form.
pub fn event(line: &[u8]) -> Option<Event> {
    if let Some((x, y)) = text::spot(line) {
        return Some(Event::Point(text::whole(x), text::whole(y)));
    }
    if let Some(corners) = text::corners(line) {
        return Some(Event::Polygon(floats(&corners)));
    }
    text::three_corners(line).map(|corners| Event::Triangle(floats(&corners)))
}

/// The lines of a log without their newlines. Nothing at all after the last newline is no line.
pub fn lines(log: &[u8]) -> impl Iterator<Item = &[u8]> {
    log.split_inclusive(|&b| b == b'\n').map(|line| line.strip_suffix(b"\n").unwrap_or(line))
}

type Test = fn(f32, f32, &[u8]) -> Verdict;

/// The test that spots are asked by, and the outline that they are asked of.
pub struct InForce {
    test: Test,
    coords: Vec<u8>,
}

impl Default for InForce {
    fn default() -> InForce {
        InForce { test: point_in_poly2d, coords: Vec::new() }
    }
}

impl InForce {
    /// Takes an outline where its test does; gives the test's number.
    fn set(&mut self, test: Test, floats: &[f32]) -> u32 {
        let coords = bytes_of_floats(floats);
        let number = test(0.0, 0.0, &coords).number;
        if number == 0 {
            *self = InForce { test, coords };
        }
        number
    }

    fn ask(&self, x: f32, y: f32) -> String {
        match (self.test)(x, y, &self.coords) {
            Verdict { number: 0, answer } => ["outside", "inside", "border"][answer as usize].to_string(),
            Verdict { number, .. } => number.to_string(),
        }
    }

    /// What must be written for the next line.
    pub fn answer(&mut self, line: &[u8]) -> String {
        match event(line) {
            None => 11.to_string(),
            Some(Event::Polygon(floats)) => self.set(point_in_poly2d, &floats).to_string(),
            Some(Event::Triangle(floats)) => self.set(point_in_convex_poly2d, &floats).to_string(),
            Some(Event::Point(x, y)) => self.ask(x, y),
        }
    }
}

/// What must be written for a log.
pub fn answers(log: &[u8]) -> Vec<u8> {
    let mut in_force = InForce::default();
    lines(log).flat_map(|line| (in_force.answer(line) + "\n").into_bytes()).collect()
}
