//! crate_playback < LOG: what the program `playback` does, with the crate's two point tests and Rust's own reading and writing, for the benchmark.
//! The crate knows no border.
use oracle::math::Vector;
use oracle::parry::{point_in_convex_poly2d, point_in_poly2d};
use oracle::playback::{event, Event};
use std::io::{stdin, stdout, BufRead, BufReader, BufWriter, Result, Write};

const ROOM: usize = 1 << 16;

fn on_grid(x: f32) -> bool {
    (-1024.0..=1024.0).contains(&x)
}

/// The outline in force, and whether it is asked by the convex test.
#[derive(Default)]
struct InForce {
    convex: bool,
    points: Vec<Vector>,
}

impl InForce {
    fn set(&mut self, convex: bool, floats: &[f32]) -> &'static str {
        if floats.len() > 2 * 512 {
            return "3\n";
        }
        if !floats.iter().all(|&x| on_grid(x)) {
            return "4\n";
        }
        let points = floats.chunks_exact(2).map(|c| Vector::new(c[0], c[1])).collect();
        *self = InForce { convex, points };
        "0\n"
    }

    fn ask(&self, x: f32, y: f32) -> &'static str {
        if !on_grid(x) || !on_grid(y) {
            return "4\n";
        }
        let test = if self.convex { point_in_convex_poly2d } else { point_in_poly2d };
        if test(Vector::new(x, y), &self.points) {
            "inside\n"
        } else {
            "outside\n"
        }
    }

    fn answer(&mut self, line: &[u8]) -> &'static str {
        match event(line) {
            None => "11\n",
            Some(Event::Polygon(floats)) => self.set(false, &floats),
            Some(Event::Triangle(floats)) => self.set(true, &floats),
            Some(Event::Point(x, y)) => self.ask(x, y),
        }
    }
}

fn main() -> Result<()> {
    let mut input = BufReader::with_capacity(ROOM, stdin().lock());
    let mut output = BufWriter::with_capacity(ROOM, stdout().lock());
    let mut in_force = InForce::default();
    let mut line = Vec::new();
    while input.read_until(b'\n', &mut line)? > 0 {
        let answer = in_force.answer(line.strip_suffix(b"\n").unwrap_or(&line));
        output.write_all(answer.as_bytes())?;
        line.clear();
        if input.buffer().is_empty() {
            output.flush()?;
        }
    }
    output.flush()
}
