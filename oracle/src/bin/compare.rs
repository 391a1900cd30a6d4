//! compare [SECONDS] [SEED]: all short inputs, all roots and some lines, then random inputs for so many seconds. Exit status 1 at the first difference.
use oracle::checks::Linked;
use oracle::inputs::{random, short, Side, ROOTS, SHORT};
use oracle::lines;
use oracle::random::Random;
use std::time::{Duration, Instant};

fn main() {
    let mut args = std::env::args().skip(1).map(|a| a.parse::<u64>().expect("a number"));
    let (seconds, seed) = (args.next().unwrap_or(30), args.next().unwrap_or(1));
    let mut side = Linked::default();
    (0..SHORT).for_each(|i| short(&mut side, i));
    println!("oracle: {} short inputs, all of them: no difference", side.inputs);
    side.roots(0, ROOTS);
    println!("oracle: {ROOTS} roots, bit for bit: no difference");
    let mut side = Linked::default();
    lines::fixed().iter().for_each(|line| side.fill(line, 28575));
    println!("oracle: {} lines that tell rules apart, by both plans: no difference", side.inputs / 2);
    let mut side = Linked::default();
    let mut r = Random::new(seed);
    let begin = Instant::now();
    while begin.elapsed() < Duration::from_secs(seconds) {
        random(&mut side, &mut r);
        let line = lines::random(&mut r);
        side.fill(&line, lines::room(&mut r, &line));
    }
    println!("oracle: {} random inputs from seed {seed}: no difference", side.inputs);
    println!("oracle: of them {} cuts accepted, {} where a point is passed twice, {} spots on a border, and {} lines filled", side.accepted, side.twice, side.border, side.filled);
    println!("oracle: and {}", side.hulls);
}
