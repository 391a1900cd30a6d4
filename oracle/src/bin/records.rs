//! records SECONDS SEED: writes records to standard output for so many seconds, and then says on standard error how many inputs they have.
//! records --show NUMBER SEED: prints one of them for a person to read.
//!
//! The order depends on the seed alone: a 256th of the short inputs, a 256th of the roots and a random run, 256 times, then random runs.
use oracle::inputs::{random, short, Side, ROOTS, SHORT};
use oracle::random::Random;
use oracle::records::{shown, Records};
use std::io::{BufWriter, Write};
use std::time::{Duration, Instant};

const TURNS: usize = 256;

/// Part `turn` of so many.
fn part(all: usize, turn: usize) -> std::ops::Range<usize> {
    all * turn / TURNS..all * (turn + 1) / TURNS
}

fn write(seconds: u64, seed: u64, put: impl FnMut(u64, &[u8])) -> String {
    let mut side = Records::new(put);
    let mut r = Random::new(seed);
    let (mut shorts, mut roots) = (0, 0);
    let begin = Instant::now();
    let mut turn = 0;
    while begin.elapsed() < Duration::from_secs(seconds) {
        if turn < TURNS {
            let before = side.inputs;
            part(SHORT, turn).for_each(|i| short(&mut side, i));
            shorts += side.inputs - before;
            let radicands = part(ROOTS as usize, turn);
            side.roots(radicands.start as u32, radicands.len() as u32);
            roots += radicands.len();
        }
        random(&mut side, &mut r);
        turn += 1;
    }
    let all = |yes: bool| if yes { ", all of them" } else { "" };
    let over = turn >= TURNS;
    let others = side.inputs - shorts - roots as u64;
    let random = format!("{others} random ones from seed {seed}; {} cuts accepted, {} where a point is passed twice; {} spots on a border; {}", side.accepted, side.twice, side.border, side.hulls);
    format!("{} inputs: {shorts} short ones{}; {roots} roots{}; {random}", side.inputs, all(over), all(over))
}

fn main() {
    let words: Vec<String> = std::env::args().skip(1).collect();
    let number = |i: usize| words.get(i).and_then(|w| w.parse::<u64>().ok());
    match (words.first().map(String::as_str), number(0), number(1), number(2)) {
        (Some("--show"), _, Some(wanted @ 1..), Some(seed)) => {
            write(u64::MAX, seed, |n, record| {
                if n == wanted {
                    println!("record {n}, {}", shown(record));
                    std::process::exit(0);
                }
            });
        }
        (_, Some(seconds), Some(seed), None) => {
            let mut out = BufWriter::with_capacity(65536, std::io::stdout().lock());
            let said = write(seconds, seed, |_, record| {
                if out.write_all(record).is_err() {
                    eprintln!("records: whoever reads them has gone");
                    std::process::exit(1);
                }
            });
            out.flush().expect("standard output takes the records");
            eprintln!("{said}");
        }
        _ => {
            eprintln!("usage: records SECONDS SEED, records --show NUMBER SEED");
            std::process::exit(2);
        }
    }
}
