//! lines SECONDS SEED COMMAND..: runs the program `fill` as COMMAND on lines for so many seconds, the fixed ones first, and compares what it
//! writes. Exit status 1 at the first difference.
use oracle::lines::{fixed, random};
use oracle::random::Random;
use oracle::text::answer;
use std::io::Write;
use std::process::{exit, Command, Stdio};
use std::time::{Duration, Instant};

/// Standard output and standard error of a run on some input.
fn run(command: &[String], words: &[&str], input: &[u8]) -> (String, String) {
    let mut child = Command::new(&command[0])
        .args(&command[1..])
        .args(words)
        .stdin(Stdio::piped())
        .stdout(Stdio::piped())
        .stderr(Stdio::piped())
        .spawn()
        .unwrap_or_else(|e| fail(&format!("{command:?} cannot be started: {e}")));
    // the program reads no more than the first line, so that the rest may find nobody
    let _ = child.stdin.take().expect("a pipe").write_all(input);
    let out = child.wait_with_output().expect("the program ends");
    (String::from_utf8_lossy(&out.stdout).into_owned(), String::from_utf8_lossy(&out.stderr).into_owned())
}

fn fail(what: &str) -> ! {
    eprintln!("lines: {what}");
    exit(1);
}

fn compare(command: &[String], words: &[&str], input: &[u8], expected: (&str, &str)) {
    let (out, err) = run(command, words, input);
    if (out.as_str(), err.as_str()) != expected {
        fail(&format!("fill {words:?} on {:?}\n  writes:   {out:?} {err:?}\n  expected: {expected:?}", String::from_utf8_lossy(input)));
    }
}

/// Both plans of a line, with one of the ways in which a line may end.
fn line(command: &[String], line: &[u8], ending: &[u8]) {
    let input = [line, ending].concat();
    compare(command, &[], &input, (&answer(line, false), ""));
    compare(command, &["triangles"], &input, (&answer(line, true), ""));
}

const ENDINGS: [&[u8]; 4] = [b"\n", b"", b"\nPOLYGON ((0 0, 1 0, 0 1, 0 0))\n", b"\n\n"];
const USAGE: &str = "usage: fill [triangles] < OUTLINE\n";

fn main() {
    let words: Vec<String> = std::env::args().skip(1).collect();
    let number = |i: usize| words.get(i).and_then(|w| w.parse::<u64>().ok());
    let (Some(seconds), Some(seed), Some(command)) = (number(0), number(1), words.get(2..).filter(|c| !c.is_empty())) else {
        eprintln!("usage: lines SECONDS SEED COMMAND..");
        exit(2);
    };
    let begin = Instant::now();
    for wrong in [&["areas"][..], &["triangle"], &["triangles1"], &[""], &["triangles", "triangles"]] {
        compare(command, wrong, b"POLYGON ((0 0, 1 0, 0 1, 0 0))\n", ("", USAGE));
    }
    let fixed = fixed();
    for (i, text) in fixed.iter().enumerate() {
        line(command, text, ENDINGS[i % 2]);
    }
    let mut r = Random::new(seed);
    let mut lines = 0;
    let mut accepted = 0;
    while begin.elapsed() < Duration::from_secs(seconds) {
        let text = random(&mut r);
        line(command, &text, ENDINGS[r.below(ENDINGS.len())]);
        lines += 1;
        accepted += answer(&text, false).starts_with('M') as u64;
    }
    println!("oracle: the program fill on {} fixed lines and {lines} random ones from seed {seed}, {accepted} of these filled, by both plans: no difference", fixed.len());
}
