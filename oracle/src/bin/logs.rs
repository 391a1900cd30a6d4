//! logs SECONDS SEED COMMAND..: runs the program `playback` as COMMAND on the fixed logs, and then on random ones for so many seconds, handing each
//! over in several ways, and compares what it writes. Exit status 1 at the first difference.
use oracle::handing::{at_once, in_pieces};
use oracle::logs::{fixed, random};
use oracle::playback::{answers, lines};
use oracle::random::Random;
use std::process::exit;
use std::time::{Duration, Instant};

/// Where the log of a difference is written.
const KEPT: &str = "target/difference.log";

fn fail(log: &[u8], way: &str, what: &str) -> ! {
    eprintln!("logs: playback of a log of {} bytes and {} lines, {way}: {what}", log.len(), lines(log).count());
    match std::fs::write(KEPT, log) {
        Ok(()) => eprintln!("logs: the log is in {KEPT}"),
        Err(e) => eprintln!("logs: {KEPT} cannot be written: {e}"),
    }
    exit(1);
}

/// A line for a person to read, with the middle of a long one left out.
fn shown(line: Option<&[u8]>) -> String {
    match line {
        None => "nothing".to_string(),
        Some(line) if line.len() <= 200 => format!("\"{}\"", line.escape_ascii()),
        Some(line) => format!("\"{}..{}\" ({} bytes)", line[..150].escape_ascii(), line[line.len() - 40..].escape_ascii(), line.len()),
    }
}

/// The first line of a log whose answer is another, with the outline that was set last before it.
fn difference(log: &[u8], written: &[u8], expected: &[u8]) -> String {
    let at = lines(written).zip(lines(expected)).take_while(|(ours, theirs)| ours == theirs).count();
    let set = lines(log).zip(lines(expected)).take(at).filter(|(_, answer)| answer == b"0").last();
    let [line, ours, theirs] = [log, written, expected].map(|text| shown(lines(text).nth(at)));
    let in_force = shown(set.map(|(line, _)| line));
    let number = at + 1;
    format!("line {number}\n  in force: {in_force}\n  line:     {line}\n  writes:   {ours}\n  expected: {theirs}")
}

/// Pieces of random sizes, a thousand of them at most by and large.
fn random_pieces<'a>(r: &mut Random, mut log: &'a [u8]) -> Vec<&'a [u8]> {
    let most = [2, 5, 20, 100, 4096, 8193, 65536][r.below(7)].max(log.len() / 500);
    let mut pieces = Vec::new();
    while !log.is_empty() {
        let (piece, rest) = log.split_at((1 + r.below(most)).min(log.len()));
        pieces.push(piece);
        log = rest;
    }
    pieces
}

/// Hands a log over in every way that does not take too long.
fn play(command: &[String], r: &mut Random, log: &[u8]) {
    let expected = answers(log);
    let compare = |way: &str, played: Result<Vec<u8>, String>| match played {
        Err(what) => fail(log, way, &format!("it {what}")),
        Ok(written) if written != expected => fail(log, way, &difference(log, &written, &expected)),
        Ok(_) => (),
    };
    compare("at once", at_once(command, log));
    compare("in pieces of random sizes", in_pieces(command, &random_pieces(r, log)));
    if lines(log).count() <= 300 {
        compare("line by line", in_pieces(command, &log.split_inclusive(|&b| b == b'\n').collect::<Vec<_>>()));
    }
    if log.len() <= 2000 {
        compare("byte by byte", in_pieces(command, &log.chunks(1).collect::<Vec<_>>()));
    }
}

fn main() {
    let words: Vec<String> = std::env::args().skip(1).collect();
    let number = |i: usize| words.get(i).and_then(|w| w.parse::<u64>().ok());
    let (Some(seconds), Some(seed), Some(command)) = (number(0), number(1), words.get(2..).filter(|c| !c.is_empty())) else {
        eprintln!("usage: logs SECONDS SEED COMMAND..");
        exit(2);
    };
    let mut r = Random::new(seed);
    let fixed = fixed();
    fixed.iter().for_each(|log| play(command, &mut r, log));
    let begin = Instant::now();
    let (mut logs, mut count) = (0, fixed.iter().map(|log| lines(log).count()).sum::<usize>());
    while begin.elapsed() < Duration::from_secs(seconds) {
        let log = random(&mut r);
        play(command, &mut r, &log);
        logs += 1;
        count += lines(&log).count();
    }
    println!("oracle: the program playback on {} fixed logs and {logs} random ones from seed {seed}, {count} lines, at once, in pieces, line by line and byte by byte: no difference", fixed.len());
}
