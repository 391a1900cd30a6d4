//! playback_bench COMMAND..: the program `playback`, run as COMMAND, and the crate's two point tests in `crate_playback`, in turn on the same logs;
//! prints a table of lines a second. Exit status 1 where they answer differently, but for spots that ours calls border.
use oracle::random::Random;
use oracle::shapes::{cover, Outline};
use oracle::text::{point, polygon};
use std::fs::File;
use std::io::{BufWriter, Result, Write};
use std::process::{exit, Command, Stdio};
use std::time::Instant;

const SPOTS: usize = 1_000_000;
const ROUNDS: usize = 5;

fn fail(what: &str) -> ! {
    eprintln!("playback_bench: {what}");
    exit(1);
}

/// An outline, and spots at random in its box.
fn write_log(path: &str, outline: &Outline) -> Result<()> {
    let ends = |of: fn(&(i32, i32)) -> i32| (outline.iter().map(of).min().expect("a corner"), outline.iter().map(of).max().expect("a corner"));
    let ((left, right), (low, high)) = (ends(|p| p.0), ends(|p| p.1));
    let mut r = Random::new(1);
    let mut log = BufWriter::new(File::create(path)?);
    writeln!(log, "{}", polygon(outline))?;
    for _ in 0..SPOTS {
        writeln!(log, "{}", point((r.within(left, right), r.within(low, high))))?;
    }
    log.flush()
}

/// The seconds that a program takes for a log.
fn run(command: &[String], log: &str, output: Stdio) -> Result<f64> {
    let input = File::open(log)?;
    let begin = Instant::now();
    let status = Command::new(&command[0]).args(&command[1..]).stdin(input).stdout(output).status()?;
    let seconds = begin.elapsed().as_secs_f64();
    if !status.success() {
        fail(&format!("{command:?} ends with {status}"));
    }
    Ok(seconds)
}

/// Both programs' answers to a log must be the same where ours is not border; says how many of ours are.
fn compare(commands: [&[String]; 2], log: &str) -> Result<usize> {
    let mut written = Vec::new();
    for command in commands {
        let path = "target/playback.out";
        run(command, log, File::create(path)?.into())?;
        written.push(std::fs::read_to_string(path)?);
    }
    let [ours, theirs] = [0, 1].map(|i| written[i].lines().collect::<Vec<_>>());
    for (i, (a, b)) in ours.iter().zip(&theirs).enumerate() {
        if a != b && *a != "border" {
            fail(&format!("line {} of {log}: ours writes {a}, and the crate's {b}", i + 1));
        }
    }
    if ours.len() != SPOTS + 1 || theirs.len() != SPOTS + 1 {
        fail(&format!("{log}: ours writes {} lines, and the crate's {}", ours.len(), theirs.len()));
    }
    Ok(ours.iter().filter(|&&a| a == "border").count())
}

fn measure(commands: [&[String]; 2], corners: usize) -> Result<()> {
    let log = format!("target/playback-{corners}.log");
    write_log(&log, &cover(corners))?;
    let border = compare(commands, &log)?;
    let mut least = [f64::INFINITY; 2];
    for _ in 0..ROUNDS {
        for (seconds, command) in least.iter_mut().zip(commands) {
            *seconds = seconds.min(run(command, &log, Stdio::null())?);
        }
    }
    let [ours, theirs] = least;
    let speed = |seconds: f64| (SPOTS + 1) as f64 / seconds;
    println!("| {corners} | {border} | {:.0} | {:.0} | {:.2} |", speed(ours), speed(theirs), ours / theirs);
    Ok(())
}

fn main() -> Result<()> {
    let ours: Vec<String> = std::env::args().skip(1).collect();
    if ours.is_empty() {
        eprintln!("usage: playback_bench COMMAND..");
        exit(2);
    }
    let theirs = std::env::current_exe()?.with_file_name("crate_playback");
    let theirs = [theirs.to_str().expect("a path in UTF-8").to_string()];
    println!("Playback of a log of one cover and {SPOTS} spots in its box:");
    println!();
    println!("| corners | spots on the border | ours, lines a second | the crate, lines a second | ours / the crate, by time |");
    println!("|---:|---:|---:|---:|---:|");
    [64, 512].into_iter().try_for_each(|corners| measure([&ours, &theirs], corners))
}
