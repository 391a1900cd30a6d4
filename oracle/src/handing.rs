//! A program that is run on a log, which it is handed at once, or in pieces: each when the one before it has been read and all lines have been
//! answered that it ended.
//!
//! The pipe is an ordinary one. One that keeps pieces apart by itself (O_DIRECT) drops what the program has no room for in a single read.
use std::ffi::{c_int, c_ulong};
use std::io::{Read, Write};
use std::os::fd::AsRawFd;
use std::process::{Child, ChildStdin, Command, Stdio};
use std::sync::mpsc::{channel, Receiver, RecvTimeoutError};
use std::thread;
use std::time::{Duration, Instant};

extern "C" {
    fn ioctl(file: c_int, request: c_ulong, ...) -> c_int;
}

/// Linux's request for the number of bytes in a pipe that wait to be read.
const FIONREAD: c_ulong = 0x541B;

/// How long a program may neither read nor write.
const PATIENCE: Duration = Duration::from_secs(10);

fn waiting(pipe: &ChildStdin) -> c_int {
    let mut bytes: c_int = 0;
    // SAFETY: the pipe is open, and the request writes one number to where it is told
    let status = unsafe { ioctl(pipe.as_raw_fd(), FIONREAD, &mut bytes as *mut c_int) };
    assert_eq!(status, 0, "a pipe tells how many bytes wait in it");
    bytes
}

/// Writes a piece and waits until it has been read.
fn hand_over(pipe: &mut ChildStdin, piece: &[u8]) -> Result<(), String> {
    pipe.write_all(piece).map_err(|e| format!("does not read on: {e}"))?;
    let begin = Instant::now();
    while waiting(pipe) > 0 {
        if begin.elapsed() > PATIENCE {
            return Err(format!("has not read on for {} seconds", PATIENCE.as_secs()));
        }
        thread::yield_now();
    }
    Ok(())
}

/// What comes out of a pipe, as it comes.
fn listen(mut pipe: impl Read + Send + 'static) -> Receiver<Vec<u8>> {
    let (send, heard) = channel();
    thread::spawn(move || {
        let mut room = vec![0; 65536];
        while let Ok(bytes @ 1..) = pipe.read(&mut room) {
            if send.send(room[..bytes].to_vec()).is_err() {
                break;
            }
        }
    });
    heard
}

/// A program that runs, and what it has written so far.
struct Program {
    child: Child,
    output: Receiver<Vec<u8>>,
    errors: Receiver<Vec<u8>>,
    written: Vec<u8>,
    answers: usize,
}

impl Program {
    fn start(command: &[String]) -> Result<(Program, ChildStdin), String> {
        let mut child = Command::new(&command[0])
            .args(&command[1..])
            .stdin(Stdio::piped())
            .stdout(Stdio::piped())
            .stderr(Stdio::piped())
            .spawn()
            .map_err(|e| format!("cannot be started: {e}"))?;
        let input = child.stdin.take().expect("a pipe");
        let output = listen(child.stdout.take().expect("a pipe"));
        let errors = listen(child.stderr.take().expect("a pipe"));
        Ok((Program { child, output, errors, written: Vec::new(), answers: 0 }, input))
    }

    /// Takes in what the program writes next; false where it will write no more.
    fn hear(&mut self) -> Result<bool, String> {
        match self.output.recv_timeout(PATIENCE) {
            Ok(bytes) => {
                self.answers += bytes.iter().filter(|&&b| b == b'\n').count();
                self.written.extend(bytes);
                Ok(true)
            }
            Err(RecvTimeoutError::Disconnected) => Ok(false),
            Err(RecvTimeoutError::Timeout) => Err(format!("has written {} lines, and for {} seconds no more", self.answers, PATIENCE.as_secs())),
        }
    }

    fn hear_answers(&mut self, wanted: usize) -> Result<(), String> {
        while self.answers < wanted {
            if !self.hear()? {
                return Err(format!("ends after {} lines", self.answers));
            }
        }
        Ok(())
    }

    /// All that the program has written when it has ended.
    fn end(mut self) -> Result<Vec<u8>, String> {
        while self.hear()? {}
        let errors: Vec<u8> = self.errors.iter().flatten().collect();
        let status = self.child.wait().map_err(|e| e.to_string())?;
        if !errors.is_empty() || !status.success() {
            return Err(format!("ends with {status} and says {:?}", String::from_utf8_lossy(&errors)));
        }
        Ok(std::mem::take(&mut self.written))
    }
}

impl Drop for Program {
    fn drop(&mut self) {
        let _ = self.child.kill();
        let _ = self.child.wait();
    }
}

/// What a program writes for a log that is written to it as fast as it reads, or what it does wrong.
pub fn at_once(command: &[String], log: &[u8]) -> Result<Vec<u8>, String> {
    let (program, mut input) = Program::start(command)?;
    thread::scope(|scope| {
        // where the program reads no further, what it has written tells so
        scope.spawn(move || drop(input.write_all(log)));
        program.end()
    })
}

/// What a program writes for a log in these pieces, or what it does wrong.
pub fn in_pieces(command: &[String], pieces: &[&[u8]]) -> Result<Vec<u8>, String> {
    let (mut program, mut input) = Program::start(command)?;
    let (mut bytes, mut lines) = (0, 0);
    for piece in pieces {
        bytes += piece.len();
        lines += piece.iter().filter(|&&b| b == b'\n').count();
        let handed = hand_over(&mut input, piece).and_then(|()| program.hear_answers(lines));
        handed.map_err(|what| format!("{what}, where it has been handed {bytes} bytes with {lines} ends of lines"))?;
    }
    drop(input);
    program.end()
}
