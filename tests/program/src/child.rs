//! The program as a child process: its input through a pipe, whole or in pieces, or from a file.

use std::fs::{self, File};
use std::io::{self, Read, Write};
use std::path::Path;
use std::process::{Child, ChildStdin, Command, ExitStatus, Stdio};
use std::thread;
use std::time::{Duration, Instant};

/// How long a program may take to end, or to answer, before it counts as hanging.
pub const PATIENCE: Duration = Duration::from_secs(30);

/// When the next piece of the input is written.
#[derive(Clone, Copy)]
pub enum Pace {
    /// As soon as the pipe takes it.
    AtOnce,
    /// When the program has read all pieces before it: every piece is then a read of its own.
    OneByOne,
}

/// What the program writes when it is fed these pieces through a pipe.
pub fn piped(mut command: Command, pieces: &[&[u8]], pace: Pace) -> Result<Vec<u8>, String> {
    command.stdin(Stdio::piped()).stdout(Stdio::piped());
    let mut child = command.spawn().map_err(cannot_run)?;
    let mut input = child.stdin.take().expect("a pipe");
    let id = child.id();
    thread::scope(|scope| {
        // A program that ends early breaks the pipe; its output shows it.
        scope.spawn(move || match pace {
            Pace::AtOnce => pieces.iter().try_for_each(|piece| input.write_all(piece)),
            Pace::OneByOne => one_by_one(&mut input, pieces, id),
        });
        output(&mut child)
    })
}

/// What the program writes when its standard input is a file of these bytes.
pub fn from_file(mut command: Command, input: &[u8]) -> Result<Vec<u8>, String> {
    let path = std::env::temp_dir().join(format!("lane-input-{}", std::process::id()));
    let file = fs::write(&path, input).and_then(|()| File::open(&path));
    let removed = fs::remove_file(&path);
    let file = file.and_then(|file| removed.map(|()| file));
    let file = file.map_err(|error| format!("no file for the input: {error}"))?;
    command.stdin(file).stdout(Stdio::piped());
    output(&mut command.spawn().map_err(cannot_run)?)
}

/// A shell that runs the program after its own words, which may have a `$0` for the program.
pub fn shell(words: &str, program: &Path) -> Command {
    let mut command = Command::new("sh");
    command.arg("-c").arg(words).arg(program);
    command
}

/// The status of a program that is to end by itself; one that does not is killed.
pub fn ended(child: &mut Child) -> Result<ExitStatus, String> {
    let begun = Instant::now();
    loop {
        match child.try_wait() {
            Ok(Some(status)) => return Ok(status),
            Ok(None) if begun.elapsed() < PATIENCE => thread::sleep(Duration::from_micros(300)),
            Ok(None) => {
                let ended = child.kill().and_then(|()| child.wait());
                let killed = ended.map_or_else(|error| error.to_string(), |_| "killed".into());
                return Err(format!("it does not end: {killed} after {PATIENCE:?}"));
            }
            Err(error) => return Err(format!("cannot wait for it: {error}")),
        }
    }
}

/// The error of a program that cannot be run.
pub fn cannot_run(error: io::Error) -> String {
    format!("it cannot be run: {error}")
}

/// All that the program writes until it ends, which it is to do with status 0.
fn output(child: &mut Child) -> Result<Vec<u8>, String> {
    let mut pipe = child.stdout.take().expect("a pipe");
    thread::scope(|scope| {
        let reader = scope.spawn(move || {
            let mut bytes = Vec::new();
            pipe.read_to_end(&mut bytes).map(|_| bytes)
        });
        let status = ended(child)?;
        let bytes = reader.join().expect("a reader");
        let bytes = bytes.map_err(|error| format!("its output cannot be read: {error}"))?;
        if status.success() {
            Ok(bytes)
        } else {
            let written = bytes.len();
            Err(format!("it ends with {status}, {written} bytes written"))
        }
    })
}

/// Writes each piece when the process has read those before it.
fn one_by_one(input: &mut ChildStdin, pieces: &[&[u8]], id: u32) -> io::Result<()> {
    // Its loader reads too; it is done when the process waits for the first piece.
    await_that(|| process(id, "stat").is_none_or(|text| text.contains(") S ")));
    let mut read = bytes_read(id).unwrap_or(0);
    for piece in pieces {
        input.write_all(piece)?;
        read += piece.len() as u64;
        await_that(|| bytes_read(id).is_none_or(|so_far| so_far >= read));
    }
    Ok(())
}

/// The bytes that a process has read so far; none when it has ended.
pub fn bytes_read(id: u32) -> Option<u64> {
    let text = process(id, "io")?;
    let rest = text.strip_prefix("rchar: ")?;
    rest.lines().next()?.parse().ok()
}

/// What the kernel says of a process; none when it has ended.
fn process(id: u32, file: &str) -> Option<String> {
    fs::read_to_string(format!("/proc/{id}/{file}")).ok()
}

/// Asks again and again, at first without a rest.
fn await_that(condition: impl Fn() -> bool) {
    let begun = Instant::now();
    let mut turns = 0;
    while !condition() && begun.elapsed() < PATIENCE {
        turns += 1;
        if turns < 200 {
            thread::yield_now();
        } else {
            thread::sleep(Duration::from_micros(100));
        }
    }
}
