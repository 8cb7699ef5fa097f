//! The program in narrow places: little memory, an output that takes nothing, no input.

use std::io::{Read, Write};
use std::process::{Command, Stdio};
use std::thread;

use crate::child::{self, Pace};
use crate::trials::{Trials, Verdict};

/// Lines of 50,000,000 bytes with 8,192 kilobytes of address space in all, the C library included.
pub fn little_memory(trials: &mut Trials) -> Verdict {
    let start = "(start (slots 1024) (tasks 16) (growth 0))\n(begin 15 (push left 0000000051))\n";
    for [before, fill, after] in [
        ["(tick ", "0", "15 1023 11)\n"],
        ["(lane)", " ", "\n"],
        ["", "9", "\n"],
    ] {
        let fill = fill.repeat(1_000_000);
        let mut pieces = vec![start.as_bytes(), before.as_bytes()];
        pieces.extend([fill.as_bytes()].repeat(50));
        pieces.extend([after.as_bytes(), b"(lane)\n"]);
        let command = child::shell("ulimit -v 8192 && exec \"$0\"", trials.path());
        let given = child::piped(command, &pieces, Pace::AtOnce);
        trials.hold("lines of 50 MB in 8 MB of memory", &pieces.concat(), given)?;
    }
    Ok(())
}

/// Outputs that fail while the input goes on without end: the program is to end. With and without the signal.
pub fn no_output(trials: &Trials) -> Verdict {
    for words in [
        "exec \"$0\"",
        "trap '' PIPE; exec \"$0\"",
        "exec \"$0\" >&-",
        "exec \"$0\" >/dev/full",
    ] {
        ends_unheard(child::shell(words, trials.path()))
            .map_err(|fault| format!("output that fails ({words}): {fault}"))?;
    }
    println!("an output that fails: the program ends");
    Ok(())
}

/// Reads one byte of the output and closes it.
fn ends_unheard(mut command: Command) -> Verdict {
    command.stdin(Stdio::piped()).stdout(Stdio::piped());
    let mut child = command.spawn().map_err(child::cannot_run)?;
    let mut input = child.stdin.take().expect("a pipe");
    let mut output = child.stdout.take().expect("a pipe");
    thread::scope(|scope| {
        scope.spawn(move || while input.write_all(b"(lane)\n").is_ok() {});
        scope.spawn(move || drop(output.read(&mut [0])));
        child::ended(&mut child).map(|_| ())
    })
}

/// An input that cannot be read counts as one that has ended.
pub fn no_input(trials: &mut Trials) -> Verdict {
    for words in ["exec \"$0\" <&-", "exec \"$0\" </"] {
        let given = child::piped(child::shell(words, trials.path()), &[], Pace::AtOnce);
        trials.hold("no input to read", b"", given)?;
    }
    Ok(())
}
