//! `./belt` in a scratch folder, with a program that prints its lines and an `rt` that proves nothing.

use std::fs::{self, File};
use std::io::Write;
use std::os::fd::OwnedFd;
use std::os::unix::fs::{symlink, PermissionsExt};
use std::os::unix::net::UnixStream;
use std::path::{Path, PathBuf};
use std::process::{Command, Output, Stdio};
use std::sync::atomic::{AtomicU32, Ordering};
use std::time::SystemTime;

/// What `./belt` calls, but for `rt`.
const TOOLS: [&str; 13] = [
    "bash", "env", "dirname", "readlink", "mktemp", "rm", "tac", "awk", "tee", "cat", "sh", "find",
    "touch",
];
/// What the program is, once it is built.
const PROGRAM: &str = "crates/lane/out/lane";
const PRINTS: &str = "cat";
const LINES: &str = "(lane)\n(lane)\n";
const PAPERS: &str = include_str!("../../../examples/belt.lines");

/// A folder with `belt`, what it reads, the tools that it calls and the programs that stand in; removed at the end.
struct Scratch(PathBuf);

impl Scratch {
    fn new(program: &str) -> Scratch {
        static NEXT: AtomicU32 = AtomicU32::new(0);
        let number = NEXT.fetch_add(1, Ordering::Relaxed);
        let name = format!("belt {} {number}", std::process::id());
        let scratch = Scratch(std::env::temp_dir().join(name));
        let repository = Path::new(env!("CARGO_MANIFEST_DIR")).join("../..");
        for folder in ["examples", "crates/lane/out", "tools"] {
            fs::create_dir_all(scratch.0.join(folder)).expect("a folder");
        }
        for file in ["belt", "crates.txt", "examples/belt.lines"] {
            fs::copy(repository.join(file), scratch.0.join(file)).expect("a copy");
        }
        let path = std::env::var_os("PATH").expect("a path");
        for tool in TOOLS {
            let found = std::env::split_paths(&path).map(|folder| folder.join(tool));
            let found = found.into_iter().find(|file| file.is_file());
            let found = found.unwrap_or_else(|| panic!("no {tool}"));
            symlink(found, scratch.0.join("tools").join(tool)).expect("a link");
        }
        scratch.script(PROGRAM, program);
        scratch
    }

    fn script(&self, name: &str, text: &str) {
        let file = self.0.join(name);
        fs::write(&file, format!("#!/bin/sh\n{text}\n")).expect("a script");
        fs::set_permissions(&file, fs::Permissions::from_mode(0o755)).expect("a program");
    }

    /// Makes the program older than what it is made from.
    fn age(&self) {
        let program = File::options().append(true).open(self.0.join(PROGRAM));
        let aged = program.and_then(|file| file.set_modified(SystemTime::UNIX_EPOCH));
        aged.expect("an old program");
    }

    fn command(&self, program: &Path) -> Command {
        let mut command = Command::new(program);
        command.env("PATH", self.0.join("tools")).current_dir("/");
        command
    }

    /// `./belt` with this standard input: its status, what it prints, what it says.
    fn belt(&self, input: impl Into<Stdio>) -> (Option<i32>, String, String) {
        let mut belt = self.command(&self.0.join("belt"));
        seen(belt.stdin(input).output().expect("belt runs"))
    }
}

impl Drop for Scratch {
    fn drop(&mut self) {
        let _ = fs::remove_dir_all(&self.0);
    }
}

fn seen(output: Output) -> (Option<i32>, String, String) {
    let text = |bytes| String::from_utf8(bytes).expect("text");
    (
        output.status.code(),
        text(output.stdout),
        text(output.stderr),
    )
}

fn file(scratch: &Scratch, lines: &str) -> File {
    let name = scratch.0.join("lines");
    fs::write(&name, lines).expect("a file");
    File::open(name).expect("a file")
}

#[test]
fn lines_come_from_a_file_a_pipe_and_a_socket() {
    let scratch = Scratch::new(PRINTS);
    for lines in [LINES, ""] {
        let from_file = scratch.belt(file(&scratch, lines));
        assert_eq!((from_file.0, from_file.1.as_str()), (Some(0), lines));
        assert!(from_file.2.contains("the lines of standard input"));

        let mut belt = scratch.command(&scratch.0.join("belt"));
        let piped = belt
            .stdin(Stdio::piped())
            .stdout(Stdio::piped())
            .stderr(Stdio::piped());
        let mut child = piped.spawn().expect("belt runs");
        let mut pipe = child.stdin.take().expect("a pipe");
        pipe.write_all(lines.as_bytes()).expect("room");
        drop(pipe);
        let from_pipe = seen(child.wait_with_output().expect("belt ends"));
        assert_eq!(from_pipe, from_file);

        let (read, mut write) = UnixStream::pair().expect("a socket");
        write.write_all(lines.as_bytes()).expect("room");
        drop(write);
        assert_eq!(scratch.belt(OwnedFd::from(read)), from_file);
    }
}

#[test]
fn the_papers_run_is_for_nothing_at_all() {
    let scratch = Scratch::new(PRINTS);
    let (status, printed, said) = scratch.belt(Stdio::null());
    assert_eq!((status, printed.as_str()), (Some(0), PAPERS));
    assert!(said.contains("the paper's run"));

    let mut closed = scratch.command(Path::new("bash"));
    closed
        .arg("-c")
        .arg("exec \"$0\" <&-")
        .arg(scratch.0.join("belt"));
    let (status, printed, _) = seen(closed.output().expect("bash runs"));
    assert_eq!((status, printed.as_str()), (Some(0), PAPERS));
}

#[test]
fn a_folder_is_no_paper() {
    let scratch = Scratch::new(PRINTS);
    let (status, printed, said) = scratch.belt(File::open("/").expect("a folder"));
    assert_eq!(printed, "");
    assert_ne!(status, Some(0), "{said}");
}

#[test]
fn what_the_program_says_is_a_status() {
    let scratch = Scratch::new("cat; echo 'cannot write' >&2");
    let (status, printed, said) = scratch.belt(file(&scratch, LINES));
    assert_eq!((status, printed.as_str()), (Some(1), LINES));
    assert!(said.ends_with("cannot write\n"), "{said}");

    let scratch = Scratch::new("cat; kill -TERM $$");
    let (status, printed, _) = scratch.belt(file(&scratch, LINES));
    assert_eq!((status, printed.as_str()), (Some(128 + 15), LINES));
}

#[test]
fn a_link_finds_the_folder() {
    let scratch = Scratch::new(PRINTS);
    let link = scratch.0.join("tools/run-belt");
    symlink(scratch.0.join("belt"), &link).expect("a link");
    let mut linked = scratch.command(&link);
    let (status, printed, _) = seen(linked.stdin(Stdio::null()).output().expect("belt runs"));
    assert_eq!((status, printed.as_str()), (Some(0), PAPERS));
}

#[test]
fn without_rt_it_says_that_nothing_was_checked() {
    let scratch = Scratch::new(PRINTS);
    let (_, _, said) = scratch.belt(Stdio::null());
    assert!(said.contains("nothing was checked"), "{said}");

    fs::remove_file(scratch.0.join(PROGRAM)).expect("a program");
    let (status, printed, said) = scratch.belt(Stdio::null());
    assert_eq!((status, printed.as_str()), (Some(1), ""));
    assert!(said.contains("is missing"), "{said}");
}

/// What `rt` says of a crate that is proved, and in how many modules that had to be checked.
fn said_of(name: &str, checked: u32) -> String {
    format!(
        "echo 'fn {name}::f: proved'\n\
         echo 'crate {name}: modules loaded=7 checked={checked}'\n\
         echo 'logic=proved functions=1'\n"
    )
}

#[test]
fn it_counts_what_it_proves() {
    let scratch = Scratch::new(PRINTS);
    let listed = said_of("tag", 0) + &said_of("line_push", 3) + &said_of("lane", 1);
    scratch.script("tools/rt", &listed);
    fs::write(
        scratch.0.join("crates.txt"),
        "# Some\ntag:\nunused: tag\nline_push: tag io\nffi staticlib: line_push unused\nlane: line_push\n",
    )
    .expect("a list");
    scratch.age();
    let (status, printed, said) = scratch.belt(Stdio::null());
    assert_eq!((status, printed.as_str()), (Some(0), PAPERS), "{said}");
    assert!(!said.contains("nothing was checked"), "{said}");
    let counted: Vec<&str> = said.lines().filter(|line| line.contains(" of ")).collect();
    let wanted = [
        "belt: line_push proved, 2 of at most 3",
        "belt: lane proved, 3 of at most 3",
    ];
    assert_eq!(counted, wanted, "{said}");

    scratch.script("tools/rt", &format!("{listed}exit 1"));
    let (status, printed, said) = scratch.belt(Stdio::null());
    assert_eq!((status, printed.as_str()), (Some(0), PAPERS));
    assert!(!said.contains("proved"), "nothing is new: {said}");

    scratch.age();
    let (status, printed, said) = scratch.belt(Stdio::null());
    assert_eq!((status, printed.as_str()), (Some(1), ""));
    assert!(said.ends_with("is not proved\n"), "{said}");
}
