//! `player [--lanes] [--title TEXT] FILE.html < LINES`: plays the lines, prints what the lane program prints for them,
//! and writes the page. With `--lanes` the lines may have several lanes and dispatches.

use std::io::{self, Read, Write};
use std::path::PathBuf;
use std::process::ExitCode;

use player::form::Lines;
use player::{page, play};

struct Options {
    lines: Lines,
    title: String,
    file: PathBuf,
}

fn main() -> ExitCode {
    let Some(options) = options() else {
        eprintln!("usage: player [--lanes] [--title TEXT] FILE.html < LINES");
        return ExitCode::from(2);
    };
    match write(&options) {
        Ok(()) => ExitCode::SUCCESS,
        Err(error) => {
            eprintln!("player: {}: {error}", options.file.display());
            ExitCode::FAILURE
        }
    }
}

fn write(options: &Options) -> io::Result<()> {
    let mut input = Vec::new();
    io::stdin().lock().read_to_end(&mut input)?;
    let played = play::play(&input, options.lines);
    io::stdout().lock().write_all(played.printed.as_bytes())?;
    std::fs::write(&options.file, page::page(&options.title, &played.run))
}

fn options() -> Option<Options> {
    let (mut lines, mut title, mut file) =
        (Lines::Belt, "A belt run, tick by tick".to_owned(), None);
    let mut words = std::env::args_os().skip(1);
    while let Some(word) = words.next() {
        match word.to_str() {
            Some("--lanes") => lines = Lines::SeveralLanes,
            Some("--title") => title = words.next()?.into_string().ok()?,
            Some(option) if option.starts_with('-') => return None,
            _ if file.is_none() => file = Some(PathBuf::from(word)),
            _ => return None,
        }
    }
    Some(Options {
        lines,
        title,
        file: file?,
    })
}
