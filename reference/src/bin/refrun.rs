//! `refrun [--room N] [FILE]`: runs a stream from FILE or standard input by the
//! reference, writes the events to standard output and how the run stopped to
//! standard error.

use reference::runner;
use std::io::{self, Read, Write};
use std::process::ExitCode;

const DEFAULT_ROOM: usize = 16 << 20;

struct Options {
    room: usize,
    file: Option<String>,
}

fn options() -> Option<Options> {
    let mut options = Options { room: DEFAULT_ROOM, file: None };
    let mut words = std::env::args().skip(1);
    while let Some(word) = words.next() {
        match word.as_str() {
            "--room" => options.room = words.next()?.parse().ok()?,
            _ if word.starts_with("--") || options.file.is_some() => return None,
            _ => options.file = Some(word),
        }
    }
    Some(options)
}

fn read_stream(file: Option<&str>) -> io::Result<Vec<u8>> {
    if let Some(path) = file {
        return std::fs::read(path);
    }
    let mut stream = Vec::new();
    io::stdin().read_to_end(&mut stream)?;
    Ok(stream)
}

/// What a stop number means, in a few words for the reader of the last line.
fn meaning(number: u8) -> &'static str {
    match number {
        runner::STOP_END => "end of input",
        runner::STOP_BAD_SETTINGS => "bad settings",
        runner::STOP_OTHER_LENGTH => "lent tables of another length",
        runner::STOP_SETTINGS_PLACE => "settings not first, or another kind first",
        runner::STOP_UNKNOWN_KIND => "unknown kind",
        runner::STOP_CUT_SHORT => "cut short",
        _ => "too little event room",
    }
}

fn run(options: &Options) -> io::Result<()> {
    let stream = read_stream(options.file.as_deref())?;
    let mut room = vec![0; options.room];
    let mut tables = runner::tables_for(&stream);
    let stopped = runner::run(&stream, &mut tables, &mut room);
    io::stdout().write_all(&room[..stopped.written])?;
    let runner::Stopped { number, consumed, written } = stopped;
    eprintln!("stop {number} consumed {consumed} written {written} ({})", meaning(number));
    Ok(())
}

fn main() -> ExitCode {
    let Some(options) = options() else {
        eprintln!("usage: refrun [--room N] [FILE]");
        return ExitCode::from(2);
    };
    match run(&options) {
        Ok(()) => ExitCode::SUCCESS,
        Err(error) => {
            eprintln!("refrun: {error}");
            ExitCode::from(1)
        }
    }
}
