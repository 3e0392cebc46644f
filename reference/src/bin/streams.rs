//! `streams --program PATH`: runs a program on many random streams and compares
//! its events and its stop line with the reference, which runs inside this process.
//!
//! The program reads a stream on standard input, writes the events to standard
//! output and as its last line on standard error `stop N consumed C written W`.

use reference::process::{hex, output_of, status};
use reference::random::Random;
use reference::runner::{self, Stopped};
use reference::streams::{any_kind, stream, Kind, KINDS};
use std::collections::BTreeMap;
use std::io;
use std::process::{ExitCode, Output};

const USAGE: &str = "usage: streams --program PATH [--args \"WORDS\"] [--seed N] [--count N]
               [--only CASE] [--room N] [--keep FILE]
  --args   more words for the program, split at spaces
  --only   runs this one case of the seed
  --room   event room of the reference (the program's own is set through --args)
  --keep   where the stream of a failed case is written";

struct Options {
    program: String,
    args: Vec<String>,
    seed: u64,
    count: u64,
    only: Option<u64>,
    room: usize,
    keep: Option<String>,
}

fn options() -> Option<Options> {
    let mut options = Options {
        program: String::new(),
        args: Vec::new(),
        seed: 1,
        count: 20_000,
        only: None,
        room: 16 << 20,
        keep: None,
    };
    let mut words = std::env::args().skip(1);
    while let Some(word) = words.next() {
        let value = words.next()?;
        match word.as_str() {
            "--program" => options.program = value,
            "--args" => options.args = value.split_whitespace().map(String::from).collect(),
            "--seed" => options.seed = value.parse().ok()?,
            "--count" => options.count = value.parse().ok()?,
            "--only" => options.only = Some(value.parse().ok()?),
            "--room" => options.room = value.parse().ok()?,
            "--keep" => options.keep = Some(value),
            _ => return None,
        }
    }
    (!options.program.is_empty()).then_some(options)
}

/// The first six words of the last line on standard error.
fn stop_words(output: &Output) -> String {
    let text = String::from_utf8_lossy(&output.stderr);
    let last = text.lines().last().unwrap_or("");
    last.split_whitespace().take(6).collect::<Vec<_>>().join(" ")
}

fn difference(output: &Output, stopped: &Stopped, events: &[u8]) -> Option<String> {
    let Stopped { number, consumed, written } = stopped;
    let expected = format!("stop {number} consumed {consumed} written {written}");
    let found = stop_words(output);
    if output.status.code().is_none() {
        return Some("the program was ended by a signal".to_string());
    }
    if found != expected {
        return Some(format!("stop line: expected \"{expected}\", found \"{found}\""));
    }
    if output.stdout == events {
        return None;
    }
    let equal = output.stdout.iter().zip(events).take_while(|(a, b)| a == b).count();
    Some(format!(
        "event byte {equal}: expected {:02x?}, found {:02x?}; {} and {} bytes in all",
        events.get(equal),
        output.stdout.get(equal),
        events.len(),
        output.stdout.len()
    ))
}

/// Counts by kind of stream, then by stop number.
type Counts = BTreeMap<Kind, BTreeMap<u8, u64>>;

/// Every kind is tried at least once, if there are cases enough.
fn kind_of_case(random: &mut Random, case: u64) -> Kind {
    match KINDS.get(case as usize) {
        Some(&kind) => kind,
        None => any_kind(random),
    }
}

fn run_case(
    options: &Options,
    case: u64,
    room: &mut [u8],
    counts: &mut Counts,
) -> io::Result<bool> {
    let mut random = Random::for_case(options.seed, case);
    let kind = kind_of_case(&mut random, case);
    let bytes = stream(&mut random, kind);
    let stopped = runner::run(&bytes, &mut runner::tables_for(&bytes), room);
    let output = output_of(&options.program, &options.args, &bytes)?;
    *counts.entry(kind).or_default().entry(stopped.number).or_default() += 1;

    let Some(text) = difference(&output, &stopped, &room[..stopped.written]) else {
        return Ok(true);
    };
    println!("FAILED: seed {} case {case}, {kind:?} stream of {} bytes", options.seed, bytes.len());
    println!("{text}");
    println!("stream: {}", hex(&bytes));
    if let Some(path) = &options.keep {
        std::fs::write(path, &bytes)?;
    }
    Ok(false)
}

fn print_counts(counts: &Counts) {
    for (kind, stops) in counts {
        let stops: Vec<String> =
            stops.iter().map(|(number, count)| format!("stop {number}: {count}")).collect();
        println!("{:<16} {}", format!("{kind:?}"), stops.join(", "));
    }
}

fn run(options: &Options) -> io::Result<bool> {
    let mut room = vec![0; options.room];
    let mut counts = Counts::new();
    let cases = match options.only {
        Some(case) => case..case + 1,
        None => 0..options.count,
    };
    let number = cases.end - cases.start;
    for case in cases {
        if !run_case(options, case, &mut room, &mut counts)? {
            return Ok(false);
        }
    }
    print_counts(&counts);
    println!("streams: {number} compared, seed {}, no difference", options.seed);
    Ok(true)
}

fn main() -> ExitCode {
    let Some(options) = options() else {
        eprintln!("{USAGE}");
        return ExitCode::from(2);
    };
    status(&format!("streams: {}", options.program), run(&options))
}
