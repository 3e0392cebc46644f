//! `calls`: compares the exported calls of a library with the reference, call by
//! call (`cases`), stream by stream (`runs`) and part by part (`parts`), in the rounds of demand 3 (`rounds`) and in
//! histories whose dirty bytes are each billed once (`billed`).

mod billed;
mod cases;
mod demand3;
mod exported;
mod parts;
mod rounds;
mod runs;
mod trial;

use reference::random::Random;
use std::process::ExitCode;

const USAGE: &str =
    "usage: calls [--seed N] [--calls N] [--rounds K] [--billed K] [--only CASE] [--loud] [--no-null]
  --calls    exported calls to compare, at least (0: none)
  --rounds   tables on which the rounds of demand 3 are run (0: none)
  --billed   histories in which every dirty byte is billed once (0: none)
  --only     runs this one case of each part that is not 0
  --loud     names each case before it runs, to find one that crashes
  --no-null  gives empty slices no null pointers";

struct Options {
    seed: u64,
    calls: u64,
    rounds: u64,
    billed: u64,
    only: Option<u64>,
    loud: bool,
    nulls: bool,
}

fn options() -> Option<Options> {
    let mut options = Options {
        seed: 1,
        calls: 200_000,
        rounds: 5_000,
        billed: 2_000,
        only: None,
        loud: false,
        nulls: true,
    };
    let mut words = std::env::args().skip(1);
    while let Some(word) = words.next() {
        match word.as_str() {
            "--seed" => options.seed = words.next()?.parse().ok()?,
            "--calls" => options.calls = words.next()?.parse().ok()?,
            "--rounds" => options.rounds = words.next()?.parse().ok()?,
            "--billed" => options.billed = words.next()?.parse().ok()?,
            "--only" => options.only = Some(words.next()?.parse().ok()?),
            "--loud" => options.loud = true,
            "--no-null" => options.nulls = false,
            _ => return None,
        }
    }
    Some(options)
}

/// The parts draw different numbers for the same case.
fn part_seed(part: &str) -> u64 {
    match part {
        "rounds" => 0x5EED_0000_D3D3,
        "billed" => 0x5EED_0000_B1B1,
        _ => 0,
    }
}

impl Options {
    fn case(&self, part: &str, number: u64) -> Random {
        if self.loud {
            println!("{part} case {number}");
        }
        Random::for_case(self.seed ^ part_seed(part), number)
    }

    fn failed(&self, part: &str, number: u64, text: &str) -> String {
        let parts = ["calls", "rounds", "billed"];
        let others = parts.iter().filter(|other| **other != part);
        let words: String = others.map(|other| format!(" --{other} 0")).collect();
        let seed = self.seed;
        format!("FAILED: seed {seed}, {part} case {number} (--seed {seed} --only {number}{words})\n{text}")
    }
}

fn run_calls(options: &Options) -> Result<(), String> {
    let mut counts = trial::Counts::default();
    let mut number = options.only.unwrap_or(0);
    while counts.total < options.calls {
        cases::run_case(&mut options.case("calls", number), &mut counts, options.nulls)
            .map_err(|text| options.failed("calls", number, &text))?;
        if options.only.is_some() {
            break;
        }
        number += 1;
    }
    counts.print();
    Ok(())
}

/// The case that was asked for, or all.
fn numbers(options: &Options, all: u64) -> std::ops::Range<u64> {
    match options.only {
        Some(number) => number..number + 1,
        None => 0..all,
    }
}

fn run_rounds(options: &Options) -> Result<(), String> {
    let mut counts = rounds::Counts::default();
    for number in numbers(options, options.rounds) {
        rounds::run_case(&mut options.case("rounds", number), &mut counts)
            .map_err(|text| options.failed("rounds", number, &text))?;
    }
    counts.print();
    Ok(())
}

fn run_billed(options: &Options) -> Result<(), String> {
    let mut counts = billed::Counts::default();
    for number in numbers(options, options.billed) {
        billed::run_case(&mut options.case("billed", number), &mut counts)
            .map_err(|text| options.failed("billed", number, &text))?;
    }
    counts.print();
    Ok(())
}

/// The parts that were asked for.
fn run(options: &Options) -> Result<(), String> {
    if options.calls > 0 {
        run_calls(options)?;
    }
    if options.rounds > 0 {
        run_rounds(options)?;
    }
    if options.billed > 0 {
        run_billed(options)?;
    }
    Ok(())
}

fn main() -> ExitCode {
    let Some(options) = options() else {
        eprintln!("{USAGE}");
        return ExitCode::from(2);
    };
    match run(&options) {
        Ok(()) => {
            println!("seed {}: no difference", options.seed);
            ExitCode::SUCCESS
        }
        Err(text) => {
            println!("{text}");
            ExitCode::from(1)
        }
    }
}
