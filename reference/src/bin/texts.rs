//! `texts --programs DIR`: the programs that write text, compared with the reference on random
//! streams. What `show` prints of a stream, `assemble` makes the same stream of; the numbers of
//! `bill` are those of the log; `wait` ends as the rounds of the reference do.

use reference::choices::well_formed_access;
use reference::model::{Access, Cache, Call};
use reference::process::{hex, output_of, status};
use reference::random::Random;
use reference::rounds::{bound, first_run};
use reference::runner::{self, call_record, read_record};
use reference::streams::{stream, Kind};
use std::collections::BTreeMap;
use std::io;
use std::process::ExitCode;

const USAGE: &str = "usage: texts --programs DIR [--seed N] [--count N] [--only CASE]";

/// Event room for any of the streams.
const ROOM: usize = 1 << 20;

struct Options {
    programs: String,
    seed: u64,
    count: u64,
    only: Option<u64>,
}

fn options() -> Option<Options> {
    let mut options = Options { programs: String::new(), seed: 1, count: 2000, only: None };
    let mut words = std::env::args().skip(1);
    while let Some(word) = words.next() {
        let value = words.next()?;
        match word.as_str() {
            "--programs" => options.programs = value,
            "--seed" => options.seed = value.parse().ok()?,
            "--count" => options.count = value.parse().ok()?,
            "--only" => options.only = Some(value.parse().ok()?),
            _ => return None,
        }
    }
    (!options.programs.is_empty()).then_some(options)
}

/// A program's standard output for an input.
fn written(options: &Options, name: &str, input: &[u8]) -> io::Result<Vec<u8>> {
    Ok(output_of(&format!("{}/{name}", options.programs), &[], input)?.stdout)
}

fn lines(text: &[u8]) -> Vec<String> {
    String::from_utf8_lossy(text).lines().map(String::from).collect()
}

/// `show` puts the byte place and two spaces in front of each line.
fn without_places(shown: &[u8]) -> String {
    let rest = |line: &String| {
        let text = line.trim_start().split_once("  ").map_or("", |(_, text)| text);
        text.to_string() + "\n"
    };
    lines(shown).iter().map(rest).collect()
}

fn there_and_back(options: &Options, bytes: &[u8]) -> io::Result<Option<String>> {
    let text = without_places(&written(options, "show", bytes)?);
    let again = written(options, "assemble", text.as_bytes())?;
    Ok((again != bytes).then(|| format!("show, then assemble, gives another stream:\n{text}")))
}

/// The sums of a log by the labels of `bill`; those that are 0 may be left out.
fn sums(log: &[u8]) -> BTreeMap<String, u64> {
    let mut sums = BTreeMap::new();
    let mut add = |label: &str, number: u64| *sums.entry(label.to_string()).or_default() += number;
    add("bytes of log", log.len() as u64);
    let mut at = 0;
    while at < log.len() {
        let (kind, body) = read_record(log, at).expect("the reference writes whole records");
        match kind {
            0x10 => {
                add("accesses answered", 1);
                add(["HIT", "HIT_RESERVED", "MISS", "SECTOR_MISS"][body[0] as usize - 1], 1);
            }
            0x11 => add("refused", 1),
            0x12 => add("reads queued", 1),
            0x13 => add("write-backs queued", 1),
            0x14 => add("readers released", 1),
            0x15 => add("reads sent", 1),
            0x16 => {
                add("write-backs sent", 1);
                let dirty: u32 = body[8..].iter().map(|byte| byte.count_ones()).sum();
                add("bytes out to memory", u64::from(dirty));
            }
            0x17 => {
                add("fills", 1);
                add("bytes in from memory", 32);
            }
            _ => add("ticks", 1),
        }
        at += 1 + body.len();
    }
    sums
}

/// The numbers that `bill` prints, by what stands behind them up to a colon.
fn billed(text: &[u8]) -> BTreeMap<String, u64> {
    let number = |line: &String| {
        let (number, label) = line.trim_start().split_once(' ')?;
        let label = label.trim().split(':').next()?;
        Some((label.to_string(), number.parse().ok()?))
    };
    lines(text).iter().filter_map(number).collect()
}

fn bill(options: &Options, log: &[u8]) -> io::Result<Option<String>> {
    let found = billed(&written(options, "bill", log)?);
    let wrong = |(label, number): &(&String, &u64)| found.get(*label).unwrap_or(&0) != *number;
    let expected = sums(log);
    let first = expected.iter().find(wrong);
    Ok(first.map(|(label, number)| format!("bill: expected {number} {label}, found {found:?}")))
}

/// The last line of `wait` for a stream and an access behind it.
fn waited(cache: &mut Cache, access: Access) -> String {
    let most = bound(cache.queue.len(), cache.misses.len());
    let rounds = first_run(cache, access, most);
    if rounds.accepted() {
        format!("accepted in round {} of at most {most}", rounds.offers.len())
    } else {
        "held: no wait will help".to_string()
    }
}

fn wait(
    options: &Options,
    bytes: &[u8],
    random: &mut Random,
    cache: &mut Cache,
) -> io::Result<Option<String>> {
    let access = well_formed_access(random, cache);
    let mut stream = bytes.to_vec();
    stream.extend(call_record(&Call::Access(access)));
    let expected = waited(cache, access);
    let text = lines(&written(options, "wait", &stream)?);
    let found = text.last().map_or("", |line| line.as_str());
    Ok((found != expected).then(|| {
        format!("wait: expected \"{expected}\", found \"{found}\"\nstream: {}", hex(&stream))
    }))
}

/// What differs in a case, if anything does.
fn difference(options: &Options, case: u64) -> io::Result<Option<String>> {
    let mut random = Random::for_case(options.seed, case);
    let kind = random.pick(&[Kind::Tight, Kind::Tight, Kind::AnySettings, Kind::EdgeSettings]);
    let bytes = stream(&mut random, kind);
    let mut tables = runner::tables_for(&bytes);
    let mut room = vec![0; ROOM];
    let stopped = runner::run(&bytes, &mut tables, &mut room);
    let mut cache =
        Cache::decode(&runner::first_settings(&bytes).expect("settings first"), &tables);
    for found in [
        there_and_back(options, &bytes)?,
        bill(options, &room[..stopped.written])?,
        wait(options, &bytes, &mut random, &mut cache)?,
    ] {
        if found.is_some() {
            return Ok(found);
        }
    }
    Ok(None)
}

fn run(options: &Options) -> io::Result<bool> {
    let cases = match options.only {
        Some(case) => case..case + 1,
        None => 0..options.count,
    };
    let number = cases.end - cases.start;
    for case in cases {
        if let Some(text) = difference(options, case)? {
            println!("FAILED: seed {} case {case}\n{text}", options.seed);
            return Ok(false);
        }
    }
    println!("texts: {number} streams, seed {}, no difference", options.seed);
    Ok(true)
}

fn main() -> ExitCode {
    let Some(options) = options() else {
        eprintln!("{USAGE}");
        return ExitCode::from(2);
    };
    status(&format!("texts: {}", options.programs), run(&options))
}
