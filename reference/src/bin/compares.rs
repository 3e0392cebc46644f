//! `compares --program PATH`: the program that compares two logs, held against the reference on
//! random pairs of logs: the same, edited, cut, damaged, and with groups longer than its buffers.

use reference::compare::{compare, record_at, records_in, Compared, Difference, Part};
use reference::process::{hex, output_of, status};
use reference::random::Random;
use std::io;
use std::process::ExitCode;

const USAGE: &str = "usage: compares --program PATH [--seed N] [--count N] [--only CASE]";

/// The kinds that a log may hold, with the lengths of their bodies; starts and others.
const STARTS: [(u8, usize); 6] = [(0x10, 3), (0x11, 1), (0x15, 8), (0x16, 24), (0x17, 8), (0x18, 0)];
const OTHERS: [(u8, usize); 3] = [(0x12, 8), (0x13, 24), (0x14, 4)];

struct Options {
    program: String,
    seed: u64,
    count: u64,
    only: Option<u64>,
}

fn options() -> Option<Options> {
    let mut options = Options { program: String::new(), seed: 1, count: 2000, only: None };
    let mut words = std::env::args().skip(1);
    while let Some(word) = words.next() {
        let value = words.next()?;
        match word.as_str() {
            "--program" => options.program = value,
            "--seed" => options.seed = value.parse().ok()?,
            "--count" => options.count = value.parse().ok()?,
            "--only" => options.only = Some(value.parse().ok()?),
            _ => return None,
        }
    }
    (!options.program.is_empty()).then_some(options)
}

fn put_record(random: &mut Random, kinds: &[(u8, usize)], log: &mut Vec<u8>) {
    let (kind, body) = random.pick(kinds);
    log.push(kind);
    // few values, so that records of one kind are often the same
    log.extend((0..body).map(|_| random.below(3) as u8));
}

/// The groups of a log; now and then one that no buffer holds.
fn groups(random: &mut Random) -> Vec<Vec<u8>> {
    let most = random.pick(&[0, 1, 3, 8, 40]);
    let long = random.percent(2);
    (0..random.between(0, most))
        .map(|_| {
            let mut group = Vec::new();
            put_record(random, &STARTS, &mut group);
            let more = if long && random.percent(20) {
                random.between(4_000, 40_000)
            } else {
                random.below(4)
            };
            for _ in 0..more {
                put_record(random, &OTHERS, &mut group);
            }
            group
        })
        .collect()
}

/// Another log by a few edits of groups.
fn edited(random: &mut Random, groups: &[Vec<u8>]) -> Vec<Vec<u8>> {
    let mut other = groups.to_vec();
    for _ in 0..random.below(4) {
        if other.is_empty() {
            break;
        }
        let at = random.index(other.len());
        match random.below(5) {
            0 => drop(other.remove(at)),
            1 => other.insert(at, vec![0x18]),
            2 => put_record(random, &OTHERS, &mut other[at]),
            3 => {
                let end = other[at].len() - 1;
                if end > 0 {
                    other[at][end] ^= 1;
                }
            }
            _ => other.truncate(at),
        }
    }
    other
}

/// A log that may be refused: a byte changed, put in, or cut off.
fn damaged(random: &mut Random, mut log: Vec<u8>) -> Vec<u8> {
    if log.is_empty() {
        return vec![random.pick(&[0x00, 0x05, 0x12, 0x14, 0x19, 0xff])];
    }
    let at = random.index(log.len());
    match random.below(4) {
        0 => log[at] = random.below(256) as u8,
        1 => log.insert(at, random.pick(&[0x01, 0x10, 0x14, 0x19])),
        2 => log.truncate(at),
        _ => drop(log.splice(0..0, [0x14, 1, 0, 0, 0])),
    }
    log
}

fn case(seed: u64, case: u64) -> (Vec<u8>, Vec<u8>) {
    let mut random = Random::for_case(seed, case);
    let ours = groups(&mut random);
    let theirs = match random.below(3) {
        0 => ours.clone(),
        1 => edited(&mut random, &ours),
        _ => groups(&mut random),
    };
    let mut first = ours.concat();
    let mut second = theirs.concat();
    if random.percent(15) {
        first = damaged(&mut random, first);
    }
    if random.percent(15) {
        second = damaged(&mut random, second);
    }
    (first, second)
}

fn many(number: usize, what: &str) -> String {
    format!("{number} {what}{}", if number == 1 { "" } else { "s" })
}

fn side_words(part: Part) -> String {
    if part.length == 0 {
        return format!("has run out at byte {}", part.place);
    }
    format!("at byte {}, {}", part.place, many(part.length, "byte"))
}

/// What stands in front of the words of a pair's lines: the mark and the places.
fn row_marks(first: &[u8], second: &[u8], pair: &Difference) -> Vec<String> {
    let ours = records_in(first, pair.first);
    let theirs = records_in(second, pair.second);
    let mut marks = Vec::new();
    for row in 0..ours.len().max(theirs.len()) {
        match (ours.get(row), theirs.get(row)) {
            (Some(&a), Some(&b)) if record_at(first, a) == record_at(second, b) => {
                marks.push(format!("= {a} {b}"));
            }
            (a, b) => {
                marks.extend(a.map(|place| format!("< {place}")));
                marks.extend(b.map(|place| format!("> {place}")));
            }
        }
    }
    marks
}

/// All that the program has to say, with the words of a record left out.
fn expected(names: [&str; 2], first: &[u8], second: &[u8]) -> Vec<String> {
    match compare(first, second) {
        Compared::Refused(log, refusal) => vec![format!(
            "{} is refused with {} at byte {}",
            names[log - 1],
            refusal.number,
            refusal.place
        )],
        Compared::Listed(pairs, differing) => {
            let Some(lowest) = differing.first() else {
                return vec![format!("no difference in {}", many(pairs, "group"))];
            };
            let mut lines = vec![format!("< {}", names[0]), format!("> {}", names[1])];
            for pair in &differing {
                lines.push(format!(
                    "group {}: < {}; > {}",
                    pair.number,
                    side_words(pair.first),
                    side_words(pair.second)
                ));
                lines.extend(row_marks(first, second, pair));
            }
            lines.push(format!(
                "{} of {} differ, first at group {}",
                differing.len(),
                many(pairs, "group"),
                lowest.number
            ));
            lines
        }
    }
}

/// A line of the program: of a record's line the mark and the places, of a refusal all but why.
fn told(line: &str) -> String {
    let words: Vec<&str> = line.split_whitespace().collect();
    let is_place = |word: &&&str| word.bytes().all(|byte| byte.is_ascii_digit());
    match line.as_bytes() {
        [b'<' | b'>', b' ', b' ', ..] => words[..2].join(" "),
        [b' ', b' ', ..] => {
            let places: Vec<&str> = words.iter().take(2).filter(is_place).copied().collect();
            format!("= {}", places.join(" "))
        }
        _ => match line.split_once(" is refused with ") {
            Some((name, rest)) => {
                let why = rest.split_once(':').map_or(rest, |(why, _)| why);
                format!("{name} is refused with {why}")
            }
            None => line.to_string(),
        },
    }
}

fn same(options: &Options) -> io::Result<bool> {
    let folder = std::env::temp_dir().join(format!("compares-{}", std::process::id()));
    std::fs::create_dir_all(&folder)?;
    let first_path = folder.join("first.log").display().to_string();
    let second_path = folder.join("second.log").display().to_string();
    let names = [first_path.as_str(), second_path.as_str()];
    let mut good = true;
    let mut refused = 0;
    let cases = options.only.map_or(0..options.count, |only| only..only + 1);
    for number in cases {
        let (first, second) = case(options.seed, number);
        std::fs::write(&first_path, &first)?;
        std::fs::write(&second_path, &second)?;
        let output = output_of(&options.program, &names.map(String::from), &[])?;
        let lines: Vec<String> = String::from_utf8_lossy(&output.stdout).lines().map(told).collect();
        let wanted = expected(names, &first, &second);
        refused += u64::from(wanted[0].contains(" is refused with "));
        if lines != wanted || !output.stderr.is_empty() {
            good = false;
            println!("case {number} of seed {}:", options.seed);
            println!("first  {}\nsecond {}", hex(&first), hex(&second));
            let at = lines.iter().zip(&wanted).take_while(|(a, b)| a == b).count();
            println!("line {at}: {:?}, not {:?}", lines.get(at), wanted.get(at));
            break;
        }
    }
    std::fs::remove_dir_all(&folder)?;
    println!("seed {}: {} pairs of logs, {refused} with one refused", options.seed, options.count);
    Ok(good)
}

fn main() -> ExitCode {
    match options() {
        Some(options) => status("compares", same(&options)),
        None => {
            eprintln!("{USAGE}");
            ExitCode::from(2)
        }
    }
}
