//! Compares plain Rust with the library on random streams, good and damaged, under every rule: `same [STREAMS]`. Events, stops and
//! what was consumed, of all; the tables at the end, number for number, of `flat`, with single sectors and with whole lines.

#[allow(dead_code)] // the single calls
#[path = "../library.rs"]
mod library;

use bench::calls::{Command, Settings};
use bench::runner::{settings_length, Stopped};
use bench::stream::{record, settings_record, Random};
use bench::{flat, own};
use library::Tables;

fn settings(random: &mut Random) -> Settings {
    let mut from = |low: u64, high: u64| (low + random.below(high - low + 1)) as u32;
    let rule = from(0, 2);
    let ways = if rule == 2 { 1 << from(0, 4) } else { from(1, 16) };
    let (sets, dirty) = (1 << from(0, 2), 25 * from(0, 4));
    let (misses, readers, queue) = (from(1, 6), from(1, 8), from(2, 5));
    Settings { sets, ways, dirty, misses, readers, queue, rule }
}

/// A sector of a few blocks more than there are lines; one in a hundred is none.
fn address(random: &mut Random, settings: &Settings) -> u64 {
    let blocks = settings.lines() as u64 * 5 / 4 + 2;
    let sector = 128 * random.below(blocks) + 32 * random.below(4);
    match random.below(200) {
        0 => sector + 1,
        1 => sector | 1 << 48,
        _ => sector,
    }
}

fn command(random: &mut Random, settings: &Settings, cycle: &mut u32, asked: &mut u64) -> Command {
    match random.below(100) {
        0..=39 => {
            *asked = address(random, settings);
            Command::Read { address: *asked, ticket: random.below(1 << 32) as u32 }
        }
        40..=59 => {
            let mask = [0, 1, 0xFF, u32::MAX, u32::MAX][random.below(5) as usize];
            Command::Write { address: address(random, settings), mask }
        }
        60..=75 => Command::Send,
        76..=82 => Command::Fill { address: *asked },
        83..=87 => Command::Fill { address: address(random, settings) },
        88 => Command::Tick { cycle: [0, u32::MAX][random.below(2) as usize] },
        _ => {
            *cycle += 1;
            Command::Tick { cycle: *cycle }
        }
    }
}

/// A stream; two in three are damaged: cut short, or with a kind changed.
fn stream(random: &mut Random) -> (Settings, Vec<u8>) {
    let settings = settings(random);
    let mut bytes = settings_record(settings);
    let (mut cycle, mut asked) = (0, 0);
    let damaged = random.below(600);
    for number in 0..400 {
        let at = bytes.len();
        record(&mut bytes, command(random, &settings, &mut cycle, &mut asked));
        if number == damaged {
            match random.below(4) {
                0 => bytes[at] = 0,
                1 => bytes[at] = 6,
                2 => bytes[at] = 7 + random.below(249) as u8,
                _ => {
                    bytes.truncate(at + random.below((bytes.len() - at) as u64) as usize);
                    break;
                }
            }
        }
    }
    (settings, bytes)
}

/// What a stream came to, to be compared.
type Came = (u8, usize, Vec<u8>);

fn came(stopped: Stopped, first: usize, room: &[u8]) -> Came {
    (stopped.number, first + stopped.consumed, room[..stopped.written].to_vec())
}

/// Compares one stream; the refusals and the stop that it came to.
fn compare(random: &mut Random, seen: &mut [usize; 32]) {
    let (settings, bytes) = stream(random);
    let size = if random.below(4) == 0 { random.below(4000) } else { 64 * 400 } as usize;
    let (mut lent, mut room) = (Tables::fresh(settings), vec![0; size]);
    let library = came(lent.run(&bytes, &mut room), 0, &room);
    let first = settings_length(bytes[0]);
    for whole in [false, true] {
        let mut tables = flat::Tables::fresh(settings);
        let stopped = if whole {
            tables.run_whole(&bytes[first..], &mut room)
        } else {
            tables.run(&bytes[first..], &mut room)
        };
        assert!(library == came(stopped, first, &room), "flat differs from the library");
        assert!(lent.longs == tables.longs, "the longs differ");
        assert!(lent.words == tables.words, "the words differ");
        assert!(lent.marks == tables.marks, "the marks differ");
    }
    let own = came(own::Cache::new(settings).run(&bytes[first..], &mut room), first, &room);
    assert!(library == own, "own differs from the library");
    seen[usize::from(library.0)] += 1;
    let mut at = 0;
    while let Some(&kind) = library.2.get(at) {
        if kind == 0x11 {
            seen[usize::from(library.2[at + 1])] += 1;
        }
        at += [4, 2, 9, 25, 5, 9, 25, 9, 1][usize::from(kind - 0x10)];
    }
}

fn main() {
    let streams = std::env::args().nth(1).map_or(3000, |word| word.parse().expect("a number"));
    let (mut random, mut seen) = (Random(1), [0; 32]);
    for _ in 0..streams {
        compare(&mut random, &mut seen);
    }
    let numbers: Vec<String> =
        (0..17).filter(|&n| seen[n] > 0).map(|n| format!("{n}: {}", seen[n])).collect();
    println!("{streams} streams the same; refusals and stops {}", numbers.join(", "));
}
