//! The streams that are measured: accesses with some locality, each after a tick and followed
//! by a send and by a fill of the oldest sent miss, where there is one.

use crate::calls::{Calls, Command, Settings};
use crate::events::ROOM;
use crate::own::Cache;
use std::collections::VecDeque;

/// A splitmix64 generator, so that a stream is the same everywhere.
pub struct Random(pub u64);

impl Random {
    fn draw(&mut self) -> u64 {
        self.0 = self.0.wrapping_add(0x9E37_79B9_7F4A_7C15);
        let mut mixed = self.0;
        mixed = (mixed ^ (mixed >> 30)).wrapping_mul(0xBF58_476D_1CE4_E5B9);
        mixed = (mixed ^ (mixed >> 27)).wrapping_mul(0x94D0_49BB_1331_11EB);
        mixed ^ (mixed >> 31)
    }

    pub fn below(&mut self, limit: u64) -> u64 {
        self.draw() % limit
    }
}

const RECENT: usize = 16;

/// Addresses as a kernel might make them: back to recent sectors, on along the last block, or
/// anywhere in a working set four times the cache.
struct Addresses {
    random: Random,
    recent: [u64; RECENT],
    last: u64,
    blocks: u64,
}

impl Addresses {
    fn next(&mut self) -> u64 {
        let limit = 128 * self.blocks;
        let address = match self.random.below(100) {
            0..=54 => self.recent[self.random.below(RECENT as u64) as usize],
            55..=84 => (self.last + 32) % limit,
            _ => 128 * self.random.below(self.blocks) + 32 * self.random.below(4),
        };
        self.last = address;
        self.recent[self.random.below(RECENT as u64) as usize] = address;
        address
    }

    /// Whole sectors, words of eight bytes, single bytes.
    fn mask(&mut self) -> u32 {
        match self.random.below(10) {
            0..=4 => u32::MAX,
            5..=7 => 0xFF << (8 * self.random.below(4)),
            _ => 1 << self.random.below(32),
        }
    }
}

/// Whether a tick comes before each access, and how many accesses of a hundred are writes.
#[derive(Clone, Copy)]
pub struct Mix {
    pub ticks: bool,
    pub writes: u64,
}

pub const USUAL: Mix = Mix { ticks: true, writes: 30 };

/// Makes the commands one after another and hands each on with its event bytes. They follow the
/// cache's state, so a cache is kept beside them.
pub fn generate(
    settings: Settings,
    accesses: usize,
    mix: Mix,
    mut sink: impl FnMut(Command, &[u8]),
) {
    let mut cache = Cache::new(settings);
    let mut sent = VecDeque::new();
    let mut make = |cache: &mut Cache, command: Command| {
        let mut room = [0; ROOM];
        let written = cache.call(command, &mut room);
        sink(command, &room[..written]);
        room
    };
    let blocks = 4 * settings.lines() as u64;
    let mut addresses = Addresses { random: Random(1), recent: [0; RECENT], last: 0, blocks };
    for number in 0..accesses as u32 {
        if mix.ticks {
            make(&mut cache, Command::Tick { cycle: number });
        }
        let address = addresses.next();
        let access = if addresses.random.below(100) < 100 - mix.writes {
            Command::Read { address, ticket: number }
        } else {
            Command::Write { address, mask: addresses.mask() }
        };
        make(&mut cache, access);
        if cache.queued() > 0 {
            let [kind, event @ ..] = make(&mut cache, Command::Send);
            if kind == 0x15 {
                sent.push_back(u64::from_le_bytes(event[..8].try_into().expect("eight bytes")));
            }
        }
        if let Some(address) = sent.pop_front() {
            make(&mut cache, Command::Fill { address });
        }
    }
}

/// The settings record, with a rule byte where the rule is not 0.
pub fn settings_record(settings: Settings) -> Vec<u8> {
    let Settings { sets, ways, dirty, misses, readers, queue, rule } = settings;
    let [sets_low, sets_high, ..] = sets.to_le_bytes();
    let mut bytes = vec![if rule == 0 { 0 } else { 6 }, sets_low, sets_high];
    bytes.extend([ways, dirty, misses, readers, queue].map(|number| number as u8));
    if rule != 0 {
        bytes.push(rule as u8);
    }
    bytes
}

/// The record of a command, behind what stands there.
pub fn record(bytes: &mut Vec<u8>, command: Command) {
    match command {
        Command::Read { address, ticket } => put(bytes, 1, &address.to_le_bytes(), ticket),
        Command::Write { address, mask } => put(bytes, 2, &address.to_le_bytes(), mask),
        Command::Send => bytes.push(3),
        Command::Fill { address } => {
            bytes.push(4);
            bytes.extend(address.to_le_bytes());
        }
        Command::Tick { cycle } => put(bytes, 5, &[], cycle),
    }
}

fn put(bytes: &mut Vec<u8>, kind: u8, first: &[u8], second: u32) {
    bytes.push(kind);
    bytes.extend(first);
    bytes.extend(second.to_le_bytes());
}

/// A stream, what it holds, and the event bytes of every call in it.
pub struct Measured {
    pub settings: Settings,
    pub bytes: Vec<u8>,
    pub accesses: usize,
    pub commands: Vec<Command>,
    pub log: Vec<u8>,
}

impl Measured {
    pub fn new(settings: Settings, accesses: usize) -> Measured {
        let bytes = settings_record(settings);
        let mut made =
            Measured { settings, bytes, accesses, commands: Vec::new(), log: Vec::new() };
        generate(settings, accesses, USUAL, |command, events| {
            record(&mut made.bytes, command);
            made.commands.push(command);
            made.log.extend(events);
        });
        made
    }

    /// Accesses by answer, HIT to SECTOR_MISS, and refused ones, in a hundred.
    pub fn shares(&self) -> [f64; 5] {
        let mut counts = [0usize; 5];
        let mut at = 0;
        while at < self.log.len() {
            let body = match self.log[at] {
                0x10 => 3,
                0x11 => 1,
                0x12 | 0x15 | 0x17 => 8,
                0x13 | 0x16 => 24,
                0x14 => 4,
                _ => 0,
            };
            match self.log[at] {
                0x10 => counts[usize::from(self.log[at + 1]) - 1] += 1,
                0x11 => counts[4] += 1,
                _ => (),
            }
            at += 1 + body;
        }
        counts.map(|count| 100.0 * count as f64 / self.accesses as f64)
    }
}
