//! The stream runner of both caches: one look at each record's kind, and the call it asks for.

use crate::calls::{Calls, Settings};
use crate::events::{settled, Room, ROOM};
use std::hint::cold_path;

/// The longest record of a command.
const LONGEST: usize = 13;
type Record = [u8; LONGEST];

/// The length of a settings record by its kind: 6 has a rule byte more than 0.
pub fn settings_length(kind: u8) -> usize {
    if kind == 6 {
        9
    } else {
        8
    }
}

pub fn settings_of(record: &[u8]) -> Settings {
    Settings {
        sets: u32::from(u16::from_le_bytes([record[1], record[2]])),
        ways: record[3].into(),
        dirty: record[4].into(),
        misses: record[5].into(),
        readers: record[6].into(),
        queue: record[7].into(),
        rule: if record[0] == 6 { record[8].into() } else { 0 },
    }
}

/// The stop numbers.
const END: u8 = 0;
const SETTINGS_AGAIN: u8 = 13;
const NO_SUCH_KIND: u8 = 14;
pub const CUT_SHORT: u8 = 15;
pub const NO_ROOM: u8 = 16;

pub struct Stopped {
    pub number: u8,
    pub consumed: usize,
    pub written: usize,
}

/// Bytes consumed and written.
#[derive(Clone, Copy)]
pub struct Ran {
    consumed: usize,
    written: usize,
}

/// Runs the records of a part of a stream, up to the first that is no command, may be cut short or
/// may have too little room: none is measured before it runs.
#[inline(always)]
pub fn usual(cache: &mut impl Calls, part: &[u8], room: &mut [u8]) -> Ran {
    let (mut consumed, mut written) = (0, 0);
    if part.len() < LONGEST || room.len() < ROOM {
        return Ran { consumed, written };
    }
    let (last, most) = (part.len() - LONGEST, room.len() - ROOM);
    while consumed <= last && written <= most {
        let record = part[consumed..].first_chunk().expect("the longest is whole");
        let space = room[written..].first_chunk_mut().expect("any has room");
        let Some((length, events)) = step(cache, record, space) else {
            break;
        };
        consumed += length;
        written += events;
    }
    Ran { consumed, written }
}

/// The records behind those, and why the part stops.
#[inline(always)]
pub fn last(cache: &mut impl Calls, part: &[u8], room: &mut [u8], ran: Ran) -> Stopped {
    let Ran { mut consumed, mut written } = ran;
    let number = loop {
        let rest = &part[consumed..];
        let Some(&kind) = rest.first() else {
            break END;
        };
        let whole = match kind {
            0 => 8,
            1 | 2 => LONGEST,
            3 => 1,
            4 | 6 => 9,
            5 => 5,
            _ => break NO_SUCH_KIND,
        };
        if rest.len() < whole {
            break CUT_SHORT;
        }
        if kind == 0 || kind == 6 {
            break SETTINGS_AGAIN;
        }
        let Some(space) = room[written..].first_chunk_mut() else {
            break NO_ROOM;
        };
        let mut record = [0; LONGEST];
        record[..whole].copy_from_slice(&rest[..whole]);
        let (_, events) = step(cache, &record, space).expect("a command");
        consumed += whole;
        written += events;
    };
    Stopped { number, consumed, written }
}

/// Runs a record: its length and that of its events; nothing where it is no command. A bit parts the
/// kinds first, which is shorter than a table of five.
#[inline(always)]
fn step(cache: &mut impl Calls, record: &Record, room: &mut Room) -> Option<(usize, usize)> {
    let kind = record[0];
    Some(if kind & 4 == 0 {
        match kind {
            1 => (13, settled(cache.read(u64_at(record), u32_at(record, 9), room), room)),
            2 => (13, settled(cache.write(u64_at(record), u32_at(record, 9), room), room)),
            3 => {
                cold_path();
                (1, settled(cache.send(room), room))
            }
            _ => {
                cold_path();
                return None;
            }
        }
    } else {
        match kind {
            4 => {
                cold_path();
                (9, settled(cache.fill(u64_at(record), room), room))
            }
            5 => (5, settled(cache.tick(u32_at(record, 1), room), room)),
            _ => {
                cold_path();
                return None;
            }
        }
    })
}

#[inline(always)]
fn u64_at(record: &Record) -> u64 {
    u64::from_le_bytes(record[1..9].try_into().expect("eight bytes"))
}

#[inline(always)]
fn u32_at(record: &Record, at: usize) -> u32 {
    u32::from_le_bytes(record[at..at + 4].try_into().expect("four bytes"))
}
