//! The record reader and the stream runner of document 01's section "Records".

use crate::model::ROOM_NEEDED;
use crate::model::{
    call_on, check, fresh_on, outcome_bytes, Access, Cache, Call, Refusal, Settings, Tables,
    RULE_LRU,
};

/// The stop numbers; 1 and 2 are those of the refusals.
pub const STOP_END: u8 = 0;
pub const STOP_BAD_SETTINGS: u8 = 1;
pub const STOP_OTHER_LENGTH: u8 = 2;
pub const STOP_SETTINGS_PLACE: u8 = 13;
pub const STOP_UNKNOWN_KIND: u8 = 14;
pub const STOP_CUT_SHORT: u8 = 15;
pub const STOP_NO_ROOM: u8 = 16;

pub const KIND_SETTINGS: u8 = 0;
pub const KIND_READ: u8 = 1;
pub const KIND_WRITE: u8 = 2;
pub const KIND_SEND: u8 = 3;
pub const KIND_FILL: u8 = 4;
pub const KIND_TICK: u8 = 5;
/// Settings with a rule byte (document 02, L1).
pub const KIND_RULED_SETTINGS: u8 = 6;

/// Kind 0, or kind 6, which stands wherever document 01 names kind 0.
pub fn is_settings(kind: u8) -> bool {
    kind == KIND_SETTINGS || kind == KIND_RULED_SETTINGS
}

/// The length of the body of a command or event record.
pub fn body_length(kind: u8) -> Option<usize> {
    command_length(kind).or_else(|| event_length(kind))
}

pub fn command_length(kind: u8) -> Option<usize> {
    match kind {
        KIND_SETTINGS => Some(7),
        KIND_RULED_SETTINGS => Some(8),
        KIND_READ | KIND_WRITE => Some(12),
        KIND_SEND => Some(0),
        KIND_FILL => Some(8),
        KIND_TICK => Some(4),
        _ => None,
    }
}

fn event_length(kind: u8) -> Option<usize> {
    match kind {
        0x10 => Some(3),
        0x11 => Some(1),
        0x12 | 0x15 | 0x17 => Some(8),
        0x13 | 0x16 => Some(24),
        0x14 => Some(4),
        0x18 => Some(0),
        _ => None,
    }
}

/// The kind and the unjudged body of the record at a place of the stream, or 14 or 15.
pub fn read_record(stream: &[u8], at: usize) -> Result<(u8, &[u8]), u8> {
    let rest = stream.get(at..).unwrap_or(&[]);
    let (&kind, rest) = rest.split_first().ok_or(STOP_CUT_SHORT)?;
    let length = body_length(kind).ok_or(STOP_UNKNOWN_KIND)?;
    let body = rest.get(..length).ok_or(STOP_CUT_SHORT)?;
    Ok((kind, body))
}

#[derive(Clone, Copy, PartialEq, Eq, Debug)]
pub struct Stopped {
    pub number: u8,
    /// Bytes of the records run.
    pub consumed: usize,
    /// Bytes of events written.
    pub written: usize,
}

/// Runs a stream on lent tables, with room for events.
pub fn run(stream: &[u8], tables: &mut Tables, room: &mut [u8]) -> Stopped {
    Run { stream, room, cache: None, consumed: 0, written: 0 }.to_the_end(tables)
}

/// Goes on with the next part of a stream (document 02, L10), record by record as separate calls.
/// Refusals 1, 2 and 3 stop it before the first record, also where there is none.
pub fn resume(settings: &Settings, part: &[u8], tables: &mut Tables, room: &mut [u8]) -> Stopped {
    if let Err(refusal) = check(settings, tables) {
        return Stopped { number: refusal.number(), consumed: 0, written: 0 };
    }
    let (mut consumed, mut written) = (0, 0);
    while consumed < part.len() {
        let (call, length) = match next_call(&part[consumed..], room.len() - written) {
            Ok(next) => next,
            Err(number) => return Stopped { number, consumed, written },
        };
        let events = outcome_bytes(&call_on(settings, tables, call));
        room[written..written + events.len()].copy_from_slice(&events);
        written += events.len();
        consumed += length;
    }
    Stopped { number: STOP_END, consumed, written }
}

/// The call that a part has at its next record and the length of that record, or the number it
/// stops with: 14, 15, 13 for settings in any place, 16.
fn next_call(rest: &[u8], free: usize) -> Result<(Call, usize), u8> {
    let kind = rest[0];
    let length = 1 + command_length(kind).ok_or(STOP_UNKNOWN_KIND)?;
    let body = rest.get(1..length).ok_or(STOP_CUT_SHORT)?;
    if is_settings(kind) {
        return Err(STOP_SETTINGS_PLACE);
    }
    if free < ROOM_NEEDED {
        return Err(STOP_NO_ROOM);
    }
    Ok((command(kind, body), length))
}

struct Run<'a> {
    stream: &'a [u8],
    room: &'a mut [u8],
    /// There is one once the settings record has been run.
    cache: Option<Cache>,
    consumed: usize,
    written: usize,
}

impl Run<'_> {
    fn to_the_end(mut self, tables: &mut Tables) -> Stopped {
        let number = loop {
            if self.consumed == self.stream.len() {
                break STOP_END;
            }
            if let Err(number) = self.step(tables) {
                break number;
            }
        };
        if let Some(cache) = &self.cache {
            *tables = cache.encode();
        }
        Stopped { number, consumed: self.consumed, written: self.written }
    }

    /// Runs the next record, or gives the stop number and does nothing.
    fn step(&mut self, tables: &mut Tables) -> Result<(), u8> {
        // To the runner event kinds are unknown kinds, also where they are cut short.
        command_length(self.stream[self.consumed]).ok_or(STOP_UNKNOWN_KIND)?;
        let (kind, body) = read_record(self.stream, self.consumed)?;
        match (&mut self.cache, kind) {
            (None, _) if is_settings(kind) => {
                let settings = Settings::from_body(body);
                fresh_on(&settings, tables).map_err(Refusal::number)?;
                self.cache = Some(Cache::fresh(settings));
            }
            (None, _) => return Err(STOP_SETTINGS_PLACE),
            (Some(_), _) if is_settings(kind) => return Err(STOP_SETTINGS_PLACE),
            (Some(cache), _) => {
                if self.room.len() - self.written < ROOM_NEEDED {
                    return Err(STOP_NO_ROOM);
                }
                let events = outcome_bytes(&cache.call(command(kind, body)));
                self.room[self.written..self.written + events.len()].copy_from_slice(&events);
                self.written += events.len();
            }
        }
        self.consumed += 1 + body.len();
        Ok(())
    }
}

/// The call that a whole command record names; it is not a settings record.
fn command(kind: u8, body: &[u8]) -> Call {
    match kind {
        KIND_READ => Call::Access(Access::read(u64_at(body, 0), u32_at(body, 8))),
        KIND_WRITE => Call::Access(Access::write(u64_at(body, 0), u32_at(body, 8))),
        KIND_SEND => Call::Send,
        KIND_FILL => Call::Fill(u64_at(body, 0)),
        KIND_TICK => Call::Tick(u32_at(body, 0)),
        _ => unreachable!("only command kinds come here"),
    }
}

fn u64_at(body: &[u8], at: usize) -> u64 {
    u64::from_le_bytes(body[at..at + 8].try_into().expect("eight bytes"))
}

fn u32_at(body: &[u8], at: usize) -> u32 {
    u32::from_le_bytes(body[at..at + 4].try_into().expect("four bytes"))
}

/// Zero tables of the lengths that the stream's own settings ask for, if it has good ones.
pub fn tables_for(stream: &[u8]) -> Tables {
    match first_settings(stream) {
        Some(settings) if settings.in_range() => Tables::zero(&settings),
        _ => Tables::default(),
    }
}

/// The settings of a stream that begins with a whole settings record.
pub fn first_settings(stream: &[u8]) -> Option<Settings> {
    match read_record(stream, 0) {
        Ok((kind, body)) if is_settings(kind) => Some(Settings::from_body(body)),
        _ => None,
    }
}

/// Of kind 0 where that can hold them, else of kind 6.
pub fn settings_record(settings: &Settings) -> Vec<u8> {
    let body = settings.body().expect("settings fit their record");
    match settings.rule {
        RULE_LRU => [&[KIND_SETTINGS][..], &body[..7]].concat(),
        _ => ruled_record(settings),
    }
}

/// Of kind 6, under any rule.
pub fn ruled_record(settings: &Settings) -> Vec<u8> {
    let body = settings.body().expect("settings fit their record");
    [&[KIND_RULED_SETTINGS][..], &body].concat()
}

pub fn call_record(call: &Call) -> Vec<u8> {
    let pair = |kind: u8, address: u64, number: u32| {
        [&[kind][..], &address.to_le_bytes(), &number.to_le_bytes()].concat()
    };
    match *call {
        Call::Access(access) if access.is_write => pair(KIND_WRITE, access.address, access.mask),
        Call::Access(access) => pair(KIND_READ, access.address, access.ticket),
        Call::Send => vec![KIND_SEND],
        Call::Fill(address) => [&[KIND_FILL][..], &address.to_le_bytes()].concat(),
        Call::Tick(cycle) => [&[KIND_TICK][..], &cycle.to_le_bytes()].concat(),
    }
}
