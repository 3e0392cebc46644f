//! The events of document 01's section "Records", as data and as bytes.

use super::{Answer, Outcome, SECTORS};

/// Event room that every call needs; no call writes more than 49 bytes.
pub const ROOM_NEEDED: usize = 64;

#[derive(Clone, Copy, PartialEq, Eq, Debug)]
pub enum Event {
    Answer { answer: Answer, line: u16 },
    Refused { number: u8 },
    ReadQueued { address: u64 },
    WriteBackQueued { block: u64, masks: [u32; SECTORS] },
    Released { ticket: u32 },
    ReadSent { address: u64 },
    WriteBackSent { block: u64, masks: [u32; SECTORS] },
    Filled { address: u64 },
    Ticked,
}

impl Event {
    /// The record: one byte of kind, then the body, numbers little-endian.
    pub fn bytes(&self) -> Vec<u8> {
        match *self {
            Event::Answer { answer, line } => record(0x10, &[&[answer as u8], &line.to_le_bytes()]),
            Event::Refused { number } => record(0x11, &[&[number]]),
            Event::ReadQueued { address } => record(0x12, &[&address.to_le_bytes()]),
            Event::WriteBackQueued { block, masks } => write_back(0x13, block, masks),
            Event::Released { ticket } => record(0x14, &[&ticket.to_le_bytes()]),
            Event::ReadSent { address } => record(0x15, &[&address.to_le_bytes()]),
            Event::WriteBackSent { block, masks } => write_back(0x16, block, masks),
            Event::Filled { address } => record(0x17, &[&address.to_le_bytes()]),
            Event::Ticked => record(0x18, &[]),
        }
    }
}

fn record(kind: u8, fields: &[&[u8]]) -> Vec<u8> {
    let mut bytes = vec![kind];
    bytes.extend(fields.concat());
    bytes
}

fn write_back(kind: u8, block: u64, masks: [u32; SECTORS]) -> Vec<u8> {
    let masks: Vec<u8> = masks.iter().flat_map(|mask| mask.to_le_bytes()).collect();
    record(kind, &[&block.to_le_bytes(), &masks])
}

pub fn event_bytes(events: &[Event]) -> Vec<u8> {
    events.iter().flat_map(Event::bytes).collect()
}

/// The event records of a call, or its refused record.
pub fn outcome_bytes(outcome: &Outcome) -> Vec<u8> {
    match outcome {
        Ok(events) => event_bytes(events),
        Err(refusal) => event_bytes(&[Event::Refused { number: refusal.number() }]),
    }
}
