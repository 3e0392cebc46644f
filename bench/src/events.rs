//! The event bytes of one call, at fixed places of a room that holds those of any call.

pub const ROOM: usize = 64;

/// The longest events are those of a fill with eight readers: 49 bytes.
pub type Room = [u8; ROOM];

#[inline(always)]
fn put<const N: usize>(room: &mut Room, at: usize, bytes: [u8; N]) -> usize {
    room[at..at + N].copy_from_slice(&bytes);
    at + N
}

#[inline(always)]
fn address(room: &mut Room, at: usize, kind: u8, address: u64) -> usize {
    put(room, at, [kind]);
    put(room, at + 1, address.to_le_bytes())
}

/// How many bytes a call wrote; a refused one writes its record.
#[inline(always)]
pub fn settled(outcome: Result<usize, u8>, room: &mut Room) -> usize {
    outcome.unwrap_or_else(|number| put(room, 0, [0x11, number]))
}

/// Where the events behind an answer start.
const ANSWERED: usize = 4;

#[inline(always)]
pub fn answer(room: &mut Room, answer: u8, number: usize) -> usize {
    let [low, high] = (number as u16).to_le_bytes();
    put(room, 0, [0x10, answer, low, high])
}

#[inline(always)]
pub fn read_queued(room: &mut Room, sector: u64) -> usize {
    address(room, ANSWERED, 0x12, sector)
}

#[inline(always)]
pub fn write_back_queued(room: &mut Room, at: usize, block: u64, masks: &[u32; 4]) -> usize {
    put(room, at, write_back(0x13, block, masks))
}

#[inline(always)]
pub fn write_back(kind: u8, block: u64, masks: &[u32; 4]) -> [u8; 25] {
    let mut bytes = [0; 25];
    bytes[0] = kind;
    bytes[1..9].copy_from_slice(&block.to_le_bytes());
    for (sector, mask) in masks.iter().enumerate() {
        bytes[9 + 4 * sector..][..4].copy_from_slice(&mask.to_le_bytes());
    }
    bytes
}

/// A ready event, of so many bytes that count.
#[inline(always)]
pub fn ready(room: &mut Room, event: [u8; 25], length: u8) -> usize {
    put(room, 0, event);
    usize::from(length)
}

#[inline(always)]
pub fn read_sent(room: &mut Room, sector: u64) -> usize {
    address(room, 0, 0x15, sector)
}

#[inline(always)]
pub fn write_back_sent(room: &mut Room, block: u64, masks: &[u32; 4]) -> usize {
    put(room, 0, write_back(0x16, block, masks))
}

/// A fill and the first ticket that it releases.
#[inline(always)]
pub fn filled(room: &mut Room, sector: u64, ticket: u32) -> usize {
    let at = address(room, 0, 0x17, sector);
    released(room, at, ticket)
}

#[inline(always)]
pub fn released(room: &mut Room, at: usize, ticket: u32) -> usize {
    put(room, at, [0x14]);
    put(room, at + 1, ticket.to_le_bytes())
}

#[inline(always)]
pub fn ticked(room: &mut Room) -> usize {
    put(room, 0, [0x18])
}
