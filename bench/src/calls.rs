//! What both caches in plain Rust are asked and answer: settings, commands, the numbers of answers
//! and refusals.

use crate::events::{settled, Room};

#[derive(Clone, Copy)]
pub struct Settings {
    pub sets: u32,
    pub ways: u32,
    pub dirty: u32,
    pub misses: u32,
    pub readers: u32,
    pub queue: u32,
    pub rule: u32,
}

impl Settings {
    pub fn lines(&self) -> usize {
        (self.sets * self.ways) as usize
    }

    /// From so many dirty lines on one may be thrown out.
    pub fn enough_dirty(&self) -> usize {
        (self.dirty as usize * self.lines()).div_ceil(100)
    }
}

/// The replacement rules, by their bytes in a settings record.
pub const LRU: u32 = 0;
pub const FIFO: u32 = 1;
pub const TREE: u32 = 2;

#[derive(Clone, Copy)]
pub enum Command {
    Read { address: u64, ticket: u32 },
    Write { address: u64, mask: u32 },
    Send,
    Fill { address: u64 },
    Tick { cycle: u32 },
}

pub const HIT: u8 = 1;
pub const HIT_RESERVED: u8 = 2;
pub const MISS: u8 = 3;
pub const SECTOR_MISS: u8 = 4;

/// The refusal numbers of the calls.
pub const NOT_WELL_FORMED: u8 = 4;
pub const SET_BUSY: u8 = 5;
pub const SET_HELD: u8 = 6;
pub const QUEUE_FULL: u8 = 7;
pub const ENTRY_FULL: u8 = 8;
pub const MISSES_FULL: u8 = 9;
pub const NOT_SENT: u8 = 10;
pub const BAD_CYCLE: u8 = 11;
pub const QUEUE_EMPTY: u8 = 12;

/// The five calls. Each gives the number of event bytes that it wrote; or the number of its
/// refusal, and then it has changed nothing.
pub trait Calls {
    fn read(&mut self, address: u64, ticket: u32, room: &mut Room) -> Result<usize, u8>;
    fn write(&mut self, address: u64, mask: u32, room: &mut Room) -> Result<usize, u8>;
    fn send(&mut self, room: &mut Room) -> Result<usize, u8>;
    fn fill(&mut self, address: u64, room: &mut Room) -> Result<usize, u8>;
    fn tick(&mut self, cycle: u32, room: &mut Room) -> Result<usize, u8>;

    /// Makes a call: how many event bytes it writes, the record of a refusal too.
    #[inline(always)]
    fn call(&mut self, command: Command, room: &mut Room) -> usize {
        let outcome = match command {
            Command::Read { address, ticket } => self.read(address, ticket, room),
            Command::Write { address, mask } => self.write(address, mask, room),
            Command::Send => self.send(room),
            Command::Fill { address } => self.fill(address, room),
            Command::Tick { cycle } => self.tick(cycle, room),
        };
        settled(outcome, room)
    }
}

pub fn names_sector(address: u64) -> bool {
    address & (0xFFFF << 48 | 31) == 0
}

pub fn sector_of(address: u64) -> usize {
    (address / 32 % 4) as usize
}
