//! What waits: the miss table, whose entries keep their numbers while they are in use, and the
//! queue, a ring whose places hold the events of their sends.

use crate::calls::{Settings, ENTRY_FULL, NOT_SENT};
use crate::events;

const MOST_READERS: usize = 8;

#[derive(Clone, Copy, Default)]
struct Entry {
    tickets: [u32; MOST_READERS],
    count: u8,
    sent: bool,
}

pub struct Misses {
    entries: Vec<Entry>,
    /// A bit for each.
    free: u64,
    readers: u8,
}

impl Misses {
    pub fn new(settings: &Settings) -> Misses {
        let entries = vec![Entry::default(); settings.misses as usize];
        let free = u64::MAX >> (64 - settings.misses);
        Misses { entries, free, readers: settings.readers as u8 }
    }

    pub fn memory(settings: &Settings) -> usize {
        settings.misses as usize * (size_of::<Entry>() + 1)
    }

    pub fn full(&self) -> bool {
        self.free == 0
    }

    /// The number of a new entry with one reader.
    #[inline(always)]
    pub fn push(&mut self, ticket: u32) -> u8 {
        let number = self.free.trailing_zeros() as u8;
        self.free &= self.free - 1;
        let entry = &mut self.entries[usize::from(number)];
        entry.tickets[0] = ticket;
        entry.count = 1;
        entry.sent = false;
        number
    }

    #[inline(always)]
    pub fn join(&mut self, number: u8, ticket: u32) -> Result<(), u8> {
        let entry = &mut self.entries[usize::from(number)];
        if entry.count >= self.readers {
            return Err(ENTRY_FULL);
        }
        entry.tickets[usize::from(entry.count)] = ticket;
        entry.count += 1;
        Ok(())
    }

    #[inline(always)]
    pub fn send(&mut self, number: u8) {
        self.entries[usize::from(number)].sent = true;
    }

    /// The tickets of a sent entry, which is then free.
    #[inline(always)]
    pub fn remove(&mut self, number: u8) -> Result<&[u32], u8> {
        let entry = &self.entries[usize::from(number)];
        if !entry.sent {
            return Err(NOT_SENT);
        }
        self.free |= 1 << number;
        Ok(&entry.tickets[..usize::from(entry.count)])
    }
}

/// A place of the queue: the event of its send, and a read's miss entry. Aligned, so that a place
/// is found by a shift.
#[derive(Clone, Copy, Default)]
#[repr(align(32))]
pub struct Queued {
    pub event: [u8; 25],
    pub length: u8,
    pub entry: Option<u8>,
}

/// As many places as settings may ask for, so that no index is out of range.
const PLACES: usize = 64;

pub struct Queue {
    places: [Queued; PLACES],
    limit: usize,
    head: usize,
    len: usize,
}

impl Queue {
    pub fn new(settings: &Settings) -> Queue {
        let limit = settings.queue as usize;
        let places = [Queued::default(); PLACES];
        Queue { places, limit, head: 0, len: 0 }
    }

    pub fn len(&self) -> usize {
        self.len
    }

    pub fn free(&self) -> usize {
        self.limit - self.len
    }

    /// The next place behind the last.
    #[inline(always)]
    fn push(&mut self) -> &mut Queued {
        let at = (self.head + self.len) % PLACES;
        self.len += 1;
        &mut self.places[at]
    }

    #[inline(always)]
    pub fn push_read(&mut self, address: u64, entry: u8) {
        let place = self.push();
        place.event[0] = 0x15;
        place.event[1..9].copy_from_slice(&address.to_le_bytes());
        place.length = 9;
        place.entry = Some(entry);
    }

    #[inline(always)]
    pub fn push_write_back(&mut self, block: u64, masks: &[u32; 4]) {
        let event = events::write_back(0x16, block, masks);
        *self.push() = Queued { event, length: 25, entry: None };
    }

    #[inline(always)]
    pub fn pop(&mut self) -> Option<&Queued> {
        if self.len == 0 {
            return None;
        }
        let at = self.head % PLACES;
        self.head += 1;
        self.len -= 1;
        Some(&self.places[at])
    }
}
