//! What waits: the miss table and the queue, each with its used places first, the oldest at 0, and
//! zeros behind.

use crate::calls::{ENTRY_FULL, MISSES_FULL, NOT_SENT, QUEUE_EMPTY, QUEUE_FULL};
use crate::events::{self, Room};
use std::hint::cold_path;

pub const READ: u8 = 1;
pub const WRITE_BACK: u8 = 2;

pub struct Waiting<'a> {
    pub misses: &'a mut [u64],
    pub tickets: &'a mut [u32],
    pub sent: &'a mut [u8],
    pub counts: &'a mut [u8],
    pub queue: &'a mut [u64],
    pub queue_masks: &'a mut [[u32; 4]],
    pub kinds: &'a mut [u8],
    /// Ticket places of an entry.
    pub readers: usize,
    /// Queue places and miss entries in use.
    pub queued: usize,
    pub missed: usize,
}

impl Waiting<'_> {
    /// Whether no place of the queue is free.
    #[inline(always)]
    pub fn full(&self) -> bool {
        self.queued >= self.queue.len()
    }

    /// Whether a read that needs so many places of the queue may wait.
    #[inline(always)]
    pub fn may_wait(&self, places: usize) -> Result<(), u8> {
        if self.queued + places > self.queue.len() {
            return Err(QUEUE_FULL);
        }
        if self.missed >= self.misses.len() {
            return Err(MISSES_FULL);
        }
        Ok(())
    }

    #[inline(always)]
    pub fn push_read(&mut self, address: u64) {
        self.queue[self.queued] = address;
        self.kinds[self.queued] = READ;
        self.queued += 1;
    }

    #[inline(always)]
    pub fn push_write_back(&mut self, block: u64, masks: [u32; 4]) {
        self.queue[self.queued] = block;
        self.queue_masks[self.queued] = masks;
        self.kinds[self.queued] = WRITE_BACK;
        self.queued += 1;
    }

    /// Sends the head of the queue.
    #[inline(always)]
    pub fn send(&mut self, room: &mut Room) -> Result<usize, u8> {
        if self.queued == 0 {
            return Err(QUEUE_EMPTY);
        }
        let address = self.queue[0];
        let written = if self.kinds[0] == READ {
            if let Some(entry) = self.entry_of(address) {
                self.sent[entry] = 1;
            }
            events::read_sent(room, address)
        } else {
            events::write_back_sent(room, address, &self.queue_masks[0])
        };
        self.pop();
        Ok(written)
    }

    /// Takes the head out; the others move down by one.
    #[inline(always)]
    fn pop(&mut self) {
        let last = self.queued - 1;
        for place in 0..last {
            self.queue[place] = self.queue[place + 1];
            self.queue_masks[place] = self.queue_masks[place + 1];
            self.kinds[place] = self.kinds[place + 1];
        }
        self.queue[last] = 0;
        self.queue_masks[last] = [0; 4];
        self.kinds[last] = 0;
        self.queued = last;
    }

    /// An unsent entry with one reader.
    #[inline(always)]
    pub fn start_entry(&mut self, address: u64, ticket: u32) {
        self.misses[self.missed] = address;
        self.tickets[self.missed * self.readers] = ticket;
        self.counts[self.missed] = 1;
        self.missed += 1;
    }

    #[inline(always)]
    fn entry_of(&self, address: u64) -> Option<usize> {
        self.misses[..self.missed].iter().position(|&miss| miss == address)
    }

    /// One more reader of an entry.
    #[inline(always)]
    pub fn join(&mut self, address: u64, ticket: u32) -> Result<(), u8> {
        let entry = self.entry_of(address).ok_or(ENTRY_FULL)?;
        let count = usize::from(self.counts[entry]);
        if count >= self.readers {
            return Err(ENTRY_FULL);
        }
        self.tickets[entry * self.readers + count] = ticket;
        self.counts[entry] += 1;
        Ok(())
    }

    /// The events of a sent entry, which goes; later ones close up.
    #[inline(always)]
    pub fn release(&mut self, address: u64, room: &mut Room) -> Result<usize, u8> {
        let entry = self.entry_of(address).ok_or(NOT_SENT)?;
        if self.sent[entry] == 0 {
            return Err(NOT_SENT);
        }
        let first = entry * self.readers;
        let mut written = events::filled(room, address, self.tickets[first]);
        for number in 1..usize::from(self.counts[entry]) {
            written = events::released(room, written, self.tickets[first + number]);
        }
        self.remove(entry);
        Ok(written)
    }

    #[inline(always)]
    fn remove(&mut self, entry: usize) {
        let last = self.missed - 1;
        let to = last * self.readers;
        if entry < last {
            cold_path();
            for place in entry..last {
                self.misses[place] = self.misses[place + 1];
                self.sent[place] = self.sent[place + 1];
                self.counts[place] = self.counts[place + 1];
            }
            for place in entry * self.readers..to {
                self.tickets[place] = self.tickets[place + self.readers];
            }
        }
        self.tickets[to] = 0;
        if self.counts[last] > 1 {
            cold_path();
            self.tickets[to..to + self.readers].fill(0);
        }
        self.misses[last] = 0;
        self.sent[last] = 0;
        self.counts[last] = 0;
        self.missed = last;
    }
}
