//! The cache over tables of its own, as a Rust programmer would lay them out for speed: flat arrays
//! made once, indexes checked as Rust checks them, the counts kept, no search where a number can be
//! stored, no check of soundness. Its answers, refusals and event records are the library's; its
//! tables are not.
//!
//! The lines are in `lines`, the miss table and the queue in `waiting`.

mod lines;
mod waiting;

use crate::calls::*;
use crate::events::{self, Room};
use crate::runner::{self, Ran, Stopped};
use lines::{Line, Lines, ANY, MODIFIED, READABLE, RESERVED};
use waiting::{Misses, Queue};

pub struct Cache {
    lines: Lines,
    misses: Misses,
    queue: Queue,
    dirty: usize,
    /// From so many dirty lines on one may be thrown out.
    enough: usize,
    cycle: u32,
}

impl Cache {
    pub fn new(settings: Settings) -> Self {
        Cache {
            lines: Lines::new(&settings),
            misses: Misses::new(&settings),
            queue: Queue::new(&settings),
            dirty: 0,
            enough: settings.enough_dirty(),
            cycle: 0,
        }
    }

    /// Bytes of the vectors, beside the structure itself.
    pub fn memory(settings: &Settings) -> usize {
        Lines::memory(settings) + Misses::memory(settings) + size_of::<Self>()
    }

    pub fn queued(&self) -> usize {
        self.queue.len()
    }

    /// Runs the records of a part of a stream.
    pub fn run(&mut self, part: &[u8], room: &mut [u8]) -> Stopped {
        let ran = self.run_usual(part, room);
        self.run_last(part, room, ran)
    }

    #[inline(never)]
    fn run_usual(&mut self, part: &[u8], room: &mut [u8]) -> Ran {
        runner::usual(self, part, room)
    }

    #[inline(never)]
    fn run_last(&mut self, part: &[u8], room: &mut [u8], ran: Ran) -> Stopped {
        runner::last(self, part, room, ran)
    }

    /// A read whose block has no line.
    fn read_new(&mut self, address: u64, ticket: u32, room: &mut Room) -> Result<usize, u8> {
        let number = self.lines.victim(address, self.held())?;
        let line = &mut self.lines.all[number];
        let victim = *line;
        may_wait(&self.queue, &self.misses, 1 + usize::from(victim.dirty()))?;
        let entry = self.misses.push(ticket);
        self.queue.push_read(address, entry);
        *line = Line::new(address & !127, self.cycle);
        line.reserve(sector_of(address), entry);
        self.lines.turn(number);
        events::answer(room, MISS, number);
        let written = events::read_queued(room, address);
        Ok(self.throw_out(&victim, room, written))
    }

    /// A write whose block has no line.
    fn write_new(&mut self, address: u64, mask: u32, room: &mut Room) -> Result<usize, u8> {
        let number = self.lines.victim(address, self.held())?;
        let line = &mut self.lines.all[number];
        let victim = *line;
        if victim.dirty() && self.queue.free() == 0 {
            return Err(QUEUE_FULL);
        }
        *line = Line::new(address & !127, self.cycle);
        line.write(sector_of(address), mask);
        self.dirty += 1;
        self.lines.turn(number);
        let written = events::answer(room, MISS, number);
        Ok(self.throw_out(&victim, room, written))
    }

    /// The status bits that keep a line from being thrown out.
    #[inline(always)]
    fn held(&self) -> u16 {
        if self.dirty >= self.enough {
            ANY * RESERVED
        } else {
            ANY * (RESERVED | MODIFIED)
        }
    }

    /// Queues the write-back of a dirty victim; its event goes behind the others.
    #[inline(always)]
    fn throw_out(&mut self, victim: &Line, room: &mut Room, at: usize) -> usize {
        if !victim.dirty() {
            return at;
        }
        self.dirty -= 1;
        self.queue.push_write_back(victim.tag, &victim.masks);
        events::write_back_queued(room, at, victim.tag, &victim.masks)
    }
}

impl Calls for Cache {
    #[inline(always)]
    fn read(&mut self, address: u64, ticket: u32, room: &mut Room) -> Result<usize, u8> {
        if !names_sector(address) {
            return Err(NOT_WELL_FORMED);
        }
        let Some((number, line)) = self.lines.matching(address) else {
            return self.read_new(address, ticket, room);
        };
        let sector = sector_of(address);
        if line.has(READABLE << sector) {
            line.cycle = self.cycle;
            self.lines.turn(number);
            return Ok(events::answer(room, HIT, number));
        }
        if line.has(RESERVED << sector) {
            self.misses.join(line.entries[sector], ticket)?;
            line.cycle = self.cycle;
            self.lines.turn(number);
            return Ok(events::answer(room, HIT_RESERVED, number));
        }
        may_wait(&self.queue, &self.misses, 1)?;
        let entry = self.misses.push(ticket);
        self.queue.push_read(address, entry);
        self.dirty -= usize::from(line.reserve(sector, entry));
        line.cycle = self.cycle;
        self.lines.turn(number);
        events::answer(room, SECTOR_MISS, number);
        Ok(events::read_queued(room, address))
    }

    #[inline(always)]
    fn write(&mut self, address: u64, mask: u32, room: &mut Room) -> Result<usize, u8> {
        if !names_sector(address) || mask == 0 {
            return Err(NOT_WELL_FORMED);
        }
        let Some((number, line)) = self.lines.matching(address) else {
            return self.write_new(address, mask, room);
        };
        let sector = sector_of(address);
        let answer = if line.has((READABLE | MODIFIED) << sector) {
            HIT
        } else if line.has(RESERVED << sector) {
            HIT_RESERVED
        } else {
            SECTOR_MISS
        };
        line.cycle = self.cycle;
        self.dirty += usize::from(line.write(sector, mask));
        self.lines.turn(number);
        Ok(events::answer(room, answer, number))
    }

    #[inline(always)]
    fn send(&mut self, room: &mut Room) -> Result<usize, u8> {
        let head = self.queue.pop().ok_or(QUEUE_EMPTY)?;
        if let Some(entry) = head.entry {
            self.misses.send(entry);
        }
        Ok(events::ready(room, head.event, head.length))
    }

    #[inline(always)]
    fn fill(&mut self, address: u64, room: &mut Room) -> Result<usize, u8> {
        let sector = sector_of(address);
        let (_, line) = self.lines.matching(address).ok_or(NOT_SENT)?;
        if !names_sector(address) || !line.has(RESERVED << sector) {
            return Err(NOT_SENT);
        }
        let tickets = self.misses.remove(line.entries[sector])?;
        self.dirty += usize::from(line.fill(sector));
        let mut written = events::filled(room, address, tickets[0]);
        for &ticket in &tickets[1..] {
            written = events::released(room, written, ticket);
        }
        Ok(written)
    }

    #[inline(always)]
    fn tick(&mut self, cycle: u32, room: &mut Room) -> Result<usize, u8> {
        if cycle < self.cycle || cycle == u32::MAX {
            return Err(BAD_CYCLE);
        }
        self.cycle = cycle;
        Ok(events::ticked(room))
    }
}

/// Whether a read that needs so many places of the queue may wait.
fn may_wait(queue: &Queue, misses: &Misses, places: usize) -> Result<(), u8> {
    if queue.free() < places {
        return Err(QUEUE_FULL);
    }
    if misses.full() {
        return Err(MISSES_FULL);
    }
    Ok(())
}
