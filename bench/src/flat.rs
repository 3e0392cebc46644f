//! The cache over the lent tables, number for number those that the library leaves: what the
//! library does, without proofs and without a check of soundness, as fast as we could write it in
//! safe Rust over these tables. They may be any sound ones, as the library's.
//!
//! The three slices are cut into their regions once for all records of a part (`tables`): those of
//! the lines (`lines`), those of the miss table and the queue (`waiting`). The counts of used queue
//! places and miss entries, which the tables have only as their first unused place, are kept. The
//! same check of soundness as the library's is in `check`.

pub mod check;
mod lines;
mod tables;
mod waiting;

use crate::calls::*;
use crate::events::{self, Room};
use lines::*;
use std::hint::cold_path;
pub use tables::Tables;
use waiting::Waiting;

/// What the calls work on. The rule is known where they are compiled.
struct Cache<'a, const RULE: u32, const WHOLE: bool> {
    lines: Lines<'a, RULE, WHOLE>,
    waiting: Waiting<'a>,
}

impl<const RULE: u32, const WHOLE: bool> Cache<'_, RULE, WHOLE> {
    /// A read whose block has no line.
    #[inline(always)]
    fn read_new(&mut self, address: u64, ticket: u32, room: &mut Room) -> Result<usize, u8> {
        let (line, backs) = self.lines.victim(address)?;
        self.waiting.may_wait(1 + usize::from(backs))?;
        events::answer(room, MISS, line);
        let mut written = events::read_queued(room, address);
        self.waiting.push_read(address);
        self.waiting.start_entry(address, ticket);
        if backs {
            written = self.write_back(line, room, written);
        }
        self.lines.take(line, address);
        let sector = sector_of(address);
        if WHOLE {
            let mut four = [EMPTY; 4];
            four[sector].status = RESERVED;
            self.lines.store(line, four);
        } else {
            self.lines.statuses[line][sector] = RESERVED;
        }
        Ok(written)
    }

    /// A write whose block has no line.
    #[inline(always)]
    fn write_new(&mut self, address: u64, mask: u32, room: &mut Room) -> Result<usize, u8> {
        let (line, backs) = self.lines.victim(address)?;
        let mut written = events::answer(room, MISS, line);
        if backs {
            if self.waiting.full() {
                return Err(QUEUE_FULL);
            }
            written = self.write_back(line, room, written);
        }
        self.lines.take(line, address);
        let sector = sector_of(address);
        let readable = u8::from(mask == u32::MAX);
        if WHOLE {
            let mut four = [EMPTY; 4];
            four[sector] = Sector { status: MODIFIED, mask, readable };
            self.lines.store(line, four);
        } else {
            self.lines.masks[line][sector] = mask;
            self.lines.statuses[line][sector] = MODIFIED;
            self.lines.readable[line][sector] = readable;
        }
        *self.lines.dirty += 1;
        Ok(written)
    }

    /// A write to a line that has its block, lifted and stored back whole.
    #[inline(always)]
    fn write_whole(
        &mut self,
        line: usize,
        statuses: u32,
        sector: usize,
        mask: u32,
        room: &mut Room,
    ) -> usize {
        let mut four = self.lines.lift(line);
        let found = four[sector];
        let joined = found.mask | mask;
        let whole = u8::from(joined == u32::MAX);
        let (answer, left) = match found.status {
            RESERVED => (HIT_RESERVED, Sector { mask: joined, ..found }),
            INVALID => (SECTOR_MISS, Sector { status: MODIFIED, mask: joined, readable: whole }),
            _ => {
                let readable = found.readable | whole;
                (HIT, Sector { status: MODIFIED, mask: joined, readable })
            }
        };
        four[sector] = left;
        self.lines.store(line, four);
        *self.lines.dirty += u32::from(answer != HIT_RESERVED && !is_dirty(statuses));
        events::answer(room, answer, line)
    }

    /// Queues the write-back of a dirty line; its event goes behind the others.
    #[inline(always)]
    fn write_back(&mut self, line: usize, room: &mut Room, at: usize) -> usize {
        *self.lines.dirty -= 1;
        let (block, masks) = (self.lines.tags[line], self.lines.masks[line]);
        self.waiting.push_write_back(block, masks);
        events::write_back_queued(room, at, block, &masks)
    }
}

impl<const RULE: u32, const WHOLE: bool> Calls for Cache<'_, RULE, WHOLE> {
    #[inline(always)]
    fn read(&mut self, address: u64, ticket: u32, room: &mut Room) -> Result<usize, u8> {
        if !names_sector(address) {
            cold_path();
            return Err(NOT_WELL_FORMED);
        }
        let Some((line, statuses)) = self.lines.matching(address) else {
            return self.read_new(address, ticket, room);
        };
        let readable = u32::from_le_bytes(self.lines.readable[line]);
        let first = 8 * sector_of(address);
        // VALID and MODIFIED have their second bit.
        if (statuses / 2 & readable) >> first & 1 != 0 {
            self.lines.touch(line, address);
            return Ok(events::answer(room, HIT, line));
        }
        cold_path();
        if self.lines.statuses[line][sector_of(address)] == RESERVED {
            self.waiting.join(address, ticket)?;
            self.lines.touch(line, address);
            return Ok(events::answer(room, HIT_RESERVED, line));
        }
        self.waiting.may_wait(1)?;
        self.waiting.push_read(address);
        self.waiting.start_entry(address, ticket);
        let sector = sector_of(address);
        if WHOLE {
            self.lines.change(line, sector, |x| {
                x.status = RESERVED;
                x.readable = 1;
            });
        } else {
            self.lines.statuses[line][sector] = RESERVED;
            self.lines.readable[line][sector] = 1;
        }
        let left = u32::from_le_bytes(self.lines.statuses[line]);
        *self.lines.dirty -= u32::from(is_dirty(statuses)) - u32::from(is_dirty(left));
        self.lines.touch(line, address);
        events::answer(room, SECTOR_MISS, line);
        Ok(events::read_queued(room, address))
    }

    #[inline(always)]
    fn write(&mut self, address: u64, mask: u32, room: &mut Room) -> Result<usize, u8> {
        if !names_sector(address) {
            cold_path();
            return Err(NOT_WELL_FORMED);
        }
        let found = self.lines.matching(address);
        if mask == 0 {
            cold_path();
            return Err(NOT_WELL_FORMED);
        }
        let Some((line, statuses)) = found else {
            return self.write_new(address, mask, room);
        };
        let sector = sector_of(address);
        self.lines.touch(line, address);
        if WHOLE {
            return Ok(self.write_whole(line, statuses, sector, mask, room));
        }
        let place = &mut self.lines.masks[line][sector];
        *place |= mask;
        let whole = *place == u32::MAX;
        let status = self.lines.statuses[line][sector];
        if status == RESERVED {
            return Ok(events::answer(room, HIT_RESERVED, line));
        }
        self.lines.statuses[line][sector] = MODIFIED;
        *self.lines.dirty += u32::from(!is_dirty(statuses));
        let readable = &mut self.lines.readable[line][sector];
        let answer = if status == INVALID {
            *readable = u8::from(whole);
            SECTOR_MISS
        } else {
            *readable |= u8::from(whole);
            HIT
        };
        Ok(events::answer(room, answer, line))
    }

    #[inline(always)]
    fn send(&mut self, room: &mut Room) -> Result<usize, u8> {
        self.waiting.send(room)
    }

    #[inline(always)]
    fn fill(&mut self, address: u64, room: &mut Room) -> Result<usize, u8> {
        let written = self.waiting.release(address, room)?;
        if let Some((line, statuses)) = self.lines.matching(address) {
            let sector = sector_of(address);
            let dirty = self.lines.masks[line][sector] != 0;
            let status = VALID + u8::from(dirty);
            if WHOLE {
                self.lines.change(line, sector, |x| x.status = status);
            } else {
                self.lines.statuses[line][sector] = status;
            }
            *self.lines.dirty += u32::from(dirty & !is_dirty(statuses));
        }
        Ok(written)
    }

    #[inline(always)]
    fn tick(&mut self, cycle: u32, room: &mut Room) -> Result<usize, u8> {
        let now = &mut self.lines.cycles[NOW];
        if cycle < *now || cycle == u32::MAX {
            cold_path();
            return Err(BAD_CYCLE);
        }
        *now = cycle;
        Ok(events::ticked(room))
    }
}
