//! Document 02, L7: the bytes that are owed a write-back and the queue, followed by the calls
//! of a history and the event records that they gave alone, then held against tables.

use crate::model::{block_of, Access, Cache, Call, Queued, SECTORS, SECTOR_BYTES};
use crate::runner::read_record;
use std::collections::{BTreeSet, VecDeque};

pub struct Owed {
    /// Byte addresses that an accepted write covered after the last queued write-back that
    /// carried them, or at all if there was none.
    bytes: BTreeSet<u64>,
    queue: VecDeque<Queued>,
    /// How many bytes were covered, and how many carried.
    pub covered: u64,
    pub carried: u64,
}

impl Owed {
    /// Before a history: the dirty bytes of its first tables count as written once.
    pub fn before(cache: &Cache) -> Owed {
        Owed { bytes: dirty_bytes(cache), queue: cache.queue.clone(), covered: 0, carried: 0 }
    }

    /// One call and its event records. A write-back may carry only what was owed before the
    /// call, and what is sent is the queue's head.
    pub fn call(&mut self, call: &Call, log: &[u8]) -> Result<(), String> {
        let (mut at, mut answered) = (0, false);
        while at < log.len() {
            let (kind, body) = read_record(log, at).map_err(|stop| format!("log: stop {stop}"))?;
            at += 1 + body.len();
            match kind {
                0x10 => answered = true,
                0x12 | 0x13 => self.queued(queued_of(kind == 0x13, body))?,
                0x15 | 0x16 => self.sent(queued_of(kind == 0x16, body))?,
                _ => (),
            }
        }
        match call {
            Call::Access(access) if answered && access.is_write => self.cover(access),
            _ => (),
        }
        Ok(())
    }

    fn queued(&mut self, entry: Queued) -> Result<(), String> {
        self.queue.push_back(entry);
        let Queued::WriteBack { block, masks } = entry else {
            return Ok(());
        };
        for byte in marked_bytes(block, &masks) {
            if !self.bytes.remove(&byte) {
                return Err(format!("a write-back of {block:#x} carries byte {byte:#x}: not owed"));
            }
            self.carried += 1;
        }
        Ok(())
    }

    fn sent(&mut self, entry: Queued) -> Result<(), String> {
        match self.queue.pop_front() {
            Some(head) if head == entry => Ok(()),
            head => Err(format!("sent {entry:x?}, the queue's head is {head:x?}")),
        }
    }

    fn cover(&mut self, access: &Access) {
        for byte in marked_bytes(access.address, &[access.mask]) {
            self.covered += u64::from(self.bytes.insert(byte));
        }
    }

    /// The tables after the call: dirty exactly what is owed, queued exactly what was told.
    pub fn compare(&self, cache: &Cache) -> Result<(), String> {
        let dirty = dirty_bytes(cache);
        if let Some(byte) = dirty.symmetric_difference(&self.bytes).next() {
            let (owed, block) = (self.bytes.contains(byte), block_of(*byte));
            return Err(format!(
                "byte {byte:#x} of block {block:#x}: owed {owed}, dirty {}",
                !owed
            ));
        }
        if cache.queue != self.queue {
            return Err(format!("queue {:x?}, told {:x?}", cache.queue, self.queue));
        }
        Ok(())
    }
}

/// "dirty in the cache (its mask bit is set, whatever the status)"
fn dirty_bytes(cache: &Cache) -> BTreeSet<u64> {
    let masks = |line: &crate::model::Line| line.sectors.map(|sector| sector.mask);
    cache.lines.iter().flat_map(|line| marked_bytes(line.tag, &masks(line))).collect()
}

/// The bytes that masks mark, of sectors one behind another from an address on.
fn marked_bytes(from: u64, masks: &[u32]) -> Vec<u64> {
    let bit = |byte: u64| masks[(byte / SECTOR_BYTES) as usize] >> (byte % SECTOR_BYTES) & 1;
    let length = SECTOR_BYTES * masks.len() as u64;
    (0..length).filter(|&byte| bit(byte) == 1).map(|byte| from + byte).collect()
}

/// The queue entry that the body of a record of kind 0x12, 0x13, 0x15 or 0x16 tells.
fn queued_of(write_back: bool, body: &[u8]) -> Queued {
    let number = |from: usize, length: usize| {
        body[from..from + length].iter().rev().fold(0, |high, &byte| high << 8 | u64::from(byte))
    };
    if !write_back {
        return Queued::Read { address: number(0, 8) };
    }
    let mut masks = [0; SECTORS];
    for (sector, mask) in masks.iter_mut().enumerate() {
        *mask = number(8 + 4 * sector, 4) as u32;
    }
    Queued::WriteBack { block: number(0, 8), masks }
}
