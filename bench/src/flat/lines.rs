//! The lines and their sets: the line that matches an address, the victim of a MISS under each
//! replacement rule. The statuses of a line's sectors are read as one number.

use crate::calls::{FIFO, SET_BUSY, SET_HELD, TREE};
use std::hint::cold_path;

pub const INVALID: u8 = 0;
pub const RESERVED: u8 = 1;
pub const VALID: u8 = 2;
pub const MODIFIED: u8 = 3;

/// The first bit of each of four statuses.
const FIRST: u32 = 0x0101_0101;

/// Whether a sector is MODIFIED, which has both bits.
#[inline(always)]
pub fn is_dirty(statuses: u32) -> bool {
    statuses & statuses / 2 & FIRST != 0
}

/// Whether a sector is RESERVED, which has the first bit alone.
#[inline(always)]
fn is_reserved(statuses: u32) -> bool {
    statuses & !(statuses / 2) & FIRST != 0
}

/// Where the current cycle stands among the cycles; those of the lines come behind it.
pub const NOW: usize = 0;

/// A sector by itself, for the runs that change a line as one array.
#[derive(Clone, Copy)]
pub struct Sector {
    pub status: u8,
    pub mask: u32,
    pub readable: u8,
}

/// A sector of a line that was just taken.
pub const EMPTY: Sector = Sector { status: INVALID, mask: 0, readable: 1 };

/// WHOLE: a line that changes is lifted as one array and stored back whole, as document 01 has it.
pub struct Lines<'a, const RULE: u32, const WHOLE: bool> {
    pub tags: &'a mut [u64],
    pub cycles: &'a mut [u32],
    pub masks: &'a mut [[u32; 4]],
    /// How many lines are dirty.
    pub dirty: &'a mut u32,
    pub taken: &'a mut [u32],
    pub trees: &'a mut [u32],
    pub statuses: &'a mut [[u8; 4]],
    pub readable: &'a mut [[u8; 4]],
    /// The number of the last set, all ones.
    pub last_set: u8,
    pub ways: u8,
    /// From so many dirty lines on one may be thrown out.
    pub enough: u32,
}

impl<const RULE: u32, const WHOLE: bool> Lines<'_, RULE, WHOLE> {
    #[inline(always)]
    pub fn lift(&self, line: usize) -> [Sector; 4] {
        let (statuses, masks) = (self.statuses[line], self.masks[line]);
        let readable = self.readable[line];
        std::array::from_fn(|k| Sector {
            status: statuses[k],
            mask: masks[k],
            readable: readable[k],
        })
    }

    #[inline(always)]
    pub fn store(&mut self, line: usize, four: [Sector; 4]) {
        self.masks[line] = four.map(|sector| sector.mask);
        self.statuses[line] = four.map(|sector| sector.status);
        self.readable[line] = four.map(|sector| sector.readable);
    }

    /// Changes one sector of a line, which is lifted and stored back whole.
    #[inline(always)]
    pub fn change(&mut self, line: usize, sector: usize, change: impl FnOnce(&mut Sector)) {
        let mut four = self.lift(line);
        change(&mut four[sector]);
        self.store(line, four);
    }

    #[inline(always)]
    fn set_of(&self, address: u64) -> usize {
        (address / 128) as usize & usize::from(self.last_set)
    }

    /// The line that holds the address's block, and its statuses.
    #[inline(always)]
    pub fn matching(&self, address: u64) -> Option<(usize, u32)> {
        let ways = usize::from(self.ways);
        let start = self.set_of(address) * ways;
        let block = address & !127;
        let tags = &self.tags[..start + ways];
        for line in start..start + ways {
            if tags[line] == block {
                // An unused line has the tag of block 0.
                let statuses = u32::from_le_bytes(self.statuses[line]);
                if statuses != 0 {
                    return Some((line, statuses));
                }
                cold_path();
            }
        }
        None
    }

    /// An access of a line: its cycle and the tree of its set.
    #[inline(always)]
    pub fn touch(&mut self, line: usize, address: u64) {
        self.cycles[1 + line] = self.cycles[NOW];
        if RULE == TREE {
            let (set, ways) = (self.set_of(address), usize::from(self.ways));
            self.trees[set] = turned(self.trees[set], line - set * ways, ways);
        }
    }

    /// A line that a MISS takes, its sectors INVALID and readable; with WHOLE they are stored with the one that changes.
    #[inline(always)]
    pub fn take(&mut self, line: usize, address: u64) {
        self.tags[line] = address & !127;
        self.taken[line] = self.cycles[NOW];
        if !WHOLE {
            self.masks[line] = [0; 4];
            self.statuses[line] = [INVALID; 4];
            self.readable[line] = [1; 4];
        }
        self.touch(line, address);
    }

    /// The line that a MISS takes, and whether it is dirty: the last unused one of the set, or the
    /// one that the rule names among those that may go.
    #[inline(always)]
    pub fn victim(&self, address: u64) -> Result<(usize, bool), u8> {
        let set = self.set_of(address);
        let ways = usize::from(self.ways);
        let start = set * ways;
        let lines = start..start + ways;
        let statuses = &self.statuses[lines.clone()];
        let enough = *self.dirty >= self.enough;
        let way = match RULE {
            FIFO => oldest(statuses, &self.taken[lines], enough),
            TREE => descend(statuses, self.trees[set], enough),
            _ => oldest(statuses, &self.cycles[1..][lines], enough),
        };
        let Some((way, four)) = way else {
            let busy = statuses.iter().any(|&four| is_reserved(u32::from_le_bytes(four)));
            return Err(if busy { SET_BUSY } else { SET_HELD });
        };
        Ok((start + way, is_dirty(four)))
    }
}

/// A tree after a use of a way: each node on its path points away from it.
#[inline(never)]
fn turned(mut tree: u32, way: usize, ways: usize) -> u32 {
    let (mut node, mut half) = (1, ways / 2);
    while half > 0 {
        let upper = usize::from(way & half != 0);
        tree = tree & !(1 << (node - 1)) | (1 - upper as u32) << (node - 1);
        node = 2 * node + upper;
        half /= 2;
    }
    tree
}

/// The last unused way, or the first of the least ages among those that may go; with its statuses.
#[inline(always)]
fn oldest(statuses: &[[u8; 4]], ages: &[u32], enough: bool) -> Option<(usize, u32)> {
    let dirty_goes = if enough { FIRST } else { 0 };
    // No age is the highest number.
    let mut least = (u32::MAX, 0, 0);
    for (way, (&four, &age)) in statuses.iter().zip(ages).enumerate().rev() {
        let four = u32::from_le_bytes(four);
        if four == 0 {
            return Some((way, four));
        }
        if age <= least.0 && four & FIRST == four & four / 2 & dirty_goes {
            least = (age, way, four);
        }
    }
    (least.0 != u32::MAX).then_some((least.1, least.2))
}

/// The last unused way, or the one that a tree chooses among those that may go: to the half that a
/// node names if it has one, else to the other; with its statuses.
#[inline(never)]
fn descend(statuses: &[[u8; 4]], tree: u32, enough: bool) -> Option<(usize, u32)> {
    let mut candidates = 0u32;
    for (way, &four) in statuses.iter().enumerate().rev() {
        let four = u32::from_le_bytes(four);
        if four == 0 {
            return Some((way, four));
        }
        let goes = !is_reserved(four) && (enough || !is_dirty(four));
        candidates |= u32::from(goes) << way;
    }
    if candidates == 0 {
        return None;
    }
    let (mut node, mut first, mut half) = (1, 0, statuses.len() / 2);
    while half > 0 {
        let named = (tree >> (node - 1) & 1) as usize;
        let span = ((1u32 << half) - 1) << (first + named * half);
        let upper = if candidates & span != 0 { named } else { 1 - named };
        node = 2 * node + upper;
        first += upper * half;
        half /= 2;
    }
    Some((first, u32::from_le_bytes(statuses[first])))
}
