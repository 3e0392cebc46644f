//! The lines and their sets: a line with its sectors, the line that matches an address, the victim
//! of a MISS under each replacement rule.

use crate::calls::{Settings, FIFO, SET_BUSY, SET_HELD, TREE};

/// The status of a line's sectors, four bits of each kind, sector 0 the lowest. A VALID sector has
/// READABLE, a RESERVED one RESERVED, a MODIFIED one MODIFIED and, if a read of it is a HIT,
/// READABLE; an INVALID one has none.
pub const READABLE: u16 = 0x001;
pub const RESERVED: u16 = 0x010;
pub const MODIFIED: u16 = 0x100;
/// Times one of them: of any sector.
pub const ANY: u16 = 0xF;

/// The tag of a line that no MISS has taken yet; no block has this address.
const EMPTY: u64 = u64::MAX;

#[derive(Clone, Copy)]
pub struct Line {
    pub tag: u64,
    pub masks: [u32; 4],
    pub cycle: u32,
    /// The cycle at which a MISS last took the line.
    taken: u32,
    /// The miss entries of its RESERVED sectors.
    pub entries: [u8; 4],
    pub status: u16,
}

impl Line {
    /// A line as a MISS takes it.
    pub fn new(tag: u64, cycle: u32) -> Line {
        Line { tag, masks: [0; 4], cycle, taken: cycle, entries: [0; 4], status: 0 }
    }

    #[inline(always)]
    pub fn has(&self, status: u16) -> bool {
        self.status & status != 0
    }

    pub fn dirty(&self) -> bool {
        self.has(ANY * MODIFIED)
    }

    /// Bytes written to a sector, which is then MODIFIED unless it is RESERVED; whether that makes
    /// the line dirty.
    #[inline(always)]
    pub fn write(&mut self, sector: usize, mask: u32) -> bool {
        self.masks[sector] |= mask;
        if self.has(RESERVED << sector) {
            return false;
        }
        let clean = !self.dirty();
        self.status |= MODIFIED << sector;
        if self.masks[sector] == u32::MAX {
            self.status |= READABLE << sector;
        }
        clean
    }

    /// A sector without all the bytes that are read waits for them; whether that leaves the line
    /// clean.
    #[inline(always)]
    pub fn reserve(&mut self, sector: usize, entry: u8) -> bool {
        let was_dirty = self.dirty();
        self.status &= !(MODIFIED << sector);
        self.status |= RESERVED << sector;
        self.entries[sector] = entry;
        was_dirty && !self.dirty()
    }

    /// The bytes of a RESERVED sector come; whether that makes the line dirty.
    #[inline(always)]
    pub fn fill(&mut self, sector: usize) -> bool {
        self.status ^= (RESERVED | READABLE) << sector;
        if self.masks[sector] == 0 {
            return false;
        }
        let clean = !self.dirty();
        self.status |= MODIFIED << sector;
        clean
    }
}

pub struct Lines {
    pub all: Vec<Line>,
    /// A tree for each set: bit n - 1 is node n, and names the half to go to, 0 the lower.
    trees: Vec<u32>,
    /// The number of the last set, all ones.
    last_set: usize,
    ways: usize,
    rule: u32,
}

impl Lines {
    pub fn new(settings: &Settings) -> Lines {
        let sets = settings.sets as usize;
        Lines {
            all: vec![Line::new(EMPTY, 0); settings.lines()],
            trees: vec![0; sets],
            last_set: sets - 1,
            ways: settings.ways as usize,
            rule: settings.rule,
        }
    }

    pub fn memory(settings: &Settings) -> usize {
        settings.lines() * size_of::<Line>() + settings.sets as usize * size_of::<u32>()
    }

    fn set_of(&self, address: u64) -> usize {
        (address / 128) as usize & self.last_set
    }

    /// The line that holds the address's block, and its number.
    #[inline(always)]
    pub fn matching(&mut self, address: u64) -> Option<(usize, &mut Line)> {
        let start = self.set_of(address) * self.ways;
        let set = &mut self.all[start..start + self.ways];
        let way = set.iter().position(|line| line.tag == address & !127)?;
        Some((start + way, &mut set[way]))
    }

    /// Under the tree rule each node on the path of a line that is used points away from it.
    #[inline(always)]
    pub fn turn(&mut self, number: usize) {
        if self.rule == TREE {
            self.turn_tree(number);
        }
    }

    #[inline(never)]
    fn turn_tree(&mut self, number: usize) {
        let tree = &mut self.trees[number / self.ways];
        let (mut node, mut half) = (1, self.ways / 2);
        while half > 0 {
            let upper = usize::from(number & half != 0);
            *tree = *tree & !(1 << (node - 1)) | (1 - upper as u32) << (node - 1);
            node = 2 * node + upper;
            half /= 2;
        }
    }

    /// The line that a MISS takes: the last empty one of the set, or the one that the rule names
    /// among those that none of some status bits holds.
    #[inline(always)]
    pub fn victim(&self, address: u64, held: u16) -> Result<usize, u8> {
        let set_number = self.set_of(address);
        let start = set_number * self.ways;
        let set = &self.all[start..start + self.ways];
        // Lines are taken from the last on and never emptied.
        if set[0].tag == EMPTY {
            let empty = set.iter().rposition(|line| line.tag == EMPTY);
            return Ok(start + empty.expect("the first is empty"));
        }
        let chosen = match self.rule {
            FIFO => oldest(set, held, |line| line.taken),
            TREE => descend(self.trees[set_number], set, held),
            _ => oldest(set, held, |line| line.cycle),
        };
        let busy = || set.iter().any(|line| line.has(ANY * RESERVED));
        let way = chosen.ok_or_else(|| if busy() { SET_BUSY } else { SET_HELD })?;
        Ok(start + way)
    }
}

/// The first of the least ages among the lines that are not held.
#[inline(always)]
fn oldest(set: &[Line], held: u16, age: impl Fn(&Line) -> u32) -> Option<usize> {
    const NONE: u64 = u64::MAX;
    let mut least = NONE;
    for (way, line) in set.iter().enumerate() {
        let key = u64::from(age(line)) << 8 | way as u64;
        least = least.min(if line.has(held) { NONE } else { key });
    }
    (least != NONE).then_some(least as u8 as usize)
}

/// The way that a tree chooses among the lines that are not held: to the half that a node names if
/// it has one, else to the other.
fn descend(tree: u32, set: &[Line], held: u16) -> Option<usize> {
    let mut candidates = 0u32;
    for (way, line) in set.iter().enumerate() {
        candidates |= u32::from(!line.has(held)) << way;
    }
    if candidates == 0 {
        return None;
    }
    let (mut node, mut first, mut half) = (1, 0, set.len() / 2);
    while half > 0 {
        let named = (tree >> (node - 1) & 1) as usize;
        let span = ((1u32 << half) - 1) << (first + named * half);
        let upper = if candidates & span != 0 { named } else { 1 - named };
        node = 2 * node + upper;
        first += upper * half;
        half /= 2;
    }
    Some(first)
}
