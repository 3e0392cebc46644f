//! The modelled cache on plain structures (document 01, sections "The modelled
//! cache", "Probe and victim", "What an accepted access does" and refusals 4 to 12), with
//! document 02's L1, L2 and L9 where they say otherwise.
//!
//! In order: the structures; access, send, fill and tick; probe and victim.
//! In the files below this one: the settings and their ranges (`settings`), the
//! events and their bytes (`events`), the lent tables, their layout and the
//! calls on them (`lent`), the soundness of lent tables (`sound`), and the trees of
//! rule 2 (`tree`).

mod events;
mod lent;
mod settings;
mod sound;
mod tree;

pub use events::{event_bytes, outcome_bytes, Event, ROOM_NEEDED};
pub use lent::{call_bytes, call_on, check, fresh_on, lengths_for, Layout, Place, Tables};
pub use settings::{Settings, RULE_FIFO, RULE_LRU, RULE_TREE};
pub use sound::{broken, sound, CONDITIONS};
pub use tree::{chosen, node_bits, turned};

use std::collections::VecDeque;

pub const ADDRESS_LIMIT: u64 = 1 << 48;
pub const LINE_BYTES: u64 = 128;
pub const SECTOR_BYTES: u64 = 32;
pub const SECTORS: usize = 4;
pub const FULL_MASK: u32 = u32::MAX;
/// The latest current cycle that sound tables can have.
pub const LAST_CYCLE: u32 = 4_294_967_294;

pub fn block_of(address: u64) -> u64 {
    address - address % LINE_BYTES
}

pub fn sector_of(address: u64) -> u64 {
    address - address % SECTOR_BYTES
}

/// Which of its line's four sectors an address lies in.
pub fn sector_index(address: u64) -> usize {
    (address / SECTOR_BYTES) as usize % SECTORS
}

#[derive(Clone, Copy, PartialEq, Eq, Debug)]
pub enum Status {
    Invalid,
    Reserved,
    Valid,
    Modified,
}

#[derive(Clone, Copy, PartialEq, Eq, Debug)]
pub struct Sector {
    pub status: Status,
    pub mask: u32,
    pub readable: bool,
}

impl Sector {
    pub const EMPTY: Sector = Sector { status: Status::Invalid, mask: 0, readable: true };
}

#[derive(Clone, Copy, PartialEq, Eq, Debug)]
pub struct Line {
    pub tag: u64,
    /// Of the last access.
    pub cycle: u32,
    /// The cycle at which a MISS last took the line (document 02, L1).
    pub taken: u32,
    pub sectors: [Sector; SECTORS],
}

impl Line {
    pub const EMPTY: Line = Line { tag: 0, cycle: 0, taken: 0, sectors: [Sector::EMPTY; SECTORS] };

    pub fn wholly_invalid(&self) -> bool {
        self.sectors.iter().all(|sector| sector.status == Status::Invalid)
    }

    pub fn has(&self, status: Status) -> bool {
        self.sectors.iter().any(|sector| sector.status == status)
    }

    fn masks(&self) -> [u32; SECTORS] {
        self.sectors.map(|sector| sector.mask)
    }
}

#[derive(Clone, PartialEq, Eq, Debug)]
pub struct MissEntry {
    pub address: u64,
    pub sent: bool,
    /// In order of arrival.
    pub tickets: Vec<u32>,
}

#[derive(Clone, Copy, PartialEq, Eq, Debug)]
pub enum Queued {
    Read { address: u64 },
    WriteBack { block: u64, masks: [u32; SECTORS] },
}

#[derive(Clone, Copy, PartialEq, Eq, Debug)]
pub enum Answer {
    Hit = 1,
    HitReserved = 2,
    Miss = 3,
    SectorMiss = 4,
}

/// The refusals with document 01's numbers, in the order of its table.
#[derive(Clone, Copy, PartialEq, Eq, Debug)]
pub enum Refusal {
    BadSettings = 1,
    OtherLength = 2,
    NotSound = 3,
    NotWellFormed = 4,
    SetBusy = 5,
    SetHeld = 6,
    QueueFull = 7,
    EntryFull = 8,
    MissTableFull = 9,
    NotSent = 10,
    BadCycle = 11,
    QueueEmpty = 12,
}

impl Refusal {
    pub fn number(self) -> u8 {
        self as u8
    }
}

/// A read has mask 0; a write's ticket is ignored.
#[derive(Clone, Copy, PartialEq, Eq, Debug)]
pub struct Access {
    pub is_write: bool,
    pub address: u64,
    pub mask: u32,
    pub ticket: u32,
}

impl Access {
    pub fn read(address: u64, ticket: u32) -> Access {
        Access { is_write: false, address, mask: 0, ticket }
    }

    pub fn write(address: u64, mask: u32) -> Access {
        Access { is_write: true, address, mask, ticket: 0 }
    }

    /// Refusal 4 does not apply.
    pub fn well_formed(&self) -> bool {
        self.address.is_multiple_of(SECTOR_BYTES)
            && self.address < ADDRESS_LIMIT
            && self.is_write == (self.mask != 0)
    }
}

#[derive(Clone, Copy, PartialEq, Eq, Debug)]
pub enum Call {
    Access(Access),
    Send,
    Fill(u64),
    Tick(u32),
}

pub type Outcome = Result<Vec<Event>, Refusal>;

#[derive(Clone, PartialEq, Eq, Debug)]
pub struct Cache {
    pub settings: Settings,
    /// By line number: set × ways + way.
    pub lines: Vec<Line>,
    /// In order of creation, the oldest first.
    pub misses: Vec<MissEntry>,
    pub queue: VecDeque<Queued>,
    pub cycle: u32,
    /// By set (document 02, L9); all 0 under the other rules.
    pub trees: Vec<u32>,
}

impl Cache {
    /// Fresh tables: all invalid and readable, all empty, cycle 0, trees 0.
    pub fn fresh(settings: Settings) -> Cache {
        Cache {
            settings,
            lines: vec![Line::EMPTY; settings.lines()],
            misses: Vec::new(),
            queue: VecDeque::new(),
            cycle: 0,
            trees: vec![0; settings.sets as usize],
        }
    }

    pub fn call(&mut self, call: Call) -> Outcome {
        match call {
            Call::Access(access) => self.access(access),
            Call::Send => self.send(),
            Call::Fill(address) => self.fill(address),
            Call::Tick(cycle) => self.tick(cycle),
        }
    }

    /// A read or a write. All refusals are found before anything changes.
    pub fn access(&mut self, access: Access) -> Outcome {
        let (answer, number) = self.judge(&access)?;
        let write_back = match answer {
            Answer::Miss => self.replace_line(number, block_of(access.address)),
            _ => None,
        };
        self.lines[number].cycle = self.cycle;
        self.turn_tree(number);

        let mut events = vec![Event::Answer { answer, line: number as u16 }];
        if access.is_write {
            self.write_sector(number, &access);
        } else {
            events.extend(self.read_sector(answer, number, &access));
        }
        if let Some((block, masks)) = write_back {
            self.queue.push_back(Queued::WriteBack { block, masks });
            events.push(Event::WriteBackQueued { block, masks });
        }
        Ok(events)
    }

    /// The answer and the line number, or the first of refusals 4 to 9 that applies.
    fn judge(&self, access: &Access) -> Result<(Answer, usize), Refusal> {
        if !access.well_formed() {
            return Err(Refusal::NotWellFormed);
        }
        let (answer, number) = self.probe(access)?;
        if self.free_places() < self.places_needed(access.is_write, answer, number) {
            return Err(Refusal::QueueFull);
        }
        if access.is_write {
            return Ok((answer, number));
        }
        let readers = self.settings.readers as usize;
        let entries = self.settings.misses as usize;
        match answer {
            Answer::HitReserved if self.entry_of(access.address).tickets.len() >= readers => {
                Err(Refusal::EntryFull)
            }
            Answer::Miss | Answer::SectorMiss if self.misses.len() >= entries => {
                Err(Refusal::MissTableFull)
            }
            _ => Ok((answer, number)),
        }
    }

    /// As many as the access will queue: the read of a miss, and the write-back of a dirty victim
    /// (document 02, L2).
    fn places_needed(&self, is_write: bool, answer: Answer, number: usize) -> usize {
        let read = usize::from(!is_write);
        let write_back = usize::from(self.lines[number].has(Status::Modified));
        match answer {
            Answer::Hit | Answer::HitReserved => 0,
            Answer::SectorMiss => read,
            Answer::Miss => read + write_back,
        }
    }

    /// Of the miss queue.
    fn free_places(&self) -> usize {
        self.settings.queue as usize - self.queue.len()
    }

    fn entry_of(&self, address: u64) -> &MissEntry {
        self.misses
            .iter()
            .find(|entry| entry.address == address)
            .expect("a RESERVED sector has an entry")
    }

    /// The line takes a new tag, with all sectors empty; a dirty victim's block and masks come back.
    fn replace_line(&mut self, number: usize, block: u64) -> Option<(u64, [u32; SECTORS])> {
        let victim = self.lines[number];
        self.lines[number] = Line { tag: block, taken: self.cycle, ..Line::EMPTY };
        victim.has(Status::Modified).then(|| (victim.tag, victim.masks()))
    }

    /// "After every accepted access each node on the path to its way points to the half not taken."
    fn turn_tree(&mut self, number: usize) {
        let ways = self.settings.ways as usize;
        if self.settings.rule == RULE_TREE {
            let tree = &mut self.trees[number / ways];
            *tree = turned(*tree, ways, number % ways);
        }
    }

    fn read_sector(&mut self, answer: Answer, number: usize, access: &Access) -> Option<Event> {
        let address = access.address;
        match answer {
            Answer::Hit => None,
            Answer::HitReserved => {
                let entry = self.misses.iter_mut().find(|entry| entry.address == address);
                entry.expect("a RESERVED sector has an entry").tickets.push(access.ticket);
                None
            }
            Answer::Miss | Answer::SectorMiss => {
                let sector = &mut self.lines[number].sectors[sector_index(address)];
                sector.status = Status::Reserved;
                sector.readable = true;
                self.misses.push(MissEntry { address, sent: false, tickets: vec![access.ticket] });
                self.queue.push_back(Queued::Read { address });
                Some(Event::ReadQueued { address })
            }
        }
    }

    fn write_sector(&mut self, number: usize, access: &Access) {
        let sector = &mut self.lines[number].sectors[sector_index(access.address)];
        sector.mask |= access.mask;
        if sector.status == Status::Reserved {
            return;
        }
        let readable_before = sector.readable && sector.status != Status::Invalid;
        sector.readable = sector.mask == FULL_MASK || readable_before;
        sector.status = Status::Modified;
    }

    /// Takes the queue head; a read marks its entry sent.
    pub fn send(&mut self) -> Outcome {
        match self.queue.pop_front() {
            None => Err(Refusal::QueueEmpty),
            Some(Queued::WriteBack { block, masks }) => {
                Ok(vec![Event::WriteBackSent { block, masks }])
            }
            Some(Queued::Read { address }) => {
                let entry = self.misses.iter_mut().find(|entry| entry.address == address);
                entry.expect("a queued read has an entry").sent = true;
                Ok(vec![Event::ReadSent { address }])
            }
        }
    }

    /// The address is compared as it is given; one inside a sector names no entry.
    pub fn fill(&mut self, address: u64) -> Outcome {
        let place = self.misses.iter().position(|entry| entry.sent && entry.address == address);
        let entry = self.misses.remove(place.ok_or(Refusal::NotSent)?);
        let number = self.matching_line(block_of(address)).expect("an entry has a line");
        let sector = &mut self.lines[number].sectors[sector_index(address)];
        sector.status = if sector.mask != 0 { Status::Modified } else { Status::Valid };
        sector.readable = true;

        let mut events = vec![Event::Filled { address }];
        events.extend(entry.tickets.iter().map(|&ticket| Event::Released { ticket }));
        Ok(events)
    }

    pub fn tick(&mut self, cycle: u32) -> Outcome {
        if cycle < self.cycle || cycle > LAST_CYCLE {
            return Err(Refusal::BadCycle);
        }
        self.cycle = cycle;
        Ok(vec![Event::Ticked])
    }

    /// The answer and its line: the matching one, or the victim; or refusal 5 or 6.
    fn probe(&self, access: &Access) -> Result<(Answer, usize), Refusal> {
        let block = block_of(access.address);
        match self.matching_line(block) {
            Some(number) => {
                let sector = &self.lines[number].sectors[sector_index(access.address)];
                Ok((answer_on_match(sector, access.is_write), number))
            }
            None => Ok((Answer::Miss, self.victim(block)?)),
        }
    }

    /// A wholly invalid line matches nothing, also where the block address is 0.
    pub fn matching_line(&self, block: u64) -> Option<usize> {
        self.lines_of_set(block)
            .find(|&number| !self.lines[number].wholly_invalid() && self.lines[number].tag == block)
    }

    fn lines_of_set(&self, block: u64) -> std::ops::Range<usize> {
        let ways = self.settings.ways as usize;
        let first = self.settings.set_of(block) * ways;
        first..first + ways
    }

    fn victim(&self, block: u64) -> Result<usize, Refusal> {
        let may_evict_dirty = self.dirty_enough();
        let candidates: Vec<usize> = self
            .lines_of_set(block)
            .filter(|&number| is_candidate(&self.lines[number], may_evict_dirty))
            .collect();
        let highest_invalid = candidates.iter().rev().find(|&&n| self.lines[n].wholly_invalid());
        match highest_invalid.copied().or_else(|| self.chosen_by_rule(block, &candidates)) {
            Some(number) => Ok(number),
            None if self.lines_of_set(block).any(|n| self.lines[n].has(Status::Reserved)) => {
                Err(Refusal::SetBusy)
            }
            None => Err(Refusal::SetHeld),
        }
    }

    /// Among candidates none of which is wholly invalid.
    fn chosen_by_rule(&self, block: u64, candidates: &[usize]) -> Option<usize> {
        if self.settings.rule != RULE_TREE {
            return candidates.iter().copied().min_by_key(|&n| (self.age_key(n), n));
        }
        let lines = self.lines_of_set(block);
        let marked: Vec<bool> = lines.clone().map(|n| candidates.contains(&n)).collect();
        let way = chosen(self.trees[self.settings.set_of(block)], &marked)?;
        Some(lines.start + way)
    }

    /// The cycle that the rule compares: of the last access, or of the MISS that took the line.
    fn age_key(&self, number: usize) -> u32 {
        match self.settings.rule {
            RULE_FIFO => self.lines[number].taken,
            _ => self.lines[number].cycle,
        }
    }

    /// Lines of the whole cache with a MODIFIED sector.
    pub fn dirty_lines(&self) -> usize {
        self.lines.iter().filter(|line| line.has(Status::Modified)).count()
    }

    fn dirty_enough(&self) -> bool {
        100 * self.dirty_lines() >= self.settings.dirty as usize * self.lines.len()
    }
}

/// Document 01's table of answers for a way with the tag.
fn answer_on_match(sector: &Sector, is_write: bool) -> Answer {
    match (sector.status, is_write, sector.readable) {
        (Status::Invalid, _, _) => Answer::SectorMiss,
        (Status::Reserved, _, _) => Answer::HitReserved,
        (Status::Valid, _, _) => Answer::Hit,
        (Status::Modified, true, _) => Answer::Hit,
        (Status::Modified, false, true) => Answer::Hit,
        (Status::Modified, false, false) => Answer::SectorMiss,
    }
}

fn is_candidate(line: &Line, may_evict_dirty: bool) -> bool {
    !line.has(Status::Reserved) && (!line.has(Status::Modified) || may_evict_dirty)
}
