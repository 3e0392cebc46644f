//! The lent tables: three arrays by width, where each number stands in them,
//! the way to and from the plain structures, and the calls on lent tables with
//! refusals 1 to 3 before those of the cache itself.

use super::{outcome_bytes, Status, ROOM_NEEDED, SECTORS};
use super::{sound, Cache, Call, Line, MissEntry, Outcome, Queued, Refusal, Sector, Settings};

#[derive(Clone, PartialEq, Eq, Debug, Default)]
pub struct Tables {
    pub longs: Vec<u64>,
    pub words: Vec<u32>,
    pub marks: Vec<u8>,
}

/// The place of one number in the tables.
#[derive(Clone, Copy, PartialEq, Eq, Debug)]
pub enum Place {
    Long(usize),
    Word(usize),
    Mark(usize),
}

impl Tables {
    /// All zero, which is not sound: unreadable sectors must be MODIFIED.
    pub fn zero(settings: &Settings) -> Tables {
        let [longs, words, marks] = Layout::of(settings).lengths();
        Tables { longs: vec![0; longs], words: vec![0; words], marks: vec![0; marks] }
    }

    pub fn fresh(settings: &Settings) -> Tables {
        Cache::fresh(*settings).encode()
    }

    pub fn lengths(&self) -> [usize; 3] {
        [self.longs.len(), self.words.len(), self.marks.len()]
    }

    pub fn get(&self, place: Place) -> u64 {
        match place {
            Place::Long(index) => self.longs[index],
            Place::Word(index) => u64::from(self.words[index]),
            Place::Mark(index) => u64::from(self.marks[index]),
        }
    }

    /// Keeps the low bits that the place has room for.
    pub fn set(&mut self, place: Place, number: u64) {
        match place {
            Place::Long(index) => self.longs[index] = number,
            Place::Word(index) => self.words[index] = number as u32,
            Place::Mark(index) => self.marks[index] = number as u8,
        }
    }

    /// The first place where two tables of equal lengths differ.
    pub fn first_difference(&self, other: &Tables) -> Option<Place> {
        let longs = self.longs.iter().zip(&other.longs).position(|(a, b)| a != b);
        let words = || self.words.iter().zip(&other.words).position(|(a, b)| a != b);
        let marks = || self.marks.iter().zip(&other.marks).position(|(a, b)| a != b);
        longs
            .map(Place::Long)
            .or_else(|| words().map(Place::Word))
            .or_else(|| marks().map(Place::Mark))
    }
}

/// Where each number stands, for settings in range.
#[derive(Clone, Copy, Debug)]
pub struct Layout {
    pub sets: usize,
    pub lines: usize,
    pub entries: usize,
    pub readers: usize,
    pub places: usize,
}

impl Layout {
    pub fn of(settings: &Settings) -> Layout {
        Layout {
            sets: settings.sets as usize,
            lines: settings.lines(),
            entries: settings.misses as usize,
            readers: settings.readers as usize,
            places: settings.queue as usize,
        }
    }

    /// Lengths of the 64-bit numbers, the 32-bit numbers and the bytes.
    pub fn lengths(&self) -> [usize; 3] {
        [
            self.lines + self.entries + self.places,
            2 + 6 * self.lines + self.entries * self.readers + 4 * self.places + self.sets,
            8 * self.lines + 2 * self.entries + self.places,
        ]
    }

    pub fn tag(&self, line: usize) -> Place {
        Place::Long(line)
    }

    pub fn miss_address(&self, entry: usize) -> Place {
        Place::Long(self.lines + entry)
    }

    pub fn queue_address(&self, place: usize) -> Place {
        Place::Long(self.lines + self.entries + place)
    }

    pub fn current_cycle(&self) -> Place {
        Place::Word(0)
    }

    pub fn line_cycle(&self, line: usize) -> Place {
        Place::Word(1 + line)
    }

    pub fn mask(&self, line: usize, sector: usize) -> Place {
        Place::Word(1 + self.lines + 4 * line + sector)
    }

    pub fn ticket(&self, entry: usize, which: usize) -> Place {
        Place::Word(1 + 5 * self.lines + entry * self.readers + which)
    }

    pub fn queue_mask(&self, place: usize, sector: usize) -> Place {
        let queue = 1 + 5 * self.lines + self.entries * self.readers;
        Place::Word(queue + 4 * place + sector)
    }

    pub fn dirty_count(&self) -> Place {
        Place::Word(self.dirty_count_index())
    }

    fn dirty_count_index(&self) -> usize {
        1 + 5 * self.lines + self.entries * self.readers + 4 * self.places
    }

    /// Behind the count of dirty lines.
    pub fn taken(&self, line: usize) -> Place {
        Place::Word(self.dirty_count_index() + 1 + line)
    }

    /// Behind the taken cycles.
    pub fn tree(&self, set: usize) -> Place {
        Place::Word(self.dirty_count_index() + 1 + self.lines + set)
    }

    pub fn status(&self, line: usize, sector: usize) -> Place {
        Place::Mark(4 * line + sector)
    }

    pub fn readable(&self, line: usize, sector: usize) -> Place {
        Place::Mark(4 * self.lines + 4 * line + sector)
    }

    pub fn sent(&self, entry: usize) -> Place {
        Place::Mark(8 * self.lines + entry)
    }

    pub fn ticket_count(&self, entry: usize) -> Place {
        Place::Mark(8 * self.lines + self.entries + entry)
    }

    pub fn queue_kind(&self, place: usize) -> Place {
        Place::Mark(8 * self.lines + 2 * self.entries + place)
    }

    /// A place in words, for the report of a difference.
    pub fn describe(&self, place: Place) -> String {
        match place {
            Place::Long(index) => self.describe_long(index),
            Place::Word(0) => "current cycle".to_string(),
            Place::Word(index) => self.describe_word(index - 1),
            Place::Mark(index) => self.describe_mark(index),
        }
    }

    fn describe_long(&self, index: usize) -> String {
        let miss = index.checked_sub(self.lines);
        match (miss, miss.and_then(|miss| miss.checked_sub(self.entries))) {
            (_, Some(place)) => format!("address of queue place {place}"),
            (Some(entry), _) => format!("address of miss entry {entry}"),
            _ => format!("tag of line {index}"),
        }
    }

    fn describe_word(&self, index: usize) -> String {
        let tickets = 5 * self.lines;
        let queue = tickets + self.entries * self.readers;
        let count = queue + 4 * self.places;
        match index {
            _ if index < self.lines => format!("cycle of line {index}"),
            _ if index < tickets => format!("mask of {}", sector_name(index - self.lines)),
            _ if index < queue => {
                let (entry, which) =
                    ((index - tickets) / self.readers, (index - tickets) % self.readers);
                format!("ticket {which} of miss entry {entry}")
            }
            _ if index < count => {
                format!("mask {} of queue place {}", (index - queue) % 4, (index - queue) / 4)
            }
            _ if index == count => "count of dirty lines".to_string(),
            _ if index <= count + self.lines => {
                format!("taken cycle of line {}", index - count - 1)
            }
            _ => format!("tree of set {}", index - count - self.lines - 1),
        }
    }

    fn describe_mark(&self, index: usize) -> String {
        let readable = 4 * self.lines;
        let sent = 8 * self.lines;
        let counts = sent + self.entries;
        let kinds = counts + self.entries;
        match index {
            _ if index < readable => format!("status of {}", sector_name(index)),
            _ if index < sent => format!("readable mark of {}", sector_name(index - readable)),
            _ if index < counts => format!("sent mark of miss entry {}", index - sent),
            _ if index < kinds => format!("ticket count of miss entry {}", index - counts),
            _ => format!("kind of queue place {}", index - kinds),
        }
    }
}

fn sector_name(index: usize) -> String {
    format!("line {} sector {}", index / 4, index % 4)
}

pub const KIND_READ: u64 = 1;
pub const KIND_WRITE_BACK: u64 = 2;

fn status_number(status: Status) -> u64 {
    match status {
        Status::Invalid => 0,
        Status::Reserved => 1,
        Status::Valid => 2,
        Status::Modified => 3,
    }
}

fn status_from(number: u64) -> Status {
    match number {
        0 => Status::Invalid,
        1 => Status::Reserved,
        2 => Status::Valid,
        3 => Status::Modified,
        _ => panic!("a status above 3 in sound tables"),
    }
}

impl Cache {
    /// From sound tables of the right lengths, whose count of dirty lines is then the true one.
    pub fn decode(settings: &Settings, tables: &Tables) -> Cache {
        let layout = Layout::of(settings);
        let lines = (0..layout.lines).map(|line| decode_line(&layout, tables, line)).collect();
        let misses = (0..layout.entries)
            .filter(|&entry| tables.get(layout.ticket_count(entry)) != 0)
            .map(|entry| decode_entry(&layout, tables, entry))
            .collect();
        let queue =
            (0..layout.places).filter_map(|place| decode_queued(&layout, tables, place)).collect();
        let cycle = tables.get(layout.current_cycle()) as u32;
        let trees = (0..layout.sets).map(|set| tables.get(layout.tree(set)) as u32).collect();
        Cache { settings: *settings, lines, misses, queue, cycle, trees }
    }

    /// Unused entries, tickets, queue places and masks of reads are zero.
    pub fn encode(&self) -> Tables {
        let layout = Layout::of(&self.settings);
        let mut tables = Tables::zero(&self.settings);
        tables.set(layout.current_cycle(), u64::from(self.cycle));
        tables.set(layout.dirty_count(), self.dirty_lines() as u64);
        for (number, line) in self.lines.iter().enumerate() {
            encode_line(&layout, &mut tables, number, line);
        }
        for (number, entry) in self.misses.iter().enumerate() {
            encode_entry(&layout, &mut tables, number, entry);
        }
        for (place, queued) in self.queue.iter().enumerate() {
            encode_queued(&layout, &mut tables, place, queued);
        }
        for (set, &tree) in self.trees.iter().enumerate() {
            tables.set(layout.tree(set), u64::from(tree));
        }
        tables
    }
}

fn decode_line(layout: &Layout, tables: &Tables, line: usize) -> Line {
    let mut sectors = [Sector::EMPTY; SECTORS];
    for (number, sector) in sectors.iter_mut().enumerate() {
        sector.status = status_from(tables.get(layout.status(line, number)));
        sector.mask = tables.get(layout.mask(line, number)) as u32;
        sector.readable = tables.get(layout.readable(line, number)) == 1;
    }
    Line {
        tag: tables.get(layout.tag(line)),
        cycle: tables.get(layout.line_cycle(line)) as u32,
        taken: tables.get(layout.taken(line)) as u32,
        sectors,
    }
}

fn encode_line(layout: &Layout, tables: &mut Tables, number: usize, line: &Line) {
    tables.set(layout.tag(number), line.tag);
    tables.set(layout.line_cycle(number), u64::from(line.cycle));
    tables.set(layout.taken(number), u64::from(line.taken));
    for (index, sector) in line.sectors.iter().enumerate() {
        tables.set(layout.status(number, index), status_number(sector.status));
        tables.set(layout.mask(number, index), u64::from(sector.mask));
        tables.set(layout.readable(number, index), u64::from(sector.readable));
    }
}

fn decode_entry(layout: &Layout, tables: &Tables, entry: usize) -> MissEntry {
    let count = tables.get(layout.ticket_count(entry)) as usize;
    MissEntry {
        address: tables.get(layout.miss_address(entry)),
        sent: tables.get(layout.sent(entry)) == 1,
        tickets: (0..count).map(|i| tables.get(layout.ticket(entry, i)) as u32).collect(),
    }
}

fn encode_entry(layout: &Layout, tables: &mut Tables, number: usize, entry: &MissEntry) {
    tables.set(layout.miss_address(number), entry.address);
    tables.set(layout.sent(number), u64::from(entry.sent));
    tables.set(layout.ticket_count(number), entry.tickets.len() as u64);
    for (which, &ticket) in entry.tickets.iter().enumerate() {
        tables.set(layout.ticket(number, which), u64::from(ticket));
    }
}

fn decode_queued(layout: &Layout, tables: &Tables, place: usize) -> Option<Queued> {
    let address = tables.get(layout.queue_address(place));
    match tables.get(layout.queue_kind(place)) {
        KIND_READ => Some(Queued::Read { address }),
        KIND_WRITE_BACK => {
            let masks = [0, 1, 2, 3].map(|s| tables.get(layout.queue_mask(place, s)) as u32);
            Some(Queued::WriteBack { block: address, masks })
        }
        _ => None,
    }
}

fn encode_queued(layout: &Layout, tables: &mut Tables, place: usize, queued: &Queued) {
    match *queued {
        Queued::Read { address } => {
            tables.set(layout.queue_kind(place), KIND_READ);
            tables.set(layout.queue_address(place), address);
        }
        Queued::WriteBack { block, masks } => {
            tables.set(layout.queue_kind(place), KIND_WRITE_BACK);
            tables.set(layout.queue_address(place), block);
            for (sector, &mask) in masks.iter().enumerate() {
                tables.set(layout.queue_mask(place, sector), u64::from(mask));
            }
        }
    }
}

/// Lengths of the three slices, or zero for settings out of range.
pub fn lengths_for(settings: &Settings) -> [usize; 3] {
    if settings.in_range() {
        Layout::of(settings).lengths()
    } else {
        [0; 3]
    }
}

/// Refusals 1 and 2.
fn check_lengths(settings: &Settings, tables: &Tables) -> Result<(), Refusal> {
    if !settings.in_range() {
        return Err(Refusal::BadSettings);
    }
    if tables.lengths() != Layout::of(settings).lengths() {
        return Err(Refusal::OtherLength);
    }
    Ok(())
}

/// Refusals 1, 2 and 3.
pub fn check(settings: &Settings, tables: &Tables) -> Result<(), Refusal> {
    check_lengths(settings, tables)?;
    if !sound(settings, tables) {
        return Err(Refusal::NotSound);
    }
    Ok(())
}

/// Makes lent tables fresh, whatever they held.
pub fn fresh_on(settings: &Settings, tables: &mut Tables) -> Result<(), Refusal> {
    check_lengths(settings, tables)?;
    *tables = Tables::fresh(settings);
    Ok(())
}

/// One call on lent tables; a refused one leaves them as they are.
pub fn call_on(settings: &Settings, tables: &mut Tables, call: Call) -> Outcome {
    check(settings, tables)?;
    let mut cache = Cache::decode(settings, tables);
    let events = cache.call(call)?;
    *tables = cache.encode();
    Ok(events)
}

/// The bytes that one call on lent tables writes into its event room; with too little
/// room it writes nothing and does nothing.
pub fn call_bytes(settings: &Settings, tables: &mut Tables, call: Call, room: usize) -> Vec<u8> {
    if room < ROOM_NEEDED {
        return Vec::new();
    }
    outcome_bytes(&call_on(settings, tables, call))
}
