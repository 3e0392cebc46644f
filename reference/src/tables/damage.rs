//! Sound tables with something wrong in them.
//!
//! In order: damage to one number, aimed at one condition of soundness; damage to
//! several numbers, for what one number cannot break alone; damage to any one number.

use crate::choices;
use crate::model::{block_of, broken, node_bits, Cache, Layout, Line, MissEntry, Place, Queued};
use crate::model::{Sector, Settings, Status, Tables, RULE_TREE};
use crate::model::{ADDRESS_LIMIT, FULL_MASK, LINE_BYTES, SECTORS, SECTOR_BYTES};
use crate::random::Random;

/// Tables after damage, and the conditions they break (none, if the damage did no harm).
pub struct Damaged {
    pub tables: Tables,
    pub broken: Vec<usize>,
}

impl Damaged {
    fn of(settings: &Settings, tables: Tables) -> Damaged {
        let broken = broken(settings, &tables);
        Damaged { tables, broken }
    }
}

const TRIES: usize = 24;

/// Changes one number so that a condition breaks, alone if a few tries can do that.
pub fn damage_one(
    random: &mut Random,
    settings: &Settings,
    tables: &Tables,
    condition: usize,
) -> Option<Damaged> {
    let target = Target::new(settings, tables);
    best_of(condition, || {
        let (place, number) = target.aim(random, condition)?;
        let mut tables = tables.clone();
        tables.set(place, number);
        Some(Damaged::of(settings, tables))
    })
}

/// Changes several numbers so that a condition breaks alone, where `rearrange` knows a way.
pub fn damage_many(
    random: &mut Random,
    settings: &Settings,
    tables: &Tables,
    condition: usize,
) -> Option<Damaged> {
    let cache = Cache::decode(settings, tables);
    best_of(condition, || Some(Damaged::of(settings, rearrange(random, &cache, condition)?)))
}

/// The first try that breaks the condition alone, else the first that breaks it at all.
fn best_of(condition: usize, mut attempt: impl FnMut() -> Option<Damaged>) -> Option<Damaged> {
    let mut second_best = None;
    for _ in 0..TRIES {
        match attempt() {
            Some(damaged) if damaged.broken == [condition] => return Some(damaged),
            Some(damaged) if damaged.broken.contains(&condition) => {
                second_best = second_best.or(Some(damaged));
            }
            _ => (),
        }
    }
    second_best
}

/// Sound tables with what damage can be aimed at.
struct Target<'a> {
    layout: Layout,
    tables: &'a Tables,
    cache: Cache,
}

type Aim = Option<(Place, u64)>;

impl<'a> Target<'a> {
    fn new(settings: &Settings, tables: &'a Tables) -> Target<'a> {
        let cache = Cache::decode(settings, tables);
        Target { layout: Layout::of(settings), tables, cache }
    }

    /// A change of one number that is likely to break the condition.
    fn aim(&self, random: &mut Random, condition: usize) -> Aim {
        match condition {
            1..=10 => self.aim_at_lines(random, condition),
            11..=18 => self.aim_at_entries(random, condition),
            19..=25 => self.aim_at_queue(random, condition),
            26 => Some((self.layout.dirty_count(), self.other_count(random))),
            27 => self.aim_at_taken(random),
            28 => self.aim_at_taken_of_invalid(random),
            _ => self.aim_at_tree(random),
        }
    }

    /// One more or less than there are dirty lines, or any number.
    fn other_count(&self, random: &mut Random) -> u64 {
        let dirty = self.cache.dirty_lines() as u64;
        match random.below(5) {
            0 => dirty + 1,
            1 => dirty.saturating_sub(1),
            2 => self.layout.lines as u64 - dirty,
            3 => self.layout.lines as u64 + 1,
            _ => u64::from(choices::write_mask(random)),
        }
    }

    /// Taken after its last access, or a last access before the line was taken.
    fn aim_at_taken(&self, random: &mut Random) -> Aim {
        let line = self.pick_line(random, |line| !line.wholly_invalid())?;
        let Line { cycle, taken, .. } = self.cache.lines[line];
        if taken > 0 && random.percent(40) {
            return Some((self.layout.line_cycle(line), random.below(u64::from(taken))));
        }
        let later = random.pick(&[cycle + 1, cycle.saturating_add(1000), u32::MAX]);
        Some((self.layout.taken(line), u64::from(later)))
    }

    fn aim_at_taken_of_invalid(&self, random: &mut Random) -> Aim {
        let line = self.pick_line(random, Line::wholly_invalid)?;
        let taken = random.pick(&[1, self.cache.cycle.max(1), u32::MAX]);
        Some((self.layout.taken(line), u64::from(taken)))
    }

    /// A bit beyond the nodes in use, or any bits under another rule.
    fn aim_at_tree(&self, random: &mut Random) -> Aim {
        let Settings { ways, rule, .. } = self.cache.settings;
        let set = random.index(self.layout.sets);
        let tree = match rule {
            RULE_TREE => {
                let beyond = 1u32 << random.between(u64::from(ways) - 1, 31);
                self.cache.trees[set] | random.pick(&[beyond, 1 << (ways - 1), u32::MAX])
            }
            _ => random.pick(&[1, 2, node_bits(ways as usize).max(1), u32::MAX]),
        };
        Some((self.layout.tree(set), u64::from(tree)))
    }

    fn aim_at_lines(&self, random: &mut Random, condition: usize) -> Aim {
        let layout = &self.layout;
        let any_sector = |_: &Sector| true;
        match condition {
            1 => Some((layout.current_cycle(), u64::from(u32::MAX))),
            2 => {
                let (line, sector) = self.pick_sector(random, any_sector)?;
                Some((layout.status(line, sector), random.between(4, 255)))
            }
            3 => {
                let (line, sector) = self.pick_sector(random, any_sector)?;
                Some((layout.readable(line, sector), random.between(2, 255)))
            }
            4 => {
                let clean = |sector: &Sector| {
                    sector.status == Status::Invalid || sector.status == Status::Valid
                };
                let (line, sector) = self.pick_sector(random, clean)?;
                Some((layout.mask(line, sector), u64::from(choices::write_mask(random))))
            }
            5 => {
                let dirty = |sector: &Sector| sector.status == Status::Modified;
                let (line, sector) = self.pick_sector(random, dirty)?;
                Some((layout.mask(line, sector), 0))
            }
            6 => self.aim_at_readable(random),
            7 => self.aim_at_invalid_line(random),
            8 => self.aim_at_tag(random),
            9 => self.aim_at_line_cycle(random),
            _ => self.aim_at_equal_tags(random),
        }
    }

    fn pick_sector(
        &self,
        random: &mut Random,
        wanted: impl Fn(&Sector) -> bool,
    ) -> Option<(usize, usize)> {
        let lines = &self.cache.lines;
        let start = random.index(lines.len());
        let turned = (0..lines.len()).map(|step| (start + step) % lines.len());
        let first = random.index(SECTORS);
        turned
            .flat_map(|line| (0..SECTORS).map(move |step| (line, (first + step) % SECTORS)))
            .find(|&(line, sector)| wanted(&lines[line].sectors[sector]))
    }

    fn pick_line(&self, random: &mut Random, wanted: impl Fn(&Line) -> bool) -> Option<usize> {
        let lines = &self.cache.lines;
        let start = random.index(lines.len());
        (0..lines.len()).map(|step| (start + step) % lines.len()).find(|&line| wanted(&lines[line]))
    }

    fn aim_at_readable(&self, random: &mut Random) -> Aim {
        if random.percent(50) {
            let (line, sector) = self.pick_sector(random, |sector| !sector.readable)?;
            return Some((self.layout.mask(line, sector), u64::from(FULL_MASK)));
        }
        let wanted =
            random.pick(&[Status::Invalid, Status::Reserved, Status::Valid, Status::Modified]);
        let must_read =
            |s: &Sector| s.status == wanted && (wanted != Status::Modified || s.mask == FULL_MASK);
        let (line, sector) = self.pick_sector(random, must_read)?;
        Some((self.layout.readable(line, sector), 0))
    }

    fn aim_at_invalid_line(&self, random: &mut Random) -> Aim {
        let line = self.pick_line(random, Line::wholly_invalid)?;
        let set = (line / self.cache.settings.ways as usize) as u64;
        let sets = u64::from(self.cache.settings.sets);
        match random.below(3) {
            0 => Some((self.layout.line_cycle(line), random.between(1, 9))),
            1 => Some((self.layout.tag(line), (sets + set) * LINE_BYTES)),
            _ => Some((self.layout.tag(line), random.draw())),
        }
    }

    fn aim_at_tag(&self, random: &mut Random) -> Aim {
        let calm = random.percent(80);
        let line = self.pick_line(random, |line| {
            !line.wholly_invalid() && (!calm || !line.has(Status::Reserved))
        })?;
        let tag = self.cache.lines[line].tag;
        let other = match random.below(6) {
            0 => tag + random.between(1, 127),
            1 => tag ^ LINE_BYTES,
            2 => tag | ADDRESS_LIMIT,
            3 => tag + (random.between(1, 0xFFFF) << 48),
            4 => random.pick(&[u64::MAX, u64::MAX - 127, u64::MAX - 31, 1 << 63]),
            _ => tag ^ (1 << random.below(64)),
        };
        Some((self.layout.tag(line), other))
    }

    fn aim_at_line_cycle(&self, random: &mut Random) -> Aim {
        let current = self.cache.cycle;
        let line = self.pick_line(random, |line| !line.wholly_invalid())?;
        if random.percent(30) {
            let latest = self.cache.lines.iter().map(|line| line.cycle).max()?;
            return Some((self.layout.current_cycle(), u64::from(latest.checked_sub(1)?)));
        }
        let later = random.pick(&[current + 1, u32::MAX, current.saturating_add(1000)]);
        Some((self.layout.line_cycle(line), u64::from(later)))
    }

    /// The tag of one line given to another of its set.
    fn aim_at_equal_tags(&self, random: &mut Random) -> Aim {
        let calm = |line: &Line| !line.wholly_invalid() && !line.has(Status::Reserved);
        let line = self.pick_line(random, calm)?;
        let other = self.other_live_line(random, line)?;
        Some((self.layout.tag(line), self.cache.lines[other].tag))
    }

    fn other_live_line(&self, random: &mut Random, line: usize) -> Option<usize> {
        let ways = self.cache.settings.ways as usize;
        let first = line / ways * ways;
        let live: Vec<usize> = (first..first + ways)
            .filter(|&other| other != line && !self.cache.lines[other].wholly_invalid())
            .collect();
        (!live.is_empty()).then(|| random.pick(&live))
    }

    fn aim_at_entries(&self, random: &mut Random, condition: usize) -> Aim {
        let layout = &self.layout;
        let used = self.cache.misses.len();
        let any = random.index(layout.entries);
        match condition {
            11 => Some((layout.ticket_count(any), random.between(layout.readers as u64 + 1, 255))),
            12 if random.percent(50) => Some((layout.ticket_count(any), 0)),
            12 => Some((layout.ticket_count(any), random.between(1, layout.readers as u64))),
            13 => Some((layout.sent(any), random.between(2, 255))),
            14 if used == layout.entries => None,
            14 => {
                let unused = random_at(random, used, layout.entries);
                self.aim_at_unused_entry(random, unused)
            }
            15 => self.aim_at_unused_ticket(random, any),
            16 => self.aim_at_reserved(random),
            17 => {
                let calm = |sector: &Sector| sector.status != Status::Reserved;
                let (line, sector) = self.pick_sector(random, calm)?;
                Some((layout.status(line, sector), 1))
            }
            _ if used < 2 => None,
            _ => {
                let shared = self.cache.misses[random.index(used)].address;
                Some((layout.miss_address(random.index(used)), shared))
            }
        }
    }

    fn aim_at_unused_entry(&self, random: &mut Random, entry: usize) -> Aim {
        match random.below(3) {
            0 => Some((self.layout.sent(entry), 1)),
            1 => Some((self.layout.miss_address(entry), SECTOR_BYTES * random.between(1, 9))),
            _ => Some((self.layout.miss_address(entry), random.draw().max(1))),
        }
    }

    fn aim_at_unused_ticket(&self, random: &mut Random, entry: usize) -> Aim {
        let count = self.tables.get(self.layout.ticket_count(entry)) as usize;
        if count > 1 && random.percent(40) {
            return Some((self.layout.ticket_count(entry), count as u64 - 1));
        }
        if count == self.layout.readers {
            return None;
        }
        let which = random_at(random, count, self.layout.readers);
        Some((self.layout.ticket(entry, which), u64::from(choices::write_mask(random))))
    }

    /// A RESERVED sector that stops being one, or an entry that names another address.
    fn aim_at_reserved(&self, random: &mut Random) -> Aim {
        if random.percent(70) {
            let reserved = |sector: &Sector| sector.status == Status::Reserved;
            let (line, sector) = self.pick_sector(random, reserved)?;
            return Some((self.layout.status(line, sector), random.pick(&[0, 2, 3])));
        }
        let used = self.cache.misses.len();
        let entry = (used > 0).then(|| random.index(used))?;
        let address = self.cache.misses[entry].address;
        let other = match random.below(4) {
            0 => address + random.between(1, 31),
            1 => address ^ SECTOR_BYTES,
            2 => address | ADDRESS_LIMIT,
            _ => random.draw(),
        };
        Some((self.layout.miss_address(entry), other))
    }

    fn aim_at_queue(&self, random: &mut Random, condition: usize) -> Aim {
        let layout = &self.layout;
        let used = self.cache.queue.len();
        let any = random.index(layout.places);
        match condition {
            19 => Some((layout.queue_kind(any), random.between(3, 255))),
            20 => Some((layout.queue_kind(any), random.below(3))),
            21 if used == layout.places => None,
            21 => {
                let unused = random_at(random, used, layout.places);
                let address = random.pick(&[1, SECTOR_BYTES, LINE_BYTES, u64::MAX]);
                Some((layout.queue_address(unused), address))
            }
            22 => {
                let place = layout.queue_mask(any, random.index(SECTORS));
                Some((place, u64::from(choices::write_mask(random))))
            }
            23 => self.aim_at_write_back(random),
            24 => self.aim_at_unsent(random),
            _ => self.aim_at_read(random),
        }
    }

    fn aim_at_write_back(&self, random: &mut Random) -> Aim {
        let queue = self.cache.queue.iter().enumerate();
        let write_backs: Vec<(usize, u64, [u32; SECTORS])> = queue
            .filter_map(|(place, queued)| match *queued {
                Queued::WriteBack { block, masks } => Some((place, block, masks)),
                Queued::Read { .. } => None,
            })
            .collect();
        let (place, block, masks) = pick_one(random, &write_backs)?;
        match random.below(4) {
            0 => Some((self.layout.queue_address(place), block + random.between(1, 127))),
            1 => Some((self.layout.queue_address(place), block | ADDRESS_LIMIT)),
            2 => Some((self.layout.queue_address(place), u64::MAX - 127)),
            _ => {
                let dirty = masks.iter().position(|&mask| mask != 0)?;
                Some((self.layout.queue_mask(place, dirty), 0))
            }
        }
    }

    fn aim_at_unsent(&self, random: &mut Random) -> Aim {
        let used = self.cache.misses.len();
        let entry = (used > 0).then(|| random.index(used))?;
        if random.percent(60) {
            return Some((self.layout.sent(entry), 0));
        }
        let place = random.index(self.cache.queue.len().max(1));
        Some((self.layout.queue_address(place), self.cache.misses[entry].address))
    }

    fn aim_at_read(&self, random: &mut Random) -> Aim {
        let used = self.cache.misses.len();
        if used > 0 && random.percent(60) {
            return Some((self.layout.sent(random.index(used)), 1));
        }
        let place = self.cache.queue.len();
        if place < self.layout.places && random.percent(50) {
            return Some((self.layout.queue_kind(place), 1));
        }
        let place = (place > 0).then(|| random.index(place))?;
        let address = self.tables.get(self.layout.queue_address(place));
        Some((self.layout.queue_address(place), address ^ SECTOR_BYTES))
    }
}

fn random_at(random: &mut Random, least: usize, limit: usize) -> usize {
    least + random.index(limit - least)
}

fn pick_one<T: Copy>(random: &mut Random, choices: &[T]) -> Option<T> {
    (!choices.is_empty()).then(|| random.pick(choices))
}

/// Tables that differ from sound ones in several numbers, so that only the condition breaks.
fn rearrange(random: &mut Random, cache: &Cache, condition: usize) -> Option<Tables> {
    match condition {
        8 => move_line(random, cache).map(|cache| cache.encode()),
        10 => double_line(random, cache).map(|cache| cache.encode()),
        12 => gap_in_entries(random, cache),
        16 => entry_without_sector(random, cache).map(|cache| cache.encode()),
        18 => double_entry(random, cache).map(|cache| cache.encode()),
        20 => gap_in_queue(random, cache),
        24 => double_read(random, cache).map(|cache| cache.encode()),
        25 => read_of_sent(random, cache).map(|cache| cache.encode()),
        _ => None,
    }
}

/// A live line with its entries and reads goes to a block of another set or out of range.
fn move_line(random: &mut Random, cache: &Cache) -> Option<Cache> {
    let mut moved = cache.clone();
    let live: Vec<usize> =
        (0..cache.lines.len()).filter(|&line| !cache.lines[line].wholly_invalid()).collect();
    let line = pick_one(random, &live)?;
    let tag = cache.lines[line].tag;
    let other = match random.below(3) {
        0 => tag ^ LINE_BYTES,
        1 => tag | ADDRESS_LIMIT,
        _ => tag | 1 << 63,
    };
    let follow = |address: u64| {
        if block_of(address) == tag {
            address - tag + other
        } else {
            address
        }
    };
    moved.lines[line].tag = other;
    for entry in &mut moved.misses {
        entry.address = follow(entry.address);
    }
    for queued in &mut moved.queue {
        if let Queued::Read { address } = queued {
            *address = follow(*address);
        }
    }
    Some(moved)
}

/// Two lines of a set with the same tag and the same RESERVED sectors.
fn double_line(random: &mut Random, cache: &Cache) -> Option<Cache> {
    let ways = cache.settings.ways as usize;
    let line = random.index(cache.lines.len());
    let other = line / ways * ways + random.index(ways);
    let possible = line != other
        && !cache.lines[line].wholly_invalid()
        && !cache.lines[other].has(Status::Reserved);
    let mut doubled = cache.clone();
    doubled.lines[other] = cache.lines[line];
    possible.then_some(doubled)
}

/// A sent entry for a sector that is not RESERVED, or that is not there at all.
fn entry_without_sector(random: &mut Random, cache: &Cache) -> Option<Cache> {
    let address = choices::address(random, cache);
    let entered = cache.misses.iter().any(|entry| entry.address == address);
    let mut added = cache.clone();
    added.misses.push(MissEntry { address, sent: true, tickets: vec![choices::ticket(random)] });
    let possible = !entered && cache.misses.len() < cache.settings.misses as usize;
    possible.then_some(added)
}

/// A second entry for an address, sent, so that the queue still fits the first.
fn double_entry(random: &mut Random, cache: &Cache) -> Option<Cache> {
    let used = cache.misses.len();
    if used == 0 || used == cache.settings.misses as usize {
        return None;
    }
    let mut doubled = cache.clone();
    let copied = MissEntry { sent: true, ..cache.misses[random.index(used)].clone() };
    doubled.misses.insert(random.index(used + 1), copied);
    Some(doubled)
}

fn double_read(random: &mut Random, cache: &Cache) -> Option<Cache> {
    let reads: Vec<Queued> = cache
        .queue
        .iter()
        .copied()
        .filter(|queued| matches!(queued, Queued::Read { .. }))
        .collect();
    let read = pick_one(random, &reads)?;
    add_queued(random, cache, read)
}

fn read_of_sent(random: &mut Random, cache: &Cache) -> Option<Cache> {
    let sent: Vec<u64> =
        cache.misses.iter().filter(|entry| entry.sent).map(|entry| entry.address).collect();
    let address = pick_one(random, &sent)?;
    add_queued(random, cache, Queued::Read { address })
}

fn add_queued(random: &mut Random, cache: &Cache, queued: Queued) -> Option<Cache> {
    let used = cache.queue.len();
    if used == cache.settings.queue as usize {
        return None;
    }
    let mut added = cache.clone();
    added.queue.insert(random.index(used + 1), queued);
    Some(added)
}

/// The entries from some place on stand one place later, behind an unused one.
fn gap_in_entries(random: &mut Random, cache: &Cache) -> Option<Tables> {
    let layout = Layout::of(&cache.settings);
    let used = cache.misses.len();
    if used == 0 || used == layout.entries {
        return None;
    }
    let gap = random.index(used);
    let mut tables = cache.encode();
    for entry in (gap..used).rev() {
        shift(&mut tables, layout.miss_address(entry), layout.miss_address(entry + 1));
        shift(&mut tables, layout.sent(entry), layout.sent(entry + 1));
        shift(&mut tables, layout.ticket_count(entry), layout.ticket_count(entry + 1));
        for which in 0..layout.readers {
            shift(&mut tables, layout.ticket(entry, which), layout.ticket(entry + 1, which));
        }
    }
    Some(tables)
}

fn gap_in_queue(random: &mut Random, cache: &Cache) -> Option<Tables> {
    let layout = Layout::of(&cache.settings);
    let used = cache.queue.len();
    if used == 0 || used == layout.places {
        return None;
    }
    let gap = random.index(used);
    let mut tables = cache.encode();
    for place in (gap..used).rev() {
        shift(&mut tables, layout.queue_kind(place), layout.queue_kind(place + 1));
        shift(&mut tables, layout.queue_address(place), layout.queue_address(place + 1));
        for sector in 0..SECTORS {
            let later = layout.queue_mask(place + 1, sector);
            shift(&mut tables, layout.queue_mask(place, sector), later);
        }
    }
    Some(tables)
}

/// Moves a number and leaves zero behind.
fn shift(tables: &mut Tables, from: Place, to: Place) {
    tables.set(to, tables.get(from));
    tables.set(from, 0);
}

/// Any one number changed to any other; the tables may stay sound.
pub fn damage_any(random: &mut Random, settings: &Settings, tables: &Tables) -> Damaged {
    let [longs, words, marks] = Layout::of(settings).lengths();
    let place = match random.below(3) {
        0 => Place::Long(random.index(longs)),
        1 => Place::Word(random.index(words)),
        _ => Place::Mark(random.index(marks)),
    };
    let mut damaged = tables.clone();
    while damaged.get(place) == tables.get(place) {
        damaged.set(place, other_number(random, tables, place));
    }
    Damaged::of(settings, damaged)
}

fn other_number(random: &mut Random, tables: &Tables, place: Place) -> u64 {
    let old = tables.get(place);
    match random.below(8) {
        0 => random.below(5),
        1 => old.wrapping_add(1),
        2 => old.wrapping_sub(1),
        3 => old ^ 1 << random.below(64),
        4 => u64::MAX,
        5 => old.wrapping_add(SECTOR_BYTES),
        6 => match place {
            Place::Long(_) => random.pick(&tables.longs),
            Place::Word(_) => u64::from(random.pick(&tables.words)),
            Place::Mark(_) => u64::from(random.pick(&tables.marks)),
        },
        _ => random.draw(),
    }
}
