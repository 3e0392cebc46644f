//! Random lent tables: sound ones that no run need reach, here, and damaged ones,
//! in `damage`.

mod damage;

pub use damage::{damage_any, damage_many, damage_one, Damaged};

use crate::choices;
use crate::model::{block_of, broken, node_bits, sound, Cache, Line, MissEntry, Queued, Sector};
use crate::model::{Settings, Status, Tables, RULE_TREE};
use crate::model::{ADDRESS_LIMIT, FULL_MASK, LAST_CYCLE, LINE_BYTES, SECTORS, SECTOR_BYTES};
use crate::random::Random;

/// How full and how dirty the tables get; the numbers are chances in a hundred.
struct Mood {
    live: u64,
    reserved: u64,
    modified: u64,
    valid: u64,
    /// Entries, tickets and queue places as many as there can be.
    crowded: bool,
    /// The queue in the order of the entries, as on a real run.
    orderly: bool,
}

impl Mood {
    fn any(random: &mut Random) -> Mood {
        Mood {
            live: random.pick(&[30, 70, 95, 100]),
            reserved: random.pick(&[0, 10, 20, 40, 70]),
            modified: random.pick(&[0, 10, 30, 80]),
            valid: random.pick(&[0, 10, 40]),
            crowded: random.percent(40),
            orderly: random.percent(20),
        }
    }

    /// As many as there can be, or any smaller number.
    fn count(&self, random: &mut Random, most: usize) -> usize {
        if self.crowded && random.percent(80) {
            most
        } else {
            random.index(most + 1)
        }
    }
}

/// Sound tables for settings in range.
pub fn sound_tables(random: &mut Random, settings: &Settings) -> Tables {
    let tables = sound_cache(random, settings).encode();
    assert!(sound(settings, &tables), "built tables break {:?}", broken(settings, &tables));
    tables
}

pub fn sound_cache(random: &mut Random, settings: &Settings) -> Cache {
    let mood = Mood::any(random);
    let mut cache = Cache::fresh(*settings);
    cache.cycle = match random.below(4) {
        0 => 0,
        1 => random.between(1, 9) as u32,
        2 => LAST_CYCLE - random.below(2) as u32,
        _ => random.below(u64::from(LAST_CYCLE)) as u32,
    };
    let reserved = put_lines(random, &mood, &mut cache);
    put_entries(random, &mood, &mut cache, reserved);
    put_queue(random, &mood, &mut cache);
    put_trees(random, &mut cache);
    cache
}

/// Any bits of the nodes in use; none under another rule.
fn put_trees(random: &mut Random, cache: &mut Cache) {
    if cache.settings.rule != RULE_TREE {
        return;
    }
    let in_use = node_bits(cache.settings.ways as usize);
    for tree in &mut cache.trees {
        let any = random.draw() as u32;
        *tree = in_use & random.pick(&[0, u32::MAX, any, any, any]);
    }
}

/// Fills the lines; gives the addresses of the RESERVED sectors, never more than there are entries.
fn put_lines(random: &mut Random, mood: &Mood, cache: &mut Cache) -> Vec<u64> {
    let settings = cache.settings;
    let mut reserved = Vec::new();
    for set in 0..settings.sets as usize {
        let tags = set_tags(random, &settings, set);
        for (way, tag) in tags.into_iter().enumerate() {
            if random.percent(mood.live) {
                let room = settings.misses as usize - reserved.len();
                let line = live_line(random, mood, tag, cache.cycle, room);
                reserved.extend(reserved_sectors(&line));
                cache.lines[set * settings.ways as usize + way] = line;
            }
        }
    }
    reserved
}

/// One tag for each way of a set, all different, often the lowest or the highest there are.
fn set_tags(random: &mut Random, settings: &Settings, set: usize) -> Vec<u64> {
    let sets = u64::from(settings.sets);
    let count = ADDRESS_LIMIT / LINE_BYTES / sets;
    let pool = u64::from(settings.ways) + 3;
    let mut which: Vec<u64> = match random.below(4) {
        0 => (0..pool).map(|number| count - 1 - number).collect(),
        1 => (0..pool).map(|number| number * (count / pool) + random.below(2)).collect(),
        _ => (0..pool).collect(),
    };
    random.shuffle(&mut which);
    which.truncate(settings.ways as usize);
    which.iter().map(|number| (number * sets + set as u64) * LINE_BYTES).collect()
}

/// A line with at least one sector that is not INVALID and at most `room` RESERVED ones.
fn live_line(random: &mut Random, mood: &Mood, tag: u64, current: u32, room: usize) -> Line {
    let cycle = line_cycle(random, current);
    let mut line = Line { tag, cycle, taken: line_cycle(random, cycle), ..Line::EMPTY };
    let mut room = room;
    for sector in &mut line.sectors {
        *sector = any_sector(random, mood, room > 0);
        room -= usize::from(sector.status == Status::Reserved);
    }
    if line.wholly_invalid() {
        line.sectors[random.index(SECTORS)].status = Status::Valid;
    }
    line
}

/// Not later than the given cycle; often equal to that of other lines.
fn line_cycle(random: &mut Random, current: u32) -> u32 {
    match random.below(4) {
        0 => 0,
        1 => current,
        2 => current.saturating_sub(random.below(3) as u32),
        _ => random.below(u64::from(current) + 1) as u32,
    }
}

fn any_sector(random: &mut Random, mood: &Mood, may_reserve: bool) -> Sector {
    let draw = random.below(100);
    if may_reserve && draw < mood.reserved {
        let mask = if random.percent(50) { 0 } else { choices::write_mask(random) };
        return Sector { status: Status::Reserved, mask, readable: true };
    }
    if random.percent(mood.modified) {
        let mask = choices::write_mask(random);
        let readable = mask == FULL_MASK || random.percent(50);
        return Sector { status: Status::Modified, mask, readable };
    }
    let status = if random.percent(mood.valid) { Status::Valid } else { Status::Invalid };
    Sector { status, ..Sector::EMPTY }
}

fn reserved_sectors(line: &Line) -> impl Iterator<Item = u64> + '_ {
    let addressed = line.sectors.iter().zip(0u64..);
    addressed
        .filter(|(sector, _)| sector.status == Status::Reserved)
        .map(|(_, index)| line.tag + SECTOR_BYTES * index)
}

/// One entry for each RESERVED sector, in any order, no more of them unsent than the queue holds.
fn put_entries(random: &mut Random, mood: &Mood, cache: &mut Cache, mut reserved: Vec<u64>) {
    random.shuffle(&mut reserved);
    let most_unsent = reserved.len().min(cache.settings.queue as usize);
    let unsent = random.index(most_unsent + 1);
    let mut sent: Vec<bool> = (0..reserved.len()).map(|number| number >= unsent).collect();
    random.shuffle(&mut sent);
    for (address, sent) in reserved.into_iter().zip(sent) {
        let count = 1 + mood.count(random, cache.settings.readers as usize - 1);
        let tickets = (0..count).map(|_| choices::ticket(random)).collect();
        cache.misses.push(MissEntry { address, sent, tickets });
    }
}

/// A read for each unsent entry and any write-backs between them.
fn put_queue(random: &mut Random, mood: &Mood, cache: &mut Cache) {
    let unsent = cache.misses.iter().filter(|entry| !entry.sent);
    let mut queue: Vec<Queued> =
        unsent.map(|entry| Queued::Read { address: entry.address }).collect();
    if !mood.orderly {
        random.shuffle(&mut queue);
    }
    let free = cache.settings.queue as usize - queue.len();
    for _ in 0..mood.count(random, free) {
        let write_back = any_write_back(random, cache, &queue);
        queue.insert(random.index(queue.len() + 1), write_back);
    }
    cache.queue = queue.into();
}

/// Of a cached block, of one that waits already, or of any; the masks need not fit a line.
fn any_write_back(random: &mut Random, cache: &Cache, queue: &[Queued]) -> Queued {
    let cached = cache.lines[random.index(cache.lines.len())].tag;
    let block = match random.below(4) {
        0 => random.below(ADDRESS_LIMIT / LINE_BYTES) * LINE_BYTES,
        1 if !queue.is_empty() => match random.pick(queue) {
            Queued::Read { address } => block_of(address),
            Queued::WriteBack { block, .. } => block,
        },
        2 => ADDRESS_LIMIT - LINE_BYTES,
        _ => cached,
    };
    let mut masks = [0; SECTORS];
    masks[random.index(SECTORS)] = choices::write_mask(random);
    for mask in &mut masks {
        if random.percent(30) {
            *mask = choices::write_mask(random);
        }
    }
    Queued::WriteBack { block, masks }
}
