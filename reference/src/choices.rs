//! Random choices of settings, addresses, masks and calls, made so that small
//! runs meet every answer and every refusal.

use crate::model::{Access, Cache, Call, Settings, RULE_FIFO, RULE_LRU, RULE_TREE};
use crate::model::{ADDRESS_LIMIT, FULL_MASK, LAST_CYCLE, LINE_BYTES, SECTORS, SECTOR_BYTES};
use crate::random::Random;

/// Few lines, entries and places, so that all of them run out soon.
pub fn tight_settings(random: &mut Random) -> Settings {
    let rule = random.pick(&[RULE_LRU, RULE_FIFO, RULE_TREE]);
    let ways = match rule {
        RULE_TREE => random.pick(&[1, 2, 4, 4, 8]),
        _ => random.between(1, 3) as u32,
    };
    let settings = Settings::new([
        random.pick(&[1, 2, 4]),
        ways,
        random.pick(&[0, 34, 50, 51, 60, 100]),
        random.between(1, 4) as u32,
        random.between(1, 3) as u32,
        random.between(2, 5) as u32,
    ]);
    settings.with_rule(rule)
}

/// Any rule that the ways allow.
fn any_rule(random: &mut Random, ways: u32) -> u32 {
    match ways.is_power_of_two() {
        true => random.pick(&[RULE_LRU, RULE_FIFO, RULE_TREE]),
        false => random.pick(&[RULE_LRU, RULE_FIFO]),
    }
}

pub fn any_settings(random: &mut Random) -> Settings {
    let sets = 1 << random.between(0, 8);
    let ways = random.between(1, (1024 / sets).min(16));
    let settings = Settings::new([
        sets as u32,
        ways as u32,
        random.between(0, 100) as u32,
        random.between(1, 64) as u32,
        random.between(1, 8) as u32,
        random.between(2, 64) as u32,
    ]);
    settings.with_rule(any_rule(random, settings.ways))
}

/// Every number at one end of its range.
pub fn edge_settings(random: &mut Random) -> Settings {
    let [sets, ways] = random.pick(&[[1, 1], [1, 16], [256, 1], [256, 4], [64, 16], [128, 8]]);
    let settings = Settings::new([
        sets,
        ways,
        random.pick(&[0, 100]),
        random.pick(&[1, 64]),
        random.pick(&[1, 8]),
        random.pick(&[2, 64]),
    ]);
    settings.with_rule(any_rule(random, ways))
}

/// Mostly tight ones, which cost least and refuse most.
pub fn good_settings(random: &mut Random) -> Settings {
    match random.below(20) {
        0..=14 => tight_settings(random),
        15..=18 => any_settings(random),
        _ => edge_settings(random),
    }
}

/// One number out of its range, or too many lines; all fit a settings record.
pub fn bad_record_settings(random: &mut Random) -> Settings {
    let good = good_settings(random);
    let mut six = good.six();
    match random.below(8) {
        0 => six[0] = random.pick(&[0, 3, 5, 6, 12, 255, 257, 512, 1024, 4096, 32768, 65535]),
        1 => six[1] = random.pick(&[0, 17, 32, 255]),
        2 => six[2] = random.between(101, 255) as u32,
        3 => six[3] = random.pick(&[0, 65, 128, 255]),
        4 => six[4] = random.pick(&[0, 9, 16, 255]),
        5 => six[5] = random.pick(&[0, 1, 65, 128, 255]),
        6 => [six[0], six[1]] = random.pick(&[[256, 5], [256, 16], [128, 9], [128, 16]]),
        _ => return bad_rule(random, good),
    }
    Settings::new(six).with_rule(good.rule)
}

/// A rule byte that no rule has, or a tree over ways that are no power of two.
fn bad_rule(random: &mut Random, good: Settings) -> Settings {
    if random.percent(50) {
        return good.with_rule(random.pick(&[RULE_TREE + 1, RULE_TREE + 2, 7, 128, 255]));
    }
    let ways = random.pick(&[3, 5, 6, 7, 9, 10, 12, 15]);
    Settings { sets: random.pick(&[1, 2, 4, 64]), ways, ..good }.with_rule(RULE_TREE)
}

/// As above, or with numbers that only a direct call can give.
pub fn bad_settings(random: &mut Random) -> Settings {
    if random.percent(50) {
        return bad_record_settings(random);
    }
    let mut seven = good_settings(random).seven();
    let wide = [1 << 16, 1 << 24, 1 << 28, 1 << 30, 1 << 31, 0x1_0001, u32::MAX - 1, u32::MAX];
    seven[random.index(7)] = random.pick(&wide);
    if random.percent(30) {
        seven[random.index(7)] = random.pick(&wide);
    }
    Settings::from_numbers(&seven)
}

/// The numbers that a call lends for settings: six will do for rule 0.
pub fn lent_numbers(random: &mut Random, settings: &Settings) -> Vec<u32> {
    if settings.rule == RULE_LRU && random.percent(50) {
        return settings.six().to_vec();
    }
    settings.seven().to_vec()
}

/// The address of a sector, often of a line that is there or of one that crowds its set.
pub fn address(random: &mut Random, cache: &Cache) -> u64 {
    let sector = SECTOR_BYTES * random.below(SECTORS as u64);
    let line = &cache.lines[random.index(cache.lines.len())];
    match random.below(10) {
        0..=3 if !line.wholly_invalid() => line.tag + sector,
        0..=8 => crowded_block(random, cache) + sector,
        _ if random.percent(50) => ADDRESS_LIMIT - SECTOR_BYTES * random.between(1, 64),
        _ => random.below(ADDRESS_LIMIT / SECTOR_BYTES) * SECTOR_BYTES,
    }
}

/// One of a few blocks of a few sets: more blocks than a set has ways.
fn crowded_block(random: &mut Random, cache: &Cache) -> u64 {
    let sets = u64::from(cache.settings.sets);
    let set = random.below(sets.min(2));
    let which = random.below(u64::from(cache.settings.ways) + 2);
    (which * sets + set) * LINE_BYTES
}

/// An address that refusal 4 speaks of.
pub fn bad_address(random: &mut Random) -> u64 {
    match random.below(5) {
        0 => random.below(1024) | 1,
        1 => random.pick(&[1, 2, 4, 8, 16, 31, 33, 127, ADDRESS_LIMIT - 1]),
        2 => ADDRESS_LIMIT + SECTOR_BYTES * random.below(8),
        3 => random.pick(&[u64::MAX, u64::MAX - 31, 1 << 63, 1 << 49, 3 << 47]),
        _ => random.draw() | ADDRESS_LIMIT,
    }
}

/// Not 0.
pub fn write_mask(random: &mut Random) -> u32 {
    match random.below(7) {
        0 => 0xFF,
        1 => 0xFFFF_FF00,
        2 => FULL_MASK,
        3 => 1 << random.below(32),
        4 => !(1 << random.below(32)),
        _ => (random.draw() as u32).max(1),
    }
}

/// Any ticket is allowed; a few come again and again.
pub fn ticket(random: &mut Random) -> u32 {
    match random.below(4) {
        0 => random.below(3) as u32,
        1 => u32::MAX,
        _ => random.draw() as u32,
    }
}

pub fn well_formed_access(random: &mut Random, cache: &Cache) -> Access {
    let address = address(random, cache);
    let ticket = ticket(random);
    let is_write = random.percent(50);
    let mask = if is_write { write_mask(random) } else { 0 };
    Access { is_write, address, mask, ticket }
}

/// Well formed as a rule; a read with a mask can only be a direct call.
pub fn any_access(random: &mut Random, cache: &Cache) -> Access {
    let mut access = well_formed_access(random, cache);
    match random.below(40) {
        0 => access.address = bad_address(random),
        1 => access.address += random.between(1, 31),
        2 => access.mask = if access.is_write { 0 } else { write_mask(random) },
        _ => (),
    }
    access
}

/// An access that a record can hold.
pub fn record_access(random: &mut Random, cache: &Cache) -> Access {
    let mut access = any_access(random, cache);
    if access.is_write {
        access.ticket = 0;
    } else {
        access.mask = 0;
    }
    access
}

/// Mostly the address of an entry, sent or not.
pub fn fill_address(random: &mut Random, cache: &Cache) -> u64 {
    let sent: Vec<u64> =
        cache.misses.iter().filter(|entry| entry.sent).map(|entry| entry.address).collect();
    let entered: Vec<u64> = cache.misses.iter().map(|entry| entry.address).collect();
    match random.below(10) {
        0..=5 if !sent.is_empty() => random.pick(&sent),
        0..=7 if !entered.is_empty() => random.pick(&entered),
        8 if !sent.is_empty() => random.pick(&sent) + random.between(1, 31),
        8 => bad_address(random),
        _ => address(random, cache),
    }
}

/// Small steps as a rule; the latest cycle is met, but seldom.
pub fn tick_cycle(random: &mut Random, cache: &Cache) -> u32 {
    let now = cache.cycle;
    match random.below(40) {
        0..=5 => now,
        6..=9 => now.saturating_sub(random.between(1, 3) as u32),
        10 => LAST_CYCLE,
        11..=12 => u32::MAX,
        13 => random.draw() as u32,
        14 => 0,
        _ => now.saturating_add(random.between(1, 5) as u32),
    }
}

pub fn any_call(random: &mut Random, cache: &Cache) -> Call {
    call_with(random, cache, any_access)
}

pub fn record_call(random: &mut Random, cache: &Cache) -> Call {
    call_with(random, cache, record_access)
}

fn call_with(
    random: &mut Random,
    cache: &Cache,
    access: fn(&mut Random, &Cache) -> Access,
) -> Call {
    match random.below(20) {
        0..=11 => Call::Access(access(random, cache)),
        12..=14 => Call::Send,
        15..=17 => Call::Fill(fill_address(random, cache)),
        _ => Call::Tick(tick_cycle(random, cache)),
    }
}
