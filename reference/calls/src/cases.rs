//! The cases of the first part: calls over tables reached by walks, over built
//! sound tables, over damaged tables, and with wrong lengths, bad settings, another
//! number of them or too little event room. The runs of streams stand in `runs`, parts
//! that go on in `parts`.

use crate::exported::{EmptySlice, Exported};
use crate::parts;
use crate::runs;
use crate::trial::{Counts, Trial, WAIT_ROOM};
use reference::choices;
use reference::model::{Cache, Settings, Tables, CONDITIONS, RULE_FIFO, RULE_LRU, RULE_TREE};
use reference::random::Random;
use reference::tables::{damage_any, damage_many, damage_one, sound_tables};

const WALK_CALLS: usize = 60;

/// Runs one case; the text of a failure comes back.
pub fn run_case(random: &mut Random, counts: &mut Counts, nulls: bool) -> Result<(), String> {
    match random.below(100) {
        0..=14 => walk(random, counts),
        15..=39 => built(random, counts),
        40..=79 => damaged(random, counts),
        80..=84 => runs::run_case(random, counts, nulls),
        85..=89 => parts::run_case(random, counts, nulls),
        90..=92 => wrong_lengths(random, counts, nulls),
        93..=96 => bad_settings(random, counts, nulls),
        _ => small_room(random, counts, nulls),
    }
}

fn trial<'a>(
    random: &mut Random,
    counts: &'a mut Counts,
    source: &'static str,
    settings: Settings,
    tables: Tables,
) -> Trial<'a> {
    let settings = choices::lent_numbers(random, &settings);
    let length = if random.percent(30) { 64 } else { random.between(64, 200) as usize };
    let room = noise(random, length);
    let wait_length = WAIT_ROOM + if random.percent(50) { 0 } else { random.index(9) };
    let wait_room = noise(random, wait_length);
    let round = vec![random.draw()];
    Trial { counts, source, settings, tables, room, wait_room, round, empty: EmptySlice::Buffer }
}

pub fn noise(random: &mut Random, length: usize) -> Vec<u8> {
    let mut bytes = Vec::with_capacity(length + 8);
    while bytes.len() < length {
        bytes.extend(random.draw().to_le_bytes());
    }
    bytes.truncate(length);
    bytes
}

/// Any numbers, for calls that must not look at them.
pub fn noise_tables(random: &mut Random, lengths: [usize; 3]) -> Tables {
    Tables {
        longs: (0..lengths[0]).map(|_| random.draw()).collect(),
        words: (0..lengths[1]).map(|_| random.draw() as u32).collect(),
        marks: noise(random, lengths[2]),
    }
}

pub fn any_empty(random: &mut Random, nulls: bool) -> EmptySlice {
    if nulls && random.percent(50) {
        EmptySlice::Null
    } else {
        EmptySlice::Dangling
    }
}

fn any_exported(random: &mut Random, cache: &Cache) -> Exported {
    if random.percent(6) {
        return Exported::Wait(choices::any_access(random, cache));
    }
    let call = choices::any_call(random, cache);
    Exported::from_call(call, random.percent(60))
}

/// Each of the nine exported calls on tables lent with settings.
fn every_exported(random: &mut Random, cache: &Cache) -> Vec<Exported> {
    let access = choices::any_access(random, cache);
    vec![
        Exported::Check,
        Exported::Fresh,
        Exported::Read { address: access.address, ticket: access.ticket },
        Exported::Write { address: access.address, mask: access.mask },
        Exported::Access(access),
        Exported::Send,
        Exported::Fill { address: choices::fill_address(random, cache) },
        Exported::Tick { cycle: choices::tick_cycle(random, cache) },
        Exported::Wait(choices::any_access(random, cache)),
    ]
}

/// From fresh tables, made by the library over any numbers.
fn walk(random: &mut Random, counts: &mut Counts) -> Result<(), String> {
    let settings = choices::good_settings(random);
    let tables = noise_tables(random, Tables::zero(&settings).lengths());
    let mut trial = trial(random, counts, "tables reached by a walk", settings, tables);
    trial.lengths()?;
    trial.call(Exported::Fresh)?;
    for _ in 0..WALK_CALLS {
        let cache = Cache::decode(&settings, &trial.tables);
        trial.call(any_exported(random, &cache))?;
        if random.percent(10) {
            trial.call(Exported::Check)?;
        }
    }
    Ok(())
}

/// A few calls one after another on built tables, and each call on the tables as they were built.
fn built(random: &mut Random, counts: &mut Counts) -> Result<(), String> {
    let settings = choices::good_settings(random);
    let tables = sound_tables(random, &settings);
    let cache = Cache::decode(&settings, &tables);
    let mut trial = trial(random, counts, "tables built sound", settings, tables);
    trial.call(Exported::Check)?;
    for _ in 0..10 {
        trial.call_on_copy(any_exported(random, &cache))?;
    }
    for _ in 0..5 {
        let cache = Cache::decode(&settings, &trial.tables);
        trial.call(any_exported(random, &cache))?;
    }
    Ok(())
}

/// Damage aimed at one condition or at any number, or settings the tables were not made for.
fn damaged(random: &mut Random, counts: &mut Counts) -> Result<(), String> {
    let settings = choices::good_settings(random);
    let sound = sound_tables(random, &settings);
    let cache = Cache::decode(&settings, &sound);
    let (source, judged_by, tables) = match random.below(10) {
        0..=6 => ("tables damaged at a condition", settings, aimed(random, &settings, counts)),
        7..=8 => {
            let damaged = damage_any(random, &settings, &sound);
            ("tables damaged in any number", settings, damaged.tables)
        }
        _ => ("tables of other settings", other_settings(random, &settings), sound),
    };
    let mut trial = trial(random, counts, source, judged_by, tables);
    let mut calls = every_exported(random, &cache);
    random.shuffle(&mut calls[1..]);
    for call in &calls[..6] {
        trial.call_on_copy(*call)?;
    }
    Ok(())
}

/// Tables that break one condition, alone if a few sound tables offer that; counted by condition.
fn aimed(random: &mut Random, settings: &Settings, counts: &mut Counts) -> Tables {
    let condition = random.between(1, CONDITIONS.len() as u64) as usize;
    let damage = if random.percent(50) { damage_many } else { damage_one };
    let mut last = None;
    for _ in 0..8 {
        let sound = sound_tables(random, settings);
        let damaged = damage(random, settings, &sound, condition)
            .or_else(|| damage_one(random, settings, &sound, condition));
        let alone = damaged.as_ref().is_some_and(|damaged| damaged.broken == [condition]);
        last = damaged.or(last);
        if alone {
            break;
        }
    }
    let Some(damaged) = last else {
        return sound_tables(random, settings);
    };
    let count = counts.conditions.entry(condition).or_default();
    if damaged.broken == [condition] {
        count.0 += 1;
    } else {
        count.1 += 1;
    }
    damaged.tables
}

/// Another dirty percent and any rule; at times also sets and ways that make as many lines.
fn other_settings(random: &mut Random, settings: &Settings) -> Settings {
    let mut other = *settings;
    other.dirty = random.between(0, 100) as u32;
    other.rule = random.pick(&[RULE_LRU, RULE_FIFO, RULE_TREE]);
    if random.percent(30) {
        let lines = settings.sets * settings.ways;
        let fits = |sets: &u32| lines.is_multiple_of(*sets) && lines / sets <= 16;
        let choices: Vec<u32> = (0..=8).map(|power| 1 << power).filter(fits).collect();
        other.sets = random.pick(&choices);
        other.ways = lines / other.sets;
    }
    other
}

/// Each slice too long or too short by one or empty; every call on them. Wait's round too.
fn wrong_lengths(random: &mut Random, counts: &mut Counts, nulls: bool) -> Result<(), String> {
    let settings = choices::good_settings(random);
    let sound = sound_tables(random, &settings);
    let cache = Cache::decode(&settings, &sound);
    for wrong in 0..12 {
        let mut tables = sound.clone();
        let mut round = vec![random.draw()];
        match wrong {
            0 => tables.longs.push(0),
            1 => drop(tables.longs.pop()),
            2 => tables.words.push(0),
            3 => drop(tables.words.pop()),
            4 => tables.marks.push(0),
            5 => drop(tables.marks.pop()),
            6 => tables.longs.clear(),
            7 => tables.words.clear(),
            8 => tables.marks.clear(),
            9 => tables = Tables::default(),
            10 => round.clear(),
            _ => round.push(random.draw()),
        }
        let mut trial = trial(random, counts, "slices of wrong lengths", settings, tables);
        trial.empty = any_empty(random, nulls);
        trial.round = round;
        for call in every_exported(random, &cache) {
            trial.call_on_copy(call)?;
        }
    }
    Ok(())
}

/// Settings out of range, or too few or too many, with tables that fit other ones, or with none.
fn bad_settings(random: &mut Random, counts: &mut Counts, nulls: bool) -> Result<(), String> {
    let good = choices::good_settings(random);
    let cache = Cache::fresh(good);
    let tables = match random.below(3) {
        0 => Tables::default(),
        1 => cache.encode(),
        _ => noise_tables(random, [3, 5, 7]),
    };
    let mut trial = if random.percent(50) {
        let settings = choices::bad_settings(random);
        trial(random, counts, "settings out of range", settings, tables)
    } else {
        let mut trial = trial(random, counts, "another number of settings", good, tables);
        trial.settings = other_number(random, &good);
        trial
    };
    trial.empty = any_empty(random, nulls);
    trial.lengths()?;
    for call in every_exported(random, &cache) {
        trial.call_on_copy(call)?;
    }
    Ok(())
}

/// The first of some settings, fewer than six, or all seven and more.
fn other_number(random: &mut Random, settings: &Settings) -> Vec<u32> {
    let mut numbers = settings.seven().to_vec();
    match random.index(8) {
        fewer if fewer < 6 => numbers.truncate(fewer),
        _ => numbers.extend((0..=random.below(3)).map(|_| random.below(3) as u32)),
    }
    numbers
}

/// Too little event room: nothing happens, whatever else is wrong.
fn small_room(random: &mut Random, counts: &mut Counts, nulls: bool) -> Result<(), String> {
    let mut settings = choices::good_settings(random);
    let mut tables = sound_tables(random, &settings);
    let cache = Cache::decode(&settings, &tables);
    match random.below(8) {
        0 => settings = choices::bad_settings(random),
        1 => tables.words.push(0),
        2 => tables.marks[0] = 9,
        _ => (),
    }
    let wait_lengths = [0, random.index(WAIT_ROOM), WAIT_ROOM - 1, WAIT_ROOM];
    for (length, wait_length) in [0, random.index(64), 63, 64].into_iter().zip(wait_lengths) {
        let mut trial = trial(random, counts, "too little event room", settings, tables.clone());
        trial.room = noise(random, length);
        trial.wait_room = noise(random, wait_length);
        trial.empty = any_empty(random, nulls);
        for call in every_exported(random, &cache) {
            trial.call_on_copy(call)?;
        }
    }
    Ok(())
}
