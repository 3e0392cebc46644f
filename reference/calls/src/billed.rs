//! The third part: document 02's L7 by the exported calls. Random histories, on tables that
//! the exported call made fresh and on built sound ones; after every call the owed bytes and
//! the queue, as its events tell them, are held against the lent tables.

use crate::cases::noise_tables;
use crate::exported::{make, Beside, EmptySlice, Exported};
use reference::choices;
use reference::model::{check, lengths_for, Cache, Settings, Tables, ROOM_NEEDED};
use reference::owed::Owed;
use reference::random::Random;
use reference::tables::sound_cache;

const CALLS: usize = 120;

#[derive(Default)]
pub struct Counts {
    pub histories: u64,
    pub fresh: u64,
    pub calls: u64,
    pub refused: u64,
    pub covered: u64,
    pub carried: u64,
}

impl Counts {
    pub fn print(&self) {
        let Counts { histories, fresh, calls, refused, covered, carried } = self;
        println!("billed: {calls} calls in {histories} histories, {fresh} of them from fresh");
        println!("  refused: {refused}; bytes covered: {covered}, carried: {carried}");
    }
}

/// What the library left and wrote.
fn made(numbers: &[u32], tables: &Tables, call: &Exported) -> Result<(Tables, Vec<u8>), String> {
    let room = [0xEE; ROOM_NEEDED];
    let beside = Beside { room: &room, numbers: &[], empty: EmptySlice::Buffer };
    let made = make(numbers, tables, call, beside);
    if !made.guards_intact || made.returned > room.len() {
        return Err(format!("{}: written where it may not", call.name()));
    }
    Ok((made.tables, made.events[..made.returned].to_vec()))
}

/// Of the model's own making, or fresh by the library over any numbers.
fn first_tables(random: &mut Random, settings: &Settings, fresh: bool) -> Result<Tables, String> {
    if !fresh {
        return Ok(sound_cache(random, settings).encode());
    }
    let noise = noise_tables(random, lengths_for(settings));
    let beside = Beside { room: &[], numbers: &[], empty: EmptySlice::Buffer };
    let numbers = choices::lent_numbers(random, settings);
    let made = make(&numbers, &noise, &Exported::Fresh, beside);
    match made.returned {
        0 => Ok(made.tables),
        number => Err(format!("fresh: refused with {number}")),
    }
}

/// Mostly few lines, which are taken over soonest.
fn some_settings(random: &mut Random) -> Settings {
    match random.percent(95) {
        true => choices::tight_settings(random),
        false => choices::any_settings(random),
    }
}

pub fn run_case(random: &mut Random, counts: &mut Counts) -> Result<(), String> {
    let settings = some_settings(random);
    let fresh = random.percent(60);
    counts.histories += 1;
    counts.fresh += u64::from(fresh);
    first_tables(random, &settings, fresh)
        .and_then(|tables| replay(random, &settings, tables, counts))
        .map_err(|text| format!("settings {:?}, from fresh {fresh}\n{text}", settings.seven()))
}

fn replay(
    random: &mut Random,
    settings: &Settings,
    mut tables: Tables,
    counts: &mut Counts,
) -> Result<(), String> {
    let mut owed = Owed::before(&Cache::decode(settings, &tables));
    for number in 0..random.index(CALLS) {
        let call = choices::any_call(random, &Cache::decode(settings, &tables));
        let exported = Exported::from_call(call, random.percent(50));
        let at = |text: String| format!("call {number}, {call:x?}: {text}");
        let numbers = choices::lent_numbers(random, settings);
        let (after, log) = made(&numbers, &tables, &exported).map_err(at)?;
        check(settings, &after).map_err(|refusal| at(format!("left tables: {refusal:?}")))?;
        owed.call(&call, &log).map_err(at)?;
        owed.compare(&Cache::decode(settings, &after)).map_err(at)?;
        counts.calls += 1;
        counts.refused += u64::from(log.first() == Some(&0x11));
        tables = after;
    }
    counts.covered += owed.covered;
    counts.carried += owed.carried;
    Ok(())
}
