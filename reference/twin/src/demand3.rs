//! The exported rounds of demand 3 and the struck rounds: the model's, behind the
//! refusals 1 to 4 and the look for room.

use crate::faults::Fault;
use crate::{settings_from, slice, slice_mut, Lent};
use reference::model::{check, Access, Cache, Refusal, Settings};
use reference::rounds::{first_run, struck_run, Rounds};

/// Bytes of event room for each round.
const ROUND_ROOM: usize = 112;
const NO_ROOM: u32 = 16;

/// Beside the tables: the event room, and a place for the rounds run and the bytes written.
struct Room<'a> {
    events: &'a mut [u8],
    counts: &'a mut [u64],
}

/// The rounds that `run` makes of sound tables, stored where there is room for n of them.
fn serve(
    settings: &Settings,
    mut lent: Lent,
    access: Access,
    room: Room,
    n: usize,
    roomy: bool,
    run: impl FnOnce(&mut Cache) -> Rounds,
) -> (u32, Option<Rounds>) {
    let Room { events, counts } = room;
    if counts.len() != 2 {
        return (2, None);
    }
    counts.fill(0);
    let tables = lent.tables();
    if let Err(refusal) = check(settings, &tables) {
        return (u32::from(refusal.number()), None);
    }
    if !access.well_formed() {
        return (u32::from(Refusal::NotWellFormed.number()), None);
    }
    if !roomy || events.len() / ROUND_ROOM < n {
        return (NO_ROOM, None);
    }
    let rounds = run(&mut Cache::decode(settings, &tables));
    let log = rounds.logs.last().expect("there is a start");
    lent.store(&rounds.standings.last().expect("there is a start").tables);
    events[..log.len()].copy_from_slice(log);
    counts.copy_from_slice(&[rounds.offers.len() as u64, log.len() as u64]);
    (0, Some(rounds))
}

/// # Safety
/// Each pointer is good for the length beside it, and no two slices overlap.
#[no_mangle]
#[rustfmt::skip]
pub unsafe extern "C" fn labintugmo_rounds(
    settings: *const u32, settings_length: usize,
    longs: *mut u64, longs_length: usize, words: *mut u32, words_length: usize,
    marks: *mut u8, marks_length: usize,
    is_write: u32, address: u64, mask: u32, ticket: u32,
    n: usize, flags: *mut u8, flags_length: usize, events: *mut u8, events_length: usize,
    counts: *mut u64, counts_length: usize,
) -> u32 {
    let lent = Lent {
        longs: slice_mut(longs, longs_length),
        words: slice_mut(words, words_length),
        marks: slice_mut(marks, marks_length),
    };
    let access = Access { is_write: is_write != 0, address, mask, ticket };
    let flags = slice_mut(flags, flags_length);
    let room = Room { events: slice_mut(events, events_length), counts: slice_mut(counts, counts_length) };
    let roomy = n <= flags.len();
    let settings = settings_from(settings, settings_length);
    let (number, rounds) = serve(&settings, lent, access, room, n, roomy, |cache| first_run(cache, access, n));
    let taken = rounds.map_or_else(Vec::new, |rounds| rounds.flags());
    let lost = Fault::planted().is("rounds-flag-lost");
    for (flag, &taken) in flags.iter_mut().zip(&taken) {
        *flag = u8::from(taken && !lost);
    }
    number
}

/// # Safety
/// Each pointer is good for the length beside it, and no two slices overlap.
#[no_mangle]
#[rustfmt::skip]
pub unsafe extern "C" fn labintugmo_struck(
    settings: *const u32, settings_length: usize,
    longs: *mut u64, longs_length: usize, words: *mut u32, words_length: usize,
    marks: *mut u8, marks_length: usize,
    is_write: u32, address: u64, mask: u32, ticket: u32,
    flags: *const u8, flags_length: usize, events: *mut u8, events_length: usize,
    counts: *mut u64, counts_length: usize,
) -> u32 {
    let lent = Lent {
        longs: slice_mut(longs, longs_length),
        words: slice_mut(words, words_length),
        marks: slice_mut(marks, marks_length),
    };
    let access = Access { is_write: is_write != 0, address, mask, ticket };
    let all = Fault::planted().is("struck-offers-always");
    let marked: Vec<bool> = slice(flags, flags_length).iter().map(|&flag| flag == 1 || all).collect();
    let room = Room { events: slice_mut(events, events_length), counts: slice_mut(counts, counts_length) };
    let settings = settings_from(settings, settings_length);
    serve(&settings, lent, access, room, marked.len(), true, |cache| struck_run(cache, access, &marked)).0
}
