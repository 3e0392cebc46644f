//! The reference under the exported names, as a static archive: what `calls` is
//! tried on. With TWIN_FAULT in the environment it makes one mistake on purpose,
//! and `calls` has to find it.

mod demand3;
mod faults;
mod wait;

use faults::Fault;
use reference::model::{self, Access, Call, Refusal, Settings, Tables};
use reference::runner;

/// A slice from its pointer and length; an empty one may have any pointer.
unsafe fn slice<'a, T>(start: *const T, length: usize) -> &'a [T] {
    if length == 0 {
        return &[];
    }
    std::slice::from_raw_parts(start, length)
}

unsafe fn slice_mut<'a, T>(start: *mut T, length: usize) -> &'a mut [T] {
    if length == 0 {
        return &mut [];
    }
    std::slice::from_raw_parts_mut(start, length)
}

/// The settings of an exported call: six numbers, or seven with the rule; any others are out of range.
unsafe fn settings_from(start: *const u32, length: usize) -> Settings {
    let numbers = Fault::planted().alter_settings(slice(start, length));
    Settings::from_numbers(&numbers)
}

/// The caller's three slices.
struct Lent<'a> {
    longs: &'a mut [u64],
    words: &'a mut [u32],
    marks: &'a mut [u8],
}

impl Lent<'_> {
    fn tables(&self) -> Tables {
        Tables {
            longs: self.longs.to_vec(),
            words: self.words.to_vec(),
            marks: self.marks.to_vec(),
        }
    }

    fn store(&mut self, tables: &Tables) {
        self.longs.copy_from_slice(&tables.longs);
        self.words.copy_from_slice(&tables.words);
        self.marks.copy_from_slice(&tables.marks);
    }
}

fn number(outcome: Result<(), Refusal>) -> u32 {
    outcome.map_or_else(|refusal| u32::from(refusal.number()), |()| 0)
}

fn serve(settings: Settings, mut lent: Lent, call: Call, events: &mut [u8]) -> usize {
    let fault = Fault::planted();
    let before = lent.tables();
    let mut tables = before.clone();
    let call = fault.alter_call(call);
    let room = fault.alter_room(events.len());
    let mut written = model::call_bytes(&settings, &mut tables, call, room);
    if room >= model::ROOM_NEEDED {
        if let Some((altered, outcome)) = fault.alter_victim(&settings, &before, &call) {
            tables = altered;
            written = model::outcome_bytes(&outcome);
        }
    }
    fault.alter_result(&settings, &before, &mut tables, &call, &mut written);
    fault.alter_ages(&settings, &before, &mut tables, &written);
    written.truncate(events.len());
    lent.store(&tables);
    events[..written.len()].copy_from_slice(&written);
    fault.alter_rest(&mut events[written.len()..]);
    written.len()
}

/// Wait's event room, beside a place for its round of length one.
const WAIT_ROOM: usize = 9600;

fn serve_wait(
    settings: Settings,
    mut lent: Lent,
    access: Access,
    events: &mut [u8],
    round: &mut [u64],
) -> usize {
    let fault = Fault::planted();
    if fault.alter_wait_room(events.len()) < WAIT_ROOM || round.len() != 1 {
        return 0;
    }
    let mut tables = lent.tables();
    let mut waited = wait::wait_on(&settings, &mut tables, access, fault);
    fault.alter_waited(&mut waited);
    lent.store(&tables);
    events[..waited.events.len()].copy_from_slice(&waited.events);
    round[0] = waited.round;
    waited.events.len()
}

/// The length of run's counts.
const COUNTS: usize = 2;

fn serve_run(stream: &[u8], events: &mut [u8], mut lent: Lent, counts: &mut [u64]) -> u32 {
    let fault = Fault::planted();
    if counts.len() != COUNTS {
        return runner::STOP_OTHER_LENGTH.into();
    }
    let before = lent.tables();
    let mut tables = before.clone();
    let mut room = vec![0; fault.alter_run_room(events.len())];
    let mut stopped = runner::run(&fault.alter_stream(stream), &mut tables, &mut room);
    fault.alter_run(stream, &before, &mut tables, &mut stopped);
    let written = stopped.written.min(events.len());
    events[..written].copy_from_slice(&room[..written]);
    lent.store(&tables);
    counts.copy_from_slice(&[stopped.consumed as u64, stopped.written as u64]);
    stopped.number.into()
}

fn serve_resume(
    settings: &Settings,
    part: &[u8],
    events: &mut [u8],
    mut lent: Lent,
    counts: &mut [u64],
) -> u32 {
    if counts.len() != COUNTS {
        return runner::STOP_OTHER_LENGTH.into();
    }
    let mut tables = lent.tables();
    let stopped = Fault::planted().resume(settings, part, &mut tables, events);
    lent.store(&tables);
    counts.copy_from_slice(&[stopped.consumed as u64, stopped.written as u64]);
    stopped.number.into()
}

macro_rules! export_lengths {
    ($($name:ident $which:literal),*) => { $(
        /// # Safety
        /// The pointer is good for the length beside it.
        #[no_mangle]
        pub unsafe extern "C" fn $name(settings: *const u32, settings_length: usize) -> usize {
            model::lengths_for(&settings_from(settings, settings_length))[$which]
        }
    )* };
}

export_lengths!(
    labintugmo_longs_length 0,
    labintugmo_words_length 1,
    labintugmo_marks_length 2
);

/// # Safety
/// Each pointer is good for the length beside it.
#[no_mangle]
#[rustfmt::skip]
pub unsafe extern "C" fn labintugmo_fresh(
    settings: *const u32, settings_length: usize,
    longs: *mut u64, longs_length: usize, words: *mut u32, words_length: usize,
    marks: *mut u8, marks_length: usize,
) -> u32 {
    let mut lent = Lent {
        longs: slice_mut(longs, longs_length),
        words: slice_mut(words, words_length),
        marks: slice_mut(marks, marks_length),
    };
    let mut tables = lent.tables();
    let outcome = model::fresh_on(&settings_from(settings, settings_length), &mut tables);
    lent.store(&tables);
    Fault::planted().spill(marks, marks_length);
    number(outcome)
}

/// # Safety
/// Each pointer is good for the length beside it.
#[no_mangle]
#[rustfmt::skip]
pub unsafe extern "C" fn labintugmo_check(
    settings: *const u32, settings_length: usize,
    longs: *const u64, longs_length: usize, words: *const u32, words_length: usize,
    marks: *const u8, marks_length: usize,
) -> u32 {
    let tables = Tables {
        longs: slice(longs, longs_length).to_vec(),
        words: slice(words, words_length).to_vec(),
        marks: slice(marks, marks_length).to_vec(),
    };
    let settings = settings_from(settings, settings_length);
    let outcome = model::check(&settings, &tables);
    number(Fault::planted().alter_check(&settings, &tables, outcome))
}

macro_rules! export_call {
    ($name:ident($($argument:ident: $kind:ty),*) $call:expr) => {
        /// # Safety
        /// Each pointer is good for the length beside it, and no two slices overlap.
        #[no_mangle]
        #[rustfmt::skip]
        pub unsafe extern "C" fn $name(
            settings: *const u32, settings_length: usize,
            longs: *mut u64, longs_length: usize, words: *mut u32, words_length: usize,
            marks: *mut u8, marks_length: usize, $($argument: $kind,)*
            events: *mut u8, events_length: usize,
        ) -> usize {
            let lent = Lent {
                longs: slice_mut(longs, longs_length),
                words: slice_mut(words, words_length),
                marks: slice_mut(marks, marks_length),
            };
            let settings = settings_from(settings, settings_length);
            serve(settings, lent, $call, slice_mut(events, events_length))
        }
    };
}

export_call!(labintugmo_read(address: u64, ticket: u32)
    Call::Access(Access::read(address, ticket)));
export_call!(labintugmo_write(address: u64, mask: u32)
    Call::Access(Access::write(address, mask)));
export_call!(labintugmo_access(is_write: u32, address: u64, mask: u32, ticket: u32)
    Call::Access(Access { is_write: is_write != 0, address, mask, ticket }));
export_call!(labintugmo_send() Call::Send);
export_call!(labintugmo_fill(address: u64) Call::Fill(address));
export_call!(labintugmo_tick(cycle: u32) Call::Tick(cycle));

/// # Safety
/// Each pointer is good for the length beside it, and no two slices overlap.
#[no_mangle]
#[rustfmt::skip]
pub unsafe extern "C" fn labintugmo_wait(
    settings: *const u32, settings_length: usize,
    longs: *mut u64, longs_length: usize, words: *mut u32, words_length: usize,
    marks: *mut u8, marks_length: usize,
    is_write: u32, address: u64, mask: u32, ticket: u32,
    events: *mut u8, events_length: usize, round: *mut u64, round_length: usize,
) -> usize {
    let lent = Lent {
        longs: slice_mut(longs, longs_length),
        words: slice_mut(words, words_length),
        marks: slice_mut(marks, marks_length),
    };
    let access = Access { is_write: is_write != 0, address, mask, ticket };
    let events = slice_mut(events, events_length);
    let settings = settings_from(settings, settings_length);
    serve_wait(settings, lent, access, events, slice_mut(round, round_length))
}

/// # Safety
/// Each pointer is good for the length beside it, and no two slices overlap.
#[no_mangle]
#[rustfmt::skip]
pub unsafe extern "C" fn labintugmo_run(
    stream: *const u8, stream_length: usize, events: *mut u8, events_length: usize,
    longs: *mut u64, longs_length: usize, words: *mut u32, words_length: usize,
    marks: *mut u8, marks_length: usize, counts: *mut u64, counts_length: usize,
) -> u32 {
    let lent = Lent {
        longs: slice_mut(longs, longs_length),
        words: slice_mut(words, words_length),
        marks: slice_mut(marks, marks_length),
    };
    let events = slice_mut(events, events_length);
    serve_run(slice(stream, stream_length), events, lent, slice_mut(counts, counts_length))
}

/// # Safety
/// Each pointer is good for the length beside it, and no two slices overlap.
#[no_mangle]
#[rustfmt::skip]
pub unsafe extern "C" fn labintugmo_resume(
    settings: *const u32, settings_length: usize,
    part: *const u8, part_length: usize, events: *mut u8, events_length: usize,
    longs: *mut u64, longs_length: usize, words: *mut u32, words_length: usize,
    marks: *mut u8, marks_length: usize, counts: *mut u64, counts_length: usize,
) -> u32 {
    let lent = Lent {
        longs: slice_mut(longs, longs_length),
        words: slice_mut(words, words_length),
        marks: slice_mut(marks, marks_length),
    };
    let events = slice_mut(events, events_length);
    let counts = slice_mut(counts, counts_length);
    let settings = settings_from(settings, settings_length);
    serve_resume(&settings, slice(part, part_length), events, lent, counts)
}
