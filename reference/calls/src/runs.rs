//! Streams run by the exported runner and compared with the reference: the stop
//! number, the counts, the whole event room and all three slices, on tables of
//! right and wrong lengths, with event room at the edge of what the stream needs.

use crate::cases::{any_empty, noise, noise_tables};
use crate::exported::{make_run, Beside, EmptySlice};
use crate::trial::{difference, Counts, End, Expected};
use reference::model::{lengths_for, Tables};
use reference::random::Random;
use reference::runner::{self, Stopped, STOP_OTHER_LENGTH};
use reference::streams::{any_kind, stream, Kind};

/// No record of one byte writes more, and no longer record writes more for each of its bytes.
const EVENTS_PER_BYTE: usize = 25;

/// One stream with three event rooms, and once with counts of another length.
pub fn run_case(random: &mut Random, counts: &mut Counts, nulls: bool) -> Result<(), String> {
    let kind = any_kind(random);
    let bytes = stream(random, kind);
    let (source, tables) = lent_tables(random, &bytes);
    let empty = if source == "a stream" { EmptySlice::Buffer } else { any_empty(random, nulls) };
    let written = room_used(&bytes, &tables);
    for length in rooms(random, written) {
        let (room, numbers) = (noise(random, length), [random.draw(), random.draw()]);
        let beside = Beside { room: &room, numbers: &numbers, empty };
        compare(&bytes, &tables, beside, kind, (source, counts))?;
    }
    let room = noise(random, written + 64);
    let other = random.pick(&[0, 1, 3]);
    let numbers: Vec<u64> = (0..other).map(|_| random.draw()).collect();
    let beside = Beside { room: &room, numbers: &numbers, empty };
    compare(&bytes, &tables, beside, kind, (source, counts))
}

/// Mostly of the lengths that the stream's settings ask for; any numbers stand in them.
fn lent_tables(random: &mut Random, bytes: &[u8]) -> (&'static str, Tables) {
    let lengths = runner::tables_for(bytes).lengths();
    let mut tables = noise_tables(random, lengths);
    match random.below(12) {
        0 => tables.longs.push(0),
        1 => drop(tables.words.pop()),
        2 => tables.marks.clear(),
        3 => tables = Tables::default(),
        _ => return ("a stream", tables),
    }
    ("a stream, tables of wrong lengths", tables)
}

/// Event bytes that the stream writes where there is room for all.
fn room_used(bytes: &[u8], tables: &Tables) -> usize {
    let mut room = vec![0; EVENTS_PER_BYTE * bytes.len() + 64];
    runner::run(bytes, &mut tables.clone(), &mut room).written
}

/// Enough for all, enough or one byte too few for the last record, and any.
fn rooms(random: &mut Random, written: usize) -> [usize; 3] {
    [written + random.between(64, 90) as usize, written + 63, random.index(written + 64)]
}

fn expected(bytes: &[u8], tables: &Tables, beside: Beside) -> (Expected, End) {
    let mut after = tables.clone();
    let numbers = beside.numbers.to_vec();
    if numbers.len() != 2 {
        let returned = usize::from(STOP_OTHER_LENGTH);
        let expected = Expected { returned, events: Vec::new(), tables: after, numbers };
        return (expected, End::NoNumbers);
    }
    let mut room = beside.room.to_vec();
    let Stopped { number, consumed, written } = runner::run(bytes, &mut after, &mut room);
    room.truncate(written);
    let numbers = vec![consumed as u64, written as u64];
    let expected = Expected { returned: number.into(), events: room, tables: after, numbers };
    (expected, End::Stopped(number))
}

fn compare(
    bytes: &[u8],
    tables: &Tables,
    beside: Beside,
    kind: Kind,
    (source, counts): (&'static str, &mut Counts),
) -> Result<(), String> {
    let (expected, end) = expected(bytes, tables, beside);
    let made = make_run(bytes, tables, beside);
    let settings = runner::first_settings(bytes);
    if let Some(text) = difference(settings.as_ref(), beside, &expected, &made) {
        return Err(format!(
            "run of {kind:?} stream {:02x?}\nlengths {:?} of {:?}, event room {}, counts {}, empty slices {:?}\n{text}",
            &bytes[..bytes.len().min(400)],
            tables.lengths(),
            settings.as_ref().map(lengths_for),
            beside.room.len(),
            beside.numbers.len(),
            beside.empty
        ));
    }
    counts.add(source, "run", end);
    Ok(())
}
