//! Parts of streams that go on from kept tables (document 02, L10), by the exported call: parts on
//! tables, settings and rooms of every kind against the reference, and cut streams against the
//! library's own run of the whole.

use crate::cases::{any_empty, noise, noise_tables};
use crate::exported::{make_resume, make_run, Beside, EmptySlice, Made};
use crate::trial::{difference, Counts, End, Expected};
use reference::choices;
use reference::model::{Cache, Settings, Tables, RULE_FIFO, RULE_LRU, RULE_TREE};
use reference::random::Random;
use reference::runner::{self, call_record, read_record, Stopped};
use reference::runner::{STOP_END, STOP_OTHER_LENGTH};
use reference::streams::{any_kind, any_record, stream};
use reference::tables::{damage_any, sound_tables};

/// A queued write-back is sent for one byte; no other record writes more for each of its bytes.
const EVENTS_PER_BYTE: usize = 25;
const NEVER_FULL: usize = 64;

/// A part and what is lent with it.
struct Part {
    source: &'static str,
    settings: Settings,
    /// The settings as they are lent.
    numbers: Vec<u32>,
    tables: Tables,
    bytes: Vec<u8>,
    empty: EmptySlice,
}

pub fn run_case(random: &mut Random, counts: &mut Counts, nulls: bool) -> Result<(), String> {
    if random.percent(40) {
        return cut_stream(random, counts);
    }
    let part = any_part(random, nulls);
    let written = room_used(&part);
    for room in [written + NEVER_FULL, written + NEVER_FULL - 1, random.index(written + NEVER_FULL)]
    {
        let room = noise(random, room);
        let numbers = [random.draw(), random.draw()];
        compare(&part, Beside { room: &room, numbers: &numbers, empty: part.empty }, counts)?;
    }
    // The documents do not say whether counts of another length come before settings out of range.
    if !part.settings.in_range() {
        return Ok(());
    }
    let room = noise(random, written + NEVER_FULL);
    let numbers = vec![random.draw(); random.pick(&[0, 1, 3])];
    compare(&part, Beside { room: &room, numbers: &numbers, empty: part.empty }, counts)
}

fn any_part(random: &mut Random, nulls: bool) -> Part {
    let settings = choices::good_settings(random);
    let tables = sound_tables(random, &settings);
    let bytes = any_records(random, Cache::decode(&settings, &tables));
    let empty = any_empty(random, nulls);
    let numbers = Vec::new();
    let mut part = Part { source: "a part that goes on", settings, numbers, tables, bytes, empty };
    match random.below(11) {
        0..=1 => {
            part.source = "a part, settings out of range";
            part.settings = choices::bad_settings(random);
        }
        2..=3 => {
            part.source = "a part, tables of wrong lengths";
            part.tables = wrong_lengths(random, part.tables);
        }
        4 => {
            part.source = "a part, tables damaged";
            part.tables = damage_any(random, &settings, &part.tables).tables;
        }
        5 => {
            part.source = "a part, tables of any numbers";
            part.tables = noise_tables(random, part.tables.lengths());
        }
        6 => {
            part.source = "a part, another dirty percent";
            part.settings.dirty = random.between(0, 100) as u32;
        }
        7 => {
            part.source = "a part, another rule";
            part.settings.rule = random.pick(&[RULE_LRU, RULE_FIFO, RULE_TREE]);
        }
        _ => (),
    }
    part.numbers = choices::lent_numbers(random, &part.settings);
    part
}

fn wrong_lengths(random: &mut Random, mut tables: Tables) -> Tables {
    match random.below(7) {
        0 => tables.longs.push(0),
        1 => drop(tables.longs.pop()),
        2 => tables.words.push(0),
        3 => drop(tables.words.pop()),
        4 => tables.marks.push(0),
        5 => drop(tables.marks.pop()),
        _ => tables = Tables::default(),
    }
    tables
}

/// Records that suit the tables, none at times; often with one among them that stops the part.
fn any_records(random: &mut Random, mut cache: Cache) -> Vec<u8> {
    if random.percent(15) {
        return Vec::new();
    }
    let kept = cache.settings;
    let mut records = Vec::new();
    for _ in 0..random.index(40) {
        let call = choices::record_call(random, &cache);
        let _ = cache.call(call);
        records.push(call_record(&call));
    }
    let place = if random.percent(40) { 0 } else { random.index(records.len() + 1) };
    match random.below(10) {
        0 => records.insert(place, any_record(random, &kept)),
        1 => {
            let good = choices::good_settings(random);
            records.insert(place, any_record(random, &good));
        }
        2 => {
            let bad = choices::bad_record_settings(random);
            records.insert(place, any_record(random, &bad));
        }
        3 => records.insert(place, vec![random.between(6, 255) as u8; 1 + random.index(30)]),
        4 => {
            let mut bytes = records.concat();
            bytes.truncate(random.index(bytes.len() + 1));
            return bytes;
        }
        _ => (),
    }
    records.concat()
}

fn ample(bytes: &[u8]) -> usize {
    EVENTS_PER_BYTE * bytes.len() + NEVER_FULL
}

/// Event bytes that the part writes where there is room for all.
fn room_used(part: &Part) -> usize {
    let mut room = vec![0; ample(&part.bytes)];
    runner::resume(&part.settings, &part.bytes, &mut part.tables.clone(), &mut room).written
}

fn expected(part: &Part, beside: Beside) -> (Expected, End) {
    let mut tables = part.tables.clone();
    if beside.numbers.len() != 2 {
        let (returned, numbers) = (STOP_OTHER_LENGTH.into(), beside.numbers.to_vec());
        return (Expected { returned, events: Vec::new(), tables, numbers }, End::NoNumbers);
    }
    let mut events = beside.room.to_vec();
    let stopped = runner::resume(&part.settings, &part.bytes, &mut tables, &mut events);
    events.truncate(stopped.written);
    let numbers = vec![stopped.consumed as u64, stopped.written as u64];
    let expected = Expected { returned: stopped.number.into(), events, tables, numbers };
    (expected, End::Stopped(stopped.number))
}

fn compare(part: &Part, beside: Beside, counts: &mut Counts) -> Result<(), String> {
    let (expected, end) = expected(part, beside);
    let made = make_resume(&part.numbers, &part.bytes, &part.tables, beside);
    if let Some(text) = difference(Some(&part.settings), beside, &expected, &made) {
        return Err(format!(
            "{}, settings {:?}, lengths {:?}, event room {}, counts {}, empty slices {:?}\npart {:02x?}\n{text}",
            part.source,
            part.numbers,
            part.tables.lengths(),
            beside.room.len(),
            beside.numbers.len(),
            part.empty,
            part.bytes
        ));
    }
    counts.add(part.source, "resume", end);
    Ok(())
}

/// What a run or parts one after another left behind.
#[derive(PartialEq, Eq)]
struct Left {
    stopped: Stopped,
    events: Vec<u8>,
    tables: Tables,
}

impl Left {
    fn before(tables: &Tables) -> Left {
        let stopped = Stopped { number: STOP_END, consumed: 0, written: 0 };
        Left { stopped, events: Vec::new(), tables: tables.clone() }
    }

    fn then(&mut self, made: Made) -> Result<(), String> {
        if !made.guards_intact {
            return Err("a number outside the lent slices was written".to_string());
        }
        let written = made.numbers[1] as usize;
        self.stopped.number = made.returned as u8;
        self.stopped.consumed += made.numbers[0] as usize;
        self.stopped.written += written;
        self.events.extend(&made.events[..written]);
        self.tables = made.tables;
        Ok(())
    }
}

/// One stream in one run, and cut between records: once, a few times, and between all.
fn cut_stream(random: &mut Random, counts: &mut Counts) -> Result<(), String> {
    let kind = any_kind(random);
    let mut bytes = stream(random, kind);
    bytes.truncate(2000);
    let zero = runner::tables_for(&bytes);
    if zero == Tables::default() {
        return Ok(());
    }
    let tables = noise_tables(random, zero.lengths());
    let whole = in_one_run(random, &bytes, &tables)?;
    let ends = record_ends(&bytes);
    let few = random.index(ends.len()) + 1;
    let mut some: Vec<usize> = (0..few.min(4)).map(|_| random.pick(&ends)).collect();
    some.sort_unstable();
    for cuts in [&[random.pick(&ends)][..], &some, &ends] {
        let parts = in_parts(random, &bytes, &tables, cuts)?;
        if parts != whole {
            return Err(apart(&bytes, cuts, &whole, &parts));
        }
        counts.add("a stream cut between records", "resume", End::Stopped(parts.stopped.number));
    }
    Ok(())
}

/// Behind each whole record, from the settings record on.
fn record_ends(bytes: &[u8]) -> Vec<usize> {
    let mut ends = Vec::new();
    let mut at = 0;
    while let Ok((_, body)) = read_record(bytes, at) {
        at += 1 + body.len();
        ends.push(at);
    }
    ends
}

fn in_one_run(random: &mut Random, bytes: &[u8], tables: &Tables) -> Result<Left, String> {
    let mut left = Left::before(tables);
    let room = noise(random, ample(bytes));
    let beside = Beside { room: &room, numbers: &[7, 7], empty: EmptySlice::Buffer };
    left.then(make_run(bytes, tables, beside))?;
    Ok(left)
}

/// The run of what stands before the first cut, then the parts, until one stops.
fn in_parts(
    random: &mut Random,
    bytes: &[u8],
    tables: &Tables,
    cuts: &[usize],
) -> Result<Left, String> {
    let settings = runner::first_settings(bytes).expect("it has tables");
    let numbers = choices::lent_numbers(random, &settings);
    let mut left = in_one_run(random, &bytes[..cuts[0]], tables)?;
    let room = noise(random, ample(bytes));
    let beside = Beside { room: &room, numbers: &[7, 7], empty: EmptySlice::Buffer };
    for (number, &cut) in cuts.iter().enumerate() {
        if left.stopped.number != STOP_END {
            break;
        }
        let end = cuts.get(number + 1).copied().unwrap_or(bytes.len());
        left.then(make_resume(&numbers, &bytes[cut..end], &left.tables, beside))?;
    }
    Ok(left)
}

fn apart(bytes: &[u8], cuts: &[usize], whole: &Left, parts: &Left) -> String {
    let event = whole.events.iter().zip(&parts.events).position(|(one, other)| one != other);
    format!(
        "stream {bytes:02x?}\ncut at {cuts:?}\none run {:?}, parts {:?}\nfirst event byte apart {event:?}, first number of the tables apart {:?}",
        whole.stopped,
        parts.stopped,
        whole.tables.first_difference(&parts.tables)
    )
}
