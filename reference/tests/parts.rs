//! Parts that go on (document 02, L10): what stops one before its first record and at a record,
//! and streams cut between records beside one run.

use reference::choices;
use reference::model::{Access, Cache, Call, Settings, Tables, RULE_FIFO};
use reference::random::Random;
use reference::runner::{self, call_record, read_record, resume, Stopped};
use reference::runner::{ruled_record, settings_record};
use reference::streams::{any_kind, stream};
use reference::tables::{damage_any, sound_tables};
use std::collections::BTreeSet;

const USUAL: Settings = Settings::new([1, 2, 50, 2, 2, 4]);

/// Kept after a read of 0 by ticket 7, which waits in the queue.
fn kept() -> Cache {
    let mut cache = Cache::fresh(USUAL);
    cache.access(Access::read(0, 7)).expect("accepted");
    cache
}

fn a_read() -> Vec<u8> {
    call_record(&Call::Access(Access::read(0, 9)))
}

/// The part stops as told; the room behind the events is as it was, and so are the tables
/// unless a record was run.
fn stops(settings: &Settings, tables: &Tables, part: &[u8], room: usize, expected: [usize; 3]) {
    let mut lent = tables.clone();
    let mut events = vec![0xEE; room];
    let Stopped { number, consumed, written } = resume(settings, part, &mut lent, &mut events);
    assert_eq!([number.into(), consumed, written], expected, "part {part:02x?}");
    assert!(events[written..].iter().all(|&byte| byte == 0xEE));
    if consumed == 0 {
        assert_eq!(&lent, tables);
    }
}

/// Parts that would each stop by themselves with another number, or not at all.
fn parts() -> [Vec<u8>; 6] {
    [vec![], a_read(), vec![0xFF], vec![1, 2], settings_record(&USUAL), vec![3, 3]]
}

#[test]
fn settings_lengths_and_soundness_come_before_the_first_record() {
    let good = kept().encode();
    let bad = Settings::new([3, 2, 50, 2, 2, 4]);
    let mut longer = good.clone();
    longer.words.push(0);
    let mut unsound = good.clone();
    unsound.marks[0] = 4;
    let mut both = unsound.clone();
    both.longs.pop();
    for part in parts() {
        for room in [0, 63, 200] {
            stops(&bad, &good, &part, room, [1, 0, 0]);
            stops(&bad, &both, &part, room, [1, 0, 0]);
            stops(&USUAL, &longer, &part, room, [2, 0, 0]);
            stops(&USUAL, &both, &part, room, [2, 0, 0]);
            stops(&USUAL, &unsound, &part, room, [3, 0, 0]);
            stops(&USUAL, &Tables::zero(&USUAL), &part, room, [3, 0, 0]);
        }
    }
}

#[test]
fn an_empty_part_ends_at_once() {
    stops(&USUAL, &kept().encode(), &[], 0, [0, 0, 0]);
}

#[test]
fn any_settings_record_stops_with_13() {
    let tables = kept().encode();
    let settings = settings_record(&USUAL);
    let ruled = ruled_record(&USUAL.with_rule(RULE_FIFO));
    for record in [&settings, &ruled, &ruled_record(&USUAL), &vec![0; 8], &vec![6; 9]] {
        stops(&USUAL, &tables, record, 0, [13, 0, 0]);
        stops(&USUAL, &tables, &[a_read(), record.clone()].concat(), 64, [13, 13, 4]);
        stops(&USUAL, &tables, &[record.clone(), a_read()].concat(), 64, [13, 0, 0]);
    }
    // Cut short it stops with 15, as every record does.
    for length in 1..8 {
        stops(&USUAL, &tables, &settings[..length], 64, [15, 0, 0]);
    }
    for length in 1..9 {
        stops(&USUAL, &tables, &ruled[..length], 64, [15, 0, 0]);
    }
}

#[test]
fn the_order_at_a_record_is_14_15_13_16() {
    let tables = kept().encode();
    for kind in 7..=0xFF {
        stops(&USUAL, &tables, &[kind], 0, [14, 0, 0]);
        stops(&USUAL, &tables, &[a_read(), vec![kind; 30]].concat(), 64, [14, 13, 4]);
    }
    for length in 1..13 {
        stops(&USUAL, &tables, &a_read()[..length], 0, [15, 0, 0]);
    }
    stops(&USUAL, &tables, &settings_record(&USUAL), 0, [13, 0, 0]);
    stops(&USUAL, &tables, &a_read(), 63, [16, 0, 0]);
    stops(&USUAL, &tables, &[3], 63, [16, 0, 0]);
    stops(&USUAL, &tables, &[a_read(), vec![3]].concat(), 67, [16, 13, 4]);
    stops(&USUAL, &tables, &[a_read(), vec![3]].concat(), 68, [0, 14, 13]);
}

/// Document 01's whole run, cut behind its first read; the rest told by hand.
#[test]
fn the_whole_run_cut_behind_its_first_read() {
    let fill = call_record(&Call::Fill(0));
    let part = [a_read(), vec![3], fill].concat();
    let mut tables = kept().encode();
    let mut room = [0xEE; 100];
    let stopped = resume(&USUAL, &part, &mut tables, &mut room);
    let mut expected = vec![0x10, 2, 1, 0, 0x15];
    expected.extend([0; 8]);
    expected.push(0x17);
    expected.extend([0; 8]);
    expected.extend([0x14, 7, 0, 0, 0, 0x14, 9, 0, 0, 0]);
    let written = expected.len();
    assert_eq!(stopped, Stopped { number: 0, consumed: part.len(), written });
    assert_eq!(room[..written], expected);
    let mut cache = kept();
    for call in [Call::Access(Access::read(0, 9)), Call::Send, Call::Fill(0)] {
        cache.call(call).expect("accepted");
    }
    assert_eq!(tables, cache.encode());
}

/// Refusals 4 to 12 are told and the part goes on.
#[test]
fn refused_calls_do_not_stop_a_part() {
    let calls = [
        Call::Access(Access::read(1, 0)),
        Call::Fill(0),
        Call::Tick(u32::MAX),
        Call::Send,
        Call::Send,
    ];
    let part: Vec<u8> = calls.iter().flat_map(call_record).collect();
    let mut room = [0; 200];
    let stopped = resume(&USUAL, &part, &mut kept().encode(), &mut room);
    assert_eq!(stopped, Stopped { number: 0, consumed: part.len(), written: 17 });
    assert_eq!(room[..7], [0x11, 4, 0x11, 10, 0x11, 11, 0x15]);
    assert_eq!(room[15..17], [0x11, 12]);
}

/// The ends of the whole records of a stream, from the first record's on.
fn ends(bytes: &[u8]) -> Vec<usize> {
    let mut ends = Vec::new();
    let mut at = 0;
    while let Ok((_, body)) = read_record(bytes, at) {
        at += 1 + body.len();
        ends.push(at);
    }
    ends
}

/// Runs what stands before the first cut, then goes on from cut to cut while parts end with 0.
fn in_parts(bytes: &[u8], settings: &Settings, cuts: &[usize]) -> (Stopped, Tables, Vec<u8>) {
    let mut room = vec![0; 25 * bytes.len() + 64];
    let mut tables = Tables::zero(settings);
    let mut all = runner::run(&bytes[..cuts[0]], &mut tables, &mut room);
    for (number, &cut) in cuts.iter().enumerate() {
        if all.number != 0 {
            break;
        }
        let end = cuts.get(number + 1).copied().unwrap_or(bytes.len());
        let part = resume(settings, &bytes[cut..end], &mut tables, &mut room[all.written..]);
        all.number = part.number;
        all.consumed += part.consumed;
        all.written += part.written;
    }
    room.truncate(all.written);
    (all, tables, room)
}

/// One cut between any two records, a cut between all of them, and a cut twice at one place.
#[test]
fn a_cut_stream_ends_as_one_run() {
    let (mut stopped_with, mut rules) = (BTreeSet::new(), BTreeSet::new());
    for case in 0..600 {
        let mut random = Random::for_case(8, case);
        let kind = any_kind(&mut random);
        let mut bytes = stream(&mut random, kind);
        bytes.truncate(1200);
        let tables = runner::tables_for(&bytes);
        let ends = ends(&bytes);
        if tables == Tables::default() || ends.is_empty() {
            continue;
        }
        let settings = runner::first_settings(&bytes).expect("it has tables");
        let mut whole = (Stopped { number: 0, consumed: 0, written: 0 }, tables, Vec::new());
        whole.2 = vec![0; 25 * bytes.len() + 64];
        whole.0 = runner::run(&bytes, &mut whole.1, &mut whole.2);
        whole.2.truncate(whole.0.written);
        let place = random.pick(&ends);
        for cuts in [vec![place], vec![place, place], ends.clone()] {
            assert_eq!(in_parts(&bytes, &settings, &cuts), whole, "cut at {cuts:?}");
        }
        stopped_with.insert(whole.0.number);
        rules.insert(settings.rule);
    }
    assert_eq!(stopped_with, [0, 13, 14, 15].into());
    assert_eq!(rules, [0, 1, 2].into());
}

/// On any tables and settings a part gives 1, 2 or 3 before it looks at its records.
#[test]
fn random_tables_are_judged_first() {
    let mut met = BTreeSet::new();
    for case in 0..2000 {
        let mut random = Random::for_case(9, case);
        let settings = choices::tight_settings(&mut random);
        let mut tables = sound_tables(&mut random, &settings);
        let mut judged_by = settings;
        match random.below(4) {
            0 => tables = damage_any(&mut random, &settings, &tables).tables,
            1 => judged_by = choices::bad_settings(&mut random),
            2 => judged_by = choices::tight_settings(&mut random),
            _ => (),
        }
        let expected = reference::model::check(&judged_by, &tables);
        let before = tables.clone();
        let stopped = resume(&judged_by, &[0xFF], &mut tables, &mut []);
        let number = expected.map_or_else(|refusal| refusal.number(), |()| 14);
        assert_eq!(stopped, Stopped { number, consumed: 0, written: 0 });
        assert_eq!(tables, before);
        met.insert(number);
    }
    assert_eq!(met, [1, 2, 3, 14].into());
}
