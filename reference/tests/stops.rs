//! Each stop number of the runner, the order among them, and what streams of every kind stop with.

use reference::model::{Access, Cache, Call, Settings, Tables};
use reference::random::Random;
use reference::runner::{self, call_record, read_record, settings_record, Stopped};
use reference::streams::{any_kind, stream, KINDS};
use std::collections::BTreeSet;

const USUAL: Settings = Settings::new([1, 2, 50, 2, 2, 4]);

fn good() -> Vec<u8> {
    settings_record(&USUAL)
}

fn a_read() -> Vec<u8> {
    call_record(&Call::Access(Access::read(0, 7)))
}

fn stops(stream: &[u8], room: usize, number: u8, consumed: usize, written: usize) {
    let mut tables = Tables::zero(&USUAL);
    let mut events = vec![0xEE; room];
    let stopped = runner::run(stream, &mut tables, &mut events);
    assert_eq!(stopped, Stopped { number, consumed, written });
    assert!(events[written..].iter().all(|&byte| byte == 0xEE));
    if consumed == 0 {
        assert_eq!(tables, Tables::zero(&USUAL));
    }
}

#[test]
fn stop_0_at_the_end() {
    stops(&[], 0, 0, 0, 0);
    stops(&good(), 0, 0, 8, 0);
    stops(&[good(), a_read()].concat(), 64, 0, 21, 13);
}

#[test]
fn stop_1_bad_settings() {
    stops(&[0, 3, 0, 2, 50, 2, 2, 4], 64, 1, 0, 0);
    stops(&[0, 1, 0, 2, 50, 2, 2, 1], 64, 1, 0, 0);
}

#[test]
fn stop_2_other_length() {
    stops(&[0, 2, 0, 2, 50, 2, 2, 4], 64, 2, 0, 0);
    stops(&[0, 1, 0, 2, 50, 2, 2, 5], 64, 2, 0, 0);
}

#[test]
fn stop_13_settings_place() {
    stops(&a_read(), 64, 13, 0, 0);
    stops(&[3], 64, 13, 0, 0);
    stops(&[good(), good()].concat(), 0, 13, 8, 0);
    // Another settings record stops the run before its own settings are judged.
    stops(&[good(), vec![0; 8]].concat(), 64, 13, 8, 0);
}

#[test]
fn stop_14_unknown_kind() {
    for kind in (7..=0x0F).chain(0x10..=0x18).chain(0x19..=0xFF) {
        stops(&[kind], 64, 14, 0, 0);
        stops(&[good(), vec![kind; 40]].concat(), 0, 14, 8, 0);
    }
}

#[test]
fn stop_15_cut_short() {
    for length in 1..8 {
        stops(&good()[..length], 64, 15, 0, 0);
        stops(&[good(), good()[..length].to_vec()].concat(), 0, 15, 8, 0);
    }
    for length in 1..13 {
        stops(&a_read()[..length], 64, 15, 0, 0);
        stops(&[good(), a_read()[..length].to_vec()].concat(), 0, 15, 8, 0);
    }
}

#[test]
fn stop_16_event_room() {
    let reads = [good(), a_read(), a_read()].concat();
    stops(&reads, 63, 16, 8, 0);
    stops(&reads, 64, 16, 21, 13);
    stops(&reads, 76, 16, 21, 13);
    stops(&reads, 77, 0, 34, 17);
    // Also for a record that would write one byte.
    stops(&[good(), vec![5, 0, 0, 0, 0]].concat(), 63, 16, 8, 0);
}

#[test]
fn tables_at_a_stop_are_as_the_records_left_them() {
    let mut cache = Cache::fresh(USUAL);
    cache.access(Access::read(0, 7)).expect("accepted");
    for end in [vec![], vec![0xFF], vec![4, 0], good()] {
        let mut tables = Tables::zero(&USUAL);
        runner::run(&[good(), a_read(), end].concat(), &mut tables, &mut [0; 100]);
        assert_eq!(tables, cache.encode());
    }
}

#[test]
fn reader_hands_back_any_body() {
    let stream = [good(), vec![0x10, 9, 9, 9]].concat();
    assert_eq!(read_record(&stream, 0), Ok((0, &stream[1..8])));
    assert_eq!(read_record(&stream, 8), Ok((0x10, &[9, 9, 9][..])));
    assert_eq!(read_record(&stream, 9), Err(14));
    assert_eq!(read_record(&stream, 12), Err(15));
    assert_eq!(read_record(&stream, 99), Err(15));
    assert_eq!(read_record(&stream[..11], 8), Err(15));
}

/// The refusals that a stream's events tell of.
fn refusals(events: &[u8]) -> BTreeSet<u8> {
    let mut seen = BTreeSet::new();
    let mut at = 0;
    while at < events.len() {
        let (kind, body) = read_record(events, at).expect("whole event records");
        if kind == 0x11 {
            seen.insert(body[0]);
        }
        at += 1 + body.len();
    }
    seen
}

#[test]
fn random_streams_meet_every_stop_and_refusal() {
    let mut room = vec![0; 1 << 20];
    let (mut stopped_with, mut refused_with) = (BTreeSet::new(), BTreeSet::new());
    for case in 0..3000 {
        let mut random = Random::for_case(2, case);
        let kind =
            if case < 100 { KINDS[case as usize % KINDS.len()] } else { any_kind(&mut random) };
        let bytes = stream(&mut random, kind);
        let mut tables = runner::tables_for(&bytes);
        let end = if case % 10 == 0 { 100 } else { room.len() };
        let stopped = runner::run(&bytes, &mut tables, &mut room[..end]);
        stopped_with.insert(stopped.number);
        refused_with.extend(refusals(&room[..stopped.written]));
    }
    assert_eq!(stopped_with, [0, 1, 13, 14, 15, 16].into());
    assert_eq!(refused_with, (4..=12).collect());
}

/// What a stream's settings records show: the first one's kind and rule, and how it stopped where
/// a settings record is the one it stopped at.
fn settings_shown(bytes: &[u8], stopped: &Stopped) -> Vec<String> {
    let at = bytes.get(stopped.consumed).copied().filter(|&kind| runner::is_settings(kind));
    let mut shown = Vec::new();
    if let (Some(settings), true) = (runner::first_settings(bytes), stopped.consumed > 0) {
        shown.push(format!("first {} rule {}", bytes[0], settings.rule));
    }
    match (at, stopped.number) {
        (Some(kind), 13) => shown.push(format!("{kind} after {}", bytes[0])),
        (Some(kind), 15) => shown.push(format!("{kind} cut short")),
        (Some(6), 1) => {
            let settings = runner::first_settings(bytes).expect("it was judged");
            let plain = settings.with_rule(0).in_range();
            let which = if settings.rule == 2 { "over such ways" } else { "unknown" };
            shown.push(format!("rule {}", if plain { which } else { "beside others" }));
        }
        _ => (),
    }
    shown
}

#[test]
fn random_streams_have_settings_of_both_kinds() {
    let mut met = BTreeSet::new();
    let mut room = vec![0; 1 << 20];
    for case in 0..6000 {
        let mut random = Random::for_case(3, case);
        let kind = any_kind(&mut random);
        let bytes = stream(&mut random, kind);
        let stopped = runner::run(&bytes, &mut runner::tables_for(&bytes), &mut room);
        met.extend(settings_shown(&bytes, &stopped));
    }
    let expected = [
        "0 after 0",
        "0 after 6",
        "0 cut short",
        "6 after 0",
        "6 after 6",
        "6 cut short",
        "first 0 rule 0",
        "first 6 rule 0",
        "first 6 rule 1",
        "first 6 rule 2",
        "rule beside others",
        "rule over such ways",
        "rule unknown",
    ];
    assert_eq!(met, expected.map(String::from).into());
}
