//! Document 01's fourteen cases, each from fresh tables, and its whole run.

use reference::model::{event_bytes, Access, Answer, Cache, Call, Event, Refusal, Settings};
use reference::runner;

const USUAL: [u32; 6] = [1, 2, 50, 2, 2, 4];

fn read(address: u64) -> Call {
    Call::Access(Access::read(address, 7))
}

fn write(address: u64, mask: u32) -> Call {
    Call::Access(Access::write(address, mask))
}

fn answer(answer: Answer, line: u16) -> Event {
    Event::Answer { answer, line }
}

fn queued(address: u64) -> Event {
    Event::ReadQueued { address }
}

fn write_back(block: u64) -> Event {
    Event::WriteBackQueued { block, masks: [0xFF, 0, 0, 0] }
}

/// The calls but the last are accepted; the last one ends as expected.
fn ends(six: [u32; 6], calls: &[Call], expected: Result<Vec<Event>, Refusal>) -> Cache {
    let mut cache = Cache::fresh(Settings::new(six));
    let (last, before) = calls.split_last().expect("a case has a last call");
    for call in before {
        cache.call(*call).expect("the calls before are accepted");
    }
    assert_eq!(cache.call(*last), expected);
    cache
}

#[test]
fn case_1_first_read() {
    ends(USUAL, &[read(0)], Ok(vec![answer(Answer::Miss, 1), queued(0)]));
}

#[test]
fn case_2_read_again() {
    ends(USUAL, &[read(0), read(0)], Ok(vec![answer(Answer::HitReserved, 1)]));
}

#[test]
fn case_3_other_sector() {
    let expected = vec![answer(Answer::SectorMiss, 1), queued(32)];
    ends(USUAL, &[read(0), read(32)], Ok(expected));
}

#[test]
fn case_4_no_entry() {
    // Two reads stand in four places, so the queue has the one that a third needs.
    ends(USUAL, &[read(0), read(32), read(64)], Err(Refusal::MissTableFull));
}

#[test]
fn case_5_no_ticket() {
    ends(USUAL, &[read(0), read(0), read(0)], Err(Refusal::EntryFull));
}

#[test]
fn case_6_write_miss() {
    ends(USUAL, &[write(0, 0xFF)], Ok(vec![answer(Answer::Miss, 1)]));
}

#[test]
fn case_7_read_of_partly_written() {
    let expected = vec![answer(Answer::SectorMiss, 1), queued(0)];
    let cache = ends(USUAL, &[write(0, 0xFF), read(0)], Ok(expected));
    assert_eq!(cache.dirty_lines(), 0);
}

#[test]
fn case_8_read_after_fill() {
    let calls = [write(0, 0xFF), read(0), Call::Send, Call::Fill(0), read(0)];
    ends(USUAL, &calls, Ok(vec![answer(Answer::Hit, 1)]));
}

#[test]
fn case_9_read_of_wholly_written() {
    let calls = [write(0, 0xFF), write(0, 0xFFFF_FF00), read(0)];
    ends(USUAL, &calls, Ok(vec![answer(Answer::Hit, 1)]));
}

#[test]
fn case_10_earliest_victim() {
    let calls = [
        Call::Tick(1),
        write(0, 0xFF),
        Call::Tick(2),
        write(128, 0xFF),
        Call::Tick(3),
        write(256, 0xFF),
    ];
    ends(USUAL, &calls, Ok(vec![answer(Answer::Miss, 1), write_back(0)]));
}

#[test]
fn case_11_lowest_way_among_equals() {
    let calls = [write(0, 0xFF), write(128, 0xFF), write(256, 0xFF)];
    ends(USUAL, &calls, Ok(vec![answer(Answer::Miss, 0), write_back(128)]));
}

#[test]
fn case_12_set_busy() {
    ends(USUAL, &[read(0), read(128), read(256)], Err(Refusal::SetBusy));
}

#[test]
fn case_13_set_held() {
    let calls = [write(0, 0xFF), write(256, 0xFF)];
    ends([2, 1, 60, 2, 2, 4], &calls, Err(Refusal::SetHeld));
    let expected = vec![answer(Answer::Miss, 0), write_back(0)];
    ends([2, 1, 50, 2, 2, 4], &calls, Ok(expected));
}

#[test]
fn case_14_a_merged_read_sends_nothing() {
    let small = [1, 2, 50, 2, 2, 2];
    ends(small, &[read(0)], Ok(vec![answer(Answer::Miss, 1), queued(0)]));
    ends(small, &[read(0), read(0)], Ok(vec![answer(Answer::HitReserved, 1)]));
}

#[test]
fn whole_run() {
    let settings = Settings::new(USUAL);
    let calls = [
        Call::Access(Access::read(0, 7)),
        Call::Access(Access::read(0, 9)),
        Call::Send,
        Call::Fill(0),
    ];
    let mut stream = runner::settings_record(&settings);
    stream.extend(calls.iter().flat_map(runner::call_record));

    let mut expected = vec![0x10, 3, 1, 0, 0x12];
    expected.extend([0; 8]);
    expected.extend([0x10, 2, 1, 0, 0x15]);
    expected.extend([0; 8]);
    expected.push(0x17);
    expected.extend([0; 8]);
    expected.extend([0x14, 7, 0, 0, 0, 0x14, 9, 0, 0, 0]);
    assert_eq!(expected.len(), 45);

    let mut tables = runner::tables_for(&stream);
    let mut room = vec![0xEE; 200];
    let stopped = runner::run(&stream, &mut tables, &mut room);
    assert_eq!(stopped, runner::Stopped { number: 0, consumed: stream.len(), written: 45 });
    assert_eq!(room[..45], expected);
    assert!(room[45..].iter().all(|&byte| byte == 0xEE));
}

#[test]
fn events_have_the_lengths_of_their_kinds() {
    let masks = [1, 2, 3, 4];
    let events = [
        answer(Answer::Hit, 1023),
        Event::Refused { number: 12 },
        queued(32),
        Event::WriteBackQueued { block: 128, masks },
        Event::Released { ticket: 1 },
        Event::ReadSent { address: 32 },
        Event::WriteBackSent { block: 128, masks },
        Event::Filled { address: 32 },
        Event::Ticked,
    ];
    for event in events {
        let bytes = event_bytes(&[event]);
        let (kind, body) = runner::read_record(&bytes, 0).expect("a whole record");
        assert_eq!((kind, 1 + body.len()), (bytes[0], bytes.len()));
    }
}
