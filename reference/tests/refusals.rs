//! Each refusal number, the order among them, and that a refused call changes nothing.

use reference::choices;
use reference::model::{call_on, check, fresh_on, lengths_for, sound};
use reference::model::{Access, Cache, Call, Refusal, Settings, Status, Tables, LAST_CYCLE};
use reference::random::Random;
use std::collections::BTreeSet;

const USUAL: Settings = Settings::new([1, 2, 50, 2, 2, 4]);

fn read(address: u64) -> Call {
    Call::Access(Access::read(address, 7))
}

fn write(address: u64, mask: u32) -> Call {
    Call::Access(Access::write(address, mask))
}

fn after(settings: Settings, calls: &[Call]) -> Cache {
    let mut cache = Cache::fresh(settings);
    for call in calls {
        cache.call(*call).expect("accepted");
    }
    cache
}

fn refused(settings: Settings, before: &[Call], last: Call, number: u8) {
    let tables = after(settings, before).encode();
    let mut lent = tables.clone();
    let outcome = call_on(&settings, &mut lent, last);
    assert_eq!(outcome.map_err(Refusal::number), Err(number));
    assert_eq!(lent, tables);
}

#[test]
fn refusal_1_settings_out_of_range() {
    let bad = [
        [0, 1, 0, 1, 1, 2],
        [3, 1, 0, 1, 1, 2],
        [512, 1, 0, 1, 1, 2],
        [1, 0, 0, 1, 1, 2],
        [1, 17, 0, 1, 1, 2],
        [256, 5, 0, 1, 1, 2],
        [1 << 31, 1 << 31, 0, 1, 1, 2],
        [1, 1, 101, 1, 1, 2],
        [1, 1, 0, 0, 1, 2],
        [1, 1, 0, 65, 1, 2],
        [1, 1, 0, 1, 0, 2],
        [1, 1, 0, 1, 9, 2],
        [1, 1, 0, 1, 1, 1],
        [1, 1, 0, 1, 1, 65],
    ];
    for six in bad {
        let settings = Settings::new(six);
        assert!(!settings.in_range());
        assert_eq!(check(&settings, &Tables::default()), Err(Refusal::BadSettings));
        assert_eq!(lengths_for(&settings), [0; 3]);
    }
    for six in [[256, 4, 100, 64, 8, 64], [1, 1, 0, 1, 1, 2], [64, 16, 1, 1, 1, 2]] {
        assert!(Settings::new(six).in_range());
    }
}

#[test]
fn refusal_2_other_length_by_one() {
    let right = Tables::fresh(&USUAL);
    assert_eq!(check(&USUAL, &right), Ok(()));
    let mut wrong = vec![right.clone(); 6];
    wrong[0].longs.push(0);
    wrong[1].longs.pop();
    wrong[2].words.push(0);
    wrong[3].words.pop();
    wrong[4].marks.push(0);
    wrong[5].marks.pop();
    for tables in wrong {
        let mut lent = tables.clone();
        assert_eq!(call_on(&USUAL, &mut lent, Call::Send), Err(Refusal::OtherLength));
        assert_eq!(fresh_on(&USUAL, &mut lent), Err(Refusal::OtherLength));
        assert_eq!(lent, tables);
    }
}

#[test]
fn refusal_3_zero_tables_are_not_fresh() {
    let mut tables = Tables::zero(&USUAL);
    let bad_address = read(1);
    assert_eq!(call_on(&USUAL, &mut tables, bad_address), Err(Refusal::NotSound));
    assert_eq!(fresh_on(&USUAL, &mut tables), Ok(()));
    assert_eq!(tables, Tables::fresh(&USUAL));
    assert_eq!(call_on(&USUAL, &mut tables, bad_address), Err(Refusal::NotWellFormed));
}

#[test]
fn refusal_4_not_well_formed() {
    for address in [1, 31, 33, 1 << 48, u64::MAX] {
        refused(USUAL, &[], read(address), 4);
        refused(USUAL, &[], write(address, 1), 4);
    }
    refused(USUAL, &[], write(0, 0), 4);
    let masked_read = Access { is_write: false, address: 0, mask: 1, ticket: 0 };
    refused(USUAL, &[], Call::Access(masked_read), 4);
    let mut cache = Cache::fresh(USUAL);
    assert!(cache.call(read((1 << 48) - 32)).is_ok());
}

#[test]
fn refusals_5_and_6_no_candidate() {
    refused(USUAL, &[read(0), read(128)], read(256), 5);
    refused(Settings::new([2, 1, 60, 2, 2, 4]), &[write(0, 1)], write(256, 1), 6);
    // One RESERVED sector beside a held line makes the set busy.
    let held = Settings::new([2, 2, 100, 2, 2, 4]);
    refused(held, &[write(0, 1), write(256, 1)], read(512), 6);
    refused(held, &[write(0, 1), read(256)], read(512), 5);
}

/// What each access needs stands in `places`.
#[test]
fn refusal_7_queue_full() {
    let small = Settings::new([1, 2, 50, 3, 2, 2]);
    refused(small, &[read(0), read(32)], read(64), 7);
}

#[test]
fn refusal_5_before_7() {
    let small = Settings::new([1, 1, 50, 2, 2, 2]);
    refused(small, &[read(0)], read(128), 5);
}

#[test]
fn refusals_8_and_9_only_for_reads() {
    let one = Settings::new([1, 2, 50, 1, 1, 8]);
    refused(one, &[read(0)], read(0), 8);
    refused(one, &[read(0)], read(32), 9);
    refused(one, &[read(0)], read(128), 9);
    refused(one, &[read(0), write(32, 1)], read(32), 9);
    after(one, &[read(0), write(0, 1), write(32, 1)]);
}

#[test]
fn refusal_10_fill() {
    refused(USUAL, &[], Call::Fill(0), 10);
    refused(USUAL, &[read(0)], Call::Fill(0), 10);
    for address in [1, 31, 32, 1 << 48, u64::MAX] {
        refused(USUAL, &[read(0), Call::Send], Call::Fill(address), 10);
    }
}

#[test]
fn refusal_11_tick() {
    refused(USUAL, &[Call::Tick(5)], Call::Tick(4), 11);
    refused(USUAL, &[], Call::Tick(u32::MAX), 11);
    after(USUAL, &[Call::Tick(5), Call::Tick(5), Call::Tick(LAST_CYCLE), Call::Tick(LAST_CYCLE)]);
}

#[test]
fn refusal_12_send() {
    refused(USUAL, &[], Call::Send, 12);
    refused(USUAL, &[read(0), Call::Send], Call::Send, 12);
}

#[test]
fn write_to_reserved_stays_reserved_and_clean() {
    let mut cache = after(USUAL, &[read(0), write(0, 0xFF)]);
    let sector = cache.lines[1].sectors[0];
    assert_eq!((sector.status, sector.mask, sector.readable), (Status::Reserved, 0xFF, true));
    assert_eq!(cache.dirty_lines(), 0);
    cache.send().expect("a read waits");
    cache.fill(0).expect("it was sent");
    assert_eq!(cache.lines[1].sectors[0].status, Status::Modified);
    assert_eq!(cache.dirty_lines(), 1);
}

/// Walks keep tables sound, refusals change nothing, and all of 4 to 12 are met.
#[test]
fn walks_keep_tables_sound() {
    let mut seen = BTreeSet::new();
    for case in 0..400 {
        let mut random = Random::for_case(1, case);
        let settings = choices::good_settings(&mut random);
        let mut cache = Cache::fresh(settings);
        for _ in 0..80 {
            let before = cache.clone();
            let call = choices::any_call(&mut random, &cache);
            if let Err(refusal) = cache.call(call) {
                seen.insert(refusal.number());
                assert_eq!(cache, before);
            }
            let tables = cache.encode();
            assert!(sound(&settings, &tables));
            assert_eq!(Cache::decode(&settings, &tables), cache);
        }
    }
    assert_eq!(seen, (4..=12).collect());
}
