//! Oldest line first (document 02, L1): what the taken cycle is and when it moves, the victim under
//! both rules, conditions 27 and 28 of soundness, and settings records of kind 6.

use reference::choices;
use reference::model::{broken, call_on, check, Access, Answer, Cache, Call, Event, Layout, Line};
use reference::model::{Outcome, Refusal, Settings, Status, Tables, RULE_FIFO, RULE_LRU};
use reference::random::Random;
use reference::runner::{self, call_record, ruled_record, settings_record, Stopped};
use reference::tables::sound_tables;
use std::collections::BTreeMap;

const USUAL: Settings = Settings::new([1, 2, 0, 4, 2, 8]);
const RULES: [u32; 2] = [RULE_LRU, RULE_FIFO];

fn read(address: u64) -> Call {
    Call::Access(Access::read(address, 7))
}

fn write(address: u64) -> Call {
    Call::Access(Access::write(address, 0xFF))
}

fn after(settings: Settings, calls: &[Call]) -> Cache {
    let mut cache = Cache::fresh(settings);
    for call in calls {
        cache.call(*call).expect("accepted");
    }
    cache
}

fn answer(outcome: &Outcome) -> Option<(Answer, usize)> {
    match outcome.as_ref().ok()?.first()? {
        Event::Answer { answer, line } => Some((*answer, usize::from(*line))),
        _ => None,
    }
}

/// Way 1 taken at cycle 1 and used at 9, way 0 taken at 2 and used at 2.
fn two_lines(rule: u32) -> Cache {
    let ticks_and_writes =
        [Call::Tick(1), write(0), Call::Tick(2), write(128), Call::Tick(9), write(0)];
    after(USUAL.with_rule(rule), &ticks_and_writes)
}

fn cycles(line: &Line) -> [u32; 2] {
    [line.taken, line.cycle]
}

#[test]
fn the_rule_chooses_the_cycle_that_is_compared() {
    for (rule, line) in [(RULE_LRU, 0), (RULE_FIFO, 1)] {
        let mut cache = two_lines(rule);
        assert_eq!([cycles(&cache.lines[0]), cycles(&cache.lines[1])], [[2, 2], [1, 9]]);
        cache.tick(10).expect("accepted");
        let outcome = cache.call(write(256));
        assert_eq!(answer(&outcome), Some((Answer::Miss, line)));
        assert_eq!(cycles(&cache.lines[line]), [10, 10]);
    }
}

/// The lowest way among equals; the highest of the wholly invalid ones before any other.
#[test]
fn ties_and_invalid_ways_are_as_before() {
    for rule in RULES {
        let settings = Settings::new([1, 4, 0, 4, 2, 8]).with_rule(rule);
        let mut cache = Cache::fresh(settings);
        for (number, line) in [3, 2, 1, 0, 0].into_iter().enumerate() {
            let outcome = cache.call(write(128 * number as u64));
            assert_eq!(answer(&outcome), Some((Answer::Miss, line)));
        }
    }
}

/// Lines that are no candidates are passed over under both rules.
#[test]
fn a_reserved_line_is_no_candidate() {
    let calls = [Call::Tick(1), read(0), Call::Tick(2), write(128), Call::Tick(3), write(256)];
    for rule in RULES {
        let cache = after(USUAL.with_rule(rule), &calls);
        assert_eq!(cache.lines.iter().map(|line| line.tag).collect::<Vec<_>>(), [256, 0]);
    }
}

#[test]
fn only_a_miss_moves_the_taken_cycle() {
    for rule in RULES {
        let mut cache = after(USUAL.with_rule(rule), &[Call::Tick(3), read(0)]);
        let steps = [
            (Call::Tick(4), None),
            (read(0), Some(Answer::HitReserved)),
            (Call::Tick(5), None),
            (read(32), Some(Answer::SectorMiss)),
            (Call::Tick(6), None),
            (write(64), Some(Answer::SectorMiss)),
            (write(0), Some(Answer::HitReserved)),
            (Call::Send, None),
            (Call::Tick(7), None),
            (Call::Fill(0), None),
            (write(0), Some(Answer::Hit)),
            (read(64), Some(Answer::SectorMiss)),
        ];
        for (call, answered) in steps {
            let outcome = cache.call(call);
            assert!(outcome.is_ok());
            assert_eq!(answer(&outcome).map(|(answer, _)| answer), answered);
            assert_eq!(cache.lines[1].taken, 3, "after {call:?}");
        }
        assert_eq!(cycles(&cache.lines[1]), [3, 7]);
    }
}

/// A MISS moves it, read or write, and a refused one does not.
#[test]
fn a_miss_moves_it_by_reads_and_writes_alike() {
    let one = Settings::new([1, 1, 0, 1, 1, 2]);
    for rule in RULES {
        for call in [read(128), write(128)] {
            let mut cache = after(one.with_rule(rule), &[Call::Tick(2), write(0), Call::Tick(5)]);
            assert_eq!(cache.lines[0].taken, 2);
            cache.call(call).expect("accepted");
            assert_eq!(cache.lines[0].taken, 5);
        }
        let mut cache = after(one.with_rule(rule), &[Call::Tick(2), read(0), Call::Tick(5)]);
        assert_eq!(cache.call(read(128)), Err(Refusal::SetBusy));
        assert_eq!(cache.lines[0].taken, 2);
    }
}

#[test]
fn it_stands_behind_the_dirty_count() {
    let settings = Settings::new([1, 2, 50, 2, 2, 4]);
    let layout = Layout::of(&settings);
    let tables = after(settings, &[Call::Tick(6), read(0)]).encode();
    assert_eq!(tables.words[32..34], [0, 6]);
    assert_eq!([0, 1].map(|line| tables.get(layout.taken(line))), [0, 6]);
    assert_eq!(Cache::decode(&settings, &tables).encode(), tables);
    let mut shorter = tables.clone();
    shorter.words.pop();
    assert_eq!(check(&settings, &shorter), Err(Refusal::OtherLength));
}

#[test]
fn conditions_27_and_28() {
    for rule in RULES {
        let settings = USUAL.with_rule(rule);
        let layout = Layout::of(&settings);
        let tables = after(settings, &[Call::Tick(4), write(0), Call::Tick(9)]).encode();
        let breaks = |line: usize, taken: u64| {
            let mut tables = tables.clone();
            tables.set(layout.taken(line), taken);
            let refused = call_on(&settings, &mut tables.clone(), Call::Send);
            let found = broken(&settings, &tables);
            assert_eq!(refused == Err(Refusal::NotSound), !found.is_empty());
            found
        };
        for taken in [0, 1, 4] {
            assert_eq!(breaks(1, taken), []);
        }
        // Also where the current cycle is later still.
        for taken in [5, 9, 10, u64::from(u32::MAX)] {
            assert_eq!(breaks(1, taken), [27]);
        }
        assert_eq!(breaks(0, 0), []);
        for taken in [1, 4, 9, u64::from(u32::MAX)] {
            assert_eq!(breaks(0, taken), [28]);
        }
    }
}

#[test]
fn settings_with_another_rule_are_refused_with_1() {
    for rule in [3, 6, 255, 256, 1 << 16, u32::MAX] {
        let settings = USUAL.with_rule(rule);
        assert_eq!(check(&settings, &Tables::fresh(&USUAL)), Err(Refusal::BadSettings));
        assert_eq!(reference::model::lengths_for(&settings), [0; 3]);
    }
}

#[test]
fn six_numbers_or_seven_are_settings() {
    let six = USUAL.six();
    assert_eq!(Settings::from_numbers(&six), USUAL);
    for rule in RULES {
        let seven = USUAL.with_rule(rule).seven();
        assert_eq!(Settings::from_numbers(&seven), USUAL.with_rule(rule));
    }
    let eight = [&six[..], &[0, 0]].concat();
    for length in [0, 1, 5, 8] {
        assert!(!Settings::from_numbers(&eight[..length]).in_range());
    }
}

fn stops(stream: &[u8], room: usize, number: u8, consumed: usize, written: usize) {
    let mut tables = Tables::zero(&USUAL);
    let mut events = vec![0xEE; room];
    let stopped = runner::run(stream, &mut tables, &mut events);
    assert_eq!(stopped, Stopped { number, consumed, written }, "stream {stream:02x?}");
    if consumed == 0 {
        assert_eq!(tables, Tables::zero(&USUAL));
    }
}

#[test]
fn kind_6_stands_where_kind_0_does() {
    let zero = settings_record(&USUAL);
    assert_eq!((zero[0], zero.len()), (0, 8));
    for rule in RULES {
        let six = ruled_record(&USUAL.with_rule(rule));
        assert_eq!(six, [&[6][..], &zero[1..], &[rule as u8]].concat());
        // It asks for no event room.
        stops(&six, 0, 0, 9, 0);
        stops(&[six.clone(), call_record(&read(0))].concat(), 64, 0, 22, 13);
        stops(&[six.clone(), vec![3]].concat(), 63, 16, 9, 0);
        for later in [&zero, &six] {
            stops(&[six.clone(), later.clone()].concat(), 0, 13, 9, 0);
            stops(&[zero.clone(), six.clone()].concat(), 0, 13, 8, 0);
        }
        for length in 1..9 {
            stops(&six[..length], 64, 15, 0, 0);
            stops(&[zero.clone(), six[..length].to_vec()].concat(), 0, 15, 8, 0);
        }
    }
    // Not first it stops before its settings are judged.
    stops(&[zero, vec![6; 9]].concat(), 64, 13, 8, 0);
}

#[test]
fn kind_6_with_settings_out_of_range_or_other_tables() {
    let good = ruled_record(&USUAL);
    for rule in 3..=255 {
        stops(&[&good[..8], &[rule]].concat(), 64, 1, 0, 0);
    }
    let mut three_sets = good.clone();
    three_sets[1] = 3;
    stops(&three_sets, 64, 1, 0, 0);
    stops(&ruled_record(&Settings { ways: 3, ..USUAL }), 64, 2, 0, 0);
    // Out of range comes before other lengths.
    stops(&ruled_record(&Settings { ways: 3, ..USUAL }.with_rule(255)), 64, 1, 0, 0);
}

/// Kind 0 and kind 6 with rule byte 0 run alike; rule byte 1 reaches the run.
#[test]
fn the_rule_byte_reaches_the_run() {
    let calls = [
        Call::Tick(1),
        write(0),
        Call::Tick(2),
        write(128),
        Call::Tick(9),
        write(0),
        Call::Tick(10),
        write(256),
    ];
    let records: Vec<u8> = calls.iter().flat_map(call_record).collect();
    let run = |settings: Vec<u8>| {
        let stream = [settings, records.clone()].concat();
        let (mut tables, mut room) = (runner::tables_for(&stream), vec![0; 400]);
        let stopped = runner::run(&stream, &mut tables, &mut room);
        assert_eq!(stopped.number, 0);
        room.truncate(stopped.written);
        (room, tables)
    };
    let plain = run(settings_record(&USUAL));
    assert_eq!(run(ruled_record(&USUAL)), plain);
    for rule in RULES {
        let cache = after(USUAL.with_rule(rule), &calls);
        assert_eq!(run(ruled_record(&USUAL.with_rule(rule))).1, cache.encode());
    }
    assert_ne!(run(ruled_record(&USUAL.with_rule(RULE_FIFO))), plain);
}

/// The victim of a MISS told from the cache before it, way by way, without the model's own choice.
fn victim_by_hand(cache: &Cache, address: u64) -> Option<usize> {
    let ways = cache.settings.ways as usize;
    let first = cache.settings.set_of(address) * ways;
    let dirty = cache.lines.iter().filter(|line| line.has(Status::Modified)).count();
    let enough = 100 * dirty >= cache.settings.dirty as usize * cache.lines.len();
    let mut best: Option<usize> = None;
    for number in first..first + ways {
        let line = &cache.lines[number];
        if line.has(Status::Reserved) || (line.has(Status::Modified) && !enough) {
            continue;
        }
        let key = |line: &Line| [line.cycle, line.taken][cache.settings.rule as usize];
        let better = match best.map(|best| &cache.lines[best]) {
            None => true,
            Some(_) if line.wholly_invalid() => true,
            Some(best) if best.wholly_invalid() => false,
            Some(best) => key(line) < key(best),
        };
        if better {
            best = Some(number);
        }
    }
    best
}

/// On built and walked tables under both rules: the victim, and the taken cycle of every line.
#[test]
fn victims_and_taken_cycles_on_random_tables() {
    let mut misses: BTreeMap<u32, usize> = BTreeMap::new();
    for case in 0..1500 {
        let mut random = Random::for_case(31, case);
        let settings = choices::good_settings(&mut random);
        let mut cache = match random.percent(50) {
            true => Cache::fresh(settings),
            false => Cache::decode(&settings, &sound_tables(&mut random, &settings)),
        };
        for _ in 0..40 {
            let before = cache.clone();
            let call = choices::any_call(&mut random, &cache);
            let taken = match (call, answer(&cache.call(call))) {
                (Call::Access(access), Some((Answer::Miss, line))) => {
                    if RULES.contains(&settings.rule) {
                        assert_eq!(victim_by_hand(&before, access.address), Some(line));
                    }
                    *misses.entry(settings.rule).or_default() += 1;
                    Some(line)
                }
                _ => None,
            };
            for (number, line) in cache.lines.iter().enumerate() {
                let moved =
                    if taken == Some(number) { cache.cycle } else { before.lines[number].taken };
                assert_eq!(line.taken, moved);
            }
        }
    }
    assert!(RULES.iter().all(|rule| misses[rule] > 2000), "{misses:?}");
}
