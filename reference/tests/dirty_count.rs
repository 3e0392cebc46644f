//! The stored count of dirty lines (document 02, L3): where it stands, that a wrong one is refused
//! with 3, and a count kept call by call beside the one that is taken from the lines.

use reference::choices;
use reference::model::{block_of, check, sector_index, Access, Answer, Cache, Call, Event, Layout};
use reference::model::{Line, Outcome, Place, Refusal, Settings, Status, Tables};
use reference::random::Random;
use reference::tables::{sound_cache, sound_tables};
use std::collections::BTreeMap;

const USUAL: Settings = Settings::new([1, 2, 50, 2, 2, 4]);

fn stored(cache: &Cache) -> u64 {
    cache.encode().get(Layout::of(&cache.settings).dirty_count())
}

#[test]
fn it_stands_behind_the_masks_of_the_queue() {
    let tables = Tables::fresh(&USUAL);
    assert_eq!(Layout::of(&USUAL).dirty_count(), Place::Word(31));
    let mut cache = Cache::fresh(USUAL);
    cache.access(Access::write(0, 1)).expect("accepted");
    assert_eq!(cache.encode().words[31], 1);
    assert_eq!(tables.words[31], 0);
}

#[test]
fn a_wrong_count_is_refused_with_3() {
    for case in 0..200 {
        let mut random = Random::for_case(21, case);
        let settings = choices::tight_settings(&mut random);
        let mut tables = sound_tables(&mut random, &settings);
        let place = Layout::of(&settings).dirty_count();
        let true_count = tables.get(place);
        for count in [0, 1, 2, 3, settings.lines() as u64 + 1, u64::from(u32::MAX)] {
            tables.set(place, count);
            let expected = if count == true_count { Ok(()) } else { Err(Refusal::NotSound) };
            assert_eq!(check(&settings, &tables), expected);
        }
    }
}

/// By hand: the count after each call, from fresh tables.
#[test]
fn the_count_after_each_call() {
    let mut cache = Cache::fresh(Settings::new([2, 1, 0, 4, 2, 8]));
    let steps = [
        // A write makes line 0 dirty; a second sector of it counts no more.
        (Call::Access(Access::write(0, 0xFF)), 1),
        (Call::Access(Access::write(32, 0xFF)), 1),
        // The first sector is fetched, the second still dirty; then that one too.
        (Call::Access(Access::read(0, 1)), 1),
        (Call::Access(Access::read(32, 1)), 0),
        // A write to a RESERVED sector does not count.
        (Call::Access(Access::write(32, 0xF00)), 0),
        (Call::Send, 0),
        (Call::Send, 0),
        // Fills of sectors with masks: the first makes the line dirty.
        (Call::Fill(32), 1),
        (Call::Fill(0), 1),
        // A dirty victim goes and the write makes its line dirty again.
        (Call::Access(Access::write(256, 1)), 1),
        // The other set's line.
        (Call::Access(Access::write(128, 1)), 2),
        // A dirty victim goes for a read.
        (Call::Access(Access::read(512, 1)), 1),
        (Call::Tick(5), 1),
    ];
    for (number, (call, count)) in steps.into_iter().enumerate() {
        cache.call(call).expect("accepted");
        assert_eq!(stored(&cache), count, "after step {number}");
    }
}

fn answer_and_line(outcome: &Outcome) -> Option<(Answer, usize)> {
    match outcome.as_ref().ok()?.first()? {
        Event::Answer { answer, line } => Some((*answer, usize::from(*line))),
        _ => None,
    }
}

fn modified(line: &Line) -> usize {
    line.sectors.iter().filter(|sector| sector.status == Status::Modified).count()
}

/// What an accepted access adds to the count, told from its own line before it alone.
fn access_adds(access: &Access, answer: Answer, line: &Line) -> i64 {
    let sector = &line.sectors[sector_index(access.address)];
    let was_dirty = modified(line) > 0;
    match (access.is_write, answer) {
        (true, Answer::HitReserved) => 0,
        // A dirty victim goes for one dirty line that comes.
        (true, _) => i64::from(!was_dirty),
        (false, Answer::Miss) => -i64::from(was_dirty),
        (false, Answer::SectorMiss) => {
            -i64::from(sector.status == Status::Modified && modified(line) == 1)
        }
        (false, _) => 0,
    }
}

fn fill_adds(cache: &Cache, address: u64) -> i64 {
    let number = cache.matching_line(block_of(address)).expect("it was sent");
    let line = &cache.lines[number];
    i64::from(line.sectors[sector_index(address)].mask != 0 && modified(line) == 0)
}

/// What a call adds, told from the cache before it and its outcome.
fn adds(before: &Cache, call: &Call, outcome: &Outcome) -> i64 {
    match (call, outcome) {
        (_, Err(_)) | (Call::Send | Call::Tick(_), _) => 0,
        (Call::Fill(address), Ok(_)) => fill_adds(before, *address),
        (Call::Access(access), Ok(_)) => {
            let (answer, line) = answer_and_line(outcome).expect("an access answers");
            access_adds(access, answer, &before.lines[line])
        }
    }
}

/// The count kept by additions is the stored one after every call, from fresh and from built tables.
#[test]
fn a_count_kept_call_by_call_agrees() {
    let mut changes: BTreeMap<i64, usize> = BTreeMap::new();
    for case in 0..1500 {
        let mut random = Random::for_case(22, case);
        let settings = choices::good_settings(&mut random);
        let mut cache = match random.percent(50) {
            true => Cache::fresh(settings),
            false => sound_cache(&mut random, &settings),
        };
        let mut kept = stored(&cache) as i64;
        for _ in 0..60 {
            let before = cache.clone();
            let call = choices::any_call(&mut random, &cache);
            let outcome = cache.call(call);
            let change = adds(&before, &call, &outcome);
            kept += change;
            *changes.entry(change).or_default() += 1;
            assert_eq!(kept, stored(&cache) as i64, "after {call:x?}");
        }
    }
    assert!(changes[&1] > 1000 && changes[&-1] > 1000, "{changes:?}");
}
