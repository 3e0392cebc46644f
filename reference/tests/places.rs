//! The queue places that an access needs (document 02, L2): as many as it will queue.

use reference::choices;
use reference::model::{Access, Answer, Cache, Call, Event, Outcome, Queued, Refusal, Settings};
use reference::random::Random;
use reference::tables::sound_cache;
use std::collections::BTreeSet;

/// One set of two ways, P 0, two tickets an entry.
fn cache(entries: u32, places: u32, calls: &[Call]) -> Cache {
    let mut cache = Cache::fresh(Settings::new([1, 2, 0, entries, 2, places]));
    for call in calls {
        cache.call(*call).expect("the calls before are accepted");
    }
    cache
}

fn read(address: u64) -> Call {
    Call::Access(Access::read(address, 7))
}

fn write(address: u64) -> Call {
    Call::Access(Access::write(address, 0xFF))
}

fn number(outcome: &Outcome) -> u8 {
    outcome.as_ref().map_or_else(|refusal| refusal.number(), |_| 0)
}

fn answer(outcome: &Outcome) -> Option<Answer> {
    match outcome.as_ref().ok()?.first()? {
        Event::Answer { answer, .. } => Some(*answer),
        _ => None,
    }
}

/// Fills the queue with write-backs until only so many places are free.
fn with_free(mut cache: Cache, free: usize) -> Cache {
    while (cache.settings.queue as usize) > cache.queue.len() + free {
        cache.queue.push_back(Queued::WriteBack { block: 1 << 40, masks: [1, 0, 0, 0] });
    }
    cache
}

/// The access is refused with 7 exactly where fewer places are free than `needed`.
fn needs(cache: &Cache, call: Call, needed: usize, answered: Answer) {
    let most = cache.settings.queue as usize - cache.queue.len();
    for free in 0..=most {
        let mut cache = with_free(cache.clone(), free);
        let before = cache.clone();
        let outcome = cache.call(call);
        if free < needed {
            assert_eq!(outcome, Err(Refusal::QueueFull), "{call:?} with {free} free");
            assert_eq!(cache, before);
        } else {
            assert_eq!(answer(&outcome), Some(answered), "{call:?} with {free} free");
            assert_eq!(cache.queue.len(), before.queue.len() + needed);
        }
    }
}

#[test]
fn case_14_becomes_hit_reserved() {
    let mut cache = cache(2, 2, &[]);
    let first = cache.call(read(0));
    let expected =
        [Event::Answer { answer: Answer::Miss, line: 1 }, Event::ReadQueued { address: 0 }];
    assert_eq!(first, Ok(expected.to_vec()));
    let again = cache.call(read(0));
    assert_eq!(again, Ok(vec![Event::Answer { answer: Answer::HitReserved, line: 1 }]));
}

#[test]
fn reads() {
    let filled = cache(4, 6, &[read(0), Call::Send, Call::Fill(0)]);
    needs(&filled, read(0), 0, Answer::Hit);
    needs(&filled, read(32), 1, Answer::SectorMiss);
    needs(&filled, read(128), 1, Answer::Miss);
    let waiting = cache(4, 6, &[read(0)]);
    needs(&waiting, read(0), 0, Answer::HitReserved);
    // A partly written sector is fetched; its line stays, so nothing is written back.
    let written = cache(4, 6, &[write(0)]);
    needs(&written, read(0), 1, Answer::SectorMiss);
}

#[test]
fn writes() {
    let filled = cache(4, 6, &[read(0), Call::Send, Call::Fill(0)]);
    needs(&filled, write(0), 0, Answer::Hit);
    needs(&filled, write(32), 0, Answer::SectorMiss);
    needs(&filled, write(128), 0, Answer::Miss);
    let waiting = cache(4, 6, &[read(0)]);
    needs(&waiting, write(0), 0, Answer::HitReserved);
    // A sector miss in a dirty line throws nothing out.
    let dirty = cache(4, 6, &[write(0)]);
    needs(&dirty, write(32), 0, Answer::SectorMiss);
}

#[test]
fn victims() {
    let dirty = cache(4, 6, &[write(0), write(128)]);
    needs(&dirty, read(256), 2, Answer::Miss);
    needs(&dirty, write(256), 1, Answer::Miss);
    let clean = [read(0), Call::Send, Call::Fill(0), read(128), Call::Send, Call::Fill(128)];
    let clean = cache(4, 6, &clean);
    needs(&clean, read(256), 1, Answer::Miss);
    needs(&clean, write(256), 0, Answer::Miss);
    // Only the victim counts: way 0 is clean and earlier than the dirty way 1.
    let mixed = [write(0), read(128), Call::Send, Call::Fill(128), Call::Tick(1), write(0)];
    let mixed = cache(4, 6, &mixed);
    needs(&mixed, read(256), 1, Answer::Miss);
    needs(&mixed, write(256), 0, Answer::Miss);
}

#[test]
fn the_place_of_7_in_the_order() {
    // A full queue and W tickets: nothing is queued, so 8.
    let mut full = with_free(cache(4, 3, &[read(0), read(0)]), 0);
    assert_eq!(number(&full.call(read(0))), 8);
    // A full queue and M entries: 7 before 9; with one place free it is 9.
    let mut full = with_free(cache(1, 3, &[read(0)]), 0);
    assert_eq!(number(&full.call(read(32))), 7);
    let mut free = with_free(cache(1, 3, &[read(0)]), 1);
    assert_eq!(number(&free.call(read(32))), 9);
    // A dirty victim, one place free and M entries in use: still 7.
    let mut one = with_free(cache(1, 3, &[write(128), read(0)]), 1);
    assert_eq!(number(&one.call(read(256))), 7);
    // A busy set and a full queue: 5.
    let mut busy = with_free(cache(4, 3, &[read(0), read(128)]), 0);
    assert_eq!(number(&busy.call(read(256))), 5);
    // A full queue stops no malformed access from being one.
    assert_eq!(number(&busy.call(read(257))), 4);
}

/// On sound tables: an accepted access had the places that it took, and one refused with 7 is
/// accepted, or refused for its tickets or entries, in a longer queue, where it takes more
/// places than were free.
#[test]
fn any_access_needs_what_it_queues() {
    let mut met = BTreeSet::new();
    for case in 0..20_000 {
        let mut random = Random::for_case(2, case);
        let settings = choices::tight_settings(&mut random);
        let cache = sound_cache(&mut random, &settings);
        let call = Call::Access(choices::well_formed_access(&mut random, &cache));
        let mut after = cache.clone();
        let outcome = after.call(call);
        let free = settings.queue as usize - cache.queue.len();
        match number(&outcome) {
            0 => assert!(after.queue.len() <= settings.queue as usize),
            7 => {
                let mut longer = cache.clone();
                longer.settings.queue += 2;
                let other = longer.call(call);
                assert!(matches!(number(&other), 0 | 9), "{other:?}");
                assert!(other.is_err() || longer.queue.len() - cache.queue.len() > free);
            }
            _ => assert_eq!(after, cache),
        }
        met.insert((number(&outcome), free.min(2)));
    }
    for expected in [(0, 0), (0, 1), (0, 2), (7, 0), (7, 1), (8, 0), (9, 1)] {
        assert!(met.contains(&expected), "{expected:?} was not met");
    }
    assert!(!met.contains(&(7, 2)), "two places are always enough");
}
