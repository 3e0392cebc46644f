//! The rounds of demand 3 on random sound tables: the bound, and the struck rounds beside them.

use reference::choices;
use reference::model::{Access, Cache, Settings};
use reference::random::Random;
use reference::rounds::{bound, bound_broken, first_apart, first_run, struck_run, ROUNDS_AFTER};
use reference::tables::sound_cache;

#[test]
fn rounds_end_in_time_and_struck_rounds_agree() {
    // By rule.
    let (mut accepted, mut held) = ([0; 3], [0; 3]);
    for case in 0..8000 {
        let mut random = Random::for_case(7, case);
        let settings = choices::good_settings(&mut random);
        let cache = sound_cache(&mut random, &settings);
        let access = choices::well_formed_access(&mut random, &cache);
        let bound = bound(cache.queue.len(), cache.misses.len());
        let first = first_run(&mut cache.clone(), access, bound + ROUNDS_AFTER);
        assert_eq!(bound_broken(&first, bound), None);
        let struck = struck_run(&mut cache.clone(), access, &first.flags());
        assert_eq!(first_apart(&first, &struck), None);
        if first.accepted() {
            accepted[settings.rule as usize] += 1;
        } else {
            held[settings.rule as usize] += 1;
        }
    }
    let enough = accepted.iter().all(|&n| n > 400) && held.iter().all(|&n| n > 20);
    assert!(enough, "{accepted:?} accepted, {held:?} held");
}

/// A set held in one round can be free in the next, when a fill makes another line dirty.
#[test]
fn held_before_the_bound_is_not_final() {
    let mut cache = Cache::fresh(Settings::new([2, 1, 60, 2, 2, 4]));
    for access in [
        Access::write(128, 0xFF),
        Access::read(160, 1),
        Access::read(128, 2),
        Access::write(0, 0xFF),
    ] {
        cache.access(access).expect("accepted");
    }
    let first = first_run(&mut cache, Access::write(256, 1), 7);
    assert_eq!(first.offers, [Some(Err(6)), Some(Ok(()))]);
}

#[test]
fn struck_rounds_offer_only_where_they_are_told() {
    let mut cache = Cache::fresh(Settings::new([1, 1, 0, 1, 1, 2]));
    cache.access(Access::read(0, 1)).expect("accepted");
    let first = first_run(&mut cache.clone(), Access::read(32, 2), 5);
    let struck = struck_run(&mut cache.clone(), Access::read(32, 2), &[false, false]);
    assert_eq!(first.offers, [Some(Ok(()))]);
    assert_eq!(struck.offers, [None, None]);
    assert_eq!(first_apart(&first, &struck), Some(1));
}
