//! Document 02, L7, on random histories of the reference itself, and on short ones by hand.

use reference::choices;
use reference::model::{outcome_bytes, Access, Cache, Call, Settings};
use reference::owed::Owed;
use reference::random::Random;
use reference::tables::sound_cache;
use std::collections::BTreeSet;

#[test]
fn every_dirty_byte_is_billed_once() {
    let (mut covered, mut carried) = (0, 0);
    let mut rules = BTreeSet::new();
    for case in 0..600 {
        let mut random = Random::for_case(11, case);
        let settings = choices::tight_settings(&mut random);
        let mut cache = match random.percent(50) {
            true => Cache::fresh(settings),
            false => sound_cache(&mut random, &settings),
        };
        let mut owed = Owed::before(&cache);
        for _ in 0..100 {
            let call = choices::any_call(&mut random, &cache);
            let log = outcome_bytes(&cache.call(call));
            owed.call(&call, &log).expect("only what is owed is carried");
            assert_eq!(owed.compare(&cache), Ok(()));
        }
        rules.insert(settings.rule);
        covered += owed.covered;
        carried += owed.carried;
    }
    assert!(covered > 100_000 && carried > 100_000, "{covered} covered, {carried} carried");
    assert_eq!(rules, [0, 1, 2].into());
}

/// One set of one way: the second write takes the first one's line.
fn two_writes() -> (Cache, Owed, Vec<u8>) {
    let mut cache = Cache::fresh(Settings::new([1, 1, 0, 1, 1, 2]));
    let mut owed = Owed::before(&cache);
    let first = Call::Access(Access::write(0, 0xFF));
    let log = outcome_bytes(&cache.call(first));
    owed.call(&first, &log).expect("nothing is carried");
    let log = outcome_bytes(&cache.call(Call::Access(Access::write(128, 1))));
    (cache, owed, log)
}

#[test]
fn a_write_back_carries_only_what_is_owed() {
    let (cache, mut owed, log) = two_writes();
    let second = Call::Access(Access::write(128, 1));
    owed.call(&second, &log).expect("eight bytes are owed");
    assert_eq!((owed.covered, owed.carried), (9, 8));
    assert_eq!(owed.compare(&cache), Ok(()));
    assert!(owed.call(&second, &log).is_err(), "carried twice");
}

#[test]
fn other_masks_told_than_queued_are_found() {
    let (cache, mut owed, mut log) = two_writes();
    let masks = log.len() - 16;
    log[masks] = 0x7F;
    owed.call(&Call::Access(Access::write(128, 1)), &log).expect("seven of the eight bytes");
    assert!(owed.compare(&cache).is_err());
}
