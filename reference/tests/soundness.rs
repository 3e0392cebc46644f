//! The conditions of soundness: each can be broken, and alone wherever that is possible.

use reference::choices;
use reference::model::{broken, check, sound, Access, Cache, Layout, Place, Refusal, Settings};
use reference::model::{Tables, CONDITIONS, RULE_FIFO, RULE_LRU, RULE_TREE};
use reference::random::Random;
use reference::tables::{damage_any, damage_many, damage_one, sound_tables};
use std::collections::BTreeSet;

#[test]
fn fresh_tables_are_sound() {
    for case in 0..100 {
        let settings = choices::good_settings(&mut Random::for_case(3, case));
        assert_eq!(broken(&settings, &Cache::fresh(settings).encode()), []);
    }
}

#[test]
fn built_tables_survive_decoding() {
    for case in 0..2000 {
        let mut random = Random::for_case(4, case);
        let settings = choices::good_settings(&mut random);
        let tables = sound_tables(&mut random, &settings);
        assert_eq!(Cache::decode(&settings, &tables).encode(), tables);
    }
}

/// Calls on tables that no run reaches keep them sound too.
#[test]
fn calls_on_built_tables_keep_them_sound() {
    for case in 0..1000 {
        let mut random = Random::for_case(5, case);
        let settings = choices::good_settings(&mut random);
        let mut cache = Cache::decode(&settings, &sound_tables(&mut random, &settings));
        for _ in 0..30 {
            let call = choices::any_call(&mut random, &cache);
            let _ = cache.call(call);
            assert_eq!(broken(&settings, &cache.encode()), []);
        }
    }
}

/// How often damage broke a condition alone, and how often together with others.
fn tally(condition: usize) -> [(usize, usize); 2] {
    let mut counts = [(0, 0); 2];
    for case in 0..150 {
        let mut random = Random::for_case(condition as u64, case);
        let settings = choices::tight_settings(&mut random);
        let tables = sound_tables(&mut random, &settings);
        for (count, damage) in counts.iter_mut().zip([damage_one, damage_many]) {
            if let Some(damaged) = damage(&mut random, &settings, &tables, condition) {
                assert!(damaged.broken.contains(&condition));
                if damaged.broken == [condition] {
                    count.0 += 1;
                } else {
                    count.1 += 1;
                }
            }
        }
    }
    counts
}

#[test]
fn every_condition_breaks() {
    // A gap in a list and two entries with one address cannot come from one number.
    let never_by_one_number = [12, 18, 20];
    for condition in 1..=CONDITIONS.len() {
        let [one, many] = tally(condition);
        println!("{condition} by one number {one:?}, by several {many:?}");
        assert!(one.0 + one.1 > 10, "condition {condition} is hardly damaged");
        assert!(one.0 + many.0 > 10, "condition {condition} is never broken alone");
        assert_eq!(one.0 == 0, never_by_one_number.contains(&condition));
    }
}

#[test]
fn every_place_has_a_name_of_its_own() {
    let layout = Layout::of(&Settings::new([2, 3, 50, 4, 5, 6]));
    let [longs, words, marks] = layout.lengths();
    let places = (0..longs)
        .map(Place::Long)
        .chain((0..words).map(Place::Word))
        .chain((0..marks).map(Place::Mark));
    let names: BTreeSet<String> = places.map(|place| layout.describe(place)).collect();
    assert_eq!(names.len(), longs + words + marks);
    assert_eq!(layout.describe(layout.ticket(3, 4)), "ticket 4 of miss entry 3");
    assert_eq!(layout.describe(layout.queue_mask(5, 2)), "mask 2 of queue place 5");
    assert_eq!(layout.describe(layout.readable(1, 3)), "readable mark of line 1 sector 3");
    assert_eq!(layout.describe(layout.dirty_count()), "count of dirty lines");
    assert_eq!(layout.describe(layout.taken(5)), "taken cycle of line 5");
    assert_eq!(layout.describe(layout.tree(1)), "tree of set 1");
    assert_eq!(layout.taken(5), Place::Word(words - 3));
    assert_eq!(layout.tree(1), Place::Word(words - 1));
}

#[test]
fn any_damage_changes_one_number() {
    let mut still_sound = 0;
    for case in 0..1000 {
        let mut random = Random::for_case(6, case);
        let settings = choices::tight_settings(&mut random);
        let tables = sound_tables(&mut random, &settings);
        let damaged = damage_any(&mut random, &settings, &tables);
        assert_ne!(damaged.tables, tables);
        assert_eq!(damaged.broken.is_empty(), sound(&settings, &damaged.tables));
        still_sound += usize::from(damaged.broken.is_empty());
    }
    assert!((1..1000).contains(&still_sound));
}

/// Every rule has tables of the same lengths; only soundness tells which they were kept under.
#[test]
fn another_rule_is_judged_by_soundness() {
    let settings = Settings::new([1, 4, 50, 1, 1, 2]);
    for (kept, judged, expected) in [
        (RULE_TREE, RULE_TREE, vec![]),
        (RULE_TREE, RULE_LRU, vec![29]),
        (RULE_TREE, RULE_FIFO, vec![29]),
        (RULE_LRU, RULE_TREE, vec![]),
        (RULE_FIFO, RULE_LRU, vec![]),
    ] {
        let mut cache = Cache::fresh(settings.with_rule(kept));
        for block in [0, 128] {
            cache.access(Access::write(block, 1)).expect("accepted");
        }
        assert_eq!(broken(&settings.with_rule(judged), &cache.encode()), expected);
    }
}

/// Settings with other sets and as many lines have tables of other lengths.
#[test]
fn swapped_sets_and_ways_are_told_by_the_lengths() {
    let one = Settings::new([2, 1, 50, 1, 1, 2]);
    let other = Settings::new([1, 2, 50, 1, 1, 2]);
    assert_eq!(check(&other, &Tables::fresh(&one)), Err(Refusal::OtherLength));
    assert_eq!(check(&one, &Tables::fresh(&other)), Err(Refusal::OtherLength));
}
