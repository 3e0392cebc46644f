//! Tree replacement (document 02, L9): the way that a tree names, what turns it and what does not,
//! condition 29 of soundness, and rule byte 2 in settings and streams.

use reference::choices;
use reference::model::{block_of, broken, call_on, check, chosen, lengths_for, node_bits, turned};
use reference::model::{Access, Answer, Cache, Call, Event, Layout, Outcome, Place, Refusal};
use reference::model::{Settings, Status, Tables, RULE_FIFO, RULE_LRU, RULE_TREE};
use reference::random::Random;
use reference::runner::{self, call_record, ruled_record, settings_record, Stopped};
use reference::tables::sound_cache;
use std::collections::BTreeMap;

/// One set of four ways, P 0.
const FOUR: Settings = Settings::new([1, 4, 0, 8, 2, 16]).with_rule(RULE_TREE);

fn read(address: u64) -> Call {
    Call::Access(Access::read(address, 7))
}

fn write(address: u64) -> Call {
    Call::Access(Access::write(address, 0xFF))
}

fn filled(addresses: &[u64]) -> Vec<Call> {
    addresses.iter().flat_map(|&a| [read(a), Call::Send, Call::Fill(a)]).collect()
}

fn after(settings: Settings, calls: &[Call]) -> Cache {
    let mut cache = Cache::fresh(settings);
    for call in calls {
        cache.call(*call).expect("accepted");
    }
    cache
}

fn answer(outcome: &Outcome) -> Option<(Answer, usize)> {
    match outcome.as_ref().ok()?.first()? {
        Event::Answer { answer, line } => Some((*answer, usize::from(*line))),
        _ => None,
    }
}

#[test]
fn four_ways_by_hand() {
    let mut cache = Cache::fresh(FOUR);
    // Wholly invalid ways go first, the highest before the others, and turn the tree too.
    for (address, line, tree) in [(0, 3, 0), (128, 2, 4), (256, 1, 5), (384, 0, 7)] {
        assert_eq!(answer(&cache.call(read(address))), Some((Answer::Miss, line)));
        assert_eq!(cache.trees, [tree]);
        for call in [Call::Send, Call::Fill(address)] {
            cache.call(call).expect("accepted");
        }
        assert_eq!(cache.trees, [tree]);
    }
    let full = cache.clone();
    assert_eq!(answer(&cache.call(read(512))), Some((Answer::Miss, 3)));
    assert_eq!(cache.trees, [2]);

    // Ways 2 and 3 are RESERVED: the half that the top names has no candidate.
    let mut busy = full;
    for address in [32, 160, 256, 384] {
        busy.access(Access::read(address, 1)).expect("a sector of a live line");
    }
    assert_eq!([2, 3].map(|line| busy.lines[line].has(Status::Reserved)), [true; 2]);
    assert_eq!(busy.trees, [7]);
    assert_eq!(answer(&busy.call(read(512))), Some((Answer::Miss, 1)));
    assert_eq!(busy.trees, [5]);
}

#[test]
fn each_answer_turns_the_path() {
    let full = after(FOUR, &filled(&[0, 128, 256, 384]));
    let steps = [
        // A HIT of way 3, by a read and by a write.
        (read(0), Answer::Hit, 2),
        (write(0), Answer::Hit, 2),
        // A SECTOR_MISS of way 2, then a HIT_RESERVED of it.
        (read(160), Answer::SectorMiss, 6),
        (read(160), Answer::HitReserved, 6),
        (write(160), Answer::HitReserved, 6),
        // Way 1 by a write to another sector, then way 0.
        (write(288), Answer::SectorMiss, 5),
        (read(384), Answer::Hit, 7),
    ];
    let mut cache = full;
    for (call, answered, tree) in steps {
        let outcome = cache.call(call);
        assert_eq!(answer(&outcome).map(|(answer, _)| answer), Some(answered), "{call:?}");
        assert_eq!(cache.trees, [tree], "after {call:?}");
    }
}

#[test]
fn a_refusal_a_send_a_fill_and_a_tick_turn_nothing() {
    let one_entry = Settings { misses: 1, ..FOUR };
    let mut cache = after(one_entry, &filled(&[0, 128, 256, 384]));
    cache.call(read(32)).expect("accepted");
    cache.trees = vec![5];
    let quiet = [
        (read(64), Err(9)),
        (read(512), Err(9)),
        (read(1), Err(4)),
        (Call::Fill(32), Err(10)),
        (Call::Send, Ok(())),
        (Call::Send, Err(12)),
        (Call::Fill(32), Ok(())),
        (Call::Tick(9), Ok(())),
        (Call::Tick(8), Err(11)),
    ];
    for (call, expected) in quiet {
        let outcome = cache.call(call).map(|_| ()).map_err(Refusal::number);
        assert_eq!(outcome, expected, "{call:?}");
        assert_eq!(cache.trees, [5], "after {call:?}");
    }
}

#[test]
fn one_way_has_no_node() {
    let one = Settings::new([2, 1, 0, 2, 2, 4]).with_rule(RULE_TREE);
    let mut cache = Cache::fresh(one);
    for (address, line) in [(0, 0), (128, 1), (256, 0), (384, 1)] {
        assert_eq!(answer(&cache.call(write(address))), Some((Answer::Miss, line)));
        assert_eq!(cache.trees, [0, 0]);
    }
    let layout = Layout::of(&one);
    for tree in [1, 2, 1 << 31] {
        let mut tables = cache.encode();
        tables.set(layout.tree(1), tree);
        assert_eq!(broken(&one, &tables), [29]);
    }
}

/// Each set has a tree of its own, behind the taken cycles.
#[test]
fn a_tree_for_each_set() {
    let settings = Settings::new([2, 4, 0, 2, 2, 4]).with_rule(RULE_TREE);
    let layout = Layout::of(&settings);
    let cache = after(settings, &[write(128), write(384), write(640)]);
    assert_eq!(cache.trees, [0, 5]);
    let tables = cache.encode();
    let words = tables.words.len();
    assert_eq!(tables.words[words - 2..], [0, 5]);
    assert_eq!([layout.tree(0), layout.tree(1)], [words - 2, words - 1].map(Place::Word));
    assert_eq!(layout.taken(7), Place::Word(words - 3));
    assert_eq!(Cache::decode(&settings, &tables), cache);
    let mut shorter = tables.clone();
    shorter.words.pop();
    assert_eq!(check(&settings, &shorter), Err(Refusal::OtherLength));
}

/// Last access and taken cycle are kept under this rule too.
#[test]
fn the_cycles_are_kept_beside_the_tree() {
    let cache = after(FOUR, &[Call::Tick(3), write(0), Call::Tick(5), write(0)]);
    assert_eq!((cache.lines[3].taken, cache.lines[3].cycle), (3, 5));
}

#[test]
fn condition_29() {
    for (rule, ways) in [(RULE_TREE, 2), (RULE_TREE, 16), (RULE_LRU, 4), (RULE_FIFO, 3)] {
        let settings = Settings { ways, rule, ..FOUR };
        let layout = Layout::of(&settings);
        let in_use = if rule == RULE_TREE { ways - 1 } else { 0 };
        for bit in 0..32 {
            let mut tables = Tables::fresh(&settings);
            tables.set(layout.tree(0), 1 << bit);
            let sound = bit < in_use;
            assert_eq!(broken(&settings, &tables), if sound { vec![] } else { vec![29] });
            let outcome = call_on(&settings, &mut tables, Call::Tick(0)).map(|_| ());
            assert_eq!(outcome, if sound { Ok(()) } else { Err(Refusal::NotSound) });
        }
    }
}

#[test]
fn a_tree_asks_for_ways_that_are_a_power_of_two() {
    for ways in 1..=16 {
        let settings = Settings { ways, ..FOUR };
        let halved = [1, 2, 4, 8, 16].contains(&ways);
        assert_eq!(settings.in_range(), halved);
        assert_eq!(lengths_for(&settings) == [0; 3], !halved);
        for rule in [RULE_LRU, RULE_FIFO] {
            assert!(settings.with_rule(rule).in_range());
        }
        assert!(!settings.with_rule(RULE_TREE + 1).in_range());
    }
}

fn stop(stream: &[u8], tables: &mut Tables) -> Stopped {
    runner::run(stream, tables, &mut [0; 200])
}

#[test]
fn rule_byte_2_in_streams() {
    let record = ruled_record(&FOUR);
    assert_eq!(record, [6, 1, 0, 4, 0, 8, 2, 16, 2]);
    assert_eq!(settings_record(&FOUR), record);
    let stream = [record, call_record(&write(0)), call_record(&write(128))].concat();
    let mut tables = runner::tables_for(&stream);
    assert_eq!(stop(&stream, &mut tables).number, 0);
    assert_eq!(tables, after(FOUR, &[write(0), write(128)]).encode());
    assert_eq!(tables.get(Layout::of(&FOUR).tree(0)), 4);

    // Refused before the lengths are looked at, and the tables stay.
    for settings in [Settings { ways: 3, ..FOUR }, FOUR.with_rule(3)] {
        let mut lent = Tables::zero(&FOUR);
        let stopped = stop(&ruled_record(&settings), &mut lent);
        assert_eq!(stopped, Stopped { number: 1, consumed: 0, written: 0 });
        assert_eq!(lent, Tables::zero(&FOUR));
    }
}

/// By the leaves: way w is leaf ways + w, the node above n is n / 2, and an odd n is the upper one.
fn turned_by_leaves(tree: u32, ways: usize, way: usize) -> u32 {
    let mut tree = tree;
    let mut node = ways + way;
    while node > 1 {
        let bit = 1 << (node / 2 - 1);
        tree = if node % 2 == 0 { tree | bit } else { tree & !bit };
        node /= 2;
    }
    tree
}

/// How far a way lies from the tree's wishes: the nodes on its path that name the other half, the
/// top one weighing most.
fn against(tree: u32, ways: usize, way: usize) -> u32 {
    let mut node = ways + way;
    let (mut weight, mut sum) = (1, 0);
    while node > 1 {
        let named_upper = tree >> (node / 2 - 1) & 1 == 1;
        sum += if named_upper == (node % 2 == 1) { 0 } else { weight };
        weight *= 2;
        node /= 2;
    }
    sum
}

/// Every tree and set of candidates of up to eight ways, and random ones of sixteen.
#[test]
fn the_choice_and_the_turn_by_another_way() {
    let mut random = Random::new(41);
    for ways in [1usize, 2, 4, 8, 16] {
        let trees = 1u64 << (ways - 1);
        let cases = if ways < 16 { trees << ways } else { 40_000 };
        for case in 0..cases {
            let case = if ways < 16 { case } else { random.draw() };
            let tree = (case % trees) as u32;
            let marks = (case / trees) as usize;
            let candidates: Vec<bool> = (0..ways).map(|way| marks >> way & 1 == 1).collect();
            let best =
                (0..ways).filter(|&way| candidates[way]).min_by_key(|&w| against(tree, ways, w));
            assert_eq!(chosen(tree, &candidates), best, "{ways} ways, tree {tree:b}");
            let way = marks % ways;
            let after = turned(tree, ways, way);
            assert_eq!(after, turned_by_leaves(tree, ways, way));
            assert_eq!(after & !node_bits(ways), 0);
            assert_eq!(against(after, ways, way), ways as u32 - 1);
        }
    }
}

/// The victim of a MISS from the cache before it.
fn victim_by_hand(cache: &Cache, address: u64) -> Option<usize> {
    let ways = cache.settings.ways as usize;
    let set = cache.settings.set_of(address);
    let enough = 100 * cache.dirty_lines() >= cache.settings.dirty as usize * cache.lines.len();
    let line = |way: usize| &cache.lines[set * ways + way];
    let candidate = |way: &usize| {
        let line = line(*way);
        !line.has(Status::Reserved) && (!line.has(Status::Modified) || enough)
    };
    let invalid = (0..ways).rev().find(|&way| line(way).wholly_invalid());
    let named =
        || (0..ways).filter(candidate).min_by_key(|&way| against(cache.trees[set], ways, way));
    invalid.or_else(named).map(|way| set * ways + way)
}

/// On built and walked tables: the victim, and every tree after every call.
#[test]
fn victims_and_trees_on_random_tables() {
    let (mut taken, mut answers) = (0, BTreeMap::new());
    for case in 0..4000 {
        let mut random = Random::for_case(42, case);
        let settings = choices::good_settings(&mut random);
        let ways = settings.ways as usize;
        let mut cache = match random.percent(50) {
            true => Cache::fresh(settings),
            false => sound_cache(&mut random, &settings),
        };
        for _ in 0..50 {
            let before = cache.clone();
            let call = choices::any_call(&mut random, &cache);
            let mut expected = before.trees.clone();
            let found = (call, answer(&cache.call(call)));
            if let (Call::Access(access), Some((answer, line))) = found {
                if settings.rule == RULE_TREE {
                    let tree = &mut expected[line / ways];
                    *tree = turned_by_leaves(*tree, ways, line % ways);
                    *answers.entry(answer as u8).or_insert(0) += 1;
                    if answer == Answer::Miss {
                        assert_eq!(before.matching_line(block_of(access.address)), None);
                        assert_eq!(victim_by_hand(&before, access.address), Some(line));
                        taken += usize::from(!before.lines[line].wholly_invalid());
                    }
                }
            }
            assert_eq!(cache.trees, expected, "after {call:x?}");
            assert!(settings.rule == RULE_TREE || cache.trees.iter().all(|&tree| tree == 0));
        }
    }
    assert!(taken > 2000 && answers.values().all(|&count| count > 500), "{taken} {answers:?}");
}
