//! The second part: demand 3 by the exported calls. The rounds and the struck
//! rounds are run by the library, compared with each other after every number
//! of rounds, held against the bound, and compared with the model's rounds; then
//! the exported rounds, struck rounds and wait are held to what those rounds gave.

use crate::demand3::compare_runs;
use crate::exported::{make, Beside, EmptySlice, Exported};
use crate::trial::WAIT_ROOM;
use reference::choices;
use reference::model::{Access, Cache, Call, Layout, Settings, Tables};
use reference::random::Random;
use reference::rounds::{bound, bound_broken, first_apart, first_run, struck_run};
use reference::rounds::{Callable, Rounds, ROUNDS_AFTER};
use reference::tables::sound_cache;
use std::collections::BTreeMap;

/// Lent tables on which only the library works.
#[derive(Clone)]
struct Library {
    settings: Settings,
    /// The settings as they are lent.
    numbers: Vec<u32>,
    tables: Tables,
    /// Read and write by their own calls, not by access.
    thin: bool,
}

impl Library {
    /// The event bytes of an accepted call, or the number of a refusal; a call that writes
    /// where it may not gets a number that no refusal has, and so differs from the model.
    fn call(&mut self, call: Exported) -> Result<Vec<u8>, u8> {
        let room = [0xEE; 80];
        let beside = Beside { room: &room, numbers: &[], empty: EmptySlice::Buffer };
        let made = make(&self.numbers, &self.tables, &call, beside);
        self.tables = made.tables;
        let (events, rest) = made.events.split_at(made.returned.min(room.len()));
        match events {
            _ if !made.guards_intact || rest.iter().any(|&byte| byte != 0xEE) => Err(u8::MAX),
            [0x11, number] => Err(*number),
            _ => Ok(events.to_vec()),
        }
    }
}

impl Callable for Library {
    fn queue_is_empty(&self) -> bool {
        self.tables.get(Layout::of(&self.settings).queue_kind(0)) == 0
    }

    fn first_sent(&self) -> Option<u64> {
        let layout = Layout::of(&self.settings);
        let sent = |entry: &usize| self.tables.get(layout.sent(*entry)) == 1;
        let first = (0..layout.entries).find(sent)?;
        Some(self.tables.get(layout.miss_address(first)))
    }

    fn send(&mut self) -> Result<Vec<u8>, u8> {
        self.call(Exported::Send)
    }

    fn fill(&mut self, address: u64) -> Result<Vec<u8>, u8> {
        self.call(Exported::Fill { address })
    }

    fn offer(&mut self, access: Access) -> Result<Vec<u8>, u8> {
        self.call(Exported::from_call(Call::Access(access), self.thin))
    }

    fn tables(&self) -> Tables {
        self.tables.clone()
    }
}

/// Counts of first runs by how they ended, and of rounds.
#[derive(Default)]
pub struct Counts {
    pub tables: u64,
    pub rounds: u64,
    /// By the accepting round.
    pub accepted: BTreeMap<usize, u64>,
    pub held: u64,
    /// Accepted in a round after one that refused with 6.
    pub held_then_accepted: u64,
    /// Refused offers by number.
    pub refused: BTreeMap<u8, u64>,
}

impl Counts {
    fn add(&mut self, first: &Rounds) {
        self.tables += 1;
        self.rounds += first.offers.len() as u64;
        if first.accepted() {
            *self.accepted.entry(first.offers.len()).or_default() += 1;
            let held_before = first.offers.contains(&Some(Err(6)));
            self.held_then_accepted += u64::from(held_before);
        } else {
            self.held += 1;
        }
        for offer in first.offers.iter().flatten() {
            if let Err(number) = offer {
                *self.refused.entry(*number).or_default() += 1;
            }
        }
    }

    pub fn print(&self) {
        println!("rounds: {} on {} tables, with a wait on each", self.rounds, self.tables);
        let accepted: Vec<String> =
            self.accepted.iter().map(|(round, count)| format!("{round}: {count}")).collect();
        println!("  accepted in round {}", accepted.join(", "));
        println!(
            "  held for ever: {}, held before accepted: {}",
            self.held, self.held_then_accepted
        );
        let refused: Vec<String> =
            self.refused.iter().map(|(number, count)| format!("{number}: {count}")).collect();
        println!("  offers refused with {}", refused.join(", "));
    }
}

/// Tables that a walk by the model reaches.
fn walked_cache(random: &mut Random, settings: &Settings) -> Cache {
    let mut cache = Cache::fresh(*settings);
    for _ in 0..random.index(80) {
        let call = choices::any_call(random, &cache);
        let _ = cache.call(call);
    }
    cache
}

/// Well formed, and refused in the first round if a few draws find such a one.
fn late_access(random: &mut Random, cache: &Cache) -> Access {
    for _ in 0..random.index(16) {
        let access = choices::well_formed_access(random, cache);
        if !first_run(&mut cache.clone(), access, 1).accepted() {
            return access;
        }
    }
    choices::well_formed_access(random, cache)
}

pub fn run_case(random: &mut Random, counts: &mut Counts) -> Result<(), String> {
    let settings = choices::good_settings(random);
    let cache = if random.percent(30) {
        walked_cache(random, &settings)
    } else {
        sound_cache(random, &settings)
    };
    let access = late_access(random, &cache);
    let thin = random.percent(50);
    let numbers = choices::lent_numbers(random, &settings);
    let start = Library { settings, numbers, tables: cache.encode(), thin };
    compare(random, &cache, &start, access, counts)
        .map_err(|text| format!("settings {:?}, access {access:x?}\n{text}", settings.seven()))
}

fn compare(
    random: &mut Random,
    cache: &Cache,
    start: &Library,
    access: Access,
    counts: &mut Counts,
) -> Result<(), String> {
    let bound = bound(cache.queue.len(), cache.misses.len());
    let limit = bound + ROUNDS_AFTER;
    let first = first_run(&mut start.clone(), access, limit);
    let model = first_run(&mut cache.clone(), access, limit);
    if first.offers != model.offers {
        return Err(format!("offers: expected {:?}, found {:?}", model.offers, first.offers));
    }
    let layout = Layout::of(&start.settings);
    same(&layout, "model's rounds, rounds", &model, &first)?;
    if let Some(text) = bound_broken(&first, bound) {
        return Err(text);
    }
    let struck = struck_run(&mut start.clone(), access, &first.flags());
    same(&layout, "rounds, struck rounds", &first, &struck)?;
    let model_struck = struck_run(&mut cache.clone(), access, &first.flags());
    same(&layout, "model's struck rounds, struck rounds", &model_struck, &struck)?;
    compare_wait(start, access, &first, bound)?;
    compare_runs(random, &start.numbers, &start.tables, access, &first)?;
    counts.add(&first);
    Ok(())
}

/// The exported wait ends as the rounds stood at the accepting round, or at the bound.
fn compare_wait(
    start: &Library,
    access: Access,
    first: &Rounds,
    bound: usize,
) -> Result<(), String> {
    let last = first.offers.len().min(bound);
    let standing = &first.standings[last];
    let mut events = standing.events.clone();
    if let Some(Err(number)) = first.offers[last - 1] {
        events.extend([0x11, number]);
    }
    let round = if first.accepted() { last as u64 } else { 0 };

    let room = [0xEE; WAIT_ROOM];
    let beside = Beside { room: &room, numbers: &[u64::MAX], empty: EmptySlice::Buffer };
    let made = make(&start.numbers, &start.tables, &Exported::Wait(access), beside);
    if !made.guards_intact {
        return Err("wait: a number outside the lent slices was written".to_string());
    }
    if made.numbers != [round] {
        return Err(format!("wait: round {:?}, the rounds say {round}", made.numbers));
    }
    let (written, rest) = made.events.split_at(made.returned.min(WAIT_ROOM));
    if written != events || rest.iter().any(|&byte| byte != 0xEE) {
        return Err(format!("wait: events {written:02x?}, the rounds say {events:02x?}"));
    }
    match standing.tables.first_difference(&made.tables) {
        Some(place) => {
            let name = Layout::of(&start.settings).describe(place);
            Err(format!("wait: {name} is not what the rounds left"))
        }
        None => Ok(()),
    }
}

/// Two runs stand equal after every number of rounds, or the first difference in words.
fn same(layout: &Layout, names: &str, one: &Rounds, other: &Rounds) -> Result<(), String> {
    let Some(rounds) = first_apart(one, other) else {
        return Ok(());
    };
    let text = format!("{names}: after {rounds} rounds");
    let (Some(one), Some(other)) = (one.standings.get(rounds), other.standings.get(rounds)) else {
        return Err(format!("{text} one has ended"));
    };
    if one.events != other.events {
        return Err(format!("{text} events {:02x?} and {:02x?}", one.events, other.events));
    }
    let place = one.tables.first_difference(&other.tables).expect("standings differ");
    let (left, right) = (one.tables.get(place), other.tables.get(place));
    Err(format!("{text} {} {left:#x} and {right:#x}", layout.describe(place)))
}
