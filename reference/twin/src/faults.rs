//! Mistakes that the twin can make, by name: document 01's easy slips, some more
//! of that kind, and `condition-N`, which leaves condition N out of the soundness
//! check.

use crate::wait::Waited;
use reference::model::{self, block_of, Access, Cache, Call, Layout, Outcome, Place, Refusal};
use reference::model::{Settings, Status, Tables};
use reference::runner::{self, Stopped, STOP_END};
use std::sync::OnceLock;

/// The fault named in the environment, or the empty name for none.
#[derive(Clone, Copy)]
pub struct Fault(&'static str);

static NAME: OnceLock<String> = OnceLock::new();

impl Fault {
    pub fn planted() -> Fault {
        Fault(NAME.get_or_init(|| std::env::var("TWIN_FAULT").unwrap_or_default()))
    }

    pub fn is(self, name: &str) -> bool {
        self.0 == name
    }

    /// Another number of settings taken: a missing queue has two places, numbers too many are left out.
    pub fn alter_settings(self, numbers: &[u32]) -> Vec<u32> {
        match (self.0, numbers.len()) {
            ("five-settings-taken", 5) => [numbers, &[2]].concat(),
            ("more-settings-taken", 8..) => numbers[..7].to_vec(),
            ("seventh-setting-ignored", 7) => numbers[..6].to_vec(),
            ("tree-over-any-ways", 7) if numbers[6] == model::RULE_TREE => over_any_ways(numbers),
            _ => numbers.to_vec(),
        }
    }

    /// A rule byte of kind 6 that is read as 0.
    pub fn alter_stream(self, stream: &[u8]) -> Vec<u8> {
        let mut stream = stream.to_vec();
        if self.is("rule-byte-ignored") && stream.first() == Some(&runner::KIND_RULED_SETTINGS) {
            stream.get_mut(8).into_iter().for_each(|rule| *rule = 0);
        }
        stream
    }

    /// Slips that a call on another argument shows.
    pub fn alter_call(self, call: Call) -> Call {
        match (self.0, call) {
            ("read-mask-ignored", Call::Access(access)) if !access.is_write => {
                Call::Access(Access { mask: 0, ..access })
            }
            ("fill-rounded-down", Call::Fill(address)) => Call::Fill(model::sector_of(address)),
            ("tick-clamped", Call::Tick(cycle)) => Call::Tick(cycle.min(model::LAST_CYCLE)),
            ("write-ticket-needed", Call::Access(access)) if access.is_write => {
                let mask = if access.ticket == u32::MAX { 0 } else { access.mask };
                Call::Access(Access { mask, ..access })
            }
            _ => call,
        }
    }

    /// Slips in the choice of the victim: an accepted access ends otherwise.
    pub fn alter_victim(
        self,
        settings: &Settings,
        before: &Tables,
        call: &Call,
    ) -> Option<(Tables, Outcome)> {
        let Call::Access(access) = *call else {
            return None;
        };
        let slip = match self.0 {
            "way-order-reversed" => access_reversed,
            "dirty-counted-in-set" => access_in_set,
            "victim-thrown-out-early" => access_too_early,
            "oldest-by-last-access" => access_least_recent,
            "tree-read-upside-down" => access_inverted,
            "tree-blind-to-candidates" => access_blind,
            _ => return None,
        };
        model::check(settings, before).ok()?;
        let mut cache = Cache::decode(settings, before);
        let outcome = access.well_formed().then(|| slip(&mut cache, access))?;
        Some((cache.encode(), outcome))
    }

    pub fn alter_room(self, room: usize) -> usize {
        match self.0 {
            "room-ignored" => room.max(model::ROOM_NEEDED),
            "room-above-64" => room.saturating_sub(1),
            _ => room,
        }
    }

    /// Slips in the tables or the events after the call.
    pub fn alter_result(
        self,
        settings: &Settings,
        before: &Tables,
        tables: &mut Tables,
        call: &Call,
        written: &mut Vec<u8>,
    ) {
        let refused = written.first() == Some(&0x11);
        match (self.0, call) {
            ("send-does-nothing", Call::Send) => *tables = before.clone(),
            ("fill-does-nothing", Call::Fill(_)) => *tables = before.clone(),
            ("refuses-everything", _) if !refused && !written.is_empty() => {
                *tables = before.clone();
                *written = vec![0x11, 6];
            }
            ("hit-for-all", Call::Access(_)) if !refused && !written.is_empty() => {
                *tables = before.clone();
                *written = vec![0x10, 1, 0, 0];
            }
            ("refusal-moves-cycle", Call::Access(access)) if written[..] == [0x11, 7] => {
                move_cycle(settings, tables, access.address);
            }
            ("mask-cleared-on-fetch", Call::Access(access)) if written.starts_with(&[0x10, 4]) => {
                clear_fetched_mask(settings, tables, access);
            }
            ("busy-for-held", _) if written[..] == [0x11, 6] => written[1] = 5,
            ("entry-before-queue", Call::Access(access)) if written[..] == [0x11, 7] => {
                written[1] = number_without_queue(settings, before, access);
            }
            ("last-ticket-kept", Call::Fill(_)) if !refused && !written.is_empty() => {
                keep_last_ticket(settings, before, tables);
            }
            ("fill-leaves-dirty-count", Call::Fill(_)) if !refused && !written.is_empty() => {
                let count = Layout::of(settings).dirty_count();
                tables.set(count, before.get(count));
            }
            ("write-back-told-otherwise", Call::Access(_)) => tell_other_masks(written),
            ("lengths-not-checked", _) if written[..] == [0x11, 2] => written[1] = 3,
            _ => (),
        }
    }

    /// Slips in what the replacement rules go by, after the call.
    pub fn alter_ages(
        self,
        settings: &Settings,
        before: &Tables,
        tables: &mut Tables,
        written: &[u8],
    ) {
        let answered = written.first() == Some(&0x10);
        let missed = written.starts_with(&[0x10, 3]);
        match self.0 {
            "taken-by-every-access" if answered => {
                set_taken(settings, tables, written, |cycle| cycle);
            }
            "taken-only-under-its-rule" if missed && settings.rule != model::RULE_FIFO => {
                set_taken(settings, tables, written, |_| 0);
            }
            "tree-not-turned" if answered => keep_trees(settings, before, tables),
            "tree-not-turned-by-a-miss" if missed => keep_trees(settings, before, tables),
            "tree-turned-by-a-fill" if written.first() == Some(&0x17) => {
                turn_filled(settings, tables, written);
            }
            "tree-turned-under-every-rule" if answered && settings.rule != model::RULE_TREE => {
                tables.set(Layout::of(settings).tree(0), 1);
            }
            _ => (),
        }
    }

    pub fn alter_rest(self, rest: &mut [u8]) {
        if self.0 == "rest-of-room-cleared" {
            rest.fill(0);
        }
    }

    pub fn alter_wait_room(self, room: usize) -> usize {
        room + usize::from(self.is("wait-room-one-short"))
    }

    /// Of the rounds that wait runs.
    pub fn alter_bound(self, bound: usize) -> usize {
        match self.0 {
            "wait-gives-up-early" => (bound - 1).max(1),
            _ => bound,
        }
    }

    pub fn alter_waited(self, waited: &mut Waited) {
        match self.0 {
            "wait-counts-from-zero" => waited.round = waited.round.saturating_sub(1),
            "wait-last-refusal-left-out" if waited.events.ends_with(&[0x11, 6]) => {
                waited.events.truncate(waited.events.len() - 2);
            }
            _ => (),
        }
    }

    pub fn alter_run_room(self, room: usize) -> usize {
        room + usize::from(self.is("run-room-one-short"))
    }

    /// Slips in the tables or the counts that a run leaves.
    pub fn alter_run(
        self,
        stream: &[u8],
        before: &Tables,
        tables: &mut Tables,
        stopped: &mut Stopped,
    ) {
        let early = stopped.number != STOP_END;
        match self.0 {
            "run-forgets-tables-at-stop" if early => *tables = before.clone(),
            "run-makes-up-consumed" if early => stopped.consumed = stream.len(),
            "run-leaves-settings-out" => stopped.consumed = stopped.consumed.saturating_sub(8),
            "run-empty-is-cut-short" if stream.is_empty() => stopped.number = 15,
            "run-kind-6-unknown" if stream.first() == Some(&runner::KIND_RULED_SETTINGS) => {
                *tables = before.clone();
                *stopped = Stopped { number: 14, consumed: 0, written: 0 };
            }
            _ => (),
        }
    }

    /// Goes on with a part of a stream, with the slips that concern parts.
    pub fn resume(
        self,
        settings: &Settings,
        part: &[u8],
        tables: &mut Tables,
        room: &mut [u8],
    ) -> Stopped {
        let before = tables.clone();
        let settings_first = part.first().is_some_and(|&kind| runner::is_settings(kind));
        match self.0 {
            "resume-starts-anew" => return runner::run(part, tables, room),
            "resume-takes-settings" if settings_first => return runner::run(part, tables, room),
            "resume-leaves-empty-unchecked" if part.is_empty() => {
                return Stopped { number: STOP_END, consumed: 0, written: 0 }
            }
            _ => (),
        }
        let stopped = runner::resume(settings, part, tables, room);
        if self.is("resume-forgets-tables-at-stop") && stopped.number != STOP_END {
            *tables = before;
        }
        stopped
    }

    pub fn alter_check(
        self,
        settings: &Settings,
        tables: &Tables,
        outcome: Result<(), Refusal>,
    ) -> Result<(), Refusal> {
        let left_out = self.0.strip_prefix("condition-").and_then(|number| number.parse().ok());
        match (left_out, outcome) {
            (Some(number), Err(Refusal::NotSound))
                if model::broken(settings, tables) == [number] =>
            {
                Ok(())
            }
            _ => outcome,
        }
    }

    /// # Safety
    /// The byte behind the marks belongs to the caller's guards.
    pub unsafe fn spill(self, marks: *mut u8, length: usize) {
        if self.0 == "writes-past-the-end" && length > 0 {
            *marks.add(length) = 0;
        }
    }
}

/// A queued write-back, the last record of an access, is told without one of its bytes.
fn tell_other_masks(written: &mut [u8]) {
    let Some(from) = written.len().checked_sub(25).filter(|&from| written[from] == 0x13) else {
        return;
    };
    if let Some(mask) = written[from + 9..].iter_mut().find(|byte| **byte != 0) {
        *mask &= *mask - 1;
    }
}

/// The first invalid way instead of the last, and the last among equal cycles.
fn access_reversed(cache: &mut Cache, access: Access) -> Outcome {
    let ways = cache.settings.ways as usize;
    cache.lines.chunks_mut(ways).for_each(|set| set.reverse());
    let mut outcome = cache.access(access);
    cache.lines.chunks_mut(ways).for_each(|set| set.reverse());
    for event in outcome.iter_mut().flatten() {
        if let model::Event::Answer { line, .. } = event {
            let way = *line as usize % ways;
            *line = (*line as usize - way + ways - 1 - way) as u16;
        }
    }
    outcome
}

/// The access in a cache that has only its set, so that other sets' dirty lines do not count.
fn access_in_set(cache: &mut Cache, access: Access) -> Outcome {
    let ways = cache.settings.ways as usize;
    let first = cache.settings.set_of(access.address) * ways;
    let mut alone = cache.clone();
    alone.settings.sets = 1;
    alone.lines = cache.lines[first..first + ways].to_vec();
    alone.trees = vec![cache.trees[first / ways]];
    let mut outcome = alone.access(access);
    cache.lines[first..first + ways].copy_from_slice(&alone.lines);
    cache.trees[first / ways] = alone.trees[0];
    cache.misses = alone.misses;
    cache.queue = alone.queue;
    for event in outcome.iter_mut().flatten() {
        if let model::Event::Answer { line, .. } = event {
            *line += first as u16;
        }
    }
    outcome
}

/// The victim is gone although the queue then has too few places.
fn access_too_early(cache: &mut Cache, access: Access) -> Outcome {
    let outcome = cache.access(access);
    if outcome == Err(Refusal::QueueFull) {
        let mut roomy = cache.clone();
        roomy.settings.queue += 4;
        if roomy.access(access).is_ok() {
            let changed =
                (0..cache.lines.len()).find(|&n| cache.lines[n].tag != roomy.lines[n].tag);
            changed.into_iter().for_each(|number| cache.lines[number] = model::Line::EMPTY);
        }
    }
    outcome
}

/// First in first out chooses the victim by the last access.
fn access_least_recent(cache: &mut Cache, access: Access) -> Outcome {
    if cache.settings.rule != model::RULE_FIFO {
        return cache.access(access);
    }
    cache.settings.rule = model::RULE_LRU;
    let outcome = cache.access(access);
    cache.settings.rule = model::RULE_FIFO;
    outcome
}

/// A tree over ways that are no power of two is let pass, as if it were rule 0.
fn over_any_ways(numbers: &[u32]) -> Vec<u32> {
    let mut numbers = numbers.to_vec();
    if !numbers[1].is_power_of_two() {
        numbers[6] = model::RULE_LRU;
    }
    numbers
}

/// A bit of 1 names the lower half.
fn access_inverted(cache: &mut Cache, access: Access) -> Outcome {
    if cache.settings.rule != model::RULE_TREE {
        return cache.access(access);
    }
    let nodes = model::node_bits(cache.settings.ways as usize);
    cache.trees.iter_mut().for_each(|tree| *tree ^= nodes);
    let outcome = cache.access(access);
    cache.trees.iter_mut().for_each(|tree| *tree ^= nodes);
    outcome
}

/// The tree is followed although the half that a bit names has no candidate; the set is then busy.
fn access_blind(cache: &mut Cache, access: Access) -> Outcome {
    let before = cache.clone();
    let ways = cache.settings.ways as usize;
    let set = cache.settings.set_of(access.address);
    let outcome = cache.access(access);
    let Some(model::Event::Answer { answer: model::Answer::Miss, line }) =
        outcome.as_ref().ok().and_then(|events| events.first())
    else {
        return outcome;
    };
    let line = usize::from(*line);
    let blind = model::chosen(before.trees[set], &vec![true; ways]).map(|way| set * ways + way);
    let by_tree = before.settings.rule == model::RULE_TREE && !before.lines[line].wholly_invalid();
    if by_tree && blind != Some(line) {
        *cache = before;
        return Err(Refusal::SetBusy);
    }
    outcome
}

fn keep_trees(settings: &Settings, before: &Tables, tables: &mut Tables) {
    let layout = Layout::of(settings);
    for set in 0..layout.sets {
        tables.set(layout.tree(set), before.get(layout.tree(set)));
    }
}

/// The path to the line that a fill names is turned as by an access.
fn turn_filled(settings: &Settings, tables: &mut Tables, written: &[u8]) {
    let address = u64::from_le_bytes(written[1..9].try_into().expect("an address"));
    let mut cache = Cache::decode(settings, tables);
    let ways = settings.ways as usize;
    if let Some(line) = cache.matching_line(block_of(address)) {
        let tree = &mut cache.trees[line / ways];
        *tree = model::turned(*tree, ways, line % ways);
    }
    *tables = cache.encode();
}

/// The taken cycle of the line that an answer names becomes another one, told by the current cycle.
fn set_taken(settings: &Settings, tables: &mut Tables, written: &[u8], other: fn(u64) -> u64) {
    let layout = Layout::of(settings);
    let line = usize::from(u16::from_le_bytes([written[2], written[3]]));
    tables.set(layout.taken(line), other(tables.get(layout.current_cycle())));
}

/// The write-back of a sector that was fetched while partly dirty loses its bytes.
fn clear_fetched_mask(settings: &Settings, tables: &mut Tables, access: &Access) {
    let mut cache = Cache::decode(settings, tables);
    if let Some(number) = cache.matching_line(block_of(access.address)) {
        let sector = &mut cache.lines[number].sectors[model::sector_index(access.address)];
        if sector.status == Status::Reserved {
            sector.mask = 0;
        }
    }
    *tables = cache.encode();
}

/// The cycle of the line that an access refused for want of places would have moved.
fn move_cycle(settings: &Settings, tables: &mut Tables, address: u64) {
    let cache = Cache::decode(settings, tables);
    if let Some(line) = cache.matching_line(block_of(address)) {
        tables.set(Layout::of(settings).line_cycle(line), u64::from(cache.cycle));
    }
}

/// The refusal that 7 stands before, found by emptying a queue that has places enough.
fn number_without_queue(settings: &Settings, before: &Tables, access: &Access) -> u8 {
    let mut cache = Cache::decode(settings, before);
    cache.settings.queue += 4;
    cache.access(*access).err().map_or(7, Refusal::number)
}

/// The first ticket place of the entry that closing up made unused is not cleared.
fn keep_last_ticket(settings: &Settings, before: &Tables, tables: &mut Tables) {
    let layout = Layout::of(settings);
    let count = (0..layout.entries)
        .take_while(|&entry| before.get(layout.ticket_count(entry)) != 0)
        .count();
    let freed: Place = layout.ticket(count - 1, 0);
    tables.set(freed, before.get(freed));
}
