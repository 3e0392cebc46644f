//! One exported call compared with the model: the return, the whole event room,
//! all three slices and wait's round. Also the counts of what was tried.

use crate::exported::{lengths, make, Beside, EmptySlice, Exported, Made};
use reference::model::{call_bytes, check, fresh_on, lengths_for, Refusal, Settings, Tables};
use reference::model::{Access, Cache, Layout, Place, ROOM_NEEDED};
use reference::rounds::{bound, first_run};
use std::collections::BTreeMap;

/// What a refused call writes: its kind, then the number.
const REFUSED: u8 = 0x11;
/// Event room that wait needs.
pub const WAIT_ROOM: usize = 9600;

/// How the model says a call ends.
pub struct Expected {
    pub returned: usize,
    pub events: Vec<u8>,
    pub tables: Tables,
    /// Wait's round or run's counts, as they are after the call.
    pub numbers: Vec<u64>,
}

fn expected(settings: &Settings, tables: &Tables, call: &Exported, beside: Beside) -> Expected {
    let mut after = tables.clone();
    let number = |outcome: Result<(), Refusal>| outcome.map_or_else(|r| r.number() as usize, |_| 0);
    let (returned, events) = match (call, call.call()) {
        (Exported::Wait(access), _) => return expected_wait(settings, tables, access, beside),
        (_, Some(call)) => {
            let events = call_bytes(settings, &mut after, call, beside.room.len());
            (events.len(), events)
        }
        (Exported::Fresh, None) => (number(fresh_on(settings, &mut after)), Vec::new()),
        (_, None) => (number(check(settings, tables)), Vec::new()),
    };
    Expected { returned, events, tables: after, numbers: beside.numbers.to_vec() }
}

/// The rounds up to the bound; only a last refusal is among the events.
fn expected_wait(
    settings: &Settings,
    tables: &Tables,
    access: &Access,
    beside: Beside,
) -> Expected {
    let ends = |events: Vec<u8>, tables: &Tables, numbers: &[u64]| Expected {
        returned: events.len(),
        events,
        tables: tables.clone(),
        numbers: numbers.to_vec(),
    };
    if beside.room.len() < WAIT_ROOM || beside.numbers.len() != 1 {
        return ends(Vec::new(), tables, beside.numbers);
    }
    let asked = check(settings, tables)
        .and_then(|()| access.well_formed().then_some(()).ok_or(Refusal::NotWellFormed));
    if let Err(refusal) = asked {
        return ends(vec![REFUSED, refusal.number()], tables, &[0]);
    }
    let mut cache = Cache::decode(settings, tables);
    let limit = bound(cache.queue.len(), cache.misses.len());
    let rounds = first_run(&mut cache, *access, limit);
    let last = rounds.standings.last().expect("there is a start");
    let mut events = last.events.clone();
    match rounds.offers.last() {
        Some(Some(Err(number))) => {
            events.extend([REFUSED, *number]);
            ends(events, &last.tables, &[0])
        }
        _ => ends(events, &last.tables, &[rounds.offers.len() as u64]),
    }
}

/// How a call ended, for the counts.
#[derive(Clone, Copy, PartialEq, Eq, PartialOrd, Ord, Debug)]
pub enum End {
    Accepted,
    Refused(u8),
    /// A run, by its stop number.
    Stopped(u8),
    NoRoom,
    /// Wait's round or run's counts lent with another length.
    NoNumbers,
}

fn end_of(call: &Exported, expected: &Expected, room: usize) -> End {
    match (call, expected.returned) {
        (Exported::Fresh | Exported::Check, 0) => End::Accepted,
        (Exported::Fresh | Exported::Check, number) => End::Refused(number as u8),
        (Exported::Wait(_), 0) if room < WAIT_ROOM => End::NoRoom,
        (Exported::Wait(_), 0) => End::NoNumbers,
        (Exported::Wait(_), returned) if expected.numbers[0] == 0 => {
            End::Refused(expected.events[returned - 1])
        }
        (Exported::Wait(_), _) => End::Accepted,
        _ if room < ROOM_NEEDED => End::NoRoom,
        _ if expected.events[0] == REFUSED => End::Refused(expected.events[1]),
        _ => End::Accepted,
    }
}

/// Counts by where the tables came from, by call and end, and by condition of soundness.
#[derive(Default)]
pub struct Counts {
    pub total: u64,
    pub sources: BTreeMap<&'static str, u64>,
    pub calls: BTreeMap<&'static str, BTreeMap<End, u64>>,
    /// By condition: tables that broke it alone, and together with others.
    pub conditions: BTreeMap<usize, (u64, u64)>,
}

impl Counts {
    pub fn add(&mut self, source: &'static str, call: &'static str, end: End) {
        self.total += 1;
        *self.sources.entry(source).or_default() += 1;
        *self.calls.entry(call).or_default().entry(end).or_default() += 1;
    }

    pub fn print(&self) {
        println!("calls: {}", self.total);
        for (source, count) in &self.sources {
            println!("  on {source}: {count}");
        }
        for (call, ends) in &self.calls {
            let ends: Vec<String> =
                ends.iter().map(|(end, n)| format!("{}: {n}", name(end))).collect();
            println!("  {call}: {}", ends.join(", "));
        }
        let conditions: Vec<String> = self
            .conditions
            .iter()
            .map(|(number, (alone, more))| format!("{number}: {alone}+{more}"))
            .collect();
        println!("  tables by condition broken, alone+with others: {}", conditions.join(", "));
    }
}

fn name(end: &End) -> String {
    match end {
        End::Accepted => "accepted".to_string(),
        End::Refused(number) => format!("refused {number}"),
        End::Stopped(number) => format!("stop {number}"),
        End::NoRoom => "no room".to_string(),
        End::NoNumbers => "no place for its numbers".to_string(),
    }
}

/// The lent tables of one case, kept equal on both sides.
pub struct Trial<'a> {
    pub counts: &'a mut Counts,
    pub source: &'static str,
    /// The numbers lent as settings.
    pub settings: Vec<u32>,
    pub tables: Tables,
    /// What the event room holds before each call; its length is the room.
    pub room: Vec<u8>,
    /// The same for wait, which needs more.
    pub wait_room: Vec<u8>,
    /// What wait's round holds before each call.
    pub round: Vec<u64>,
    pub empty: EmptySlice,
}

impl Trial<'_> {
    /// Makes a call on both sides; the tables are then those after it.
    pub fn call(&mut self, call: Exported) -> Result<End, String> {
        let beside = self.beside(&call);
        let settings = Settings::from_numbers(&self.settings);
        let expected = expected(&settings, &self.tables, &call, beside);
        let made = make(&self.settings, &self.tables, &call, beside);
        if let Some(text) = difference(Some(&settings), beside, &expected, &made) {
            return Err(self.describe(&call, &text));
        }
        let end = end_of(&call, &expected, beside.room.len());
        self.counts.add(self.source, call.name(), end);
        self.tables = made.tables;
        Ok(end)
    }

    fn beside(&self, call: &Exported) -> Beside<'_> {
        let room = match call {
            Exported::Wait(_) => &self.wait_room,
            _ => &self.room,
        };
        Beside { room, numbers: &self.round, empty: self.empty }
    }

    /// Makes a call on tables that stay as they are for the next one.
    pub fn call_on_copy(&mut self, call: Exported) -> Result<End, String> {
        let before = self.tables.clone();
        let end = self.call(call)?;
        self.tables = before;
        Ok(end)
    }

    /// The lengths are asked of any settings.
    pub fn lengths(&mut self) -> Result<(), String> {
        let expected = lengths_for(&Settings::from_numbers(&self.settings));
        let found = lengths(&self.settings, self.empty);
        if expected != found {
            return Err(format!(
                "settings {:?}\nlengths: expected {expected:?}, found {found:?}",
                self.settings
            ));
        }
        let end = if expected == [0; 3] { End::Refused(1) } else { End::Accepted };
        self.counts.add(self.source, "lengths", end);
        Ok(())
    }

    fn describe(&self, call: &Exported, text: &str) -> String {
        format!(
            "settings {:?}, lengths {:?}, event room {}, empty slices {:?}\ncall {call:x?}\non {}\n{}{text}",
            self.settings,
            self.tables.lengths(),
            self.beside(call).room.len(),
            self.empty,
            self.source,
            numbers(&self.tables)
        )
    }
}

/// In the guards, the return, the events, the numbers and the tables, by the names that
/// settings give their places.
pub fn difference(
    settings: Option<&Settings>,
    beside: Beside,
    expected: &Expected,
    made: &Made,
) -> Option<String> {
    if !made.guards_intact {
        return Some("a number outside the lent slices was written".to_string());
    }
    if made.returned != expected.returned {
        let events = &made.events[..made.events.len().min(64)];
        return Some(format!(
            "return: expected {}, found {}\nevents expected {:02x?}\nroom found {events:02x?}",
            expected.returned, made.returned, expected.events
        ));
    }
    let mut events = beside.room.to_vec();
    events[..expected.events.len()].copy_from_slice(&expected.events);
    if let Some(at) = (0..events.len()).find(|&at| events[at] != made.events[at]) {
        let (right, wrong) = (events[at], made.events[at]);
        return Some(format!("event byte {at}: expected {right:#04x}, found {wrong:#04x}"));
    }
    if made.numbers != expected.numbers {
        let (right, wrong) = (&expected.numbers, &made.numbers);
        return Some(format!("round or counts: expected {right:?}, found {wrong:?}"));
    }
    let place = expected.tables.first_difference(&made.tables)?;
    let (right, wrong) = (expected.tables.get(place), made.tables.get(place));
    let name = place_name(settings, &expected.tables, place);
    Some(format!("{name}: expected {right:#x}, found {wrong:#x}"))
}

/// By its field where the tables have the lengths for that.
fn place_name(settings: Option<&Settings>, tables: &Tables, place: Place) -> String {
    match settings {
        Some(settings) if settings.in_range() && tables.lengths() == lengths_for(settings) => {
            Layout::of(settings).describe(place)
        }
        _ => format!("{place:?}"),
    }
}

/// The numbers themselves, unless there are very many.
fn numbers(tables: &Tables) -> String {
    if tables.lengths().iter().sum::<usize>() > 400 {
        return String::new();
    }
    let Tables { longs, words, marks } = tables;
    format!("longs {longs:x?}\nwords {words:x?}\nmarks {marks:x?}\n")
}
