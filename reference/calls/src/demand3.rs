//! The exported rounds and struck rounds, held to rounds that were run call by call:
//! any number of rounds, the flags that one hands to the other, too little room, and
//! refusals before it.

use crate::exported::labintugmo::{labintugmo_rounds, labintugmo_struck};
use crate::exported::{write_number, EmptySlice, Guarded, GuardedTables, IN_RANGE};
use reference::model::{Access, Tables};
use reference::random::Random;
use reference::rounds::Rounds;

/// Bytes of event room for each round.
const ROUND_ROOM: usize = 112;
const NO_ROOM: u32 = 16;
const UNTOUCHED: u8 = 0xEE;

/// What is lent beside the tables, and what a call of the two made of all of it.
#[derive(Clone, PartialEq, Eq, Debug)]
struct Stood {
    returned: u32,
    tables: Tables,
    flags: Vec<u8>,
    room: Vec<u8>,
    counts: Vec<u64>,
}

impl Stood {
    /// Before a call, with what it will return if it changes nothing.
    fn lent(returned: u32, tables: &Tables, flags: Vec<u8>, room: usize, counts: usize) -> Stood {
        let (room, counts) = (vec![UNTOUCHED; room], vec![u64::MAX; counts]);
        Stood { returned, tables: tables.clone(), flags, room, counts }
    }

    /// After k rounds that wrote these events and left these tables.
    fn ran(mut self, k: usize, tables: &Tables, events: &[u8]) -> Stood {
        self.tables = tables.clone();
        self.room[..events.len()].copy_from_slice(events);
        self.counts = vec![k as u64, events.len() as u64];
        self
    }

    /// The same with another number returned, and nothing run.
    fn refused(mut self, returned: u32) -> Stood {
        self.returned = returned;
        self.counts = vec![0, 0];
        self
    }
}

/// The call on copies between guards: the rounds if there is a number of them, else the struck rounds.
fn make(
    settings: &[u32],
    before: &Stood,
    access: Access,
    n: Option<usize>,
) -> Result<Stood, String> {
    let mut settings = Guarded::new(settings, IN_RANGE, EmptySlice::Buffer);
    let (s, sn) = (settings.pointer(), settings.length());
    let mut lent = GuardedTables::new(&before.tables, EmptySlice::Buffer);
    let mut flags = Guarded::new(&before.flags, 0x5B, EmptySlice::Buffer);
    let mut room = Guarded::new(&before.room, 0xB7, EmptySlice::Buffer);
    let mut counts = Guarded::new(&before.counts, 0xC3C3_3C3C_5A5A_A5A5, EmptySlice::Buffer);
    let (l, ln) = (lent.longs.pointer(), lent.longs.length());
    let (d, dn) = (lent.words.pointer(), lent.words.length());
    let (k, kn) = (lent.marks.pointer(), lent.marks.length());
    let (f, fn_) = (flags.pointer(), flags.length());
    let (e, en) = (room.pointer(), room.length());
    let (o, on) = (counts.pointer(), counts.length());
    let write = write_number(&access);
    let Access { address: a, mask, ticket, .. } = access;
    // Each pointer is good for the length beside it and no two slices overlap.
    let returned = unsafe {
        match n {
            Some(n) => labintugmo_rounds(
                s, sn, l, ln, d, dn, k, kn, write, a, mask, ticket, n, f, fn_, e, en, o, on,
            ),
            None => labintugmo_struck(
                s, sn, l, ln, d, dn, k, kn, write, a, mask, ticket, f, fn_, e, en, o, on,
            ),
        }
    };
    if !(lent.intact() && flags.intact() && room.intact() && counts.intact()) {
        return Err("a number outside the lent slices was written".to_string());
    }
    Ok(Stood {
        returned,
        tables: lent.tables(),
        flags: flags.numbers().to_vec(),
        room: room.numbers().to_vec(),
        counts: counts.numbers().to_vec(),
    })
}

fn expect(name: &str, wanted: &Stood, found: &Stood) -> Result<(), String> {
    if wanted == found {
        return Ok(());
    }
    let brief = |stood: &Stood| (stood.returned, stood.counts.clone(), stood.flags.clone());
    Err(format!(
        "{name}: returned, counts, flags: expected {:?}, found {:?}; tables {}, events {}",
        brief(wanted),
        brief(found),
        if wanted.tables == found.tables { "agree" } else { "differ" },
        if wanted.room == found.room { "agree" } else { "differ" },
    ))
}

/// `first` holds the rounds of this access from these tables, up to the accepting one.
pub fn compare_runs(
    random: &mut Random,
    settings: &[u32],
    tables: &Tables,
    access: Access,
    first: &Rounds,
) -> Result<(), String> {
    // Of a held end only so many rounds are known.
    let more = if first.accepted() { 3 } else { 1 };
    let n = random.index(first.offers.len() + more);
    let ran = n.min(first.offers.len());
    let flags: Vec<u8> = first.flags().iter().take(ran).map(|&taken| u8::from(taken)).collect();
    let room = ROUND_ROOM * n + random.index(3);

    let before = Stood::lent(0, tables, vec![UNTOUCHED; n + random.index(3)], room, 2);
    let mut after = before.clone().ran(ran, &first.standings[ran].tables, &first.logs[ran]);
    after.flags[..ran].copy_from_slice(&flags);
    let found = make(settings, &before, access, Some(n))?;
    expect("exported rounds", &after, &found)?;

    let before = Stood::lent(0, tables, found.flags[..ran].to_vec(), room, 2);
    let standing = &first.standings[ran];
    let after = before.clone().ran(ran, &standing.tables, &standing.events);
    expect("exported struck rounds", &after, &make(settings, &before, access, None)?)?;
    compare_unmade(random, settings, tables, access, n)
}

/// Too few flags, bytes or counts, and a malformed access that comes before the first two.
fn compare_unmade(
    random: &mut Random,
    settings: &[u32],
    tables: &Tables,
    access: Access,
    n: usize,
) -> Result<(), String> {
    let n = n + 1;
    let full = ROUND_ROOM * n;
    let lent = |flags: usize, room: usize, counts: usize| {
        Stood::lent(2, tables, vec![1; flags], room, counts)
    };
    let malformed = Access { address: access.address | 1, ..access };
    let (name, before, access, number) = match random.index(4) {
        0 => ("few flags", lent(n - 1, full, 2), access, Some(NO_ROOM)),
        1 => ("few bytes", lent(n, full - 1, 2), access, Some(NO_ROOM)),
        2 => ("other counts", lent(n, full, 1 + 2 * random.index(2)), access, None),
        _ => ("malformed", lent(n, full - 1, 2), malformed, Some(4)),
    };
    let after = match number {
        Some(number) => before.clone().refused(number),
        None => before.clone(),
    };
    expect(name, &after, &make(settings, &before, access, Some(n))?)?;
    if before.flags.len() < n {
        return Ok(());
    }
    expect(name, &after, &make(settings, &before, access, None)?)
}
