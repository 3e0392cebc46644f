//! The exported calls, and one way to make any of them: on copies of the lent
//! numbers that stand between guards, so that a write outside a slice is seen.

#[path = "../../../include/labintugmo.rs"]
pub mod labintugmo;

use labintugmo::*;
use reference::model::{Access, Call, Tables};

/// One exported call on lent tables.
#[derive(Clone, Copy, Debug)]
pub enum Exported {
    Fresh,
    Check,
    Read { address: u64, ticket: u32 },
    Write { address: u64, mask: u32 },
    Access(Access),
    Send,
    Fill { address: u64 },
    Tick { cycle: u32 },
    Wait(Access),
}

impl Exported {
    pub fn name(&self) -> &'static str {
        match self {
            Exported::Fresh => "fresh",
            Exported::Check => "check",
            Exported::Read { .. } => "read",
            Exported::Write { .. } => "write",
            Exported::Access(_) => "access",
            Exported::Send => "send",
            Exported::Fill { .. } => "fill",
            Exported::Tick { .. } => "tick",
            Exported::Wait(_) => "wait",
        }
    }

    /// A read or write goes through its own call where that can hold it and `thin` asks for it.
    pub fn from_call(call: Call, thin: bool) -> Exported {
        match call {
            Call::Access(access) if !thin => Exported::Access(access),
            Call::Access(Access { is_write: false, address, mask: 0, ticket }) => {
                Exported::Read { address, ticket }
            }
            Call::Access(Access { is_write: true, address, mask, .. }) => {
                Exported::Write { address, mask }
            }
            Call::Access(access) => Exported::Access(access),
            Call::Send => Exported::Send,
            Call::Fill(address) => Exported::Fill { address },
            Call::Tick(cycle) => Exported::Tick { cycle },
        }
    }

    /// The model's call for it; fresh, check and wait have none.
    pub fn call(&self) -> Option<Call> {
        match *self {
            Exported::Fresh | Exported::Check | Exported::Wait(_) => None,
            Exported::Read { address, ticket } => Some(Call::Access(Access::read(address, ticket))),
            Exported::Write { address, mask } => Some(Call::Access(Access::write(address, mask))),
            Exported::Access(access) => Some(Call::Access(access)),
            Exported::Send => Some(Call::Send),
            Exported::Fill { address } => Some(Call::Fill(address)),
            Exported::Tick { cycle } => Some(Call::Tick(cycle)),
        }
    }
}

/// Where the pointer of a slice of length 0 points.
#[derive(Clone, Copy, PartialEq, Eq, Debug)]
pub enum EmptySlice {
    Null,
    Dangling,
    /// Between the guards.
    Buffer,
}

const GUARD: usize = 8;

/// Beside numbers lent as settings stands one that is in the range of each of the six: a call that reads too many takes it.
pub const IN_RANGE: u32 = 2;

/// Numbers between guards.
pub struct Guarded<T> {
    all: Vec<T>,
    guard: T,
    empty: EmptySlice,
}

impl<T: Copy + PartialEq> Guarded<T> {
    pub fn new(numbers: &[T], guard: T, empty: EmptySlice) -> Guarded<T> {
        let mut all = Vec::with_capacity(numbers.len() + 2 * GUARD);
        all.extend([guard; GUARD]);
        all.extend(numbers);
        all.extend([guard; GUARD]);
        Guarded { all, guard, empty }
    }

    pub fn length(&self) -> usize {
        self.all.len() - 2 * GUARD
    }

    pub fn pointer(&mut self) -> *mut T {
        match self.empty {
            EmptySlice::Null if self.length() == 0 => std::ptr::null_mut(),
            EmptySlice::Dangling if self.length() == 0 => std::ptr::NonNull::dangling().as_ptr(),
            _ => self.all[GUARD..].as_mut_ptr(),
        }
    }

    pub fn numbers(&self) -> &[T] {
        &self.all[GUARD..GUARD + self.length()]
    }

    pub fn intact(&self) -> bool {
        let behind = &self.all[GUARD + self.length()..];
        self.all[..GUARD].iter().chain(behind).all(|number| *number == self.guard)
    }
}

/// The three lent slices between guards.
pub struct GuardedTables {
    pub longs: Guarded<u64>,
    pub words: Guarded<u32>,
    pub marks: Guarded<u8>,
}

impl GuardedTables {
    pub fn new(tables: &Tables, empty: EmptySlice) -> GuardedTables {
        GuardedTables {
            longs: Guarded::new(&tables.longs, 0xA5A5_5A5A_DEAD_BEEF, empty),
            words: Guarded::new(&tables.words, 0xA5A5_BEEF, empty),
            marks: Guarded::new(&tables.marks, 0xA5, empty),
        }
    }

    pub fn tables(&self) -> Tables {
        Tables {
            longs: self.longs.numbers().to_vec(),
            words: self.words.numbers().to_vec(),
            marks: self.marks.numbers().to_vec(),
        }
    }

    pub fn intact(&self) -> bool {
        self.longs.intact() && self.words.intact() && self.marks.intact()
    }
}

/// What stands beside the lent tables: what the event room and the 64-bit numbers hold
/// before a call (wait's round, run's counts), and where empty slices point.
#[derive(Clone, Copy)]
pub struct Beside<'a> {
    pub room: &'a [u8],
    pub numbers: &'a [u64],
    pub empty: EmptySlice,
}

impl Beside<'_> {
    fn guarded(&self) -> (Guarded<u8>, Guarded<u64>) {
        let numbers = Guarded::new(self.numbers, 0xC3C3_3C3C_5A5A_A5A5, self.empty);
        (Guarded::new(self.room, 0xB7, self.empty), numbers)
    }
}

/// What an exported call left behind.
pub struct Made {
    pub returned: usize,
    pub tables: Tables,
    /// The whole event room.
    pub events: Vec<u8>,
    pub numbers: Vec<u64>,
    pub guards_intact: bool,
}

impl Made {
    fn new(
        returned: usize,
        lent: &GuardedTables,
        room: &Guarded<u8>,
        numbers: &Guarded<u64>,
    ) -> Made {
        Made {
            returned,
            tables: lent.tables(),
            events: room.numbers().to_vec(),
            numbers: numbers.numbers().to_vec(),
            guards_intact: lent.intact() && room.intact() && numbers.intact(),
        }
    }
}

/// Any number but 0 says write: a write's ticket, which nothing else reads, chooses it.
pub fn write_number(access: &Access) -> u32 {
    match access.is_write {
        true => access.ticket.max(1),
        false => 0,
    }
}

/// Makes one exported call on copies of the tables and of what stands beside them.
pub fn make(settings: &[u32], tables: &Tables, call: &Exported, beside: Beside) -> Made {
    let mut settings = Guarded::new(settings, IN_RANGE, beside.empty);
    let (s, sn) = (settings.pointer(), settings.length());
    let mut lent = GuardedTables::new(tables, beside.empty);
    let (mut room, mut numbers) = beside.guarded();
    let (l, ln) = (lent.longs.pointer(), lent.longs.length());
    let (d, dn) = (lent.words.pointer(), lent.words.length());
    let (k, kn) = (lent.marks.pointer(), lent.marks.length());
    let (e, en) = (room.pointer(), room.length());
    let (o, on) = (numbers.pointer(), numbers.length());
    // Each pointer is good for the length beside it and no two slices overlap.
    let returned = unsafe {
        match *call {
            Exported::Fresh => labintugmo_fresh(s, sn, l, ln, d, dn, k, kn) as usize,
            Exported::Check => labintugmo_check(s, sn, l, ln, d, dn, k, kn) as usize,
            Exported::Read { address, ticket } => {
                labintugmo_read(s, sn, l, ln, d, dn, k, kn, address, ticket, e, en)
            }
            Exported::Write { address, mask } => {
                labintugmo_write(s, sn, l, ln, d, dn, k, kn, address, mask, e, en)
            }
            Exported::Access(access) => {
                let Access { address, mask, ticket, .. } = access;
                let write = write_number(&access);
                labintugmo_access(s, sn, l, ln, d, dn, k, kn, write, address, mask, ticket, e, en)
            }
            Exported::Send => labintugmo_send(s, sn, l, ln, d, dn, k, kn, e, en),
            Exported::Fill { address } => {
                labintugmo_fill(s, sn, l, ln, d, dn, k, kn, address, e, en)
            }
            Exported::Tick { cycle } => labintugmo_tick(s, sn, l, ln, d, dn, k, kn, cycle, e, en),
            Exported::Wait(access) => {
                let Access { address, mask, ticket, .. } = access;
                let write = write_number(&access);
                labintugmo_wait(
                    s, sn, l, ln, d, dn, k, kn, write, address, mask, ticket, e, en, o, on,
                )
            }
        }
    };
    Made::new(returned, &lent, &room, &numbers)
}

/// Runs a stream by the library on copies of the tables and of what stands beside them.
pub fn make_run(stream: &[u8], tables: &Tables, beside: Beside) -> Made {
    let mut lent = GuardedTables::new(tables, beside.empty);
    let mut stream = Guarded::new(stream, 0x03, beside.empty);
    let (mut room, mut numbers) = beside.guarded();
    // Each pointer is good for the length beside it and no two slices overlap.
    let returned = unsafe {
        labintugmo_run(
            stream.pointer(),
            stream.length(),
            room.pointer(),
            room.length(),
            lent.longs.pointer(),
            lent.longs.length(),
            lent.words.pointer(),
            lent.words.length(),
            lent.marks.pointer(),
            lent.marks.length(),
            numbers.pointer(),
            numbers.length(),
        )
    };
    Made::new(returned as usize, &lent, &room, &numbers)
}

/// Goes on with a part of a stream by the library, on copies of the tables and of what stands beside them.
pub fn make_resume(settings: &[u32], part: &[u8], tables: &Tables, beside: Beside) -> Made {
    let mut settings = Guarded::new(settings, IN_RANGE, beside.empty);
    let mut lent = GuardedTables::new(tables, beside.empty);
    let mut part = Guarded::new(part, 0x03, beside.empty);
    let (mut room, mut numbers) = beside.guarded();
    // Each pointer is good for the length beside it and no two slices overlap.
    let returned = unsafe {
        labintugmo_resume(
            settings.pointer(),
            settings.length(),
            part.pointer(),
            part.length(),
            room.pointer(),
            room.length(),
            lent.longs.pointer(),
            lent.longs.length(),
            lent.words.pointer(),
            lent.words.length(),
            lent.marks.pointer(),
            lent.marks.length(),
            numbers.pointer(),
            numbers.length(),
        )
    };
    Made::new(returned as usize, &lent, &room, &numbers)
}

/// The lengths that the library asks for.
pub fn lengths(settings: &[u32], empty: EmptySlice) -> [usize; 3] {
    let mut settings = Guarded::new(settings, IN_RANGE, empty);
    let (s, sn) = (settings.pointer(), settings.length());
    unsafe {
        [
            labintugmo_longs_length(s, sn),
            labintugmo_words_length(s, sn),
            labintugmo_marks_length(s, sn),
        ]
    }
}
