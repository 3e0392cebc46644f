//! The library under the C names, lent tables, and the calls on them.

// Not every call is measured.
#[allow(dead_code)]
#[path = "../../include/labintugmo.rs"]
mod labintugmo;

use bench::calls::{Command, Settings};
use bench::runner::Stopped;
use labintugmo::*;

/// Lent tables with their settings.
#[derive(Clone)]
pub struct Tables {
    pub settings: Settings,
    pub longs: Vec<u64>,
    pub words: Vec<u32>,
    pub marks: Vec<u8>,
}

/// The numbers that are lent as settings.
fn numbers(settings: Settings) -> [u32; 7] {
    let Settings { sets, ways, dirty, misses, readers, queue, rule } = settings;
    [sets, ways, dirty, misses, readers, queue, rule]
}

/// The settings of some tables, then their three slices, as arguments of a call.
macro_rules! call {
    ($name:ident, $tables:expr $(, $argument:expr)*) => {{
        let tables = $tables;
        let settings = numbers(tables.settings);
        // The slices are different vectors, each lent with its own length.
        unsafe {
            $name(
                settings.as_ptr(), settings.len(),
                tables.longs.as_mut_ptr(), tables.longs.len(),
                tables.words.as_mut_ptr(), tables.words.len(),
                tables.marks.as_mut_ptr(), tables.marks.len(),
                $($argument),*
            )
        }
    }};
}

impl Tables {
    pub fn fresh(settings: Settings) -> Tables {
        let lent = numbers(settings);
        let [longs, words, marks] = unsafe {
            [
                labintugmo_longs_length(lent.as_ptr(), lent.len()),
                labintugmo_words_length(lent.as_ptr(), lent.len()),
                labintugmo_marks_length(lent.as_ptr(), lent.len()),
            ]
        };
        let (longs, words, marks) = (vec![0; longs], vec![0; words], vec![0; marks]);
        let mut tables = Tables { settings, longs, words, marks };
        assert_eq!(call!(labintugmo_fresh, &mut tables), 0, "settings are in range");
        tables
    }

    pub fn memory(&self) -> usize {
        8 * self.longs.len() + 4 * self.words.len() + self.marks.len()
    }

    /// 0, or the refusal number.
    pub fn check(&mut self) -> u32 {
        call!(labintugmo_check, self)
    }

    /// Makes an exported call, which checks the tables first; the event bytes written.
    pub fn call(&mut self, command: Command, events: &mut [u8]) -> usize {
        let (room, length) = (events.as_mut_ptr(), events.len());
        match command {
            Command::Read { address, ticket } => {
                call!(labintugmo_read, self, address, ticket, room, length)
            }
            Command::Write { address, mask } => {
                call!(labintugmo_write, self, address, mask, room, length)
            }
            Command::Send => call!(labintugmo_send, self, room, length),
            Command::Fill { address } => call!(labintugmo_fill, self, address, room, length),
            Command::Tick { cycle } => call!(labintugmo_tick, self, cycle, room, length),
        }
    }

    pub fn run(&mut self, stream: &[u8], events: &mut [u8]) -> Stopped {
        let mut counts = [0u64; 2];
        let number = unsafe {
            labintugmo_run(
                stream.as_ptr(),
                stream.len(),
                events.as_mut_ptr(),
                events.len(),
                self.longs.as_mut_ptr(),
                self.longs.len(),
                self.words.as_mut_ptr(),
                self.words.len(),
                self.marks.as_mut_ptr(),
                self.marks.len(),
                counts.as_mut_ptr(),
                counts.len(),
            )
        };
        let [consumed, written] = counts.map(|count| count as usize);
        Stopped { number: number as u8, consumed, written }
    }
}
