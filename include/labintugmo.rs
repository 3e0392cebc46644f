//! The exported calls for Rust, as labintugmo.h declares them: what each does, and what its
//! numbers mean, stands there. Each pointer is good for the length beside it, and no two slices
//! overlap.

macro_rules! declare {
    ($($name:ident($($argument:ident: $kind:ty),*) -> $result:ty;)*) => {
        extern "C" {
            $(pub fn $name(
                settings: *const u32, settings_length: usize, $($argument: $kind),*
            ) -> $result;)*
        }
    };
}

declare! {
    labintugmo_longs_length() -> usize;
    labintugmo_words_length() -> usize;
    labintugmo_marks_length() -> usize;
    labintugmo_fresh(
        longs: *mut u64, longs_length: usize, words: *mut u32, words_length: usize,
        marks: *mut u8, marks_length: usize
    ) -> u32;
    labintugmo_check(
        longs: *const u64, longs_length: usize, words: *const u32, words_length: usize,
        marks: *const u8, marks_length: usize
    ) -> u32;
    labintugmo_read(
        longs: *mut u64, longs_length: usize, words: *mut u32, words_length: usize,
        marks: *mut u8, marks_length: usize, address: u64, ticket: u32,
        events: *mut u8, events_length: usize
    ) -> usize;
    labintugmo_write(
        longs: *mut u64, longs_length: usize, words: *mut u32, words_length: usize,
        marks: *mut u8, marks_length: usize, address: u64, mask: u32,
        events: *mut u8, events_length: usize
    ) -> usize;
    labintugmo_access(
        longs: *mut u64, longs_length: usize, words: *mut u32, words_length: usize,
        marks: *mut u8, marks_length: usize, is_write: u32, address: u64, mask: u32, ticket: u32,
        events: *mut u8, events_length: usize
    ) -> usize;
    labintugmo_send(
        longs: *mut u64, longs_length: usize, words: *mut u32, words_length: usize,
        marks: *mut u8, marks_length: usize, events: *mut u8, events_length: usize
    ) -> usize;
    labintugmo_fill(
        longs: *mut u64, longs_length: usize, words: *mut u32, words_length: usize,
        marks: *mut u8, marks_length: usize, address: u64,
        events: *mut u8, events_length: usize
    ) -> usize;
    labintugmo_tick(
        longs: *mut u64, longs_length: usize, words: *mut u32, words_length: usize,
        marks: *mut u8, marks_length: usize, cycle: u32,
        events: *mut u8, events_length: usize
    ) -> usize;
    labintugmo_wait(
        longs: *mut u64, longs_length: usize, words: *mut u32, words_length: usize,
        marks: *mut u8, marks_length: usize, is_write: u32, address: u64, mask: u32, ticket: u32,
        events: *mut u8, events_length: usize, round: *mut u64, round_length: usize
    ) -> usize;
    labintugmo_rounds(
        longs: *mut u64, longs_length: usize, words: *mut u32, words_length: usize,
        marks: *mut u8, marks_length: usize, is_write: u32, address: u64, mask: u32, ticket: u32,
        n: usize, flags: *mut u8, flags_length: usize,
        events: *mut u8, events_length: usize, counts: *mut u64, counts_length: usize
    ) -> u32;
    labintugmo_struck(
        longs: *mut u64, longs_length: usize, words: *mut u32, words_length: usize,
        marks: *mut u8, marks_length: usize, is_write: u32, address: u64, mask: u32, ticket: u32,
        flags: *const u8, flags_length: usize,
        events: *mut u8, events_length: usize, counts: *mut u64, counts_length: usize
    ) -> u32;
    labintugmo_resume(
        part: *const u8, part_length: usize, events: *mut u8, events_length: usize,
        longs: *mut u64, longs_length: usize, words: *mut u32, words_length: usize,
        marks: *mut u8, marks_length: usize, counts: *mut u64, counts_length: usize
    ) -> u32;
}

extern "C" {
    pub fn labintugmo_run(
        stream: *const u8,
        stream_length: usize,
        events: *mut u8,
        events_length: usize,
        longs: *mut u64,
        longs_length: usize,
        words: *mut u32,
        words_length: usize,
        marks: *mut u8,
        marks_length: usize,
        counts: *mut u64,
        counts_length: usize,
    ) -> u32;
}
