//! Measures the library beside plain Rust that does the same work, over the lent tables and over
//! tables of its own, in one process, one after the other on the same stream, and prints the figures
//! as Markdown tables.
//!
//!     bench [--accesses N] [--rounds N] [--ratios FILE]
//!
//! The events are compared before anything is timed, and flat's tables with the library's. A time is the processor time of
//! this thread, the best of a few rounds in which the two sides take turns, so that neither
//! another program nor a disturbance weighs on one side alone.

mod library;

use bench::calls::{Calls, Command, Settings};
use bench::events::ROOM;
use bench::flat::check::sound;
use bench::runner::Stopped;
use bench::{flat, own, runner, stream};
use library::Tables;
use std::fmt::Write;
use std::hint::black_box;
use std::process::ExitCode;
use stream::Measured;

struct Options {
    accesses: usize,
    rounds: usize,
    ratios: Option<String>,
}

fn options() -> Option<Options> {
    let mut options = Options { accesses: 1_000_000, rounds: 15, ratios: None };
    let mut words = std::env::args().skip(1);
    while let Some(word) = words.next() {
        let value = words.next()?;
        match word.as_str() {
            "--accesses" => options.accesses = value.parse().ok()?,
            "--rounds" => options.rounds = value.parse().ok()?,
            "--ratios" => options.ratios = Some(value),
            _ => return None,
        }
    }
    (options.accesses > 0 && options.rounds > 0).then_some(options)
}

/// Sets and ways that are measured.
const SIZES: [(u32, u32); 3] = [(1, 4), (64, 4), (256, 4)];

fn settings_for((sets, ways): (u32, u32)) -> Settings {
    Settings { sets, ways, dirty: 25, misses: 16, readers: 4, queue: 16, rule: 0 }
}

/// The C library's time, on 64-bit Linux.
#[repr(C)]
struct Timespec {
    seconds: i64,
    nanoseconds: i64,
}

extern "C" {
    fn clock_gettime(clock: i32, time: *mut Timespec) -> i32;
}

/// Seconds of processor time that this thread has had.
fn processor_time() -> f64 {
    const CLOCK_THREAD_CPUTIME_ID: i32 = 3;
    let mut time = Timespec { seconds: 0, nanoseconds: 0 };
    let status = unsafe { clock_gettime(CLOCK_THREAD_CPUTIME_ID, &mut time) };
    assert_eq!(status, 0, "the thread has a clock");
    time.seconds as f64 + time.nanoseconds as f64 / 1e9
}

fn timed(work: impl FnOnce()) -> f64 {
    let start = processor_time();
    work();
    processor_time() - start
}

/// Keeps a result from being optimised away.
fn seen<T>(result: T) {
    black_box(result);
}

/// The best time of each piece of work, taken in turns.
fn best<const N: usize>(rounds: usize, mut works: [&mut dyn FnMut(); N]) -> [f64; N] {
    let mut least = [f64::INFINITY; N];
    for _ in 0..rounds {
        for (work, least) in works.iter_mut().zip(&mut least) {
            *least = least.min(timed(work));
        }
    }
    least
}

/// One row of a table: what was measured, figures, ratios.
struct Row {
    name: String,
    figures: Vec<String>,
    ratios: Vec<f64>,
}

struct Table {
    title: &'static str,
    note: String,
    figures: &'static [&'static str],
    ratios: &'static [&'static str],
    rows: Vec<Row>,
}

impl Table {
    fn text(&self, with_figures: bool) -> String {
        let figures = if with_figures { self.figures } else { &[] };
        let heads: Vec<&str> = figures.iter().chain(self.ratios).copied().collect();
        let mut text =
            format!("### {}\n\n{}\n\n| | {} |\n", self.title, self.note, heads.join(" | "));
        writeln!(text, "|---|{}", "---:|".repeat(heads.len())).expect("a string takes all");
        for row in &self.rows {
            let mut cells = if with_figures { row.figures.clone() } else { Vec::new() };
            cells.extend(row.ratios.iter().map(|&ratio| three_digits(ratio)));
            writeln!(text, "| {} | {} |", row.name, cells.join(" | ")).expect("a string takes all");
        }
        text
    }
}

/// Three digits that count, as far as a table needs them.
fn three_digits(ratio: f64) -> String {
    let places = match ratio {
        _ if ratio >= 100.0 => 0,
        _ if ratio >= 10.0 => 1,
        _ if ratio >= 1.0 => 2,
        _ => 3,
    };
    format!("{ratio:.places$}")
}

fn millions(count: usize, seconds: f64) -> String {
    format!("{:.2} M/s", count as f64 / seconds / 1e6)
}

fn nanoseconds(seconds: f64) -> String {
    format!("{:.0} ns", seconds * 1e9)
}

fn size_name((sets, ways): (u32, u32)) -> String {
    format!("{sets} x {ways}")
}

/// Runs a stream from its settings on, by a function that runs the part behind them.
fn whole(bytes: &[u8], room: &mut [u8], part: impl FnOnce(&[u8], &mut [u8]) -> Stopped) -> Stopped {
    let first = runner::settings_length(bytes[0]);
    let stopped = part(&bytes[first..], room);
    Stopped { consumed: first + stopped.consumed, ..stopped }
}

fn run_flat(measured: &Measured, room: &mut [u8]) -> (Stopped, flat::Tables) {
    let mut tables = flat::Tables::fresh(measured.settings);
    let stopped = whole(&measured.bytes, room, |part, room| tables.run(part, room));
    (stopped, tables)
}

fn run_own(measured: &Measured, room: &mut [u8]) -> Stopped {
    let mut cache = own::Cache::new(measured.settings);
    whole(&measured.bytes, room, |part, room| cache.run(part, room))
}

/// The three write the same events and stop alike, and the library's tables and flat's are the same
/// at the end, number for number.
fn same_runs(measured: &Measured, room: &mut [u8]) {
    let mut tables = Tables::fresh(measured.settings);
    let check = |stopped: Stopped, room: &[u8], whose: &str| {
        assert_eq!((stopped.number, stopped.consumed), (0, measured.bytes.len()));
        assert!(room[..stopped.written] == measured.log[..], "the events of {whose} differ");
    };
    let stopped = tables.run(&measured.bytes, room);
    check(stopped, room, "the library");
    let (stopped, lent) = run_flat(measured, room);
    check(stopped, room, "flat");
    let stopped = run_own(measured, room);
    check(stopped, room, "own");
    assert!(tables.longs == lent.longs, "the longs differ");
    assert!(tables.words == lent.words, "the words differ");
    assert!(tables.marks == lent.marks, "the marks differ");
}

/// Whole streams through the runner.
fn whole_streams(options: &Options, streams: &[Measured]) -> Table {
    let mut rows = Vec::new();
    for (size, measured) in SIZES.iter().zip(streams) {
        let mut room = vec![0; measured.log.len() + 64];
        same_runs(measured, &mut room);
        let mut tables = Tables::fresh(measured.settings);
        let (mut other, mut third) = (room.clone(), room.clone());
        let [library, flat, own] = best(
            options.rounds,
            [
                &mut || seen(tables.run(&measured.bytes, &mut room)),
                &mut || seen(run_flat(measured, &mut other).0),
                &mut || seen(run_own(measured, &mut third)),
            ],
        );
        let rate = |seconds| millions(measured.accesses, seconds);
        rows.push(Row {
            name: size_name(*size),
            figures: vec![rate(library), rate(flat), rate(own)],
            ratios: vec![flat / library, own / library],
        });
    }
    Table {
        title: "The runner over a whole stream",
        note:
            "Accesses a second, each with its tick, send and fill. Ratio: the library's speed over \
               that of plain Rust, on the lent tables (flat) and on tables of its own (own)."
                .to_string(),
        figures: &["library", "flat", "own"],
        ratios: &["over flat's", "over own's"],
        rows,
    }
}

/// How many of the stream's commands the library's single calls do in about a fifth of a second.
fn commands_in_time(measured: &Measured) -> usize {
    let mut tables = Tables::fresh(measured.settings);
    let mut room = [0; 64];
    let start = processor_time();
    let mut at = 0;
    for (count, command) in measured.commands.iter().enumerate() {
        let written = tables.call(*command, &mut room);
        assert!(room[..written] == measured.log[at..at + written], "the library's events differ");
        at += written;
        if count % 64 == 63 && processor_time() - start > 0.2 {
            return count + 1;
        }
    }
    measured.commands.len()
}

/// The stream's commands one by one, the library's each with its check.
fn single_calls(options: &Options, streams: &[Measured]) -> Table {
    let mut rows = Vec::new();
    for (size, measured) in SIZES.iter().zip(streams) {
        let count = commands_in_time(measured);
        let commands = &measured.commands[..count];
        let accesses = commands.iter().filter(|c| matches!(c, Command::Tick { .. })).count();
        let start = Tables::fresh(measured.settings);
        let [library, own] = best(
            options.rounds,
            [
                &mut || {
                    let (mut tables, mut room) = (start.clone(), [0; 64]);
                    for command in commands {
                        seen(tables.call(*command, &mut room));
                    }
                },
                &mut || {
                    let (mut cache, mut room) = (own::Cache::new(measured.settings), [0; ROOM]);
                    for command in commands {
                        seen(cache.call(*command, &mut room));
                    }
                },
            ],
        );
        let rate = |seconds| format!("{:.1} k/s", accesses as f64 / seconds / 1e3);
        rows.push(Row {
            name: size_name(*size),
            figures: vec![rate(library), rate(own)],
            ratios: vec![library / own],
        });
    }
    Table {
        title: "The single calls",
        note: "The same stream, call by call. Each of the library's calls checks the whole tables \
               first; plain Rust with tables of its own checks nothing. Accesses a second, each with \
               its tick, send and fill."
            .to_string(),
        figures: &["library", "own"],
        ratios: &["time over own's"],
        rows,
    }
}

/// Tables of 1,024 lines, so many of them live, with so many miss entries, the later half of them
/// in the queue and the others sent. A third of the live lines have a dirty sector, and each entry
/// but the last has four readers.
fn filled(lines: u64, reads: u64) -> Tables {
    let settings =
        Settings { sets: 256, ways: 4, dirty: 0, misses: 64, readers: 4, queue: 64, rule: 0 };
    let mut tables = Tables::fresh(settings);
    let mut call = |command| {
        let mut room = [0; 64];
        let written = tables.call(command, &mut room);
        assert!(written > 0 && room[0] != 0x11, "a call that fills the tables is refused");
    };
    for block in 0..lines {
        let address = 128 * block;
        call(Command::Read { address, ticket: 0 });
        call(Command::Send);
        call(Command::Fill { address });
        if block % 3 == 0 {
            call(Command::Write { address: address + 32, mask: 0xFF });
        }
    }
    for block in 0..reads {
        let readers = if block + 1 < reads { 4 } else { 1 };
        for ticket in 0..readers {
            call(Command::Read { address: 128 * block + 64, ticket });
        }
    }
    for _ in 0..reads / 2 {
        call(Command::Send);
    }
    tables
}

/// Seconds for one of each piece of work, from batches that take long enough to be timed and are
/// short enough that many of them run undisturbed.
fn one<const N: usize>(rounds: usize, mut works: [&mut dyn FnMut(); N]) -> [f64; N] {
    const BATCH: f64 = 0.004;
    const BATCHES: usize = 8;
    let mut counts = [1; N];
    for (work, count) in works.iter_mut().zip(&mut counts) {
        while timed(|| (0..*count).for_each(|_| work())) < BATCH {
            *count *= 2;
        }
    }
    let mut least = [f64::INFINITY; N];
    for _ in 0..BATCHES * rounds {
        for ((work, least), &count) in works.iter_mut().zip(&mut least).zip(&counts) {
            let time = timed(|| (0..count).for_each(|_| work()));
            *least = least.min(time / f64::from(count));
        }
    }
    least
}

fn plain_sound(tables: &Tables) -> bool {
    sound(&tables.settings, &tables.longs, &tables.words, &tables.marks)
}

/// Both checks say the same of tables with any one number changed in a few ways.
fn same_check() -> usize {
    let settings =
        Settings { sets: 2, ways: 2, dirty: 0, misses: 3, readers: 2, queue: 4, rule: 2 };
    let mut tables = Tables::fresh(settings);
    let mut room = [0; 64];
    tables.call(Command::Tick { cycle: 5 }, &mut room);
    for address in [0, 256, 128] {
        tables.call(Command::Write { address, mask: 0xFF }, &mut room);
    }
    for address in [0, 32, 128] {
        tables.call(Command::Read { address, ticket: 5 }, &mut room);
    }
    tables.call(Command::Send, &mut room);
    tables.call(Command::Write { address: 512, mask: 1 }, &mut room);
    let mut compared = 0;
    let mut compare = |tables: &mut Tables| {
        assert_eq!(tables.check() == 0, plain_sound(tables), "the two checks differ");
        compared += 1;
    };
    compare(&mut tables);
    for at in 0..tables.longs.len() {
        for number in [0, 1, 32, 128, 160, 256, 512, 1 << 48, u64::MAX] {
            let mut other = tables.clone();
            other.longs[at] = number;
            compare(&mut other);
        }
    }
    for at in 0..tables.words.len() {
        for number in [0, 1, 5, 0xFF, u32::MAX - 1, u32::MAX] {
            let mut other = tables.clone();
            other.words[at] = number;
            compare(&mut other);
            other.settings.rule = 0;
            compare(&mut other);
        }
    }
    for at in 0..tables.marks.len() {
        for number in [0, 1, 2, 3, 4, 255] {
            let mut other = tables.clone();
            other.marks[at] = number;
            compare(&mut other);
        }
    }
    compared
}

fn soundness(options: &Options) -> Table {
    let compared = same_check();
    let kinds = [("fresh", 0, 0), ("half full", 512, 32), ("full", 1024, 62)];
    let mut rows = Vec::new();
    for (name, lines, reads) in kinds {
        let mut tables = filled(lines, reads);
        assert!(tables.check() == 0 && plain_sound(&tables), "the tables are sound");
        let other = tables.clone();
        let [library, plain] = one(
            options.rounds,
            [&mut || seen(tables.check()), &mut || seen(plain_sound(black_box(&other)))],
        );
        rows.push(Row {
            name: name.to_string(),
            figures: vec![nanoseconds(library), nanoseconds(plain)],
            ratios: vec![library / plain],
        });
    }
    Table {
        title: "One soundness check",
        note: format!(
            "Tables of 256 x 4: fresh; with 512 live lines, 32 miss entries and 16 of them queued; \
             with 1,024, 62 and 31. The same check in plain Rust, over the same three slices; the \
             two were compared on {compared} small tables."
        ),
        figures: &["library", "plain Rust"],
        ratios: &["time over plain Rust's"],
        rows,
    }
}

fn memory() -> Table {
    let mut rows = Vec::new();
    for size in SIZES {
        let settings = settings_for(size);
        let (lent, own) = (Tables::fresh(settings).memory(), own::Cache::memory(&settings));
        rows.push(Row {
            name: size_name(size),
            figures: vec![format!("{lent} B"), format!("{own} B")],
            ratios: vec![lent as f64 / own as f64],
        });
    }
    Table {
        title: "Memory of the tables",
        note: "The three lent slices, all that the library and flat use, and own's vectors with their \
               structure, whose queue has 64 places at any settings."
            .to_string(),
        figures: &["lent", "own"],
        ratios: &["bytes over own's"],
        rows,
    }
}

/// What the measured streams are, in words.
fn describe(streams: &[Measured]) -> String {
    let accesses = streams[0].accesses;
    let mut text = format!(
        "Streams of {accesses} accesses, 70 in a hundred reads; P 25, 16 miss entries, 4 readers, \
         16 queue places. Answers in a hundred:\n\n\
         | | HIT | HIT_RESERVED | MISS | SECTOR_MISS | refused |\n|---|---:|---:|---:|---:|---:|\n"
    );
    for (size, measured) in SIZES.iter().zip(streams) {
        let shares = measured.shares().map(|share| format!("{share:.1}"));
        writeln!(text, "| {} | {} |", size_name(*size), shares.join(" | "))
            .expect("a string takes all");
    }
    text
}

fn main() -> ExitCode {
    let Some(options) = options() else {
        eprintln!("usage: bench [--accesses N] [--rounds N] [--ratios FILE]");
        return ExitCode::from(2);
    };
    let streams = SIZES.map(|size| Measured::new(settings_for(size), options.accesses));
    let about = describe(&streams);
    println!("{about}");
    let tables = [
        whole_streams(&options, &streams),
        single_calls(&options, &streams),
        soundness(&options),
        memory(),
    ];
    for table in &tables {
        println!("{}", table.text(true));
    }
    if let Some(path) = &options.ratios {
        let texts: Vec<String> = tables.iter().map(|table| table.text(false)).collect();
        if let Err(error) = std::fs::write(path, format!("{about}\n{}", texts.join("\n"))) {
            eprintln!("bench: {path}: {error}");
            return ExitCode::from(1);
        }
    }
    ExitCode::SUCCESS
}
