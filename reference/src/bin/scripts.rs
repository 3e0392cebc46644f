//! `scripts calls` and `scripts streams`: what the test programs `cache_tests` and `runner_tests`
//! are to print for the script on standard input, by the reference. Where a test is named after a
//! condition of sound tables and its tables break another one too, standard error says so.

use reference::model::{broken, call_on, check, fresh_on, lengths_for, Access, Answer, Cache};
use reference::model::{Call, Event, Outcome, Refusal, Settings, Tables};
use reference::runner::{self, call_record, ruled_record, settings_record};
use std::io::{self, Read};

/// Numbers that the programs have for each slice, of which they lend some.
const MOST: [usize; 3] = [16, 64, 64];

/// The settings whose tables a stream is lent unless its script says otherwise.
const USUAL: Settings = Settings::new([1, 2, 50, 2, 2, 4]);

/// What the tables and the event room hold before a stream is run.
const STALE: u64 = 9;
const BLANK: u8 = 0xEE;

struct Line<'a> {
    word: &'a str,
    rest: &'a str,
    numbers: Vec<u64>,
}

impl Line<'_> {
    fn of(text: &str) -> Option<Line<'_>> {
        let text = text.split('#').next().unwrap_or("").trim();
        let (word, rest) = text.split_once(' ').unwrap_or((text, ""));
        let numbers = rest.split_whitespace().filter_map(number).collect();
        (!word.is_empty()).then(|| Line { word, rest: rest.trim(), numbers })
    }

    fn settings(&self) -> Settings {
        let numbers: Vec<u32> = self.numbers.iter().map(|&n| n as u32).collect();
        assert!(numbers.len() == 6 || numbers.len() == 7, "six settings, or seven with the rule");
        Settings::from_numbers(&numbers)
    }

    /// Of kind 0, or of kind 6 where the line names the rule.
    fn settings_record(&self) -> Vec<u8> {
        match self.numbers.len() {
            7 => ruled_record(&self.settings()),
            _ => settings_record(&self.settings()),
        }
    }

    fn call(&self) -> Option<Call> {
        let number = |which: usize| self.numbers.get(which).copied().unwrap_or(0);
        Some(match self.word {
            "read" => Call::Access(Access::read(number(0), number(1) as u32)),
            "write" => Call::Access(Access::write(number(0), number(1) as u32)),
            "masked" => {
                Call::Access(Access { mask: number(1) as u32, ..Access::read(number(0), 0) })
            }
            "send" => Call::Send,
            "fill" => Call::Fill(number(0)),
            "tick" => Call::Tick(number(0) as u32),
            _ => return None,
        })
    }

    fn lengths(&self) -> [usize; 3] {
        [0, 1, 2].map(|which| (self.numbers[which] as usize).min(MOST[which]))
    }
}

fn number(word: &str) -> Option<u64> {
    match word.strip_prefix("0x") {
        Some(digits) => u64::from_str_radix(digits, 16).ok(),
        None => word.parse().ok(),
    }
}

fn masks_text(masks: [u32; 4]) -> String {
    masks.iter().map(|mask| format!(" {mask:08x}")).collect()
}

fn answer_text(answer: Answer) -> &'static str {
    match answer {
        Answer::Hit => "HIT",
        Answer::HitReserved => "HIT_RESERVED",
        Answer::Miss => "MISS",
        Answer::SectorMiss => "SECTOR_MISS",
    }
}

fn event_text(event: &Event) -> String {
    match *event {
        Event::Answer { answer, line } => format!("{} line {line}", answer_text(answer)),
        Event::Refused { number } => format!("refused {number}"),
        Event::ReadQueued { address } => format!("read queued {address:#x}"),
        Event::WriteBackQueued { block, masks } => {
            format!("write-back queued {block:#x} masks{}", masks_text(masks))
        }
        Event::Released { ticket } => format!("released {ticket}"),
        Event::ReadSent { address } => format!("read sent {address:#x}"),
        Event::WriteBackSent { block, masks } => {
            format!("write-back sent {block:#x} masks{}", masks_text(masks))
        }
        Event::Filled { address } => format!("filled {address:#x}"),
        Event::Ticked => "ticked".to_string(),
    }
}

fn refusal_text(refusal: Refusal) -> String {
    format!("refused {}, tables unchanged", refusal.number())
}

fn outcome_text(outcome: &Outcome) -> String {
    match outcome {
        Ok(events) => events.iter().map(event_text).collect::<Vec<_>>().join(", "),
        Err(refusal) => refusal_text(*refusal),
    }
}

fn verdict_text(verdict: Result<(), Refusal>, passed: &str) -> String {
    verdict.map_or_else(refusal_text, |()| passed.to_string())
}

/// All the numbers that a program has, and how many of each it lends.
struct Bench {
    settings: Settings,
    lengths: [usize; 3],
    all: Tables,
    asked: Option<String>,
}

impl Bench {
    fn new() -> Bench {
        let [longs, words, marks] = MOST;
        let all = Tables { longs: vec![0; longs], words: vec![0; words], marks: vec![0; marks] };
        Bench { settings: Settings::new([0; 6]), lengths: [0; 3], all, asked: None }
    }

    fn lent(&self) -> Tables {
        let [longs, words, marks] = self.lengths;
        Tables {
            longs: self.all.longs[..longs].to_vec(),
            words: self.all.words[..words].to_vec(),
            marks: self.all.marks[..marks].to_vec(),
        }
    }

    fn back(&mut self, lent: &Tables) {
        self.all.longs[..lent.longs.len()].copy_from_slice(&lent.longs);
        self.all.words[..lent.words.len()].copy_from_slice(&lent.words);
        self.all.marks[..lent.marks.len()].copy_from_slice(&lent.marks);
    }

    fn told(&mut self, outcome: &str) {
        if let Some(name) = self.asked.take() {
            println!("{name}: {outcome}");
        }
    }

    fn fresh(&mut self) {
        let mut lent = self.lent();
        let verdict = fresh_on(&self.settings, &mut lent);
        self.back(&lent);
        self.told(&verdict_text(verdict, "fresh"));
    }

    fn check(&mut self) {
        let verdict = check(&self.settings, &self.lent());
        self.compare_condition(verdict);
        self.told(&verdict_text(verdict, "sound"));
    }

    /// A test named after a condition breaks that one and no other.
    fn compare_condition(&self, verdict: Result<(), Refusal>) {
        let name = self.asked.as_deref().unwrap_or("");
        let Some(rest) = name.strip_prefix("condition ") else { return };
        let digits: String = rest.chars().take_while(char::is_ascii_digit).collect();
        let condition: usize = digits.parse().expect("a condition's number");
        let found = broken(&self.settings, &self.lent());
        if found != [condition] || verdict != Err(Refusal::NotSound) {
            eprintln!("{name}: breaks {found:?}");
        }
    }

    fn make(&mut self, call: Call) {
        let mut lent = self.lent();
        let outcome = call_on(&self.settings, &mut lent, call);
        self.back(&lent);
        self.told(&outcome_text(&outcome));
    }

    fn line(&mut self, line: &Line) {
        match line.word {
            "test" => self.asked = Some(line.rest.to_string()),
            "settings" => {
                self.settings = line.settings();
                if self.settings.in_range() {
                    self.lengths = lengths_for(&self.settings);
                }
                self.fresh();
            }
            "lengths" => self.lengths = line.lengths(),
            "long" => self.all.longs[line.numbers[0] as usize] = line.numbers[1],
            "word" => self.all.words[line.numbers[0] as usize] = line.numbers[1] as u32,
            "mark" => self.all.marks[line.numbers[0] as usize] = line.numbers[1] as u8,
            "fresh" => self.fresh(),
            "check" => self.check(),
            "dirty" => {
                let dirty = Cache::decode(&self.settings, &self.lent()).dirty_lines();
                self.told(&format!("dirty lines {dirty}"));
            }
            _ => self.make(line.call().expect("a line of the script")),
        }
    }
}

/// A stream and what it is run on.
struct Stream {
    name: String,
    bytes: Vec<u8>,
    lengths: [usize; 3],
    room: usize,
}

impl Stream {
    fn named(name: &str) -> Stream {
        let lengths = lengths_for(&USUAL);
        Stream { name: name.to_string(), bytes: Vec::new(), lengths, room: 256 }
    }

    fn stale(&self) -> Tables {
        let [longs, words, marks] = self.lengths;
        Tables {
            longs: vec![STALE; longs],
            words: vec![STALE as u32; words],
            marks: vec![STALE as u8; marks],
        }
    }

    fn run(&self) {
        let mut tables = self.stale();
        let mut room = vec![BLANK; self.room];
        let stopped = runner::run(&self.bytes, &mut tables, &mut room);
        self.print(stopped, &tables, &room);
    }

    /// A part that goes on from these tables, where they have the lengths that are lent.
    fn resume(&self, sets: u64, from: Tables) {
        let mut tables = self.stale();
        let cut = |a: usize, b: usize| a.min(b);
        let [l, w, m] = [
            cut(tables.longs.len(), from.longs.len()),
            cut(tables.words.len(), from.words.len()),
            cut(tables.marks.len(), from.marks.len()),
        ];
        tables.longs[..l].copy_from_slice(&from.longs[..l]);
        tables.words[..w].copy_from_slice(&from.words[..w]);
        tables.marks[..m].copy_from_slice(&from.marks[..m]);
        let mut room = vec![BLANK; self.room];
        let settings = Settings { sets: sets as u32, ..USUAL };
        let stopped = runner::resume(&settings, &self.bytes, &mut tables, &mut room);
        self.print(stopped, &tables, &room);
    }

    fn print(&self, stopped: runner::Stopped, tables: &Tables, room: &[u8]) {
        let runner::Stopped { number, consumed, written } = stopped;
        assert!(room[written..].iter().all(|&byte| byte == BLANK));
        let left = if *tables == self.stale() {
            "unchanged"
        } else if *tables == Tables::fresh(&USUAL) {
            "fresh"
        } else {
            "as run"
        };
        println!(
            "{}: stop {number} consumed {consumed} written {written}, tables {left}, \
             bytes beyond unchanged",
            self.name
        );
        if written > 0 {
            let digits: String =
                room[..written].iter().map(|byte| format!(" {byte:02x}")).collect();
            println!("   {digits}");
        }
    }

    fn line(&mut self, line: &Line) {
        match line.word {
            "test" => *self = Stream::named(line.rest),
            "settings" => self.bytes.extend(line.settings_record()),
            "byte" => self.bytes.push(line.numbers[0] as u8),
            "cut" => self.bytes.truncate(self.bytes.len() - line.numbers[0] as usize),
            "room" => self.room = line.numbers[0] as usize,
            "lengths" => self.lengths = line.lengths(),
            "run" => self.run(),
            "resume" => self.resume(line.numbers[0], Tables::fresh(&USUAL)),
            "stale" => self.resume(line.numbers[0], self.stale()),
            _ => self.bytes.extend(call_record(&line.call().expect("a line of the script"))),
        }
    }
}

fn main() {
    let mut script = String::new();
    io::stdin().read_to_string(&mut script).expect("a script on standard input");
    let lines = script.lines().filter_map(Line::of);
    match std::env::args().nth(1).as_deref() {
        Some("calls") => {
            let mut bench = Bench::new();
            lines.for_each(|line| bench.line(&line));
        }
        Some("streams") => {
            let mut stream = Stream::named("");
            lines.for_each(|line| stream.line(&line));
        }
        _ => eprintln!("usage: scripts calls|streams < SCRIPT"),
    }
}
