//! Writes a stream of any length to standard output:
//! `benchstream ACCESSES SETS WAYS [--no-ticks] [--writes N] [--rule N]`.

use bench::calls::Settings;
use bench::stream::{self, Mix};
use std::io::{BufWriter, Write};

fn main() {
    let words: Vec<String> = std::env::args().skip(1).collect();
    let number = |at: usize| words[at].parse::<u32>().expect("a number");
    let option = |name: &str, usual: u32| {
        words.iter().position(|word| word == name).map_or(usual, |at| number(at + 1))
    };
    let (sets, ways, rule) = (number(1), number(2), option("--rule", 0));
    let settings = Settings { sets, ways, dirty: 25, misses: 16, readers: 4, queue: 16, rule };
    let writes = u64::from(option("--writes", 30));
    let mix = Mix { ticks: !words.contains(&"--no-ticks".to_owned()), writes };
    let mut out = BufWriter::with_capacity(1 << 16, std::io::stdout().lock());
    out.write_all(&stream::settings_record(settings)).expect("written");
    let mut bytes = Vec::new();
    stream::generate(settings, number(0) as usize, mix, |command, _| {
        bytes.clear();
        stream::record(&mut bytes, command);
        out.write_all(&bytes).expect("written");
    });
}
