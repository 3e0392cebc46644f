//! The unchecked runner as a program: `plainrun flat|whole|own FILE`. A stream from a file through a buffer of 64 KiB, its events to
//! standard output through another; a last line on standard error. `flat` runs it on the lent tables,
//! `whole` on these too, each line that changes lifted as one array and stored back whole, `own` on tables of its own.

use bench::runner::{settings_length, settings_of, Stopped, CUT_SHORT, NO_ROOM};
use bench::{flat, own};
use std::fs::File;
use std::io::{stdout, Read, Write};
use std::os::fd::AsFd;
use std::process::ExitCode;

const BUFFER: usize = 1 << 16;

/// Runs the parts of a stream behind its settings: why it stops, the bytes consumed and written.
fn run(
    mut input: File,
    mut output: File,
    space: &mut [u8],
    mut part: impl FnMut(&[u8], &mut [u8]) -> Stopped,
) -> Stopped {
    let (buffer, room) = space.split_at_mut(BUFFER);
    let (mut have, mut consumed, mut written) = (0, 0, 0);
    let number = 'all: loop {
        let got = input.read(&mut buffer[have..]).expect("read");
        if got == 0 {
            break if have == 0 { 0 } else { CUT_SHORT };
        }
        have += got;
        let mut at = 0;
        loop {
            let stopped = part(&buffer[at..have], room);
            output.write_all(&room[..stopped.written]).expect("written");
            at += stopped.consumed;
            consumed += stopped.consumed;
            written += stopped.written;
            match stopped.number {
                NO_ROOM => continue,
                0 | CUT_SHORT => break,
                number => break 'all number,
            }
        }
        buffer.copy_within(at..have, 0);
        have -= at;
    };
    Stopped { number, consumed, written }
}

fn main() -> ExitCode {
    let mut words = std::env::args().skip(1);
    let (Some(which), Some(name)) = (words.next(), words.next()) else {
        eprintln!("usage: plainrun flat|whole|own FILE");
        return ExitCode::from(2);
    };
    let mut input = File::open(name).expect("opened");
    // Not through the buffer of standard output, which looks for the ends of lines.
    let output = File::from(stdout().as_fd().try_clone_to_owned().expect("standard output"));
    let mut space = vec![0; 2 * BUFFER];
    input.read_exact(&mut space[..1]).expect("a kind");
    let first = settings_length(space[0]);
    input.read_exact(&mut space[1..first]).expect("settings");
    let settings = settings_of(&space);
    let mut tables = flat::Tables::fresh(settings);
    let stopped = match which.as_str() {
        "flat" => run(input, output, &mut space, |part, room| tables.run(part, room)),
        "whole" => run(input, output, &mut space, |part, room| tables.run_whole(part, room)),
        _ => {
            let mut cache = own::Cache::new(settings);
            run(input, output, &mut space, |part, room| cache.run(part, room))
        }
    };
    let Stopped { number, consumed, written } = stopped;
    eprintln!("stop {number} consumed {} written {written}", first + consumed);
    ExitCode::SUCCESS
}
