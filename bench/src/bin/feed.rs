//! Writes a file to a pipe on standard output in pieces of 1 to 20 bytes: `feed FILE`. Each piece is written once the one before
//! was read, so that the reader gets just these pieces. A reader that stops before the end is an error.

use bench::stream::Random;
use std::fs::File;
use std::io::{stdout, Write};
use std::os::fd::AsFd;
use std::process::ExitCode;
use std::time::{Duration, Instant};

extern "C" {
    fn ioctl(descriptor: i32, request: u64, ...) -> i32;
}

/// Bytes that wait in the pipe on standard output, or below 0 if it is none.
fn waiting() -> i32 {
    const STDOUT: i32 = 1;
    const FIONREAD: u64 = 0x541B;
    let mut count = 0;
    match unsafe { ioctl(STDOUT, FIONREAD, &mut count) } {
        0 => count,
        failed => failed,
    }
}

/// Whether the pipe gets empty; a reader that is gone never empties it.
fn taken() -> bool {
    let start = Instant::now();
    while waiting() > 0 {
        if start.elapsed() > Duration::from_secs(20) {
            return false;
        }
        std::thread::yield_now();
    }
    waiting() == 0
}

fn main() -> ExitCode {
    let name = std::env::args().nth(1).expect("a file");
    let bytes = std::fs::read(name).expect("read");
    // Not through the buffer of standard output, which cuts at the ends of lines.
    let mut out = File::from(stdout().as_fd().try_clone_to_owned().expect("standard output"));
    let mut random = Random(1);
    let mut at = 0;
    while at < bytes.len() {
        let end = bytes.len().min(at + 1 + random.below(20) as usize);
        if out.write_all(&bytes[at..end]).is_err() || !taken() {
            eprintln!("feed: the reader of the pipe stops at byte {at} of {}", bytes.len());
            return ExitCode::FAILURE;
        }
        at = end;
    }
    ExitCode::SUCCESS
}
