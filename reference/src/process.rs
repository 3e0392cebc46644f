//! A program run on bytes: its standard input is fed, its output gathered. Then what a comparison
//! of many such runs says: bytes as text, and its exit status.

use std::io::{self, Write};
use std::process::{Command, ExitCode, Output, Stdio};

/// What a fresh pipe takes without a reader.
const PIPE_ROOM: usize = 4096;

pub fn output_of(program: &str, args: &[String], input: &[u8]) -> io::Result<Output> {
    let mut child = Command::new(program)
        .args(args)
        .stdin(Stdio::piped())
        .stdout(Stdio::piped())
        .stderr(Stdio::piped())
        .spawn()?;
    let mut pipe = child.stdin.take().expect("standard input is a pipe");
    // A program that stops early may leave its input unread, so a broken pipe is no fault.
    if input.len() <= PIPE_ROOM {
        let _ = pipe.write_all(input);
        drop(pipe);
        return child.wait_with_output();
    }
    let input = input.to_vec();
    let feeder = std::thread::spawn(move || {
        let _ = pipe.write_all(&input);
    });
    let output = child.wait_with_output();
    feeder.join().expect("the feeder does not panic");
    output
}

/// At most 400 bytes of it.
pub fn hex(bytes: &[u8]) -> String {
    let shown: Vec<String> = bytes.iter().take(400).map(|byte| format!("{byte:02x}")).collect();
    let rest = if bytes.len() > 400 { " .." } else { "" };
    shown.join(" ") + rest
}

/// 0 without a difference, 1 with one, 2 where a program could not be run.
pub fn status(what: &str, same: io::Result<bool>) -> ExitCode {
    match same {
        Ok(true) => ExitCode::SUCCESS,
        Ok(false) => ExitCode::from(1),
        Err(error) => {
            eprintln!("{what}: {error}");
            ExitCode::from(2)
        }
    }
}
