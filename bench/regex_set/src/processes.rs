//! Processes, and the processor's time that they take: of the user and of the system together. For Linux with 64 bits.

use crate::Result;
use std::fs::File;
use std::io::Read;
use std::os::raw::{c_int, c_long};
use std::process::{Command, Stdio};

extern "C" {
    fn getrusage(who: c_int, usage: *mut [c_long; 18]) -> c_int;
    fn wait4(process: c_int, status: *mut c_int, options: c_int, usage: *mut [c_long; 18]) -> c_int;
}

/// What the system's record says: its first four numbers are seconds and microseconds of the user and of the system.
fn seconds(usage: &[c_long; 18]) -> f64 {
    (usage[0] + usage[2]) as f64 + (usage[1] + usage[3]) as f64 / 1e6
}

/// The processor's time of this process so far, in seconds.
pub fn processor() -> f64 {
    let mut usage = [0; 18];
    // The record has 18 numbers of this size where c_long has 64 bits.
    let answer = unsafe { getrusage(0, &mut usage) };
    assert_eq!(answer, 0, "getrusage fails");
    seconds(&usage)
}

/// Runs a program with a file as its standard input: its seconds, its exit status, and what it said, where that is wanted.
fn run_to(words: &[&str], input: &str, wants: bool) -> Result<(f64, i32, Vec<u8>)> {
    let mut child = Command::new(words[0])
        .args(&words[1..])
        .stdin(File::open(input)?)
        .stdout(if wants { Stdio::piped() } else { Stdio::null() })
        .stderr(Stdio::null())
        .spawn()
        .map_err(|error| format!("{}: {error}", words[0]))?;
    let mut said = Vec::new();
    if let Some(mut output) = child.stdout.take() {
        output.read_to_end(&mut said)?;
    }
    let mut usage = [0; 18];
    let mut status = 0;
    // No other call waits for this child.
    let waited = unsafe { wait4(child.id() as c_int, &mut status, 0, &mut usage) };
    assert_eq!(waited, child.id() as c_int, "wait4 fails");
    let status = if status & 127 == 0 { status >> 8 & 255 } else { 128 + (status & 127) };
    Ok((seconds(&usage), status, said))
}

/// Runs a program that must accept all: its seconds, and what it said, where that is wanted.
pub fn run(words: &[&str], input: &str, wants: bool) -> Result<(f64, Vec<u8>)> {
    match run_to(words, input, wants)? {
        (took, 0, said) => Ok((took, said)),
        (_, status, _) => Err(format!("{} ends with status {status} at the commands {input}", words[0]).into()),
    }
}

/// Runs a program: its seconds, and its exit status.
pub fn run_whatever(words: &[&str], input: &str) -> Result<(f64, i32)> {
    let (took, status, _) = run_to(words, input, false)?;
    Ok((took, status))
}
