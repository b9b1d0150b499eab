//! A program that takes a count and may take a flag, and writes so much to standard output.
//!
//! It exits with 2 for bad usage, 3 if its output cannot be written; a closed pipe ends it
//! quietly, with 141.

use std::io::{self, BufWriter, ErrorKind, StdoutLock, Write};
use std::process::ExitCode;

const USAGE: u8 = 2;
const FAILED: u8 = 3;
const PIPE_CLOSED: u8 = 141;

/// Writes for a count, with what the flag asks for or without.
pub type Writer = fn(&mut BufWriter<StdoutLock>, u64, bool) -> io::Result<()>;

pub fn run(name: &str, flag: &str, write_all: Writer) -> ExitCode {
    let words: Vec<_> = std::env::args_os().skip(1).map(|word| word.to_string_lossy().into_owned()).collect();
    let (flags, counts): (Vec<_>, Vec<_>) = words.iter().partition(|word| *word == flag);
    let count = if let [count] = counts.as_slice() { count.parse().ok() } else { None };
    let Some(count) = count else {
        let _ = writeln!(io::stderr(), "usage: {name} [{flag}] COUNT");
        return ExitCode::from(USAGE);
    };
    match write_all(&mut BufWriter::new(io::stdout().lock()), count, !flags.is_empty()) {
        Ok(()) => ExitCode::SUCCESS,
        Err(error) if error.kind() == ErrorKind::BrokenPipe => ExitCode::from(PIPE_CLOSED),
        Err(error) => {
            let _ = writeln!(io::stderr(), "{name}: cannot write to standard output: {error}");
            ExitCode::from(FAILED)
        }
    }
}
