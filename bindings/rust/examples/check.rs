//! A program over this crate: reads a model and a graph folder and prints the
//! report that the check program prints. It takes graphs of up to 1,048,576 bytes,
//! where the check program takes 65,536, and never says `too long`.
//!
//! It exits with 0 if the graph is accepted, 1 if it is refused or a file cannot be
//! read, 2 for bad usage, 3 if its output cannot be written; standard error says
//! what is wrong with files and output. A closed pipe ends it quietly, with the 141
//! that a shell gives for other programs then.
//!
//! ```text
//! cargo run --release --offline --example check -- MODEL GRAPH
//! cargo run --release --offline --example check -- --version
//! ```

use laguipy::{figure, graph_check, Refusal, Summary, GRAPH_BYTES, MODEL_BYTES, MOST_NODES, VERSION};
use std::ffi::OsString;
use std::fmt::Display;
use std::fs::File;
use std::io::{self, ErrorKind, Read, Write};
use std::path::Path;
use std::process::ExitCode;

const REFUSED: u8 = 1;
const USAGE: u8 = 2;
const FAILED: u8 = 3;
const PIPE_CLOSED: u8 = 141;

/// A line on standard error. `eprintln!` would panic where that is closed too.
fn say(words: impl Display) {
    let _ = writeln!(io::stderr(), "{words}");
}

/// The report of an accepted graph.
fn report(model: &[u8], graph: &[u8]) -> Result<String, Refusal> {
    let Summary { root, waiting, expanded, covered, target } = graph_check(model, graph)?;
    let nodes = waiting + expanded + covered + target;
    let mut report = format!(
        "accepted {nodes} nodes {expanded} expanded {covered} covered {target} target {waiting} waiting\n\
         root {root}\n"
    );
    if waiting == 0 {
        let (mut first, mut second) = (vec![0; MOST_NODES], vec![0; MOST_NODES]);
        for h in 0..=3 {
            let figures = figure(model, graph, h, &mut first, &mut second)?;
            report += &format!("within {h} {}\n", figures.first().unwrap_or(&0));
        }
    }
    Ok(report)
}

/// A file's bytes, at most one more than a folder may have: a longer one is refused,
/// by its length. Where it cannot be read, that is said.
fn read(name: &OsString, most: usize) -> Option<Vec<u8>> {
    let mut bytes = Vec::new();
    let read = File::open(name).and_then(|file| file.take(most as u64 + 1).read_to_end(&mut bytes));
    if let Err(error) = read {
        say(format_args!("check: cannot read {}: {error}", Path::new(name).display()));
        return None;
    }
    Some(bytes)
}

/// Does what the words ask for, and gives the status to exit with.
fn run(words: &[OsString], out: &mut impl Write) -> io::Result<u8> {
    let (model, graph) = match words {
        [model, graph] => (model, graph),
        [word] if word == "--version" => return writeln!(out, "check {VERSION}").map(|()| 0),
        _ => {
            say("usage: check MODEL GRAPH\n       check --version");
            return Ok(USAGE);
        }
    };
    let (Some(model), Some(graph)) = (read(model, MODEL_BYTES), read(graph, GRAPH_BYTES)) else {
        return writeln!(out, "no file").map(|()| REFUSED);
    };
    match report(&model, &graph) {
        Ok(report) => write!(out, "{report}").map(|()| 0),
        Err(refusal) => writeln!(out, "{refusal}").map(|()| REFUSED),
    }
}

fn main() -> ExitCode {
    let words: Vec<_> = std::env::args_os().skip(1).collect();
    let mut out = io::stdout().lock();
    let status = run(&words, &mut out).and_then(|status| out.flush().map(|()| status));
    ExitCode::from(status.unwrap_or_else(|error| {
        if error.kind() == ErrorKind::BrokenPipe {
            return PIPE_CLOSED;
        }
        say(format_args!("check: cannot write to standard output: {error}"));
        FAILED
    }))
}
