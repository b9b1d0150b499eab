//! What the library builds from random models, to be compared with what another library
//! builds: `tools/compare_builds.sh` runs it over both.
//!
//! ```text
//! cargo run --release --offline --example built -- [--filling] COUNT >FILE
//! ```
//!
//! For each of COUNT models three calls, each in a slice of its own; with `--filling`, two
//! more for each model that fills as many nodes as there may be. A call is a line, with what
//! was asked for and what was answered, and after it the slice as the call leaves it, whole.
//!
//! It exits with 2 for bad usage, 3 if its output cannot be written; a closed pipe ends it
//! quietly, with 141.

#[path = "support/counted.rs"]
mod counted;
#[path = "../tests/generate/mod.rs"]
mod generate;

use generate::data::{GRAPH_BYTES, GRAPH_TABLE};
use generate::random::Random;
use generate::{building, filling};
use std::io::{self, BufWriter, StdoutLock, Write};
use std::process::ExitCode;

/// The call, and the slice that it leaves; before it all bytes are the same.
fn write_call(out: &mut impl Write, name: &str, model: &[u8], rounds: usize, room: usize) -> io::Result<()> {
    let mut slice = vec![0xa5; room];
    let answer = laguipy::build(model, rounds, &mut slice);
    writeln!(out, "{name}, {rounds} rounds, room for {room}: {answer:?}")?;
    out.write_all(&slice)
}

/// A model in any room, with few rounds, then many; and in one that is too short for all.
fn write_model(out: &mut impl Write, seed: u64) -> io::Result<()> {
    let mut random = Random::new(seed);
    let model = building::model(&mut random);
    let (name, bytes) = (format!("model {seed}"), model.bytes());
    let node = 16 + 4 * model.variables.len();
    for rounds in [random.below(30), 1_000] {
        let nodes = random.pick(&[1, 2, 5, 10, 20, 40, 60, 250]);
        let room = GRAPH_TABLE + nodes * node + random.below(8);
        write_call(out, &name, &bytes, rounds, room)?;
    }
    write_call(out, &name, &bytes, random.below(1_003), random.below(2 * node))
}

fn write_all(out: &mut BufWriter<StdoutLock>, count: u64, with_filling: bool) -> io::Result<()> {
    for seed in 0..count {
        write_model(out, seed)?;
    }
    let fillings = || [filling::hostile(), filling::in_use(), filling::small()].concat();
    for filling in if with_filling { fillings() } else { Vec::new() } {
        let model = filling.model.bytes();
        for rounds in [0, 1_000] {
            write_call(out, filling.name, &model, rounds, GRAPH_BYTES)?;
        }
    }
    out.flush()
}

fn main() -> ExitCode {
    counted::run("built", "--filling", write_all)
}
