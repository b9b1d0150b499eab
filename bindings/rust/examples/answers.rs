//! Generated inputs, with the answers of the plain calls of `tests/reference`, so
//! that bindings in other languages can be tested against them. The checker itself
//! is not called.
//!
//! ```text
//! cargo run --release --offline --example answers -- [--limits] COUNT
//! ```
//!
//! Writes the inputs of the seeds below COUNT, and with `--limits` those at the
//! limits too, one JSON object per line. Numbers are whole, up to 2^64 − 1. The
//! input:
//!
//! - `seed`, null for one at the limits; `name`: what sort of input it is;
//! - `model`, `graph`: the folders, in lower-case hex;
//! - for the figure, `h` and `rows`, the lengths of the two rows; `first_before` and
//!   `second_before`, what these hold before the call;
//! - for the step, `state`, `command`, `branch` and `result`, the length of the
//!   result row; `result_before`, what this holds before the call;
//! - for the view, `body` and `record`;
//! - for the index, `batch`, and `index_rows`, for each of slots, answers and listing
//!   the length of the row and what all its elements are before the call.
//!
//! And `answers`, an object for each call. All but the last have `number`, `place` and
//! `second`, the number and the two places of the refusal, all 0 for acceptance:
//!
//! - `model`: the model check;
//! - `graph`: the graph check; if accepted with `values`, which are the root value
//!   and the nodes waiting, expanded, covered, target;
//! - `figure`: `row` is 0 if the figures stand in the first row, 1 if in the second,
//!   `nodes` how many they are, both 0 if refused; `first_row` and `second_row` are the
//!   rows after the call;
//! - `step`: `result` is the result row after the call;
//! - `index`: `listed` is how many nodes are listed, 0 if refused; `slots`, after the
//!   call, has slot and node for each slot that holds one, all others being 65,535, and
//!   is null if refused, when the row stays; `answers` and `listing` are these rows
//!   after the call;
//! - `part`: the view, `start` and `length` of the record in the model folder.
//!
//! It exits with 2 for bad usage, 3 if its output cannot be written; a closed pipe
//! ends it quietly, with 141.

#[path = "support/counted.rs"]
mod counted;
#[path = "../tests/generate/mod.rs"]
mod generate;
#[path = "../tests/reference/mod.rs"]
mod reference;

use generate::limits::limits;
use generate::{index_before, result_before, row_before, Input};
use laguipy::{Refusal, Summary};
use reference::{Part, NO_NODE};
use std::io::{self, BufWriter, StdoutLock, Write};
use std::process::ExitCode;

fn hex(bytes: &[u8]) -> String {
    let digit = |value: u8| char::from(b"0123456789abcdef"[usize::from(value)]);
    bytes.iter().flat_map(|byte| [digit(byte >> 4), digit(byte & 15)]).collect()
}

/// Number and both places, as three fields.
fn outcome<T>(answer: &Result<T, Refusal>) -> String {
    let accepted = Refusal { number: 0, place: 0, second: 0 };
    let Refusal { number, place, second } = answer.as_ref().err().copied().unwrap_or(accepted);
    format!(r#""number":{number},"place":{place},"second":{second}"#)
}

// Lists of numbers are written with `{:?}`, which is how JSON has them.

fn graph_answer(input: &Input) -> String {
    let answer = reference::graph_check(&input.model, &input.graph);
    let values = answer.map_or(String::new(), |Summary { root, waiting, expanded, covered, target }| {
        format!(r#","values":[{root},{waiting},{expanded},{covered},{target}]"#)
    });
    format!("{{{}{values}}}", outcome(&answer))
}

fn figure_answer(input: &Input, [mut first, mut second]: [Vec<u32>; 2]) -> String {
    let answer = reference::figure(&input.model, &input.graph, input.h, &mut first, &mut second);
    let part = answer.unwrap_or(Part { second: false, nodes: 0 });
    format!(
        r#"{{{},"row":{},"nodes":{},"first_row":{first:?},"second_row":{second:?}}}"#,
        outcome(&answer),
        u8::from(part.second),
        part.nodes
    )
}

fn step_answer(input: &Input, mut result: Vec<i16>) -> String {
    let Input { model, state, command, branch, .. } = input;
    let answer = reference::step(model, state, *command, *branch, &mut result);
    format!(r#"{{{},"result":{result:?}}}"#, outcome(&answer))
}

fn index_answer(input: &Input) -> String {
    let Input { model, graph, batch, .. } = input;
    let [mut slots, mut answers, mut listing] = index_before(input.index_rows);
    let answer = reference::index(model, graph, &mut slots, batch, &mut answers, &mut listing);
    let held = slots.into_iter().map(usize::from).enumerate().filter(|&(_, node)| node != NO_NODE.into());
    let slots = match answer {
        Ok(_) => format!("{:?}", held.map(|(slot, node)| [slot, node]).collect::<Vec<_>>()),
        Err(_) => "null".to_owned(),
    };
    format!(
        r#"{{{},"listed":{},"slots":{slots},"answers":{answers:?},"listing":{listing:?}}}"#,
        outcome(&answer),
        answer.unwrap_or(0)
    )
}

fn part_answer(Input { model, body, record, .. }: &Input) -> String {
    let part = reference::record_part(model, *body, *record);
    let start = part.as_ptr() as usize - model.as_ptr() as usize;
    format!(r#"{{"start":{start},"length":{}}}"#, part.len())
}

fn answers(input: &Input, rows: [Vec<u32>; 2], result: Vec<i16>) -> String {
    format!(
        r#"{{"model":{{{}}},"graph":{},"figure":{},"step":{},"index":{},"part":{}}}"#,
        outcome(&reference::model_check(&input.model)),
        graph_answer(input),
        figure_answer(input, rows),
        step_answer(input, result),
        index_answer(input),
        part_answer(input)
    )
}

/// An input with its answers. Names are plain text, which JSON quotes as Rust does.
fn write_line(out: &mut impl Write, seed: Option<u64>, input: &Input) -> io::Result<()> {
    let Input {
        name,
        model,
        graph,
        h,
        rows,
        state,
        command,
        branch,
        result,
        body,
        record,
        batch,
        index_rows,
    } = input;
    let seed = seed.map_or("null".to_owned(), |seed| seed.to_string());
    let before = [row_before(rows[0], 1), row_before(rows[1], 2)];
    let [first, second] = &before;
    let row = result_before(*result);
    write!(out, r#"{{"seed":{seed},"name":{name:?},"model":"{}","graph":"{}","#, hex(model), hex(graph))?;
    write!(out, r#""h":{h},"rows":{rows:?},"first_before":{first:?},"second_before":{second:?},"#)?;
    write!(out, r#""state":{state:?},"command":{command},"branch":{branch},"result":{result},"#)?;
    write!(out, r#""result_before":{row:?},"body":{body},"record":{record},"#)?;
    write!(
        out,
        r#""batch":{batch:?},"index_rows":{:?},"#,
        index_rows.map(|(length, fill)| [length, fill.into()])
    )?;
    writeln!(out, r#""answers":{}}}"#, answers(input, before, row))
}

fn write_all(out: &mut BufWriter<StdoutLock>, count: u64, with_limits: bool) -> io::Result<()> {
    for seed in 0..count {
        write_line(out, Some(seed), &generate::input(seed))?;
    }
    for limit in if with_limits { limits() } else { Vec::new() } {
        write_line(out, None, &limit.input)?;
    }
    out.flush()
}

fn main() -> ExitCode {
    counted::run("answers", "--limits", write_all)
}
