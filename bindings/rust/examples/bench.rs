//! How long the checker takes on the largest inputs, beside the plain calls of
//! `tests/reference`, and how that grows:
//!
//! ```text
//! cargo run --release --offline --example bench
//! ```
//!
//! With `-- building`, the builder alone.

#[path = "../tests/generate/mod.rs"]
mod generate;
#[path = "../tests/reference/mod.rs"]
mod reference;

use generate::data::*;
use generate::filling::{self, Filling};
use generate::hostile::{self, Hostile};
use generate::large::{deep_check, figures, Large};
use generate::limits::plain;
use generate::random::Random;
use generate::states::{one_hash, one_slot, spread, Crowd};
use laguipy::Refusal;
use std::hint::black_box;
use std::time::{Duration, Instant};

fn time(call: &mut impl FnMut()) -> Duration {
    let start = Instant::now();
    call();
    start.elapsed()
}

/// The least time of so many runs of each, the proved one first, taken in turns.
fn least(runs: usize, mut run_proved: impl FnMut(), mut run_plain: impl FnMut()) -> [Duration; 2] {
    let (mut proved, mut plain) = (Duration::MAX, Duration::MAX);
    for _ in 0..runs {
        proved = proved.min(time(&mut run_proved));
        plain = plain.min(time(&mut run_plain));
    }
    [proved, plain]
}

fn print_times(call: &str, [proved, plain]: [Duration; 2]) {
    let ratio = proved.as_secs_f64() / plain.as_secs_f64();
    println!("  {call:<26} {proved:>12.3?} {plain:>12.3?} {ratio:>8.2}");
}

fn report(call: &str, runs: usize, run_proved: impl FnMut(), run_plain: impl FnMut()) {
    print_times(call, least(runs, run_proved, run_plain));
}

fn heading(name: &str, model: &[u8], graph: &[u8]) {
    let sizes = format!("{name}: model {} bytes, graph {} bytes", model.len(), graph.len());
    println!("{sizes}\n  {:<26} {:>12} {:>12} {:>8}", "", "proved", "plain Rust", "ratio");
}

fn model_check(model: &[u8], runs: usize) {
    report(
        "model check",
        runs,
        || laguipy::model_check(black_box(model)).expect("accepted"),
        || reference::model_check(black_box(model)).expect("accepted"),
    );
}

fn graph_check(call: &str, model: &[u8], graph: &[u8], runs: usize) -> [Duration; 2] {
    let times = least(
        runs,
        || {
            laguipy::graph_check(black_box(model), black_box(graph)).expect("accepted");
        },
        || {
            reference::graph_check(black_box(model), black_box(graph)).expect("accepted");
        },
    );
    print_times(call, times);
    times
}

/// The graph check where readings have all combinations to try, in so many nodes and one
/// that tracks everything; how long it takes for each of them.
fn combinations(hostile: Hostile, nodes: u32, runs: usize) {
    let (model, graph) = (hostile.model(), hostile.graph(nodes as usize + 1));
    heading(&format!("{}, {} numbers", hostile.name, hostile.asked()), &model, &graph);
    let times = graph_check(&format!("graph check, {nodes} nodes"), &model, &graph, runs);
    print_times("  for each node", times.map(|time| time / nodes));
}

fn figure(model: &[u8], graph: &[u8], h: usize, runs: usize) {
    let [mut first, mut second] = [[0; MOST_NODES]; 2];
    let [mut plain_first, mut plain_second] = [[0; MOST_NODES]; 2];
    report(
        &format!("figure, h = {h}"),
        runs,
        || {
            let part = laguipy::figure(black_box(model), black_box(graph), h, &mut first, &mut second);
            black_box(part.expect("accepted"));
        },
        || {
            let (first, second) = (&mut plain_first, &mut plain_second);
            reference::figure(black_box(model), black_box(graph), h, first, second).expect("accepted");
        },
    );
    assert_eq!([first, second], [plain_first, plain_second]);
}

fn step(model: &[u8], state: &[i16], command: usize, branch: usize, runs: usize) {
    let (mut result, mut plain) = ([0; MOST_VARIABLES], [0; MOST_VARIABLES]);
    report(
        "step",
        runs,
        || laguipy::step(black_box(model), state, command, branch, &mut result).expect("accepted"),
        || reference::step(black_box(model), state, command, branch, &mut plain).expect("accepted"),
    );
    assert_eq!(result, plain);
}

/// The index, beside plain Rust that looks up states in the slots too.
fn index(call: &str, model: &[u8], graph: &[u8], batch: &[i16], runs: usize) {
    let rows = || [vec![0; SLOTS], vec![0; batch.len()], vec![0; MOST_NODES]];
    let (mut proved, mut plain) = (rows(), rows());
    report(
        call,
        runs,
        || {
            let [slots, answers, listing] = &mut proved;
            laguipy::index(black_box(model), black_box(graph), slots, batch, answers, listing)
                .expect("accepted");
        },
        || {
            let [slots, answers, listing] = &mut plain;
            let (model, graph) = (black_box(model), black_box(graph));
            reference::index_by_slots(model, graph, slots, batch, answers, listing).expect("accepted");
        },
    );
    assert_eq!(proved, plain);
}

/// How many states the batches have.
const BATCH: usize = 100_000;

/// A batch of these states, at random, from each list in turn.
fn batch(lists: &[&[Vec<i16>]]) -> Vec<i16> {
    let mut random = Random::new(0x6261_7463);
    let any = |list: &[Vec<i16>]| list[random.below(list.len())].clone();
    lists.iter().copied().cycle().take(BATCH).flat_map(any).collect()
}

/// The concrete states of as many nodes of as many variables as there may be.
fn states_of(graph: &[u8]) -> Vec<Vec<i16>> {
    let (fields, values) = (12, 2 * MOST_VARIABLES);
    let records = graph[GRAPH_TABLE..].chunks_exact(fields + 2 * values).take(MOST_NODES);
    let state = |bytes: &[u8]| bytes.chunks_exact(2).map(|b| i16::from_le_bytes([b[0], b[1]])).collect();
    records.map(|record| state(&record[fields..][..values])).collect()
}

/// The index without a batch, with one of which half is there, with one of which
/// nothing is.
fn indexes(model: &[u8], graph: &[u8], absent: &[Vec<i16>], runs: usize) {
    index("index, no batch", model, graph, &[], runs);
    index("index, half there", model, graph, &batch(&[&states_of(graph), absent]), runs);
    index("index, none there", model, graph, &batch(&[absent]), runs);
}

fn crowd(Crowd { name, pair, absent }: Crowd, runs: usize) {
    let (model, graph) = (pair.model.bytes(), pair.graph.bytes());
    heading(name, &model, &graph);
    graph_check("graph check", &model, &graph, runs);
    indexes(&model, &graph, &absent, runs);
}

/// A model on which the step's evaluators, which visit a part once per use, have
/// the most to do: its one guard and all 16 assigned entries are of depth 12, an if
/// or a comparison at each, and every part is the deepest there can be.
fn shared_parts() -> Vec<u8> {
    let mut model = plain(MOST_VARIABLES, 4, 1, 1);
    model.entries[3] = [1, 0, 0, 0];
    let (mut number, mut truth) = (3, 1);
    for _ in 2..=MOST_DEPTH {
        let next = model.entries.len() as u16;
        model.entries.push([7, truth, number, number]);
        model.entries.push([8, number, number, 0]);
        (number, truth) = (next, next + 1);
    }
    model.commands[0][0] = truth;
    model.branches[0][1..].fill(number);
    model.bytes()
}

/// A graph of so many expanded nodes, each with an edge of 4 branches for each of
/// so many commands.
fn even(nodes: usize, commands: usize) -> (Vec<u8>, Vec<u8>) {
    let model = plain(1, 3, commands, 4);
    let nodes = (0..nodes as u16).map(|place| {
        let mut node = NodeData::new(EXPANDED, CERTAIN, 1, &model.initial());
        for command in 0..commands as u16 {
            let branch = |k: u16| (place * 7 + command * 5 + k) % nodes as u16;
            node.push_edge(command, (0..4).map(branch).collect());
        }
        node
    });
    let graph = GraphData { nodes: nodes.collect() };
    (model.bytes(), graph.bytes())
}

/// How the graph check grows with the nodes and with the edges of each.
fn growth() {
    for (name, sizes) in [
        ("nodes, 20 edges each", [(MOST_NODES / 4, 20), (MOST_NODES / 2, 20), (MOST_NODES, 20)]),
        ("edges of each of 1,024 nodes", [(1_024, 16), (1_024, 32), (1_024, MOST_COMMANDS)]),
    ] {
        println!("{name}\n  {:<26} {:>12} {:>12} {:>8}", "graph check", "proved", "plain Rust", "ratio");
        for (nodes, edges) in sizes {
            let (model, graph) = even(nodes, edges);
            graph_check(&format!("{nodes} nodes, {} edges", nodes * edges), &model, &graph, 30);
        }
    }
}

/// Builds in a slice, from a model, with so many rounds: the length of the graph.
type Builder = fn(&[u8], usize, &mut [u8]) -> Result<usize, Refusal>;

fn plain_builder(model: &[u8], rounds: usize, slice: &mut [u8]) -> Result<usize, Refusal> {
    let graph = reference::build_fast::build(model, rounds, slice.len())?;
    slice[..graph.len()].copy_from_slice(&graph);
    Ok(graph.len())
}

/// Both builders, with so many rounds in slices of the length `room`, leave the same.
fn build(model: &[u8], rounds: usize, room: usize, runs: usize) -> [Duration; 2] {
    let (mut slice, mut plain) = (vec![0; room], vec![0; room]);
    let run = |builder: Builder, slice: &mut [u8]| {
        black_box(builder(black_box(model), rounds, slice).expect("accepted"));
    };
    let times = least(runs, || run(laguipy::build, &mut slice), || run(plain_builder, &mut plain));
    print_times(&format!("build, {rounds} rounds"), times);
    assert!(slice == plain);
    times
}

/// The graph of a model in a slice of the length `room`, for the heading.
fn heading_of_built(filling: &Filling, room: usize) -> Vec<u8> {
    let model = filling.model.bytes();
    let graph = reference::build_fast::build(&model, 0, room).expect("accepted");
    heading(filling.name, &model, &graph);
    model
}

/// As many nodes as there may be, without rounds and with as many as may be asked for.
fn builds(filling: &Filling, runs: usize) {
    let model = heading_of_built(filling, GRAPH_BYTES);
    build(&model, 0, GRAPH_BYTES, runs);
    build(&model, 1_000, GRAPH_BYTES, runs);
}

/// A chain of so many nodes of 16 variables, in each of which all combinations are tried; how
/// long it takes for each of them. The last one waits.
fn builds_by_combinations(filling: &Filling, nodes: u32, runs: usize) {
    let bytes = 12 + 4 * MOST_VARIABLES;
    let room = GRAPH_TABLE + nodes as usize * bytes + 4 * (nodes as usize - 1);
    let model = heading_of_built(filling, room);
    let times = build(&model, 0, room, runs);
    print_times(&format!("  for each of {nodes} nodes"), times.map(|time| time / nodes));
}

fn building() {
    for filling in filling::hostile().iter().chain(&filling::in_use()) {
        builds(filling, 5);
    }
    for filling in filling::combinations() {
        builds_by_combinations(&filling, 64, 1);
    }
}

fn main() {
    if std::env::args().nth(1).as_deref() == Some("building") {
        return building();
    }
    let deep = deep_check();
    heading("largest graph, hostile model", &deep.model, &deep.graph);
    model_check(&deep.model, 200);
    step(&deep.model, &deep.state, deep.command, deep.branch, 200);
    graph_check("graph check", &deep.model, &deep.graph, 20);
    let mut absent = states_of(&deep.graph);
    // No node has this value.
    absent.iter_mut().for_each(|state| state[MOST_VARIABLES - 1] = 1);
    indexes(&deep.model, &deep.graph, &absent, 20);

    crowd(spread(), 30);
    crowd(one_slot(), 5);
    crowd(one_hash(), 1);

    for changing in [false, true] {
        let Large { name, model, graph, .. } = figures(changing);
        heading(name, &model, &graph);
        graph_check("graph check", &model, &graph, 30);
        if changing {
            figure(&model, &graph, 100, 3);
            figure(&model, &graph, 1_000, 2);
        }
        figure(&model, &graph, MOST_STEPS, 1);
    }

    let model = shared_parts();
    heading("parts shared the most", &model, &[]);
    model_check(&model, 1_000);
    step(&model, &[0; MOST_VARIABLES], 0, 0, 100);

    let model = generate::products::many().bytes();
    heading("products", &model, &[]);
    model_check(&model, 1_000);

    combinations(hostile::many_sets(), 64, 2);
    combinations(hostile::one_set_of_twelve(), 512, 3);
    combinations(hostile::one_variable(), 512, 3);

    let (model, graph) = generate::pedal();
    let state = model.initial();
    let (model, graph) = (model.bytes(), graph.bytes());
    heading("pedal example", &model, &graph);
    model_check(&model, 10_000);
    graph_check("graph check", &model, &graph, 10_000);
    figure(&model, &graph, 3, 10_000);
    step(&model, &state, 0, 1, 10_000);
    index("index, no batch", &model, &graph, &[], 10_000);

    growth();
    building();
}
