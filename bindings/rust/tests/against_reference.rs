//! The checker against the plain calls of `reference`: every call on every input,
//! its answer and each row at exit.

mod generate;
mod reference;

use generate::data::ModelData;
use generate::large::Large;
use generate::limits::limits;
use generate::products::{assigned, many, products, spans};
use generate::*;
use laguipy::{Refusal, LAST_REFUSAL, MOST_NODES, MOST_STEPS, MOST_VARIABLES, SLOTS};
use std::collections::HashMap;
use std::ops::Range;

/// How many inputs the test over seeds takes: at least one, so that it never passes
/// with nothing compared.
fn cases() -> u64 {
    let Ok(count) = std::env::var("LAGUIPY_CASES") else { return 120_000 };
    match count.parse() {
        Ok(count) if count > 0 => count,
        _ => panic!("LAGUIPY_CASES is {count:?}: a count of 1 or more is wanted"),
    }
}

/// The number of each call's answer, 0 for acceptance.
fn number<T>(answer: &Result<T, Refusal>) -> u32 {
    answer.as_ref().err().map_or(0, |refusal| refusal.number)
}

/// Both rows before a figure call, of such lengths.
fn rows_before([first, second]: [usize; 2]) -> [Vec<u32>; 2] {
    [row_before(first, 1), row_before(second, 2)]
}

/// The three figure calls: the answers, both rows, and the part handed back.
fn compare_figures(input: &Input) -> u32 {
    let Input { name, model, graph, h, .. } = input;
    let before = rows_before(input.rows);

    let mut expected = before.clone();
    let [first, second] = &mut expected;
    let plain = reference::figure(model, graph, *h, first, second);
    let answer = plain.map(|_| ());

    assert_eq!(laguipy::figure_refusal(model, graph, *h, &before[0], &before[1]), answer, "{name}");

    let mut rows = before.clone();
    let [first, second] = &mut rows;
    assert_eq!(laguipy::figure_rows(model, graph, *h, first, second), answer, "{name}");
    assert_eq!(rows, expected, "{name}");

    let mut rows = before;
    let starts = [rows[0].as_ptr(), rows[1].as_ptr()];
    let [first, second] = &mut rows;
    match (laguipy::figure(model, graph, *h, first, second), plain) {
        (Ok(part), Ok(place)) => {
            let row = usize::from(place.second);
            assert_eq!(part.as_ptr(), starts[row], "{name}");
            assert_eq!(part, &expected[row][..place.nodes], "{name}");
        }
        (answer, plain) => assert_eq!(answer.err(), plain.err(), "{name}"),
    }
    assert_eq!(rows, expected, "{name}");
    number(&answer)
}

fn compare_step(input: &Input) -> u32 {
    let Input { name, model, state, command, branch, .. } = input;
    let mut result = result_before(input.result);
    let mut expected = result.clone();
    let answer = laguipy::step(model, state, *command, *branch, &mut result);
    assert_eq!(answer, reference::step(model, state, *command, *branch, &mut expected), "{name}");
    assert_eq!(result, expected, "{name}");
    number(&answer)
}

/// The count of nodes listed, and the three rows.
fn compare_index(input: &Input) -> u32 {
    let Input { name, model, graph, batch, .. } = input;
    let mut rows = index_before(input.index_rows);
    let mut expected = rows.clone();
    let [slots, answers, listing] = &mut rows;
    let answer = laguipy::index(model, graph, slots, batch, answers, listing);
    let [slots, answers, listing] = &mut expected;
    assert_eq!(answer, reference::index(model, graph, slots, batch, answers, listing), "{name}");
    assert_eq!(rows, expected, "{name}");
    number(&answer)
}

fn compare_part(model: &[u8], body: usize, record: usize) {
    let part = laguipy::record_part(model, body, record);
    let plain = reference::record_part(model, body, record);
    assert_eq!((part.as_ptr(), part.len()), (plain.as_ptr(), plain.len()), "{body} {record}");
}

/// How many calls have numbers.
const CALLS: usize = 5;

/// Compares every call on an input, and gives the numbers of the answers: model
/// check, graph check, figure, step, index.
fn compare(input: &Input) -> [u32; CALLS] {
    let Input { name, model, graph, body, record, .. } = input;
    let of_model = laguipy::model_check(model);
    assert_eq!(of_model, reference::model_check(model), "{name}");
    let of_graph = laguipy::graph_check(model, graph);
    assert_eq!(of_graph, reference::graph_check(model, graph), "{name}");
    for (body, record) in [(*body, *record), (*body, record + 1), (body + 1, 0), (usize::MAX, usize::MAX)] {
        compare_part(model, body, record);
    }
    let [of_model, of_graph] = [number(&of_model), number(&of_graph)];
    [of_model, of_graph, compare_figures(input), compare_step(input), compare_index(input)]
}

/// Says which seed it was, where a comparison fails.
struct Seed(u64);

impl Drop for Seed {
    fn drop(&mut self) {
        if std::thread::panicking() {
            eprintln!("seed {}", self.0);
        }
    }
}

/// So many inputs are refused with every number; and one in so many meets what decides a
/// second place.
const SEEDS_FOR_ALL: u64 = 5_000;
const SEEDS_FOR_ONE: u64 = 2_000;

/// Acceptance, and every refusal but the builder's.
const NUMBERS: usize = data::LAST_OF_INPUTS as usize + 1;

/// How often each number was answered, by call; and how often what decides a second
/// place was met.
struct Tally {
    numbers: [[usize; CALLS]; NUMBERS],
    situations: HashMap<&'static str, usize>,
}

impl Tally {
    fn new() -> Tally {
        Tally { numbers: [[0; CALLS]; NUMBERS], situations: HashMap::new() }
    }

    fn count(&mut self, input: &Input, numbers: [u32; CALLS]) {
        for (call, number) in numbers.into_iter().enumerate() {
            self.numbers[number as usize][call] += 1;
        }
        for name in reference::situations::met(&input.model, &input.graph) {
            *self.situations.entry(name).or_default() += 1;
        }
    }

    fn add(&mut self, other: Tally) {
        for (sum, count) in self.numbers.iter_mut().flatten().zip(other.numbers.iter().flatten()) {
            *sum += count;
        }
        for (name, count) in other.situations {
            *self.situations.entry(name).or_default() += count;
        }
    }

    fn print(&self) {
        println!("number   model   graph  figure    step   index  (0 is acceptance)");
        for (number, [model, graph, figure, step, index]) in self.numbers.iter().enumerate() {
            println!("{number:6} {model:7} {graph:7} {figure:7} {step:7} {index:7}");
        }
        for name in reference::situations::names() {
            println!("{:7} {name}", self.met(name));
        }
    }

    fn met(&self, situation: &str) -> usize {
        self.situations.get(situation).copied().unwrap_or(0)
    }
}

fn compare_seeds(seeds: Range<u64>) -> Tally {
    let mut tally = Tally::new();
    for seed in seeds {
        let _said = Seed(seed);
        let input = input(seed);
        let numbers = compare(&input);
        tally.count(&input, numbers);
    }
    tally
}

#[test]
fn random_inputs() {
    let count = cases();
    let threads = std::thread::available_parallelism().map_or(1, usize::from) as u64;
    let mut tally = Tally::new();
    std::thread::scope(|scope| {
        let part = |k: u64| k * count / threads..(k + 1) * count / threads;
        let running: Vec<_> = (0..threads).map(|k| scope.spawn(move || compare_seeds(part(k)))).collect();
        for thread in running {
            tally.add(thread.join().expect("every input is answered as the plain calls answer it"));
        }
    });
    println!("{count} inputs");
    tally.print();
    if count >= SEEDS_FOR_ALL {
        for (number, counts) in tally.numbers.iter().enumerate() {
            assert!(counts.iter().any(|&count| count > 0), "no input is refused with {number}");
        }
        let least = (count / SEEDS_FOR_ONE) as usize;
        for name in reference::situations::names() {
            let met = tally.met(name);
            assert!(met >= least, "{met} inputs, but there should be {least}: {name}");
        }
    }
}

#[test]
fn limits_of_the_crate() {
    assert_eq!(
        [laguipy::MODEL_BYTES, laguipy::GRAPH_BYTES, MOST_VARIABLES, MOST_NODES, MOST_STEPS],
        [data::MODEL_BYTES, data::GRAPH_BYTES, data::MOST_VARIABLES, data::MOST_NODES, data::MOST_STEPS]
    );
    assert_eq!([laguipy::CERTAIN, LAST_REFUSAL], [data::CERTAIN, data::LAST_REFUSAL]);
    assert_eq!((SLOTS, laguipy::NO_NODE), (data::SLOTS, data::NO_NODE));
    assert_eq!(laguipy::NO_VARIABLE, data::NO_VARIABLE);
}

#[test]
fn inputs_at_the_limits() {
    for limit in limits() {
        let numbers = limit.answers.map(|answer| answer.map_or(0, |(number, ..)| number));
        assert_eq!(compare(&limit.input), numbers, "{}", limit.input.name);
    }
}

fn compare_model(model: &ModelData, answer: Result<(), Refusal>) {
    let bytes = model.bytes();
    assert_eq!(laguipy::model_check(&bytes), answer, "{model:?}");
    assert_eq!(reference::model_check(&bytes), answer, "{model:?}");
}

/// Every pair of spans near 0: a product fits the span of all products of two numbers,
/// and none that lacks the least or the greatest.
#[test]
fn ranges_of_products() {
    let refused = Err(Refusal { number: 10, place: 0, second: 0 });
    for factors in spans(4).flat_map(|a| spans(4).map(move |b| [a, b])) {
        let [low, high] = products(factors[0], factors[1]);
        compare_model(&assigned(factors, [low, high]), Ok(()));
        compare_model(&assigned(factors, [low + 1, high.max(low + 1)]), refused);
        compare_model(&assigned(factors, [low.min(high - 1), high - 1]), refused);
    }
    compare_model(&many(), Ok(()));
}

#[test]
fn any_byte_of_the_pedal_may_change() {
    let (model, graph) = pedal();
    let (model, graph) = (model.bytes(), graph.bytes());
    for at in 0..model.len() + graph.len() {
        for byte in [0, 1, 2, 3, 5, 9, 0x7f, 0x80, 0xfe, 0xff] {
            let (mut model, mut graph) = (model.clone(), graph.clone());
            match at.checked_sub(model.len()) {
                None => model[at] = byte,
                Some(at) => graph[at] = byte,
            }
            compare(&Input {
                name: "pedal",
                model,
                graph,
                h: 3,
                rows: [6, 7],
                state: vec![0, 0],
                command: 0,
                branch: 1,
                result: 3,
                body: at % 5,
                record: at % 3,
                batch: vec![0, 1, 3, 0, 3, 1],
                index_rows: [(SLOTS, 0), (4, 0), (7, 0)],
            });
        }
    }
}

#[test]
fn pedal_cut_short() {
    let (model, graph) = pedal();
    let (model, graph) = (model.bytes(), graph.bytes());
    for length in 0..model.len() {
        assert_eq!(laguipy::model_check(&model[..length]), reference::model_check(&model[..length]));
        compare_part(&model[..length], length % 6, length % 4);
    }
    for length in 0..graph.len() {
        let plain = reference::graph_check(&model, &graph[..length]);
        assert_eq!(laguipy::graph_check(&model, &graph[..length]), plain);
    }
}

fn compare_large(large: Large, h: usize) {
    let Large { name, model, graph, state, command, branch } = large;
    let (rows, result) = ([MOST_NODES, MOST_NODES + 1], MOST_VARIABLES + 1);
    let (body, record) = (4, data::MOST_BRANCH_RECORDS - 1);
    let batch = state.clone();
    let index_rows = [(SLOTS, 0), (1, 0), (MOST_NODES, 0)];
    let input = Input {
        name,
        model,
        graph,
        h,
        rows,
        state,
        command,
        branch,
        result,
        body,
        record,
        batch,
        index_rows,
    };
    assert_eq!(compare(&input), [0; CALLS], "{name}");
}

#[test]
fn hostile_inputs() {
    for hostile in hostile::all() {
        let (model, graph) = (hostile.model(), hostile.graph(3));
        let answer = reference::graph_check(&model, &graph);
        assert_eq!(laguipy::graph_check(&model, &graph), answer, "{}", hostile.name);
        assert!(answer.is_ok(), "{}", hostile.name);
    }
}

#[test]
fn largest_inputs() {
    compare_large(large::deep_check(), 7);
    compare_large(large::figures(true), 40);
    compare_large(large::figures(false), MOST_STEPS);
}
