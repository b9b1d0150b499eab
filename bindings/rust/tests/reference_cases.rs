//! Tests of the reference itself: the pedal example and changes to it, the limits,
//! every number of refusal, and the best chances worked out state by state.

mod generate;
mod reference;

use generate::data::*;
use generate::explore::{Plan, Values};
use generate::large::LONGEST_EDGE;
use generate::limits::limits;
use generate::random::Random;
use generate::*;
use laguipy::{Refusal, Summary};
use reference::{figure, fnv, graph_check, index, index_by_slots, model_check, record_part, step, Part};
use std::collections::{HashMap, HashSet};

/// How many inputs a test over seeds takes.
fn cases() -> u64 {
    std::env::var("LAGUIPY_CASES").ok().and_then(|count| count.parse().ok()).unwrap_or(12_000)
}

fn refused(number: u32, place: usize) -> Refusal {
    refused_for(number, place, 0)
}

/// A refusal with 19 or 21, whose second place is a variable or stands for none.
fn refused_for(number: u32, place: usize, second: usize) -> Refusal {
    Refusal { number, place, second }
}

/// The rows of a figure call: before it first and second, after it the same.
struct Rows {
    before: [Vec<u32>; 2],
    after: [Vec<u32>; 2],
    answer: Result<Part, Refusal>,
}

fn figure_rows(model: &[u8], graph: &[u8], h: usize, lengths: [usize; 2]) -> Rows {
    let before = [row_before(lengths[0], 1), row_before(lengths[1], 2)];
    let mut after = before.clone();
    let [first, second] = &mut after;
    let answer = figure(model, graph, h, first, second);
    Rows { before, after, answer }
}

/// The figures handed back, with rows just long enough.
fn figures(model: &[u8], graph: &[u8], nodes: usize, h: usize) -> Result<Vec<u32>, Refusal> {
    let rows = figure_rows(model, graph, h, [nodes, nodes]);
    rows.answer.map(|part| rows.after[usize::from(part.second)][..part.nodes].to_vec())
}

/// The rows of an index call: before it slots, answers and listing, after it the same.
struct Indexed {
    before: [Vec<u16>; 3],
    after: [Vec<u16>; 3],
    answer: Result<usize, Refusal>,
}

/// The index call, which leaves the same by look-ups in its slots.
fn indexed(model: &[u8], graph: &[u8], batch: &[i16], rows: [(usize, u16); 3]) -> Indexed {
    let before = index_before(rows);
    let [mut after, mut by_slots] = [before.clone(), before.clone()];
    let [slots, answers, listing] = &mut after;
    let answer = index(model, graph, slots, batch, answers, listing);
    let [slots, answers, listing] = &mut by_slots;
    assert_eq!(index_by_slots(model, graph, slots, batch, answers, listing), answer);
    assert_eq!(by_slots, after);
    Indexed { before, after, answer }
}

/// The slots that are not empty, with their nodes.
fn entered(slots: &[u16]) -> Vec<(usize, u16)> {
    slots.iter().copied().enumerate().filter(|&(_, node)| node != NO_NODE).collect()
}

// ------------------------------------------------------------ pedal example

#[test]
fn pedal_as_printed() {
    let (model, graph) = pedal();
    let (model, graph) = (model.bytes(), graph.bytes());
    assert_eq!(model_check(&model), Ok(()));
    let summary = Summary { root: 10_000_000, waiting: 0, expanded: 3, covered: 2, target: 1 };
    assert_eq!(graph_check(&model, &graph), Ok(summary));
    let root: Vec<u32> = (0..4).map(|h| figures(&model, &graph, 6, h).unwrap()[0]).collect();
    assert_eq!(root, [0, 0, 10_000_000, 10_000_000]);

    const S: u32 = CERTAIN;
    let rounds = [
        [0, 0, 0, 0, 0, S],
        [0, 0, 100_000_000, 0, 0, S],
        [10_000_000, 0, 100_000_000, 10_000_000, 0, S],
        [10_000_000, 0, 100_000_000, 10_000_000, 0, S],
    ];
    for h in 0..4 {
        let rows = figure_rows(&model, &graph, h, [9, 8]);
        let (this, other) = (h % 2, (h + 1) % 2);
        assert_eq!(rows.answer, Ok(Part { second: this == 1, nodes: 6 }));
        assert_eq!(rows.after[this][..6], rounds[h]);
        assert_eq!(rows.after[this][6..], rows.before[this][6..]);
        if h == 0 {
            assert_eq!(rows.after[other], rows.before[other]);
        } else {
            assert_eq!(rows.after[other][..6], rounds[h - 1]);
            assert_eq!(rows.after[other][6..], rows.before[other][6..]);
        }
    }
}

/// A change to the pedal example, and what the graph check then says.
type Case = (&'static str, fn(&mut ModelData, &mut GraphData), Option<Refusal>);

fn track_nothing(node: &mut NodeData) {
    node.tracked = 0;
    node.label.fill(0);
}

fn check_cases(cases: &[Case]) {
    for (name, change, expected) in cases {
        let (mut model, mut graph) = pedal();
        change(&mut model, &mut graph);
        let answer = graph_check(&model.bytes(), &graph.bytes()).err();
        assert_eq!(answer, *expected, "{name}");
    }
}

#[test]
fn pedal_listed_cases() {
    check_cases(&[
        ("root value 9,999,999", |_, g| g.nodes[0].value = 9_999_999, Some(refused(25, 0))),
        ("node 3 covered by 4", |_, g| g.nodes[3].cover = 4, Some(refused(22, 3))),
        ("node 3 covered by itself", |_, g| g.nodes[3].cover = 3, Some(refused(22, 3))),
        ("node 5 waiting", |_, g| g.nodes[5].kind = WAITING, None),
        ("node 0 tracks nothing", |_, g| track_nothing(&mut g.nodes[0]), Some(refused_for(19, 0, 0))),
        (
            "node 0 without its second edge",
            |_, g| {
                g.nodes[0].edges.pop();
                g.nodes[0].edge_count = 1;
            },
            Some(refused(20, 0)),
        ),
        ("node 3 tracks d = 1 too", |_, g| g.nodes[3].track(1), Some(refused_for(21, 0, 1))),
        ("node 2's label says a = 0", |_, g| g.nodes[2].label[0] = 0, Some(refused_for(21, 0, 0))),
    ]);

    let (model, mut graph) = pedal();
    graph.nodes[5].kind = WAITING;
    let (model, graph) = (model.bytes(), graph.bytes());
    let summary = Summary { root: 10_000_000, waiting: 1, expanded: 3, covered: 2, target: 0 };
    assert_eq!(graph_check(&model, &graph), Ok(summary));
    for h in 0..4 {
        let rows = figure_rows(&model, &graph, h, [6, 6]);
        assert_eq!(rows.answer, Err(refused(26, 5)));
        assert_eq!(rows.before, rows.after);
    }
}

#[test]
fn pedal_steps() {
    let (model, _) = pedal();
    let model = model.bytes();
    let steps = |state: &[i16], command, branch| {
        let mut result = result_before(4);
        let answer = step(&model, state, command, branch, &mut result);
        let stays = if answer.is_ok() { 2 } else { 0 };
        assert_eq!(result[stays..], result_before(4)[stays..]);
        answer.map(|()| [result[0], result[1]])
    };
    assert_eq!(steps(&[0, 0], 0, 1), Ok([1, 0]));
    assert_eq!(steps(&[1, 0], 1, 0), Err(refused(32, 1)));
    assert_eq!(steps(&[0, 1], 0, 0), Ok([3, 1]));
    assert_eq!(steps(&[1, 1], 0, 1), Ok([2, 1]));
    assert_eq!(steps(&[0, 1], 1, 0), Ok([0, 0]));
    assert_eq!(steps(&[2, 0], 0, 0), Err(refused(32, 0)));
    assert_eq!(steps(&[1, 0], 1, 9), Err(refused(32, 1)));
    assert_eq!(steps(&[0, 0], 1, 1), Err(refused(33, 1)));
}

#[test]
fn steps_read_the_old_state_and_start_from_targets_too() {
    // Two variables that change places; every state is a target.
    let model = ModelData {
        total: 1,
        target: 2,
        variables: vec![[-5, 5, 0], [-5, 5, 0]],
        entries: vec![[1, 0, 0, 0], [1, 1, 0, 0], [14, 0, 0, 0]],
        commands: vec![[2, 1]],
        branches: vec![vec![1, 1, 0]],
    };
    let mut result = [0; 2];
    assert_eq!(step(&model.bytes(), &[3, -4], 0, 0, &mut result), Ok(()));
    assert_eq!(result, [-4, 3]);
}

#[test]
fn thirds_round_up() {
    let (model, mut graph) = thirds();
    let bytes = model.bytes();
    let rounds: Vec<Vec<u32>> = (0..3).map(|h| figures(&bytes, &graph.bytes(), 3, h).unwrap()).collect();
    assert_eq!(rounds[0], [0, CERTAIN, 0]);
    assert_eq!(rounds[1], [333_333_334, CERTAIN, 0]);
    assert_eq!(rounds[2], rounds[1]);
    graph.nodes[0].value = 333_333_333;
    assert_eq!(graph_check(&bytes, &graph.bytes()), Err(refused(25, 0)));
}

#[test]
fn figures_are_divided_once() {
    // 16 branches, each to a node of a figure that 16 does not divide: rounded up
    // branch by branch it would be over by more than one unit for each step.
    let mut model = generate::limits::plain(1, 6, 1, 16);
    model.total = 48;
    model.variables[0] = [0, 3, 0];
    model.entries[3] = [1, 0, 0, 0];
    model.entries[4] = [0, 1, 0, 0];
    model.entries[5] = [8, 3, 4, 0];
    model.target = 5;
    for branch in &mut model.branches {
        *branch = vec![3, 0];
    }
    model.branches[7][1] = 4;
    let mut graph = GraphData {
        nodes: vec![NodeData::new(EXPANDED, CERTAIN, 1, &[0]), NodeData::new(TARGET, CERTAIN, 1, &[1])],
    };
    let mut successors = vec![0; 16];
    successors[7] = 1;
    graph.nodes[0].push_edge(0, successors);
    let (mut exact, mut whole) = (0u128, 1u128);
    for h in 0..9 {
        let found = figures(&model.bytes(), &graph.bytes(), 2, h).unwrap()[0];
        let (found, certain) = (u128::from(found), u128::from(CERTAIN));
        assert!(found * whole >= exact * certain, "{h}");
        assert!(found * whole <= exact * certain + h as u128 * whole, "{h}");
        (exact, whole) = (15 * exact + whole, 16 * whole);
    }
}

// ------------------------------------------------------------ every row

#[test]
fn rows_of_the_model() {
    fn long(bytes: &mut [u8], at: usize, value: u32) {
        bytes[at..at + 4].copy_from_slice(&value.to_le_bytes());
    }
    let (model, graph) = pedal();
    let (whole, graph) = (model.bytes(), graph.bytes());
    // Row 2: body starts are 40, 44, 56, 152 and 160, the end is 178.
    let starts = [40, 44, 56, 152, 160, 178];
    assert_eq!(whole.len(), 178);
    for entry in 0..5 {
        for (field, value, place) in [
            (0, starts[entry] - 1, entry),
            (0, starts[entry] + 1, entry),
            (0, 0, entry),
            (0, u32::MAX, entry),
            (4, u32::MAX, entry),
            // Past the folder's end by one.
            (4, 179 - starts[entry], entry),
            // Comes round to an end in the folder, if kept to 32 bits.
            (4, (starts[entry] / 2).wrapping_sub(starts[entry]), entry),
            // One byte shorter or longer: the next does not start there.
            (4, starts[entry + 1] - starts[entry] - 1, if entry == 4 { 4 } else { entry + 1 }),
            (4, starts[entry + 1] - starts[entry] + 1, if entry == 4 { 4 } else { entry + 1 }),
        ] {
            let mut bytes = whole.clone();
            long(&mut bytes, 8 * entry + field, value);
            assert_eq!(model_check(&bytes), Err(refused(2, place)), "{entry} {field} {value}");
        }
    }
    let mut bytes = whole.clone();
    bytes.push(0);
    assert_eq!(model_check(&bytes), Err(refused(2, 4)));
    bytes.truncate(177);
    assert_eq!(model_check(&bytes), Err(refused(2, 4)));
    assert_eq!(graph_check(&bytes, &graph), Err(refused(2, 4)));

    // Row 3.
    for body in 0..5 {
        for change in 0..3 {
            let mut bodies = model.bodies();
            match change {
                0 => bodies[body].clear(),
                1 => drop(bodies[body].pop()),
                _ => bodies[body].push(0),
            }
            // Without variables a branch record is 2 bytes, but 1 comes first.
            assert_eq!(model_check(&folder(&bodies)), Err(refused(3, body)), "{body} {change}");
        }
    }
    let mut bodies = model.bodies();
    bodies[0].extend([0; 4]);
    assert_eq!(model_check(&folder(&bodies)), Err(refused(3, 0)));
}

#[test]
fn rows_of_the_model_by_field() {
    check_cases(&[
        // Row 4.
        ("crossed", |m, _| m.variables[0] = [3, 0, 0], Some(refused(4, 0))),
        ("low under", |m, _| m.variables[1] = [-BOUND - 1, 1, 0], Some(refused(4, 1))),
        ("high over", |m, _| m.variables[1] = [0, BOUND + 1, 0], Some(refused(4, 1))),
        ("initial under", |m, _| m.variables[1][2] = -1, Some(refused(4, 1))),
        ("initial over", |m, _| m.variables[1][2] = 2, Some(refused(4, 1))),
        // Row 5.
        ("operation 15", |m, _| m.entries[11] = [15, 0, 0, 0], Some(refused(5, 11))),
        ("operation 65,535", |m, _| m.entries[3][0] = 65_535, Some(refused(5, 3))),
        ("no such variable", |m, _| m.entries[1][1] = 2, Some(refused(5, 1))),
        ("part itself", |m, _| m.entries[9][1] = 9, Some(refused(5, 9))),
        ("part higher", |m, _| m.entries[9][2] = 10, Some(refused(5, 9))),
        ("part missing", |m, _| m.entries[9][2] = 12, Some(refused(5, 9))),
        ("number of a truth", |m, _| m.entries[9][2] = 6, Some(refused(5, 9))),
        ("compares a truth", |m, _| m.entries[8][1] = 7, Some(refused(5, 8))),
        ("not of a number", |m, _| m.entries[11] = [11, 1, 0, 0], Some(refused(5, 11))),
        ("and of a number", |m, _| m.entries[11] = [12, 6, 1, 0], Some(refused(5, 11))),
        ("or of a number", |m, _| m.entries[11] = [13, 1, 6, 0], Some(refused(5, 11))),
        ("if of a number", |m, _| m.entries[11] = [7, 0, 0, 0], Some(refused(5, 11))),
        ("if with a truth second", |m, _| m.entries[11] = [7, 6, 6, 0], Some(refused(5, 11))),
        ("if with a truth third", |m, _| m.entries[11] = [7, 6, 0, 6], Some(refused(5, 11))),
        ("constant, second field", |m, _| m.entries[2][2] = 1, Some(refused(5, 2))),
        ("constant, third field", |m, _| m.entries[2][3] = 1, Some(refused(5, 2))),
        ("variable, second field", |m, _| m.entries[1][2] = 1, Some(refused(5, 1))),
        ("add, third field", |m, _| m.entries[9][3] = 1, Some(refused(5, 9))),
        ("equal, third field", |m, _| m.entries[6][3] = 1, Some(refused(5, 6))),
        ("not, second field", |m, _| m.entries.push([11, 6, 1, 0]), Some(refused(5, 12))),
        ("not, third field", |m, _| m.entries.push([11, 6, 0, 1]), Some(refused(5, 12))),
        ("and, third field", |m, _| m.entries.push([12, 6, 7, 1]), Some(refused(5, 12))),
        ("true, first field", |m, _| m.entries.push([14, 1, 0, 0]), Some(refused(5, 12))),
        ("true, second field", |m, _| m.entries.push([14, 0, 1, 0]), Some(refused(5, 12))),
        ("true, third field", |m, _| m.entries.push([14, 0, 0, 1]), Some(refused(5, 12))),
        ("all right", |m, _| m.entries.extend([[11, 6, 0, 0], [12, 6, 7, 0], [14, 0, 0, 0]]), None),
        // Row 6, and that 5 of a later entry comes first.
        (
            "too large",
            |m, _| m.entries.extend([[0, 1_001, 0, 0], [0, 1_000, 0, 0], [4, 12, 13, 0]]),
            Some(refused(6, 14)),
        ),
        (
            "too large, then too deep",
            |m, _| {
                m.entries.extend([[0, 1_001, 0, 0], [0, 1_000, 0, 0], [4, 12, 13, 0], [15, 0, 0, 0]]);
            },
            Some(refused(5, 15)),
        ),
        ("a truth has no range", |m, _| m.entries.extend([[0, 30_000, 0, 0], [10, 12, 12, 0]]), None),
        // Row 7.
        ("D is 0", |m, _| m.total = 0, Some(refused(7, 0))),
        ("target a number", |m, _| m.target = 0, Some(refused(7, 1))),
        ("target missing", |m, _| m.target = 12, Some(refused(7, 1))),
        ("both", |m, _| (m.total, m.target) = (0, 12), Some(refused(7, 0))),
        // Row 8.
        ("guard a number", |m, _| m.commands[1][0] = 9, Some(refused(8, 1))),
        ("guard missing", |m, _| m.commands[0][0] = 12, Some(refused(8, 0))),
        ("no branches", |m, _| m.commands[1][1] = 0, Some(refused(8, 1))),
        ("17 branches", |m, _| m.commands[0][1] = 17, Some(refused(8, 0))),
        // Row 9.
        ("branches over", |m, _| m.commands[0][1] = 1, Some(refused(9, 0))),
        ("branches short", |m, _| m.commands[1][1] = 2, Some(refused(9, 0))),
        // Row 10.
        ("weight 0", |m, _| m.branches[1][0] = 0, Some(refused(10, 1))),
        ("assigned a truth", |m, _| m.branches[2][2] = 6, Some(refused(10, 2))),
        ("assigned missing", |m, _| m.branches[2][1] = 12, Some(refused(10, 2))),
        ("assigned too wide", |m, _| m.branches[1][1] = 9, Some(refused(10, 1))),
        ("assigned too low", |m, _| m.entries[11] = [3, 1, 5, 0], Some(refused(10, 2))),
        ("a' = d fits, but is not known", |m, _| m.branches[2][1] = 1, Some(refused_for(21, 0, 0))),
        ("d' = a does not", |m, _| m.branches[0][2] = 0, Some(refused(10, 0))),
        // Row 11, and that 10 of a later command comes first.
        ("weights under", |m, _| m.branches[0][0] = 8, Some(refused(11, 0))),
        ("weights over", |m, _| m.branches[2][0] = 11, Some(refused(11, 1))),
        ("weights that come round", |m, _| m.branches[0][0] = 65_535, Some(refused(11, 0))),
        ("D", |m, _| m.total = 9, Some(refused(11, 0))),
        (
            "weights under, then weight 0",
            |m, _| (m.branches[0][0], m.branches[2][0]) = (8, 0),
            Some(refused(10, 2)),
        ),
    ]);
}

#[test]
fn rows_of_the_graph() {
    let (model, graph) = pedal();
    let model = model.bytes();
    let whole = graph.bytes();
    let nodes = 6 * 20;
    assert_eq!(whole.len(), 16 + nodes + 6 + 4 + 6);
    let long = |at: usize, value: u32| {
        let mut bytes = whole.clone();
        bytes[at..at + 4].copy_from_slice(&value.to_le_bytes());
        graph_check(&model, &bytes)
    };
    assert_eq!(long(0, 15), Err(refused(13, 0)));
    assert_eq!(long(0, 17), Err(refused(13, 0)));
    assert_eq!(long(4, u32::MAX), Err(refused(13, 0)));
    assert_eq!(long(4, 121), Err(refused(13, 1)));
    assert_eq!(long(8, 135), Err(refused(13, 1)));
    assert_eq!(long(12, 15), Err(refused(13, 1)));
    assert_eq!(long(12, 17), Err(refused(13, 1)));
    assert_eq!(long(4, 8u32.wrapping_sub(16)), Err(refused(13, 0)));
    assert_eq!(long(12, 100u32.wrapping_sub(136)), Err(refused(13, 1)));
    for length in 0..whole.len() {
        let number = if length < 16 { (12, 0) } else { (13, usize::from(length >= 16 + nodes)) };
        assert_eq!(graph_check(&model, &whole[..length]), Err(refused(number.0, number.1)), "{length}");
    }
    for (change, expected) in [(-1, (14, 0)), (1, (14, 0)), (-20, (16, 2))] {
        let mut bodies = graph.bodies();
        bodies[0].resize((nodes as i32 + change) as usize, 0);
        assert_eq!(graph_check(&model, &folder(&bodies)), Err(refused(expected.0, expected.1)), "{change}");
    }
    let mut bodies = graph.bodies();
    bodies[1].push(0);
    assert_eq!(graph_check(&model, &folder(&bodies)), Err(refused(16, 6)));
    bodies[1].truncate(15);
    assert_eq!(graph_check(&model, &folder(&bodies)), Err(refused(16, 2)));
    bodies[1].truncate(9);
    assert_eq!(graph_check(&model, &folder(&bodies)), Err(refused(16, 0)));
    bodies[1].clear();
    assert_eq!(graph_check(&model, &folder(&bodies)), Err(refused(16, 0)));
    bodies[0].clear();
    assert_eq!(graph_check(&model, &folder(&bodies)), Err(refused(14, 0)));
}

#[test]
fn rows_of_the_graph_by_field() {
    check_cases(&[
        // Row 15.
        ("kind 4", |_, g| g.nodes[5].kind = 4, Some(refused(15, 5))),
        ("kind 256", |_, g| g.nodes[5].kind = 256, Some(refused(15, 5))),
        ("value over S", |_, g| g.nodes[2].value = CERTAIN + 1, Some(refused(15, 2))),
        ("value with its high bit", |_, g| g.nodes[2].value = 1 << 31, Some(refused(15, 2))),
        ("expanded with a cover", |_, g| g.nodes[1].cover = 1, Some(refused(15, 1))),
        ("target with a cover", |_, g| g.nodes[5].cover = 1, Some(refused(15, 5))),
        ("covered with edges", |_, g| g.nodes[3].edge_count = 1, Some(refused(15, 3))),
        ("target with edges", |_, g| g.nodes[5].edge_count = 1, Some(refused(15, 5))),
        ("bit 2", |_, g| g.nodes[3].tracked = 5, Some(refused(15, 3))),
        ("bit 15", |_, g| g.nodes[3].tracked = 0x8001, Some(refused(15, 3))),
        ("concrete over", |_, g| g.nodes[3].concrete[1] = 2, Some(refused(15, 3))),
        ("concrete under", |_, g| g.nodes[3].concrete[0] = -1, Some(refused(15, 3))),
        ("label of an untracked one", |_, g| g.nodes[3].label[1] = 1, Some(refused(15, 3))),
        ("label of a tracked one out of range", |_, g| g.nodes[0].label[0] = 9, Some(refused(18, 0))),
        (
            "15 of a later node before 16",
            |_, g| {
                g.nodes[0].edges[0].command = 9;
                g.nodes[5].kind = 4;
            },
            Some(refused(15, 5)),
        ),
        // Row 16.
        ("no such command", |_, g| g.nodes[2].edges[0].command = 2, Some(refused(16, 2))),
        ("no such successor", |_, g| g.nodes[2].edges[0].successors[1] = 6, Some(refused(16, 2))),
        ("edges short", |_, g| g.nodes[2].edge_count = 2, Some(refused(16, 2))),
        ("bytes over", |_, g| g.nodes[0].edge_count = 1, Some(refused(16, 6))),
        // Row 17.
        ("root is not initial", |_, g| g.nodes[0].concrete[1] = 1, Some(refused(17, 0))),
        ("initial is not the root's", |m, _| m.variables[1][2] = 1, Some(refused(17, 0))),
        (
            "16 before 17",
            |_, g| {
                g.nodes[0].concrete[1] = 1;
                g.nodes[2].edge_count = 2;
            },
            Some(refused(16, 2)),
        ),
        // Row 18.
        ("root's label", |_, g| g.nodes[0].label[0] = 1, Some(refused(18, 0))),
        ("a label after it", |_, g| g.nodes[5].label[0] = 3, Some(refused_for(21, 2, 0))),
        (
            "a label that nobody leads to",
            |_, g| {
                let mut node = g.nodes[5].clone();
                node.kind = WAITING;
                node.label[0] = 1;
                g.nodes.push(node);
            },
            Some(refused(18, 6)),
        ),
        // Row 19.
        ("guard unknown", |_, g| track_nothing(&mut g.nodes[2]), Some(refused_for(19, 2, 0))),
        ("target expanded", |_, g| g.nodes[5].kind = EXPANDED, Some(refused_for(19, 5, NO_VARIABLE))),
        ("dead end a target", |_, g| g.nodes[1].kind = TARGET, Some(refused_for(19, 1, NO_VARIABLE))),
        ("target unknown", |_, g| track_nothing(&mut g.nodes[5]), Some(refused_for(19, 5, 0))),
        ("d for a", |_, g| g.nodes[0].tracked = 2, Some(refused_for(19, 0, 0))),
        // Row 20.
        ("edges the other way round", |_, g| g.nodes[0].edges.swap(0, 1), Some(refused(20, 0))),
        ("an edge twice", |_, g| g.nodes[0].edges[1] = g.nodes[0].edges[0].clone(), Some(refused(20, 0))),
        ("an edge more", |_, g| g.nodes[2].push_edge(1, vec![3]), Some(refused(20, 2))),
        ("an edge of a dead end", |_, g| g.nodes[1].push_edge(1, vec![3]), Some(refused(20, 1))),
        // Row 21.
        (
            "successors the other way round",
            |_, g| g.nodes[0].edges[0].successors.swap(0, 1),
            Some(refused_for(21, 0, NO_VARIABLE)),
        ),
        (
            "concrete label of a successor",
            |_, g| g.nodes[3].concrete[1] = 0,
            Some(refused_for(21, 0, NO_VARIABLE)),
        ),
        ("same state elsewhere", |_, g| g.nodes[0].edges[0].successors[0] = 4, None),
        // Row 22, 23, 24.
        ("cover missing", |_, g| g.nodes[4].cover = 6, Some(refused(22, 4))),
        ("cover covered", |_, g| g.nodes[4].cover = 3, Some(refused(22, 4))),
        ("outside the cover", |_, g| g.nodes[3].cover = 1, Some(refused(23, 3))),
        ("outside a target", |_, g| g.nodes[4].cover = 5, Some(refused(23, 4))),
        ("cover tracks more", |_, g| track_nothing(&mut g.nodes[3]), Some(refused(24, 3))),
        ("cover tracks d", |_, g| g.nodes[0].track(1), Some(refused(23, 3))),
        // Row 25.
        ("value of node 2", |_, g| g.nodes[2].value = 99_999_999, Some(refused(25, 2))),
        ("value under the cover's", |_, g| g.nodes[3].value = 9_999_999, Some(refused(25, 3))),
        ("value over the cover's", |_, g| g.nodes[3].value = 10_000_001, Some(refused(25, 0))),
        ("target under S", |_, g| g.nodes[5].value = CERTAIN - 1, Some(refused(25, 5))),
        (
            "waiting under S",
            |_, g| {
                g.nodes[5].kind = WAITING;
                g.nodes[5].value = CERTAIN - 1;
            },
            Some(refused(25, 5)),
        ),
        ("dead end, one unit", |_, g| g.nodes[1].value = 1, Some(refused(25, 0))),
        (
            "dead end, any value",
            |_, g| {
                for (node, value) in
                    [10_000_990, 1_000, 100_000_900, 10_000_990, 1_000].into_iter().enumerate()
                {
                    g.nodes[node].value = value;
                }
            },
            None,
        ),
        (
            "dead end, any value, and one unit under",
            |_, g| {
                for (node, value) in
                    [10_000_989, 1_000, 100_000_900, 10_000_989, 1_000].into_iter().enumerate()
                {
                    g.nodes[node].value = value;
                }
            },
            Some(refused(25, 0)),
        ),
        ("S everywhere", |_, g| g.nodes.iter_mut().for_each(|node| node.value = CERTAIN), None),
        (
            "25 of a node before 18 of a later one",
            |_, g| {
                g.nodes[2].value = 99_999_999;
                g.nodes[4].label[0] = 1;
                g.nodes[4].tracked = 1;
            },
            Some(refused_for(21, 2, 0)),
        ),
        (
            "25 of node 0 before 19 of node 1",
            |_, g| {
                g.nodes[0].value = 0;
                track_nothing(&mut g.nodes[1]);
            },
            Some(refused(25, 0)),
        ),
        ("root alone, waiting", |_, g| g.nodes = vec![NodeData::new(WAITING, CERTAIN, 0, &[0, 0])], None),
    ]);
}

#[test]
fn readings_are_three_way() {
    // The root tracks only variable 0; the other has too many values to be tried.
    let model = |truth: [u16; 4]| {
        let mut model = generate::limits::plain(2, 12, 1, 1);
        model.variables[1] = [0, 4_096, 0];
        model.entries[3] = [1, 0, 0, 0];
        model.entries[4] = [1, 1, 0, 0];
        model.entries[5] = [8, 3, 0, 0]; // known, true
        model.entries[6] = [11, 5, 0, 0]; // known, false
        model.entries[7] = [8, 4, 0, 0]; // unknown
        model.entries[8] = [4, 0, 4, 0]; // 0 × an unknown number: unknown
        model.entries[9] = [7, 5, 3, 4]; // if with an unknown part: unknown
        model.entries[10] = [7, 7, 0, 0]; // if with an unknown truth: unknown
        model.entries[11] = truth;
        model
    };
    let check = |model: &ModelData, node: NodeData| {
        graph_check(&model.bytes(), &GraphData { nodes: vec![node] }.bytes()).map(|_| ())
    };
    let as_guard = |truth, edge| {
        let mut model = model(truth);
        model.commands[0][0] = 11;
        let mut node = NodeData::new(EXPANDED, 0, 1, &[0, 0]);
        if edge {
            node.push_edge(0, vec![0]);
        }
        check(&model, node)
    };
    let as_target = |truth, kind| {
        let mut model = model(truth);
        model.target = 11;
        model.commands[0][0] = 2;
        check(&model, NodeData::new(kind, CERTAIN, 1, &[0, 0]))
    };
    let (yes, no, unknown) = (5, 6, 7);
    for (truth, reading) in [
        ([14, 0, 0, 0], Some(true)),
        ([11, yes, 0, 0], Some(false)),
        ([11, no, 0, 0], Some(true)),
        ([11, unknown, 0, 0], None),
        ([12, yes, yes, 0], Some(true)),
        ([12, yes, no, 0], Some(false)),
        ([12, no, unknown, 0], Some(false)),
        ([12, unknown, no, 0], Some(false)),
        ([12, yes, unknown, 0], None),
        ([12, unknown, yes, 0], None),
        ([12, unknown, unknown, 0], None),
        ([13, no, no, 0], Some(false)),
        ([13, yes, no, 0], Some(true)),
        ([13, yes, unknown, 0], Some(true)),
        ([13, unknown, yes, 0], Some(true)),
        ([13, no, unknown, 0], None),
        ([13, unknown, no, 0], None),
        ([8, 3, 0, 0], Some(true)),
        ([8, 3, 4, 0], None),
        ([8, 4, 4, 0], None),
        ([10, 4, 4, 0], None),
        ([8, 8, 0, 0], None),
        ([8, 9, 0, 0], None),
        ([8, 10, 0, 0], None),
        ([9, 0, 3, 0], Some(false)),
        ([10, 0, 3, 0], Some(true)),
    ] {
        let expected = |edge| match reading {
            None => Err(refused_for(19, 0, 1)),
            Some(enabled) if enabled == edge => Ok(()),
            Some(_) => Err(refused(20, 0)),
        };
        assert_eq!(as_guard(truth, false), expected(false), "{truth:?}");
        assert_eq!(as_guard(truth, true), expected(true), "{truth:?}");
        let when = |holds: bool| match reading {
            _ if holds => Ok(()),
            None => Err(refused_for(19, 0, 1)),
            Some(_) => Err(refused_for(19, 0, NO_VARIABLE)),
        };
        assert_eq!(as_target(truth, EXPANDED), when(reading == Some(false)), "{truth:?}");
        assert_eq!(as_target(truth, TARGET), when(reading == Some(true)), "{truth:?}");
        assert_eq!(as_target(truth, WAITING), Ok(()), "{truth:?}");
    }
}

#[test]
fn ranges_by_operation() {
    // x in −2..3, y in −5..7: an entry is assigned to a variable of exactly its
    // range, and of one less at either end.
    let (x, y) = (0, 1);
    for (record, low, high) in [
        ([0, -7i16 as u16, 0, 0], -7, -7),
        ([1, 0, 0, 0], -2, 3),
        ([2, x, y, 0], -7, 10),
        ([3, x, y, 0], -9, 8),
        ([3, x, x, 0], -5, 5),
        ([4, x, y, 0], -15, 21),
        ([4, x, x, 0], -6, 9),
        ([5, x, y, 0], -5, 3),
        ([6, x, y, 0], -2, 7),
        ([7, 2, x, y], -5, 7),
        ([7, 2, x, x], -2, 3),
    ] {
        let answer = |low: i16, high: i16| {
            let model = ModelData {
                total: 1,
                target: 2,
                variables: vec![[-2, 3, 0], [-5, 7, 0], [low, high, low]],
                entries: vec![[1, 0, 0, 0], [1, 1, 0, 0], [14, 0, 0, 0], record],
                commands: vec![[2, 1]],
                branches: vec![vec![1, 0, 1, 3]],
            };
            model_check(&model.bytes())
        };
        assert_eq!(answer(low, high), Ok(()), "{record:?}");
        assert_eq!(answer(low - 1, high + 1), Ok(()), "{record:?}");
        if low < high {
            assert_eq!(answer(low + 1, high), Err(refused(10, 0)), "{record:?}");
            assert_eq!(answer(low, high - 1), Err(refused(10, 0)), "{record:?}");
        }
    }
}

#[test]
fn view_of_the_pedal() {
    let (model, _) = pedal();
    let whole = model.bytes();
    for (body, (bytes, size)) in model.bodies().iter().zip([4, 6, 8, 4, 6]).enumerate() {
        let count = bytes.len() / size;
        for record in 0..count {
            assert_eq!(record_part(&whole, body, record), &bytes[size * record..size * (record + 1)]);
        }
        for record in [count, count + 1, 1 << 16, 1 << 32, usize::MAX] {
            let part = record_part(&whole, body, record);
            assert!(part.is_empty() && part.as_ptr() == whole.as_ptr());
        }
    }
    assert!(record_part(&whole, 5, 0).is_empty());
    assert!(record_part(&whole, usize::MAX, 0).is_empty());
    assert!(record_part(&whole[..177], 0, 0).is_empty());
    assert!(record_part(&[], 0, 0).is_empty());
    // Causes after 3 do not matter to it.
    let mut broken = model.clone();
    broken.total = 0;
    broken.entries[0][0] = 99;
    assert_eq!(record_part(&broken.bytes(), 2, 0), [99, 0, 0, 0, 0, 0, 0, 0]);
}

#[test]
fn fnv_as_published() {
    for (text, hash) in [("", 0x811c9dc5), ("a", 0xe40c292c), ("foobar", 0xbf9cf968)] {
        assert_eq!(fnv(text.bytes()), hash, "{text}");
    }
}

/// The index of the pedal example after a change.
fn pedal_indexed(batch: &[i16], change: impl Fn(&mut GraphData)) -> Indexed {
    let (model, mut graph) = pedal();
    change(&mut graph);
    indexed(&model.bytes(), &graph.bytes(), batch, [(SLOTS, 3), (batch.len() / 2 + 1, 7), (7, 7)])
}

#[test]
fn index_of_the_pedal() {
    let slots = [(4_919, 5), (5_158, 1), (5_397, 0), (5_636, 2), (6_828, 3)];
    let rows = pedal_indexed(&[3, 0, 0, 1, 3, 1, 4, 0, 0, 0], |_| ());
    assert_eq!(rows.answer, Ok(0));
    assert_eq!(entered(&rows.after[0]), slots);
    assert_eq!(rows.after[1], [1, 3, NO_NODE, NO_NODE, 0, 7]);
    assert_eq!(rows.after[2], [7; 7]);

    // Node 4 has the state of node 1: listed once it is not covered.
    for kind in [EXPANDED, WAITING] {
        let rows = pedal_indexed(&[3, 0], |graph| {
            graph.nodes[4].kind = kind;
            graph.nodes[4].cover = 0;
            graph.nodes.iter_mut().for_each(|node| node.value = CERTAIN);
        });
        assert_eq!(rows.answer, Ok(1));
        assert_eq!(entered(&rows.after[0]), slots);
        assert_eq!((&rows.after[1][..], &rows.after[2][..]), (&[1, 7][..], &[4, 7, 7, 7, 7, 7, 7][..]));
    }
}

#[test]
fn covered_nodes_are_in_the_index_and_not_in_the_listing() {
    let kinds = [WAITING, COVERED, COVERED, TARGET, WAITING, COVERED, WAITING];
    let states = [[5], [-2], [-2], [-2], [-2], [5], [5]];
    let nodes: Vec<_> = kinds.into_iter().zip(states.map(Vec::from)).collect();
    let pair = states::of_states(&nodes);
    let batch = [-2, 5, 0];
    let rows = indexed(&pair.model.bytes(), &pair.graph.bytes(), &batch, [(SLOTS, 9), (3, 9), (7, 9)]);
    // Node 1 is the lowest of its state, node 3 the lowest uncovered one.
    assert_eq!(rows.after[1], [1, 0, NO_NODE]);
    assert_eq!((rows.answer, &rows.after[2][..]), (Ok(2), &[4, 6, 9, 9, 9, 9, 9][..]));
}

#[test]
fn slots_are_entered_round_the_end() {
    let states::Crowd { pair, .. } = states::one_slot();
    let rows = [(SLOTS, 0), (0, 0), (MOST_NODES, 0)];
    let slots = &indexed(&pair.model.bytes(), &pair.graph.bytes(), &[], rows).after[0];
    // The first in the last slot, the others from the first slot on.
    let expected: Vec<_> = (1..MOST_NODES).map(|node| (node - 1, node as u16)).collect();
    assert_eq!(entered(slots), [&expected[..], &[(SLOTS - 1, 0)]].concat());
}

#[test]
fn crowds_are_hard_to_tell_apart() {
    let hash = |state: &Vec<i16>| fnv(state.iter().flat_map(|value| value.to_le_bytes()));
    for (states::Crowd { name, pair, absent }, kept) in
        [(states::one_slot(), SLOTS as u32 - 1), (states::one_hash(), u32::MAX)]
    {
        let there = pair.graph.nodes.into_iter().map(|node| node.concrete);
        let all: Vec<Vec<i16>> = there.chain(absent).collect();
        assert_eq!(all.iter().collect::<HashSet<_>>().len(), 2 * MOST_NODES, "{name}");
        assert!(all.iter().all(|state| hash(state) & kept == hash(&all[0]) & kept), "{name}");
        assert_eq!(all.iter().any(|state| hash(state) != hash(&all[0])), kept != u32::MAX, "{name}");
    }
}

#[test]
fn limits_are_kept() {
    for limit in limits() {
        let Input { name, model, graph, h, rows, state, command, branch, result, batch, index_rows, .. } =
            limit.input;
        let mut row = result_before(result);
        let answers = [
            model_check(&model).err(),
            graph_check(&model, &graph).err(),
            figure_rows(&model, &graph, h, rows).answer.err(),
            step(&model, &state, command, branch, &mut row).err(),
            indexed(&model, &graph, &batch, index_rows).answer.err(),
        ];
        let expected = limit
            .answers
            .map(|answer| answer.map(|(number, place, second)| refused_for(number, place, second)));
        assert_eq!(answers, expected, "{name}");
    }
}

#[test]
fn large_inputs_are_accepted() {
    let large = large::deep_check();
    let summary = graph_check(&large.model, &large.graph).unwrap();
    assert_eq!(summary.expanded, MOST_NODES);
    // There is no room for one edge more.
    assert!((GRAPH_BYTES - LONGEST_EDGE + 1..=GRAPH_BYTES).contains(&large.graph.len()));
    assert_eq!(large.model.len(), 39_308);
    let mut result = [0; MOST_VARIABLES];
    assert_eq!(step(&large.model, &large.state, large.command, large.branch, &mut result), Ok(()));
    for changing in [true, false] {
        let large = large::figures(changing);
        let summary = graph_check(&large.model, &large.graph).unwrap();
        assert_eq!((summary.expanded, summary.target), (MOST_NODES - 1, 1));
        let last = figures(&large.model, &large.graph, MOST_NODES, 20).unwrap();
        let next = figures(&large.model, &large.graph, MOST_NODES, 21).unwrap();
        assert_eq!(last != next, changing);
    }
}

#[test]
fn hostile_inputs_are_accepted() {
    for hostile in hostile::all() {
        let model = hostile.model();
        let summary = graph_check(&model, &hostile.graph(3)).unwrap();
        assert_eq!((summary.expanded, hostile.name), (3, hostile.name));
        // There may be as many nodes as in any graph.
        assert!(hostile.graph(MOST_NODES).len() <= GRAPH_BYTES);
    }
}

// ------------------------------------------------------------ second places

/// A model of three variables, all 0 at first, and so many commands, each with two
/// branches that change nothing. No state is a target.
fn unchanging(commands: usize) -> ModelData {
    let mut model = generate::limits::plain(3, 9, commands, 2);
    for v in 0..3 {
        model.entries[3 + v] = [1, v as u16, 0, 0];
        model.entries[6 + v] = [8, 3 + v as u16, 0, 0];
    }
    for branch in &mut model.branches {
        branch[1..].copy_from_slice(&[3, 4, 5]);
    }
    model
}

/// Of an unchanging model, the entries that say of each variable that it is 0.
const IS_ZERO: [u16; 3] = [6, 7, 8];

/// What the graph check says of a graph of one node that tracks the set.
fn alone(model: &ModelData, kind: u16, tracked: u16) -> Option<Refusal> {
    let node = NodeData::new(kind, CERTAIN, tracked, &[0, 0, 0]);
    graph_check(&model.bytes(), &GraphData { nodes: vec![node] }.bytes()).err()
}

#[test]
fn unknown_readings_name_the_lowest_variable_that_is_missing() {
    let [x, y, z] = IS_ZERO;
    // Entries 9 to 11: a false one and a true one that mention x, and y or z as the
    // first says.
    let known = [[12, 2, x, 0], [13, x, 1, 0], [7, 9, 4, 5]];
    for (truth, tracked, second) in [
        ([13, y, 9, 0], 0b000, 0),
        ([13, y, 9, 0], 0b001, 1),
        ([13, 9, y, 0], 0b000, 0),
        ([12, 10, z, 0], 0b000, 0),
        ([12, 10, z, 0], 0b010, 0),
        ([12, 10, z, 0], 0b011, 2),
        ([12, z, y, 0], 0b000, 1),
        ([12, z, y, 0], 0b010, 2),
        ([11, y, 0, 0], 0b101, 1),
        ([8, 5, 4, 0], 0b000, 1),
        ([8, 4, 3, 0], 0b100, 0),
        ([8, 4, 3, 0], 0b001, 1),
        ([8, 11, 0, 0], 0b000, 0),
        ([8, 11, 0, 0], 0b001, 1),
        ([8, 11, 0, 0], 0b011, 2),
    ] {
        let mut model = unchanging(1);
        model.entries.extend(known);
        model.entries.push(truth);
        let expected = Some(refused_for(19, 0, second));
        model.commands[0][0] = 12;
        assert_eq!(alone(&model, EXPANDED, tracked), expected, "guard {truth:?} {tracked:b}");
        model.commands[0][0] = 2;
        model.target = 12;
        for kind in [EXPANDED, TARGET] {
            assert_eq!(alone(&model, kind, tracked), expected, "target {truth:?} {tracked:b} {kind}");
        }
    }
}

#[test]
fn guards_are_asked_by_command_and_then_the_target() {
    let [x, y, z] = IS_ZERO;
    let mut model = unchanging(2);
    (model.commands[0][0], model.commands[1][0], model.target) = (z, y, x);
    for (kind, tracked, second) in [
        (EXPANDED, 0b000, 2),
        (EXPANDED, 0b001, 2),
        (EXPANDED, 0b010, 2),
        (EXPANDED, 0b100, 1),
        (EXPANDED, 0b101, 1),
        (EXPANDED, 0b110, 0),
        (EXPANDED, 0b111, NO_VARIABLE),
        (TARGET, 0b000, 0),
        (TARGET, 0b110, 0),
    ] {
        assert_eq!(alone(&model, kind, tracked), Some(refused_for(19, 0, second)), "{kind} {tracked:b}");
    }
    // A target node is not asked for its guards.
    assert_eq!(alone(&model, TARGET, 0b001), None);
    model.target = 2;
    assert_eq!(alone(&model, TARGET, 0b000), Some(refused_for(19, 0, NO_VARIABLE)));
}

/// Nodes with a variable of each.
type Places = &'static [(usize, usize)];

/// What the graph check says of a graph whose root, which tracks x, has two edges of two
/// branches, to nodes 1 to 4. These wait, and track nothing but what is given, with the
/// right label value 0 or a wrong one; and some concrete values are wrong.
fn led_astray(right: Places, wrong: Places, concrete: Places) -> Option<Refusal> {
    let model = unchanging(2);
    let mut nodes = vec![NodeData::new(WAITING, CERTAIN, 0, &[0, 0, 0]); 5];
    nodes[0] = NodeData::new(EXPANDED, CERTAIN, 1, &[0, 0, 0]);
    nodes[0].push_edge(0, vec![1, 2]);
    nodes[0].push_edge(1, vec![3, 4]);
    right.iter().chain(wrong).for_each(|&(node, v)| nodes[node].track(v));
    wrong.iter().for_each(|&(node, v)| nodes[node].label[v] = 1);
    concrete.iter().for_each(|&(node, v)| nodes[node].concrete[v] = 1);
    graph_check(&model.bytes(), &GraphData { nodes }.bytes()).err()
}

#[test]
fn successors_are_followed_by_edge_and_branch() {
    let (x, y, z) = (0, 1, 2);
    assert_eq!(led_astray(&[(1, 0), (4, 0)], &[], &[]), None);
    let cases: [(Places, Places, Places, usize); 14] = [
        // One branch: the concrete label of all variables, then the tracked ones upward.
        (&[(1, 1)], &[], &[], y),
        (&[(1, 2), (1, 1)], &[], &[], y),
        (&[(1, 0), (1, 2)], &[], &[], z),
        (&[], &[(1, 0)], &[], x),
        (&[(1, 1)], &[(1, 0)], &[], x),
        (&[], &[], &[(1, 2)], NO_VARIABLE),
        (&[(1, 1)], &[], &[(1, 2)], NO_VARIABLE),
        // Each of the other branches.
        (&[(2, 2)], &[], &[], z),
        (&[(3, 1)], &[], &[], y),
        (&[], &[], &[(4, 0)], NO_VARIABLE),
        // Two of them: the first, whatever is wrong with the other.
        (&[(1, 2), (2, 1)], &[], &[], z),
        (&[(2, 2)], &[(3, 0)], &[], z),
        (&[(3, 1)], &[], &[(4, 0)], y),
        (&[(3, 1)], &[], &[(2, 0)], NO_VARIABLE),
    ];
    for (right, wrong, concrete, second) in cases {
        let expected = Some(refused_for(21, 0, second));
        assert_eq!(led_astray(right, wrong, concrete), expected, "{right:?} {wrong:?} {concrete:?}");
    }
}

// ------------------------------------------------------------ over seeds

fn kind_counts(graph: &GraphData) -> Summary {
    let count = |kind| graph.nodes.iter().filter(|node| node.kind == kind).count();
    Summary {
        root: graph.nodes[0].value,
        waiting: count(WAITING),
        expanded: count(EXPANDED),
        covered: count(COVERED),
        target: count(TARGET),
    }
}

#[test]
fn explored_graphs_are_accepted() {
    let (mut finished, mut nodes, mut covered, mut widest, mut untracked) = (0, 0, 0, 0, 0);
    let count = cases() / 4;
    for seed in 0..count {
        let pair = Pair::any(&mut Random::new(1 << 40 | seed));
        let answer = graph_check(&pair.model.bytes(), &pair.graph.bytes());
        let expected = kind_counts(&pair.graph);
        assert_eq!(answer, Ok(expected), "seed {seed}");
        finished += usize::from(expected.waiting == 0);
        nodes += pair.graph.nodes.len();
        covered += expected.covered;
        widest = widest.max(pair.graph.nodes.len());
        let all = (1u32 << pair.model.variables.len()) - 1;
        untracked += pair.graph.nodes.iter().filter(|node| u32::from(node.tracked) != all).count();
    }
    println!(
        "{count} graphs, {finished} finished, {nodes} nodes ({widest} at most), {covered} covered, \
         {untracked} with an untracked variable"
    );
    assert!(finished > 0 && covered > 0 && untracked > 0);
}

/// Rows 19 to 21 of a node, number and second place, by the definition alone: whatever is
/// asked is read by itself, one combination after the other.
fn broken_by_readings(Pair { model, graph }: &Pair, node: &NodeData) -> Option<(u32, usize)> {
    let read = |entry| model.read_by_all_states(entry, &node.concrete, node.tracked);
    let commands = if node.kind == EXPANDED { &model.commands[..] } else { &[] };
    let guards = commands.iter().map(|&[guard, _]| guard);
    if let Some(entry) = guards.clone().chain([model.target]).find(|&entry| read(entry).is_none()) {
        let missing = model.mentioned()[usize::from(entry)] & !node.tracked;
        return Some((19, missing.trailing_zeros() as usize));
    }
    if read(model.target) != Some((node.kind == TARGET).into()) {
        return Some((19, NO_VARIABLE));
    }
    let enabled = guards.enumerate().filter(|&(_, guard)| read(guard) == Some(1)).map(|(c, _)| c as u16);
    if !node.edges.iter().map(|edge| edge.command).eq(enabled) {
        return Some((20, 0));
    }
    let values = model.evaluate(&node.concrete);
    for edge in &node.edges {
        let branches = model.branches_of(usize::from(edge.command)).iter().zip(&edge.successors);
        for (branch, &successor) in branches {
            let successor = &graph.nodes[usize::from(successor)];
            if model.next(&values, branch) != successor.concrete {
                return Some((21, NO_VARIABLE));
            }
            let follows = |&v: &usize| read(branch[1 + v]) == Some(successor.label[v].into());
            let mut tracked = (0..model.variables.len()).filter(|&v| successor.tracks(v));
            if let Some(v) = tracked.find(|v| !follows(v)) {
                return Some((21, v));
            }
        }
    }
    None
}

#[test]
fn readings_are_those_of_all_states() {
    let (mut accepted, mut refused) = (0, [0; 3]);
    for seed in 0..cases() / 2 {
        let pair = readings::changed(&mut Random::new(1 << 43 | seed));
        let answer = graph_check(&pair.model.bytes(), &pair.graph.bytes()).err();
        if answer.is_some_and(|refusal| refusal.number < 18) {
            continue;
        }
        let asked = |node: &NodeData| matches!(node.kind, EXPANDED | TARGET);
        let broken = |node: &NodeData| broken_by_readings(&pair, node).filter(|_| asked(node));
        let last = answer.map_or(pair.graph.nodes.len(), |refusal| refusal.place);
        assert!(pair.graph.nodes[..last].iter().all(|node| broken(node).is_none()), "seed {seed}");
        match answer {
            None => accepted += 1,
            Some(Refusal { number: 18, .. }) => (),
            Some(Refusal { number, second, .. }) => {
                let due = (number <= 21).then_some((number, second));
                assert_eq!(broken(&pair.graph.nodes[last]), due, "seed {seed}");
                due.iter().for_each(|&(number, _)| refused[number as usize - 19] += 1);
            }
        }
    }
    println!("{accepted} accepted, {refused:?} refused with 19, 20 and 21");
    assert!(accepted > 0 && refused.iter().all(|&count| count > 0));
}

/// How many variables an accepted model has: a branch record has a weight, and an entry
/// for each.
fn variables_of(model: &[u8]) -> usize {
    record_part(model, 4, 0).len() / 2 - 1
}

/// The first slot of a node's concrete state, by its bytes.
fn first_slot(Input { model, graph, .. }: &Input, node: u16) -> usize {
    let variables = variables_of(model);
    let record = GRAPH_TABLE + (12 + 4 * variables) * usize::from(node);
    fnv(graph[record + 12..][..2 * variables].iter().copied()) as usize % SLOTS
}

/// Runs the index call on an input, and asks of it what holds of any.
fn run_index(input: &Input, of_graph: Option<Refusal>) -> Indexed {
    let rows = indexed(&input.model, &input.graph, &input.batch, input.index_rows);
    match rows.answer {
        Ok(listed) => {
            let ([_, answers, listing], states) =
                (&rows.after, input.batch.len() / variables_of(&input.model));
            assert_eq!(answers[states..], rows.before[1][states..]);
            assert_eq!(listing[listed..], rows.before[2][listed..]);
            assert!(listing[..listed].is_sorted_by(|a, b| a < b));
            assert_eq!(of_graph, None);
        }
        Err(refusal) => {
            assert_eq!(rows.before, rows.after);
            assert!(of_graph == Some(refusal) || of_graph.is_none() && refusal.number == 34);
        }
    }
    rows
}

/// Runs every call on an input, and asks of each what holds of any.
fn run_all(input: &Input) -> [Option<Refusal>; 5] {
    let Input { model, graph, h, rows, state, command, branch, result, body, record, .. } = input;
    let of_model = model_check(model).err();
    let of_graph = graph_check(model, graph);
    let rows = figure_rows(model, graph, *h, *rows);
    let mut row = result_before(*result);
    let of_step = step(model, state, *command, *branch, &mut row).err();

    if of_model.is_some() {
        assert_eq!((of_graph.err(), rows.answer.err(), of_step), (of_model, of_model, of_model));
    }
    match (&of_graph, &rows.answer) {
        (Err(refusal), Err(other)) => assert_eq!(refusal, other),
        (Err(_), Ok(_)) => panic!("a figure of a refused graph"),
        (Ok(summary), Ok(part)) => {
            let Summary { waiting, expanded, covered, target, .. } = summary;
            assert_eq!(*waiting, 0);
            assert_eq!(part.nodes, expanded + covered + target);
            assert_eq!(part.second, h % 2 == 1);
            let (this, other) = (usize::from(part.second), usize::from(!part.second));
            for row in [this, other] {
                assert_eq!(rows.after[row][part.nodes..], rows.before[row][part.nodes..]);
            }
            if *h == 0 {
                assert_eq!(rows.after[1], rows.before[1]);
            } else {
                let before = figures(model, graph, part.nodes, h - 1).unwrap();
                assert_eq!(rows.after[other][..part.nodes], before);
            }
            assert!(rows.after[this][..part.nodes].iter().all(|&figure| figure <= CERTAIN));
        }
        (Ok(_), Err(refusal)) => assert!((26..=28).contains(&refusal.number)),
    }
    if rows.answer.is_err() {
        assert_eq!(rows.before, rows.after);
    }
    if of_step.is_some() {
        assert_eq!(row, result_before(*result));
    } else {
        assert_eq!(row[state.len()..], result_before(*result)[state.len()..]);
    }
    let part = record_part(model, *body, *record);
    if of_model.is_some_and(|refusal| refusal.number <= 3) {
        assert!(part.is_empty());
    }
    let of_index = run_index(input, of_graph.err()).answer.err();
    [of_model, of_graph.err(), rows.answer.err(), of_step, of_index]
}

#[test]
fn every_number_is_reached() {
    let mut numbers = [[0usize; 5]; LAST_OF_INPUTS as usize + 1];
    let mut kinds: Vec<(&str, usize, usize)> = Vec::new();
    for seed in 0..cases() {
        let input = input(seed);
        let answers = run_all(&input);
        for (call, answer) in answers.into_iter().enumerate() {
            numbers[answer.map_or(0, |refusal| refusal.number) as usize][call] += 1;
        }
        let place = kinds.iter().position(|(name, ..)| *name == input.name).unwrap_or_else(|| {
            kinds.push((input.name, 0, 0));
            kinds.len() - 1
        });
        kinds[place].1 += 1;
        kinds[place].2 += usize::from(answers[1].is_none());
    }
    println!("{} inputs", cases());
    for (name, count, accepted) in &kinds {
        println!("{name}: {count}, {accepted} of the graphs accepted");
    }
    println!("number   model   graph  figure    step   index  (0 is acceptance)");
    for (number, [model, graph, figure, step, index]) in numbers.iter().enumerate() {
        println!("{number:6} {model:7} {graph:7} {figure:7} {step:7} {index:7}");
    }
    if cases() >= 5_000 {
        for (number, counts) in numbers.iter().enumerate() {
            assert!(counts.iter().any(|&count| count > 0), "no input is refused with {number}");
        }
    }
}

/// What the index calls over seeds meet: graphs that list nodes, states that are
/// there and that are not, nodes that enter round the end, and each place of 34.
#[test]
fn indexes_meet_all_there_is() {
    let (mut listing, mut there, mut missing, mut moved, mut places) = (0, 0, 0, 0, [0; 4]);
    for seed in 0..cases() {
        let input = input(seed);
        let rows = run_index(&input, graph_check(&input.model, &input.graph).err());
        match rows.answer {
            Ok(listed) => {
                let states = input.batch.len() / variables_of(&input.model);
                let absent = rows.after[1][..states].iter().filter(|&&node| node == NO_NODE).count();
                listing += usize::from(listed > 0);
                there += states - absent;
                missing += absent;
                let round = |&&(slot, node): &&(usize, u16)| slot < first_slot(&input, node);
                moved += entered(&rows.after[0]).iter().filter(round).count();
            }
            Err(refusal) if refusal.number == 34 => places[refusal.place] += 1,
            Err(_) => (),
        }
    }
    println!(
        "{listing} with nodes listed, {there} states there, {missing} not, {moved} round the end, {places:?}"
    );
    if cases() >= 5_000 {
        assert!([listing, there, missing, moved].into_iter().chain(places).all(|count| count > 0));
    }
}

#[test]
fn any_byte_of_the_pedal_may_change() {
    let (model, graph) = pedal();
    let (model, graph) = (model.bytes(), graph.bytes());
    for change_model in [true, false] {
        let length = if change_model { model.len() } else { graph.len() };
        for at in 0..length {
            for byte in [0, 1, 2, 3, 5, 9, 0x7f, 0x80, 0xfe, 0xff] {
                let (mut model, mut graph) = (model.clone(), graph.clone());
                *if change_model { &mut model[at] } else { &mut graph[at] } = byte;
                let (name, state) = ("pedal", vec![0, 0]);
                run_all(&Input {
                    name,
                    model,
                    graph,
                    h: 3,
                    rows: [6, 7],
                    state,
                    command: 0,
                    branch: 1,
                    result: 3,
                    body: at % 5,
                    record: at % 3,
                    batch: vec![0, 1, 3, 0, 3, 1],
                    index_rows: [(SLOTS, 0), (4, 0), (7, 0)],
                });
            }
        }
    }
}

// ------------------------------------------------------------ best chances

/// The value of an entry in a state, by plain recursion; a truth as 0 or 1.
fn meaning(model: &ModelData, entry: u16, state: &[i16]) -> i64 {
    let [operation, a, b, c] = model.entries[usize::from(entry)];
    let of = |part| meaning(model, part, state);
    match operation {
        0 => (a as i16).into(),
        1 => state[usize::from(a)].into(),
        2 => of(a) + of(b),
        3 => of(a) - of(b),
        4 => of(a) * of(b),
        5 => of(a).min(of(b)),
        6 => of(a).max(of(b)),
        7 if of(a) == 1 => of(b),
        7 => of(c),
        8 => (of(a) == of(b)).into(),
        9 => (of(a) < of(b)).into(),
        10 => (of(a) <= of(b)).into(),
        11 => (of(a) == 0).into(),
        12 => (of(a) == 1 && of(b) == 1).into(),
        13 => (of(a) == 1 || of(b) == 1).into(),
        _ => 1,
    }
}

/// A state's moves: for each command enabled, weight and next state by branch.
type Moves = Vec<Vec<(u128, Vec<i16>)>>;

/// The best chances to reach a target within so many steps, where the total to the
/// power of the steps is certainty; each state and number of steps worked out once.
struct Best<'a> {
    model: &'a ModelData,
    moves: HashMap<Vec<i16>, Option<Moves>>,
    found: HashMap<(u32, Vec<i16>), u128>,
}

impl Best<'_> {
    /// Nothing for a target.
    fn moves(&mut self, state: &[i16]) -> Option<Moves> {
        if let Some(moves) = self.moves.get(state) {
            return moves.clone();
        }
        let model = self.model;
        let moves = (meaning(model, model.target, state) == 0).then(|| {
            let commands = 0..model.commands.len();
            let enabled = commands.filter(|&command| meaning(model, model.commands[command][0], state) == 1);
            let branch = |branch: &Vec<u16>| {
                let next = branch[1..].iter().map(|&entry| meaning(model, entry, state) as i16);
                (u128::from(branch[0]), next.collect())
            };
            enabled.map(|command| model.branches_of(command).iter().map(branch).collect()).collect()
        });
        self.moves.insert(state.to_vec(), moves.clone());
        moves
    }

    fn chance(&mut self, steps: u32, state: &[i16]) -> u128 {
        let key = (steps, state.to_vec());
        if let Some(&chance) = self.found.get(&key) {
            return chance;
        }
        let chance = match self.moves(state) {
            None => u128::from(self.model.total).pow(steps),
            Some(_) if steps == 0 => 0,
            Some(moves) => {
                let sums = moves.iter().map(|branches| {
                    let parts = branches.iter().map(|(weight, next)| weight * self.chance(steps - 1, next));
                    parts.sum::<u128>()
                });
                sums.max().unwrap_or(0)
            }
        };
        self.found.insert(key, chance);
        chance
    }
}

#[test]
fn values_and_figures_bound_the_best_chances() {
    let count = (cases() / 16).max(300);
    let (mut finished, mut tight, mut positive) = (0, 0, 0);
    for seed in 0..count {
        let random = &mut Random::new(1 << 41 | seed);
        let mut pair = Pair::small(random);
        if seed % 2 == 0 {
            // As many finished ones as not.
            let plan = Plan { nodes: 400, leave: 0, values: Values::Upward(300), ..Plan::any(random) };
            pair.graph = explore::graph(random, &pair.model, &plan);
        }
        let Pair { model, graph } = &pair;
        let (bytes, graph_bytes) = (model.bytes(), graph.bytes());
        let summary = graph_check(&bytes, &graph_bytes).expect("explored graphs are accepted");
        finished += usize::from(summary.waiting == 0);
        let mut best = Best { model, moves: HashMap::new(), found: HashMap::new() };
        let certain = u128::from(CERTAIN);
        for steps in 0..=10 {
            let whole = u128::from(model.total).pow(steps);
            let figures = figures(&bytes, &graph_bytes, graph.nodes.len(), steps as usize);
            assert_eq!(figures.is_ok(), summary.waiting == 0);
            for (place, node) in graph.nodes.iter().enumerate() {
                let exact = certain * best.chance(steps, &node.concrete);
                assert!(u128::from(node.value) * whole >= exact, "seed {seed}, node {place}, {steps} steps");
                if let Ok(figures) = &figures {
                    let figure = u128::from(figures[place]) * whole;
                    assert!(figure >= exact, "seed {seed}, node {place}, {steps} steps");
                    assert!(
                        figure <= exact + u128::from(steps) * whole,
                        "seed {seed}, node {place}, {steps} steps"
                    );
                    positive += usize::from(place == 0 && steps == 10 && figure > 0);
                    tight += usize::from(place == 0 && steps == 10 && figure > exact);
                }
            }
        }
    }
    println!(
        "{count} models, {finished} finished; root figures at 10 steps: {positive} not 0, {tight} rounded"
    );
    assert!(finished as u64 > count / 4 && positive > 0 && tight > 0);
}

#[test]
fn steps_agree_with_plain_recursion() {
    let (mut answered, mut disabled) = (0, 0);
    for seed in 0..cases() / 8 {
        let random = &mut Random::new(1 << 42 | seed);
        let Pair { model, graph } = Pair::small(random);
        let bytes = model.bytes();
        for node in graph.nodes.iter().take(8) {
            for command in 0..model.commands.len() {
                for branch in 0..model.branches_of(command).len() {
                    let mut result = vec![0; node.concrete.len()];
                    let answer = step(&bytes, &node.concrete, command, branch, &mut result);
                    if meaning(&model, model.commands[command][0], &node.concrete) == 0 {
                        assert_eq!(answer, Err(refused(32, command)));
                        disabled += 1;
                    } else {
                        assert_eq!(answer, Ok(()));
                        let entries = &model.branches_of(command)[branch][1..];
                        let next = entries.iter().map(|&entry| meaning(&model, entry, &node.concrete) as i16);
                        assert_eq!(result, next.collect::<Vec<_>>());
                        answered += 1;
                    }
                }
            }
        }
    }
    println!("{answered} steps, {disabled} with a guard that is false");
    assert!(answered > 0 && disabled > 0);
}
