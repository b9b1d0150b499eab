//! Inputs at the limits and just past them, with what each call answers.

use super::data::*;
use super::readings;
use super::states::{self, one_hash, one_slot, Crowd};
use super::{pedal, Input};

/// What the five calls answer, in this order: model check, graph check, figure,
/// step, index. Nothing is acceptance; a refusal is its number and both places.
pub type Answers = [Option<(u32, usize, usize)>; 5];

pub struct Limit {
    pub input: Input,
    pub answers: Answers,
}

const ACCEPTED: Answers = [None; 5];

fn model_refused(number: u32, place: usize) -> Answers {
    [Some((number, place, 0)); 5]
}

fn graph_refused(number: u32, place: usize) -> Answers {
    graph_refused_for(number, place, 0)
}

fn graph_refused_for(number: u32, place: usize, second: usize) -> Answers {
    let graph = Some((number, place, second));
    [None, graph, graph, None, graph]
}

fn figure_refused(number: u32, place: usize) -> Answers {
    [None, None, Some((number, place, 0)), None, None]
}

fn step_refused(number: u32, place: usize) -> Answers {
    [None, None, None, Some((number, place, 0)), None]
}

fn index_refused(place: usize) -> Answers {
    [None, None, None, None, Some((34, place, 0))]
}

/// A model of so many variables, entries (3 or more), commands, and branches of
/// each command; every command is enabled and leads back to the initial state.
pub fn plain(variables: usize, entries: usize, commands: usize, branches: usize) -> ModelData {
    let mut branch = vec![0; 1 + variables];
    branch[0] = 1;
    let mut model = ModelData {
        total: branches as u16,
        target: 2,
        variables: vec![[0, 1, 0]; variables],
        entries: vec![[0, 0, 0, 0]; entries],
        commands: vec![[1, branches as u16]; commands],
        branches: vec![branch; commands * branches],
    };
    model.entries[1] = [14, 0, 0, 0];
    model.entries[2] = [11, 1, 0, 0];
    model
}

/// A graph of the plain model, with so many nodes; the first is expanded, and all
/// its edges lead to it, the rest are covered by it.
pub fn plain_graph(model: &ModelData, nodes: usize) -> GraphData {
    let initial = model.initial();
    let mut root = NodeData::new(EXPANDED, 0, 0, &initial);
    for command in 0..model.commands.len() {
        root.push_edge(command as u16, vec![0; model.branches_of(command).len()]);
    }
    let mut graph = GraphData { nodes: vec![NodeData::new(COVERED, 0, 0, &initial); nodes] };
    graph.nodes[0] = root;
    graph
}

fn input(name: &'static str, model: Vec<u8>, graph: Vec<u8>, nodes: usize, variables: usize) -> Input {
    Input {
        name,
        model,
        graph,
        h: 3,
        rows: [nodes, nodes],
        state: vec![0; variables],
        command: 0,
        branch: 0,
        result: variables,
        body: 0,
        record: 0,
        batch: vec![0; variables],
        index_rows: [(SLOTS, 0), (1, 0), (nodes, 0)],
    }
}

fn of_model(name: &'static str, model: &ModelData, answers: Answers) -> Limit {
    // The graph of the part of the model that keeps its limits does for all.
    let graph = plain_graph(model, 1);
    Limit { input: input(name, model.bytes(), graph.bytes(), 1, model.variables.len()), answers }
}

pub fn of_graph(name: &'static str, model: &ModelData, graph: &GraphData, answers: Answers) -> Limit {
    let nodes = graph.nodes.len();
    Limit { input: input(name, model.bytes(), graph.bytes(), nodes, model.variables.len()), answers }
}

/// A plain model whose entries from 3 on are a chain of this depth.
fn chain(depth: usize) -> ModelData {
    let mut model = plain(1, 2 + depth, 1, 1);
    for entry in 3..model.entries.len() {
        let last = if entry == 3 { 0 } else { entry as u16 - 1 };
        model.entries[entry] = [2, last, last, 0];
    }
    model
}

/// A plain model with an entry whose range is from −1,000,000 to 1,000,000 and
/// further, at one end, by this constant.
fn wide(constant: i16) -> ModelData {
    let mut model = plain(1, 10, 1, 1);
    model.entries[3] = [0, 1_000, 0, 0];
    model.entries[4] = [0, -1_000i16 as u16, 0, 0];
    model.entries[5] = [4, 3, 3, 0];
    model.entries[6] = [4, 3, 4, 0];
    model.entries[7] = [7, 1, 5, 6];
    model.entries[8] = [0, constant as u16, 0, 0];
    model.entries[9] = [2, 7, 8, 0];
    model
}

/// A graph of exactly as many bytes as it may have: 4,096 nodes, 60 edges each but for
/// one.
fn fullest() -> (ModelData, GraphData) {
    let mut model = plain(1, 5, 60, 1);
    model.entries[3] = [1, 0, 0, 0];
    model.entries[4] = [8, 0, 3, 0];
    for command in &mut model.commands[56..] {
        command[0] = 4;
    }
    for branch in &mut model.branches {
        branch[1] = 3;
    }
    let others = MOST_NODES as u16 - 1;
    let nodes = (0..=others).map(|place| {
        let last = place == others;
        let mut node = NodeData::new(EXPANDED, CERTAIN, 1, &[i16::from(last)]);
        for command in 0..if last { 56 } else { 60 } {
            node.push_edge(command, vec![if last { place } else { (place * 7 + command) % others }]);
        }
        node
    });
    let graph = GraphData { nodes: nodes.collect() };
    (model, graph)
}

/// The list.
pub fn limits() -> Vec<Limit> {
    let mut limits = Vec::new();
    let (model, graph) = pedal();
    let whole = |name, model: Vec<u8>, graph: Vec<u8>, answers| Limit {
        input: input(name, model, graph, 6, 2),
        answers,
    };

    // Folders by length.
    for (name, length, number) in [
        ("model of no bytes", 0, 1),
        ("model of one byte", 1, 1),
        ("model of 39 bytes", MODEL_TABLE - 1, 1),
        ("model of 40 bytes", MODEL_TABLE, 2),
    ] {
        limits.push(whole(name, vec![0; length], graph.bytes(), model_refused(number, 0)));
    }
    let largest = plain(MOST_VARIABLES, MOST_ENTRIES, MOST_COMMANDS, MOST_BRANCHES);
    limits.push(of_model("the largest model", &largest, ACCEPTED));
    for (name, length, number, place) in
        [("model of 40,000 bytes", MODEL_BYTES, 2, 4), ("model of 40,001 bytes", MODEL_BYTES + 1, 1, 0)]
    {
        let mut bytes = largest.bytes();
        bytes.resize(length, 0);
        limits.push(whole(name, bytes, graph.bytes(), model_refused(number, place)));
    }
    for (name, length, number) in [
        ("graph of no bytes", 0, 12),
        ("graph of one byte", 1, 12),
        ("graph of 15 bytes", GRAPH_TABLE - 1, 12),
        ("graph of 16 bytes", GRAPH_TABLE, 13),
    ] {
        limits.push(whole(name, model.bytes(), vec![0; length], graph_refused(number, 0)));
    }
    let (full_model, full) = fullest();
    limits.push(of_graph("graph of 1,048,576 bytes", &full_model, &full, ACCEPTED));
    let mut over = of_graph("graph of 1,048,577 bytes", &full_model, &full, graph_refused(12, 0));
    over.input.graph.push(0);
    limits.push(over);

    // Counts.
    limits.push(of_model("16 variables", &plain(MOST_VARIABLES, 3, 1, 1), ACCEPTED));
    limits.push(of_model("17 variables", &plain(MOST_VARIABLES + 1, 3, 1, 1), model_refused(3, 1)));
    limits.push(of_model("no variable", &plain(0, 3, 1, 1), model_refused(3, 1)));
    limits.push(of_model("512 entries", &plain(1, MOST_ENTRIES, 1, 1), ACCEPTED));
    limits.push(of_model("513 entries", &plain(1, MOST_ENTRIES + 1, 1, 1), model_refused(3, 2)));
    limits.push(of_model("64 commands", &plain(1, 3, MOST_COMMANDS, 1), ACCEPTED));
    limits.push(of_model("65 commands", &plain(1, 3, MOST_COMMANDS + 1, 1), model_refused(3, 3)));
    let mut model_over = plain(1, 3, MOST_COMMANDS, MOST_BRANCHES);
    limits.push(of_model("1,024 branch records", &model_over, ACCEPTED));
    model_over.branches.push(vec![1, 0]);
    limits.push(of_model("1,025 branch records", &model_over, model_refused(3, 4)));
    limits.push(of_model("16 branches", &plain(1, 3, 2, MOST_BRANCHES), ACCEPTED));
    limits.push(of_model("17 branches", &plain(1, 3, 2, MOST_BRANCHES + 1), model_refused(8, 0)));
    let mut unbranched = plain(1, 3, 2, 1);
    unbranched.commands[1][1] = 0;
    limits.push(of_model("no branch", &unbranched, model_refused(8, 1)));
    let small = plain(1, 3, 1, 1);
    limits.push(of_graph("4,096 nodes", &small, &plain_graph(&small, MOST_NODES), ACCEPTED));
    let over = plain_graph(&small, MOST_NODES + 1);
    limits.push(of_graph("4,097 nodes", &small, &over, graph_refused(14, 0)));
    let none = GraphData { nodes: Vec::new() };
    limits.push(of_graph("no node", &small, &none, graph_refused(14, 0)));

    // Depths, ranges, bounds, totals.
    let deepest = MOST_DEPTH as usize;
    limits.push(of_model("depth 12", &chain(deepest), ACCEPTED));
    limits.push(of_model("depth 13", &chain(deepest + 1), model_refused(5, 14)));
    limits.push(of_model("range of 1,000,000", &wide(0), ACCEPTED));
    limits.push(of_model("range of 1,000,001", &wide(1), model_refused(6, 9)));
    limits.push(of_model("range of −1,000,001", &wide(-1), model_refused(6, 9)));
    for (name, bounds, answers) in [
        ("bounds of 30,000", [-BOUND, BOUND, 0], ACCEPTED),
        ("high of 30,001", [-BOUND, BOUND + 1, 0], model_refused(4, 0)),
        ("low of −30,001", [-BOUND - 1, BOUND, 0], model_refused(4, 0)),
        ("bounds crossed", [1, 0, 0], model_refused(4, 0)),
        ("initial over", [-1, 1, 2], model_refused(4, 0)),
        ("initial under", [-1, 1, -2], model_refused(4, 0)),
    ] {
        let mut model = plain(1, 3, 1, 1);
        model.variables[0] = bounds;
        limits.push(of_model(name, &model, answers));
    }
    for (name, total, answers) in [
        ("D of 0", 0, model_refused(7, 0)),
        ("D of 65,535", u16::MAX, ACCEPTED),
        ("D of 2", 2, model_refused(11, 0)),
    ] {
        let mut model = plain(1, 3, 1, 1);
        model.total = total;
        model.branches[0][0] = total.max(1) - u16::from(total == 2);
        limits.push(of_model(name, &model, answers));
    }

    // Nodes.
    let node = |name, change: fn(&mut NodeData), answers| {
        let mut graph = plain_graph(&small, 2);
        change(&mut graph.nodes[1]);
        of_graph(name, &small, &graph, answers)
    };
    limits.push(node("value of S", |node| node.value = CERTAIN, ACCEPTED));
    limits.push(node("value over S", |node| node.value = CERTAIN + 1, graph_refused(15, 1)));
    limits.push(node("kind over 3", |node| node.kind = 4, graph_refused(15, 1)));
    limits.push(node("bit past the variables", |node| node.tracked = 2, graph_refused(15, 1)));
    limits.push(node("last bit", |node| node.tracked = 0x8000, graph_refused(15, 1)));
    limits.push(node("cover past the nodes", |node| node.cover = 2, graph_refused(22, 1)));
    limits.push(node("cover of 65,535", |node| node.cover = u16::MAX, graph_refused(22, 1)));
    let mut short = plain_graph(&small, 2);
    short.nodes[0].edge_count = u16::MAX;
    limits.push(of_graph("65,535 edges", &small, &short, graph_refused(16, 0)));

    // Figures.
    for (name, h, rows, answers) in [
        ("h of 0", 0, [6, 6], ACCEPTED),
        ("h of 1", 1, [6, 6], ACCEPTED),
        ("h of 10,000", MOST_STEPS, [7, 8], ACCEPTED),
        ("h of 9,999", MOST_STEPS - 1, [8, 7], ACCEPTED),
        ("h of 10,001", MOST_STEPS + 1, [6, 6], figure_refused(27, 0)),
        ("h as large as it goes", usize::MAX, [0, 0], figure_refused(27, 0)),
        ("first row short by one", 3, [5, 6], figure_refused(28, 0)),
        ("second row short by one", 3, [6, 5], figure_refused(28, 1)),
        ("second row short at h of 0", 0, [6, 5], figure_refused(28, 1)),
        ("both rows short", 2, [5, 5], figure_refused(28, 0)),
        ("no rows", 0, [0, 0], figure_refused(28, 0)),
    ] {
        let mut limit = whole(name, model.bytes(), graph.bytes(), answers);
        limit.input.h = h;
        limit.input.rows = rows;
        limits.push(limit);
    }
    let mut waiting = graph.clone();
    waiting.nodes[5].kind = WAITING;
    let mut limit = whole("waiting, h and rows", model.bytes(), waiting.bytes(), figure_refused(26, 5));
    limit.input.h = MOST_STEPS + 1;
    limit.input.rows = [0, 0];
    limits.push(limit);

    // Steps.
    for (name, state, command, branch, result, answers) in [
        ("step", vec![0, 0], 0, 1, 2, ACCEPTED),
        ("step into a longer row", vec![0, 0], 1, 0, 5, ACCEPTED),
        ("state short", vec![0], 0, 0, 2, step_refused(29, 0)),
        ("state of no values", vec![], 0, 0, 2, step_refused(29, 0)),
        ("state long", vec![0, 0, 0], 0, 0, 2, step_refused(29, 0)),
        ("result row short", vec![0, 0], 0, 0, 1, step_refused(29, 0)),
        ("value over its range", vec![0, 2], 9, 9, 2, step_refused(30, 1)),
        ("value under its range", vec![-1, 2], 9, 9, 2, step_refused(30, 0)),
        ("command past the last", vec![0, 0], 2, 9, 2, step_refused(31, 2)),
        ("command as large as it goes", vec![0, 0], usize::MAX, 9, 2, step_refused(31, usize::MAX)),
        ("guard false, branch past the last", vec![1, 0], 1, 1, 2, step_refused(32, 1)),
        ("branch past the last", vec![0, 0], 0, 2, 2, step_refused(33, 2)),
        ("branch as large as it goes", vec![0, 0], 0, usize::MAX, 2, step_refused(33, usize::MAX)),
    ] {
        let mut limit = whole(name, model.bytes(), graph.bytes(), answers);
        limit.input.state = state;
        limit.input.command = command;
        limit.input.branch = branch;
        limit.input.result = result;
        limits.push(limit);
    }

    limits.extend(second_limits());
    limits.extend(readings::cases());
    limits.extend(index_limits());
    limits.extend(crowds());
    limits
}

/// Second places at the last variable, guard and branch, and at the deepest part.
fn second_limits() -> Vec<Limit> {
    let (last, command) = (MOST_VARIABLES - 1, MOST_COMMANDS - 1);
    let mut model = plain(MOST_VARIABLES, MOST_ENTRIES, MOST_COMMANDS, MOST_BRANCHES);
    model.entries[3] = [1, last as u16, 0, 0];
    model.branches[MOST_BRANCH_RECORDS - 1][1 + last] = 3;
    let mut branch = plain_graph(&model, 2);
    branch.nodes[0].edges[command].successors[MOST_BRANCHES - 1] = 1;
    branch.nodes[1].tracked = 1 << last;
    let name = "variable 15 by branch 15 of edge 63";
    let by_branch = of_graph(name, &model, &branch, graph_refused_for(21, 0, last));

    // The last guard: a false part that mentions variable 0 at the greatest depth, or
    // one that is unknown while the last variable is.
    model.commands[command][0] = 16;
    model.entries[4] = [8, 3, 0, 0];
    model.entries[5] = [1, 0, 0, 0];
    model.entries[6] = [9, 5, 5, 0];
    (7..15).for_each(|entry| model.entries[entry] = [11, entry as u16 - 1, 0, 0]);
    model.entries[15] = [12, 2, 14, 0];
    model.entries[16] = [13, 15, 4, 0];
    let mut guard = plain_graph(&model, 1);
    let lowest = of_graph("variable 0 at depth 12", &model, &guard, graph_refused_for(19, 0, 0));
    guard.nodes[0].tracked = u16::MAX >> 1;
    let by_guard = of_graph("guard 63 lacks variable 15", &model, &guard, graph_refused_for(19, 0, last));
    vec![by_branch, lowest, by_guard]
}

/// The rows of an index of the pedal example, which has 6 nodes and 2 variables.
fn index_limits() -> Vec<Limit> {
    let (model, graph) = pedal();
    let (folder, right) = (model.bytes(), graph.bytes());
    let limit = |(name, slots, batch, answers, listing, expected): (_, _, usize, _, _, _)| {
        let mut limit = Limit { input: input(name, folder.clone(), right.clone(), 6, 2), answers: expected };
        limit.input.batch = [3, 0, 0, 1, 3, 1, 9][..batch].to_vec();
        limit.input.index_rows = [(slots, NO_NODE), (answers, 6), (listing, 6)];
        limit
    };
    let mut limits: Vec<Limit> = [
        ("index", SLOTS, 6, 3, 6, ACCEPTED),
        ("index into longer rows", SLOTS, 6, 4, 7, ACCEPTED),
        ("batch of no states", SLOTS, 0, 0, 6, ACCEPTED),
        ("no slots", 0, 6, 3, 6, index_refused(0)),
        ("8,191 slots", SLOTS - 1, 6, 3, 6, index_refused(0)),
        ("8,193 slots", SLOTS + 1, 6, 3, 6, index_refused(0)),
        ("batch of half a state", SLOTS, 1, 3, 6, index_refused(1)),
        ("batch one value short", SLOTS, 5, 3, 6, index_refused(1)),
        ("batch one value long", SLOTS, 7, 4, 6, index_refused(1)),
        ("answers short by one", SLOTS, 6, 2, 6, index_refused(2)),
        ("no answers", SLOTS, 2, 0, 6, index_refused(2)),
        ("listing short by one", SLOTS, 6, 3, 5, index_refused(3)),
        ("no listing", SLOTS, 0, 0, 0, index_refused(3)),
        ("slots, batch, answers and listing", SLOTS - 1, 7, 2, 5, index_refused(0)),
        ("batch, answers and listing", SLOTS, 7, 2, 5, index_refused(1)),
        ("answers and listing", SLOTS, 6, 2, 5, index_refused(2)),
    ]
    .map(limit)
    .into();

    // The graph's own refusals come first, the last of them too.
    let mut low = graph.clone();
    low.nodes[5].value = CERTAIN - 1;
    let mut over = limit(("value and all rows of an index", 0, 1, 0, 0, graph_refused(25, 5)));
    over.input.graph = low.bytes();
    limits.push(over);
    limits
}

/// The most nodes: each with a state of its own that is hard to tell from the others,
/// and all with one state.
fn crowds() -> Vec<Limit> {
    let (waiting, last) = (Some((26, 0, 0)), MOST_NODES - 1);
    let mut limits = Vec::new();
    for Crowd { name, pair, absent } in [one_slot(), one_hash()] {
        let mut limit = of_graph(name, &pair.model, &pair.graph, [None, None, waiting, None, None]);
        let present = [0, 1, last / 2, last].map(|place| &pair.graph.nodes[place].concrete);
        limit.input.batch = present.into_iter().chain(&absent[..4]).flatten().copied().collect();
        limit.input.index_rows[1].0 = 8;
        limits.push(limit);
    }
    let twins = states::of_states(&vec![(WAITING, vec![-BOUND]); MOST_NODES]);
    for (name, listing, index) in [
        ("4,096 nodes of one state", MOST_NODES, None),
        ("4,096 nodes, listing short by one", last, Some((34, 3, 0))),
    ] {
        let mut limit = of_graph(name, &twins.model, &twins.graph, [None, None, waiting, None, index]);
        limit.input.index_rows[2].0 = listing;
        limits.push(limit);
    }
    limits
}
