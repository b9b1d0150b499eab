//! Readings that all states of a label decide: the cases on both sides of what decides
//! them, and random inputs in which they matter.

use super::data::*;
use super::explore::Plan;
use super::limits::{of_graph, Answers, Limit};
use super::models::{Builder, Shape};
use super::mutate::choose;
use super::random::Random;
use super::seconds::{lead_astray, undecide};
use super::{Input, Pair};

// ------------------------------------------------------------------- by hand

/// Makes an entry of a model whose variables are there.
type Made = fn(&mut Entries) -> u16;

/// What an entry reads as; an unknown one has a variable to give.
#[derive(Clone, Copy)]
enum Due {
    Truth(bool),
    Unknown(usize),
}

use Due::Unknown;
const TRUE: Due = Due::Truth(true);
const FALSE: Due = Due::Truth(false);

/// Ranges with initial values, the tracked set, a truth and its reading.
type Case = (&'static str, Vec<[i16; 3]>, u16, Made, Due);

/// The entries of a model, each put by what it says.
pub struct Entries(pub Builder);

impl Entries {
    pub fn put(&mut self, record: [u16; 4]) -> u16 {
        self.0.put(record).expect("few, flat and narrow")
    }

    pub fn variable(&mut self, v: u16) -> u16 {
        self.put([1, v, 0, 0])
    }

    pub fn constant(&mut self, c: i16) -> u16 {
        self.put([0, c as u16, 0, 0])
    }

    pub fn always(&mut self) -> u16 {
        self.put([14, 0, 0, 0])
    }

    pub fn not(&mut self, truth: u16) -> u16 {
        self.put([11, truth, 0, 0])
    }

    pub fn is(&mut self, number: u16, c: i16) -> u16 {
        let constant = self.constant(c);
        self.put([8, number, constant, 0])
    }

    pub fn variable_is(&mut self, v: u16, c: i16) -> u16 {
        let variable = self.variable(v);
        self.is(variable, c)
    }

    fn or_not(&mut self, truth: u16) -> u16 {
        let not = self.not(truth);
        self.put([13, truth, not, 0])
    }

    /// The sum of all variables, no deeper than it has to be.
    fn sum(&mut self) -> u16 {
        let count = self.0.model.variables.len() as u16;
        let mut sums: Vec<u16> = (0..count).map(|v| self.variable(v)).collect();
        while sums.len() > 1 {
            let joined = |pair: &[u16]| if let [a, b] = *pair { self.put([2, a, b, 0]) } else { pair[0] };
            sums = sums.chunks(2).map(joined).collect();
        }
        sums[0]
    }

    fn sum_is(&mut self, c: i16) -> u16 {
        let sum = self.sum();
        self.is(sum, c)
    }

    fn sum_is_not(&mut self, c: i16) -> u16 {
        let is = self.sum_is(c);
        self.not(is)
    }

    /// The sum of all variables is 0, or it is not.
    fn sum_or_not(&mut self) -> u16 {
        let zero = self.sum_is(0);
        self.or_not(zero)
    }

    /// Variable 0 is 0, or it is not.
    fn first_or_not(&mut self) -> u16 {
        let zero = self.variable_is(0, 0);
        self.or_not(zero)
    }

    fn first_and_not(&mut self) -> u16 {
        let holds = self.first_or_not();
        self.not(holds)
    }

    /// That, or variable 1 is this.
    fn first_or_not_or(&mut self, c: i16) -> u16 {
        let (holds, second) = (self.first_or_not(), self.variable_is(1, c));
        self.put([13, holds, second, 0])
    }

    /// That, but for a part that is false and mentions variable 1.
    fn first_or_not_beside(&mut self) -> u16 {
        let (always, second, holds) = (self.always(), self.variable_is(1, 0), self.first_or_not());
        let never = self.not(always);
        let known = self.put([12, never, second, 0]);
        self.put([13, known, holds, 0])
    }

    fn true_or_sum(&mut self) -> u16 {
        let (always, zero) = (self.always(), self.sum_is(0));
        self.put([13, always, zero, 0])
    }

    /// Variables 0 and 1 have these values.
    fn both_are(&mut self, x: i16, y: i16) -> u16 {
        let (x, y) = (self.variable_is(0, x), self.variable_is(1, y));
        self.put([12, x, y, 0])
    }

    fn not_both_are(&mut self, x: i16, y: i16) -> u16 {
        let both = self.both_are(x, y);
        self.not(both)
    }

    /// x + (y - y) = c.
    fn first_alone_is(&mut self, c: i16) -> u16 {
        let (x, y) = (self.variable(0), self.variable(1));
        let none = self.put([3, y, y, 0]);
        let sum = self.put([2, x, none, 0]);
        self.is(sum, c)
    }

    fn first_below(&mut self, c: i16) -> u16 {
        let (x, c) = (self.variable(0), self.constant(c));
        self.put([9, x, c, 0])
    }

    fn at_most_itself(&mut self) -> u16 {
        let x = self.variable(0);
        self.put([10, x, x, 0])
    }
}

/// Ranges from 0 on, of so many values each, initially 0.
fn sizes(sizes: &[i16]) -> Vec<[i16; 3]> {
    sizes.iter().map(|&size| [0, size - 1, 0]).collect()
}

/// Truths by how many combinations they have.
fn counted() -> Vec<Case> {
    let either: Made = Entries::sum_or_not;
    let (bits, wide, powers) = (sizes(&[2; 16]), vec![[-BOUND, BOUND, 0]; 16], [1 << 14, 1 << 14, 1 << 8]);
    vec![
        ("the mixer's guard", sizes(&[2]), 0, either, TRUE),
        ("one variable of 4,096 values", sizes(&[4_096]), 0, either, TRUE),
        ("one variable of 4,097 values", sizes(&[4_097]), 0, either, Unknown(0)),
        ("4,096 values from −4,095", vec![[-4_095, 0, 0]], 0, either, TRUE),
        ("4,097 values from −4,096", vec![[-4_096, 0, 0]], 0, either, Unknown(0)),
        ("64 by 64 values", sizes(&[64, 64]), 0, either, TRUE),
        ("64 by 65 values", sizes(&[64, 65]), 0, either, Unknown(0)),
        ("65 by 64 values, the first tracked", sizes(&[65, 64]), 1, either, TRUE),
        ("64 by 4,097 values, the first tracked", sizes(&[64, 4_097]), 1, either, Unknown(1)),
        ("12 variables of two values", sizes(&[2; 12]), 0, either, TRUE),
        ("13 variables of two values", sizes(&[2; 13]), 0, either, Unknown(0)),
        ("16 variables of two values, 4 tracked", bits.clone(), 0xf000, either, TRUE),
        ("16 variables of two values, 3 tracked", bits, 0xe000, either, Unknown(0)),
        ("16 ranges of 60,001", wide.clone(), 0, either, Unknown(0)),
        ("16 ranges of 60,001, all but the last tracked", wide, 0x7fff, either, Unknown(15)),
        // What 64 and 32 bits keep of these products is 0.
        ("2^64 combinations", sizes(&[&powers[..2], &powers].concat()), 0, either, Unknown(0)),
        ("2^32 combinations", sizes(&[1 << 12, 1 << 12, 1 << 8]), 0, either, Unknown(0)),
        ("one value, and 4,096", sizes(&[1, 4_096]), 0, either, TRUE),
        ("one value, and 4,097", sizes(&[1, 4_097]), 0, either, Unknown(0)),
        ("16 of one value each", vec![[7, 7, 7]; 16], 0, either, TRUE),
        ("30,000 values that are not mentioned", sizes(&[4_096, 30_000]), 0, Entries::first_or_not, TRUE),
        ("two values that do not matter", sizes(&[4_096, 2]), 0, Entries::first_or_not_beside, Unknown(0)),
    ]
}

/// Truths that some one combination decides.
fn decided() -> Vec<Case> {
    let (square, odd) = (sizes(&[64, 64]), sizes(&[3, 5, 7]));
    let later = |high, initial| vec![[0, high, initial]; 2];
    vec![
        ("the last combination", square.clone(), 0, |e| e.sum_is_not(126), Unknown(0)),
        ("past the last combination", square, 0, |e| e.sum_is_not(127), TRUE),
        ("the first combination", later(63, 1), 0, |e| e.sum_is_not(0), Unknown(0)),
        ("before the first combination", later(63, 1), 0, |e| e.sum_is_not(-1), TRUE),
        ("the last of 4,096 values", sizes(&[4_096]), 0, |e| e.sum_is_not(4_095), Unknown(0)),
        ("past the last of 4,095 values", sizes(&[4_095]), 0, |e| e.sum_is_not(4_095), TRUE),
        ("the first of 4,096 values", vec![[-4_095, 0, 0]], 0, |e| e.sum_is_not(-4_095), Unknown(0)),
        ("before the first of 4,095 values", vec![[-4_094, 0, 0]], 0, |e| e.sum_is_not(-4_095), TRUE),
        ("the last of 15 values", sizes(&[15]), 0, |e| e.sum_is_not(14), Unknown(0)),
        ("the last of 17 values", sizes(&[17]), 0, |e| e.sum_is_not(16), Unknown(0)),
        ("the last of 3 by 5 by 7 values", odd.clone(), 0, |e| e.sum_is_not(12), Unknown(0)),
        ("past the last of 3 by 5 by 7 values", odd, 0, |e| e.sum_is_not(13), TRUE),
        ("the concrete state", later(8, 4), 0, |e| e.both_are(4, 4), Unknown(0)),
        ("one combination in the middle", later(8, 0), 0, |e| e.not_both_are(4, 5), Unknown(0)),
        ("a tracked variable is not varied", later(9, 3), 1, |e| e.first_alone_is(3), TRUE),
        ("a tracked variable has its label value", later(9, 3), 1, |e| e.first_alone_is(4), FALSE),
        ("the same variable untracked", later(9, 3), 2, |e| e.first_alone_is(3), Unknown(0)),
        ("one value, and one that matters", sizes(&[1, 2]), 0, |e| e.sum_is_not(1), Unknown(0)),
        ("one value, alone", vec![[5, 5, 5]], 0, |e| e.sum_is_not(5), FALSE),
    ]
}

/// Truths by their parts: x has few values, and y more than may be tried.
fn by_parts() -> Vec<Case> {
    let wide = sizes(&[4, 4_097]);
    vec![
        ("true, or too many combinations", wide.clone(), 0, Entries::true_or_sum, TRUE),
        ("too many combinations, or not", wide.clone(), 0, Entries::sum_or_not, Unknown(0)),
        // By all states the first part is true; but parts of what has too many are three-way.
        ("a part true in all states", wide.clone(), 0, |e| e.first_or_not_or(0), Unknown(0)),
        ("a part true in all states, y tracked", wide, 2, |e| e.first_or_not_or(1), TRUE),
        ("false in all states", sizes(&[4]), 0, Entries::first_and_not, FALSE),
        ("below the range's end", sizes(&[4]), 0, |e| e.first_below(4), TRUE),
        ("below what is in the range", sizes(&[4]), 0, |e| e.first_below(3), Unknown(0)),
        ("at most itself", sizes(&[4]), 0, Entries::at_most_itself, TRUE),
    ]
}

/// The step of a command with the guard, from the initial state.
fn step_answer(model: &ModelData, guard: u16) -> Option<(u32, usize, usize)> {
    let enabled = model.evaluate(&model.initial())[usize::from(guard)] == 1;
    (!enabled).then_some((32, 0, 0))
}

/// One node alone, of a model whose one command changes nothing, with an edge or without.
fn alone(
    name: &'static str,
    model: &ModelData,
    kind: u16,
    (tracked, edge): (u16, bool),
    refusal: Option<(u32, usize)>,
) -> Limit {
    let mut node = NodeData::new(kind, CERTAIN, tracked, &model.initial());
    if edge {
        node.push_edge(0, vec![0]);
    }
    let refusal = refusal.map(|(number, second)| (number, 0, second));
    let answers: Answers = [None, refusal, refusal, step_answer(model, model.commands[0][0]), refusal];
    let mut limit = of_graph(name, model, &GraphData { nodes: vec![node] }, answers);
    limit.input.state = model.initial();
    limit
}

/// A truth as the guard of an expanded node, with its edge and without, and as the target
/// of an expanded and of a target node.
fn asked((name, ranges, tracked, truth, due): Case) -> Vec<Limit> {
    let mut entries = Entries(Builder::new(1, ranges));
    let always = entries.always();
    let never = entries.not(always);
    let branch = (0..entries.0.model.variables.len() as u16).map(|v| entries.variable(v));
    let branch: Vec<u16> = [1].into_iter().chain(branch).collect();
    let truth = truth(&mut entries);
    let mut model = entries.0.model;
    (model.commands, model.branches, model.target) = (vec![[truth, 1]], vec![branch], never);
    let mut aimed = model.clone();
    (aimed.commands[0][0], aimed.target) = (never, truth);
    let due = |right: bool, number, second| match due {
        Due::Unknown(variable) => Some((19, variable)),
        Due::Truth(truth) if truth == right => None,
        Due::Truth(_) => Some((number, second)),
    };
    vec![
        alone(name, &model, EXPANDED, (tracked, true), due(true, 20, 0)),
        alone(name, &model, EXPANDED, (tracked, false), due(false, 20, 0)),
        alone(name, &aimed, EXPANDED, (tracked, false), due(false, 19, NO_VARIABLE)),
        alone(name, &aimed, TARGET, (tracked, false), due(true, 19, NO_VARIABLE)),
    ]
}

/// What is assigned to variable 1 while variable 0, d, is untracked, the range of d, and
/// whether it reads known.
fn assigned() -> Vec<Limit> {
    let difference: Made = |e| {
        let d = e.variable(0);
        e.put([3, d, d, 0])
    };
    let product: Made = |e| {
        let (d, zero) = (e.variable(0), e.constant(0));
        e.put([4, zero, d, 0])
    };
    let choice: Made = |e| {
        let (d, one) = (e.variable(0), e.constant(1));
        let zero = e.is(d, 0);
        e.put([7, zero, one, one])
    };
    let last: Made = |e| {
        let (d, one, zero) = (e.variable(0), e.constant(1), e.constant(0));
        let last = e.is(d, 4_095);
        e.put([7, last, one, zero])
    };
    let itself: Made = |e| e.variable(0);
    let cases = [
        ("d - d", difference, 2, true),
        ("d - d, 4,096 values", difference, 4_096, true),
        ("d - d, 4,097 values", difference, 4_097, false),
        ("0 * d", product, 2, true),
        ("0 * d, 4,097 values", product, 4_097, false),
        ("if d = 0 then 1 else 1", choice, 2, true),
        ("if d = 0 then 1 else 1, 4,097 values", choice, 4_097, false),
        ("1 for the last of 4,096 values", last, 4_096, false),
        ("0 but for a value past the last", last, 4_095, true),
        ("d itself", itself, 2, false),
        ("d itself, of one value", itself, 1, true),
    ];
    cases.into_iter().flat_map(|(name, number, size, known)| follows(name, number, size, known)).collect()
}

/// A root that assigns the number to variable 1, which its successor tracks with the right
/// label value and with a wrong one.
fn follows(name: &'static str, number: Made, size: i16, known: bool) -> [Limit; 2] {
    let mut entries = Entries(Builder::new(1, vec![[0, size - 1, 0], [-BOUND, BOUND, 0]]));
    let (always, d) = (entries.put([14, 0, 0, 0]), entries.variable(0));
    let never = entries.not(always);
    let number = number(&mut entries);
    let mut model = entries.0.model;
    (model.commands, model.branches, model.target) = (vec![[always, 1]], vec![vec![1, d, number]], never);
    let next = model.next(&model.evaluate(&[0, 0]), &model.branches[0]);
    let mut root = NodeData::new(EXPANDED, CERTAIN, 0, &[0, 0]);
    root.push_edge(0, vec![1]);
    let graph = GraphData { nodes: vec![root, NodeData::new(WAITING, CERTAIN, 2, &next)] };
    let mut wrong = graph.clone();
    wrong.nodes[1].label[1] += 1;
    let refused = Some((21, 0, 1));
    let answers = [None, refused, refused, None, refused];
    let waiting = [None, None, Some((26, 1, 0)), None, None];
    [
        of_graph(name, &model, &graph, if known { waiting } else { answers }),
        of_graph(name, &model, &wrong, answers),
    ]
}

/// Two guards and an assigned entry of the same variables: 19 comes first whatever their
/// numbers, and what nobody asks for does not matter.
fn in_order() -> Vec<Limit> {
    let mut entries = Entries(Builder::new(1, sizes(&[2, 2])));
    let (x, y, zero) = (entries.variable(0), entries.variable(1), entries.constant(0));
    let sum = entries.put([5, x, y, 0]);
    let known = entries.put([4, zero, sum, 0]);
    let differs = entries.is(sum, 0);
    let holds = entries.or_not(differs);
    let never = entries.not(holds);
    let mut model = entries.0.model;
    model.target = never;
    model.branches = vec![vec![1, sum, known]; 2];
    let mut limit = |name, guards: [u16; 2], tracked, answer: Option<(u32, usize, usize)>| {
        model.commands = guards.map(|guard| [guard, 1]).to_vec();
        let mut root = NodeData::new(EXPANDED, CERTAIN, 0, &[0, 0]);
        (0..2).for_each(|command| root.push_edge(command, vec![1]));
        let nodes = vec![root, NodeData::new(WAITING, CERTAIN, tracked, &[0, 0])];
        let figure = answer.or(Some((26, 1, 0)));
        of_graph(name, &model, &GraphData { nodes }, [None, answer, figure, None, answer])
    };
    vec![
        limit("an unknown new value that nobody tracks", [holds, holds], 0, None),
        limit("a new value that all states decide", [holds, holds], 2, None),
        limit("an unknown new value", [holds, holds], 1, Some((21, 0, 0))),
        limit("an unknown new value below a known one", [holds, holds], 3, Some((21, 0, 0))),
        limit("an unknown guard before a new value", [differs, holds], 1, Some((19, 0, 0))),
        limit("an unknown guard after one that holds", [holds, differs], 2, Some((19, 0, 0))),
    ]
}

/// All cases.
pub fn cases() -> Vec<Limit> {
    let truths = [counted(), decided(), by_parts()].into_iter().flatten().flat_map(asked);
    truths.chain(assigned()).chain(in_order()).collect()
}

// ----------------------------------------------------------------- at random

/// A model and a graph whose labels track little, since most of what is asked mentions
/// variables that do not matter.
pub fn pair(random: &mut Random) -> Pair {
    let shape = Shape {
        variables: 2 + random.below(4),
        width: random.pick(&[1, 1, 2, 3]),
        depth: 1 + random.below(3) as u32,
        tower: false,
        disguised: 1 + random.below(2),
        ..Shape::small(random)
    };
    let plan = Plan { combinations: 64, extra: random.pick(&[4, 20]), ..Plan::any(random) };
    Pair::explored(random, &shape, &plan)
}

/// Such a pair, as it is or changed in what readings hang on.
pub fn changed(random: &mut Random) -> Pair {
    let mut pair = pair(random);
    match random.below(8) {
        0 | 1 => (),
        2 | 3 => track_less(random, &mut pair),
        4 => widen(random, &mut pair.model),
        5 => lose_edge(random, &mut pair.graph),
        6 => drop(undecide(random, &mut pair)),
        _ => drop(lead_astray(random, &mut pair)),
    }
    pair
}

pub fn input(random: &mut Random) -> Input {
    changed(random).input(random, "by all states")
}

/// A node that tracks a variable less, if one tracks any.
fn track_less(random: &mut Random, pair: &mut Pair) {
    let asked = |node: &NodeData| matches!(node.kind, EXPANDED | TARGET) && node.tracked != 0;
    if let Some(place) = choose(&pair.graph, random, &asked) {
        let node = &mut pair.graph.nodes[place];
        let tracked: Vec<usize> = (0..node.label.len()).filter(|&v| node.tracks(v)).collect();
        node.untrack(random.pick(&tracked));
    }
}

/// A node without one of its edges, if one has any.
fn lose_edge(random: &mut Random, graph: &mut GraphData) {
    if let Some(place) = choose(graph, random, &|node| node.edge_count > 0) {
        let node = &mut graph.nodes[place];
        node.edges.remove(random.below(node.edges.len()));
        node.edge_count -= 1;
    }
}

/// A variable with more values, at an end: one more, or so many that they are not tried.
fn widen(random: &mut Random, model: &mut ModelData) {
    let v = random.below(model.variables.len());
    let by = random.pick(&[1, 1, 1, MOST_COMBINATIONS as i16]);
    let [low, high, _] = &mut model.variables[v];
    if random.once_in(2) {
        *low -= by;
    } else {
        *high += by;
    }
}
