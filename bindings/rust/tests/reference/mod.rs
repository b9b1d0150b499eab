//! The calls in plain Rust, with every refusal. They rest alone on the paper that the
//! checker is built to, whose folders and rules docs/FORMAT.md and docs/REFUSALS.md
//! give, and share no code with the checker.
//!
//! Every input is answered, whatever its content and length. Entries are shared
//! between expressions, so depths, ranges and readings are filled upward, once
//! per entry. Readings are three-way first: by all states (`combinations`) only
//! where a rule asks for what is unknown.
//!
//! The builder is there twice: `build` by the words of the paper, `build_fast` for the
//! largest graphs.
#![allow(dead_code)]

pub mod build;
pub mod build_fast;
mod combinations;
pub mod situations;

use combinations::{members, unchanging};
use laguipy::{Refusal, Summary};
use std::cell::OnceCell;
use std::ops::{Range, RangeInclusive};

/// Certainty, in units.
pub const CERTAIN: u32 = 1_000_000_000;

const MODEL_BYTES: RangeInclusive<usize> = 40..=40_000;
const GRAPH_BYTES: RangeInclusive<usize> = 16..=1_048_576;
const VARIABLES: RangeInclusive<usize> = 1..=16;
const ENTRIES: RangeInclusive<usize> = 1..=512;
const COMMANDS: RangeInclusive<usize> = 1..=64;
const BRANCH_RECORDS: RangeInclusive<usize> = 1..=1_024;
const BRANCHES_OF_A_COMMAND: RangeInclusive<usize> = 1..=16;
const NODES: RangeInclusive<usize> = 1..=4_096;
const BOUNDS: RangeInclusive<i16> = -30_000..=30_000;
const NUMBERS: RangeInclusive<i64> = -1_000_000..=1_000_000;
const DEPTH: u32 = 12;
const STEPS: usize = 10_000;
const SLOTS: usize = 8_192;

/// What stands for no node, in an empty slot or as an answer.
pub const NO_NODE: u16 = 65_535;

/// What stands for no variable, as the second place of a refusal.
const NO_VARIABLE: usize = 65_535;

type Checked<T> = Result<T, Refusal>;

/// A refusal by any number but 19 and 21, which alone have a second place.
fn refuse<T>(number: u32, place: usize) -> Checked<T> {
    Err(Refusal { number, place, second: 0 })
}

fn ensure(holds: bool, number: u32, place: usize) -> Checked<()> {
    if holds {
        Ok(())
    } else {
        refuse(number, place)
    }
}

// ------------------------------------------------------------------- folders

fn words(bytes: &[u8]) -> impl Iterator<Item = u16> + '_ {
    bytes.chunks_exact(2).map(|b| u16::from_le_bytes([b[0], b[1]]))
}

fn signed(bytes: &[u8]) -> impl Iterator<Item = i16> + '_ {
    words(bytes).map(|w| w as i16)
}

fn double_word(bytes: &[u8]) -> u32 {
    u32::from_le_bytes([bytes[0], bytes[1], bytes[2], bytes[3]])
}

/// The bodies of a folder that is at least as long as its table of contents.
fn bodies<const N: usize>(folder: &[u8], number: u32) -> Checked<[&[u8]; N]> {
    let length = folder.len() as u64;
    let mut bodies = [&folder[..0]; N];
    let mut expected = 8 * N as u64;
    for entry in 0..N {
        let start = u64::from(double_word(&folder[8 * entry..]));
        let end = start + u64::from(double_word(&folder[8 * entry + 4..]));
        let last = entry == N - 1;
        ensure(start == expected && end <= length && (!last || end == length), number, entry)?;
        bodies[entry] = &folder[start as usize..end as usize];
        expected = end;
    }
    Ok(bodies)
}

// -------------------------------------------------------------------- models

#[derive(Clone, Copy)]
struct Variable {
    low: i16,
    high: i16,
    initial: i16,
}

impl Variable {
    fn holds(&self, value: i16) -> bool {
        (self.low..=self.high).contains(&value)
    }
}

/// An entry; its parts are the numbers of lower entries.
#[derive(Clone, Copy)]
enum Entry {
    Constant(i16),
    Variable(usize),
    Add(usize, usize),
    Subtract(usize, usize),
    Multiply(usize, usize),
    Smaller(usize, usize),
    Larger(usize, usize),
    If(usize, usize, usize),
    Equal(usize, usize),
    Less(usize, usize),
    AtMost(usize, usize),
    Not(usize),
    And(usize, usize),
    Or(usize, usize),
    True,
}

impl Entry {
    fn is_number(&self) -> bool {
        use Entry::*;
        matches!(
            self,
            Constant(_)
                | Variable(_)
                | Add(..)
                | Subtract(..)
                | Multiply(..)
                | Smaller(..)
                | Larger(..)
                | If(..)
        )
    }

    /// The entry that a record stands for, if it is a right one above `lower`.
    fn parse(record: [u16; 4], lower: &[Entry], variables: usize) -> Option<Entry> {
        let [operation, a, b, c] = record;
        let part = |field: u16, number: bool| {
            let part = usize::from(field);
            (lower.get(part)?.is_number() == number).then_some(part)
        };
        let number = |field| part(field, true);
        let truth = |field| part(field, false);
        let (entry, unused) = match operation {
            0 => (Entry::Constant(a as i16), [b, c]),
            1 => {
                let variable = usize::from(a);
                if variable >= variables {
                    return None;
                }
                (Entry::Variable(variable), [b, c])
            }
            2 => (Entry::Add(number(a)?, number(b)?), [c, 0]),
            3 => (Entry::Subtract(number(a)?, number(b)?), [c, 0]),
            4 => (Entry::Multiply(number(a)?, number(b)?), [c, 0]),
            5 => (Entry::Smaller(number(a)?, number(b)?), [c, 0]),
            6 => (Entry::Larger(number(a)?, number(b)?), [c, 0]),
            7 => (Entry::If(truth(a)?, number(b)?, number(c)?), [0, 0]),
            8 => (Entry::Equal(number(a)?, number(b)?), [c, 0]),
            9 => (Entry::Less(number(a)?, number(b)?), [c, 0]),
            10 => (Entry::AtMost(number(a)?, number(b)?), [c, 0]),
            11 => (Entry::Not(truth(a)?), [b, c]),
            12 => (Entry::And(truth(a)?, truth(b)?), [c, 0]),
            13 => (Entry::Or(truth(a)?, truth(b)?), [c, 0]),
            14 if a == 0 => (Entry::True, [b, c]),
            _ => return None,
        };
        (unused == [0, 0]).then_some(entry)
    }

    fn parts(&self) -> impl Iterator<Item = usize> {
        use Entry::*;
        let parts = match *self {
            Constant(_) | Variable(_) | True => [None; 3],
            Not(a) => [Some(a), None, None],
            If(a, b, c) => [Some(a), Some(b), Some(c)],
            Add(a, b)
            | Subtract(a, b)
            | Multiply(a, b)
            | Smaller(a, b)
            | Larger(a, b)
            | Equal(a, b)
            | Less(a, b)
            | AtMost(a, b)
            | And(a, b)
            | Or(a, b) => [Some(a), Some(b), None],
        };
        parts.into_iter().flatten()
    }

    /// A leaf has depth 1, any other entry one more than its deepest part.
    fn depth(&self, lower: &[u32]) -> u32 {
        1 + self.parts().fold(0, |depth, part| depth.max(lower[part]))
    }

    /// The range of a number, from those of its parts; a truth has none.
    fn range(&self, lower: &[Option<Span>], variables: &[Variable]) -> Option<Span> {
        use Entry::*;
        let both = |a: usize, b: usize| Some((lower[a]?, lower[b]?));
        Some(match *self {
            Constant(c) => Span::new(c, c),
            Variable(v) => Span::new(variables[v].low, variables[v].high),
            Add(a, b) => {
                let (a, b) = both(a, b)?;
                Span { low: a.low + b.low, high: a.high + b.high }
            }
            Subtract(a, b) => {
                let (a, b) = both(a, b)?;
                Span { low: a.low - b.high, high: a.high - b.low }
            }
            Multiply(a, b) => {
                let (a, b) = both(a, b)?;
                let ends = [a.low * b.low, a.low * b.high, a.high * b.low, a.high * b.high];
                let (low, high) =
                    ends.iter().fold((ends[0], ends[0]), |(low, high), &end| (low.min(end), high.max(end)));
                Span { low, high }
            }
            Smaller(a, b) => {
                let (a, b) = both(a, b)?;
                Span { low: a.low.min(b.low), high: a.high.min(b.high) }
            }
            Larger(a, b) => {
                let (a, b) = both(a, b)?;
                Span { low: a.low.max(b.low), high: a.high.max(b.high) }
            }
            If(_, a, b) => {
                let (a, b) = both(a, b)?;
                Span { low: a.low.min(b.low), high: a.high.max(b.high) }
            }
            Equal(..) | Less(..) | AtMost(..) | Not(_) | And(..) | Or(..) | True => return None,
        })
    }
}

/// Where a number lies.
#[derive(Clone, Copy)]
struct Span {
    low: i64,
    high: i64,
}

impl Span {
    fn new(low: i16, high: i16) -> Span {
        Span { low: low.into(), high: high.into() }
    }

    fn within(&self, bounds: &RangeInclusive<i64>) -> bool {
        *bounds.start() <= self.low && self.high <= *bounds.end()
    }
}

/// What an entry reads as.
#[derive(Clone, Copy, Debug, PartialEq, Eq)]
enum Reading {
    Unknown,
    Number(i32),
    Truth(bool),
}

struct Command {
    guard: usize,
    /// Of each branch.
    weights: Vec<u32>,
    /// Of each branch, an entry per variable.
    assigned: Vec<Vec<usize>>,
}

struct Model {
    total: u32,
    target: usize,
    variables: Vec<Variable>,
    entries: Vec<Entry>,
    commands: Vec<Command>,
    /// Of each entry the set of the variables that it mentions. Only what reads unknown
    /// asks for it.
    mentioned: OnceCell<Vec<u16>>,
}

/// The model folder cut into its bodies, with the length of a record of each:
/// rows 1 to 3.
fn model_bodies(folder: &[u8]) -> Checked<[(&[u8], usize); 5]> {
    ensure(MODEL_BYTES.contains(&folder.len()), 1, 0)?;
    let [terms, variables, entries, commands, branches] = bodies::<5>(folder, 2)?;
    let cut = |entry, body: &[u8], record: usize, limits: RangeInclusive<usize>| {
        let whole = body.len().is_multiple_of(record);
        ensure(whole && limits.contains(&(body.len() / record)), 3, entry)
    };
    cut(0, terms, 4, 1..=1)?;
    cut(1, variables, 6, VARIABLES)?;
    cut(2, entries, 8, ENTRIES)?;
    cut(3, commands, 4, COMMANDS)?;
    let branch = 2 + 2 * (variables.len() / 6);
    cut(4, branches, branch, BRANCH_RECORDS)?;
    Ok([(terms, 4), (variables, 6), (entries, 8), (commands, 4), (branches, branch)])
}

impl Model {
    /// Rows 1 to 11.
    fn parse(folder: &[u8]) -> Checked<Model> {
        let [terms, variables, entries, commands, branches] = model_bodies(folder)?;

        let variables: Vec<Variable> = variables
            .0
            .chunks_exact(6)
            .map(|record| {
                let mut fields = signed(record);
                let mut next = || fields.next().unwrap_or(0);
                Variable { low: next(), high: next(), initial: next() }
            })
            .collect();
        for (place, variable) in variables.iter().enumerate() {
            let right = variable.low <= variable.high
                && BOUNDS.contains(&variable.low)
                && BOUNDS.contains(&variable.high)
                && variable.holds(variable.initial);
            ensure(right, 4, place)?;
        }

        let entries = Model::parse_entries(entries.0, variables.len())?;
        let ranges = Model::ranges(&entries, &variables)?;
        let is_truth = |entry: usize| entries.get(entry).is_some_and(|e| !e.is_number());

        let mut fields = words(terms.0);
        let total = u32::from(fields.next().unwrap_or(0));
        let target = usize::from(fields.next().unwrap_or(0));
        ensure(total != 0, 7, 0)?;
        ensure(is_truth(target), 7, 1)?;

        let mut guards = Vec::new();
        for (place, record) in commands.0.chunks_exact(4).enumerate() {
            let mut fields = words(record).map(usize::from);
            let guard = fields.next().unwrap_or(0);
            let count = fields.next().unwrap_or(0);
            ensure(is_truth(guard) && BRANCHES_OF_A_COMMAND.contains(&count), 8, place)?;
            guards.push((guard, count));
        }

        let (branches, record) = branches;
        let counted: usize = guards.iter().map(|&(_, count)| count).sum();
        ensure(counted == branches.len() / record, 9, 0)?;

        let mut weights = Vec::new();
        let mut assigned = Vec::new();
        for (place, record) in branches.chunks_exact(record).enumerate() {
            let weight = u32::from(words(record).next().unwrap_or(0));
            let entries: Vec<usize> = words(record).skip(1).map(usize::from).collect();
            let fits = |(&entry, variable): (&usize, &Variable)| {
                let bounds = i64::from(variable.low)..=i64::from(variable.high);
                matches!(ranges.get(entry), Some(Some(range)) if range.within(&bounds))
            };
            ensure(weight != 0 && entries.iter().zip(&variables).all(fits), 10, place)?;
            weights.push(weight);
            assigned.push(entries);
        }

        let mut commands = Vec::new();
        let (mut weights, mut assigned) = (weights.into_iter(), assigned.into_iter());
        for (place, (guard, count)) in guards.into_iter().enumerate() {
            let weights: Vec<u32> = weights.by_ref().take(count).collect();
            let assigned = assigned.by_ref().take(count).collect();
            ensure(weights.iter().sum::<u32>() == total, 11, place)?;
            commands.push(Command { guard, weights, assigned });
        }
        Ok(Model { total, target, variables, entries, commands, mentioned: OnceCell::new() })
    }

    /// Row 5.
    fn parse_entries(body: &[u8], variables: usize) -> Checked<Vec<Entry>> {
        let mut entries = Vec::new();
        let mut depths = Vec::new();
        for (place, record) in body.chunks_exact(8).enumerate() {
            let mut fields = words(record);
            let record = [(); 4].map(|_| fields.next().unwrap_or(0));
            let Some(entry) = Entry::parse(record, &entries, variables) else {
                return refuse(5, place);
            };
            let depth = entry.depth(&depths);
            ensure(depth <= DEPTH, 5, place)?;
            entries.push(entry);
            depths.push(depth);
        }
        Ok(entries)
    }

    /// Row 6.
    fn ranges(entries: &[Entry], variables: &[Variable]) -> Checked<Vec<Option<Span>>> {
        let mut ranges = Vec::new();
        for (place, entry) in entries.iter().enumerate() {
            let range = entry.range(&ranges, variables);
            ensure(range.is_none_or(|range| range.within(&NUMBERS)), 6, place)?;
            ranges.push(range);
        }
        Ok(ranges)
    }

    /// Fills the table with the three-way reading of every entry, where a variable reads
    /// as given, or is unknown. Values given are in their variables' ranges, so every
    /// number is in its own.
    fn read(&self, variable: impl Fn(usize) -> Option<i16>, table: &mut Vec<Reading>) {
        use Reading::{Number, Truth, Unknown};
        fn number(a: Reading, b: Reading, operation: impl Fn(i32, i32) -> i32) -> Reading {
            match (a, b) {
                (Number(a), Number(b)) => Number(operation(a, b)),
                _ => Unknown,
            }
        }
        fn truth(a: Reading, b: Reading, comparison: impl Fn(&i32, &i32) -> bool) -> Reading {
            match (a, b) {
                (Number(a), Number(b)) => Truth(comparison(&a, &b)),
                _ => Unknown,
            }
        }
        table.clear();
        for entry in &self.entries {
            let reading = match *entry {
                Entry::Constant(c) => Number(c.into()),
                Entry::Variable(v) => variable(v).map_or(Unknown, |value| Number(value.into())),
                Entry::Add(a, b) => number(table[a], table[b], |a, b| a + b),
                Entry::Subtract(a, b) => number(table[a], table[b], |a, b| a - b),
                Entry::Multiply(a, b) => number(table[a], table[b], |a, b| a * b),
                Entry::Smaller(a, b) => number(table[a], table[b], i32::min),
                Entry::Larger(a, b) => number(table[a], table[b], i32::max),
                Entry::If(a, b, c) => match (table[a], table[b], table[c]) {
                    (Truth(truth), Number(b), Number(c)) => Number(if truth { b } else { c }),
                    _ => Unknown,
                },
                Entry::Equal(a, b) => truth(table[a], table[b], i32::eq),
                Entry::Less(a, b) => truth(table[a], table[b], i32::lt),
                Entry::AtMost(a, b) => truth(table[a], table[b], i32::le),
                Entry::Not(a) => match table[a] {
                    Truth(truth) => Truth(!truth),
                    _ => Unknown,
                },
                Entry::And(a, b) => match (table[a], table[b]) {
                    (Truth(false), _) | (_, Truth(false)) => Truth(false),
                    (Truth(true), Truth(true)) => Truth(true),
                    _ => Unknown,
                },
                Entry::Or(a, b) => match (table[a], table[b]) {
                    (Truth(true), _) | (_, Truth(true)) => Truth(true),
                    (Truth(false), Truth(false)) => Truth(false),
                    _ => Unknown,
                },
                Entry::True => Truth(true),
            };
            table.push(reading);
        }
    }

    /// By entry, the set of the variables that it mentions, itself or by its parts.
    fn mentioned(&self) -> &[u16] {
        self.mentioned.get_or_init(|| {
            let mut sets: Vec<u16> = Vec::new();
            for entry in &self.entries {
                sets.push(match *entry {
                    Entry::Variable(v) => 1 << v,
                    _ => entry.parts().fold(0, |set, part| set | sets[part]),
                });
            }
            sets
        })
    }

    /// The set of the variables that an entry mentions and a node does not track. For one
    /// that reads unknown it is not empty.
    fn free(&self, entry: usize, node: &Node) -> u16 {
        self.mentioned()[entry] & !node.tracked
    }

    /// What row 19 asks of a node, in order: an expanded one's guards, and the target.
    fn asked(&self, kind: Kind) -> impl Iterator<Item = usize> + '_ {
        let commands = if kind == Kind::Expanded { &self.commands[..] } else { &[] };
        commands.iter().map(|command| command.guard).chain([self.target])
    }

    /// Whatever the rules may ask of some node.
    fn ever_asked(&self) -> Vec<bool> {
        let mut asked = vec![false; self.entries.len()];
        let assigned = self.commands.iter().flat_map(|command| command.assigned.iter().flatten().copied());
        self.asked(Kind::Expanded).chain(assigned).for_each(|entry| asked[entry] = true);
        asked
    }

    /// Row 19, for an expanded or a target node.
    fn decide(&self, place: usize, node: &Node, readings: &mut Readings) -> Checked<()> {
        let refused = |second| Err(Refusal { number: 19, place, second });
        for entry in self.asked(node.kind) {
            if readings.read(entry, node) == Reading::Unknown {
                return refused(members(self.free(entry, node)).next().unwrap_or(NO_VARIABLE));
            }
        }
        if readings.label[self.target] == Reading::Truth(node.kind == Kind::Target) {
            Ok(())
        } else {
            refused(NO_VARIABLE)
        }
    }
}

/// What the entries read as in the two labels of one node after the other.
struct Readings<'a> {
    model: &'a Model,
    /// In the abstract label: three-way, and by all states where that was asked for and
    /// the three-way reading is unknown.
    label: Vec<Reading>,
    /// In the concrete label, once it is asked for.
    concrete: Vec<Reading>,
    /// The sets of free variables whose combinations were tried in this node.
    tried: Vec<u16>,
    /// By entry, whether a rule may ask for it; only what reads unknown needs to know.
    ever_asked: OnceCell<Vec<bool>>,
}

impl<'a> Readings<'a> {
    fn new(model: &'a Model) -> Readings<'a> {
        let [label, concrete] = [Vec::new(), Vec::new()];
        Readings { model, label, concrete, tried: Vec::new(), ever_asked: OnceCell::new() }
    }

    /// Goes to a node, which keeps row 18.
    fn enter(&mut self, node: &Node) {
        self.model.read(|v| node.label(v), &mut self.label);
        self.concrete.clear();
        self.tried.clear();
    }

    /// Settles the readings in the concrete label of the node.
    fn settle_concrete(&mut self, node: &Node) {
        if self.concrete.is_empty() {
            self.model.read(|v| Some(node.concrete[v]), &mut self.concrete);
        }
    }

    /// The reading of an entry in the label of the node.
    fn read(&mut self, entry: usize, node: &Node) -> Reading {
        if self.label[entry] == Reading::Unknown {
            self.widen(entry, node);
        }
        self.label[entry]
    }

    /// Reads by all states an entry that is unknown, and with it whatever else is unknown
    /// for the same variables and may be asked, so that no set is tried twice in a node.
    fn widen(&mut self, entry: usize, node: &Node) {
        let model = self.model;
        let free = model.free(entry, node);
        let Some(combinations) = model.combinations(free).filter(|_| !self.tried.contains(&free)) else {
            return;
        };
        self.tried.push(free);
        self.settle_concrete(node);
        let asked = self.ever_asked.get_or_init(|| model.ever_asked());
        let alike = |&other: &usize| {
            asked[other] && model.free(other, node) == free && self.label[other] == Reading::Unknown
        };
        let alike = (0..asked.len()).filter(alike).collect();
        for entry in unchanging(model, &self.concrete, (free, combinations), entry, alike) {
            self.label[entry] = self.concrete[entry];
        }
    }
}

// -------------------------------------------------------------------- graphs

#[derive(Clone, Copy, PartialEq, Eq)]
enum Kind {
    Waiting,
    Expanded,
    Covered,
    Target,
}

struct Node {
    kind: Kind,
    cover: usize,
    value: u32,
    tracked: u16,
    concrete: Vec<i16>,
    label: Vec<i16>,
    edges: Range<usize>,
}

impl Node {
    /// The label's value of a variable, if it is tracked.
    fn label(&self, variable: usize) -> Option<i16> {
        (self.tracked >> variable & 1 == 1).then(|| self.label[variable])
    }

    /// Whether the label contains a state.
    fn contains(&self, state: &[i16]) -> bool {
        state.iter().enumerate().all(|(v, &value)| self.label(v).is_none_or(|label| label == value))
    }
}

/// A branch of an edge: the assigned entries, one per variable, and the successor.
struct Branch<'a> {
    assigned: &'a [usize],
    successor: &'a Node,
}

impl Branch<'_> {
    /// Whether the entry assigned to a variable reads as its concrete value; as its label
    /// value, if it is tracked.
    fn concrete_follows(&self, (v, entry): (usize, usize), concrete: &[Reading]) -> bool {
        concrete[entry] == Reading::Number(self.successor.concrete[v].into())
    }

    fn label_follows(&self, (v, entry): (usize, usize), label: &[Reading]) -> bool {
        self.successor.label(v).is_none_or(|value| label[entry] == Reading::Number(value.into()))
    }

    fn entries(&self) -> impl Iterator<Item = (usize, usize)> + '_ {
        self.assigned.iter().copied().enumerate()
    }

    /// Whether it leads to the successor, by the readings in the node's two labels as far
    /// as they are settled.
    fn follows(&self, concrete: &[Reading], label: &[Reading]) -> bool {
        self.entries().all(|entry| self.concrete_follows(entry, concrete) && self.label_follows(entry, label))
    }

    /// What row 21 names if it does not lead there from the node: no variable for the
    /// concrete label, which comes first, else the lowest one that is tracked and astray.
    #[cold]
    fn astray(&self, node: &Node, readings: &mut Readings) -> Option<usize> {
        if !self.entries().all(|entry| self.concrete_follows(entry, &readings.concrete)) {
            return Some(NO_VARIABLE);
        }
        let tracked = self.entries().filter(|&(v, _)| self.successor.label(v).is_some());
        let mut astray = tracked.filter(|&(v, entry)| {
            readings.read(entry, node);
            !self.label_follows((v, entry), &readings.label)
        });
        astray.next().map(|(v, _)| v)
    }
}

struct Edge {
    command: usize,
    successors: Range<usize>,
}

/// A graph: a node has a range of the edges, an edge a range of the successors.
struct Graph {
    nodes: Vec<Node>,
    edges: Vec<Edge>,
    successors: Vec<u16>,
}

impl Graph {
    /// Rows 12 to 17.
    fn parse(model: &Model, folder: &[u8]) -> Checked<Graph> {
        ensure(GRAPH_BYTES.contains(&folder.len()), 12, 0)?;
        let [nodes, edges] = bodies::<2>(folder, 13)?;
        let record = 12 + 4 * model.variables.len();
        let whole = nodes.len().is_multiple_of(record);
        ensure(whole && NODES.contains(&(nodes.len() / record)), 14, 0)?;

        let mut parsed = Vec::new();
        let mut counts = Vec::new();
        for (place, record) in nodes.chunks_exact(record).enumerate() {
            let Some((node, edge_count)) = Graph::parse_node(model, record) else {
                return refuse(15, place);
            };
            parsed.push(node);
            counts.push(edge_count);
        }

        let mut graph = Graph { nodes: parsed, edges: Vec::new(), successors: Vec::new() };
        let mut fields = words(edges);
        let mut read = 0;
        for (place, count) in counts.into_iter().enumerate() {
            let from = graph.edges.len();
            for _ in 0..count {
                let Some(bytes) = graph.parse_edge(model, &mut fields) else {
                    return refuse(16, place);
                };
                read += bytes;
            }
            graph.nodes[place].edges = from..graph.edges.len();
        }
        ensure(read == edges.len(), 16, graph.nodes.len())?;

        let initial = model.variables.iter().map(|variable| variable.initial);
        ensure(graph.nodes[0].concrete.iter().copied().eq(initial), 17, 0)?;
        Ok(graph)
    }

    /// Row 15: a right node, its edges to come, and how many they are.
    fn parse_node(model: &Model, record: &[u8]) -> Option<(Node, usize)> {
        let (head, states) = record.split_at(12);
        let (concrete, label) = states.split_at(states.len() / 2);
        let mut fields = words(head);
        let mut next = || fields.next().unwrap_or(0);
        let kind = match next() {
            0 => Kind::Waiting,
            1 => Kind::Expanded,
            2 => Kind::Covered,
            3 => Kind::Target,
            _ => return None,
        };
        let cover = usize::from(next());
        let value = u32::from(next()) | u32::from(next()) << 16;
        let edge_count = usize::from(next());
        let tracked = next();
        let node = Node {
            kind,
            cover,
            value,
            tracked,
            concrete: signed(concrete).collect(),
            label: signed(label).collect(),
            edges: 0..0,
        };
        let variables = &model.variables;
        let right = value <= CERTAIN
            && (cover == 0 || kind == Kind::Covered)
            && (edge_count == 0 || kind == Kind::Expanded)
            && u32::from(tracked) >> variables.len() == 0
            && variables.iter().zip(&node.concrete).all(|(variable, &value)| variable.holds(value))
            && (0..variables.len()).all(|v| node.label(v).is_some() || node.label[v] == 0);
        right.then_some((node, edge_count))
    }

    /// Takes one edge from the fields and gives the bytes it took; nothing if the
    /// fields are short or name no command or no node.
    fn parse_edge(&mut self, model: &Model, fields: &mut impl Iterator<Item = u16>) -> Option<usize> {
        let command = usize::from(fields.next()?);
        let branches = model.commands.get(command)?.weights.len();
        let from = self.successors.len();
        for _ in 0..branches {
            let successor = fields.next()?;
            self.nodes.get(usize::from(successor))?;
            self.successors.push(successor);
        }
        self.edges.push(Edge { command, successors: from..self.successors.len() });
        Some(2 + 2 * branches)
    }

    fn edges(&self, node: &Node) -> &[Edge] {
        &self.edges[node.edges.clone()]
    }

    fn successors(&self, edge: &Edge) -> impl Iterator<Item = usize> + '_ {
        self.successors[edge.successors.clone()].iter().copied().map(usize::from)
    }

    fn branches<'a>(&'a self, model: &'a Model, edge: &'a Edge) -> impl Iterator<Item = Branch<'a>> + 'a {
        let assigned = &model.commands[edge.command].assigned;
        let pairs = assigned.iter().zip(self.successors(edge));
        pairs.map(|(assigned, place)| Branch { assigned, successor: &self.nodes[place] })
    }

    /// The sum, over an edge's branches, of weight × the successor's units.
    fn weighed(&self, model: &Model, edge: &Edge, units: impl Fn(usize) -> u32) -> u64 {
        let weights = &model.commands[edge.command].weights;
        weights
            .iter()
            .zip(self.successors(edge))
            .map(|(&weight, successor)| u64::from(weight) * u64::from(units(successor)))
            .sum()
    }

    /// Rows 18 to 25, finished for one node before the next.
    fn check(&self, model: &Model) -> Checked<()> {
        let mut readings = Readings::new(model);
        for (place, node) in self.nodes.iter().enumerate() {
            self.check_node(model, place, node, &mut readings)?;
        }
        Ok(())
    }

    fn check_node(&self, model: &Model, place: usize, node: &Node, readings: &mut Readings) -> Checked<()> {
        ensure(node.contains(&node.concrete), 18, place)?;
        match node.kind {
            Kind::Waiting => ensure(node.value == CERTAIN, 25, place),
            Kind::Target => {
                readings.enter(node);
                model.decide(place, node, readings)?;
                ensure(node.value == CERTAIN, 25, place)
            }
            Kind::Covered => self.check_covered(model, place, node),
            Kind::Expanded => self.check_expanded(model, place, node, readings),
        }
    }

    fn check_covered(&self, model: &Model, place: usize, node: &Node) -> Checked<()> {
        let cover = self.nodes.get(node.cover).filter(|cover| cover.kind != Kind::Covered);
        let Some(cover) = cover else {
            return refuse(22, place);
        };
        ensure(cover.contains(&node.concrete), 23, place)?;
        let kept = |v| cover.label(v).is_none() || cover.label(v) == node.label(v);
        ensure((0..model.variables.len()).all(kept), 24, place)?;
        ensure(node.value >= cover.value, 25, place)
    }

    fn check_expanded(
        &self,
        model: &Model,
        place: usize,
        node: &Node,
        readings: &mut Readings,
    ) -> Checked<()> {
        readings.enter(node);
        model.decide(place, node, readings)?;

        let commands = model.commands.iter().enumerate();
        let enabled = commands.filter(|(_, command)| readings.label[command.guard] == Reading::Truth(true));
        let edges = self.edges(node);
        let right = edges.iter().map(|edge| edge.command).eq(enabled.map(|(command, _)| command));
        ensure(right, 20, place)?;

        readings.settle_concrete(node);
        for edge in edges {
            let (concrete, label) = (&readings.concrete[..], &readings.label[..]);
            if self.branches(model, edge).all(|branch| branch.follows(concrete, label)) {
                continue;
            }
            let astray = self.branches(model, edge).find_map(|branch| branch.astray(node, readings));
            if let Some(second) = astray {
                return Err(Refusal { number: 21, place, second });
            }
        }
        let held = u64::from(model.total) * u64::from(node.value);
        let kept = |edge| held >= self.weighed(model, edge, |successor| self.nodes[successor].value);
        ensure(edges.iter().all(kept), 25, place)
    }

    fn count(&self, kind: Kind) -> usize {
        self.nodes.iter().filter(|node| node.kind == kind).count()
    }

    /// One round of figures from the last one, each row one figure per node.
    fn round(&self, model: &Model, last: &[u32], next: &mut [u32]) {
        for (node, figure) in self.nodes.iter().zip(next.iter_mut()) {
            *figure = match node.kind {
                Kind::Expanded => {
                    let sums = self.edges(node).iter().map(|edge| self.weighed(model, edge, |m| last[m]));
                    let greatest = sums.max().unwrap_or(0);
                    // At most S, as each figure is and the weights total D.
                    greatest.div_ceil(u64::from(model.total)) as u32
                }
                Kind::Waiting | Kind::Covered | Kind::Target => CERTAIN,
            }
        }
        self.take_covers(next);
    }

    fn round_zero(&self, row: &mut [u32]) {
        for (node, figure) in self.nodes.iter().zip(row.iter_mut()) {
            *figure = if node.kind == Kind::Expanded { 0 } else { CERTAIN };
        }
        self.take_covers(row);
    }

    /// A covered node takes its cover's figure; covers are not covered.
    fn take_covers(&self, row: &mut [u32]) {
        for (place, node) in self.nodes.iter().enumerate() {
            if node.kind == Kind::Covered {
                row[place] = row[node.cover];
            }
        }
    }
}

// --------------------------------------------------------------------- index

/// The FNV-1a hash of bytes.
pub fn fnv(bytes: impl IntoIterator<Item = u8>) -> u32 {
    bytes.into_iter().fold(2_166_136_261, |hash, byte| (hash ^ u32::from(byte)).wrapping_mul(16_777_619))
}

fn hash(state: &[i16]) -> u32 {
    fnv(state.iter().flat_map(|value| value.to_le_bytes()))
}

/// The slots from the first one of a hash on, round the end.
fn slots_from(hash: u32) -> impl Iterator<Item = usize> {
    let first = hash as usize % SLOTS;
    (first..SLOTS).chain(0..first)
}

// Node numbers are below 4,096, so that they fit a row's elements and leave a slot free.

impl Graph {
    /// The lowest node with a concrete state, by looking at one after the other.
    fn lowest(&self, state: &[i16]) -> Option<usize> {
        self.nodes.iter().position(|node| node.concrete == state)
    }

    fn enter_all(&self, slots: &mut [u16]) {
        slots.fill(NO_NODE);
        for (place, node) in self.nodes.iter().enumerate() {
            let new = self.lowest(&node.concrete) == Some(place);
            let free = slots_from(hash(&node.concrete)).find(|&slot| slots[slot] == NO_NODE);
            if let (true, Some(free)) = (new, free) {
                slots[free] = place as u16;
            }
        }
    }

    /// Every uncovered node that is not the lowest uncovered one of its concrete state.
    fn shared(&self) -> Vec<u16> {
        let uncovered = |&place: &usize| self.nodes[place].kind != Kind::Covered;
        let same = |a: usize, b: usize| self.nodes[a].concrete == self.nodes[b].concrete;
        let listed = |&place: &usize| (0..place).filter(uncovered).any(|lower| same(lower, place));
        (0..self.nodes.len()).filter(uncovered).filter(listed).map(|place| place as u16).collect()
    }
}

/// The nodes of a graph in their slots, with their hashes, so that a look-up compares
/// states only where the hashes are equal.
struct Table<'a> {
    graph: &'a Graph,
    hashes: Vec<u32>,
    slots: &'a mut [u16],
}

impl<'a> Table<'a> {
    fn new(graph: &'a Graph, slots: &'a mut [u16]) -> Table<'a> {
        slots.fill(NO_NODE);
        let hashes = graph.nodes.iter().map(|node| hash(&node.concrete)).collect();
        let table = Table { graph, hashes, slots };
        for (place, node) in graph.nodes.iter().enumerate() {
            let slot = table.find(table.hashes[place], &node.concrete);
            if table.slots[slot] == NO_NODE {
                table.slots[slot] = place as u16;
            }
        }
        table
    }

    /// The slot of a state, or the free one at which the look-up ends.
    fn find(&self, hash: u32, state: &[i16]) -> usize {
        let ends = |&slot: &usize| match usize::from(self.slots[slot]) {
            place if place == usize::from(NO_NODE) => true,
            place => self.hashes[place] == hash && self.graph.nodes[place].concrete == state,
        };
        slots_from(hash).find(ends).unwrap_or(0)
    }

    fn list(&self, listing: &mut [u16]) -> usize {
        let mut seen = vec![false; self.hashes.len()];
        let mut listed = 0;
        for (place, node) in self.graph.nodes.iter().enumerate() {
            if node.kind == Kind::Covered {
                continue;
            }
            let lowest = usize::from(self.slots[self.find(self.hashes[place], &node.concrete)]);
            if std::mem::replace(&mut seen[lowest], true) {
                listing[listed] = place as u16;
                listed += 1;
            }
        }
        listed
    }
}

fn checked(model: &[u8], graph: &[u8]) -> Checked<(Model, Graph)> {
    let model = Model::parse(model)?;
    let graph = Graph::parse(&model, graph)?;
    graph.check(&model)?;
    Ok((model, graph))
}

// --------------------------------------------------------------------- calls

/// The model check.
pub fn model_check(model: &[u8]) -> Result<(), Refusal> {
    Model::parse(model).map(|_| ())
}

/// The graph check, the model's rules first.
pub fn graph_check(model: &[u8], graph: &[u8]) -> Result<Summary, Refusal> {
    let (_, graph) = checked(model, graph)?;
    Ok(Summary {
        root: graph.nodes[0].value,
        waiting: graph.count(Kind::Waiting),
        expanded: graph.count(Kind::Expanded),
        covered: graph.count(Kind::Covered),
        target: graph.count(Kind::Target),
    })
}

/// The part of a row that a figure call hands back: its first `nodes` elements.
#[derive(Clone, Copy, Debug, PartialEq, Eq)]
pub struct Part {
    /// Whether it is of the second row.
    pub second: bool,
    pub nodes: usize,
}

/// The figures for `h` steps. Round `h` stands in the row of its parity and the
/// round before it in the other, untouched at `h` = 0; elements past the node
/// count stay, and both rows when refused.
pub fn figure(
    model: &[u8],
    graph: &[u8],
    h: usize,
    first: &mut [u32],
    second: &mut [u32],
) -> Result<Part, Refusal> {
    let (model, graph) = checked(model, graph)?;
    if let Some(waiting) = graph.nodes.iter().position(|node| node.kind == Kind::Waiting) {
        return refuse(26, waiting);
    }
    ensure(h <= STEPS, 27, 0)?;
    let nodes = graph.nodes.len();
    ensure(first.len() >= nodes, 28, 0)?;
    ensure(second.len() >= nodes, 28, 1)?;

    let mut last = &mut first[..nodes];
    let mut next = &mut second[..nodes];
    graph.round_zero(last);
    for _ in 0..h {
        graph.round(&model, last, next);
        if last == next {
            // So are all rounds from here on.
            break;
        }
        std::mem::swap(&mut last, &mut next);
    }
    Ok(Part { second: h % 2 == 1, nodes })
}

/// The graph, where slots, batch, answers and listing of these lengths are right for it,
/// and how many values a state has.
fn indexed(model: &[u8], graph: &[u8], lengths: [usize; 4]) -> Checked<(Graph, usize)> {
    let (model, graph) = checked(model, graph)?;
    let [slots, batch, answers, listing] = lengths;
    let variables = model.variables.len();
    ensure(slots == SLOTS, 34, 0)?;
    ensure(batch.is_multiple_of(variables), 34, 1)?;
    ensure(answers >= batch / variables, 34, 2)?;
    ensure(listing >= graph.nodes.len(), 34, 3)?;
    Ok((graph, variables))
}

/// The index: the slots, an answer for each state of the batch, and the uncovered nodes
/// that share a concrete state; how many these are. Answers and listing are looked for
/// among the nodes, with no hash. Later elements of both stay, and all rows when refused.
pub fn index(
    model: &[u8],
    graph: &[u8],
    slots: &mut [u16],
    batch: &[i16],
    answers: &mut [u16],
    listing: &mut [u16],
) -> Result<usize, Refusal> {
    let lengths = [slots.len(), batch.len(), answers.len(), listing.len()];
    let (graph, variables) = indexed(model, graph, lengths)?;
    graph.enter_all(slots);
    for (state, answer) in batch.chunks_exact(variables).zip(answers) {
        *answer = graph.lowest(state).map_or(NO_NODE, |place| place as u16);
    }
    let shared = graph.shared();
    listing[..shared.len()].copy_from_slice(&shared);
    Ok(shared.len())
}

/// The same by look-ups in the slots.
pub fn index_by_slots(
    model: &[u8],
    graph: &[u8],
    slots: &mut [u16],
    batch: &[i16],
    answers: &mut [u16],
    listing: &mut [u16],
) -> Result<usize, Refusal> {
    let lengths = [slots.len(), batch.len(), answers.len(), listing.len()];
    let (graph, variables) = indexed(model, graph, lengths)?;
    let table = Table::new(&graph, slots);
    for (state, answer) in batch.chunks_exact(variables).zip(answers) {
        *answer = table.slots[table.find(hash(state), state)];
    }
    Ok(table.list(listing))
}

/// The step of a state by a command and a branch. The new state stands first in
/// the result row, whose later elements stay, and all when refused.
pub fn step(
    model: &[u8],
    state: &[i16],
    command: usize,
    branch: usize,
    result: &mut [i16],
) -> Result<(), Refusal> {
    let model = Model::parse(model)?;
    let variables = &model.variables;
    ensure(state.len() == variables.len() && result.len() >= variables.len(), 29, 0)?;
    for (place, (variable, &value)) in variables.iter().zip(state).enumerate() {
        ensure(variable.holds(value), 30, place)?;
    }
    let Some(asked) = model.commands.get(command) else {
        return refuse(31, command);
    };
    let mut table = Vec::new();
    model.read(|v| Some(state[v]), &mut table);
    ensure(table[asked.guard] == Reading::Truth(true), 32, command)?;
    let Some(assigned) = asked.assigned.get(branch) else {
        return refuse(33, branch);
    };
    for (&entry, value) in assigned.iter().zip(result) {
        if let Reading::Number(number) = table[entry] {
            // In the variable's range, by row 10.
            *value = number as i16;
        }
    }
    Ok(())
}

/// The view: a record of the model folder by its body and number, or the empty
/// part at the folder's start.
pub fn record_part(model: &[u8], body: usize, record: usize) -> &[u8] {
    let part = model_bodies(model)
        .ok()
        .and_then(|bodies| bodies.get(body).copied())
        .and_then(|(body, length)| body.chunks_exact(length).nth(record));
    part.unwrap_or(&model[..0])
}
