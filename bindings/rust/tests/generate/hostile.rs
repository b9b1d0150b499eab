//! Models and graphs that are accepted, on which the reading by all states has the most to
//! do: whatever is asked is the same in all combinations, so that all of them are tried, in
//! every node but the first.
//!
//! Each node tracks variable 0 alone, with a value of its own that all that is asked
//! mentions, so that no node helps another; but the first, to which all edges lead, tracks
//! all variables, so that everything assigned is asked.

use super::data::*;
use super::models::Builder;
use super::random::Random;
use std::collections::{HashMap, HashSet};

/// A model that takes long to read, for graphs of any size.
pub struct Hostile {
    pub name: &'static str,
    model: ModelData,
}

impl Hostile {
    pub fn model(&self) -> Vec<u8> {
        self.model.bytes()
    }

    /// How many numbers are assigned, but for constants: each is asked in every node.
    pub fn asked(&self) -> usize {
        let assigned = self.model.branches.iter().flat_map(|branch| &branch[1..]);
        assigned
            .filter(|&&entry| self.model.entries[usize::from(entry)][0] != 0)
            .collect::<HashSet<_>>()
            .len()
    }

    /// A graph of so many nodes.
    pub fn graph(&self, nodes: usize) -> Vec<u8> {
        let variables = self.model.variables.len();
        let nodes = (0..nodes as i16).map(|place| {
            let mut state = vec![0; variables];
            state[0] = place;
            let tracked = if place == 0 { (1u32 << variables) - 1 } else { 1 };
            let mut node = NodeData::new(EXPANDED, CERTAIN, tracked as u16, &state);
            for (command, &[_, branches]) in self.model.commands.iter().enumerate() {
                node.push_edge(command as u16, vec![0; usize::from(branches)]);
            }
            node
        });
        GraphData { nodes: nodes.collect() }.bytes()
    }
}

/// A number that is always 0 and a truth, by the same parts.
#[derive(Clone, Copy)]
struct Piece {
    zero: u16,
    truth: u16,
}

/// Builds such a model. Parts are made at random, of two sums over all variables of a set.
struct Maker {
    builder: Builder,
    random: Random,
    leaves: Vec<u16>,
    zero: u16,
    two: u16,
    /// Hangs on variable 0, and is 0 or 1.
    tag: u16,
}

impl Maker {
    /// Variable 0 has a value for each node, the others as many as said, from 0 on.
    fn new(sizes: &[i16]) -> Maker {
        let others = sizes.iter().map(|&size| [0, size - 1, 0]);
        let variables = [[0, MOST_NODES as i16 - 1, 0]].into_iter().chain(others).collect();
        let mut builder = Builder::new(MOST_BRANCHES as u16, variables);
        let mut put = |record| builder.put(record).expect("few and flat");
        let [zero, one, two, half] = [0, 1, 2, MOST_NODES as u16 / 2].map(|c| put([0, c, 0, 0]));
        let leaves: Vec<u16> = (0..=sizes.len() as u16).map(|v| put([1, v, 0, 0])).collect();
        let low = put([9, leaves[0], half, 0]);
        let tag = put([7, low, one, zero]);
        Maker { builder, random: Random::new(0x686f_7374), leaves, zero, two, tag }
    }

    fn left(&self) -> usize {
        MOST_ENTRIES - self.builder.model.entries.len()
    }

    fn put(&mut self, record: [u16; 4]) -> u16 {
        self.builder.put_anew(record).expect("room, depth and range are counted")
    }

    fn sum(&mut self, items: &[u16]) -> u16 {
        if let [item] = items {
            return *item;
        }
        let (some, others) = items.split_at(items.len().div_ceil(2));
        let (a, b) = (self.sum(some), self.sum(others));
        self.put([2, a, b, 0])
    }

    /// A number of about so many entries and at most so many levels, by the two sums.
    fn number(&mut self, sums: [u16; 2], levels: u32, entries: usize) -> u16 {
        let [a, b] = sums;
        if levels == 0 || entries < 4 {
            let operation = self.random.pick(&[5, 6, 2, 3]);
            return self.put([operation, a, b, 0]);
        }
        let in_truth = (entries - 1) * 27 / 100;
        let truth = self.truth(sums, levels - 1, in_truth);
        let rest = entries - 1 - in_truth;
        let yes = self.number(sums, levels - 1, rest / 2);
        let no = self.number(sums, levels - 1, rest - rest / 2);
        self.put([7, truth, yes, no])
    }

    fn truth(&mut self, sums: [u16; 2], levels: u32, entries: usize) -> u16 {
        let operation = self.random.pick(&[8, 9, 10]);
        let [mut a, mut b] = sums;
        if levels > 0 && entries >= 3 {
            a = self.number(sums, levels - 1, (entries - 1) / 2);
            b = self.number(sums, levels - 1, entries / 2);
        }
        self.put([operation, a, b, 0])
    }

    /// About so many entries over the variables of a set, so many levels below the deepest.
    fn piece(&mut self, set: &[usize], entries: usize, above: u32) -> Piece {
        let before = self.left();
        let mut items: Vec<u16> = set.iter().map(|&v| self.leaves[v]).collect();
        items.push(self.tag);
        let (some, others) = items.split_at(items.len() / 2);
        let sums = [self.sum(some), self.sum(others)];
        let deepest = sums.map(|sum| self.builder.depth(sum)).into_iter().max().unwrap_or(0);
        let used = before - self.left() + 2;
        let levels = MOST_DEPTH - 2 - above - deepest;
        let number = self.number(sums, levels, entries.saturating_sub(used));
        Piece { zero: self.put([4, number, self.zero, 0]), truth: self.put([10, number, self.two, 0]) }
    }

    /// A number by the chosen pieces, if there is room: by the first, then by two more at a
    /// time. What begins alike is made once.
    fn join(
        &mut self,
        pieces: &[Piece],
        choice: &[usize],
        made: &mut HashMap<Vec<usize>, u16>,
    ) -> Option<u16> {
        let mut number = pieces[choice[0]].zero;
        for start in (1..choice.len()).step_by(2) {
            let end = choice.len().min(start + 2);
            let (truth, zero) = (pieces[choice[start]].truth, pieces[choice[end - 1]].zero);
            number = match made.get(&choice[..end]) {
                Some(&number) => number,
                None if self.left() <= SPARE => return None,
                None => self.put([7, truth, number, zero]),
            };
            made.insert(choice[..end].to_vec(), number);
        }
        Some(number)
    }

    /// The model whose commands, always enabled, assign the numbers, and else 0.
    fn finish(mut self, name: &'static str, numbers: &[u16]) -> Hostile {
        let always = self.put([14, 0, 0, 0]);
        self.builder.model.target = self.put([11, always, 0, 0]);
        let variables = self.leaves.len();
        let mut branches = numbers.chunks(variables).map(|numbers| {
            let mut branch = vec![1];
            branch.extend(numbers);
            branch.resize(1 + variables, self.zero);
            branch
        });
        let plain = [vec![1], vec![self.zero; variables]].concat();
        loop {
            let mut of_command: Vec<_> = branches.by_ref().take(MOST_BRANCHES).collect();
            if of_command.is_empty() {
                break;
            }
            of_command.resize(MOST_BRANCHES, plain.clone());
            self.builder.command(always, of_command);
        }
        Hostile { name, model: self.builder.model }
    }

    /// The model whose first command adds one to variable 0 and changes nothing else, so that
    /// its graph is a chain. The numbers, which are never below 0, are asked in every node: the
    /// guards of all other commands and the target say that one of them is.
    fn finish_chain(mut self, numbers: &[u16]) -> ModelData {
        let (always, zero) = (self.put([14, 0, 0, 0]), self.zero);
        let one = self.builder.put([0, 1, 0, 0]).expect("it is there");
        let next = self.put([2, self.leaves[0], one, 0]);
        let next = self.builder.fit(next, 0).expect("room is counted");
        let weight = [self.builder.model.total];
        self.builder.command(always, vec![[&weight[..], &[next], &self.leaves[1..]].concat()]);
        let asked: Vec<u16> = numbers.iter().map(|&number| self.put([9, number, zero, 0])).collect();
        self.builder.model.target = asked[0];
        for &guard in &asked[1..] {
            self.builder.command(guard, vec![[&weight[..], &self.leaves].concat()]);
        }
        self.builder.model
    }
}

/// Entries that a model needs besides its pieces and the numbers over them.
const SPARE: usize = 4;

/// As many entries as there may be over one set of variables, in a few numbers.
fn one_set(name: &'static str, sizes: &[i16], set: &[usize]) -> Hostile {
    let mut maker = Maker::new(sizes);
    let mut pieces = Vec::new();
    while maker.left() > SPARE + 20 {
        let entries = (maker.left() - SPARE - 8).min(110);
        pieces.push(maker.piece(set, entries, 1));
    }
    let next = |k: usize| pieces[k % pieces.len()];
    let numbers: Vec<u16> = (0..pieces.len().min(maker.left() - SPARE))
        .map(|k| maker.put([7, next(k).truth, next(k + 1).zero, next(k + 2).zero]))
        .collect();
    maker.finish(name, &numbers)
}

/// All.
pub fn all() -> [Hostile; 3] {
    [many_sets(), one_set_of_twelve(), one_variable()]
}

pub fn one_set_of_twelve() -> Hostile {
    one_set("one set of 12 variables of two values", &[2; 15], &(1..=12).collect::<Vec<_>>())
}

pub fn one_variable() -> Hostile {
    one_set("one variable of 4,096 values", &[4_096], &[1])
}

/// So many of the items, every choice.
fn choices(items: &[usize], count: usize) -> Vec<Vec<usize>> {
    match items.split_first() {
        _ if count == 0 => vec![vec![]],
        None => vec![],
        Some((&first, rest)) => {
            let with = choices(rest, count - 1).into_iter().map(|choice| [vec![first], choice].concat());
            with.chain(choices(rest, count)).collect()
        }
    }
}

/// Many sets of 12 two-valued variables, each with a number of its own. Three variables are
/// common to all. Each of the others has a piece of some 18 entries over it and these, and
/// a number is made of as many pieces as make up 12: of all such models tried the slowest.
pub fn many_sets() -> Hostile {
    let mut maker = Maker::new(&[2; 15]);
    let (others, taken, entries) = (12, 9, 18);
    let pieces: Vec<Piece> = (1..=others)
        .map(|v| {
            let set: Vec<usize> = [v].into_iter().chain(others + 1..16).collect();
            maker.piece(&set, entries, taken as u32 / 2)
        })
        .collect();
    let mut made = HashMap::new();
    let mut numbers = Vec::new();
    for choice in choices(&(0..others).collect::<Vec<_>>(), taken) {
        match maker.join(&pieces, &choice, &mut made) {
            Some(number) => numbers.push(number),
            None => break,
        }
    }
    maker.finish("many sets of 12 variables of two values", &numbers)
}

/// What is asked in a node of a chain: a guard for every command but the first, and the
/// target. Each takes an entry, and what leads to the next node a few more.
const CHAIN_ASKED: usize = MOST_COMMANDS;
const CHAIN_SPARE: usize = CHAIN_ASKED + 4;

/// For chains: all that is asked mentions variable 0 itself, so that it takes less depth.
fn chain_maker() -> Maker {
    let mut maker = Maker::new(&[2; 15]);
    maker.tag = maker.leaves[0];
    maker
}

/// A chain in which all that is asked hangs on one set of 12 two-valued variables, and uses
/// most of the entries.
pub fn chain_of_one_set() -> ModelData {
    let mut maker = chain_maker();
    let mut pieces = Vec::new();
    while maker.left() > 2 * CHAIN_SPARE + 20 {
        let entries = (maker.left() - 2 * CHAIN_SPARE).min(110);
        pieces.push(maker.piece(&(1..=12).collect::<Vec<_>>(), entries, 2));
    }
    let next = |k: usize| pieces[k % pieces.len()];
    let numbers: Vec<u16> =
        (0..CHAIN_ASKED).map(|k| maker.put([7, next(k).truth, next(k + 1).zero, next(k + 2).zero])).collect();
    maker.finish_chain(&numbers)
}

/// A chain in which whatever is asked hangs on a set of its own of 12 two-valued variables,
/// made of pieces as in `many_sets`.
pub fn chain_of_many_sets() -> ModelData {
    let mut maker = chain_maker();
    let (others, taken, entries) = (12, 9, 24);
    let pieces: Vec<Piece> = (1..=others)
        .map(|v| {
            let set: Vec<usize> = [v].into_iter().chain(others + 1..16).collect();
            maker.piece(&set, entries, taken as u32 / 2 + 1)
        })
        .collect();
    let mut made = HashMap::new();
    let numbers: Vec<u16> = choices(&(0..others).collect::<Vec<_>>(), taken)
        .into_iter()
        .step_by(2)
        .take(CHAIN_ASKED)
        .map(|choice| maker.join(&pieces, &choice, &mut made).expect("room is counted"))
        .collect();
    maker.finish_chain(&numbers)
}
