//! Random models that keep every rule.

use super::data::*;
use super::random::Random;

/// The width of the widest range of a variable.
const WIDEST: i64 = 2 * BOUND as i64;

/// Low and high.
type Span = (i64, i64);

/// Builds the entries of a model, and keeps depth and range of each.
pub struct Builder {
    pub model: ModelData,
    depths: Vec<u32>,
    /// Of a number; nothing for a truth.
    spans: Vec<Option<Span>>,
}

impl Builder {
    pub fn new(total: u16, variables: Vec<[i16; 3]>) -> Builder {
        let model = ModelData {
            total,
            target: 0,
            variables,
            entries: Vec::new(),
            commands: Vec::new(),
            branches: Vec::new(),
        };
        Builder { model, depths: Vec::new(), spans: Vec::new() }
    }

    /// The number of the entry, put there if it is new; nothing if it would be too
    /// deep, too wide or one too many.
    pub fn put(&mut self, record: [u16; 4]) -> Option<u16> {
        if let Some(found) = self.model.entries.iter().position(|&entry| entry == record) {
            return Some(found as u16);
        }
        self.put_anew(record)
    }

    /// The same, without looking for it among those there.
    pub fn put_anew(&mut self, record: [u16; 4]) -> Option<u16> {
        let [operation, a, b, c] = record;
        let parts: &[u16] = match operation {
            0 | 1 | 14 => &[],
            7 => &[a, b, c],
            11 => &[a],
            _ => &[a, b],
        };
        let depth = 1 + parts.iter().map(|&part| self.depths[usize::from(part)]).max().unwrap_or(0);
        let span = |part: u16| self.spans[usize::from(part)];
        let two = |f: fn(Span, Span) -> Span| Some(f(span(a)?, span(b)?));
        let found = match operation {
            0 => Some((i64::from(a as i16), i64::from(a as i16))),
            1 => {
                let [low, high, _] = self.model.variables[usize::from(a)];
                Some((low.into(), high.into()))
            }
            2 => two(|x, y| (x.0 + y.0, x.1 + y.1)),
            3 => two(|x, y| (x.0 - y.1, x.1 - y.0)),
            4 => two(|x, y| {
                let mut ends = [x.0 * y.0, x.0 * y.1, x.1 * y.0, x.1 * y.1];
                ends.sort_unstable();
                (ends[0], ends[3])
            }),
            5 => two(|x, y| (x.0.min(y.0), x.1.min(y.1))),
            6 => two(|x, y| (x.0.max(y.0), x.1.max(y.1))),
            7 => span(b).zip(span(c)).map(|(x, y)| (x.0.min(y.0), x.1.max(y.1))),
            _ => None,
        };
        let narrow = found.is_none_or(|(low, high)| -NUMBER_BOUND <= low && high <= NUMBER_BOUND);
        if depth > MOST_DEPTH || !narrow || self.model.entries.len() == MOST_ENTRIES {
            return None;
        }
        self.model.entries.push(record);
        self.depths.push(depth);
        self.spans.push(found);
        Some(self.model.entries.len() as u16 - 1)
    }

    pub fn depth(&self, entry: u16) -> u32 {
        self.depths[usize::from(entry)]
    }

    pub fn is_number(&self, entry: u16) -> bool {
        self.spans[usize::from(entry)].is_some()
    }

    /// An entry in the variable's range: the one given, or held to the bounds.
    pub fn fit(&mut self, entry: u16, variable: usize) -> Option<u16> {
        let [low, high, _] = self.model.variables[variable];
        let (least, greatest) = self.spans[usize::from(entry)]?;
        let mut entry = entry;
        if greatest > i64::from(high) {
            let bound = self.put([0, high as u16, 0, 0])?;
            entry = self.put([5, entry, bound, 0])?;
        }
        if least < i64::from(low) {
            let bound = self.put([0, low as u16, 0, 0])?;
            entry = self.put([6, bound, entry, 0])?;
        }
        Some(entry)
    }

    /// Appends a command, its branches given by weight and assigned entries.
    pub fn command(&mut self, guard: u16, branches: Vec<Vec<u16>>) {
        self.model.commands.push([guard, branches.len() as u16]);
        self.model.branches.extend(branches);
    }
}

/// How large a random model is to be.
#[derive(Clone, Debug)]
pub struct Shape {
    pub variables: usize,
    /// The greatest width of a variable's range.
    pub width: i64,
    pub commands: usize,
    pub branches: usize,
    pub total: u16,
    /// How deep the made-up expressions go, before they are shared.
    pub depth: u32,
    /// Whether to build a tower of shared entries up to the greatest depth.
    pub tower: bool,
    /// Once in so many times what a rule may ask for mentions variables that do not
    /// matter, or hardly do; 0 for never.
    pub disguised: usize,
}

impl Shape {
    /// A model whose best chances can be worked out state by state.
    pub fn small(random: &mut Random) -> Shape {
        Shape {
            variables: 1 + random.below(3),
            width: 3,
            commands: 1 + random.below(3),
            branches: 1 + random.below(3),
            total: random.pick(&[3, 4, 7, 10]),
            depth: 1 + random.below(4) as u32,
            tower: random.once_in(8),
            disguised: random.pick(&[0, 2, 4]),
        }
    }

    pub fn any(random: &mut Random) -> Shape {
        let many = random.once_in(20);
        let wide = random.once_in(10);
        Shape {
            variables: 1 + if random.once_in(2) { random.below(4) } else { random.below(MOST_VARIABLES) },
            width: random.pick(&[1, 1, 2, 3, 3, 4, 10, 1_000, WIDEST]),
            commands: 1 + random.below(if many { MOST_COMMANDS } else { 5 }),
            branches: 1 + random.below(if wide { MOST_BRANCHES } else { 3 }),
            total: random.pick(&[1, 2, 3, 7, 10, 10, 100, 1_000, 40_000, u16::MAX]),
            depth: 1 + random.below(6) as u32,
            tower: random.once_in(6),
            disguised: random.pick(&[0, 0, 0, 3]),
        }
    }
}

/// A random model of the shape.
pub fn model(random: &mut Random, shape: &Shape) -> ModelData {
    let variables = (0..shape.variables).map(|_| variable(random, shape.width)).collect();
    let mut builder = Builder::new(shape.total, variables);
    if shape.variables * shape.commands * shape.branches > 80 {
        // All entries may be used up: the leaves that others fall back on come first.
        leaf_truth(&mut builder);
        for v in 0..shape.variables {
            builder.put([1, v as u16, 0, 0]);
        }
    }
    if shape.tower {
        tower(&mut builder, random);
    }
    for _ in 0..shape.commands {
        let guard = if random.once_in(3) {
            leaf_truth(&mut builder)
        } else {
            truth(&mut builder, random, shape.depth)
        };
        let guard = mention_more(&mut builder, random, guard);
        let guard = disguised_truth(&mut builder, random, shape, guard);
        let count = 1 + random.below(shape.branches.min(usize::from(shape.total)));
        let weights = weights(random, shape.total, count);
        let mut branches = Vec::new();
        for weight in weights {
            let mut branch = vec![weight];
            for v in 0..shape.variables {
                let entry = assigned(&mut builder, random, v, shape.depth);
                branch.push(disguised_number(&mut builder, random, shape, entry, v));
            }
            branches.push(branch);
        }
        if builder.model.branches.len() + branches.len() > MOST_BRANCH_RECORDS {
            break;
        }
        builder.command(guard, branches);
    }
    let target = target(&mut builder, random, shape.depth);
    let target = mention_more(&mut builder, random, target);
    builder.model.target = disguised_truth(&mut builder, random, shape, target);
    builder.model
}

/// Often a truth that mentions one more variable, a low one rather, and reads as the one
/// given in every label: the part that mentions it is known, whatever it is.
fn mention_more(builder: &mut Builder, random: &mut Random, truth: u16) -> u16 {
    let most = 1 + random.below(builder.model.variables.len());
    let variable = random.below(most) as u16;
    let mentioned = match random.below(4) {
        0 => and_true_or(builder, truth, variable),
        1 => false_and_or(builder, truth, variable),
        _ => None,
    };
    mentioned.unwrap_or(truth)
}

/// The truth, and: a variable is below itself, or true.
fn and_true_or(builder: &mut Builder, truth: u16, variable: u16) -> Option<u16> {
    let below = below_itself(builder, variable)?;
    let always = builder.put([14, 0, 0, 0])?;
    let known = builder.put([13, below, always, 0])?;
    builder.put([12, truth, known, 0])
}

/// Not true, and a variable is below itself; or the truth.
fn false_and_or(builder: &mut Builder, truth: u16, variable: u16) -> Option<u16> {
    let below = below_itself(builder, variable)?;
    let always = builder.put([14, 0, 0, 0])?;
    let never = builder.put([11, always, 0, 0])?;
    let known = builder.put([12, never, below, 0])?;
    builder.put([13, known, truth, 0])
}

fn below_itself(builder: &mut Builder, variable: u16) -> Option<u16> {
    let variable = builder.put([1, variable, 0, 0])?;
    builder.put([9, variable, variable, 0])
}

/// The truth, or now and then one that mentions more and is the same in every state, or
/// in all but those with some one value.
fn disguised_truth(builder: &mut Builder, random: &mut Random, shape: &Shape, truth: u16) -> u16 {
    if shape.disguised == 0 || !random.once_in(shape.disguised) {
        return truth;
    }
    let made = match random.below(5) {
        0 => spoiled_truth(builder, random, truth),
        way => same_truth(builder, random, truth, way),
    };
    made.unwrap_or(truth)
}

/// The truth, with another and without that other, which settle it together.
fn same_truth(builder: &mut Builder, random: &mut Random, truth: u16, way: usize) -> Option<u16> {
    let other = self::truth(builder, random, 2);
    let not = builder.put([11, other, 0, 0])?;
    match way {
        1 => {
            let either = builder.put([13, other, not, 0])?;
            builder.put([12, truth, either, 0])
        }
        2 => {
            let neither = builder.put([12, not, other, 0])?;
            builder.put([13, neither, truth, 0])
        }
        _ => {
            let (with, without) = (builder.put([12, truth, other, 0])?, builder.put([12, not, truth, 0])?);
            builder.put([13, with, without, 0])
        }
    }
}

/// The truth, but where a variable has some one value, an end of its range rather.
fn spoiled_truth(builder: &mut Builder, random: &mut Random, truth: u16) -> Option<u16> {
    let is = is_some_value(builder, random)?;
    if random.once_in(2) {
        return builder.put([13, truth, is, 0]);
    }
    let is_not = builder.put([11, is, 0, 0])?;
    builder.put([12, is_not, truth, 0])
}

fn is_some_value(builder: &mut Builder, random: &mut Random) -> Option<u16> {
    let v = random.below(builder.model.variables.len());
    let [low, high, _] = builder.model.variables[v];
    let within = random.between(low.into(), high.into()) as i16;
    let value = random.pick(&[low, high, within]);
    let (variable, value) = (builder.put([1, v as u16, 0, 0])?, builder.put([0, value as u16, 0, 0])?);
    builder.put([8, variable, value, 0])
}

/// The same of a number that is assigned to a variable.
fn disguised_number(
    builder: &mut Builder,
    random: &mut Random,
    shape: &Shape,
    number: u16,
    variable: usize,
) -> u16 {
    if shape.disguised == 0 || !random.once_in(shape.disguised) {
        return number;
    }
    let made = match random.below(5) {
        0 => spoiled_number(builder, random, number),
        way => same_number(builder, random, number, way),
    };
    made.and_then(|entry| builder.fit(entry, variable)).unwrap_or(number)
}

/// The number, by what another variable does not change.
fn same_number(builder: &mut Builder, random: &mut Random, number: u16, way: usize) -> Option<u16> {
    let other = builder.put([1, random.below(builder.model.variables.len()) as u16, 0, 0])?;
    match way {
        1 => {
            let none = builder.put([3, other, other, 0])?;
            builder.put([2, number, none, 0])
        }
        2 => {
            let zero = builder.put([0, 0, 0, 0])?;
            let none = builder.put([4, zero, other, 0])?;
            builder.put([2, none, number, 0])
        }
        3 => {
            let truth = truth(builder, random, 2);
            builder.put([7, truth, number, number])
        }
        _ => {
            let larger = builder.put([6, number, other, 0])?;
            builder.put([5, larger, number, 0])
        }
    }
}

/// The number, but one more where a variable has some one value.
fn spoiled_number(builder: &mut Builder, random: &mut Random, number: u16) -> Option<u16> {
    let (zero, one) = (builder.put([0, 0, 0, 0])?, builder.put([0, 1, 0, 0])?);
    let is = is_some_value(builder, random)?;
    let more = builder.put([7, is, one, zero])?;
    builder.put([2, number, more, 0])
}

/// A truth that, if one is found, does not hold at first, and then does.
fn target(builder: &mut Builder, random: &mut Random, depth: u32) -> u16 {
    let mut states = vec![builder.model.initial()];
    for _ in 0..12 {
        let values = builder.model.evaluate(&states[states.len() - 1]);
        let enabled: Vec<usize> = (0..builder.model.commands.len())
            .filter(|&command| values[usize::from(builder.model.commands[command][0])] == 1)
            .collect();
        if enabled.is_empty() {
            break;
        }
        let branches = builder.model.branches_of(random.pick(&enabled));
        states.push(builder.model.next(&values, &branches[random.below(branches.len())]));
    }
    let wanted = if random.once_in(10) { 1 } else { 8 };
    let mut found = truth(builder, random, depth);
    for _ in 1..wanted {
        let holds = |state: &Vec<i16>| builder.model.evaluate(state)[usize::from(found)] == 1;
        if !holds(&states[0]) && states.iter().any(holds) {
            break;
        }
        found = truth(builder, random, depth);
    }
    found
}

fn variable(random: &mut Random, width: i64) -> [i16; 3] {
    let width = if random.once_in(3) { width } else { random.between(0, width) };
    let bound = i64::from(BOUND);
    let low = if width >= WIDEST {
        -bound
    } else if random.once_in(3) {
        random.between(-3, 3).clamp(-bound, bound - width)
    } else if random.once_in(6) {
        random.between(-bound, bound - width)
    } else {
        0.min(bound - width)
    };
    let high = low + width;
    let initial = if random.once_in(2) { low } else { random.between(low, high) };
    [low as i16, high as i16, initial as i16]
}

/// So many weights, none of them 0, that total `total`.
pub fn weights(random: &mut Random, total: u16, count: usize) -> Vec<u16> {
    let mut left = i64::from(total);
    let mut weights = Vec::new();
    for after in (0..count as i64).rev() {
        let weight = if after == 0 { left } else { random.between(1, left - after) };
        weights.push(weight as u16);
        left -= weight;
    }
    weights
}

/// A leaf, or when there is no room any entry of the sort.
fn leaf_truth(builder: &mut Builder) -> u16 {
    builder.put([14, 0, 0, 0]).unwrap_or_else(|| some_entry(builder, false))
}

fn leaf_number(builder: &mut Builder, random: &mut Random) -> u16 {
    let record = if random.once_in(3) {
        let [low, high, _] = random.pick(&builder.model.variables.clone());
        let constant = match random.below(4) {
            0 => low,
            1 => high,
            2 => random.between(low.into(), high.into()) as i16,
            _ => random.between(-2, 3) as i16,
        };
        [0, constant as u16, 0, 0]
    } else {
        [1, random.below(builder.model.variables.len()) as u16, 0, 0]
    };
    builder.put(record).unwrap_or_else(|| some_entry(builder, true))
}

fn some_entry(builder: &Builder, number: bool) -> u16 {
    let entries = 0..builder.model.entries.len() as u16;
    entries.into_iter().find(|&entry| builder.is_number(entry) == number).unwrap_or(0)
}

fn existing(builder: &Builder, random: &mut Random, number: bool, depth: u32) -> Option<u16> {
    let count = builder.model.entries.len();
    let tries = if count == 0 { 0 } else { 4 };
    (0..tries)
        .map(|_| random.below(count) as u16)
        .find(|&entry| builder.is_number(entry) == number && builder.depth(entry) <= depth)
}

fn number(builder: &mut Builder, random: &mut Random, depth: u32) -> u16 {
    if random.once_in(4) {
        if let Some(entry) = existing(builder, random, true, MOST_DEPTH - 2) {
            return entry;
        }
    }
    if depth <= 1 || random.once_in(4) {
        return leaf_number(builder, random);
    }
    let operation = random.between(2, 7) as u16;
    let a = number(builder, random, depth - 1);
    let b = number(builder, random, depth - 1);
    let record =
        if operation == 7 { [7, truth(builder, random, depth - 1), a, b] } else { [operation, a, b, 0] };
    builder.put(record).unwrap_or(a)
}

fn truth(builder: &mut Builder, random: &mut Random, depth: u32) -> u16 {
    if random.once_in(6) {
        if let Some(entry) = existing(builder, random, false, MOST_DEPTH) {
            return entry;
        }
    }
    if random.once_in(40) {
        return leaf_truth(builder);
    }
    let made = match random.below(if depth <= 2 { 4 } else { 8 }) {
        // A variable held against a value of its own.
        0..=2 => {
            let v = random.below(builder.model.variables.len());
            let [low, high, _] = builder.model.variables[v];
            let constant = random.between(low.into(), high.into()) as i16;
            let variable = builder.put([1, v as u16, 0, 0]);
            let constant = builder.put([0, constant as u16, 0, 0]);
            let operation = random.between(8, 10) as u16;
            variable.zip(constant).and_then(|(variable, constant)| {
                let (a, b) = if random.once_in(3) { (constant, variable) } else { (variable, constant) };
                builder.put([operation, a, b, 0])
            })
        }
        3 => {
            let depth = depth.saturating_sub(1).max(1);
            let (a, b) = (number(builder, random, depth), number(builder, random, depth));
            builder.put([random.between(8, 10) as u16, a, b, 0])
        }
        4 => {
            let part = truth(builder, random, depth - 1);
            builder.put([11, part, 0, 0])
        }
        _ => {
            let (a, b) = (truth(builder, random, depth - 1), truth(builder, random, depth - 1));
            builder.put([random.between(12, 13) as u16, a, b, 0])
        }
    };
    made.unwrap_or_else(|| leaf_truth(builder))
}

/// An entry that may be assigned to the variable.
fn assigned(builder: &mut Builder, random: &mut Random, variable: usize, depth: u32) -> u16 {
    let itself = builder.put([1, variable as u16, 0, 0]).unwrap_or_else(|| some_entry(builder, true));
    let [low, high, _] = builder.model.variables[variable];
    let quiet = builder.model.variables.len() > 4 && !random.once_in(3);
    let made = match random.below(12) {
        _ if quiet => Some(itself),
        0..=2 => Some(itself),
        3 => {
            let constant = random.between(low.into(), high.into()) as i16;
            builder.put([0, constant as u16, 0, 0])
        }
        4..=6 => step_by_one(builder, itself, random.between(2, 3) as u16),
        7..=8 => round_about(builder, itself, low, high),
        9 => {
            let other = random.below(builder.model.variables.len()) as u16;
            builder.put([1, other, 0, 0])
        }
        _ => Some(number(builder, random, depth)),
    };
    made.and_then(|entry| builder.fit(entry, variable)).unwrap_or(itself)
}

/// The variable and one, added or subtracted.
fn step_by_one(builder: &mut Builder, variable: u16, operation: u16) -> Option<u16> {
    let one = builder.put([0, 1, 0, 0])?;
    builder.put([operation, variable, one, 0])
}

/// One more, or the low after the high.
fn round_about(builder: &mut Builder, variable: u16, low: i16, high: i16) -> Option<u16> {
    let more = step_by_one(builder, variable, 2)?;
    let low = builder.put([0, low as u16, 0, 0])?;
    let high = builder.put([0, high as u16, 0, 0])?;
    let last = builder.put([8, variable, high, 0])?;
    builder.put([7, last, low, more])
}

/// Entries from 0 to 1, each made of the two before it, as deep as it goes.
fn tower(builder: &mut Builder, random: &mut Random) -> Option<()> {
    let zero = builder.put([0, 0, 0, 0])?;
    let one = builder.put([0, 1, 0, 0])?;
    let mut bit = |builder: &mut Builder| {
        let variable = builder.put([1, random.below(builder.model.variables.len()) as u16, 0, 0])?;
        let below = builder.put([5, variable, one, 0])?;
        builder.put([6, below, zero, 0])
    };
    let mut before = bit(builder)?;
    let mut last = bit(builder)?;
    loop {
        let made = match random.below(5) {
            0 => builder.put([4, before, last, 0]),
            1 => builder.put([random.between(5, 6) as u16, last, before, 0]),
            2 => builder.put([3, one, last, 0]),
            _ => builder
                .put([random.between(8, 10) as u16, before, last, 0])
                .and_then(|truth| builder.put([7, truth, last, before])),
        };
        (before, last) = (last, made?);
    }
}
