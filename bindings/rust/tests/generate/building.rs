//! Models for the builder: a few by hand, and random ones on which it has much to do.
//!
//! In these, a variable says which phase it is, and the others are carried along. What is
//! carried is asked for late: by then many nodes have been covered that differ in it, and
//! all of them are dropped.

use super::data::*;
use super::models::{self, weights, Builder, Shape};
use super::random::Random;
use super::readings::Entries;

impl Entries {
    pub fn and(&mut self, a: u16, b: u16) -> u16 {
        self.put([12, a, b, 0])
    }

    pub fn or(&mut self, a: u16, b: u16) -> u16 {
        self.put([13, a, b, 0])
    }

    pub fn add(&mut self, a: u16, b: u16) -> u16 {
        self.put([2, a, b, 0])
    }

    pub fn never(&mut self) -> u16 {
        let always = self.always();
        self.not(always)
    }

    /// All variables, as they are.
    pub fn unchanged(&mut self) -> Vec<u16> {
        (0..self.0.model.variables.len() as u16).map(|v| self.variable(v)).collect()
    }

    /// A state that differs from the old one in these variables alone, by their new values.
    pub fn changed(&mut self, changes: &[(u16, u16)]) -> Vec<u16> {
        let mut state = self.unchanged();
        changes.iter().for_each(|&(v, entry)| state[usize::from(v)] = entry);
        state
    }

    /// One more than a variable is, but no more than the end of its range.
    pub fn next(&mut self, v: u16) -> u16 {
        let (variable, one) = (self.variable(v), self.constant(1));
        let more = self.add(variable, one);
        self.fit(more, v)
    }

    pub fn fit(&mut self, entry: u16, v: u16) -> u16 {
        self.0.fit(entry, v.into()).expect("few, flat and narrow")
    }

    /// Appends a command with branches by weight and new state.
    pub fn command(&mut self, guard: u16, branches: Vec<(u16, Vec<u16>)>) {
        let record = |(weight, state): (u16, Vec<u16>)| [vec![weight], state].concat();
        self.0.command(guard, branches.into_iter().map(record).collect());
    }

    /// The same with branches by weight and what they change.
    pub fn command_by_changes(&mut self, guard: u16, branches: &[(u16, &[(u16, u16)])]) {
        let branches = branches.iter().map(|&(weight, changes)| (weight, self.changed(changes))).collect();
        self.command(guard, branches);
    }
}

// ------------------------------------------------------------------- by hand

/// A variable from 0 to 3 that goes up as long as it is below 3.
fn counter(initial: i16, target: i16) -> ModelData {
    let mut entries = Entries(Builder::new(2, vec![[0, 3, initial]]));
    let (counted, end) = (entries.variable(0), entries.constant(3));
    let below = entries.put([9, counted, end, 0]);
    let next = entries.next(0);
    entries.command(below, vec![(1, vec![next]), (1, vec![counted])]);
    entries.0.model.target = entries.variable_is(0, target);
    entries.0.model
}

/// The initial state is a target.
pub fn target_at_first() -> ModelData {
    counter(1, 1)
}

/// In the initial state no command is enabled.
pub fn dead_end_at_first() -> ModelData {
    counter(3, 2)
}

/// The node that drops out is number 2, and is then covered by node 5. Its variables are a
/// phase, a and b; states below are in this order.
///
/// - The root, (0,0,0), leads to 1: (1,0,0), 2: (1,1,0) and 3: (4,0,1). Node 1 is expanded
///   and tracks the phase alone, so that it covers 2; 3 is expanded.
/// - 4: (2,0,0), the child of 1, asks for b, and so does 1 from then on; 2 has the same b.
/// - 5: (1,0,1), the child of 3, has another b. It is expanded, and tracks the phase alone.
/// - 6: (3,0,0), the child of 4, asks for a, and so does 1: it cannot cover 2 any more, but
///   5 can.
/// - 7: (2,0,1), the child of 5, asks for b in turn, so that 2 drops out again.
pub fn covered_by_a_higher() -> ModelData {
    let mut entries = Entries(Builder::new(3, vec![[0, 4, 0], [0, 1, 0], [0, 1, 0]]));
    let phases: Vec<u16> = (0..5).map(|phase| entries.variable_is(0, phase)).collect();
    let numbers: Vec<u16> = (0..5).map(|c| entries.constant(c)).collect();
    let (a, b) = (entries.variable_is(1, 1), entries.variable_is(2, 1));
    let [zero, one, four] = [numbers[0], numbers[1], numbers[4]];
    let branches = [[one, zero, zero], [one, one, zero], [four, zero, one]];
    entries.command(phases[0], branches.map(|state| (1, state.to_vec())).to_vec());
    let not_b = entries.not(b);
    let with = [b, not_b].map(|b| entries.and(phases[2], b));
    for (guard, next) in [(phases[1], 2), (with[0], 3), (with[1], 3), (phases[4], 1)] {
        let state = entries.changed(&[(0, numbers[next])]);
        entries.command(guard, vec![(3, state)]);
    }
    entries.0.model.target = entries.and(phases[3], a);
    entries.0.model
}

/// A variable that goes up from 0, one node after the other, with so many branches each
/// time, among so many variables; the last state is a target if it is reached.
pub fn counting(end: i16, variables: usize, branches: u16) -> ModelData {
    let mut ranges = vec![[0, 1, 0]; variables];
    ranges[0] = [0, end, 0];
    let mut entries = Entries(Builder::new(branches, ranges));
    let always = entries.always();
    let next = entries.next(0);
    let state = entries.changed(&[(0, next)]);
    entries.command(always, vec![(1, state); branches.into()]);
    entries.0.model.target = entries.variable_is(0, end);
    entries.0.model
}

// -------------------------------------------------------------------- random

/// How a random model with phases is made.
struct Plan {
    phases: i16,
    /// In so many phases, the first ones, branches are many, set what is carried and ask for
    /// nothing.
    fans: i16,
    /// From these, half of the branches go through up to so many phases more, by which they
    /// come later to where the others go.
    detours: i16,
    /// Whether every later phase has two commands alone, of which one or the other is enabled.
    forks: bool,
    /// Commands of a phase, branches of a command: no more than these.
    commands: usize,
    branches: usize,
    /// Once in so many times a guard asks for what is carried; a branch changes it; and the
    /// next phase is any one.
    asks: usize,
    changes: usize,
    leaps: usize,
}

impl Plan {
    fn any(random: &mut Random) -> Plan {
        Plan {
            phases: random.between(2, 6) as i16,
            fans: random.between(0, 2) as i16,
            detours: random.between(0, 3) as i16,
            forks: random.once_in(4),
            commands: random.pick(&[1, 1, 2, 3]),
            branches: random.pick(&[1, 2, 3, 3]),
            asks: random.pick(&[1, 2, 3, 6]),
            changes: random.pick(&[2, 3, 5, 12, 100]),
            leaps: random.pick(&[3, 6, 20]),
        }
    }

    /// One fan, and from then on one phase after the other asks for something.
    fn asking(random: &mut Random) -> Plan {
        let (phases, detours) = (random.between(3, 5) as i16, random.between(1, 3) as i16);
        let (changes, leaps) = (random.pick(&[8, 100]), random.pick(&[10, 100]));
        Plan { phases, fans: 1, detours, forks: true, branches: 1, changes, leaps, ..Plan::any(random) }
    }
}

/// A random model with phases, while it is made.
struct Phased<'a> {
    random: &'a mut Random,
    plan: Plan,
    entries: Entries,
    /// The variable that is the phase.
    phase: u16,
}

impl Phased<'_> {
    fn any_carried(&mut self) -> u16 {
        let others = self.entries.0.model.variables.len() - 1;
        let v = self.random.below(others) as u16;
        v + u16::from(v >= self.phase)
    }

    /// A value in a variable's range.
    fn any_value(&mut self, v: u16) -> i16 {
        let [low, high, _] = self.entries.0.model.variables[usize::from(v)];
        self.random.between(low.into(), high.into()) as i16
    }

    fn compared(&mut self) -> u16 {
        let v = self.any_carried();
        let value = self.any_value(v);
        let (variable, constant) = (self.entries.variable(v), self.entries.constant(value));
        let other = self.any_carried();
        let other = self.entries.variable(other);
        match self.random.below(6) {
            0 => self.entries.put([9, variable, constant, 0]),
            1 => self.entries.put([10, constant, variable, 0]),
            2 => self.entries.put([8, variable, other, 0]),
            3 => {
                let sum = self.entries.add(variable, other);
                self.entries.put([10, sum, constant, 0])
            }
            _ => self.entries.put([8, variable, constant, 0]),
        }
    }

    /// A truth about what is carried. Now and then it mentions what does not matter.
    fn asked(&mut self) -> u16 {
        let (a, b) = (self.compared(), self.compared());
        match self.random.below(10) {
            0 => self.entries.and(a, b),
            1 => self.entries.or(a, b),
            2 => self.entries.not(a),
            3 => {
                let not = self.entries.not(b);
                let always = self.entries.or(b, not);
                self.entries.and(a, always)
            }
            4 => {
                let not = self.entries.not(b);
                self.entries.or(b, not)
            }
            _ => a,
        }
    }

    /// In a phase, and now and then something more.
    fn guard(&mut self, phase: i16) -> u16 {
        let here = self.entries.variable_is(self.phase, phase);
        if phase < self.plan.fans || !self.random.once_in(self.plan.asks) {
            return here;
        }
        let asked = self.asked();
        match self.random.below(6) {
            0 => self.entries.and(asked, here),
            1 => self.entries.or(here, asked),
            _ => self.entries.and(here, asked),
        }
    }

    fn next_phase(&mut self, phase: i16) -> u16 {
        let Plan { phases, fans, detours, leaps, .. } = self.plan;
        let next = if phase < fans && detours > 0 && self.random.once_in(2) {
            phases + self.random.between(1, detours.into()) as i16
        } else if self.random.once_in(leaps) {
            self.random.between(0, phases.into()) as i16
        } else {
            phase + 1
        };
        self.entries.constant(next)
    }

    /// From one phase of a detour to the one below, and from the lowest to where the last fan
    /// leads.
    fn detour(&mut self, phase: i16) {
        let Plan { phases, fans, .. } = self.plan;
        let next = if phase == phases + 1 { fans } else { phase - 1 };
        let (guard, next) = (self.entries.variable_is(self.phase, phase), self.entries.constant(next));
        let state = self.entries.changed(&[(self.phase, next)]);
        let total = self.entries.0.model.total;
        self.entries.command(guard, vec![(total, state)]);
    }

    /// A new value for a variable that is carried.
    fn change(&mut self, v: u16) -> u16 {
        let itself = self.entries.variable(v);
        let other = self.any_carried();
        let other = self.entries.variable(other);
        let made = match self.random.below(6) {
            0 | 1 => {
                let value = self.any_value(v);
                self.entries.constant(value)
            }
            2 => self.entries.next(v),
            3 => other,
            4 => {
                let truth = self.compared();
                let next = self.entries.next(v);
                self.entries.put([7, truth, itself, next])
            }
            _ => {
                let none = self.entries.put([3, other, other, 0]);
                self.entries.add(itself, none)
            }
        };
        self.entries.fit(made, v)
    }

    fn branch(&mut self, phase: i16) -> Vec<u16> {
        let mut state = self.entries.unchanged();
        let phase_variable = self.phase;
        for v in (0..state.len() as u16).filter(|&v| v != phase_variable) {
            if phase < self.plan.fans {
                let value = self.any_value(v);
                state[usize::from(v)] = self.entries.constant(value);
            } else if self.random.once_in(self.plan.changes) {
                state[usize::from(v)] = self.change(v);
            }
        }
        state[usize::from(self.phase)] = self.next_phase(phase);
        state
    }

    /// By something that is carried one command is enabled or the other; both go on.
    fn fork(&mut self, phase: i16) {
        let (here, asked) = (self.entries.variable_is(self.phase, phase), self.compared());
        for asked in [asked, self.entries.not(asked)] {
            let guard = self.entries.and(here, asked);
            self.command(phase, guard);
        }
    }

    fn commands(&mut self, phase: i16) {
        if self.plan.forks && phase >= self.plan.fans {
            return self.fork(phase);
        }
        for _ in 0..1 + self.random.below(self.plan.commands) {
            let guard = self.guard(phase);
            self.command(phase, guard);
        }
    }

    fn command(&mut self, phase: i16, guard: u16) {
        let total = self.entries.0.model.total;
        let most = if phase < self.plan.fans { 6 } else { self.plan.branches };
        let count = 1 + self.random.below(most.min(total.into()));
        let weights = weights(self.random, total, count);
        let branches = weights.into_iter().map(|weight| (weight, self.branch(phase))).collect();
        self.entries.command(guard, branches);
    }

    fn finish(mut self) -> ModelData {
        for phase in 0..self.plan.phases {
            self.commands(phase);
        }
        for phase in 1..=self.plan.detours {
            self.detour(self.plan.phases + phase);
        }
        let at_end = self.entries.variable_is(self.phase, self.plan.phases);
        let asked = self.asked();
        self.entries.0.model.target = match self.random.below(20) {
            0 => asked,
            1..=4 => at_end,
            5..=8 => self.entries.never(),
            _ => self.entries.and(at_end, asked),
        };
        self.entries.0.model
    }
}

fn carried(random: &mut Random) -> [i16; 3] {
    let low = random.between(-2, 1) as i16;
    let high = low + random.pick(&[0, 1, 1, 1, 2, 3, 5, 4_095, 4_096]);
    [low, high, random.between(low.into(), high.into()) as i16]
}

fn phased(random: &mut Random, plan: Plan) -> ModelData {
    let others = 1 + random.below(5);
    let phase = random.below(others + 1);
    let mut variables: Vec<[i16; 3]> = (0..others).map(|_| carried(random)).collect();
    variables.insert(phase, [0, plan.phases + plan.detours, 0]);
    let entries = Entries(Builder::new(random.pick(&[1, 2, 3, 7, 10, 1_000, u16::MAX]), variables));
    Phased { random, plan, entries, phase: phase as u16 }.finish()
}

/// A random model.
pub fn model(random: &mut Random) -> ModelData {
    match random.below(8) {
        0 => {
            let shape = Shape::small(random);
            models::model(random, &shape)
        }
        1 => {
            let shape = Shape::any(random);
            models::model(random, &shape)
        }
        2..=4 => {
            let plan = Plan::asking(random);
            phased(random, plan)
        }
        _ => {
            let plan = Plan::any(random);
            phased(random, plan)
        }
    }
}
