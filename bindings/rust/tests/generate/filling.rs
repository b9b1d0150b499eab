//! Models whose graphs fill all the nodes that there may be: some that were made to keep a
//! builder busy, and some as they are in use.

use super::building::counting;
use super::data::*;
use super::hostile;
use super::models::Builder;
use super::random::Random;
use super::readings::Entries;

/// A model that is built as far as the nodes reach.
#[derive(Clone)]
pub struct Filling {
    pub name: &'static str,
    pub model: ModelData,
}

const BRANCHES: u16 = MOST_BRANCHES as u16;

/// One of the truths holds; no deeper than it has to be.
fn any(entries: &mut Entries, truths: &[u16]) -> u16 {
    match truths {
        [truth] => *truth,
        _ => {
            let (some, others) = truths.split_at(truths.len().div_ceil(2));
            let (a, b) = (any(entries, some), any(entries, others));
            entries.or(a, b)
        }
    }
}

/// Some variable from this one on has the highest value of its range. Where none has, that
/// is known only if all of them are tracked.
fn any_highest(entries: &mut Entries, from: usize) -> u16 {
    let ends: Vec<i16> = entries.0.model.variables.iter().map(|&[_, high, _]| high).collect();
    let highest = (from..ends.len()).map(|v| entries.variable_is(v as u16, ends[v])).collect::<Vec<_>>();
    any(entries, &highest)
}

/// Fills up the entries, so that all of them are read wherever one is. Nothing asks for
/// the new ones.
fn pad(entries: &mut Entries) {
    let mut last = entries.variable(0);
    let one = entries.constant(1);
    while entries.0.model.entries.len() < MOST_ENTRIES {
        let deeper = entries.0.put_anew([5, last, one, 0]);
        last = deeper.or_else(|| entries.0.put_anew([1, 0, 0, 0])).expect("there is room");
    }
}

/// Commands with one branch for each state; all weights but a command's first are 1.
fn spread(entries: &mut Entries, guard: u16, states: Vec<Vec<u16>>) {
    let total = entries.0.model.total;
    for states in states.chunks(MOST_BRANCHES) {
        let first = total - (states.len() as u16 - 1);
        let weights = [first].into_iter().chain(std::iter::repeat(1));
        entries.command(guard, weights.zip(states.iter().cloned()).collect());
    }
}

// ------------------------------------------------------------------- dropped

/// Phase 0, the root's, leads to `middle` nodes of phase 1, and each of these to 16 × `per` of
/// phase 2, with values of variables 1 to 3 that are never the highest.
fn fan_out(entries: &mut Entries, middle: i16, per: i16) {
    let numbers: Vec<u16> = (0..63).map(|c| entries.constant(c)).collect();
    let of = |c: i16| numbers[c as usize];
    let phases = [0, 1].map(|phase| entries.variable_is(0, phase));
    let first = (0..middle).map(|k| entries.changed(&[(0, of(1)), (1, of(k))])).collect();
    spread(entries, phases[0], first);
    let second = (0..per).flat_map(|a| (0..16).map(move |b| (a, b)));
    let second = second.map(|(a, b)| entries.changed(&[(0, of(2)), (2, of(a)), (3, of(b))])).collect();
    spread(entries, phases[1], second);
}

/// A phase asks for all variables, one after the other; nothing comes of it.
fn ask_all(entries: &mut Entries, phase: i16) {
    let (here, highest) = (entries.variable_is(0, phase), any_highest(entries, 1));
    let asked = entries.and(here, highest);
    let unchanged = entries.unchanged();
    spread(entries, asked, vec![unchanged]);
}

/// Many nodes are alike but for what they carry. The lowest of them is expanded, and covers
/// the others until its child asks for what is carried; then all the others are dropped, and
/// the next is expanded.
fn dropped(middle: i16, per: i16) -> ModelData {
    let mut entries = Entries(Builder::new(BRANCHES, vec![[0, 3, 0], [0, 63, 0], [0, 63, 0], [0, 16, 0]]));
    fan_out(&mut entries, middle, per);
    let (here, last) = (entries.variable_is(0, 2), entries.constant(3));
    let child = entries.changed(&[(0, last)]);
    spread(&mut entries, here, vec![child]);
    ask_all(&mut entries, 3);
    entries.0.model.target = entries.never();
    entries.0.model
}

/// The first variable is a phase, the last a number: each of the first phases multiplies it by
/// so many and adds less than that, so that all nodes of a phase have numbers of their own.
/// Others stand between the two, and are 0.
struct Numbered {
    entries: Entries,
    /// The last variable.
    carried: u16,
    numbers: Vec<u16>,
}

const TOP: i16 = BOUND;

/// No factor is greater.
const MOST_FACTOR: i16 = 65;

impl Numbered {
    fn new(phases: i16, others: u16) -> Numbered {
        let mut ranges = vec![[0, 1, 0]; usize::from(others) + 2];
        ranges[0] = [0, phases - 1, 0];
        ranges[usize::from(others) + 1] = [0, TOP, 0];
        let mut entries = Entries(Builder::new(64, ranges));
        let numbers = (0..=MOST_FACTOR).map(|c| entries.constant(c)).collect();
        Numbered { entries, carried: others + 1, numbers }
    }

    /// In a phase, by a guard that asks for the number.
    fn guard(&mut self, phase: i16) -> u16 {
        let (here, number) = (self.entries.variable_is(0, phase), self.entries.variable(self.carried));
        let any = self.entries.put([10, self.numbers[0], number, 0]);
        self.entries.and(here, any)
    }

    /// The phase leads to so many nodes for each of its own, in the phase that an entry says.
    fn multiply(&mut self, phase: i16, by: i16, next: u16) {
        let (entries, carried) = (&mut self.entries, self.carried);
        let (number, least) = (entries.variable(carried), entries.constant(TOP / by - 1));
        let held = entries.put([5, number, least, 0]);
        let product = entries.put([4, held, self.numbers[by as usize], 0]);
        let state = |entries: &mut Entries, k: i16| {
            let sum = entries.add(product, self.numbers[k as usize]);
            let sum = entries.fit(sum, carried);
            entries.changed(&[(0, next), (carried, sum)])
        };
        let states = (0..by).map(|k| state(entries, k)).collect();
        let guard = self.guard(phase);
        spread(&mut self.entries, guard, states);
    }

    /// From phase to phase, one for each factor.
    fn multiply_all(&mut self, factors: &[i16]) {
        for (phase, &factor) in factors.iter().enumerate() {
            let next = self.numbers[phase + 1];
            self.multiply(phase as i16, factor, next);
        }
    }

    /// The phase leads to another that has the same number, and that one asks for all variables,
    /// one after the other, the number last.
    fn ask_after(&mut self, phase: i16, next: i16) {
        let entries = &mut self.entries;
        let here = entries.variable_is(0, phase);
        let state = entries.changed(&[(0, self.numbers[next as usize])]);
        spread(entries, here, vec![state]);
        ask_all(entries, next);
    }

    fn finish(mut self) -> ModelData {
        self.entries.0.model.target = self.entries.never();
        self.entries.0.model
    }
}

/// A tree of dead ends: every node of a phase leads to so many of the next. All nodes of the
/// last phase but one are covered.
pub fn tree(factors: &[i16]) -> ModelData {
    let mut numbered = Numbered::new(factors.len() as i16 + 1, 0);
    numbered.multiply_all(factors);
    numbered.finish()
}

/// As `dropped`, with one number that is carried; the nodes that are alike come about in
/// steps. Whoever asks for the number asks for so many others before it, one after the
/// other, and by each of these all covered nodes are looked at again.
fn dropped_by_number(factors: &[i16], others: u16) -> ModelData {
    let last = factors.len() as i16;
    let mut numbered = Numbered::new(last + 2, others);
    numbered.multiply_all(factors);
    numbered.ask_after(last, last + 1);
    numbered.finish()
}

/// The same with two families of nodes that are alike, by whether their number is below
/// `half`. They are dropped in turns.
fn dropped_in_turns(factors: &[i16], half: i16) -> ModelData {
    let last = factors.len() as i16;
    let mut numbered = Numbered::new(last + 4, 0);
    let (number, half) = (numbered.entries.variable(numbered.carried), numbered.entries.constant(half));
    let low = numbered.entries.put([9, number, half, 0]);
    let families = [numbered.numbers[last as usize], numbered.numbers[last as usize + 1]];
    let family = numbered.entries.put([7, low, families[0], families[1]]);
    for (phase, &factor) in factors.iter().enumerate() {
        let next = if phase + 1 == factors.len() { family } else { numbered.numbers[phase + 1] };
        numbered.multiply(phase as i16, factor, next);
    }
    numbered.ask_after(last, last + 2);
    numbered.ask_after(last + 1, last + 3);
    numbered.finish()
}

// ------------------------------------------------------------------- tracked

/// A chain by variable 0. At its end the target asks for all other variables, one after the
/// other, and each goes back to the root. With `beside`, every node has a child more, which
/// it covers.
fn chain(length: i16, variables: usize, beside: bool) -> ModelData {
    let mut ranges = vec![[0, 1, 0]; variables];
    ranges[0] = [0, TOP, 0];
    let mut entries = Entries(Builder::new(2, ranges));
    let (counted, end) = (entries.variable(0), entries.constant(length));
    let below = entries.put([9, counted, end, 0]);
    let next = entries.next(0);
    let (onward, unchanged) = (entries.changed(&[(0, next)]), entries.unchanged());
    let branches = if beside { vec![(1, onward), (1, unchanged)] } else { vec![(2, onward)] };
    entries.command(below, branches);
    let at_end = entries.put([8, counted, end, 0]);
    let others = any_highest(&mut entries, 1);
    entries.0.model.target = entries.and(at_end, others);
    pad(&mut entries);
    entries.0.model
}

/// Many children, of few nodes, and every one of them asks for all 16 variables, one after the
/// other.
fn all_asked(middle: i16, per: i16) -> ModelData {
    let mut ranges = vec![[0, 1, 0]; MOST_VARIABLES];
    ranges[..4].copy_from_slice(&[[0, 2, 0], [0, 63, 0], [0, 63, 0], [0, 16, 0]]);
    let mut entries = Entries(Builder::new(BRANCHES, ranges));
    fan_out(&mut entries, middle, per);
    ask_all(&mut entries, 2);
    entries.0.model.target = entries.never();
    pad(&mut entries);
    entries.0.model
}

/// Eight variables from 0 to `most`; commands at random that copy, reset and count them.
fn at_random(most: i16, seed: u64) -> ModelData {
    let mut random = Random::new(seed);
    let variables = 8;
    let mut entries = Entries(Builder::new(8, vec![[0, most, 0]; variables]));
    let each = 0..variables as u16;
    let is: Vec<u16> =
        each.flat_map(|v| (0..=most).map(move |c| (v, c))).map(|(v, c)| entries.variable_is(v, c)).collect();
    for _ in 0..10 {
        let guard = any_guard(&mut entries, &mut random, &is);
        let count = 1 + random.below(3) as u16;
        let states = (0..count).map(|_| any_state(&mut entries, &mut random, most)).collect();
        spread(&mut entries, guard, states);
    }
    entries.0.model.target = entries.never();
    entries.0.model
}

fn any_guard(entries: &mut Entries, random: &mut Random, is: &[u16]) -> u16 {
    let [a, b, c] = [random.pick(is), random.pick(is), random.pick(is)];
    match random.below(3) {
        0 => {
            let both = entries.and(a, b);
            entries.not(both)
        }
        1 => entries.not(a),
        _ => {
            let both = entries.and(b, c);
            entries.or(a, both)
        }
    }
}

fn any_state(entries: &mut Entries, random: &mut Random, most: i16) -> Vec<u16> {
    let variables = entries.0.model.variables.len();
    let mut value = |v: u16| match random.below(10) {
        0..=5 => entries.variable(v),
        6 => entries.next(v),
        7 => entries.variable(random.below(variables) as u16),
        8 => entries.constant(random.below(most as usize + 1) as i16),
        _ => entries.next(random.below(variables) as u16),
    };
    (0..variables as u16).map(&mut value).collect()
}

// -------------------------------------------------------------------- in use

/// A coin that some processes share (Aspnes and Herlihy): each flips a coin of its own and
/// moves a counter by it, until the counter is near one of its ends.
fn shared_coin(processes: u16, bound: i16) -> ModelData {
    let range = 2 * (bound + 1) * processes as i16;
    let mut ranges = vec![[0, range, range / 2]];
    ranges.extend([[0, 3, 0], [0, 1, 0]].repeat(processes.into()));
    let mut entries = Entries(Builder::new(2, ranges));
    let [zero, one, two, three] = [0, 1, 2, 3].map(|c| entries.constant(c));
    let counter = entries.variable(0);
    let (down, up) = (entries.put([3, counter, one, 0]), entries.next(0));
    let down = entries.fit(down, 0);
    let [left, right] = [processes as i16, range - processes as i16].map(|end| entries.constant(end));
    let [at_left, at_right] = [entries.put([10, counter, left, 0]), entries.put([10, right, counter, 0])];
    let at_end = entries.or(at_left, at_right);
    let on = entries.not(at_end);
    for process in 0..processes {
        let (step, coin) = (1 + 2 * process, 2 + 2 * process);
        let at = [0, 1, 2].map(|c| entries.variable_is(step, c));
        let flipped = |side| [(step, one), (coin, side)];
        entries.command_by_changes(at[0], &[(1, &flipped(zero)), (1, &flipped(one))]);
        for (side, moved) in [(0, down), (1, up)] {
            let side = entries.variable_is(coin, side);
            let guard = entries.and(at[1], side);
            entries.command_by_changes(guard, &[(2, &[(0, moved), (step, two), (coin, zero)])]);
        }
        for (truth, next) in [(at_end, three), (on, zero)] {
            let guard = entries.and(at[2], truth);
            entries.command_by_changes(guard, &[(2, &[(step, next)])]);
        }
    }
    let done: Vec<u16> = (0..processes).map(|process| entries.variable_is(1 + 2 * process, 3)).collect();
    entries.0.model.target = done.into_iter().reduce(|a, b| entries.and(a, b)).expect("some process");
    entries.0.model
}

/// Tokens on a ring (Israeli and Jalfon): a scheduler picks one, which is passed to either
/// side; two that meet are one. The target is that there is none in the first half.
fn token_ring(places: u16) -> ModelData {
    let mut entries = Entries(Builder::new(2, vec![[0, 1, 1]; places.into()]));
    let [zero, one] = [0, 1].map(|c| entries.constant(c));
    for place in 0..places {
        let here = entries.variable_is(place, 1);
        let to = [(place + 1) % places, (place + places - 1) % places];
        let passed = to.map(|to| [(place, zero), (to, one)]);
        entries.command_by_changes(here, &[(1, &passed[0]), (1, &passed[1])]);
    }
    let held: Vec<u16> = (0..places / 2).map(|place| entries.variable_is(place, 0)).collect();
    entries.0.model.target = held.into_iter().reduce(|a, b| entries.and(a, b)).expect("some place");
    entries.0.model
}

/// A file that is sent in parts over two channels, which may lose a part and what acknowledges
/// it. The sender is ready, waits, is done or has given up; a channel is free, has something
/// or has lost it.
struct Sending {
    entries: Entries,
    /// The last part.
    last: i16,
    /// How often a part may be sent again.
    times: i16,
}

const SENDER: u16 = 0;
const PART: u16 = 1;
const SENT: u16 = 2;
/// The sender's bit, which is the other one with each part.
const BIT: u16 = 3;
const THERE: u16 = 4;
const BACK: u16 = 5;
/// The receiver's bit, and whether it has had the last part.
const SEEN: u16 = 6;
const HAD: u16 = 7;

impl Sending {
    fn new(last: i16, times: i16) -> Sending {
        let mut ranges = vec![[0, 3, 0], [1, last, 1], [0, times, 0]];
        ranges.extend([[0, 1, 0], [0, 2, 0], [0, 2, 0], [0, 1, 0], [0, 1, 0]]);
        Sending { entries: Entries(Builder::new(100, ranges)), last, times }
    }

    fn constants(&mut self) -> [u16; 4] {
        [0, 1, 2, 3].map(|c| self.entries.constant(c))
    }

    /// 0 for 1, and 1 for 0.
    fn other(&mut self, v: u16) -> u16 {
        let (one, variable) = (self.entries.constant(1), self.entries.variable(v));
        self.entries.put([3, one, variable, 0])
    }

    fn send(&mut self) {
        let [_, one, two, _] = self.constants();
        let ready = self.entries.variable_is(SENDER, 0);
        let sent = |to| [(SENDER, one), (THERE, to)];
        self.entries.command_by_changes(ready, &[(98, &sent(one)), (2, &sent(two))]);
    }

    /// Takes a part, if it is new, and acknowledges it.
    fn receive(&mut self) {
        let [zero, one, two, _] = self.constants();
        let arrived = self.entries.variable_is(THERE, 1);
        let [own, its, had] = [BIT, SEEN, HAD].map(|v| self.entries.variable(v));
        let (is_new, other) = (self.entries.put([8, own, its, 0]), self.other(SEEN));
        let seen = self.entries.put([7, is_new, other, its]);
        let is_last = self.entries.variable_is(PART, self.last);
        let had = self.entries.put([7, is_last, one, had]);
        let received = |to| [(THERE, zero), (BACK, to), (SEEN, seen), (HAD, had)];
        self.entries.command_by_changes(arrived, &[(99, &received(one)), (1, &received(two))]);
    }

    /// The next part, or none after the last.
    fn go_on(&mut self) {
        let [zero, _, two, _] = self.constants();
        let acknowledged = self.entries.variable_is(BACK, 1);
        let is_last = self.entries.variable_is(PART, self.last);
        let more = self.entries.not(is_last);
        let (next, other) = (self.entries.next(PART), self.other(BIT));
        let guard = self.entries.and(acknowledged, more);
        let changes = [(SENDER, zero), (PART, next), (SENT, zero), (BIT, other), (BACK, zero)];
        self.entries.command_by_changes(guard, &[(100, &changes)]);
        let guard = self.entries.and(acknowledged, is_last);
        self.entries.command_by_changes(guard, &[(100, &[(SENDER, two), (BACK, zero)])]);
    }

    /// What was lost is sent again, or the sender gives up.
    fn send_again(&mut self) {
        let [zero, _, _, three] = self.constants();
        let lost = [THERE, BACK].map(|channel| self.entries.variable_is(channel, 2));
        let lost = self.entries.or(lost[0], lost[1]);
        let often = self.entries.variable_is(SENT, self.times);
        let (not_often, again) = (self.entries.not(often), self.entries.next(SENT));
        let guard = self.entries.and(lost, not_often);
        self.entries.command_by_changes(
            guard,
            &[(100, &[(SENDER, zero), (SENT, again), (THERE, zero), (BACK, zero)])],
        );
        let guard = self.entries.and(lost, often);
        self.entries.command_by_changes(guard, &[(100, &[(SENDER, three), (THERE, zero), (BACK, zero)])]);
    }
}

/// The target: the sender has given up the last part, and cannot know whether it arrived.
fn sent_again(parts: i16, times: i16) -> ModelData {
    let mut sending = Sending::new(parts, times);
    sending.send();
    sending.receive();
    sending.go_on();
    sending.send_again();
    let mut entries = sending.entries;
    let (given_up, is_last) = (entries.variable_is(SENDER, 3), entries.variable_is(PART, parts));
    entries.0.model.target = entries.and(given_up, is_last);
    entries.0.model
}

/// Some converters that are scanned in turn, each of which may stop responding. The target:
/// an old reading is shown of one of them.
fn converters(count: u16, old: i16) -> ModelData {
    let mut ranges = vec![[0, count as i16 - 1, 0]];
    ranges.extend([[0, 1, 0], [0, old, 0]].repeat(count.into()));
    let mut entries = Entries(Builder::new(1_000, ranges));
    let [zero, one] = [0, 1].map(|c| entries.constant(c));
    let mut shown = Vec::new();
    for turn in 0..count {
        let (dead, age) = (1 + 2 * turn, 2 + 2 * turn);
        let here = entries.variable_is(0, turn as i16);
        let next = entries.constant(((turn + 1) % count) as i16);
        let (is_dead, older) = (entries.variable_is(dead, 1), entries.next(age));
        let alive = entries.not(is_dead);
        let guard = entries.and(here, alive);
        let fresh: &[(u16, u16)] = &[(0, next), (age, zero)];
        let stale: &[(u16, u16)] = &[(0, next), (age, older)];
        let died = [(0, next), (age, older), (dead, one)];
        entries.command_by_changes(guard, &[(997, fresh), (2, stale), (1, &died)]);
        let guard = entries.and(here, is_dead);
        let reset = [(0, next), (age, zero), (dead, zero)];
        entries.command_by_changes(guard, &[(900, stale), (100, &reset)]);
        shown.push(entries.variable_is(age, old));
    }
    entries.0.model.target = shown.into_iter().reduce(|a, b| entries.or(a, b)).expect("some converter");
    entries.0.model
}

// ----------------------------------------------------------------------- all

/// Models that were made to keep a builder busy.
pub fn hostile() -> Vec<Filling> {
    let named = |name, model| Filling { name, model };
    vec![
        named("dropped, from 3 nodes", dropped(3, 57)),
        named("dropped, from 2 nodes", dropped(2, 60)),
        named("dropped by a number", dropped_by_number(&[13, 14, 15], 0)),
        named("dropped by a number, 14 variables before it", dropped_by_number(&[13, 14, 15], 14)),
        named("dropped in turns", dropped_in_turns(&[13, 14, 15], 1_365)),
        named("a chain, 16 variables asked at its end", chain(4_095, MOST_VARIABLES, false)),
        named("a chain that covers beside it", chain(2_047, MOST_VARIABLES, true)),
        named("16 variables asked by each child", all_asked(5, 51)),
        named("16 variables asked, by 992 children each", all_asked(4, 62)),
        named("commands at random, 1", at_random(3, 1)),
        named("commands at random, 2", at_random(5, 2)),
    ]
}

/// The same sorts, of few nodes.
pub fn small() -> Vec<Filling> {
    let mut all = vec![
        Filling { name: "dropped", model: dropped(2, 1) },
        Filling { name: "dropped by a number", model: dropped_by_number(&[3, 4, 3], 0) },
        Filling { name: "dropped by a number, 6 before it", model: dropped_by_number(&[2, 4, 4], 6) },
        Filling { name: "dropped in turns", model: dropped_in_turns(&[3, 4, 3], 18) },
        Filling { name: "a chain", model: chain(40, MOST_VARIABLES, false) },
        Filling { name: "a chain that covers beside it", model: chain(30, 7, true) },
        Filling { name: "16 variables asked by each child", model: all_asked(2, 2) },
    ];
    all.extend((0..20).map(|seed| Filling { name: "commands at random", model: at_random(2, seed) }));
    all
}

/// Models as they are in use.
pub fn in_use() -> Vec<Filling> {
    let named = |name, model| Filling { name, model };
    vec![
        named("a coin that 4 processes share", shared_coin(4, 2)),
        named("tokens on a ring of 12", token_ring(12)),
        named("64 parts, sent again up to 5 times", sent_again(64, 5)),
        named("6 converters scanned in turn", converters(6, 4)),
        named("a counter", counting(BOUND, 1, 1)),
    ]
}

/// Chains in whose nodes all combinations of untracked variables are to be tried, for every
/// guard. These take long: whoever builds them bounds the nodes by the slice.
pub fn combinations() -> Vec<Filling> {
    vec![
        Filling { name: "one set of 12 variables", model: hostile::chain_of_one_set() },
        Filling { name: "many sets of 12 variables", model: hostile::chain_of_many_sets() },
    ]
}
