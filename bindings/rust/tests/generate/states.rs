//! Graphs of any concrete states, and states by the hash that an index takes of them.

use super::data::*;
use super::limits::plain;
use super::random::Random;
use super::Pair;
use std::collections::HashMap;

const START: u32 = 2_166_136_261;
const PRIME: u32 = 16_777_619;
/// Undoes a product with the prime, of which 32 bits are kept.
const INVERSE: u32 = 899_433_627;

fn step(hash: u32, byte: u8) -> u32 {
    (hash ^ u32::from(byte)).wrapping_mul(PRIME)
}

fn step_back(hash: u32, byte: u8) -> u32 {
    hash.wrapping_mul(INVERSE) ^ u32::from(byte)
}

/// The hash after more values.
fn hash_from(hash: u32, values: &[i16]) -> u32 {
    values.iter().flat_map(|value| value.to_le_bytes()).fold(hash, step)
}

fn hash(state: &[i16]) -> u32 {
    hash_from(START, state)
}

/// A graph that keeps every rule, of nodes with these kinds and concrete states: any
/// states in the widest ranges, and any kinds but expanded; the first is not covered.
pub fn of_states(nodes: &[(u16, Vec<i16>)]) -> Pair {
    let initial = &nodes[0].1;
    let mut model = plain(initial.len(), 3, 1, 1);
    model.variables = initial.iter().map(|&value| [-BOUND, BOUND, value]).collect();
    // Always true.
    model.target = 1;
    // A label that tracks nothing contains every state.
    let nodes = nodes.iter().map(|(kind, state)| NodeData::new(*kind, CERTAIN, 0, state));
    Pair { model, graph: GraphData { nodes: nodes.collect() } }
}

fn any_state(random: &mut Random, variables: usize) -> Vec<i16> {
    (0..variables).map(|_| random.pick(&[-BOUND, -256, -1, 0, 0, 1, 255, 256, BOUND])).collect()
}

/// A state whose first slot is this one, if one is found.
fn on_slot(random: &mut Random, variables: usize, slot: usize) -> Option<Vec<i16>> {
    let mut state = any_state(random, variables - 1);
    let hash = hash(&state);
    let first = random.between((-BOUND).into(), 0) as i16;
    let last = (first..=BOUND).find(|&last| hash_from(hash, &[last]) as usize % SLOTS == slot)?;
    state.push(last);
    Some(state)
}

/// A graph of few concrete states, which many nodes share. Most are in the last slots,
/// so that they are entered round the end.
pub fn shared(random: &mut Random) -> Pair {
    let variables = 1 + random.below(MOST_VARIABLES);
    let states: Vec<Vec<i16>> = (0..1 + random.below(12))
        .map(|_| {
            let slot = SLOTS - 1 - random.below(3);
            let found = if random.once_in(4) { None } else { on_slot(random, variables, slot) };
            found.unwrap_or_else(|| any_state(random, variables))
        })
        .collect();
    let nodes: Vec<_> = (0..1 + random.below(40))
        .map(|place| {
            let kinds = [WAITING, TARGET, COVERED, COVERED];
            let kind = random.pick(if place == 0 { &kinds[..2] } else { &kinds });
            (kind, states[random.below(states.len())].clone())
        })
        .collect();
    of_states(&nodes)
}

/// The most nodes, all waiting, of different states, and as many more such states that
/// are no node's.
pub struct Crowd {
    pub name: &'static str,
    pub pair: Pair,
    pub absent: Vec<Vec<i16>>,
}

impl Crowd {
    fn new(name: &'static str, mut states: Vec<Vec<i16>>) -> Crowd {
        let absent = states.split_off(MOST_NODES);
        let nodes: Vec<_> = states.into_iter().map(|state| (WAITING, state)).collect();
        Crowd { name, pair: of_states(&nodes), absent }
    }
}

/// States as they come.
pub fn spread() -> Crowd {
    let mut random = Random::new(0x7370_7265);
    let mut value = || random.between((-BOUND).into(), BOUND.into()) as i16;
    let mut state = || (0..MOST_VARIABLES).map(|_| value()).collect();
    Crowd::new("4,096 states as they come", (0..2 * MOST_NODES).map(|_| state()).collect())
}

/// All states have one first slot; they differ in the last two variables.
pub fn one_slot() -> Crowd {
    let begin = vec![-1; MOST_VARIABLES - 2];
    let hash = hash(&begin);
    let of = |first: i16| {
        let hash = hash_from(hash, &[first]);
        let there = move |last: &i16| hash_from(hash, &[*last]) as usize % SLOTS == SLOTS - 1;
        (-BOUND..=BOUND).filter(there).map(move |last| [first, last])
    };
    let ends = (-BOUND..=BOUND).flat_map(of).take(2 * MOST_NODES);
    Crowd::new("all states on one slot", ends.map(|end| [&begin[..], &end].concat()).collect())
}

/// All states have one hash; they differ in the last three variables.
pub fn one_hash() -> Crowd {
    let begin = vec![-1; MOST_VARIABLES - 3];
    let ends = ends_between(hash(&begin), 0, 2 * MOST_NODES).into_iter();
    Crowd::new("all states of one hash", ends.map(|end| [&begin[..], &end].concat()).collect())
}

/// Three values that lead from one hash to another, in so many ways.
fn ends_between(from: u32, to: u32, count: usize) -> Vec<[i16; 3]> {
    // Exclusive-or with the high byte of the second value changes the low byte of a hash
    // alone. So what there can be after it is found by the upper bits.
    let mut after: HashMap<u32, Vec<(u8, i16)>> = HashMap::new();
    for third in -BOUND..=BOUND {
        let [low, high] = third.to_le_bytes();
        let hash = step_back(step_back(to, high), low).wrapping_mul(INVERSE);
        after.entry(hash >> 8).or_default().push((hash as u8, third));
    }
    let of = |first: i16, low: u8| {
        let hash = step(hash_from(from, &[first]), low);
        let found = after.get(&(hash >> 8)).map_or(&[][..], Vec::as_slice).iter();
        found.map(move |&(byte, third)| [first, i16::from_le_bytes([low, hash as u8 ^ byte]), third])
    };
    let all = (-BOUND..=BOUND).flat_map(|first| (0..=u8::MAX).flat_map(move |low| of(first, low)));
    all.filter(|end| (-BOUND..=BOUND).contains(&end[1])).take(count).collect()
}
