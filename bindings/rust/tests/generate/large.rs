//! The largest inputs that are accepted, made to take as long as they can.

use super::data::*;
use super::models::{weights, Builder};
use super::random::Random;

/// A model and a graph for it, as bytes.
#[derive(Clone)]
pub struct Large {
    pub name: &'static str,
    pub model: Vec<u8>,
    pub graph: Vec<u8>,
    /// A state, a command enabled in it and a branch, for a step.
    pub state: Vec<i16>,
    pub command: usize,
    pub branch: usize,
}

/// The bytes of an edge of a command that has all the branches it may.
pub const LONGEST_EDGE: usize = 2 + 2 * MOST_BRANCHES;

/// For checks: 16 variables, 512 entries in 12 layers, each made of entries of the
/// layers before it, 64 commands of 16 branches with deep guards and deep assigned
/// entries, and 4,096 expanded nodes that track all variables, with as many edges
/// as there is room for. A walk that visits shared parts once per use, and not
/// once per node, does not end.
pub fn deep_check() -> Large {
    let mut random = Random::new(0x6465_6570);
    let groups = 12;
    let mut variables = vec![[0, 1, 0]; MOST_VARIABLES];
    variables[0] = [0, groups - 1, 0];
    let mut b = Builder::new(u16::MAX, variables);
    let put = |b: &mut Builder, record| b.put_anew(record).expect("room, depth and range are counted");

    let constants: Vec<u16> = (0..groups).map(|c| put(&mut b, [0, c as u16, 0, 0])).collect();
    let leaves: Vec<u16> = (0..MOST_VARIABLES as u16).map(|v| put(&mut b, [1, v, 0, 0])).collect();
    let (zero, one) = (constants[0], constants[1]);
    let chosen: Vec<u16> = constants.iter().map(|&c| put(&mut b, [8, leaves[0], c, 0])).collect();
    let mut truths = vec![put(&mut b, [14, 0, 0, 0])];
    let mut numbers = leaves[1..].to_vec();
    let mut below = Vec::new();
    // Layers 2 to 11: comparisons and ifs (now and then a product) of the layer
    // before, the ifs reading its comparisons.
    for _ in 2..MOST_DEPTH {
        let number = |k: usize| numbers[k % numbers.len()];
        let truth = |k: usize| truths[k % truths.len()];
        let shift = 1 + random.below(7);
        let compared = (0..13).map(|k| [8 + (k % 3) as u16, number(k), number(k + shift), 0]);
        let chosen = (0..16).map(|k| match k % 8 {
            7 => [4, number(k), number(k + shift), 0],
            _ => [7, truth(k), number(k), number(k + shift)],
        });
        let (compared, chosen): (Vec<_>, Vec<_>) = (compared.collect(), chosen.collect());
        truths = compared.into_iter().map(|record| put(&mut b, record)).collect();
        below = numbers;
        numbers = chosen.into_iter().map(|record| put(&mut b, record)).collect();
    }
    // Truths that always hold, guards that hold where variable 0 says so, a target
    // that never holds; entries that are always 0.
    let held: Vec<u16> =
        (0..MOST_COMMANDS).map(|k| put(&mut b, [10, below[k % below.len()], one, 0])).collect();
    let guards: Vec<u16> =
        (0..MOST_COMMANDS).map(|k| put(&mut b, [12, chosen[k % chosen.len()], held[k], 0])).collect();
    b.model.target = put(&mut b, [11, held[0], 0, 0]);
    let number = |k: usize| numbers[k % numbers.len()];
    let truth = |k: usize| truths[k % truths.len()];
    let zeros: Vec<u16> = (0..10).map(|k| put(&mut b, [5, number(k), zero, 0])).collect();
    let bits: Vec<u16> = (0..20).map(|k| put(&mut b, [7, truth(k), number(k), number(k + 5)])).collect();
    let mut groups_next = Vec::new();
    while b.model.entries.len() < MOST_ENTRIES {
        let k = groups_next.len();
        let (a, c) = (random.pick(&constants), random.pick(&constants));
        groups_next.push(put(&mut b, [7, truth(k), a, c]));
    }
    for guard in guards {
        let branches = weights(&mut random, u16::MAX, MOST_BRANCHES).into_iter().map(|weight| {
            let mut branch = vec![weight, random.pick(&groups_next)];
            branch.extend((1..6).map(|_| random.pick(&bits)));
            branch.extend(&zeros);
            branch
        });
        let branches = branches.collect();
        b.command(guard, branches);
    }
    let model = b.model;

    // All states of the first six variables, then more nodes for some of them.
    let mut states: Vec<Vec<i16>> = Vec::new();
    for number in 0..32 * groups {
        let mut state = vec![0; MOST_VARIABLES];
        state[0] = number / 32;
        for (v, value) in state.iter_mut().enumerate().take(6).skip(1) {
            *value = number >> (v - 1) & 1;
        }
        states.push(state);
    }
    let edges_of = |state: &[i16]| if state[0] < 4 { 6 } else { 5 };
    let mut room = GRAPH_BYTES - GRAPH_TABLE - MOST_NODES * (12 + 4 * MOST_VARIABLES);
    let mut of_node: Vec<usize> = (0..states.len()).collect();
    room -= of_node.iter().map(|&s| LONGEST_EDGE * edges_of(&states[s])).sum::<usize>();
    while of_node.len() < MOST_NODES {
        let spare = room - LONGEST_EDGE * 5 * (MOST_NODES - of_node.len());
        let many = spare >= LONGEST_EDGE;
        let state = if many { random.below(4 * 32) } else { random.below(8 * 32) + 4 * 32 };
        room -= LONGEST_EDGE * edges_of(&states[state]);
        of_node.push(state);
    }
    let mut nodes_of = vec![Vec::new(); states.len()];
    for (place, &state) in of_node.iter().enumerate() {
        nodes_of[state].push(place as u16);
    }
    let number_of = |state: &[i16]| {
        let bits = (1..6).map(|v| (state[v] as usize) << (v - 1)).sum::<usize>();
        32 * state[0] as usize + bits
    };
    let tables: Vec<Vec<i64>> = states.iter().map(|state| model.evaluate(state)).collect();
    let nodes = of_node.iter().map(|&state| {
        let mut node = NodeData::new(EXPANDED, CERTAIN, u16::MAX, &states[state]);
        for (command, &[guard, _]) in model.commands.iter().enumerate() {
            if tables[state][usize::from(guard)] == 1 {
                let successors = model.branches_of(command).iter().map(|branch| {
                    let next = model.next(&tables[state], branch);
                    random.pick(&nodes_of[number_of(&next)])
                });
                node.push_edge(command as u16, successors.collect());
            }
        }
        node
    });
    let graph = GraphData { nodes: nodes.collect() };
    Large {
        name: "deep check",
        model: model.bytes(),
        graph: graph.bytes(),
        state: model.initial(),
        command: 0,
        branch: MOST_BRANCHES - 1,
    }
}

/// For figures: 4,096 nodes, 7 edges of 16 branches each. Either every round
/// changes, for more rounds than may be asked for, or few do.
pub fn figures(changing: bool) -> Large {
    let mut random = Random::new(0x6669_6775 + u64::from(changing));
    let (groups, each, target) = (9u16, 7, 9u16);
    let mut b = Builder::new(u16::MAX, vec![[0, 9, 0]]);
    let put = |b: &mut Builder, record| b.put(record).expect("few and flat");
    let constants: Vec<u16> = (0..=9).map(|c| put(&mut b, [0, c, 0, 0])).collect();
    let variable = put(&mut b, [1, 0, 0, 0]);
    let at: Vec<u16> = constants.iter().map(|&c| put(&mut b, [8, variable, c, 0])).collect();
    b.model.target = at[usize::from(target)];
    for group in 0..groups {
        for k in 0..each {
            let mut weights = weights(&mut random, u16::MAX - 1, MOST_BRANCHES - 1);
            weights.insert(0, 1);
            let branches = weights.into_iter().enumerate().map(|(branch, weight)| {
                let next = if changing {
                    // One in 65,535 for most commands, and never for the rest.
                    if branch == 0 && k != 0 {
                        target
                    } else {
                        random.below(usize::from(groups)) as u16
                    }
                } else {
                    group + 1 + random.below(usize::from(target - group)) as u16
                };
                vec![weight, constants[usize::from(next)]]
            });
            let branches = branches.collect();
            b.command(at[usize::from(group)], branches);
        }
    }
    let model = b.model;
    let group_of: Vec<u16> = (0..MOST_NODES as u16)
        .map(|place| match place {
            0..=9 => place,
            _ => random.below(usize::from(groups)) as u16,
        })
        .collect();
    let mut nodes_of = vec![Vec::new(); 10];
    for (place, &group) in group_of.iter().enumerate() {
        nodes_of[usize::from(group)].push(place as u16);
    }
    let nodes = group_of.iter().map(|&group| {
        let kind = if group == target { TARGET } else { EXPANDED };
        let mut node = NodeData::new(kind, CERTAIN, 1, &[group as i16]);
        if kind == EXPANDED {
            for command in each * usize::from(group)..each * usize::from(group + 1) {
                // Constant c is entry c.
                let successors = model.branches_of(command).iter();
                let successors = successors.map(|branch| random.pick(&nodes_of[usize::from(branch[1])]));
                node.push_edge(command as u16, successors.collect());
            }
        }
        node
    });
    let graph = GraphData { nodes: nodes.collect() };
    Large {
        name: if changing { "figures that keep changing" } else { "figures that settle early" },
        model: model.bytes(),
        graph: graph.bytes(),
        state: model.initial(),
        command: 0,
        branch: 0,
    }
}
