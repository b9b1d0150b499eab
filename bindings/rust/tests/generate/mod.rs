//! Inputs for the calls, each from a seed, the same on every machine: models and
//! graphs that keep every rule, nearly do, are damaged, or lie at the limits.
//!
//! Nothing here is taken from the reference or from the checker: the explorer
//! reads expressions in its own way.
#![allow(dead_code)]

pub mod building;
pub mod data;
pub mod explore;
pub mod filling;
pub mod hostile;
pub mod large;
pub mod limits;
pub mod models;
pub mod mutate;
pub mod products;
pub mod random;
pub mod readings;
pub mod seconds;
pub mod states;

use data::*;
use explore::Plan;
use models::Shape;
use random::Random;

/// The arguments of every call.
#[derive(Clone, Debug)]
pub struct Input {
    /// What sort of input it is.
    pub name: &'static str,
    pub model: Vec<u8>,
    pub graph: Vec<u8>,
    /// For the figure: steps, and the lengths of its two rows.
    pub h: usize,
    pub rows: [usize; 2],
    /// For the step: state, command, branch, and the length of the result row.
    pub state: Vec<i16>,
    pub command: usize,
    pub branch: usize,
    pub result: usize,
    /// For the view.
    pub body: usize,
    pub record: usize,
    /// For the index: the batch, and the rows for slots, answers and listing, each by
    /// its length and by what all its elements are before the call.
    pub batch: Vec<i16>,
    pub index_rows: [(usize, u16); 3],
}

/// What a row holds before a call, so that what stays can be seen to.
pub fn row_before(length: usize, salt: u32) -> Vec<u32> {
    (0..length as u32).map(|place| place.wrapping_mul(2_654_435_761) ^ salt).collect()
}

pub fn result_before(length: usize) -> Vec<i16> {
    (0..length as i32).map(|place| (place * 7_919 - 12_345) as i16).collect()
}

/// The rows before an index call.
pub fn index_before(rows: [(usize, u16); 3]) -> [Vec<u16>; 3] {
    rows.map(|(length, fill)| vec![fill; length])
}

/// The pedal example.
pub fn pedal() -> (ModelData, GraphData) {
    let model = ModelData {
        total: 10,
        target: 6,
        variables: vec![[0, 3, 0], [0, 1, 0]],
        entries: vec![
            [1, 0, 0, 0], // 0: a
            [1, 1, 0, 0], // 1: d
            [0, 2, 0, 0], // 2: 2
            [0, 0, 0, 0], // 3: 0
            [0, 3, 0, 0], // 4: 3
            [0, 1, 0, 0], // 5: 1
            [8, 0, 2, 0], // 6: a = 2
            [9, 0, 2, 0], // 7: a < 2
            [8, 0, 3, 0], // 8: a = 0
            [2, 0, 5, 0], // 9: a + 1
            [5, 9, 2, 0], // 10: smaller(a + 1, 2)
            [3, 5, 1, 0], // 11: 1 − d
        ],
        commands: vec![[7, 2], [8, 1]],
        branches: vec![vec![9, 4, 1], vec![1, 10, 1], vec![10, 0, 11]],
    };
    let node = |kind, value, state: [i16; 2]| NodeData::new(kind, value, 1, &state);
    let mut nodes = vec![
        node(EXPANDED, 10_000_000, [0, 0]),
        node(EXPANDED, 0, [3, 0]),
        node(EXPANDED, 100_000_000, [1, 0]),
        node(COVERED, 10_000_000, [0, 1]),
        node(COVERED, 0, [3, 0]),
        node(TARGET, CERTAIN, [2, 0]),
    ];
    nodes[0].push_edge(0, vec![1, 2]);
    nodes[0].push_edge(1, vec![3]);
    nodes[2].push_edge(0, vec![4, 5]);
    nodes[3].cover = 0;
    nodes[4].cover = 1;
    (model, GraphData { nodes })
}

/// D 3: the root goes with weight 1 to a target, with weight 2 to a dead end. The
/// root's value is the least that holds.
pub fn thirds() -> (ModelData, GraphData) {
    let model = ModelData {
        total: 3,
        target: 4,
        variables: vec![[0, 2, 0]],
        entries: vec![
            [1, 0, 0, 0], // 0: x
            [0, 0, 0, 0], // 1: 0
            [0, 1, 0, 0], // 2: 1
            [0, 2, 0, 0], // 3: 2
            [8, 0, 2, 0], // 4: x = 1
            [8, 0, 1, 0], // 5: x = 0
        ],
        commands: vec![[5, 2]],
        branches: vec![vec![1, 2], vec![2, 3]],
    };
    let mut nodes = vec![
        NodeData::new(EXPANDED, 333_333_334, 1, &[0]),
        NodeData::new(TARGET, CERTAIN, 1, &[1]),
        NodeData::new(EXPANDED, 0, 1, &[2]),
    ];
    nodes[0].push_edge(0, vec![1, 2]);
    (model, GraphData { nodes })
}

/// A model and a graph that keep every rule.
#[derive(Clone)]
pub struct Pair {
    pub model: ModelData,
    pub graph: GraphData,
}

impl Pair {
    pub fn any(random: &mut Random) -> Pair {
        if random.once_in(40) {
            let (model, graph) = if random.once_in(2) { pedal() } else { thirds() };
            return Pair { model, graph };
        }
        let shape = Shape::any(random);
        let plan = Plan::any(random);
        Pair::explored(random, &shape, &plan)
    }

    /// One whose best chances can be worked out state by state.
    pub fn small(random: &mut Random) -> Pair {
        let shape = Shape::small(random);
        let plan = Plan::any(random);
        Pair::explored(random, &shape, &plan)
    }

    pub fn explored(random: &mut Random, shape: &Shape, plan: &Plan) -> Pair {
        let model = models::model(random, shape);
        let graph = explore::graph(random, &model, plan);
        Pair { model, graph }
    }

    /// The arguments of the calls, now and then out of their limits.
    pub fn input(&self, random: &mut Random, name: &'static str) -> Input {
        let mut input = self.right_input(random, name);
        if random.once_in(12) {
            mutate::arguments(random, &mut input);
        }
        input
    }

    /// The arguments of the calls, in their limits; a guard may be false.
    pub fn right_input(&self, random: &mut Random, name: &'static str) -> Input {
        let nodes = self.graph.nodes.len();
        let variables = self.model.variables.len();
        let state = if random.once_in(2) {
            self.graph.nodes[random.below(nodes)].concrete.clone()
        } else {
            let within = |&[low, high, _]: &[i16; 3]| random.between(low.into(), high.into()) as i16;
            self.model.variables.iter().map(within).collect()
        };
        let values = self.model.evaluate(&state);
        let enabled: Vec<usize> = (0..self.model.commands.len())
            .filter(|&command| values[usize::from(self.model.commands[command][0])] == 1)
            .collect();
        let command = if enabled.is_empty() || random.once_in(10) {
            random.below(self.model.commands.len())
        } else {
            random.pick(&enabled)
        };
        let branch = random.below(self.model.branches_of(command).len());
        let batch = self.batch(random);
        let states = batch.len() / variables;
        let fill = random.pick(&[0, 1, 5, MOST_NODES as u16, NO_NODE]);
        let body = random.below(5);
        let records =
            [1, variables, self.model.entries.len(), self.model.commands.len(), self.model.branches.len()];
        Input {
            name,
            model: self.model.bytes(),
            graph: self.graph.bytes(),
            h: match random.below(80) {
                0 => MOST_STEPS,
                1 => random.below(2_000),
                2..=19 => random.below(100),
                _ => random.below(8),
            },
            rows: [nodes + random.below(4), nodes + random.below(4)],
            state,
            command,
            branch,
            result: variables + random.below(3),
            body,
            record: random.below(records[body]),
            batch,
            index_rows: [(SLOTS, fill), (states + random.below(4), fill), (nodes + random.below(4), fill)],
        }
    }

    /// A batch of states: those of nodes, with a value changed now and then, and any.
    fn batch(&self, random: &mut Random) -> Vec<i16> {
        let mut batch = Vec::new();
        for _ in 0..random.pick(&[0, 1, 3, 10]) {
            let mut state = self.graph.nodes[random.below(self.graph.nodes.len())].concrete.clone();
            let v = random.below(state.len());
            match random.below(6) {
                0 => state[v] = state[v].wrapping_add(1),
                1 => state[v] = random.pick(&[i16::MIN, -BOUND - 1, BOUND + 1, i16::MAX]),
                2 => state.fill_with(|| random.bits() as i16),
                _ => (),
            }
            batch.extend(state);
        }
        batch
    }
}

/// The input of a seed.
pub fn input(seed: u64) -> Input {
    let random = &mut Random::new(seed);
    match random.below(27) {
        0..=5 => Pair::any(random).input(random, "valid"),
        6 => states::shared(random).input(random, "few states"),
        7..=9 => mutate::near_model(random),
        10..=12 => mutate::near_graph(random),
        13..=16 => {
            let number = 1 + random.below(LAST_OF_INPUTS as usize) as u32;
            mutate::aimed(random, number)
        }
        17..=18 => mutate::damaged(random),
        19 => mutate::tiny(random),
        20..=22 => seconds::refused(random),
        _ => readings::input(random),
    }
}
