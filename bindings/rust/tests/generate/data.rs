//! Models and graphs as the fields of their folders, to be written to bytes.
//! Nothing here asks whether they keep any rule.

#[derive(Clone, Debug, PartialEq, Eq)]
pub struct ModelData {
    pub total: u16,
    pub target: u16,
    /// Low, high, initial.
    pub variables: Vec<[i16; 3]>,
    /// Operation and three fields.
    pub entries: Vec<[u16; 4]>,
    /// Guard, branch count.
    pub commands: Vec<[u16; 2]>,
    /// Weight, then an entry per variable.
    pub branches: Vec<Vec<u16>>,
}

#[derive(Clone, Debug, PartialEq, Eq)]
pub struct EdgeData {
    pub command: u16,
    pub successors: Vec<u16>,
}

#[derive(Clone, Debug, PartialEq, Eq)]
pub struct NodeData {
    pub kind: u16,
    pub cover: u16,
    pub value: u32,
    pub edge_count: u16,
    pub tracked: u16,
    pub concrete: Vec<i16>,
    pub label: Vec<i16>,
    pub edges: Vec<EdgeData>,
}

#[derive(Clone, Debug, PartialEq, Eq)]
pub struct GraphData {
    pub nodes: Vec<NodeData>,
}

pub const WAITING: u16 = 0;
pub const EXPANDED: u16 = 1;
pub const COVERED: u16 = 2;
pub const TARGET: u16 = 3;

pub const CERTAIN: u32 = 1_000_000_000;

// The limits, as the rules give them: a test compares the crate's own with these.
pub const MODEL_BYTES: usize = 40_000;
pub const GRAPH_BYTES: usize = 1_048_576;
pub const MOST_VARIABLES: usize = 16;
pub const MOST_ENTRIES: usize = 512;
pub const MOST_COMMANDS: usize = 64;
/// Of a command.
pub const MOST_BRANCHES: usize = 16;
pub const MOST_BRANCH_RECORDS: usize = 1_024;
pub const MOST_NODES: usize = 4_096;
pub const MOST_STEPS: usize = 10_000;
pub const SLOTS: usize = 8_192;
/// What stands for no node, in an empty slot or as an answer.
pub const NO_NODE: u16 = 65_535;
/// What stands for no variable, as the second place of a refusal.
pub const NO_VARIABLE: usize = 65_535;
pub const MOST_DEPTH: u32 = 12;
/// A variable's range lies within this and its negative.
pub const BOUND: i16 = 30_000;
/// A number's range lies within this and its negative.
pub const NUMBER_BOUND: i64 = 1_000_000;
/// No more combinations than these are tried for a reading.
pub const MOST_COMBINATIONS: u64 = 4_096;
pub const LAST_REFUSAL: u32 = 35;
/// The highest number of the calls that an `Input` has arguments for. The builder's own comes
/// after it.
pub const LAST_OF_INPUTS: u32 = 34;

/// The lengths of the tables of contents: no folder is shorter.
pub const MODEL_TABLE: usize = 8 * 5;
pub const GRAPH_TABLE: usize = 8 * 2;

fn put(bytes: &mut Vec<u8>, fields: impl IntoIterator<Item = u16>) {
    for field in fields {
        bytes.extend_from_slice(&field.to_le_bytes());
    }
}

/// A folder of bodies, its table of contents in front.
pub fn folder(bodies: &[Vec<u8>]) -> Vec<u8> {
    let mut bytes = Vec::new();
    let mut start = 8 * bodies.len() as u32;
    for body in bodies {
        bytes.extend_from_slice(&start.to_le_bytes());
        bytes.extend_from_slice(&(body.len() as u32).to_le_bytes());
        start += body.len() as u32;
    }
    for body in bodies {
        bytes.extend_from_slice(body);
    }
    bytes
}

impl ModelData {
    pub fn bodies(&self) -> Vec<Vec<u8>> {
        let mut bodies = vec![Vec::new(); 5];
        put(&mut bodies[0], [self.total, self.target]);
        put(&mut bodies[1], self.variables.iter().flatten().map(|&value| value as u16));
        put(&mut bodies[2], self.entries.iter().flatten().copied());
        put(&mut bodies[3], self.commands.iter().flatten().copied());
        put(&mut bodies[4], self.branches.iter().flatten().copied());
        bodies
    }

    pub fn bytes(&self) -> Vec<u8> {
        folder(&self.bodies())
    }

    /// The number of the first branch record of a command.
    pub fn first_branch(&self, command: usize) -> usize {
        self.commands[..command].iter().map(|&[_, count]| usize::from(count)).sum()
    }

    /// The branch records of a command.
    pub fn branches_of(&self, command: usize) -> &[Vec<u16>] {
        let first = self.first_branch(command);
        &self.branches[first..first + usize::from(self.commands[command][1])]
    }

    pub fn initial(&self) -> Vec<i16> {
        self.variables.iter().map(|&[_, _, initial]| initial).collect()
    }

    /// For each entry the variables that it mentions, its parts' among them.
    pub fn mentioned(&self) -> Vec<u16> {
        let mut sets: Vec<u16> = Vec::with_capacity(self.entries.len());
        for &[operation, a, b, c] in &self.entries {
            let part = |field: u16| sets[usize::from(field)];
            let set = match operation {
                0 | 14 => 0,
                1 => 1 << a,
                7 => part(a) | part(b) | part(c),
                11 => part(a),
                _ => part(a) | part(b),
            };
            sets.push(set);
        }
        sets
    }

    /// How many values a variable has.
    fn size(&self, variable: usize) -> u64 {
        let [low, high, _] = self.variables[variable];
        (i64::from(high) - i64::from(low) + 1) as u64
    }

    /// How many combinations the variables of a set have, or as many as a number holds.
    pub fn combinations(&self, set: u16) -> u64 {
        let variables = (0..self.variables.len()).filter(|&v| in_set(set, v));
        variables.fold(1, |product: u64, v| product.saturating_mul(self.size(v)))
    }

    /// An entry's reading in the state, where the variables of the set are known: its
    /// value, if that is the same whatever the others are that it mentions, as long as
    /// there are few enough combinations; else its three-way reading.
    pub fn read_by_all_states(&self, entry: u16, state: &[i16], tracked: u16) -> Option<i64> {
        let entry = usize::from(entry);
        let free = self.mentioned()[entry] & !tracked;
        if self.combinations(free) > MOST_COMBINATIONS {
            return self.read(state, tracked)[entry];
        }
        let value = self.evaluate(state)[entry];
        let mut other = state.to_vec();
        let same = |combination: u64| {
            let mut rest = combination;
            for v in (0..state.len()).filter(|&v| in_set(free, v)) {
                other[v] = self.variables[v][0] + (rest % self.size(v)) as i16;
                rest /= self.size(v);
            }
            self.evaluate(&other)[entry] == value
        };
        (0..self.combinations(free)).all(same).then_some(value)
    }

    /// Every entry's three-way reading in the state, where the variables of the set are
    /// known: a number, or a truth as 0 or 1. For a model that keeps its rules.
    pub fn read(&self, state: &[i16], tracked: u16) -> Vec<Option<i64>> {
        let mut table: Vec<Option<i64>> = Vec::with_capacity(self.entries.len());
        for &[operation, a, b, c] in &self.entries {
            let at = |field: u16| table[usize::from(field)];
            let two = |f: fn(i64, i64) -> i64| Some(f(at(a)?, at(b)?));
            let reading = match operation {
                0 => Some(i64::from(a as i16)),
                1 => (tracked & 1 << a != 0).then(|| i64::from(state[usize::from(a)])),
                2 => two(|x, y| x + y),
                3 => two(|x, y| x - y),
                4 => two(|x, y| x * y),
                5 => two(|x, y| if x < y { x } else { y }),
                6 => two(|x, y| if x < y { y } else { x }),
                7 => match (at(a), at(b), at(c)) {
                    (Some(truth), Some(yes), Some(no)) => Some(if truth == 1 { yes } else { no }),
                    _ => None,
                },
                8 => two(|x, y| i64::from(x == y)),
                9 => two(|x, y| i64::from(x < y)),
                10 => two(|x, y| i64::from(x <= y)),
                11 => at(a).map(|truth| 1 - truth),
                12 if at(a) == Some(0) || at(b) == Some(0) => Some(0),
                13 if at(a) == Some(1) || at(b) == Some(1) => Some(1),
                12 => two(|x, y| x * y),
                13 => two(|x, y| x + y),
                14 => Some(1),
                _ => None,
            };
            table.push(reading);
        }
        table
    }

    /// Every entry's value in the state.
    pub fn evaluate(&self, state: &[i16]) -> Vec<i64> {
        self.read(state, u16::MAX).into_iter().map(|reading| reading.unwrap_or(0)).collect()
    }

    /// The state that a branch record gives, from the entries' values.
    pub fn next(&self, values: &[i64], branch: &[u16]) -> Vec<i16> {
        branch[1..].iter().map(|&entry| values[usize::from(entry)] as i16).collect()
    }
}

/// Whether a set has the variable; none has one past the last bit.
fn in_set(set: u16, variable: usize) -> bool {
    variable < 16 && set >> variable & 1 == 1
}

impl NodeData {
    /// A node that tracks the set, its label agreeing with the state.
    pub fn new(kind: u16, value: u32, tracked: u16, concrete: &[i16]) -> NodeData {
        let label = |(v, &value): (usize, &i16)| if in_set(tracked, v) { value } else { 0 };
        NodeData {
            kind,
            cover: 0,
            value,
            edge_count: 0,
            tracked,
            concrete: concrete.to_vec(),
            label: concrete.iter().enumerate().map(label).collect(),
            edges: Vec::new(),
        }
    }

    pub fn push_edge(&mut self, command: u16, successors: Vec<u16>) {
        self.edges.push(EdgeData { command, successors });
        self.edge_count += 1;
    }

    pub fn tracks(&self, variable: usize) -> bool {
        in_set(self.tracked, variable)
    }

    /// Tracks a variable, the label agreeing with the state.
    pub fn track(&mut self, variable: usize) {
        self.tracked |= 1 << variable;
        self.label[variable] = self.concrete[variable];
    }

    pub fn untrack(&mut self, variable: usize) {
        self.tracked &= !(1 << variable);
        self.label[variable] = 0;
    }

    /// Whether the label contains the state.
    pub fn contains(&self, state: &[i16]) -> bool {
        (0..state.len()).all(|v| !self.tracks(v) || self.label[v] == state[v])
    }
}

impl GraphData {
    pub fn bodies(&self) -> Vec<Vec<u8>> {
        let mut bodies = vec![Vec::new(); 2];
        for node in &self.nodes {
            let value = [node.value as u16, (node.value >> 16) as u16];
            put(&mut bodies[0], [node.kind, node.cover, value[0], value[1], node.edge_count, node.tracked]);
            put(&mut bodies[0], node.concrete.iter().chain(&node.label).map(|&value| value as u16));
            for edge in &node.edges {
                put(&mut bodies[1], [edge.command]);
                put(&mut bodies[1], edge.successors.iter().copied());
            }
        }
        bodies
    }

    pub fn bytes(&self) -> Vec<u8> {
        folder(&self.bodies())
    }
}
