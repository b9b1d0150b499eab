//! The builder by the words of the paper, and no faster than they are: after every single
//! repair the nodes are gone over again, from the first one.

use super::*;

/// The most rounds that may be asked for.
const ROUNDS: usize = 1_000;

/// The bytes of a graph's table of contents.
const TABLE: usize = *GRAPH_BYTES.start();

/// What is done while a graph is built, one after the other.
#[derive(Clone, Copy, Debug, PartialEq, Eq)]
pub enum Move {
    Covered {
        node: usize,
        cover: usize,
    },
    Target {
        node: usize,
    },
    /// The graph has this length from then on.
    Expanded {
        node: usize,
        length: usize,
    },
    /// The variables of a set are tracked, for the sake of a rule.
    Tracked {
        node: usize,
        rule: u32,
        set: u16,
    },
    Dropped {
        node: usize,
    },
    /// Nothing is done any more: by the next expansion the graph would have so many nodes
    /// and this length.
    Ended {
        node: usize,
        nodes: usize,
        length: usize,
    },
}

/// The edges of a node to be expanded: a command, and the state that each branch gives.
type Expansion = Vec<(usize, Vec<Vec<i16>>)>;

impl Node {
    /// A waiting node with an empty label.
    pub(super) fn waiting(concrete: Vec<i16>) -> Node {
        let label = vec![0; concrete.len()];
        Node { kind: Kind::Waiting, cover: 0, value: CERTAIN, tracked: 0, concrete, label, edges: 0..0 }
    }

    pub(super) fn track(&mut self, set: u16) {
        members(set).for_each(|v| self.label[v] = self.concrete[v]);
        self.tracked |= set;
    }
}

impl Model {
    /// The length of a graph of so many nodes, whose edges have so many fields.
    pub(super) fn length(&self, nodes: usize, fields: usize) -> usize {
        TABLE + nodes * (12 + 4 * self.variables.len()) + 2 * fields
    }

    /// Row 35, after the model's: a slice of this length, and so many rounds.
    pub(super) fn may_build(&self, rounds: usize, room: usize) -> Checked<()> {
        ensure(room >= self.length(1, 0), 35, 0)?;
        ensure(rounds <= ROUNDS, 35, 1)
    }

    /// What an expansion of a node gives, by the readings in its concrete label: enabled
    /// commands ascending, branches in order.
    fn expansion(&self, concrete: &[Reading]) -> Expansion {
        let number = |&entry: &usize| match concrete[entry] {
            // In the variable's range, by row 10.
            Reading::Number(number) => number as i16,
            _ => unreachable!("a number is assigned, and it is known in a concrete label"),
        };
        let state = |assigned: &Vec<usize>| assigned.iter().map(number).collect();
        let enabled = |command: &Command| concrete[command.guard] == Reading::Truth(true);
        let commands = self.commands.iter().enumerate().filter(|(_, command)| enabled(command));
        commands.map(|(place, command)| (place, command.assigned.iter().map(state).collect())).collect()
    }
}

fn put(bytes: &mut Vec<u8>, fields: impl IntoIterator<Item = u16>) {
    bytes.extend(fields.into_iter().flat_map(u16::to_le_bytes));
}

fn put_contents(bytes: &mut Vec<u8>, start: usize, length: usize) {
    bytes.extend([start as u32, length as u32].into_iter().flat_map(u32::to_le_bytes));
}

impl Graph {
    /// One waiting node, with the initial state.
    fn of_root(model: &Model) -> Graph {
        let initial = model.variables.iter().map(|variable| variable.initial).collect();
        Graph { nodes: vec![Node::waiting(initial)], edges: Vec::new(), successors: Vec::new() }
    }

    /// How many nodes the graph would have with an expansion more, and which length.
    fn size_with(&self, model: &Model, expansion: &Expansion) -> (usize, usize) {
        let branches: usize = expansion.iter().map(|(_, states)| states.len()).sum();
        let nodes = self.nodes.len() + branches;
        let fields = self.edges.len() + expansion.len() + self.successors.len() + branches;
        (nodes, model.length(nodes, fields))
    }

    /// Expands a node: a new one for each branch, in edge order.
    fn expand(&mut self, place: usize, expansion: Expansion) {
        let from = self.edges.len();
        for (command, states) in expansion {
            let first = self.successors.len();
            for state in states {
                self.successors.push(self.nodes.len() as u16);
                self.nodes.push(Node::waiting(state));
            }
            self.edges.push(Edge { command, successors: first..self.successors.len() });
        }
        self.nodes[place].kind = Kind::Expanded;
        self.nodes[place].edges = from..self.edges.len();
    }

    /// The folder.
    pub(super) fn bytes(&self) -> Vec<u8> {
        let [mut nodes, mut edges] = [Vec::new(), Vec::new()];
        for node in &self.nodes {
            let value = [node.value as u16, (node.value >> 16) as u16];
            put(&mut nodes, [node.kind as u16, node.cover as u16, value[0], value[1]]);
            put(&mut nodes, [node.edges.len() as u16, node.tracked]);
            put(&mut nodes, node.concrete.iter().chain(&node.label).map(|&value| value as u16));
            for edge in self.edges(node) {
                put(&mut edges, [edge.command as u16]);
                put(&mut edges, self.successors[edge.successors.clone()].iter().copied());
            }
        }
        let mut bytes = Vec::new();
        put_contents(&mut bytes, TABLE, nodes.len());
        put_contents(&mut bytes, TABLE + nodes.len(), edges.len());
        [bytes, nodes, edges].concat()
    }
}

/// What mends a broken rule of a node.
enum Repair {
    /// By the number of the rule.
    Track(u32, u16),
    Drop,
}

struct Building<'a> {
    model: &'a Model,
    /// The length of the lent slice.
    room: usize,
    graph: Graph,
    readings: Readings<'a>,
    moves: Vec<Move>,
}

impl<'a> Building<'a> {
    fn new(model: &'a Model, room: usize) -> Building<'a> {
        let (graph, readings) = (Graph::of_root(model), Readings::new(model));
        Building { model, room, graph, readings, moves: Vec::new() }
    }

    fn node(&self, place: usize) -> &Node {
        &self.graph.nodes[place]
    }

    /// Covers or expands the lowest-numbered waiting node, or makes it a target. Nothing if
    /// none waits, or by a limit.
    fn advance(&mut self) -> bool {
        let Some(node) = self.graph.nodes.iter().position(|node| node.kind == Kind::Waiting) else {
            return false;
        };
        match self.cover_for(node) {
            Some(cover) => self.cover(node, cover),
            None => return self.settle(node),
        }
        true
    }

    /// The lowest-numbered expanded or target node whose label contains the node's state.
    fn cover_for(&self, node: usize) -> Option<usize> {
        let state = &self.node(node).concrete;
        let covers =
            |cover: &Node| matches!(cover.kind, Kind::Expanded | Kind::Target) && cover.contains(state);
        self.graph.nodes.iter().position(covers)
    }

    fn cover(&mut self, node: usize, cover: usize) {
        self.graph.nodes[node].kind = Kind::Covered;
        self.graph.nodes[node].cover = cover;
        self.moves.push(Move::Covered { node, cover });
    }

    /// Makes a node that nothing covers a target or expands it, if no limit is passed.
    fn settle(&mut self, node: usize) -> bool {
        let mut concrete = Vec::new();
        let state = &self.node(node).concrete;
        self.model.read(|v| Some(state[v]), &mut concrete);
        if concrete[self.model.target] == Reading::Truth(true) {
            self.graph.nodes[node].kind = Kind::Target;
            self.moves.push(Move::Target { node });
            return true;
        }
        let expansion = self.model.expansion(&concrete);
        let (nodes, length) = self.graph.size_with(self.model, &expansion);
        if nodes > *NODES.end() || length > *GRAPH_BYTES.end() || length > self.room {
            self.moves.push(Move::Ended { node, nodes, length });
            return false;
        }
        self.graph.expand(node, expansion);
        self.moves.push(Move::Expanded { node, length });
        true
    }

    /// Repairs the first broken rule of the lowest node that has one, if any has.
    fn repair(&mut self) -> bool {
        let found = (0..self.graph.nodes.len()).find_map(|node| Some((node, self.broken(node)?)));
        let Some((node, repair)) = found else {
            return false;
        };
        match repair {
            Repair::Track(rule, set) => {
                self.graph.nodes[node].track(set);
                self.moves.push(Move::Tracked { node, rule, set });
            }
            Repair::Drop => {
                self.graph.nodes[node].kind = Kind::Waiting;
                self.graph.nodes[node].cover = 0;
                self.moves.push(Move::Dropped { node });
            }
        }
        true
    }

    /// What mends the first broken rule of a node.
    fn broken(&mut self, node: usize) -> Option<Repair> {
        match self.node(node).kind {
            Kind::Waiting => None,
            Kind::Expanded | Kind::Target => self.broken_reading(node),
            Kind::Covered => self.broken_cover(node),
        }
    }

    /// Rows 23 and 24.
    fn broken_cover(&self, node: usize) -> Option<Repair> {
        let node = self.node(node);
        let cover = self.node(node.cover);
        if !cover.contains(&node.concrete) {
            return Some(Repair::Drop);
        }
        let missing = cover.tracked & !node.tracked;
        (missing != 0).then_some(Repair::Track(24, missing))
    }

    /// Rows 19 and 21. No known reading breaks them: it is that of the concrete label.
    fn broken_reading(&mut self, node: usize) -> Option<Repair> {
        let Building { model, graph, readings, .. } = self;
        let node = &graph.nodes[node];
        readings.enter(node);
        let asked = model.asked(node.kind).map(|entry| (19, entry));
        let assigned = graph.edges(node).iter().flat_map(|edge| graph.branches(model, edge));
        let assigned = assigned.flat_map(|branch| branch.tracked()).map(|entry| (21, entry));
        let mut unknown =
            asked.chain(assigned).filter(|&(_, entry)| readings.read(entry, node) == Reading::Unknown);
        let (rule, entry) = unknown.next()?;
        let free = model.free(entry, node);
        let lowest = members(free).next().expect("what reads unknown mentions an untracked variable");
        Some(Repair::Track(rule, 1 << lowest))
    }

    /// One round over the nodes, upward and in place.
    fn round(&mut self) {
        for place in 0..self.graph.nodes.len() {
            let node = self.node(place);
            let value = match node.kind {
                Kind::Waiting | Kind::Target => node.value,
                Kind::Expanded => self.least(node),
                Kind::Covered => self.node(node.cover).value,
            };
            self.graph.nodes[place].value = value;
        }
    }

    /// The least value that the value rule allows an expanded node.
    fn least(&self, node: &Node) -> u32 {
        let value = |successor: usize| self.node(successor).value;
        let sums = self.graph.edges(node).iter().map(|edge| self.graph.weighed(self.model, edge, value));
        // At most S, as each value is and the weights total D.
        sums.max().unwrap_or(0).div_ceil(u64::from(self.model.total)) as u32
    }
}

impl Branch<'_> {
    /// What is assigned to the variables that the successor tracks, upward.
    fn tracked(self) -> Vec<usize> {
        let tracked = self.entries().filter(|&(v, _)| self.successor.label(v).is_some());
        tracked.map(|(_, entry)| entry).collect()
    }
}

/// The graph that is built in a slice of the length `room`, and all that is done to build it.
pub fn build_by_moves(model: &[u8], rounds: usize, room: usize) -> Result<(Vec<u8>, Vec<Move>), Refusal> {
    let model = Model::parse(model)?;
    model.may_build(rounds, room)?;
    let mut building = Building::new(&model, room);
    while building.advance() {
        while building.repair() {}
    }
    for _ in 0..rounds {
        building.round();
    }
    Ok((building.graph.bytes(), building.moves))
}

/// The builder: the graph that it leaves in a slice of the length `room`.
pub fn build(model: &[u8], rounds: usize, room: usize) -> Result<Vec<u8>, Refusal> {
    build_by_moves(model, rounds, room).map(|(bytes, _)| bytes)
}

/// The length that a slice needs for the first expansion, for the second and so on, of all
/// that are made in one of the length `room`, and of the one that is not.
pub fn lengths(model: &[u8], room: usize) -> Result<Vec<usize>, Refusal> {
    let length = |step| match step {
        Move::Expanded { length, .. } | Move::Ended { length, .. } => Some(length),
        _ => None,
    };
    build_by_moves(model, 0, room).map(|(_, moves)| moves.into_iter().filter_map(length).collect())
}
