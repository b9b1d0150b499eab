//! The builder again, with the same answers, but without going over the nodes after every
//! repair. A repair of a node can break only rules of the node itself, of its parent, and
//! of the nodes that it covers: these are marked, and the lowest marked node is looked at
//! next. What is kept besides:
//!
//! - of a node's label, what its parent is known to read: a label only ever grows, so that
//!   what is known stays known;
//! - of a node that may wait, the number below which nothing can cover it: what does not
//!   contain its state now never will;
//! - of a node, those that it has covered.
//!
//! A built graph is a tree: every node but the root has one parent, and the children of a
//! node have consecutive numbers.

use super::*;

const MOST_VARIABLES: usize = *VARIABLES.end();

/// A set of nodes whose lowest member is found at once: a bit for each node, and one for
/// each word of these.
struct Set {
    words: Vec<u64>,
    filled: Vec<u64>,
}

/// The lowest bit that is set, from a place on.
fn next_bit(bits: &[u64], from: usize) -> Option<usize> {
    let first = bits.get(from / 64)? & u64::MAX << (from % 64);
    if first != 0 {
        return Some(from / 64 * 64 + first.trailing_zeros() as usize);
    }
    let mut rest = bits.iter().enumerate().skip(from / 64 + 1);
    rest.find(|(_, &word)| word != 0).map(|(place, word)| 64 * place + word.trailing_zeros() as usize)
}

impl Set {
    fn new() -> Set {
        let words = NODES.end().div_ceil(64);
        Set { words: vec![0; words], filled: vec![0; words.div_ceil(64)] }
    }

    fn insert(&mut self, node: usize) {
        self.words[node / 64] |= 1 << (node % 64);
        self.filled[node / 4_096] |= 1 << (node / 64 % 64);
    }

    fn remove(&mut self, node: usize) {
        self.words[node / 64] &= !(1 << (node % 64));
        if self.words[node / 64] == 0 {
            self.filled[node / 4_096] &= !(1 << (node / 64 % 64));
        }
    }

    /// The lowest member that is not below a number.
    fn lowest_from(&self, from: usize) -> Option<usize> {
        let bits = self.words.get(from / 64)? & u64::MAX << (from % 64);
        if bits != 0 {
            return Some(from / 64 * 64 + bits.trailing_zeros() as usize);
        }
        let word = next_bit(&self.filled, from / 64 + 1)?;
        Some(64 * word + self.words[word].trailing_zeros() as usize)
    }

    fn lowest(&self) -> Option<usize> {
        self.lowest_from(0)
    }
}

/// The labels of a node, to be compared all variables at a time.
#[derive(Clone, Copy)]
struct Labels {
    concrete: [i16; MOST_VARIABLES],
    /// All bits of a variable that is tracked.
    tracked: [i16; MOST_VARIABLES],
}

impl Labels {
    /// Whether the abstract label contains the other's concrete one.
    #[inline(always)]
    fn contain(&self, other: &Labels) -> bool {
        let differ = |v: usize| (self.concrete[v] ^ other.concrete[v]) & self.tracked[v];
        (0..MOST_VARIABLES).fold(0, |some, v| some | differ(v)) == 0
    }
}

// ------------------------------------------------------------------ readings

/// So many combinations are tried one at a time, before all of them are, many at a time:
/// what is not the same in all states most often differs in one of the first.
const TRIED_FIRST: usize = 8;

/// Reads entries in the labels of one node after the other.
struct Reader<'a> {
    model: &'a Model,
    ever_asked: Vec<bool>,
    /// What an entry uses, itself the last, once it is asked for.
    used: Vec<Option<Vec<usize>>>,
    /// The node's concrete label and its tracked set.
    state: [i16; MOST_VARIABLES],
    tracked: u16,
    /// By entry, its value in the concrete label, a truth as 0 or 1; and whether it reads known
    /// in the abstract label, by all states only once it was asked for.
    values: Vec<i32>,
    known: Vec<bool>,
    /// The values in another state of the label, as far as they are used.
    others: Vec<i32>,
}

/// The value of an entry in a state, from those of its parts.
#[inline(always)]
fn evaluate(entry: &Entry, values: &[i32], state: &[i16]) -> i32 {
    match *entry {
        Entry::Constant(c) => c.into(),
        Entry::Variable(v) => state[v].into(),
        Entry::Add(a, b) => values[a] + values[b],
        Entry::Subtract(a, b) => values[a] - values[b],
        Entry::Multiply(a, b) => values[a] * values[b],
        Entry::Smaller(a, b) => values[a].min(values[b]),
        Entry::Larger(a, b) => values[a].max(values[b]),
        Entry::If(a, b, c) => values[if values[a] == 1 { b } else { c }],
        Entry::Equal(a, b) => (values[a] == values[b]).into(),
        Entry::Less(a, b) => (values[a] < values[b]).into(),
        Entry::AtMost(a, b) => (values[a] <= values[b]).into(),
        Entry::Not(a) => 1 - values[a],
        Entry::And(a, b) => values[a] & values[b],
        Entry::Or(a, b) => values[a] | values[b],
        Entry::True => 1,
    }
}

impl<'a> Reader<'a> {
    fn new(model: &'a Model) -> Reader<'a> {
        let entries = model.entries.len();
        Reader {
            model,
            ever_asked: model.ever_asked(),
            used: vec![None; entries],
            state: [0; MOST_VARIABLES],
            tracked: 0,
            values: vec![0; entries],
            known: vec![false; entries],
            others: vec![0; entries],
        }
    }

    /// Goes to a concrete label alone.
    fn enter_state(&mut self, state: &[i16; MOST_VARIABLES]) {
        self.state = *state;
        for (place, entry) in self.model.entries.iter().enumerate() {
            self.values[place] = evaluate(entry, &self.values, state);
        }
    }

    /// Goes to a node: values and three-way readings of all entries.
    fn enter(&mut self, state: &[i16; MOST_VARIABLES], tracked: u16) {
        self.state = *state;
        self.tracked = tracked;
        for (place, entry) in self.model.entries.iter().enumerate() {
            self.values[place] = evaluate(entry, &self.values, state);
            self.known[place] = self.is_known(entry);
        }
    }

    /// Whether the three-way reading of an entry is known, by that of its parts.
    #[inline(always)]
    fn is_known(&self, entry: &Entry) -> bool {
        let known = |part: usize| self.known[part];
        let settles = |part: usize, value: i32| self.known[part] & (self.values[part] == value);
        match *entry {
            Entry::Constant(_) | Entry::True => true,
            Entry::Variable(v) => self.tracked >> v & 1 == 1,
            Entry::Not(a) => known(a),
            Entry::If(a, b, c) => known(a) & known(b) & known(c),
            Entry::And(a, b) => known(a) & known(b) | settles(a, 0) | settles(b, 0),
            Entry::Or(a, b) => known(a) & known(b) | settles(a, 1) | settles(b, 1),
            Entry::Add(a, b)
            | Entry::Subtract(a, b)
            | Entry::Multiply(a, b)
            | Entry::Smaller(a, b)
            | Entry::Larger(a, b)
            | Entry::Equal(a, b)
            | Entry::Less(a, b)
            | Entry::AtMost(a, b) => known(a) & known(b),
        }
    }

    fn free(&self, entry: usize) -> u16 {
        self.model.mentioned()[entry] & !self.tracked
    }

    fn reads_known(&mut self, entry: usize) -> bool {
        if !self.known[entry] {
            self.widen(entry);
        }
        self.known[entry]
    }

    /// Reads by all states an entry that is unknown, and with it what else is unknown for the
    /// same variables and may be asked.
    fn widen(&mut self, entry: usize) {
        let free = self.free(entry);
        let Some(combinations) = self.model.combinations(free) else {
            return;
        };
        if self.differs_soon(entry, free, combinations) {
            return;
        }
        let model = self.model;
        let alike = |&other: &usize| self.ever_asked[other] && self.free(other) == free && !self.known[other];
        let alike = (0..self.known.len()).filter(alike).collect();
        for entry in unchanging(model, &self.readings(), (free, combinations), entry, alike) {
            self.known[entry] = true;
        }
    }

    /// The readings in the concrete label.
    fn readings(&self) -> Vec<Reading> {
        let reading = |(entry, &value): (&Entry, &i32)| match entry.is_number() {
            true => Reading::Number(value),
            false => Reading::Truth(value == 1),
        };
        self.model.entries.iter().zip(&self.values).map(reading).collect()
    }

    /// Whether an entry has another value than in the concrete label in one of the first
    /// combinations.
    fn differs_soon(&mut self, entry: usize, free: u16, combinations: usize) -> bool {
        let Reader { model, used, values, others, .. } = self;
        let used = used[entry].get_or_insert_with(|| model.used_by(entry));
        used.iter().for_each(|&part| others[part] = values[part]);
        let mut state = self.state;
        members(free).for_each(|v| state[v] = model.variables[v].low);
        (0..combinations.min(TRIED_FIRST)).any(|_| {
            for &part in used.iter().filter(|&&part| model.mentioned()[part] & free != 0) {
                others[part] = evaluate(&model.entries[part], others, &state);
            }
            model.advance(&mut state, free);
            others[entry] != values[entry]
        })
    }
}

impl Model {
    /// What an entry uses, upward, itself the last.
    fn used_by(&self, entry: usize) -> Vec<usize> {
        let mut used = vec![false; entry + 1];
        used[entry] = true;
        for place in (0..=entry).rev() {
            if used[place] {
                self.entries[place].parts().for_each(|part| used[part] = true);
            }
        }
        (0..=entry).filter(|&place| used[place]).collect()
    }

    /// Goes to the next combination of a set, in a state.
    fn advance(&self, state: &mut [i16; MOST_VARIABLES], set: u16) {
        for v in members(set) {
            let Variable { low, high, .. } = self.variables[v];
            if state[v] < high {
                state[v] += 1;
                return;
            }
            state[v] = low;
        }
    }
}

// ------------------------------------------------------------------ building

/// What is kept of a node besides its labels, its kind and its cover.
struct Work<'a> {
    parent: usize,
    /// What the branch that leads to it assigns.
    assigned: &'a [usize],
    tracked: u16,
    /// The variables of its label that its parent is known to read.
    seen: u16,
    /// What it has covered; it may have lost some.
    covered: Vec<u16>,
    children: Range<usize>,
    /// Its enabled commands.
    commands: Vec<usize>,
}

struct Building<'a> {
    model: &'a Model,
    /// The length of the lent slice.
    room: usize,
    /// By node.
    labels: Vec<Labels>,
    kinds: Vec<Kind>,
    covers: Vec<u16>,
    work: Vec<Work<'a>>,
    /// By node: none below this can cover it.
    from: Vec<u16>,
    /// The fields of all edges.
    fields: usize,
    reader: Reader<'a>,
    waiting: Set,
    /// Nodes that may have a broken rule.
    marked: Set,
    /// Nodes with more in their label than is seen.
    unseen: Set,
    /// The node that was expanded or became a target last, as long as row 19 may ask for
    /// more there, and of how much that it asks for the reading is known.
    fresh: Option<(usize, usize)>,
}

impl<'a> Building<'a> {
    fn new(model: &'a Model, room: usize) -> Building<'a> {
        let mut building = Building {
            model,
            room,
            labels: Vec::new(),
            kinds: Vec::new(),
            covers: Vec::new(),
            work: Vec::new(),
            from: Vec::new(),
            fields: 0,
            reader: Reader::new(model),
            waiting: Set::new(),
            marked: Set::new(),
            unseen: Set::new(),
            fresh: None,
        };
        let mut initial = [0; MOST_VARIABLES];
        initial.iter_mut().zip(&model.variables).for_each(|(value, variable)| *value = variable.initial);
        building.enter(0, &[], initial);
        building
    }

    /// Appends a waiting node with an empty label.
    fn enter(&mut self, parent: usize, assigned: &'a [usize], concrete: [i16; MOST_VARIABLES]) {
        self.waiting.insert(self.kinds.len());
        self.labels.push(Labels { concrete, tracked: [0; MOST_VARIABLES] });
        self.kinds.push(Kind::Waiting);
        self.covers.push(0);
        self.from.push(0);
        self.work.push(Work {
            parent,
            assigned,
            tracked: 0,
            seen: 0,
            covered: Vec::new(),
            children: 0..0,
            commands: Vec::new(),
        });
    }

    /// Covers or expands the lowest waiting node, or makes it a target. Nothing if none
    /// waits, or by a limit.
    fn advance(&mut self) -> bool {
        let Some(node) = self.waiting.lowest() else {
            return false;
        };
        match self.cover_for(node) {
            Some(cover) => self.cover(node, cover),
            None => return self.settle(node),
        }
        true
    }

    fn cover_for(&self, node: usize) -> Option<usize> {
        let labels = &self.labels[node];
        let covers = |&cover: &usize| {
            matches!(self.kinds[cover], Kind::Expanded | Kind::Target) && self.labels[cover].contain(labels)
        };
        (usize::from(self.from[node])..self.kinds.len()).find(covers)
    }

    fn cover(&mut self, node: usize, cover: usize) {
        self.kinds[node] = Kind::Covered;
        self.covers[node] = cover as u16;
        self.from[node] = cover as u16;
        self.work[cover].covered.push(node as u16);
        self.waiting.remove(node);
        self.marked.insert(node);
    }

    /// Makes a node that nothing covers a target or expands it, if no limit is passed.
    fn settle(&mut self, node: usize) -> bool {
        self.reader.enter_state(&self.labels[node].concrete);
        if self.reader.values[self.model.target] == 1 {
            self.kinds[node] = Kind::Target;
        } else if !self.expand(node) {
            return false;
        }
        self.waiting.remove(node);
        self.marked.insert(node);
        self.fresh = Some((node, 0));
        true
    }

    fn expand(&mut self, node: usize) -> bool {
        let model = self.model;
        let enabled = |&command: &usize| self.reader.values[model.commands[command].guard] == 1;
        let commands: Vec<usize> = (0..model.commands.len()).filter(enabled).collect();
        let branches: usize = commands.iter().map(|&command| model.commands[command].assigned.len()).sum();
        let nodes = self.kinds.len() + branches;
        let fields = self.fields + commands.len() + branches;
        let length = model.length(nodes, fields);
        if nodes > *NODES.end() || length > self.room.min(*GRAPH_BYTES.end()) {
            return false;
        }
        self.fields = fields;
        self.kinds[node] = Kind::Expanded;
        self.work[node].children = self.kinds.len()..nodes;
        for assigned in commands.iter().flat_map(|&command| &model.commands[command].assigned) {
            let mut state = [0; MOST_VARIABLES];
            // In their variables' ranges, by row 10.
            assigned.iter().zip(&mut state).for_each(|(&e, value)| *value = self.reader.values[e] as i16);
            self.enter(node, assigned, state);
        }
        self.work[node].commands = commands;
        true
    }

    /// Repairs what is broken, always the lowest node first; then the node that was fresh
    /// may cover those that nothing lower can.
    fn repair_all(&mut self) {
        let new = self.fresh.map(|(node, _)| node);
        while let Some(node) = self.marked.lowest() {
            self.repair(node);
        }
        let Some(new) = new else {
            return;
        };
        let labels = self.labels[new];
        for (from, node) in self.from.iter_mut().zip(&self.labels) {
            if usize::from(*from) > new && labels.contain(node) {
                *from = new as u16;
            }
        }
    }

    /// Repairs the first broken rule of a marked node. Without one it is not marked any more.
    fn repair(&mut self, node: usize) {
        match self.kinds[node] {
            Kind::Waiting => self.marked.remove(node),
            Kind::Expanded | Kind::Target => match self.unknown(node) {
                Some(entry) => {
                    let free = self.reader.free(entry);
                    self.track(node, free & free.wrapping_neg());
                }
                None => self.marked.remove(node),
            },
            Kind::Covered => self.repair_covered(node),
        }
    }

    fn repair_covered(&mut self, node: usize) {
        let cover = usize::from(self.covers[node]);
        let missing = self.work[cover].tracked & !self.work[node].tracked;
        if !self.labels[cover].contain(&self.labels[node]) {
            self.kinds[node] = Kind::Waiting;
            self.covers[node] = 0;
            self.waiting.insert(node);
            self.marked.remove(node);
        } else if missing != 0 {
            self.track(node, missing);
        } else {
            self.marked.remove(node);
        }
    }

    /// Tracks a set in a node, and marks those of which a rule may be broken by it.
    fn track(&mut self, node: usize, set: u16) {
        let Building { labels, kinds, covers, work, marked, .. } = self;
        members(set).for_each(|v| labels[node].tracked[v] = -1);
        work[node].tracked |= set;
        marked.insert(node);
        if node != 0 {
            self.unseen.insert(node);
            marked.insert(work[node].parent);
        }
        work[node].covered.retain(|&other| {
            let other = usize::from(other);
            let kept = kinds[other] == Kind::Covered && usize::from(covers[other]) == node;
            if kept {
                marked.insert(other);
            }
            kept
        });
    }

    /// The lowest child of a node that has more in its label than is seen.
    fn unseen_child(&self, node: usize) -> Option<usize> {
        let Range { start, end } = self.work[node].children;
        self.unseen.lowest_from(start).filter(|&child| child < end)
    }

    /// What an expanded or target node is asked and reads unknown, the first by rows 19 and
    /// 21. What was found to be known is not asked again.
    fn unknown(&mut self, node: usize) -> Option<usize> {
        let known = self.fresh.filter(|&(fresh, _)| fresh == node).map(|(_, known)| known);
        if known.is_none() && self.unseen_child(node).is_none() {
            return None;
        }
        self.reader.enter(&self.labels[node].concrete, self.work[node].tracked);
        if let Some(known) = known {
            let unknown = self.unknown_guard(node, known);
            self.fresh = unknown.map(|(known, _)| (node, known));
            if let Some((_, entry)) = unknown {
                return Some(entry);
            }
        }
        while let Some(child) = self.unseen_child(node) {
            if let Some(entry) = self.unknown_for(child) {
                return Some(entry);
            }
            self.unseen.remove(child);
        }
        None
    }

    /// The first of what row 19 asks that reads unknown, and how much comes before it, where
    /// so much is known.
    fn unknown_guard(&mut self, node: usize, known: usize) -> Option<(usize, usize)> {
        let mut asked = self.model.asked(self.kinds[node]).enumerate().skip(known);
        asked.find(|&(_, entry)| !self.reader.reads_known(entry))
    }

    /// What reads unknown of that which is assigned to the variables of a child's label.
    fn unknown_for(&mut self, child: usize) -> Option<usize> {
        let child = &mut self.work[child];
        for v in members(child.tracked & !child.seen) {
            let entry = child.assigned[v];
            if !self.reader.reads_known(entry) {
                return Some(entry);
            }
            child.seen |= 1 << v;
        }
        None
    }

    /// The values after so many rounds over the nodes, or after one that changes nothing.
    fn values(&self, rounds: usize) -> Vec<u32> {
        let mut values = vec![CERTAIN; self.kinds.len()];
        for _ in 0..rounds {
            let mut changed = false;
            for node in 0..values.len() {
                let value = match self.kinds[node] {
                    Kind::Waiting | Kind::Target => CERTAIN,
                    Kind::Covered => values[usize::from(self.covers[node])],
                    Kind::Expanded => self.least(node, &values),
                };
                changed |= value != values[node];
                values[node] = value;
            }
            if !changed {
                break;
            }
        }
        values
    }

    /// The least value that the value rule allows an expanded node.
    fn least(&self, node: usize, values: &[u32]) -> u32 {
        let mut children = values[self.work[node].children.clone()].iter();
        let sum = |&command: &usize| -> u64 {
            let weights = self.model.commands[command].weights.iter();
            weights.zip(children.by_ref()).map(|(&weight, &value)| u64::from(weight) * u64::from(value)).sum()
        };
        let greatest = self.work[node].commands.iter().map(sum).max().unwrap_or(0);
        // At most S, as each value is and the weights total D.
        greatest.div_ceil(u64::from(self.model.total)) as u32
    }

    fn finish(self, rounds: usize) -> Graph {
        let mut graph = Graph { nodes: Vec::new(), edges: Vec::new(), successors: Vec::new() };
        for (node, value) in self.values(rounds).into_iter().enumerate() {
            let concrete = self.labels[node].concrete[..self.model.variables.len()].to_vec();
            let mut record = Node { value, kind: self.kinds[node], ..Node::waiting(concrete) };
            record.cover = self.covers[node].into();
            record.track(self.work[node].tracked);
            record.edges = self.write_edges(node, &mut graph);
            graph.nodes.push(record);
        }
        graph
    }

    fn write_edges(&self, node: usize, graph: &mut Graph) -> Range<usize> {
        let Work { children, commands, .. } = &self.work[node];
        let (from, mut first) = (graph.edges.len(), graph.successors.len());
        graph.successors.extend(children.clone().map(|child| child as u16));
        for &command in commands {
            let end = first + self.model.commands[command].assigned.len();
            graph.edges.push(Edge { command, successors: first..end });
            first = end;
        }
        from..graph.edges.len()
    }
}

/// The builder: the graph that it leaves in a slice of the length `room`.
pub fn build(model: &[u8], rounds: usize, room: usize) -> Result<Vec<u8>, Refusal> {
    let model = Model::parse(model)?;
    model.may_build(rounds, room)?;
    let mut building = Building::new(&model, room);
    while building.advance() {
        building.repair_all();
    }
    Ok(building.finish(rounds).bytes())
}
