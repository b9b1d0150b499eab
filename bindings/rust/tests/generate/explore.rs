//! A simple explorer: it expands states from the initial one, covers where a
//! label allows it, and tracks variables only until every reading that the rules
//! ask for is known.

use super::data::*;
use super::random::Random;
use std::collections::HashMap;

/// How a graph is to be explored.
#[derive(Clone, Debug)]
pub struct Plan {
    /// No more nodes than this; what is over is left waiting.
    pub nodes: usize,
    /// Once in so many times a node is left waiting; 0 for never.
    pub leave: usize,
    /// Once in so many times a node that could be covered is not.
    pub uncovered: usize,
    /// Once in so many times a state that is there already gets a node of its own.
    pub anew: usize,
    /// Once in so many times a new node tracks a variable that nobody asked for.
    pub extra: usize,
    /// What has no more combinations than this is read by all states, so that labels
    /// track less; 0 for three-way readings alone.
    pub combinations: u64,
    pub values: Values,
    /// Whether the nodes past the root change places.
    pub shuffle: bool,
}

/// How values are set; each way keeps the value rule.
#[derive(Clone, Copy, Debug, PartialEq, Eq)]
pub enum Values {
    /// Certainty everywhere.
    Certain,
    /// Upward from 0 to the least values that hold, certainty where that takes
    /// longer than so many rounds.
    Upward(usize),
    /// Downward from certainty, so many rounds.
    Downward(usize),
}

impl Plan {
    pub fn any(random: &mut Random) -> Plan {
        Plan {
            nodes: match random.below(100) {
                0 => 1_000,
                1..=12 => random.pick(&[1, 2, 5]),
                _ => random.pick(&[20, 40, 60, 100, 100]),
            },
            leave: random.pick(&[0, 0, 0, 0, 3, 15]),
            uncovered: random.pick(&[2, 4, 10, 1_000]),
            anew: random.pick(&[2, 3, 10]),
            extra: random.pick(&[4, 20, 1_000]),
            combinations: if random.once_in(200) { MOST_COMBINATIONS } else { random.pick(&[0, 4, 16, 64]) },
            values: match random.below(6) {
                0 => Values::Certain,
                1 => Values::Downward(random.below(30)),
                2 => Values::Upward(random.below(30)),
                _ => Values::Upward(1_000),
            },
            shuffle: random.once_in(2),
        }
    }
}

struct Draft {
    kind: u16,
    cover: usize,
    state: Vec<i16>,
    tracked: u16,
    edges: Vec<(u16, Vec<usize>)>,
    /// Who leads to it, or is covered by it.
    asked_by: Vec<usize>,
    /// Left waiting for good.
    left: bool,
}

impl Draft {
    /// Whether its label contains the state, the label agreeing with its own.
    fn contains(&self, state: &[i16]) -> bool {
        (0..state.len()).all(|v| self.tracked & 1 << v == 0 || self.state[v] == state[v])
    }
}

struct Explorer<'a> {
    model: &'a ModelData,
    mentioned: Vec<u16>,
    /// See `Plan`.
    combinations: u64,
    nodes: Vec<Draft>,
    places: HashMap<Vec<i16>, Vec<usize>>,
}

/// A graph that keeps every rule, for a model that does.
pub fn graph(random: &mut Random, model: &ModelData, plan: &Plan) -> GraphData {
    let mut explorer = Explorer {
        model,
        mentioned: model.mentioned(),
        combinations: plan.combinations,
        nodes: Vec::new(),
        places: HashMap::new(),
    };
    explorer.add(random, model.initial(), plan);
    // Whoever is uncovered waits again; so many turns are enough for any but the
    // oddest graph, and a graph may be left unfinished at any time.
    for _ in 0..20 * plan.nodes {
        let Some(node) = explorer.nodes.iter().position(|node| node.kind == WAITING && !node.left) else {
            break;
        };
        explorer.settle_one(random, node, plan);
    }
    explorer.finish(random, plan)
}

impl Explorer<'_> {
    fn add(&mut self, random: &mut Random, state: Vec<i16>, plan: &Plan) -> usize {
        let tracked =
            if random.once_in(plan.extra) { 1 << random.below(self.model.variables.len()) } else { 0 };
        let place = self.nodes.len();
        self.places.entry(state.clone()).or_default().push(place);
        self.nodes.push(Draft {
            kind: WAITING,
            cover: 0,
            state,
            tracked,
            edges: Vec::new(),
            asked_by: Vec::new(),
            left: false,
        });
        place
    }

    /// Covers or expands a waiting node, or leaves it.
    fn settle_one(&mut self, random: &mut Random, place: usize, plan: &Plan) {
        if plan.leave > 0 && random.once_in(plan.leave) {
            self.nodes[place].left = true;
            return;
        }
        let state = self.nodes[place].state.clone();
        let settled = |node: &Draft| node.kind == EXPANDED || node.kind == TARGET;
        let covers: Vec<usize> = (0..self.nodes.len())
            .filter(|&n| n != place && settled(&self.nodes[n]) && self.nodes[n].contains(&state))
            .collect();
        let values = self.model.evaluate(&state);
        if !covers.is_empty() && !random.once_in(plan.uncovered) {
            let cover = random.pick(&covers);
            self.nodes[place].kind = COVERED;
            self.nodes[place].cover = cover;
            self.nodes[cover].asked_by.push(place);
        } else if values[usize::from(self.model.target)] == 1 {
            self.nodes[place].kind = TARGET;
        } else {
            let enabled: Vec<usize> = (0..self.model.commands.len())
                .filter(|&command| values[usize::from(self.model.commands[command][0])] == 1)
                .collect();
            let wanted: usize = enabled.iter().map(|&command| self.model.branches_of(command).len()).sum();
            let room = plan.nodes.saturating_sub(self.nodes.len());
            let anew = room >= wanted;
            let mut edges = Vec::new();
            let mut asked = Vec::new();
            for &command in &enabled {
                for branch in self.model.branches_of(command) {
                    asked.push(self.model.next(&values, branch));
                }
            }
            if !anew {
                // Only what is there already may be led to.
                let missing = asked.iter().any(|state| !self.places.contains_key(state));
                if missing {
                    self.nodes[place].left = true;
                    return;
                }
            }
            let mut asked = asked.into_iter();
            for &command in &enabled {
                let count = self.model.branches_of(command).len();
                let mut successors = Vec::new();
                for state in asked.by_ref().take(count) {
                    let there = self.places.get(&state).cloned().unwrap_or_default();
                    let found = if there.is_empty() || anew && random.once_in(plan.anew) {
                        self.add(random, state, plan)
                    } else {
                        random.pick(&there)
                    };
                    self.nodes[found].asked_by.push(place);
                    successors.push(found);
                }
                edges.push((command as u16, successors));
            }
            self.nodes[place].kind = EXPANDED;
            self.nodes[place].edges = edges;
        }
        self.track(random, place);
    }

    /// Tracks more variables, from this node on, until every reading asked for is
    /// known, and uncovers what its cover no longer contains.
    fn track(&mut self, random: &mut Random, place: usize) {
        let mut open = vec![place];
        while let Some(place) = open.pop() {
            let node = &self.nodes[place];
            let tracked = match node.kind {
                EXPANDED => {
                    let mut asked = vec![self.model.target];
                    asked.extend(self.model.commands.iter().map(|&[guard, _]| guard));
                    for (command, successors) in &node.edges {
                        let branches = self.model.branches_of(usize::from(*command));
                        for (branch, &successor) in branches.iter().zip(successors) {
                            let tracked = self.nodes[successor].tracked;
                            let entries = branch[1..].iter().enumerate();
                            let entries = entries.filter(|(v, _)| tracked & 1 << v != 0);
                            asked.extend(entries.map(|(_, &entry)| entry));
                        }
                    }
                    self.grown(random, &node.state, node.tracked, &asked)
                }
                TARGET => self.grown(random, &node.state, node.tracked, &[self.model.target]),
                COVERED if self.nodes[node.cover].contains(&node.state) => {
                    node.tracked | self.nodes[node.cover].tracked
                }
                COVERED => {
                    self.nodes[place].kind = WAITING;
                    self.nodes[place].cover = 0;
                    continue;
                }
                _ => continue,
            };
            if tracked != node.tracked {
                open.extend(&node.asked_by);
                self.nodes[place].tracked = tracked;
                // Its own edges may lead back to it.
                open.push(place);
            }
        }
    }

    /// The tracked set with variables added until the entries asked for are known.
    fn grown(&self, random: &mut Random, state: &[i16], tracked: u16, asked: &[u16]) -> u16 {
        let mut tracked = tracked;
        loop {
            let table = self.model.read(state, tracked);
            let unknown = |&&entry: &&u16| {
                table[usize::from(entry)].is_none() && !self.same_in_all_states(entry, state, tracked)
            };
            let Some(&entry) = asked.iter().find(unknown) else {
                return tracked;
            };
            let missing = self.mentioned[usize::from(entry)] & !tracked;
            let choices: Vec<u16> = (0..16).filter(|v| missing & 1 << v != 0).collect();
            tracked |= 1 << random.pick(&choices);
        }
    }

    /// Whether an entry is, by as many combinations as may be tried.
    fn same_in_all_states(&self, entry: u16, state: &[i16], tracked: u16) -> bool {
        let free = self.mentioned[usize::from(entry)] & !tracked;
        self.model.combinations(free) <= self.combinations
            && self.model.read_by_all_states(entry, state, tracked).is_some()
    }

    fn finish(mut self, random: &mut Random, plan: &Plan) -> GraphData {
        self.cover_waiting(random);
        let count = self.nodes.len();
        let values = self.values(random, plan.values);
        let mut order: Vec<usize> = (0..count).collect();
        if plan.shuffle {
            for place in (2..count).rev() {
                order.swap(place, 1 + random.below(place));
            }
        }
        let mut places = vec![0; count];
        for (place, &node) in order.iter().enumerate() {
            places[node] = place as u16;
        }
        let nodes = order.iter().map(|&n| {
            let draft = &self.nodes[n];
            let mut node = NodeData::new(draft.kind, values[n], draft.tracked, &draft.state);
            if draft.kind == COVERED {
                node.cover = places[draft.cover];
            }
            for (command, successors) in &draft.edges {
                node.push_edge(*command, successors.iter().map(|&successor| places[successor]).collect());
            }
            node
        });
        GraphData { nodes: nodes.collect() }
    }

    /// Covers some of the nodes left waiting by others that wait.
    fn cover_waiting(&mut self, random: &mut Random) {
        let waiting: Vec<usize> = (0..self.nodes.len()).filter(|&n| self.nodes[n].kind == WAITING).collect();
        if waiting.len() < 2 {
            return;
        }
        let mut covers = Vec::new();
        for &n in &waiting {
            let cover = random.pick(&waiting);
            let free = cover != n && self.nodes[cover].kind == WAITING && !covers.contains(&n);
            let (node, by) = (&self.nodes[n], &self.nodes[cover]);
            // Only if the node tracks what its cover does, so that nobody who leads
            // to it has to track more.
            if free && by.contains(&node.state) && by.tracked & !node.tracked == 0 && random.once_in(2) {
                covers.push(cover);
                self.nodes[n].kind = COVERED;
                self.nodes[n].cover = cover;
            }
        }
    }

    fn values(&self, random: &mut Random, way: Values) -> Vec<u32> {
        let count = self.nodes.len();
        // A dead end may hold any value.
        let dead: Vec<u32> = (0..count)
            .map(|_| if random.once_in(10) { random.below(CERTAIN as usize + 1) as u32 } else { 0 })
            .collect();
        let held = |values: &[u32], n: usize| {
            let node = &self.nodes[n];
            match node.kind {
                EXPANDED if node.edges.is_empty() => dead[n],
                EXPANDED => {
                    let sums = node.edges.iter().map(|(command, successors)| {
                        let branches = self.model.branches_of(usize::from(*command));
                        let pairs = branches.iter().zip(successors);
                        pairs.map(|(branch, &m)| u64::from(branch[0]) * u64::from(values[m])).sum::<u64>()
                    });
                    let greatest = sums.max().unwrap_or(0);
                    let total = u64::from(self.model.total);
                    greatest.div_ceil(total) as u32
                }
                COVERED => values[node.cover],
                _ => CERTAIN,
            }
        };
        let round = |values: &[u32]| -> Vec<u32> { (0..count).map(|n| held(values, n)).collect() };
        match way {
            Values::Certain => vec![CERTAIN; count],
            Values::Downward(rounds) => (0..rounds).fold(vec![CERTAIN; count], |values, _| round(&values)),
            Values::Upward(rounds) => {
                let mut values = vec![0; count];
                for _ in 0..rounds {
                    let next = round(&values);
                    if next == values {
                        break;
                    }
                    values = next;
                }
                loop {
                    let next = round(&values);
                    let low: Vec<usize> = (0..count).filter(|&n| values[n] < next[n]).collect();
                    if low.is_empty() {
                        return values;
                    }
                    for n in low {
                        values[n] = CERTAIN;
                    }
                }
            }
        }
    }
}
