//! What a graph that is refused with 19 or 21 has about it that decides the second
//! place, and what the readings of a graph are decided by, by name: the tests ask that
//! their inputs meet all of it.

use super::*;
use std::collections::BTreeSet;

/// Whether something is so of a refused node.
type Situation<T> = (&'static str, fn(&T) -> bool);

/// The reading of an entry in a node's label.
fn reading(model: &Model, node: &Node, entry: usize) -> Reading {
    let mut readings = Readings::new(model);
    readings.enter(node);
    readings.read(entry, node)
}

/// An expanded or target node that row 19 refuses.
struct Undecided<'a> {
    model: &'a Model,
    node: &'a Node,
    /// The three-way reading of every entry.
    label: Vec<Reading>,
    /// Of what is asked, in order, that which reads unknown.
    unknown: Vec<usize>,
}

impl<'a> Undecided<'a> {
    fn new(model: &'a Model, node: &'a Node) -> Undecided<'a> {
        let mut label = Vec::new();
        model.read(|v| node.label(v), &mut label);
        let unknown = |&entry: &usize| reading(model, node, entry) == Reading::Unknown;
        Undecided { model, node, label, unknown: model.asked(node.kind).filter(unknown).collect() }
    }

    fn reads_unknown(&self, entry: usize) -> bool {
        reading(self.model, self.node, entry) == Reading::Unknown
    }

    /// Whether a part is unknown to the three-way reading.
    fn part_unknown(&self, entry: usize) -> bool {
        self.label[entry] == Reading::Unknown
    }

    /// Whether the first that is unknown is a guard; or the target.
    fn by_guard(&self) -> bool {
        self.is(Kind::Expanded) && self.guards_unknown() > 0
    }

    fn by_target(&self) -> bool {
        !self.unknown.is_empty() && !self.by_guard()
    }

    fn is(&self, kind: Kind) -> bool {
        self.node.kind == kind
    }

    fn guards_unknown(&self) -> usize {
        self.model.commands.iter().filter(|command| self.reads_unknown(command.guard)).count()
    }

    fn first_guard_known(&self) -> bool {
        !self.reads_unknown(self.model.commands[0].guard)
    }

    fn wrong_target(&self) -> bool {
        reading(self.model, self.node, self.model.target) == Reading::Truth(self.is(Kind::Expanded))
    }

    /// Whether something is so of the first that is unknown.
    fn first(&self, holds: impl Fn(usize) -> bool) -> bool {
        self.unknown.first().is_some_and(|&entry| holds(entry))
    }

    fn missing(&self, entry: usize) -> impl Iterator<Item = usize> {
        members(self.model.free(entry, self.node))
    }

    fn lowest(&self, entry: usize) -> Option<usize> {
        self.missing(entry).next()
    }

    /// Whether a lower variable than that is mentioned, but tracked.
    fn lower_tracked(&self, entry: usize) -> bool {
        members(self.model.mentioned()[entry]).any(|v| Some(v) < self.lowest(entry))
    }

    /// Whether what is asked later is unknown for a lower variable.
    fn lower_later(&self, entry: usize) -> bool {
        self.unknown.iter().any(|&other| self.lowest(other) < self.lowest(entry))
    }

    /// Whether an entry mentions the variable by parts that are all unknown.
    fn lacks(&self, entry: usize, variable: usize) -> bool {
        let entries = &self.model.entries;
        let itself = matches!(entries[entry], Entry::Variable(v) if v == variable);
        let by_part = || entries[entry].parts().any(|part| self.lacks(part, variable));
        self.part_unknown(entry) && (itself || by_part())
    }

    /// Whether known parts alone mention the lowest variable that is missing.
    fn in_known_parts(&self, entry: usize) -> bool {
        self.lowest(entry).is_some_and(|lowest| !self.lacks(entry, lowest))
    }

    /// The variable that is met first, going from unknown entries to their first unknown
    /// parts.
    fn met_first(&self, entry: usize) -> Option<usize> {
        match self.model.entries[entry] {
            Entry::Variable(v) => Some(v),
            entry => self.met_first(entry.parts().find(|&part| self.part_unknown(part))?),
        }
    }
}

fn of_19<'a>() -> Vec<Situation<Undecided<'a>>> {
    vec![
        ("19: the first guard unknown", |n| n.by_guard() && !n.first_guard_known()),
        ("19: a later guard unknown", |n| n.by_guard() && n.first_guard_known()),
        ("19: more than one guard unknown", |n| n.by_guard() && n.guards_unknown() > 1),
        ("19: a guard and the target unknown", |n| n.by_guard() && n.reads_unknown(n.model.target)),
        ("19: a guard unknown and the target wrong", |n| n.by_guard() && n.wrong_target()),
        ("19: what is asked later lacks a lower variable", |n| n.first(|entry| n.lower_later(entry))),
        ("19: the target of an expanded node unknown", |n| n.by_target() && n.is(Kind::Expanded)),
        ("19: the target of a target node unknown", |n| n.by_target() && n.is(Kind::Target)),
        ("19: the target and a guard of a target node unknown", |n| {
            n.by_target() && n.is(Kind::Target) && n.guards_unknown() > 0
        }),
        ("19: an expanded node that is a target", |n| n.unknown.is_empty() && n.is(Kind::Expanded)),
        ("19: a target node that is none", |n| n.unknown.is_empty() && n.is(Kind::Target)),
        ("19: a target node that is none, with a guard unknown", |n| {
            n.unknown.is_empty() && n.is(Kind::Target) && n.guards_unknown() > 0
        }),
        ("19: more than one variable missing", |n| n.first(|entry| n.missing(entry).count() > 1)),
        ("19: a variable other than 0 missing", |n| n.first(|entry| n.lowest(entry) > Some(0))),
        ("19: a lower variable tracked", |n| n.first(|entry| n.lower_tracked(entry))),
        ("19: a higher variable met first", |n| n.first(|entry| n.met_first(entry) > n.lowest(entry))),
        ("19: a guard's lowest in known parts alone", |n| {
            n.by_guard() && n.first(|entry| n.in_known_parts(entry))
        }),
        ("19: a target's lowest in known parts alone", |n| {
            n.by_target() && n.first(|entry| n.in_known_parts(entry))
        }),
    ]
}

/// A branch of an expanded node that does not lead to its successor.
struct Fault {
    edge: usize,
    branch: usize,
    /// Variables, upward.
    concrete: Vec<usize>,
    label: Vec<usize>,
    /// Those of the label that read unknown.
    unknown: Vec<usize>,
}

impl Fault {
    fn by_concrete(&self) -> bool {
        !self.concrete.is_empty()
    }
}

/// The faults of a node that row 21 refuses, by edge and branch.
struct Astray(Vec<Fault>);

impl Astray {
    fn new(model: &Model, graph: &Graph, node: &Node) -> Astray {
        let [mut label, mut concrete] = [Vec::new(), Vec::new()];
        model.read(|v| node.label(v), &mut label);
        model.read(|v| Some(node.concrete[v]), &mut concrete);
        for entry in graph.assigned(model, node) {
            label[entry] = reading(model, node, entry);
        }
        let fault = |edge, at, branch: Branch| {
            let astray = |holds: &dyn Fn((usize, usize)) -> bool| {
                branch.entries().filter(|&entry| holds(entry)).map(|(v, _)| v).collect()
            };
            let wrong = |entry| !branch.label_follows(entry, &label);
            let unknown = |(v, entry)| wrong((v, entry)) && label[entry] == Reading::Unknown;
            Fault {
                edge,
                branch: at,
                concrete: astray(&|entry| !branch.concrete_follows(entry, &concrete)),
                label: astray(&wrong),
                unknown: astray(&unknown),
            }
        };
        let of_edge = |(at, edge)| {
            let branches = graph.branches(model, edge).enumerate();
            branches.map(move |(k, branch)| fault(at, k, branch)).collect::<Vec<_>>()
        };
        let all = graph.edges(node).iter().enumerate().flat_map(of_edge);
        Astray(all.filter(|fault| fault.by_concrete() || !fault.label.is_empty()).collect())
    }

    fn first(&self) -> &Fault {
        &self.0[0]
    }

    /// The variable that is given.
    fn by_label(&self) -> Option<usize> {
        if self.first().by_concrete() {
            return None;
        }
        self.first().label.first().copied()
    }

    fn later(&self, holds: impl Fn(&Fault) -> bool) -> bool {
        self.0[1..].iter().any(holds)
    }
}

fn of_21() -> Vec<Situation<Astray>> {
    vec![
        ("21: concrete label", |node| node.first().by_concrete()),
        ("21: concrete label, and every label value right", |node| {
            node.first().by_concrete() && node.first().label.is_empty()
        }),
        ("21: concrete label, and a lower variable's label", |node| {
            let Fault { concrete, label, .. } = node.first();
            !label.is_empty() && label.first() < concrete.first()
        }),
        ("21: a tracked variable unknown", |node| {
            node.by_label().is_some_and(|v| node.first().unknown.contains(&v))
        }),
        ("21: a tracked variable of another value", |node| {
            node.by_label().is_some_and(|v| !node.first().unknown.contains(&v))
        }),
        ("21: more than one tracked variable", |node| {
            node.by_label().is_some() && node.first().label.len() > 1
        }),
        ("21: a tracked variable other than 0", |node| node.by_label() > Some(0)),
        ("21: a tracked variable, and later a concrete label", |node| {
            node.by_label().is_some() && node.later(Fault::by_concrete)
        }),
        ("21: a tracked variable, and later a lower one", |node| {
            node.by_label()
                .is_some_and(|v| node.later(|fault| fault.label.first().is_some_and(|&other| other < v)))
        }),
        ("21: concrete label, and later a tracked variable", |node| {
            node.first().by_concrete() && node.later(|fault| !fault.by_concrete())
        }),
        ("21: on a later edge", |node| node.first().edge > 0),
        ("21: on a later branch", |node| node.first().branch > 0),
    ]
}

impl Graph {
    /// What the branches of a node assign to variables that are tracked where they lead.
    fn assigned(&self, model: &Model, node: &Node) -> BTreeSet<usize> {
        let branches = self.edges(node).iter().flat_map(|edge| self.branches(model, edge));
        let tracked = |branch: Branch| {
            let entries = branch.entries().filter(|&(v, _)| branch.successor.label(v).is_some());
            entries.map(|(_, entry)| entry).collect::<Vec<_>>()
        };
        branches.flat_map(tracked).collect()
    }
}

/// An entry that a rule asks for in some node, and that is unknown to the three-way reading.
struct Asked {
    assigned: bool,
    /// Whether it is the target.
    target: bool,
    /// Whether its combinations may all be tried.
    tried: bool,
    free: u32,
    reading: Reading,
}

/// All of them, in the nodes up to the one that is refused, and what is assigned only
/// before that one.
fn all_asked(model: &Model, graph: &Graph, refused: Option<usize>) -> Vec<Asked> {
    let mut all = Vec::new();
    let last = refused.unwrap_or(graph.nodes.len() - 1);
    for (place, node) in graph.nodes.iter().enumerate().take(last + 1) {
        if !matches!(node.kind, Kind::Expanded | Kind::Target) || !node.contains(&node.concrete) {
            continue;
        }
        let mut label = Vec::new();
        model.read(|v| node.label(v), &mut label);
        let ask = |entry: usize, assigned| {
            (label[entry] == Reading::Unknown).then(|| Asked {
                assigned,
                target: entry == model.target,
                tried: model.combinations(model.free(entry, node)).is_some(),
                free: model.free(entry, node).count_ones(),
                reading: reading(model, node, entry),
            })
        };
        all.extend(model.asked(node.kind).filter_map(|entry| ask(entry, false)));
        if Some(place) != refused {
            all.extend(graph.assigned(model, node).into_iter().filter_map(|entry| ask(entry, true)));
        }
    }
    all
}

fn of_readings() -> Vec<Situation<Asked>> {
    const YES: Reading = Reading::Truth(true);
    const NO: Reading = Reading::Truth(false);
    vec![
        ("reading: a guard true in all states", |a| !a.assigned && !a.target && a.reading == YES),
        ("reading: a guard false in all states", |a| !a.assigned && !a.target && a.reading == NO),
        ("reading: a target true in all states", |a| a.target && a.reading == YES),
        ("reading: a target false in all states", |a| a.target && a.reading == NO),
        ("reading: a new value the same in all states", |a| a.assigned && a.reading != Reading::Unknown),
        ("reading: the same by more than one variable", |a| a.free > 1 && a.reading != Reading::Unknown),
        ("reading: not the same in all states", |a| a.tried && a.reading == Reading::Unknown),
        ("reading: too many combinations", |a| !a.tried && a.reading == Reading::Unknown),
    ]
}

/// The names of all.
pub fn names() -> impl Iterator<Item = &'static str> {
    let of_21 = of_21().into_iter().map(|(name, _)| name);
    let of_readings = of_readings().into_iter().map(|(name, _)| name);
    of_19().into_iter().map(|(name, _)| name).chain(of_21).chain(of_readings)
}

fn held<T>(situations: Vec<Situation<T>>, of: &[T]) -> impl Iterator<Item = &'static str> + '_ {
    let met = move |(_, holds): &Situation<T>| of.iter().any(holds);
    situations.into_iter().filter(met).map(|(name, _)| name)
}

/// Those that a graph is in: none where it is refused before the rules of its nodes.
pub fn met(model: &[u8], graph: &[u8]) -> Vec<&'static str> {
    let refusal = graph_check(model, graph).err();
    if refusal.is_some_and(|refusal| refusal.number < 18) {
        return Vec::new();
    }
    let model = Model::parse(model).expect("rows 1 to 11 come before those of a node");
    let graph = Graph::parse(&model, graph).expect("rows 12 to 17 come before those of a node");
    let asked = all_asked(&model, &graph, refusal.map(|refusal| refusal.place));
    let mut met: Vec<_> = held(of_readings(), &asked).collect();
    match refusal {
        Some(Refusal { number: 19, place, .. }) => {
            met.extend(held(of_19(), &[Undecided::new(&model, &graph.nodes[place])]))
        }
        Some(Refusal { number: 21, place, .. }) => {
            met.extend(held(of_21(), &[Astray::new(&model, &graph, &graph.nodes[place])]))
        }
        _ => (),
    }
    met
}
