//! Inputs refused with 19 or 21, so that the second place matters: a node that tracks
//! too little or is of the wrong kind, or one that leads where its branches do not.

use super::data::*;
use super::mutate::choose;
use super::random::Random;
use super::{Input, Pair};

pub fn refused(random: &mut Random) -> Input {
    let change: fn(&mut Random, &mut Pair) -> bool = if random.once_in(2) { undecide } else { lead_astray };
    let mut pair = Pair::any(random);
    for _ in 0..60 {
        if change(random, &mut pair) {
            break;
        }
        pair = Pair::any(random);
    }
    pair.input(random, "second place")
}

/// Makes a target node expanded or the other way round, or lets it track less, or both.
/// Its value stays, so that nobody who leads to it is refused before it.
pub fn undecide(random: &mut Random, pair: &mut Pair) -> bool {
    let (kind, other) = if random.once_in(3) { (TARGET, EXPANDED) } else { (EXPANDED, TARGET) };
    let Some(place) = choose(&pair.graph, random, &|node| node.kind == kind) else {
        return false;
    };
    let node = &mut pair.graph.nodes[place];
    let way = random.below(4);
    if way < 2 {
        node.kind = other;
        node.edges.clear();
        node.edge_count = 0;
    }
    if way > 0 {
        let kept = if random.once_in(3) { 0 } else { random.bits() };
        (0..node.label.len()).filter(|v| kept >> v & 1 == 0).for_each(|v| node.untrack(v));
    }
    true
}

/// Lets some branches of a node lead to new nodes, which are like the old ones but for
/// some changes. They come last, so that none is refused before it.
pub fn lead_astray(random: &mut Random, pair: &mut Pair) -> bool {
    let Some(place) = choose(&pair.graph, random, &|node| node.edge_count > 0) else {
        return false;
    };
    for _ in 0..1 + random.below(3) {
        let new = pair.graph.nodes.len() as u16;
        let edges = &mut pair.graph.nodes[place].edges;
        let edge = random.below(edges.len());
        let branch = random.below(edges[edge].successors.len());
        let old = std::mem::replace(&mut edges[edge].successors[branch], new);
        let node = changed(random, &pair.model, &pair.graph.nodes[usize::from(old)]);
        pair.graph.nodes.push(node);
    }
    true
}

/// A node with some other concrete values and label values, or more variables tracked.
fn changed(random: &mut Random, model: &ModelData, node: &NodeData) -> NodeData {
    let mut node = node.clone();
    for _ in 0..1 + random.below(3) {
        let v = random.below(model.variables.len());
        let [low, high, _] = model.variables[v];
        let value = random.between(low.into(), high.into()) as i16;
        match random.below(5) {
            0 => node.concrete[v] = value,
            1 if node.tracks(v) => node.label[v] = value,
            2 => (0..model.variables.len()).for_each(|v| node.track(v)),
            _ => node.track(v),
        }
    }
    node
}
