//! Inputs that break rules: one field changed, damaged bytes, and a way to break
//! each rule, by the number of its refusal.

use super::data::*;
use super::random::Random;
use super::{Input, Pair};

/// Another value for a field.
fn tweak(random: &mut Random, field: u16) -> u16 {
    let other = match random.below(9) {
        0 | 1 => field.wrapping_add(1),
        2 | 3 => field.wrapping_sub(1),
        4 => 0,
        5 => random.pick(&[0x7fff, 0x8000, 0xffff, 0xff, 0x100]),
        6 => field ^ 1 << random.below(16),
        7 => random.below(20) as u16,
        _ => random.bits() as u16,
    };
    if other == field {
        field.wrapping_add(1)
    } else {
        other
    }
}

fn tweak_signed(random: &mut Random, field: &mut i16) {
    *field = tweak(random, *field as u16) as i16;
}

fn tweak_field(random: &mut Random, field: &mut u16) {
    *field = tweak(random, *field);
}

fn any_of<'a, T>(random: &mut Random, list: &'a mut [T]) -> &'a mut T {
    let place = random.below(list.len());
    &mut list[place]
}

/// A valid pair with one field of the model changed, or one record too many, too
/// few or moved.
pub fn near_model(random: &mut Random) -> Input {
    let mut pair = Pair::any(random);
    let input = pair.input(random, "model nearly valid");
    let model = &mut pair.model;
    match random.below(16) {
        0 => tweak_field(random, &mut model.total),
        1 => tweak_field(random, &mut model.target),
        2..=4 => {
            let field = random.below(3);
            let variable = any_of(random, &mut model.variables);
            tweak_signed(random, &mut variable[field]);
        }
        5..=8 => {
            let field = random.below(4);
            let entry = any_of(random, &mut model.entries);
            if field == 0 {
                entry[0] = random.below(16) as u16;
            } else {
                tweak_field(random, &mut entry[field]);
            }
        }
        9..=10 => {
            let field = random.below(2);
            let command = any_of(random, &mut model.commands);
            tweak_field(random, &mut command[field]);
        }
        11..=13 => {
            let field = random.below(1 + model.variables.len());
            let branch = any_of(random, &mut model.branches);
            tweak_field(random, &mut branch[field]);
        }
        14 => {
            match random.below(4) {
                0 => drop(model.variables.pop()),
                1 => drop(model.entries.pop()),
                2 => drop(model.commands.pop()),
                _ => drop(model.branches.pop()),
            };
        }
        _ => match random.below(3) {
            0 => {
                let (a, b) = (random.below(model.entries.len()), random.below(model.entries.len()));
                model.entries.swap(a, b);
            }
            1 => {
                let (a, b) = (random.below(model.branches.len()), random.below(model.branches.len()));
                model.branches.swap(a, b);
            }
            _ => {
                let branch = random.below(model.branches.len());
                let again = model.branches[branch].clone();
                model.branches.insert(branch, again);
            }
        },
    }
    Input { model: pair.model.bytes(), ..input }
}

/// A valid pair with one field of the graph changed, or one node or edge too
/// many, too few or moved.
pub fn near_graph(random: &mut Random) -> Input {
    let mut pair = Pair::any(random);
    let input = pair.input(random, "graph nearly valid");
    let count = pair.graph.nodes.len();
    let variables = pair.model.variables.len();
    let place = random.below(count);
    let other = random.below(count);
    let node = &mut pair.graph.nodes[place];
    match random.below(16) {
        0 => node.kind = random.below(5) as u16,
        1 => {
            // Another kind, with what goes with it.
            node.kind = random.below(4) as u16;
            if node.kind != EXPANDED {
                node.edges.clear();
                node.edge_count = 0;
            }
            node.cover = if node.kind == COVERED { other as u16 } else { 0 };
            if node.kind == WAITING || node.kind == TARGET {
                node.value = CERTAIN;
            }
        }
        2 => node.cover = random.pick(&[other as u16, 0, count as u16, place as u16, 0xffff]),
        3..=4 => {
            node.value = match random.below(6) {
                0 => node.value.wrapping_sub(1),
                1 => node.value.wrapping_add(1),
                2 => CERTAIN,
                3 => CERTAIN + 1,
                4 => 0,
                _ => random.below(CERTAIN as usize) as u32,
            }
        }
        5 => tweak_field(random, &mut node.edge_count),
        6 => tweak_field(random, &mut node.tracked),
        7 => {
            // One variable more or less in the set, the label going with it.
            let v = random.below(variables);
            node.tracked ^= 1 << v;
            node.label[v] = if node.tracks(v) { node.concrete[v] } else { 0 };
        }
        8 => {
            let v = random.below(variables);
            tweak_signed(random, &mut node.concrete[v]);
        }
        9 => {
            let v = random.below(variables);
            tweak_signed(random, &mut node.label[v]);
        }
        10 => {
            let v = random.below(variables);
            tweak_signed(random, &mut node.concrete[v]);
            if node.tracks(v) {
                node.label[v] = node.concrete[v];
            }
        }
        11..=13 => {
            let with: Vec<usize> = (0..count).filter(|&n| pair.graph.nodes[n].edge_count > 0).collect();
            if !with.is_empty() {
                let node = &mut pair.graph.nodes[random.pick(&with)];
                near_edges(random, node, other as u16);
            }
        }
        14 => {
            let again = pair.graph.nodes[other].clone();
            pair.graph.nodes.push(again);
        }
        _ => {
            if random.once_in(2) {
                pair.graph.nodes.swap(place, other);
            } else {
                pair.graph.nodes.pop();
            }
        }
    }
    Input { graph: pair.graph.bytes(), ..input }
}

/// Changes one thing about the edges of a node that has some.
fn near_edges(random: &mut Random, node: &mut NodeData, other: u16) {
    let place = random.below(node.edges.len());
    match random.below(6) {
        0 => tweak_field(random, &mut node.edges[place].command),
        1 => *any_of(random, &mut node.edges[place].successors) = other,
        2 => {
            let branch = random.below(node.edges[place].successors.len());
            tweak_field(random, &mut node.edges[place].successors[branch]);
        }
        3 => {
            node.edges.remove(place);
            node.edge_count -= 1;
        }
        4 => {
            let again = node.edges[place].clone();
            node.edges.push(again);
            node.edge_count += 1;
        }
        _ => {
            let last = node.edges.len() - 1;
            node.edges.swap(place, last);
        }
    }
}

/// Bytes changed, lost or added, in either folder.
pub fn damaged(random: &mut Random) -> Input {
    let mut input = Pair::any(random).input(random, "damaged");
    let bodies = if random.once_in(2) { 5 } else { 2 };
    let bytes = if bodies == 5 { &mut input.model } else { &mut input.graph };
    let length = bytes.len();
    match random.below(8) {
        0 | 1 => {
            for _ in 0..1 + random.below(4) {
                bytes[random.below(length)] = random.bits() as u8;
            }
        }
        2 => {
            let bit = random.below(8);
            bytes[random.below(length)] ^= 1 << bit;
        }
        3 => bytes.truncate(random.below(length)),
        4 => bytes.extend((0..1 + random.below(20)).map(|_| random.bits() as u8)),
        5 => contents(random, bytes, bodies),
        6 => {
            // The table of contents is right, the bodies are noise.
            for byte in &mut bytes[8 * bodies..] {
                *byte = if random.once_in(2) { 0 } else { random.bits() as u8 };
            }
        }
        _ => {
            // A boundary between two bodies is moved, so that the table stays right.
            let entry = random.below(bodies - 1);
            let (start, length) = (long(bytes, 8 * entry), long(bytes, 8 * entry + 4));
            let after = long(bytes, 8 * entry + 12);
            let moved = random.below((length + after + 1) as usize) as u32;
            set_long(bytes, 8 * entry + 4, moved);
            set_long(bytes, 8 * entry + 8, start + moved);
            set_long(bytes, 8 * entry + 12, length + after - moved);
        }
    }
    input
}

fn long(bytes: &[u8], at: usize) -> u32 {
    u32::from_le_bytes([bytes[at], bytes[at + 1], bytes[at + 2], bytes[at + 3]])
}

fn set_long(bytes: &mut [u8], at: usize, value: u32) {
    bytes[at..at + 4].copy_from_slice(&value.to_le_bytes());
}

/// Changes one start or length in the table of contents.
fn contents(random: &mut Random, bytes: &mut [u8], bodies: usize) {
    let at = 4 * random.below(2 * bodies);
    let old = long(bytes, at);
    let new = match random.below(6) {
        0 => old.wrapping_add(1),
        1 => old.wrapping_sub(1),
        2 => u32::MAX,
        // Added to a start it comes round to a small end, if kept to 32 bits.
        3 => 0u32.wrapping_sub(random.below(100) as u32),
        4 => old ^ 1 << random.below(32),
        _ => random.below(bytes.len()) as u32,
    };
    set_long(bytes, at, if new == old { old + 2 } else { new });
}

/// Empty or very short folders, and folders of noise.
pub fn tiny(random: &mut Random) -> Input {
    let mut input = Pair::any(random).input(random, "tiny or noise");
    let bytes = if random.once_in(2) { &mut input.model } else { &mut input.graph };
    match random.below(5) {
        0 => bytes.clear(),
        1 => *bytes = vec![random.bits() as u8],
        2 => bytes.truncate(random.below(48)),
        3 => *bytes = vec![0; random.below(200)],
        _ => *bytes = (0..random.below(400)).map(|_| random.bits() as u8).collect(),
    }
    input
}

/// Arguments of the calls that may be out of their limits.
pub fn arguments(random: &mut Random, input: &mut Input) {
    let number = random.between(27, VIEW.into()) as u32;
    break_arguments(random, input, number);
}

/// Not a refusal: what stands for the view, which has none.
const VIEW: u32 = LAST_OF_INPUTS + 1;

/// How many values a field has.
const FIELD_VALUES: usize = 1 << 16;

/// Breaks row 27 to 34, or asks the view for what is not there.
fn break_arguments(random: &mut Random, input: &mut Input, number: u32) {
    match number {
        27 => input.h = random.pick(&[MOST_STEPS + 1, MOST_STEPS + 2, FIELD_VALUES, 1 << 32, usize::MAX]),
        28 => {
            let row = random.below(2);
            input.rows[row] = random.pick(&[0, input.rows[row].saturating_sub(4)]);
        }
        29 => match random.below(3) {
            0 => drop(input.state.pop()),
            1 => input.state.push(0),
            _ => input.result = random.below(input.state.len()),
        },
        30 => {
            let v = random.below(input.state.len());
            tweak_signed(random, &mut input.state[v]);
        }
        31 => {
            let over =
                [MOST_COMMANDS, MOST_COMMANDS + 1, FIELD_VALUES - 1, FIELD_VALUES, 1 << 32, usize::MAX];
            input.command = random.pick(&over);
        }
        32 => input.command = random.below(4),
        33 => {
            let over =
                [MOST_BRANCHES, MOST_BRANCHES + 1, FIELD_VALUES - 1, FIELD_VALUES, 1 << 32, usize::MAX];
            input.branch = random.pick(&over);
        }
        34 => {
            // With one variable every batch is whole.
            let [slots, answers, listing] = &mut input.index_rows;
            match random.below(4) {
                0 => slots.0 = random.pick(&[0, 1, SLOTS - 1, SLOTS + 1, 2 * SLOTS]),
                1 => input.batch.push(0),
                2 => answers.0 = answers.0.saturating_sub(1 + random.below(4)),
                _ => listing.0 = listing.0.saturating_sub(1 + random.below(4)),
            }
        }
        _ => match random.below(3) {
            0 => input.body = random.pick(&[5, 6, 1 << 32, usize::MAX]),
            1 => input.record += 1 + random.below(3),
            _ => input.record = random.pick(&[MOST_BRANCH_RECORDS, FIELD_VALUES - 1, 1 << 32, usize::MAX]),
        },
    }
}

/// An input meant to be refused with the number, by one of the calls at least.
pub fn aimed(random: &mut Random, number: u32) -> Input {
    for _ in 0..60 {
        let mut pair = Pair::any(random);
        let mut input = pair.right_input(random, "aimed");
        let broken = match number {
            1 | 12 => {
                let (bytes, limits) = if number == 1 {
                    (&mut input.model, (MODEL_TABLE, MODEL_BYTES))
                } else {
                    (&mut input.graph, (GRAPH_TABLE, GRAPH_BYTES))
                };
                if random.once_in(if number == 1 { 2 } else { 200 }) {
                    bytes.resize(limits.1 + 1 + random.below(100), 0);
                } else {
                    bytes.truncate(random.below(limits.0));
                }
                true
            }
            2 => {
                contents(random, &mut input.model, 5);
                true
            }
            13 => {
                contents(random, &mut input.graph, 2);
                true
            }
            3 => {
                let mut bodies = pair.model.bodies();
                let body = random.below(5);
                let size = [4, 6, 8, 4, 2 + 2 * pair.model.variables.len()][body];
                let most = [1, MOST_VARIABLES, MOST_ENTRIES, MOST_COMMANDS, MOST_BRANCH_RECORDS][body];
                match random.below(4) {
                    0 => bodies[body].clear(),
                    1 => drop(bodies[body].pop()),
                    2 => bodies[body].push(0),
                    _ => bodies[body].resize(size * (most + 1), 0),
                }
                input.model = folder(&bodies);
                true
            }
            14 => {
                let mut bodies = pair.graph.bodies();
                match random.below(30) {
                    0 => bodies[0].resize((12 + 4 * pair.model.variables.len()) * (MOST_NODES + 1), 0),
                    1..=5 => bodies[0].clear(),
                    6..=17 => drop(bodies[0].pop()),
                    _ => bodies[0].push(0),
                }
                input.graph = folder(&bodies);
                true
            }
            4..=11 => {
                let broken = break_model(random, &mut pair.model, number);
                input.model = pair.model.bytes();
                broken
            }
            15..=25 => {
                let broken = break_graph(random, &mut pair, number);
                input.graph = pair.graph.bytes();
                broken
            }
            26 => pair.graph.nodes.iter().any(|node| node.kind == WAITING),
            32 => {
                let values = pair.model.evaluate(&input.state);
                let disabled: Vec<usize> = (0..pair.model.commands.len())
                    .filter(|&command| values[usize::from(pair.model.commands[command][0])] == 0)
                    .collect();
                if !disabled.is_empty() {
                    input.command = random.pick(&disabled);
                }
                !disabled.is_empty()
            }
            _ => {
                break_arguments(random, &mut input, number);
                let finished = pair.graph.nodes.iter().all(|node| node.kind != WAITING);
                number > 28 || finished
            }
        };
        if broken {
            return input;
        }
    }
    Pair::any(random).input(random, "aimed, and missed")
}

/// So many entries, each a part of the next, are one too deep.
const TOO_DEEP: usize = MOST_DEPTH as usize + 1;

/// Breaks row 4 to 11, if the model allows it.
fn break_model(random: &mut Random, model: &mut ModelData, number: u32) -> bool {
    let entries = model.entries.len() as u16;
    let is_number = |model: &ModelData, entry: u16| model.entries[usize::from(entry)][0] <= 7;
    let numbers: Vec<u16> = (0..entries).filter(|&entry| is_number(model, entry)).collect();
    let truths: Vec<u16> = (0..entries).filter(|&entry| !is_number(model, entry)).collect();
    // An entry that is no truth, one that is no number: a missing one is neither.
    let mut no_truth = numbers.clone();
    no_truth.extend([entries, entries + 1, 0xffff]);
    let mut no_number = truths.clone();
    no_number.extend([entries, entries + 1, 0xffff]);
    let most_branches = MOST_BRANCHES as u16;
    match number {
        4 => {
            let variable = any_of(random, &mut model.variables);
            let [low, high, _] = *variable;
            *variable = match random.below(5) {
                0 => [high + 1, low, low],
                1 => [-BOUND - 1, high, high],
                2 => [low, BOUND + 1, low],
                3 => [low, high, low - 1],
                _ => [low, high, high + 1],
            };
            true
        }
        5 => {
            let entry = random.below(usize::from(entries)) as u16;
            let record = &mut model.entries[usize::from(entry)];
            let used = match record[0] {
                0 | 1 | 11 => 1,
                7 => 3,
                14 => 0,
                _ => 2,
            };
            match random.below(6) {
                0 => record[0] = random.pick(&[15, 16, 255, 256, 0xffff]),
                1 if record[0] == 1 => {
                    record[1] = random.pick(&[model.variables.len() as u16, MOST_VARIABLES as u16, 0xffff])
                }
                2 if used > 0 && record[0] > 1 => {
                    record[1 + random.below(used)] = random.pick(&[entry, entry + 1, 0xffff])
                }
                3 if used > 0 && record[0] > 1 => {
                    let field = random.below(used);
                    let wants_truth = record[0] > 10 || record[0] == 7 && field == 0;
                    let wrong = if wants_truth { &numbers } else { &truths };
                    let lower: Vec<u16> = wrong.iter().copied().filter(|&part| part < entry).collect();
                    if lower.is_empty() {
                        return false;
                    }
                    record[1 + field] = random.pick(&lower);
                }
                4 if used < 3 => record[1 + used + random.below(3 - used)] = 1 + random.below(3) as u16,
                5 if model.entries.len() + TOO_DEEP <= MOST_ENTRIES && !numbers.is_empty() => {
                    let mut last = random.pick(&numbers);
                    for _ in 0..TOO_DEEP {
                        model.entries.push([5, last, last, 0]);
                        last = model.entries.len() as u16 - 1;
                    }
                }
                _ => return false,
            }
            true
        }
        6 => {
            if model.entries.len() + 4 > MOST_ENTRIES {
                return false;
            }
            let constant = random.pick(&[1_001i16, -1_001, 30_000, -32_768]);
            model.entries.extend([
                [0, constant as u16, 0, 0],
                [0, 1_000, 0, 0],
                [4, entries, entries + 1, 0],
            ]);
            true
        }
        7 => {
            if random.once_in(2) {
                model.total = 0;
            } else {
                model.target = random.pick(&no_truth);
            }
            true
        }
        8 => {
            let command = any_of(random, &mut model.commands);
            if random.once_in(2) {
                command[0] = random.pick(&no_truth);
            } else {
                command[1] = random.pick(&[0, most_branches + 1, most_branches + 2, 256, 0xffff]);
            }
            true
        }
        9 => {
            if random.once_in(2) {
                let command = any_of(random, &mut model.commands);
                let more = command[1] == 1 || command[1] < most_branches && random.once_in(2);
                let one = if more { 1 } else { 0xffff };
                command[1] = command[1].wrapping_add(one);
            } else {
                let again = model.branches[0].clone();
                model.branches.push(again);
            }
            model.branches.len() <= MOST_BRANCH_RECORDS
        }
        10 => {
            let v = random.below(model.variables.len());
            let place = random.below(model.branches.len());
            match random.below(4) {
                0 => model.branches[place][0] = 0,
                1 => model.branches[place][1 + v] = random.pick(&no_number),
                _ => {
                    // One more than the range allows, at either end.
                    let [low, high, _] = model.variables[v];
                    let over = if random.once_in(2) { high + 1 } else { low - 1 };
                    if model.entries.len() == MOST_ENTRIES {
                        return false;
                    }
                    model.entries.push([0, over as u16, 0, 0]);
                    model.branches[place][1 + v] = entries;
                }
            }
            true
        }
        _ => {
            let branch = any_of(random, &mut model.branches);
            let other = tweak(random, branch[0]);
            branch[0] = other.max(1);
            true
        }
    }
}

/// The place of a node, one of those allowed.
pub fn choose(graph: &GraphData, random: &mut Random, allowed: &dyn Fn(&NodeData) -> bool) -> Option<usize> {
    let places: Vec<usize> = (0..graph.nodes.len()).filter(|&n| allowed(&graph.nodes[n])).collect();
    (!places.is_empty()).then(|| random.pick(&places))
}

/// Breaks row 15 to 25, if the graph allows it.
fn break_graph(random: &mut Random, pair: &mut Pair, number: u32) -> bool {
    let Pair { model, graph } = pair;
    let count = graph.nodes.len();
    let variables = model.variables.len();
    let v = random.below(variables);
    match number {
        15 => {
            let place = random.below(count);
            let node = &mut graph.nodes[place];
            match random.below(7) {
                0 => node.kind = random.pick(&[4, 5, 256, 0xffff]),
                1 => node.value = random.pick(&[CERTAIN + 1, u32::MAX]),
                2 if node.kind != COVERED => node.cover = 1 + random.below(count) as u16,
                3 if node.kind != EXPANDED => node.edge_count = 1,
                4 if variables < MOST_VARIABLES => {
                    node.tracked |= 1 << random.between(variables as i64, MOST_VARIABLES as i64 - 1);
                }
                5 => {
                    let [low, high, _] = model.variables[v];
                    node.concrete[v] = if random.once_in(2) { low - 1 } else { high + 1 };
                }
                6 if !node.tracks(v) => node.label[v] = random.pick(&[1, -1, i16::MIN]),
                _ => return false,
            }
            true
        }
        16 => {
            let Some(place) = choose(graph, random, &|node| node.edge_count > 0) else {
                return false;
            };
            let last = graph.nodes.iter().rposition(|node| node.edge_count > 0).unwrap_or(0);
            match random.below(5) {
                0 => {
                    any_of(random, &mut graph.nodes[place].edges).command =
                        random.pick(&[model.commands.len() as u16, MOST_COMMANDS as u16, 0xffff])
                }
                1 => {
                    let none = random.pick(&[count as u16, MOST_NODES as u16, 0xffff]);
                    let edge = any_of(random, &mut graph.nodes[place].edges);
                    *any_of(random, &mut edge.successors) = none;
                }
                2 => graph.nodes[last].edge_count += 1,
                3 => drop(graph.nodes[last].edges.pop()),
                _ => {
                    let over = graph.nodes[place].edges[0].clone();
                    graph.nodes[last].edges.push(over);
                }
            }
            true
        }
        17 => {
            let [low, high, _] = model.variables[v];
            let root = &mut graph.nodes[0];
            let other = random.between(low.into(), high.into()) as i16;
            let differs = root.concrete[v] != other;
            root.concrete[v] = other;
            differs
        }
        18 => {
            let Some(place) = choose(graph, random, &|node| node.tracked != 0) else {
                return false;
            };
            let node = &mut graph.nodes[place];
            let tracked: Vec<usize> = (0..variables).filter(|&v| node.tracks(v)).collect();
            let v = random.pick(&tracked);
            // Where an earlier node leads here, 21 at that one comes before.
            tweak_signed(random, &mut node.label[v]);
            true
        }
        19 => {
            let place = match random.below(3) {
                0 => choose(graph, random, &|node| node.kind == EXPANDED && node.tracked != 0),
                1 => choose(graph, random, &|node| node.kind == TARGET),
                _ => choose(graph, random, &|node| node.kind == EXPANDED && node.edge_count == 0),
            };
            let Some(place) = place else {
                return false;
            };
            let node = &mut graph.nodes[place];
            match node.kind {
                TARGET => node.kind = EXPANDED,
                EXPANDED if node.edge_count == 0 && random.once_in(2) => {
                    node.kind = TARGET;
                    node.value = CERTAIN;
                }
                _ => {
                    let tracked: Vec<usize> = (0..variables).filter(|&v| node.tracks(v)).collect();
                    if tracked.is_empty() {
                        return false;
                    }
                    node.untrack(random.pick(&tracked));
                }
            }
            true
        }
        20 => {
            let Some(place) = choose(graph, random, &|node| node.edge_count > 0) else {
                return false;
            };
            let node = &mut graph.nodes[place];
            let edge = random.below(node.edges.len());
            match random.below(3) {
                0 => {
                    node.edges.remove(edge);
                    node.edge_count -= 1;
                }
                1 => {
                    let again = node.edges[edge].clone();
                    node.edges.insert(edge, again);
                    node.edge_count += 1;
                }
                _ => {
                    if edge == 0 {
                        return false;
                    }
                    node.edges.swap(edge, edge - 1);
                }
            }
            true
        }
        21 => {
            let Some(place) = choose(graph, random, &|node| node.edge_count > 0) else {
                return false;
            };
            let node = &graph.nodes[place];
            let edge = random.below(node.edges.len());
            let branch = random.below(node.edges[edge].successors.len());
            let successor = usize::from(node.edges[edge].successors[branch]);
            if random.once_in(2) {
                let other = random.below(count);
                let differs = graph.nodes[other].concrete != graph.nodes[successor].concrete;
                graph.nodes[place].edges[edge].successors[branch] = other as u16;
                return differs;
            }
            // The successor tracks a variable that does not read known.
            let entry = usize::from(model.branches_of(usize::from(node.edges[edge].command))[branch][1 + v]);
            let unknown = model.read(&node.concrete, node.tracked)[entry].is_none();
            graph.nodes[successor].track(v);
            unknown
        }
        22 => {
            let Some(place) = choose(graph, random, &|node| node.kind == COVERED) else {
                return false;
            };
            let covered = choose(graph, random, &|node| node.kind == COVERED).unwrap_or(place);
            graph.nodes[place].cover =
                random.pick(&[count as u16, MOST_NODES as u16, 0xffff, place as u16, covered as u16]);
            true
        }
        23 => {
            let Some(place) = choose(graph, random, &|node| node.kind == COVERED) else {
                return false;
            };
            let state = graph.nodes[place].concrete.clone();
            let outside = choose(graph, random, &|node| node.kind != COVERED && !node.contains(&state));
            let Some(cover) = outside else {
                return false;
            };
            graph.nodes[place].cover = cover as u16;
            true
        }
        24 => {
            let Some(place) = choose(graph, random, &|node| node.kind == COVERED && node.tracked != 0) else {
                return false;
            };
            let cover = usize::from(graph.nodes[place].cover);
            let shared = graph.nodes[cover].tracked & graph.nodes[place].tracked;
            let node = &mut graph.nodes[place];
            if shared & 1 << v == 0 {
                return false;
            }
            node.untrack(v);
            true
        }
        _ => {
            let place = random.below(count);
            let node = &graph.nodes[place];
            let value = node.value;
            let lower = if random.once_in(2) { value.saturating_sub(1) } else { value / 2 };
            let open = node.kind == EXPANDED && node.edge_count == 0;
            graph.nodes[place].value = lower;
            lower != value && !open
        }
    }
}
