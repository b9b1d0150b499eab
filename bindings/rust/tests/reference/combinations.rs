//! The reading by all states, of entries that the three-way reading leaves unknown: every
//! combination of the values of the variables that they mention and a node does not track.
//!
//! The node's concrete state is one of the combinations, so that an entry has one value in
//! all of them if and only if it has its concrete value in each.

use super::*;
use std::array::from_fn;

/// An entry of more combinations than this is read three-way alone.
const COMBINATIONS: usize = 4_096;

/// So many combinations are worked out at a time.
const LANES: usize = 16;

/// A number, or a truth as 0 or 1, in each of them.
type Lanes = [i32; LANES];

const MOST_VARIABLES: usize = *VARIABLES.end();

/// The variables of a set, upward.
pub fn members(set: u16) -> impl Iterator<Item = usize> {
    (0..MOST_VARIABLES).filter(move |v| set >> v & 1 == 1)
}

impl Model {
    /// How many combinations the variables of a set have, if they are few enough to be
    /// tried. No product goes far past that: 16 ranges may have more than 64 bits hold.
    pub(super) fn combinations(&self, set: u16) -> Option<usize> {
        members(set)
            .try_fold(1, |product, v| Some(product * self.size(v)).filter(|&product| product <= COMBINATIONS))
    }

    /// How many values a variable has.
    fn size(&self, variable: usize) -> usize {
        let Variable { low, high, .. } = self.variables[variable];
        (i32::from(high) - i32::from(low) + 1) as usize
    }

    /// What the entries use, themselves among it, upward; of that only what mentions a
    /// variable of the set, since all else keeps its concrete value.
    fn used(&self, entries: &[usize], set: u16) -> Vec<usize> {
        let mut used = vec![false; self.entries.len()];
        entries.iter().for_each(|&entry| used[entry] = true);
        for entry in (0..used.len()).rev().filter(|&entry| self.mentioned()[entry] & set != 0) {
            if used[entry] {
                self.entries[entry].parts().for_each(|part| used[part] = true);
            }
        }
        (0..used.len()).filter(|&entry| used[entry] && self.mentioned()[entry] & set != 0).collect()
    }
}

fn number(reading: Reading) -> i32 {
    match reading {
        Reading::Number(number) => number,
        Reading::Truth(truth) => truth.into(),
        Reading::Unknown => unreachable!("nothing is unknown in a concrete label"),
    }
}

/// A walk through all combinations of a set of variables.
struct Walk<'a> {
    model: &'a Model,
    /// The set, from the variable that changes fastest to the slowest.
    order: Vec<usize>,
    /// The combination that comes next; after the last, the first again.
    next: [i16; MOST_VARIABLES],
    variables: [Lanes; MOST_VARIABLES],
    /// Of every entry; what is not used keeps its concrete value.
    values: Vec<Lanes>,
}

impl<'a> Walk<'a> {
    fn new(model: &'a Model, concrete: &[Reading], set: u16, used: &[usize]) -> Walk<'a> {
        let mut next = [0; MOST_VARIABLES];
        members(set).for_each(|v| next[v] = model.variables[v].low);
        let values = concrete.iter().map(|&reading| [number(reading); LANES]).collect();
        // No variable has this value: all are new at first.
        let variables = [[i32::MIN; LANES]; MOST_VARIABLES];
        Walk { model, order: Walk::order(model, set, used), next, variables, values }
    }

    /// What most entries mention comes first, as long as the lanes hold all its values:
    /// it never changes then. After that, what few entries mention.
    fn order(model: &Model, set: u16, used: &[usize]) -> Vec<usize> {
        let mentioned =
            |v: usize| used.iter().filter(|&&entry| model.mentioned()[entry] >> v & 1 == 1).count();
        let mut slow: Vec<usize> = members(set).collect();
        slow.sort_by_cached_key(|&v| mentioned(v));
        let mut held = 1;
        let mut fast = Vec::new();
        for &v in slow.iter().rev() {
            if LANES.is_multiple_of(held * model.size(v)) {
                held *= model.size(v);
                fast.push(v);
            }
        }
        slow.retain(|v| !fast.contains(v));
        fast.extend(slow);
        fast
    }

    /// Goes to the next combinations, one in each lane. Gives the set of the variables
    /// that have other values there.
    fn go(&mut self) -> u16 {
        let before = self.variables;
        for lane in 0..LANES {
            for &v in &self.order {
                self.variables[v][lane] = self.next[v].into();
            }
            self.advance();
        }
        let changed = |&&v: &&usize| self.variables[v] != before[v];
        self.order.iter().filter(changed).fold(0, |set, v| set | 1 << v)
    }

    fn advance(&mut self) {
        for &v in &self.order {
            let Variable { low, high, .. } = self.model.variables[v];
            if self.next[v] < high {
                self.next[v] += 1;
                return;
            }
            self.next[v] = low;
        }
    }

    /// The values of an entry, from those of its parts.
    fn evaluate(&self, entry: usize) -> Lanes {
        let of = |entry: usize| &self.values[entry];
        fn both(a: &Lanes, b: &Lanes, operation: impl Fn(i32, i32) -> i32) -> Lanes {
            from_fn(|lane| operation(a[lane], b[lane]))
        }
        match self.model.entries[entry] {
            Entry::Constant(_) | Entry::True => self.values[entry],
            Entry::Variable(v) => self.variables[v],
            Entry::Add(a, b) => both(of(a), of(b), |a, b| a + b),
            Entry::Subtract(a, b) => both(of(a), of(b), |a, b| a - b),
            Entry::Multiply(a, b) => both(of(a), of(b), |a, b| a * b),
            Entry::Smaller(a, b) => both(of(a), of(b), i32::min),
            Entry::Larger(a, b) => both(of(a), of(b), i32::max),
            Entry::If(a, b, c) => {
                let (a, b, c) = (of(a), of(b), of(c));
                from_fn(|lane| if a[lane] == 1 { b[lane] } else { c[lane] })
            }
            Entry::Equal(a, b) => both(of(a), of(b), |a, b| (a == b).into()),
            Entry::Less(a, b) => both(of(a), of(b), |a, b| (a < b).into()),
            Entry::AtMost(a, b) => both(of(a), of(b), |a, b| (a <= b).into()),
            Entry::Not(a) => of(a).map(|a| 1 - a),
            Entry::And(a, b) => both(of(a), of(b), |a, b| a & b),
            Entry::Or(a, b) => both(of(a), of(b), |a, b| a | b),
        }
    }
}

/// Those of the entries that have their concrete value in all of so many combinations of
/// the set; none if `asked`, which is one of the entries, has not.
pub fn unchanging(
    model: &Model,
    concrete: &[Reading],
    (set, combinations): (u16, usize),
    asked: usize,
    mut entries: Vec<usize>,
) -> Vec<usize> {
    let mut used = model.used(&entries, set);
    let mut walk = Walk::new(model, concrete, set, &used);
    for _ in 0..combinations.div_ceil(LANES) {
        let changed = walk.go();
        for &entry in used.iter().filter(|&&entry| model.mentioned()[entry] & changed != 0) {
            walk.values[entry] = walk.evaluate(entry);
        }
        let before = entries.len();
        entries.retain(|&entry| walk.values[entry] == [number(concrete[entry]); LANES]);
        if !entries.contains(&asked) {
            return Vec::new();
        }
        if entries.len() < before {
            used = model.used(&entries, set);
        }
    }
    entries
}
