//! Models that the range of a product decides, and one of as many products as there may be.

use super::data::*;

/// Low and high.
pub type Span = [i16; 2];

/// Every span of numbers at most so far from 0.
pub fn spans(farthest: i16) -> impl Iterator<Item = Span> {
    (-farthest..=farthest).flat_map(move |low| (low..=farthest).map(move |high| [low, high]))
}

/// From the least to the greatest product of a number of each span: all are looked at.
pub fn products([low, high]: Span, with: Span) -> Span {
    let all = (low..=high).flat_map(|a| (with[0]..=with[1]).map(move |b| a * b));
    all.fold([i16::MAX, i16::MIN], |[least, greatest], p| [least.min(p), greatest.max(p)])
}

/// A product of two variables in these spans, assigned to a third in that one.
pub fn assigned([a, b]: [Span; 2], product: Span) -> ModelData {
    ModelData {
        total: 1,
        target: 3,
        variables: [a, b, product].map(|[low, high]| [low, high, low]).to_vec(),
        entries: vec![
            [1, 0, 0, 0],  // 0: a
            [1, 1, 0, 0],  // 1: b
            [4, 0, 1, 0],  // 2: a × b
            [14, 0, 0, 0], // 3: true
        ],
        commands: vec![[3, 1]],
        branches: vec![vec![1, 0, 1, 2]],
    }
}

/// As many products as there may be: of two variables, then of two such products.
pub fn many() -> ModelData {
    let variables = vec![[-9, 7, 0], [-8, 9, 0], [-7, 9, 0], [-9, 8, 0], [-6, 9, 0]];
    let count = variables.len() as u16;
    let mut entries: Vec<_> = (0..count).map(|v| [1, v, 0, 0]).collect();
    for layer in [0..count, count..count + count * count] {
        entries.extend(layer.clone().flat_map(|a| layer.clone().map(move |b| [4, a, b, 0])));
    }
    let target = MOST_ENTRIES - 1;
    entries.truncate(target);
    entries.push([14, 0, 0, 0]);
    let target = target as u16;
    let branch = [1].into_iter().chain(0..count).collect();
    ModelData { total: 1, target, variables, entries, commands: vec![[target, 1]], branches: vec![branch] }
}
