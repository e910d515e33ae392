//! All legal frames of a small shape, from a list of the rows of codewords: how many lie at each
//! distance from a frame. Nothing is solved but the first check sum for the first symbol.

use std::collections::{BTreeMap, HashMap};
use std::ops::Range;

use common::interface::Declared;

use super::frames::{Shape, cells_of, is_uniform, weights};

/// The rows whose check sums are 0 by the number of columns and the exponents of the sums, listed where
/// they are first asked for.
#[derive(Default)]
pub struct CodewordRows(HashMap<(usize, Range<usize>), Vec<Vec<u16>>>);

/// Frames that differ alike: how many, and one of them.
#[derive(Clone, Debug, PartialEq)]
pub struct Alike {
    pub count: u128,
    pub frame: Vec<u16>,
}

/// Legal frames by the number of columns in which they differ.
type Distances = BTreeMap<usize, Alike>;

/// Codewords, whole or only their first rows, by the set of columns in which they differ and the symbol
/// that all their cells have, if there is one.
type Counted = BTreeMap<(usize, Option<u16>), Alike>;

fn only_symbol(frame: &[u16]) -> Option<u16> {
    frame.first().copied().filter(|_| is_uniform(frame))
}

fn count_in<K: Ord>(all: &mut BTreeMap<K, Alike>, key: K, count: u128, frame: Vec<u16>) {
    all.entry(key).or_insert(Alike { count: 0, frame }).count += count;
}

/// Every row of at most four columns whose check sums are 0. The first symbol has the weight 1 in each
/// sum.
fn list(columns: usize, exponents: Range<usize>) -> Vec<Vec<u16>> {
    let weights: Vec<Vec<u64>> = exponents
        .map(|exponent| weights(columns, exponent))
        .collect();
    let sum = |row: &[u16], weights: &[u64]| {
        let products = row
            .iter()
            .zip(weights)
            .map(|(&x, weight)| u64::from(x) * weight);
        products.sum::<u64>() % 257
    };
    let all = (0..257usize.pow(columns as u32 - 1)).map(|number| {
        let mut row = [0; 4];
        let mut rest = number;
        for symbol in &mut row[1..] {
            *symbol = (rest % 257) as u16;
            rest /= 257;
        }
        row[0] = ((257 - sum(&row, &weights[0])) % 257) as u16;
        row
    });
    all.filter(|row| weights[1..].iter().all(|weights| sum(row, weights) == 0))
        .map(|row| row[..columns].to_vec())
        .collect()
}

impl CodewordRows {
    /// The legal frames at each distance from the frame. The shape has at most four columns and six
    /// rows, and no more than two data cells in a row.
    pub fn by_distance(&mut self, shape: &Shape, declared: &Declared, frame: &[u16]) -> Distances {
        let nothing = Alike {
            count: 1,
            frame: Vec::new(),
        };
        let mut frames = Counted::from([((0, None), nothing)]);
        for (h, row) in frame.chunks(shape.columns).enumerate() {
            let rows = self.by_columns(shape, declared, h, row);
            let mut longer = Counted::new();
            for ((set, _), before) in &frames {
                for ((own, _), rows) in &rows {
                    let both = [&before.frame[..], &rows.frame].concat();
                    let key = (set | own, only_symbol(&both));
                    count_in(&mut longer, key, before.count * rows.count, both);
                }
            }
            frames = longer;
        }
        let mut distances = Distances::new();
        for ((set, only), frames) in frames {
            if only.is_none() {
                let distance = set.count_ones() as usize;
                count_in(&mut distances, distance, frames.count, frames.frame);
            }
        }
        distances
    }

    /// The rows of codewords by the set of columns in which they differ from the row at place h in a
    /// cell that is not declared.
    fn by_columns(&mut self, shape: &Shape, declared: &Declared, h: usize, row: &[u16]) -> Counted {
        let exponents = shape.exponents(usize::from(shape.checks[h]));
        let listed = self.0.entry((shape.columns, exponents.clone()));
        let cells = cells_of(declared, h);
        let seen: Vec<usize> = (0..shape.columns).filter(|i| !cells.contains(i)).collect();
        let mut rows = Counted::new();
        for own in listed.or_insert_with(|| list(shape.columns, exponents)) {
            let differing = seen.iter().filter(|&&i| own[i] != row[i]);
            let set = differing.fold(0, |set, i| set | 1 << i);
            let key = (set, only_symbol(own));
            rows.entry(key)
                .or_insert_with(|| Alike {
                    count: 0,
                    frame: own.clone(),
                })
                .count += 1;
        }
        rows
    }
}
