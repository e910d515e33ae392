//! Frames by their definition: check sums from powers of 3, codewords, legal frames, frames as they are
//! read, distance by counting, and the legal frames that differ in given columns by solving for the
//! symbols there.

use std::ops::Range;

use common::interface::{Declared, Marks, NOTHING};

use super::elimination::System;

#[derive(Clone, Debug)]
pub struct Shape {
    pub columns: usize,
    pub checks: Vec<u16>,
    pub exponent: u32,
}

impl Shape {
    pub fn size(&self) -> usize {
        self.checks.len() * self.columns
    }

    /// The smallest number of checks of a row.
    pub fn least_checks(&self) -> usize {
        self.checks.iter().copied().min().map_or(0, usize::from)
    }

    /// The smallest number of checks of a row less its declared cells.
    pub fn least_left(&self, declared: &Declared) -> usize {
        let left = |(h, &checks): (usize, &u16)| {
            usize::from(checks).saturating_sub(cells_of(declared, h).len())
        };
        let rows = self.checks.iter().enumerate();
        rows.map(left).min().unwrap_or(0)
    }

    /// The exponents of the locators in the first `count` check sums: b + j − 1 for j from 1.
    pub fn exponents(&self, count: usize) -> Range<usize> {
        let first = self.exponent as usize;
        first..first + count
    }

    fn rows<'a>(&'a self, frame: &'a [u16]) -> impl Iterator<Item = (&'a [u16], usize)> {
        frame
            .chunks(self.columns)
            .zip(self.checks.iter().map(|&checks| usize::from(checks)))
    }
}

/// The powers 3^(i·exponent) modulo 257 of the columns i below n.
pub fn weights(n: usize, exponent: usize) -> Vec<u64> {
    let times = |base: u64, count: usize| (0..count).fold(1, |value, _| value * base % 257);
    let step = times(3, exponent);
    std::iter::successors(Some(1), |weight| Some(weight * step % 257))
        .take(n)
        .collect()
}

fn check_sum(row: &[u16], exponent: usize) -> u16 {
    let sum: u64 = weights(row.len(), exponent)
        .iter()
        .zip(row)
        .map(|(weight, &symbol)| weight * u64::from(symbol))
        .sum();
    (sum % 257) as u16
}

/// The check sums of all rows, row after row.
pub fn check_sums(shape: &Shape, frame: &[u16]) -> Vec<u16> {
    shape
        .rows(frame)
        .flat_map(|(row, checks)| {
            let exponents = shape.exponents(checks);
            exponents.map(|exponent| check_sum(row, exponent))
        })
        .collect()
}

pub fn is_codeword(shape: &Shape, frame: &[u16]) -> bool {
    frame.len() == shape.size()
        && frame.iter().all(|&symbol| symbol < 257)
        && check_sums(shape, frame).iter().all(|&sum| sum == 0)
}

/// No two symbols differ: what a broken cable delivers.
pub fn is_uniform(frame: &[u16]) -> bool {
    frame.iter().all(|symbol| *symbol == frame[0])
}

pub fn is_legal(shape: &Shape, frame: &[u16]) -> bool {
    is_codeword(shape, frame) && !is_uniform(frame)
}

/// The columns in which any row differs in a cell that is not declared.
pub fn differing(shape: &Shape, declared: &Declared, f: &[u16], g: &[u16]) -> Vec<usize> {
    let cells: Vec<_> = (0..8).map(|h| cells_of(declared, h)).collect();
    let differs = |i: &usize| {
        (0..shape.checks.len()).any(|h| {
            let k = h * shape.columns + i;
            !cells[h].contains(i) && f[k] != g[k]
        })
    };
    (0..shape.columns).filter(differs).collect()
}

pub fn marks_of(columns: &[usize]) -> Marks {
    let mut marks = [0; 4];
    for &i in columns {
        marks[i / 64] |= 1 << (i % 64);
    }
    marks
}

pub fn columns_of(marks: &Marks) -> Vec<usize> {
    (0..256)
        .filter(|i| marks[i / 64] >> (i % 64) & 1 == 1)
        .collect()
}

/// The declared columns of the row at place h.
pub fn cells_of(declared: &Declared, h: usize) -> Vec<usize> {
    columns_of(declared[4 * h..].first_chunk().expect("one of eight rows"))
}

/// The words that declare the columns of each row.
pub fn declaring(rows: &[Vec<usize>]) -> Declared {
    let mut declared = NOTHING;
    for (words, columns) in declared.chunks_mut(4).zip(rows) {
        words.copy_from_slice(&marks_of(columns));
    }
    declared
}

/// The frame as it is read: 0 in the declared cells.
pub fn as_read(shape: &Shape, declared: &Declared, frame: &[u16]) -> Vec<u16> {
    let mut read = frame.to_vec();
    for (h, row) in read.chunks_mut(shape.columns).enumerate() {
        for i in cells_of(declared, h) {
            if let Some(cell) = row.get_mut(i) {
                *cell = 0;
            }
        }
    }
    read
}

/// The marked and the declared columns of the row at place h.
pub fn open_columns(declared: &Declared, h: usize, columns: &[usize]) -> Vec<usize> {
    let mut open = [columns, &cells_of(declared, h)].concat();
    open.sort();
    open.dedup();
    open
}

/// The row that agrees with the given one outside the columns and whose check sums with these
/// exponents are 0, if there is one. At most as many columns as sums, so that there is no more than
/// one.
pub fn completed(row: &[u16], columns: &[usize], exponents: Range<usize>) -> Option<Vec<u16>> {
    let mut system = System::new(257, columns.len());
    for exponent in exponents {
        let weights = weights(row.len(), exponent);
        let kept = |i: &usize| !columns.contains(i);
        let rest: u64 = (0..row.len())
            .filter(kept)
            .map(|i| weights[i] * u64::from(row[i]))
            .sum();
        let mut equation: Vec<u64> = columns.iter().map(|&i| weights[i]).collect();
        equation.push((257 - rest % 257) % 257);
        if !system.add(equation) {
            return None;
        }
    }
    let mut completed = row.to_vec();
    for (&i, value) in columns.iter().zip(system.solution()) {
        completed[i] = value as u16;
    }
    Some(completed)
}

/// The codeword that agrees with the given frame outside the columns and the declared cells, if there
/// is one. No row has fewer checks left than there are columns.
pub fn codeword_at_columns(
    shape: &Shape,
    declared: &Declared,
    frame: &[u16],
    columns: &[usize],
) -> Option<Vec<u16>> {
    let rows: Option<Vec<_>> = shape
        .rows(frame)
        .enumerate()
        .map(|(h, (row, checks))| {
            let open = open_columns(declared, h, columns);
            completed(row, &open, shape.exponents(checks))
        })
        .collect();
    Some(rows?.concat())
}

/// All legal frames at the distance, by trying every set of columns. No row has fewer checks left.
pub fn legal_at(
    shape: &Shape,
    declared: &Declared,
    frame: &[u16],
    distance: usize,
) -> Vec<Vec<u16>> {
    let sets = (0..1u32 << shape.columns).filter(|set| set.count_ones() as usize == distance);
    let columns = sets.map(|set| {
        (0..shape.columns)
            .filter(|i| set >> i & 1 == 1)
            .collect::<Vec<_>>()
    });
    columns
        .filter_map(|columns| codeword_at_columns(shape, declared, frame, &columns))
        .filter(|codeword| !is_uniform(codeword))
        .filter(|legal| differing(shape, declared, legal, frame).len() == distance)
        .collect()
}
