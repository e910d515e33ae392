//! The inputs that the calls are tried on, and what they have in common.

pub mod declared;
pub mod dispatcher;
pub mod examples;
pub mod exponents;
pub mod finder;
pub mod forged;
pub mod frames;
pub mod layout;
pub mod lists;
pub mod program;
pub mod prototypes;
pub mod search;
pub mod shapes;
pub mod slices;
pub mod uniform;
pub mod vectors;

use common::interface::{Calls, Declared, Job, NOTHING};
use common::random::Random;

use crate::independent::frames::{
    Shape, as_read, cells_of, completed, declaring, is_codeword, is_uniform,
};
use crate::independent::{Independent, encoded};
use crate::judge::FILLED;

/// The least exponents and the largest, and those around the sign: 3^128 is −1.
const EXPONENTS: [u32; 6] = [0, 1, 2, 127, 128, 255];

/// 1, one of those above, or any.
fn some_exponent(random: &mut Random) -> u32 {
    let edge = random.pick(&EXPONENTS);
    let any = random.below(256) as u32;
    random.pick(&[1, edge, edge, any])
}

/// The one shape all of whose codewords are uniform: its check is its data symbol.
fn is_barren(shape: &Shape) -> bool {
    shape.columns == 2 && shape.checks.len() == 1 && shape.exponent == 128
}

/// A shape of at most so many columns that has legal frames, with the same number of checks in all rows
/// half of the time; now and then one whose constant frames are codewords.
fn some_shape(random: &mut Random, most_columns: usize) -> Shape {
    loop {
        let any = any_shape(random, most_columns);
        let even = even_shape(random, most_columns);
        let shape = if random.once_in(6) { even } else { any };
        if !is_barren(&shape) {
            return shape;
        }
    }
}

/// One check in each row of 2, 4, 8 .. columns: where the weights of its check sum are the powers of a
/// root of 1 that is not 1, they add up to 0.
fn even_shape(random: &mut Random, most_columns: usize) -> Shape {
    let columns = 2 << random.below(most_columns.ilog2() as usize);
    let step = 256 / columns;
    Shape {
        columns,
        checks: vec![1; random.from_to(1, 8)],
        exponent: (step * random.from_to(1, columns - 1)) as u32,
    }
}

fn any_shape(random: &mut Random, most_columns: usize) -> Shape {
    let columns = random.from_to(2, most_columns);
    let most_checks = (columns - 1).min(64);
    let rows = random.from_to(1, 8);
    let mut checks: Vec<u16> = (0..rows)
        .map(|_| random.from_to(1, most_checks) as u16)
        .collect();
    if random.once_in(2) {
        checks = vec![checks[0]; rows];
    }
    Shape {
        columns,
        checks,
        exponent: some_exponent(random),
    }
}

/// The job of the shape. What its arrays hold plays no part.
fn shaped(shape: &Shape) -> Job {
    let mut job = FILLED;
    Independent.shape(&mut job, shape.columns, &shape.checks, shape.exponent);
    job
}

/// Random data of a legal frame.
fn some_data(random: &mut Random, shape: &Shape) -> Vec<u16> {
    loop {
        let data = random.symbols(257, shape.size());
        if !is_uniform(&encoded(shape, &data)) {
            return data;
        }
    }
}

/// The legal frame with random data.
fn some_legal_frame(random: &mut Random, shape: &Shape) -> Vec<u16> {
    let mut frame = some_data(random, shape);
    Independent.encode(&shaped(shape), &mut frame);
    frame
}

/// The frame of this symbol throughout.
fn constant(shape: &Shape, symbol: u16) -> Vec<u16> {
    vec![symbol; shape.size()]
}

/// A uniform codeword: zeros where there is no other.
fn some_uniform_codeword(random: &mut Random, shape: &Shape) -> Vec<u16> {
    let frame = constant(shape, random.symbol(257));
    match is_codeword(shape, &frame) {
        true => frame,
        false => constant(shape, 0),
    }
}

/// A codeword with 0 in the declared cells: some other cells of each row, as many as it has checks, are
/// made to fit the rest. Where there are no more such cells all is 0.
fn codeword_beside(random: &mut Random, shape: &Shape, declared: &Declared) -> Vec<u16> {
    let mut frame = random.symbols(257, shape.size());
    frame = as_read(shape, declared, &frame);
    for (h, row) in frame.chunks_mut(shape.columns).enumerate() {
        let cells = cells_of(declared, h);
        let others: Vec<usize> = (0..row.len()).filter(|i| !cells.contains(i)).collect();
        let checks = usize::from(shape.checks[h]);
        if others.len() <= checks {
            row.fill(0);
            continue;
        }
        let places = random.subset(others.len(), checks);
        let places: Vec<usize> = places.iter().map(|&place| others[place]).collect();
        let codeword = completed(row, &places, shape.exponents(checks));
        row.copy_from_slice(&codeword.expect("as many sums as columns"));
    }
    frame
}

/// Any codeword: a legal frame; a uniform one; one that agrees with that in the declared cells; one whose
/// data are a single symbol but for one.
fn some_codeword(random: &mut Random, shape: &Shape, declared: &Declared) -> Vec<u16> {
    match random.below(8) {
        0 => some_uniform_codeword(random, shape),
        _ if is_barren(shape) => some_uniform_codeword(random, shape),
        1 => {
            let beside = codeword_beside(random, shape, declared);
            plus(&some_uniform_codeword(random, shape), &beside)
        }
        2 => {
            let mut data = constant(shape, random.symbol(257));
            let place = random.below(data.len());
            data[place] = random.symbol(257);
            encoded(shape, &data)
        }
        _ => some_legal_frame(random, shape),
    }
}

/// Data that are often a single symbol, or so but for one cell.
fn some_encode(random: &mut Random, shape: &Shape) -> Vec<u16> {
    match random.below(4) {
        0 => some_uniform_codeword(random, shape),
        1 => some_codeword(random, shape, &NOTHING),
        _ => random.symbols(257, shape.size()),
    }
}

fn plus(a: &[u16], b: &[u16]) -> Vec<u16> {
    a.iter().zip(b).map(|(x, y)| (x + y) % 257).collect()
}

fn minus(a: &[u16], b: &[u16]) -> Vec<u16> {
    a.iter().zip(b).map(|(x, y)| (x + 257 - y) % 257).collect()
}

/// The frame with so many random columns altered.
fn damaged(random: &mut Random, shape: &Shape, frame: &[u16], count: usize) -> Vec<u16> {
    let mut frame = frame.to_vec();
    let columns = random.subset(shape.columns, count);
    random.damage(&mut frame, shape.columns, &columns);
    frame
}

/// The frame with another size, with a symbol at or above the bound, with both or with neither.
fn malformed(random: &mut Random, shape: &Shape, frame: &[u16]) -> Vec<u16> {
    let mut frame = frame.to_vec();
    if random.once_in(2) {
        let size = random.pick(&[
            0,
            1,
            frame.len() - 1,
            frame.len() + 1,
            frame.len() + shape.columns,
            2 * frame.len(),
        ]);
        frame.resize(size, 0);
    }
    if !frame.is_empty() && random.once_in(2) {
        let place = random.below(frame.len());
        frame[place] = random.pick(&[256, 257, 258, 65535]);
    }
    frame
}

/// Cells that can be declared: nothing; few of each row; up to as many as a row has checks.
fn some_cells(random: &mut Random, shape: &Shape) -> Declared {
    let most = random.pick(&[0, 1, 2, 64, 64]);
    let cells = |&checks: &u16| {
        let count = random.below(most.min(usize::from(checks)) + 1);
        random.subset(shape.columns, count)
    };
    declaring(&shape.checks.iter().map(cells).collect::<Vec<_>>())
}

/// Cells that cannot be declared: one more than a row has checks, or a mark past the last column or
/// row, where there is room for one.
fn bad_cells(random: &mut Random, shape: &Shape) -> Declared {
    let rows = shape.checks.len();
    let mut declared = some_cells(random, shape);
    let mut declare = |h: usize, i: usize| declared[4 * h + i / 64] |= 1 << (i % 64);
    match random.below(3) {
        0 if rows < 8 => declare(random.from_to(rows, 7), random.below(256)),
        1 if shape.columns < 256 => declare(random.below(rows), random.from_to(shape.columns, 255)),
        _ => {
            let h = random.below(rows);
            let cells = random.subset(shape.columns, usize::from(shape.checks[h]) + 1);
            cells.iter().for_each(|&i| declare(h, i));
        }
    }
    declared
}

/// The frame with anything in its declared cells.
fn refilled(random: &mut Random, shape: &Shape, declared: &Declared, frame: &[u16]) -> Vec<u16> {
    let mut frame = frame.to_vec();
    for (h, row) in frame.chunks_mut(shape.columns).enumerate() {
        for i in cells_of(declared, h) {
            let any = random.bits() as u16;
            row[i] = random.pick(&[any, 0, 256, 257, 65535]);
        }
    }
    frame
}
