//! The marked examples (SPECIFICATION.md, "Examples"), with the answers that stand there, and some
//! beside them, worked out by hand.

use common::interface::{Marks, NOTHING};

use crate::judge::Judge;

/// p, the sequences, the taps, and whether they are alone.
type Sequences = (u32, &'static [&'static [u16]], &'static [u16], bool);

const REGISTERS: [Sequences; 8] = [
    (5, &[&[1, 2, 4, 3]], &[1, 3], true),
    (5, &[&[1, 2, 4, 3], &[1, 1]], &[1, 3, 0], false),
    (2, &[&[0, 0, 1]], &[1, 0, 0, 0], false),
    (7, &[&[0, 0, 0], &[]], &[1], true),
    (5, &[&[3]], &[1, 0], false),
    (2, &[&[1, 0, 1, 1, 0, 1], &[0, 1, 1, 0]], &[1, 1, 1], true),
    // The order of the sequences: the longer first, and equal ones as given.
    (2, &[&[1, 1], &[0, 0, 1]], &[1, 0, 0, 0], false),
    (2, &[&[0, 1], &[1, 1]], &[1, 0, 0], false),
];

/// The shape, the cells that are not 0, and the answer.
struct Frame {
    columns: usize,
    checks: &'static [u16],
    exponent: u32,
    cells: &'static [(usize, u16)],
    located: Result<Located, u32>,
}

struct Located {
    sums: &'static [u16],
    tried: u64,
    marks: Marks,
}

const FRAMES: [Frame; 18] = [
    // Mended it would be zeros; and the same damage to a legal frame, whose rows are polynomials with the
    // roots 3, 9, 27 and 3, 9.
    Frame {
        columns: 4,
        checks: &[3, 2],
        exponent: 1,
        cells: &[(2, 5), (6, 7)],
        located: Err(26),
    },
    Frame {
        columns: 4,
        checks: &[3, 2],
        exponent: 1,
        cells: &[
            (0, 42),
            (1, 94),
            (2, 223),
            (3, 1),
            (4, 27),
            (5, 245),
            (6, 8),
        ],
        located: Ok(Located {
            sums: &[45, 148, 47, 63, 53],
            tried: 3,
            marks: [1 << 2, 0, 0, 0],
        }),
    },
    Frame {
        columns: 4,
        checks: &[2, 2],
        exponent: 1,
        cells: &[(0, 1), (1, 1)],
        located: Err(26),
    },
    Frame {
        columns: 4,
        checks: &[1, 1],
        exponent: 1,
        cells: &[(0, 5)],
        located: Err(24),
    },
    Frame {
        columns: 6,
        checks: &[4, 1],
        exponent: 1,
        cells: &[(0, 1), (1, 1)],
        located: Err(25),
    },
    // The last column, whose locator is the inverse of 3.
    Frame {
        columns: 256,
        checks: &[2],
        exponent: 1,
        cells: &[(255, 1)],
        located: Err(26),
    },
    Frame {
        columns: 256,
        checks: &[2],
        exponent: 1,
        cells: &[(0, 27), (1, 245), (2, 1), (255, 1)],
        located: Ok(Located {
            sums: &[86, 200],
            tried: 256,
            marks: [0, 0, 0, 1 << 63],
        }),
    },
    // Other exponents. The weights of the first sum are 1 in every column; −1 in the odd ones, as 3^128
    // is −1; and the inverses of the locators, after which they are 1.
    Frame {
        columns: 4,
        checks: &[3, 2],
        exponent: 0,
        cells: &[
            (0, 230),
            (1, 39),
            (2, 249),
            (3, 1),
            (4, 3),
            (5, 253),
            (6, 8),
        ],
        located: Ok(Located {
            sums: &[5, 45, 148, 7, 63],
            tried: 3,
            marks: [1 << 2, 0, 0, 0],
        }),
    },
    Frame {
        columns: 4,
        checks: &[3, 2],
        exponent: 128,
        cells: &[(0, 27), (1, 40), (2, 13), (3, 1), (4, 3), (5, 6), (6, 1)],
        located: Ok(Located {
            sums: &[256, 254, 248, 255, 251],
            tried: 2,
            marks: [1 << 1, 0, 0, 0],
        }),
    },
    Frame {
        columns: 4,
        checks: &[3, 2],
        exponent: 255,
        cells: &[
            (0, 256),
            (1, 90),
            (2, 176),
            (3, 1),
            (4, 86),
            (5, 170),
            (6, 19),
        ],
        located: Ok(Located {
            sums: &[1, 9, 81, 2, 18],
            tried: 3,
            marks: [1 << 2, 0, 0, 0],
        }),
    },
    // Sums 2 4 and 0 0; taps 1 255, and no column below 4 has the locator 2.
    Frame {
        columns: 4,
        checks: &[2, 2],
        exponent: 0,
        cells: &[(0, 1), (1, 1)],
        located: Err(26),
    },
    // The row of the last example below, which is legal for the exponent 1: 245 + 1 + 1 is not 0.
    Frame {
        columns: 3,
        checks: &[1],
        exponent: 0,
        cells: &[(0, 245), (1, 1), (2, 1)],
        located: Err(24),
    },
    // Dead lines: 3^64 is a fourth root of 1, and its powers add up to 0. In the third frame rows differ.
    Frame {
        columns: 4,
        checks: &[1, 1],
        exponent: 64,
        cells: &[],
        located: Err(26),
    },
    Frame {
        columns: 4,
        checks: &[1, 1],
        exponent: 64,
        cells: &[
            (0, 5),
            (1, 5),
            (2, 5),
            (3, 5),
            (4, 5),
            (5, 5),
            (6, 5),
            (7, 5),
        ],
        located: Err(26),
    },
    Frame {
        columns: 4,
        checks: &[1, 1],
        exponent: 64,
        cells: &[
            (0, 5),
            (1, 5),
            (2, 5),
            (3, 5),
            (4, 6),
            (5, 6),
            (6, 6),
            (7, 6),
        ],
        located: Ok(Located {
            sums: &[0, 0],
            tried: 0,
            marks: [0; 4],
        }),
    },
    // No codeword for the exponent 1, nor for 63.
    Frame {
        columns: 4,
        checks: &[1, 1],
        exponent: 1,
        cells: &[
            (0, 5),
            (1, 5),
            (2, 5),
            (3, 5),
            (4, 5),
            (5, 5),
            (6, 5),
            (7, 5),
        ],
        located: Err(24),
    },
    Frame {
        columns: 4,
        checks: &[1, 1],
        exponent: 63,
        cells: &[
            (0, 5),
            (1, 5),
            (2, 5),
            (3, 5),
            (4, 5),
            (5, 5),
            (6, 5),
            (7, 5),
        ],
        located: Err(24),
    },
    // Weights 1 and −1: every codeword is uniform.
    Frame {
        columns: 2,
        checks: &[1],
        exponent: 128,
        cells: &[(0, 9), (1, 9)],
        located: Err(26),
    },
];

pub fn run(judge: &mut Judge) {
    registers(judge);
    for example in FRAMES {
        locate(judge, &example);
    }
    encodings(judge);
}

fn registers(judge: &mut Judge) {
    for (p, sequences, taps, alone) in REGISTERS {
        let lengths: Vec<u16> = sequences
            .iter()
            .map(|sequence| sequence.len() as u16)
            .collect();
        let (register, found) = judge.find(p, &lengths, &sequences.concat(), 129);
        judge.compare(
            "the taps of an example",
            &(p, sequences),
            taps,
            &found[..=register.length as usize],
        );
        judge.compare(
            "the alone mark of an example",
            &(p, sequences),
            u32::from(alone),
            register.alone,
        );
    }
}

fn locate(judge: &mut Judge, example: &Frame) {
    let mut frame = vec![0; example.checks.len() * example.columns];
    for &(place, symbol) in example.cells {
        frame[place] = symbol;
    }
    let mut job = judge.empty();
    judge.shape(&mut job, example.columns, example.checks, example.exponent);
    let answer = judge.locate(&mut job, &NOTHING, &frame);
    let cells = &example.cells;
    match &example.located {
        Err(number) => judge.compare("the refusal of an example", cells, *number, answer.refusal),
        Ok(Located { sums, tried, marks }) => {
            judge.compare("the columns of an example", cells, *marks, answer.marks);
            judge.compare("the columns tried", cells, *tried, answer.tried);
            let held = &job.sums[..sums.len()];
            judge.compare("the sums of an example", cells, *sums, held);
        }
    }
}

/// −(3 + 9); −(1 + 1); −(9 + 81); −(−1 + 1); minus the inverses of 3 and 9, which are 86 and 200.
fn encodings(judge: &mut Judge) {
    for (exponent, check) in [(1, 245), (0, 255), (2, 167), (128, 0), (255, 228)] {
        let mut job = judge.empty();
        judge.shape(&mut job, 3, &[1], exponent);
        let (_, frame) = judge.encode(&job, &[0, 1, 1]);
        let expected = [check, 1, 1];
        judge.compare("the check of an example", &exponent, &expected[..], &frame);
    }
}
