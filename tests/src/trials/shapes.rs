//! Shapes: the edges of every refusal, alone and among others, on jobs of each phase.

use common::interface::{Job, NOTHING};
use common::random::Random;

use crate::judge::Judge;
use crate::trials::{shaped, some_legal_frame, some_shape};

/// Exponents, with the refusal of each. Some are small in their last 8 or 16 bits, or as signed numbers.
const EDGES: [(u32, u32); 11] = [
    (0, 0),
    (1, 0),
    (255, 0),
    (256, 32),
    (257, 32),
    (65_535, 32),
    (65_536, 32),
    (65_537, 32),
    (1 << 24, 32),
    (1 << 31, 32),
    (u32::MAX, 32),
];

pub fn run(judge: &mut Judge) {
    let mut random = Random::new(2);
    let jobs = jobs(judge, &mut random);
    for job in jobs {
        edges(judge, &job);
        exponents(judge, &job);
        order(judge, &job);
    }
    for _ in 0..4_000 {
        let mut job = random.pick(&jobs);
        let rows = random.pick(&[0, 1, 2, 3, 8, 9]);
        let columns = random.pick(&[0, 1, 2, 3, 64, 65, 256, 257, 1 << 32, usize::MAX]);
        let counts = [0, 1, 2, 63, 64, 65, 256, 65_535];
        let mut checks: Vec<u16> = (0..rows).map(|_| random.pick(&[1, 2])).collect();
        if rows > 0 && random.once_in(2) {
            checks[random.below(rows)] = random.pick(&counts);
        }
        let (exponent, _) = random.pick(&EDGES);
        judge.shape(&mut job, columns, &checks, exponent);
    }
}

/// An empty, a shaped and a located job.
fn jobs(judge: &mut Judge, random: &mut Random) -> [Job; 3] {
    let shape = some_shape(random, 20);
    let frame = some_legal_frame(random, &shape);
    let mut located = shaped(&shape);
    judge.locate(&mut located, &NOTHING, &frame);
    [judge.empty(), shaped(&shape), located]
}

fn edges(judge: &mut Judge, job: &Job) {
    let mut refusal = |number: u32, columns: usize, checks: &[u16]| {
        let got = judge.shape(&mut { *job }, columns, checks, 1);
        judge.compare("a refusal at the edge", &(columns, checks), number, got);
    };
    for (rows, number) in [(0, 2), (1, 0), (8, 0), (9, 2), (300, 2)] {
        refusal(number, 2, &vec![1; rows]);
    }
    for (columns, number) in [(0, 5), (1, 5), (2, 0), (256, 0), (257, 5), (usize::MAX, 5)] {
        refusal(number, columns, &[1]);
    }
    for (checks, number) in [(0, 6), (1, 0), (64, 0), (65, 6), (65_535, 6)] {
        refusal(number, 256, &[checks]);
        refusal(number, 256, &[1, 1, 1, 1, 1, 1, 1, checks]);
    }
    for (columns, number) in [(63, 6), (64, 6), (65, 0)] {
        refusal(number, columns, &[64]);
    }
    refusal(6, 2, &[2]);
    refusal(2, 1, &[0; 9]);
    refusal(2, 257, &[]);
    refusal(5, 257, &[0; 8]);
}

/// Every exponent that is taken, and those beyond. The head that is left has it.
fn exponents(judge: &mut Judge, job: &Job) {
    let taken = (0..256).map(|exponent| (exponent, 0));
    for (exponent, number) in taken.chain(EDGES) {
        let mut job = *job;
        let before = job.head.exponent;
        let got = judge.shape(&mut job, 256, &[64, 1], exponent);
        let left = if number == 0 { exponent } else { before };
        judge.compare(
            "the refusal of an exponent, and what is left",
            &exponent,
            (number, left),
            (got, job.head.exponent),
        );
    }
}

/// Every combination of reasons: the first of them counts.
fn order(judge: &mut Judge, job: &Job) {
    for (rows, first) in [(2, 0), (0, 2), (9, 2)] {
        for (columns, second) in [(8, 0), (1, 5), (257, 5)] {
            for (count, third) in [(1, 0), (0, 6), (8, 6), (65, 6)] {
                for (exponent, last) in EDGES {
                    let reasons = [first, second, third, last];
                    let number = reasons.into_iter().find(|&number| number != 0);
                    let got = judge.shape(&mut { *job }, columns, &vec![count; rows], exponent);
                    judge.compare(
                        "the first reason of a refusal",
                        &(rows, columns, count, exponent),
                        number.unwrap_or(0),
                        got,
                    );
                }
            }
        }
    }
}
