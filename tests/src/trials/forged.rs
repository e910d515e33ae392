//! Jobs that no call left: any number in any field. Each call is safe on them, and they count as
//! empty but where the numbers of the head are in their ranges. The arrays do not matter for that;
//! but a located job counts as shaped where no locate leaves it with the declared cells that it holds.

use common::interface::{Declared, EMPTY, Job, LOCATED, SHAPED, UNFINISHED};
use common::random::Random;

use crate::independent::frames::{Shape, as_read, marks_of};
use crate::judge::Judge;
use crate::trials::{
    bad_cells, damaged, malformed, refilled, shaped, some_cells, some_exponent, some_legal_frame,
    some_shape,
};

pub fn run(judge: &mut Judge) {
    let mut random = Random::new(4);
    for _ in 0..6_000 {
        let shape = some_shape(&mut random, 9);
        let sent = some_legal_frame(&mut random, &shape);
        let declared = some_cells(&mut random, &shape);
        let most = shape.columns.min(shape.least_left(&declared));
        let count = random.below(most / 2 + 1);
        let received = damaged(&mut random, &shape, &sent, count);
        let received = refilled(&mut random, &shape, &declared, &received);
        let mut job = shaped(&shape);
        if !random.once_in(4) {
            judge.locate(&mut job, &declared, &received);
            other_arrays(judge, &mut random, &job, &shape, &received);
        }
        other_exponents(judge, &job, &declared, &received);
        for _ in 0..random.from_to(1, 3) {
            forge(&mut random, &mut job, &shape);
        }
        calls(judge, &mut random, &job, &shape, &declared, &received);
    }
}

/// A located job with another sum, which need not be below 257, has sums that differ. With other
/// taps it is mended as before. With cells that cannot be declared it is shaped. None of these is
/// read by the other calls, which answer as they do for the job itself.
fn other_arrays(
    judge: &mut Judge,
    random: &mut Random,
    located: &Job,
    shape: &Shape,
    received: &[u16],
) {
    if located.head.phase != LOCATED {
        return;
    }
    let place = random.below(512);
    let (mut summed, mut tapped, mut celled) = (*located, *located, *located);
    summed.sums[place] ^= random.pick(&[1, 256, 1 << 15, u16::MAX]);
    tapped.taps.fill_with(|| random.bits() as u16);
    celled.declared = bad_cells(random, shape);
    let declared = &located.declared;
    let data = as_read(shape, declared, received);
    let (untouched, _) = judge.encode(located, &data);
    for (job, number) in [(summed, 23), (tapped, 0), (celled, 22)] {
        let (encoded, _) = judge.encode(&job, &data);
        let located = judge.locate(&mut { job }, declared, received).refusal;
        let repaired = judge.repair(&mut { job }, received).0.refusal;
        judge.compare(
            "the refusals of other arrays",
            &(job, received),
            [untouched, 0, number],
            [encoded, located, repaired],
        );
    }
}

/// A job whose head has an exponent above 255 counts as empty, shaped or located.
fn other_exponents(judge: &mut Judge, job: &Job, declared: &Declared, received: &[u16]) {
    for exponent in [256, 257, 511, 65_536, 65_537, u32::MAX] {
        let mut job = *job;
        job.head.exponent = exponent;
        let (encoded, _) = judge.encode(&job, received);
        let located = judge.locate(&mut { job }, declared, received).refusal;
        let repaired = judge.repair(&mut { job }, received).0.refusal;
        judge.compare(
            "the refusals of another exponent",
            &(job, received),
            [21; 3],
            [encoded, located, repaired],
        );
    }
}

fn some_number(random: &mut Random) -> u64 {
    let any = random.bits();
    random.pick(&[
        0,
        1,
        2,
        3,
        7,
        8,
        9,
        64,
        65,
        256,
        257,
        1 << 32,
        (1 << 32) + 2,
        u64::MAX,
        any,
    ])
}

pub fn forge(random: &mut Random, job: &mut Job, shape: &Shape) {
    let number = some_number(random);
    match random.below(18) {
        0 => job.head.phase = random.pick(&[EMPTY, SHAPED, LOCATED, UNFINISHED]),
        1 => job.head.phase = number as u32,
        2 => job.head.alone = number as u32,
        3 => job.head.length = number,
        4 => job.head.rows = number,
        5 => job.head.columns = number,
        6 => job.head.marks[random.below(4)] = number,
        7 => job.head.checks[random.below(8)] = number as u16,
        8 => job.sums[random.below(512)] = number as u16,
        9 => job.sums[random.below(8)] = random.symbol(257),
        10 => job.taps[random.below(65)] = number as u16,
        11 => other_columns(random, job),
        12 => job.declared[random.below(32)] = number,
        13 => job.declared = some_cells(random, shape),
        14 => job.declared = bad_cells(random, shape),
        15 => job.head.exponent = number as u32,
        16 => job.head.exponent = some_exponent(random),
        _ => random_fields(random, job),
    }
}

/// Other columns, as many as the length says, which may be too many for the rows.
fn other_columns(random: &mut Random, job: &mut Job) {
    let columns = random.from_to(1, 9);
    let count = random.below(columns + 1);
    job.head.marks = marks_of(&random.subset(columns, count));
    job.head.length = count as u64;
}

fn random_fields(random: &mut Random, job: &mut Job) {
    job.head.marks = [0; 4].map(|_| random.bits());
    job.declared.fill_with(|| random.bits());
    job.head.length = some_number(random);
    job.sums.fill_with(|| random.bits() as u16);
    job.taps.fill_with(|| random.bits() as u16);
    job.head.checks.fill_with(|| random.bits() as u16);
    job.head.exponent = random.bits() as u32;
}

/// Each call on the forged job, and on what the call left; frames with the sums that it holds too.
fn calls(
    judge: &mut Judge,
    random: &mut Random,
    forged: &Job,
    shape: &Shape,
    declared: &Declared,
    received: &[u16],
) {
    let bad = malformed(random, shape, received);
    for frame in [received, &bad] {
        judge.encode(forged, frame);
        for cells in [declared, &forged.declared] {
            let mut job = *forged;
            judge.locate(&mut job, cells, frame);
            judge.repair(&mut job, frame);
        }
        let mut job = *forged;
        let (_, left) = judge.repair(&mut job, frame);
        judge.locate(&mut job, declared, &left);
    }
    for (columns, exponent) in [(1, 1), (9, 128), (9, 256)] {
        let mut job = *forged;
        judge.shape(&mut job, columns, &[1, 2], exponent);
        judge.locate(&mut job, declared, received);
        judge.encode(&job, &[0; 18]);
    }
}
