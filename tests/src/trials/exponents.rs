//! The exponent that the check sums begin at: each of them in a small frame, and some in the largest;
//! frames and the same rescaled to the exponent 1; frames that are legal for one exponent, lent to a job
//! of another; and shapes, one after the other, that differ in the exponent alone.

use common::interface::{Answer, Declared, Job, NOTHING};
use common::random::Random;

use crate::independent::frames::{Shape, as_read, declaring, is_legal, marks_of, weights};
use crate::independent::uniform_at;
use crate::judge::Judge;
use crate::trials::{
    EXPONENTS, damaged, is_barren, refilled, shaped, some_cells, some_data, some_legal_frame,
    some_shape,
};

pub fn run(judge: &mut Judge) {
    let mut random = Random::new(10);
    for declared in [&[], &[0, 5, 11][..]] {
        every_exponent(judge, &mut random, declared);
    }
    for exponent in EXPONENTS {
        for lost in [0, 1, 16, 63] {
            largest(judge, &mut random, exponent, lost);
        }
    }
    for exponent in (0..256).cycle().take(6 * 256) {
        let shape = some_shape_at(&mut random, exponent);
        rescaled(judge, &mut random, &shape);
    }
    illegal_elsewhere(judge, &mut random);
    for exponent in 0..256 {
        legal_for_two(judge, &mut random, exponent);
    }
    for (one, other) in pairs() {
        only_the_exponent(judge, &mut random, one, other);
    }
}

fn at(exponent: u32, shape: &Shape) -> Shape {
    Shape {
        exponent,
        ..shape.clone()
    }
}

/// A shape with this exponent that has legal frames.
fn some_shape_at(random: &mut Random, exponent: u32) -> Shape {
    loop {
        let shape = at(exponent, &some_shape(random, 12));
        if !is_barren(&shape) {
            return shape;
        }
    }
}

/// Each of the exponents with each other one, in both orders.
fn pairs() -> Vec<(u32, u32)> {
    let all = EXPONENTS
        .iter()
        .flat_map(|&one| EXPONENTS.map(|other| (one, other)));
    all.filter(|(one, other)| one != other).collect()
}

/// Encodes the data, adds the damage, puts anything into the declared cells, locates and repairs: what
/// was sent comes back. Answers what locate answered, and the job that it left.
fn round_trip(
    judge: &mut Judge,
    random: &mut Random,
    shape: &Shape,
    declared: &Declared,
    [data, damage]: [&[u16]; 2],
) -> (Answer, Job) {
    let mut job = shaped(shape);
    let (_, sent) = judge.encode(&job, data);
    judge.expect(
        "encode leaves a legal frame",
        &(shape, data),
        is_legal(shape, &sent),
    );
    let cells = sent.iter().zip(damage);
    let received: Vec<u16> = cells.map(|(x, y)| (x + y) % 257).collect();
    let received = refilled(random, shape, declared, &received);
    let located = judge.locate(&mut job, declared, &received);
    let (answer, mended) = judge.repair(&mut { job }, &received);
    judge.compare(
        "the sent frame comes back",
        &(shape, declared, &received),
        (0, &sent),
        (answer.refusal, &mended),
    );
    (located, job)
}

/// The same data and the same damage at every exponent: the same columns are found, by the same taps.
fn every_exponent(judge: &mut Judge, random: &mut Random, lost: &[usize]) {
    let shape = Shape {
        columns: 12,
        checks: vec![6, 4, 7],
        exponent: 1,
    };
    let declared = declaring(&[vec![], vec![], lost.to_vec()]);
    let data = random.symbols(257, shape.size());
    let mut damage = vec![0; shape.size()];
    let hit = [2, 9];
    random.damage(&mut damage, shape.columns, &hit);
    // (1 − 3^2·x)·(1 − 3^9·x), where 3^9 is 151
    let taps = [1, 257 - 9 - 151, 9 * 151 % 257, 0];
    for exponent in 0..256 {
        let shape = at(exponent, &shape);
        let frames = [&data[..], &damage];
        let (answer, job) = round_trip(judge, random, &shape, &declared, frames);
        judge.compare(
            "the columns and the taps at every exponent",
            &(shape, declared),
            (2, marks_of(&hit), &taps[..]),
            (answer.count, answer.marks, &job.taps[..4]),
        );
    }
}

/// The largest frame, with so many cells lost in each row, and as many columns damaged in all rows as
/// are always mended.
fn largest(judge: &mut Judge, random: &mut Random, exponent: u32, lost: usize) {
    let shape = Shape {
        columns: 256,
        checks: vec![64; 8],
        exponent,
    };
    let rows: Vec<_> = (0..8).map(|_| random.subset(256, lost)).collect();
    let data = random.symbols(257, shape.size());
    let hit = random.subset(256, (64 - lost) / 2);
    let mut damage = vec![0; shape.size()];
    for row in damage.chunks_mut(256) {
        for &i in &hit {
            row[i] = random.from_to(1, 256) as u16;
        }
    }
    let declared = declaring(&rows);
    let (answer, _) = round_trip(judge, random, &shape, &declared, [&data, &damage]);
    judge.compare(
        "the columns of the largest frame",
        &(exponent, lost),
        marks_of(&hit),
        answer.marks,
    );
}

/// A frame and the same rescaled to the exponent 1, the symbols at column i times 3^(i·(b − 1)): the check
/// sums are the same, and so is all that is made of them. Only whether the mended frame is uniform is not.
fn rescaled(judge: &mut Judge, random: &mut Random, shape: &Shape) {
    let weights = weights(shape.columns, (shape.exponent as usize + 255) % 256);
    let to_one = |frame: &[u16]| {
        let cells = frame.iter().zip(weights.iter().cycle());
        cells
            .map(|(&x, weight)| (u64::from(x) * weight % 257) as u16)
            .collect::<Vec<_>>()
    };
    let sent = some_legal_frame(random, shape);
    let declared = some_cells(random, shape);
    let count = random.below(shape.columns + 1);
    let received = damaged(random, shape, &sent, count);
    let received = as_read(shape, &declared, &received);
    let mut mend = |shape: &Shape, frame: &[u16]| {
        let mut job = shaped(shape);
        let located = judge.locate(&mut job, &declared, frame);
        let (sums, taps) = (job.sums, job.taps);
        let (_, mended) = judge.repair(&mut job, frame);
        ((located, sums, taps), mended)
    };
    let (located, mended) = mend(shape, &received);
    let (expected, other) = mend(&at(1, shape), &to_one(&received));
    if uniform_at(shape, &declared, &received).is_some() {
        return;
    }
    let inputs = (shape, declared, received);
    judge.compare("what is located", &inputs, expected, located);
    judge.compare("what is mended", &inputs, other, to_one(&mended));
}

/// A frame that is encoded for one exponent is legal for another only by chance, and where it is no
/// columns are found.
fn illegal_elsewhere(judge: &mut Judge, random: &mut Random) {
    let mut illegal = 0;
    for (one, other) in pairs().repeat(20) {
        let shape = some_shape_at(random, one);
        let elsewhere = at(other, &shape);
        let data = some_data(random, &shape);
        let (_, frame) = judge.encode(&shaped(&shape), &data);
        let located = judge.locate(&mut shaped(&elsewhere), &NOTHING, &frame);
        let is_legal = is_legal(&elsewhere, &frame);
        judge.compare(
            "no columns exactly where a frame is legal",
            &(shape, other, frame),
            is_legal,
            (located.refusal, located.count) == (0, 0),
        );
        illegal += u32::from(!is_legal);
    }
    judge.expect("legal elsewhere only by chance", &illegal, illegal > 580);
}

/// A frame that is encoded with one check more in each row is legal for the exponent and for the next
/// one, which after 255 is 0, and not for those around them.
fn legal_for_two(judge: &mut Judge, random: &mut Random, exponent: u32) {
    let shape = Shape {
        columns: 9,
        checks: vec![4, 2, 5],
        exponent,
    };
    let longer = Shape {
        checks: vec![5, 3, 6],
        ..shape.clone()
    };
    let data = random.symbols(257, shape.size());
    let (_, frame) = judge.encode(&shaped(&longer), &data);
    for (next, is_legal) in [(0, true), (1, true), (2, false), (255, false)] {
        let shape = at((exponent + next) % 256, &shape);
        let located = judge.locate(&mut shaped(&shape), &NOTHING, &frame);
        judge.compare(
            "the next exponent",
            &(shape, exponent, &frame),
            is_legal,
            (located.refusal, located.count) == (0, 0),
        );
    }
}

/// A job that is located and then gets a shape with another exponent has nothing to mend by, and
/// works with that exponent from then on. A refused exponent changes nothing.
fn only_the_exponent(judge: &mut Judge, random: &mut Random, one: u32, other: u32) {
    let shape = Shape {
        columns: 10,
        checks: vec![4, 2, 5],
        exponent: one,
    };
    let elsewhere = at(other, &shape);
    let sent = [&shape, &elsewhere].map(|shape| some_legal_frame(random, shape));
    let received = sent.each_ref().map(|sent| damaged(random, &shape, sent, 1));
    let mut job = shaped(&shape);
    judge.locate(&mut job, &NOTHING, &received[0]);
    let refused = judge.shape(&mut job, 10, &shape.checks, 256 + other);
    let (answer, mended) = judge.repair(&mut { job }, &received[0]);
    judge.compare(
        "a refused exponent",
        &(one, other),
        (32, 0, &sent[0]),
        (refused, answer.refusal, &mended),
    );
    judge.shape(&mut job, 10, &shape.checks, other);
    let (answer, left) = judge.repair(&mut job, &received[0]);
    judge.compare(
        "nothing to mend by",
        &(one, other),
        (22, &received[0]),
        (answer.refusal, &left),
    );
    let (_, encoded) = judge.encode(&job, &sent[0]);
    let located = judge.locate(&mut job, &NOTHING, &received[1]);
    let (_, mended) = judge.repair(&mut job, &received[1]);
    judge.compare(
        "the other exponent",
        &(one, other),
        (true, 0, &sent[1]),
        (is_legal(&elsewhere, &encoded), located.refusal, &mended),
    );
}
