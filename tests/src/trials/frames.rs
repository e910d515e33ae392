//! Encode, locate and repair of frames of every size, and the refusals of malformed ones. At small
//! sizes every set of columns is tried for legal frames.

use common::interface::{Answer, Declared, Job, NOTHING};
use common::random::Random;

use crate::independent::frames::{Shape, differing, is_legal, legal_at};
use crate::independent::register_of;
use crate::judge::{FILLED, Judge};
use crate::trials::{
    EXPONENTS, damaged, malformed, shaped, some_data, some_legal_frame, some_shape,
};

pub fn run(judge: &mut Judge) {
    let mut random = Random::new(3);
    for _ in 0..2_500 {
        let shape = some_shape(&mut random, 7);
        frames(judge, &mut random, &shape);
    }
    for _ in 0..150 {
        let shape = some_shape(&mut random, 40);
        frames(judge, &mut random, &shape);
    }
    for _ in 0..8 {
        let shape = some_shape(&mut random, 256);
        frames(judge, &mut random, &shape);
    }
    for (columns, exponent) in [(65, 255), (256, 1)] {
        let checks = vec![64; 8];
        let shape = Shape {
            columns,
            checks,
            exponent,
        };
        frames(judge, &mut random, &shape);
    }
    for exponent in EXPONENTS {
        every_column(judge, &mut random, exponent);
    }
}

fn frames(judge: &mut Judge, random: &mut Random, shape: &Shape) {
    let job = shaped(shape);
    let data = some_data(random, shape);
    let (_, sent) = judge.encode(&job, &junk_checks(random, shape, &data));
    judge.expect(
        "encode leaves a legal frame",
        &(shape, &data),
        is_legal(shape, &sent),
    );
    let most = shape.columns.min(shape.least_checks() + 1);
    for count in [0, 1, shape.least_checks() / 2, random.below(most + 1)] {
        let received = damaged(random, shape, &sent, count);
        let (answer, mended) = mend(judge, &job, shape, &NOTHING, &received);
        if 2 * count <= shape.least_checks() {
            judge.compare(
                "the sent frame comes back",
                &(shape, &received),
                (0, &sent),
                (answer.refusal, &mended),
            );
        }
    }
    mend(judge, &job, shape, &NOTHING, &data);
    refusals(judge, random, &job, shape, &sent);
}

/// Check cells may hold anything before encode.
fn junk_checks(random: &mut Random, shape: &Shape, data: &[u16]) -> Vec<u16> {
    let mut frame = data.to_vec();
    for (row, &checks) in frame.chunks_mut(shape.columns).zip(&shape.checks) {
        row[..usize::from(checks)].fill_with(|| random.bits() as u16);
    }
    frame
}

/// Locates and repairs a well-formed frame, and holds what comes to the definitions.
pub fn mend(
    judge: &mut Judge,
    shaped: &Job,
    shape: &Shape,
    declared: &Declared,
    received: &[u16],
) -> (Answer, Vec<u16>) {
    let mut job = *shaped;
    let located = judge.locate(&mut job, declared, received);
    let (answer, mended) = judge.repair(&mut job, received);
    if shape.columns <= 7 {
        exhaustive(judge, shape, declared, received, &located, &mended);
    }
    (answer, mended)
}

/// What locate and repair answered, against all legal frames near by.
pub fn exhaustive(
    judge: &mut Judge,
    shape: &Shape,
    declared: &Declared,
    received: &[u16],
    located: &Answer,
    mended: &[u16],
) {
    let Some(taps) = register_of(shape, declared, received) else {
        return;
    };
    let c = taps.len() - 1;
    if c > shape.least_left(declared) {
        return;
    }
    let nearest = legal_at(shape, declared, received, c);
    let inputs = (shape, declared, received);
    judge.compare(
        "refused exactly without a legal frame",
        &inputs,
        nearest.is_empty(),
        located.refusal != 0,
    );
    if located.refusal != 0 {
        return;
    }
    let nearer: usize = (0..c)
        .map(|distance| legal_at(shape, declared, received, distance).len())
        .sum();
    judge.compare("legal frames that are nearer", &inputs, 0, nearer);
    judge.compare(
        "the only legal frame at the distance",
        &inputs,
        &[mended.to_vec()][..],
        &nearest,
    );
    judge.compare(
        "the number of columns",
        &inputs,
        c,
        differing(shape, declared, received, mended).len(),
    );
}

fn refusals(judge: &mut Judge, random: &mut Random, shaped: &Job, shape: &Shape, sent: &[u16]) {
    let mut located = *shaped;
    judge.locate(&mut located, &NOTHING, sent);
    for _ in 0..4 {
        let bad = malformed(random, shape, sent);
        for job in [FILLED, *shaped, located] {
            judge.encode(&job, &bad);
            judge.locate(&mut { job }, &NOTHING, &bad);
            judge.repair(&mut { job }, &bad);
        }
    }
}

/// One damaged column after the other, in the largest frame.
fn every_column(judge: &mut Judge, random: &mut Random, exponent: u32) {
    let shape = Shape {
        columns: 256,
        checks: vec![2],
        exponent,
    };
    let sent = some_legal_frame(random, &shape);
    for i in 0..256 {
        let mut received = sent.clone();
        random.damage(&mut received, 256, &[i]);
        let mut job = shaped(&shape);
        judge.locate(&mut job, &NOTHING, &received);
        let (_, mended) = judge.repair(&mut job, &received);
        judge.compare("the sent frame comes back", &(exponent, i), &sent, &mended);
    }
}
