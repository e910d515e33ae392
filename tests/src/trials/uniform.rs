//! Dead lines: frames of one symbol throughout, every one of them for small shapes, with damage and with
//! lost cells; data whose only codeword is such a frame; rows of one symbol that differ; and repair after
//! slices, or of a frame that shares only its sums with the one located.

use common::interface::{Answer, Declared, Job, NOTHING, SHAPED};
use common::random::Random;

use crate::independent::frames::{
    Shape, as_read, declaring, differing, is_codeword, is_legal, is_uniform, marks_of,
};
use crate::independent::{encoded, uniform_at};
use crate::judge::{FILLED, Judge, Tally};
use crate::trials::{
    codeword_beside, constant, damaged, even_shape, plus, refilled, shaped, some_cells,
    some_codeword, some_shape, some_uniform_codeword,
};

/// Exponents whose powers of 3 are roots of 1 of small orders, and some beside them.
const EXPONENTS: [u32; 12] = [0, 1, 16, 32, 63, 64, 96, 127, 128, 192, 254, 255];

/// What comes of random frames near to uniform ones.
const CAME: [&str; 6] = [
    "lost cells: a uniform codeword, 26",
    "lost cells: one symbol and no codeword, located",
    "lost cells: one symbol and no codeword, refused",
    "near to uniform: located and mended",
    "another frame: 26",
    "another frame: 23 before 26",
];

pub fn run(judge: &mut Judge) {
    let mut random = Random::new(19);
    let mut tally = Tally::of(&CAME);
    for exponent in EXPONENTS {
        for columns in 2..=8 {
            for checks in [&[1][..], &[1, 1], &[1; 3], &[2], &[3, 1], &[1, 2]] {
                small(judge, columns, checks, exponent);
            }
        }
    }
    data(judge);
    order_of_encode(judge);
    by_hand(judge);
    for most in [vec![8; 1_500], vec![40; 60], vec![256; 4]].concat() {
        let shape = match random.once_in(3) {
            true => even_shape(&mut random, most),
            false => some_shape(&mut random, most),
        };
        lost_cells(judge, &mut random, &shape, &mut tally);
        damage(judge, &mut random, &shape);
        near(judge, &mut random, &shape, &mut tally);
        another_frame(judge, &mut random, &shape, &mut tally);
        in_slices(judge, &mut random, &shape);
    }
    for checks in [&[64, 3][..], &[64; 8], &[2]] {
        let shape = large(checks);
        for _ in 0..4 {
            damage(judge, &mut random, &shape);
            in_slices(judge, &mut random, &shape);
        }
        another_frame(judge, &mut random, &shape, &mut tally);
    }
    tally.finish(judge);
}

/// 256 columns from the exponent 1: every constant frame is a codeword.
fn large(checks: &[u16]) -> Shape {
    Shape {
        columns: 256,
        checks: checks.to_vec(),
        exponent: 1,
    }
}

/// Whether constant frames are codewords: the weights of each sum are the powers of a root of 1 of the
/// order that the columns have, and that is not 1. So for n columns the exponent is not 0 modulo 256, and
/// n times it is.
fn has_uniform(shape: &Shape) -> bool {
    let is_root = |exponent: usize| {
        !exponent.is_multiple_of(256) && (exponent * shape.columns).is_multiple_of(256)
    };
    let all = |&checks: &u16| shape.exponents(usize::from(checks)).all(is_root);
    shape.checks.iter().all(all)
}

/// A job that a late refusal leaves: shaped, with its arrays as they were.
fn is_let_go(job: &Job, before: &Job) -> bool {
    let head = before.head.reshaped();
    head.phase == SHAPED && *job == Job { head, ..*before }
}

/// Locates a frame that must be refused by 26, on a job that is shaped and on one that is located.
fn refused(judge: &mut Judge, shape: &Shape, declared: &Declared, frame: &[u16]) {
    let mut located = shaped(shape);
    let data: Vec<u16> = (0..shape.size()).map(|k| (k % 257) as u16).collect();
    judge.locate(&mut located, &NOTHING, &encoded(shape, &data));
    for before in [shaped(shape), located] {
        let mut job = before;
        let answer = judge.locate(&mut job, declared, frame);
        judge.compare(
            "a dead line",
            &(shape, declared, frame),
            (Answer::refused(26), true),
            (answer, is_let_go(&job, &before)),
        );
        let (answer, left) = judge.repair(&mut job, frame);
        judge.compare(
            "nothing is located",
            &(shape, frame),
            (22, frame),
            (answer.refusal, &left),
        );
    }
}

/// Every constant frame as received, and its data to encode, of a shape that may be refused.
fn small(judge: &mut Judge, columns: usize, checks: &[u16], exponent: u32) {
    if checks.iter().any(|&count| usize::from(count) >= columns) {
        return;
    }
    let shape = Shape {
        columns,
        checks: checks.to_vec(),
        exponent,
    };
    let job = shaped(&shape);
    for symbol in 0..257 {
        let frame = constant(&shape, symbol);
        let is_dead = symbol == 0 || has_uniform(&shape);
        judge.compare(
            "constant codewords",
            &(&shape, symbol),
            is_dead,
            is_codeword(&shape, &frame),
        );
        let (refusal, left) = judge.encode(&job, &frame);
        let holds = match is_dead {
            true => refusal == 34 && left == frame,
            false => refusal == 0 && is_legal(&shape, &left),
        };
        judge.expect("constant data", &(&shape, symbol), holds);
        if is_dead {
            refused(judge, &shape, &NOTHING, &frame);
        } else {
            let located = judge.locate(&mut { job }, &NOTHING, &frame);
            let is_refused = located.refusal != 0 || located.count != 0;
            judge.expect("a constant frame", &(&shape, symbol), is_refused);
        }
        if has_uniform(&shape) && checks.len() > 1 {
            rows_differ(judge, &shape, symbol);
        }
    }
}

/// Each row of one symbol, the last row of another: two symbols are enough.
fn rows_differ(judge: &mut Judge, shape: &Shape, symbol: u16) {
    let mut frame = constant(shape, symbol);
    let last = shape.size() - shape.columns;
    frame[last..].fill((symbol + 1) % 257);
    let mut job = shaped(shape);
    let (encoded, _) = judge.encode(&job, &frame);
    let located = judge.locate(&mut job, &NOTHING, &frame);
    let (repaired, left) = judge.repair(&mut job, &frame);
    judge.compare(
        "rows of one symbol that differ",
        &(shape, symbol),
        (0, 0, 0, 0, &frame),
        (
            encoded,
            located.refusal,
            located.count,
            repaired.refusal,
            &left,
        ),
    );
}

/// Data whose only codeword is uniform, with anything in the check cells; and the same with one data
/// symbol altered, which the smallest shape does not take either.
fn data(judge: &mut Judge) {
    let narrow = |columns: usize, checks: &[u16], exponent: u32| Shape {
        columns,
        checks: checks.to_vec(),
        exponent,
    };
    let smallest = narrow(2, &[1], 128);
    let mut all: Vec<(Shape, u16)> = vec![(narrow(4, &[1, 1], 64), 5), (large(&[64, 3]), 7)];
    all.extend((0..257).map(|symbol| (smallest.clone(), symbol)));
    for (shape, symbol) in all {
        let job = shaped(&shape);
        for check in [symbol, 0, 256, 257, 65535] {
            let mut frame = constant(&shape, symbol);
            for (row, &checks) in frame.chunks_mut(shape.columns).zip(&shape.checks) {
                row[..usize::from(checks)].fill(check);
            }
            let (refusal, left) = judge.encode(&job, &frame);
            judge.compare(
                "data of a uniform codeword",
                &(&shape, symbol, check),
                (34, &frame),
                (refusal, &left),
            );
            let last = frame.len() - 1;
            frame[last] = (symbol + 1) % 257;
            let (refusal, left) = judge.encode(&job, &frame);
            let expected = if shape.columns == 2 { 34 } else { 0 };
            judge.compare(
                "one data symbol altered",
                &(&shape, symbol, check),
                (expected, expected == 0),
                (refusal, is_legal(&shape, &left)),
            );
        }
    }
}

/// 34 comes after 21, 7 and 4.
fn order_of_encode(judge: &mut Judge) {
    let shape = Shape {
        columns: 4,
        checks: vec![1, 1],
        exponent: 64,
    };
    let job = shaped(&shape);
    let frame = constant(&shape, 5);
    let bad = constant(&shape, 257);
    let longer = [&bad[..], &[5]].concat();
    for (number, job, frame) in [
        (21, FILLED, &longer),
        (21, FILLED, &frame),
        (7, job, &longer),
        (4, job, &bad),
        (34, job, &frame),
    ] {
        let (refusal, left) = judge.encode(&job, frame);
        judge.compare(
            "a refusal of encode, in order",
            frame,
            (number, frame),
            (refusal, &left),
        );
    }
}

/// One cell of each row lost. Where the constant frame is a codeword it is the frame that would be left,
/// whatever the lost cells hold; where it is none, the lost cells are filled with something else, even if
/// they hold the same symbol as the rest.
fn by_hand(judge: &mut Judge) {
    let declared = declaring(&[vec![0], vec![3]]);
    for (exponent, symbol, is_dead) in [
        (64, 5, true),
        (64, 0, true),
        (1, 0, true),
        (1, 5, false),
        (0, 5, false),
    ] {
        let shape = Shape {
            columns: 4,
            checks: vec![1, 1],
            exponent,
        };
        for lost in [symbol, 0, 6, 256, 257, 65535] {
            let mut frame = constant(&shape, symbol);
            (frame[0], frame[7]) = (lost, lost);
            if is_dead {
                refused(judge, &shape, &declared, &frame);
                continue;
            }
            let mut job = shaped(&shape);
            let located = judge.locate(&mut job, &declared, &frame);
            let (answer, mended) = judge.repair(&mut job, &frame);
            judge.compare(
                "lost cells that are filled with another symbol",
                &(&shape, &frame),
                (0, 0, 0, true),
                (
                    located.refusal,
                    located.count,
                    answer.refusal,
                    is_legal(&shape, &mended),
                ),
            );
        }
    }
}

/// A uniform codeword with anything in its lost cells; and constant frames that are no codewords.
fn lost_cells(judge: &mut Judge, random: &mut Random, shape: &Shape, tally: &mut Tally) {
    let declared = some_cells(random, shape);
    let uniform = some_uniform_codeword(random, shape);
    let frame = refilled(random, shape, &declared, &uniform);
    refused(judge, shape, &declared, &frame);
    tally.count("lost cells: a uniform codeword, 26", frame != uniform);
    let other = constant(shape, random.from_to(1, 256) as u16);
    if is_codeword(shape, &other) {
        return;
    }
    let frame = refilled(random, shape, &declared, &other);
    let refusal = judge.locate(&mut shaped(shape), &declared, &frame).refusal;
    let none = uniform_at(shape, &declared, &frame).is_none();
    judge.expect("no uniform codeword", &(shape, &frame), none);
    let name = |what: &str| format!("lost cells: one symbol and no codeword, {what}");
    tally.count(&name("located"), refusal == 0);
    tally.count(&name("refused"), refusal != 0);
}

/// A uniform codeword with as many columns altered as are always located, some cells lost beside.
fn damage(judge: &mut Judge, random: &mut Random, shape: &Shape) {
    let declared = some_cells(random, shape);
    let uniform = some_uniform_codeword(random, shape);
    for declared in [NOTHING, declared] {
        let count = random.below(shape.least_left(&declared) / 2 + 1);
        let frame = damaged(random, shape, &uniform, count);
        let frame = refilled(random, shape, &declared, &frame);
        refused(judge, shape, &declared, &frame);
    }
}

/// Frames near to uniform ones or not: a frame that is located is mended.
fn near(judge: &mut Judge, random: &mut Random, shape: &Shape, tally: &mut Tally) {
    let declared = some_cells(random, shape);
    let sent = some_codeword(random, shape, &declared);
    let count = random.below(shape.least_left(&declared) / 2 + 2);
    let frame = damaged(random, shape, &sent, count.min(shape.columns));
    let frame = refilled(random, shape, &declared, &frame);
    let mut job = shaped(shape);
    let located = judge.locate(&mut job, &declared, &frame).refusal;
    let (answer, mended) = judge.repair(&mut job, &frame);
    let number = if located == 0 { 0 } else { 22 };
    let inputs = (shape, &declared, &frame);
    judge.compare(
        "repair after locate is not refused",
        &inputs,
        number,
        answer.refusal,
    );
    let is_right = answer.refusal != 0 || is_legal(shape, &mended);
    judge.expect("what is mended is legal", &inputs, is_right);
    tally.count("near to uniform: located and mended", located == 0);
}

/// A legal frame and a uniform codeword that agree in the lost cells, with the same damage: the first is
/// located, and the second lent to repair. One with other sums is refused by 23 before.
fn another_frame(judge: &mut Judge, random: &mut Random, shape: &Shape, tally: &mut Tally) {
    let declared = match random.once_in(2) {
        true => some_cells(random, shape),
        false => NOTHING,
    };
    let uniform = some_uniform_codeword(random, shape);
    let beside = codeword_beside(random, shape, &declared);
    let count = random.below(shape.least_left(&declared) / 2 + 1);
    let received = as_read(shape, &declared, &damaged(random, shape, &uniform, count));
    let mut job = shaped(shape);
    let first = refilled(random, shape, &declared, &plus(&received, &beside));
    let located = judge.locate(&mut job, &declared, &first).refusal;
    let number = if is_uniform(&plus(&uniform, &beside)) {
        26
    } else {
        0
    };
    let inputs = (shape, &declared, &first);
    judge.compare("the first frame", &inputs, number, located);
    if located != 0 {
        return;
    }
    let before = job;
    let altered = damaged(random, shape, &received, 1);
    let mut bad = refilled(random, shape, &declared, &received);
    bad.push(0);
    let (short, _) = judge.repair(&mut job, &bad);
    judge.compare("7 before 26", &inputs, 7, short.refusal);
    let altered = as_read(shape, &declared, &altered);
    if altered != received {
        let (answer, left) = judge.repair(&mut job, &altered);
        judge.compare(
            "23 before 26",
            &inputs,
            (23, &altered, &before),
            (answer.refusal, &left, &job),
        );
        tally.count("another frame: 23 before 26", true);
    }
    let second = refilled(random, shape, &declared, &received);
    dead(judge, shape, &before, &mut job, &second);
    tally.count("another frame: 26", true);
}

/// A repair that is refused by 26, with the frame untouched and the job let go; and once more.
fn dead(judge: &mut Judge, shape: &Shape, before: &Job, job: &mut Job, frame: &[u16]) {
    let (answer, left) = judge.repair(job, frame);
    judge.compare(
        "a repair that would leave a dead line",
        &(shape, frame),
        (Answer::refused(26), frame, true),
        (answer, &left[..], is_let_go(job, before)),
    );
    let (answer, left) = judge.repair(job, frame);
    judge.compare(
        "nothing is located any more",
        &(shape, frame),
        (22, frame),
        (answer.refusal, &left),
    );
}

/// A uniform codeword with damage and lost cells, located in slices: the columns are answered, and the
/// repair is refused.
fn in_slices(judge: &mut Judge, random: &mut Random, shape: &Shape) {
    let Some(slices) = judge.slices() else { return };
    let declared = some_cells(random, shape);
    let uniform = some_uniform_codeword(random, shape);
    let count = random.below(shape.least_left(&declared) / 2 + 1);
    let hit = random.subset(shape.columns, count);
    let mut frame = as_read(shape, &declared, &uniform);
    for row in frame.chunks_mut(shape.columns) {
        for &i in &hit {
            row[i] = (row[i] + random.from_to(1, 256) as u16) % 257;
        }
    }
    let frame = refilled(random, shape, &declared, &frame);
    let seen = differing(shape, &declared, &uniform, &frame);
    let mut job = shaped(shape);
    let mut answer = slices.start(&mut job, &declared, &frame);
    while answer.unfinished == 1 {
        answer = slices.step(&mut job);
    }
    judge.compare(
        "the columns of a dead line in slices",
        &(shape, &declared, &frame),
        (0, seen.len() as u64, marks_of(&seen)),
        (answer.refusal, answer.count, answer.marks),
    );
    let before = job;
    dead(judge, shape, &before, &mut job, &frame);
}
