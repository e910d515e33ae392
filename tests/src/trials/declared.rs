//! Declared cells: frames of every size with none, with few and with as many as a row has checks, and
//! anything in them; small frames against a list of all legal ones; the edges of refusal 31; columns
//! that are both damaged and declared; and repair with the cells of the last locate.

use common::interface::{Declared, Job, NOTHING};
use common::random::Random;

use crate::independent::enumeration::{Alike, CodewordRows};
use crate::independent::frames::{Shape, declaring, differing, is_legal, marks_of};
use crate::independent::{encoded, register_of, uniform_at};
use crate::judge::{FILLED, Judge};
use crate::trials::frames::mend;
use crate::trials::{
    EXPONENTS, bad_cells, constant, damaged, malformed, plus, refilled, shaped, some_cells,
    some_codeword, some_exponent, some_legal_frame, some_shape,
};

pub fn run(judge: &mut Judge) {
    let mut random = Random::new(9);
    for exponent in EXPONENTS {
        smallest(judge, exponent);
    }
    order(judge);
    every_mark(judge);
    for _ in 0..2_500 {
        let shape = some_shape(&mut random, 7);
        frames(judge, &mut random, &shape);
        all_checks(judge, &mut random, &shape);
        other_cells(judge, &mut random, &shape);
    }
    for _ in 0..150 {
        let shape = some_shape(&mut random, 40);
        frames(judge, &mut random, &shape);
        all_checks(judge, &mut random, &shape);
    }
    for _ in 0..8 {
        let shape = some_shape(&mut random, 256);
        frames(judge, &mut random, &shape);
    }
    for (columns, exponent) in [(65, 128), (256, 1)] {
        let checks = vec![64; 8];
        let shape = Shape {
            columns,
            checks,
            exponent,
        };
        frames(judge, &mut random, &shape);
        all_checks(judge, &mut random, &shape);
        for count in [1, 8, 20, 32] {
            full_set(judge, &mut random, columns, count);
        }
    }
    marked_and_declared(judge, &mut random);
    enumerated(judge, &mut random);
}

/// The smallest frame with c columns named, checks enough and no legal frame at distance c, whatever
/// its declared cell holds and the exponent is; and one beside it that is mended.
fn smallest(judge: &mut Judge, exponent: u32) {
    let shape = Shape {
        columns: 3,
        checks: vec![2, 2],
        exponent,
    };
    let declared = declaring(&[vec![], vec![0]]);
    let legal = encoded(&shape, &[0, 0, 1, 0, 0, 2]);
    for lost in [0, 1, 256, 257, 65535] {
        let mut answer = |declared: &Declared, frame: &[u16]| {
            let mut job = shaped(&shape);
            let located = judge.locate(&mut job, declared, frame);
            let (repaired, left) = judge.repair(&mut job, frame);
            let marks = located.marks[0];
            (located.refusal, marks, repaired.refusal, left)
        };
        let with = |cell: u16, damage: [u16; 6]| {
            let mut frame = plus(&legal, &damage);
            frame[3] = cell;
            frame
        };
        let received = with(lost, [1, 0, 0, 0, 1, 0]);
        let refused = answer(&declared, &received);
        let mended = answer(&declared, &with(lost, [1, 0, 0, 0, 0, 0]));
        let dead = answer(&declared, &[1, 0, 0, lost, 0, 0]);
        let [several, bad] = [legal[3], lost].map(|cell| {
            let frame = with(cell, [1, 0, 0, 0, 1, 0]);
            answer(&NOTHING, &frame).0
        });
        judge.compare(
            "the smallest refusal of a completion",
            &lost,
            (26, 0, 22, received),
            refused,
        );
        judge.compare(
            "the frame beside it",
            &lost,
            (0, 1, 0, legal.clone()),
            mended,
        );
        let zeros = (26, 0, 22, vec![1, 0, 0, lost, 0, 0]);
        judge.compare("the same damage to zeros", &lost, zeros, dead);
        judge.compare("nothing declared", &lost, 24, several);
        judge.compare("a lost cell not declared", &lost, lost > 256, bad == 4);
    }
}

/// All reasons of a refusal at once, and then each time one fewer.
fn order(judge: &mut Judge) {
    let shape = Shape {
        columns: 5,
        checks: vec![2, 3],
        exponent: 1,
    };
    let declared = declaring(&[vec![1, 4], vec![]]);
    let bad = declaring(&[vec![1, 2, 4], vec![]]);
    let mut lost = encoded(&shape, &[0, 0, 0, 1, 0, 0, 0, 0, 0, 0]);
    (lost[1], lost[4]) = (65535, 257);
    let mut symbol = lost.clone();
    symbol[6] = 257;
    let mut dead = constant(&shape, 0);
    (dead[1], dead[4]) = (65535, 257);
    let shaped = shaped(&shape);
    let mut refusal = |number: u32, job: Job, declared: &Declared, frame: &[u16]| {
        let answer = judge.locate(&mut { job }, declared, frame);
        judge.compare(
            "a refusal in order",
            &(declared, frame),
            number,
            answer.refusal,
        );
    };
    refusal(21, FILLED, &bad, &symbol[..9]);
    refusal(7, shaped, &bad, &symbol[..9]);
    refusal(31, shaped, &bad, &symbol);
    refusal(4, shaped, &declared, &symbol);
    refusal(26, shaped, &declared, &dead);
    refusal(0, shaped, &declared, &lost);
}

/// One mark after the other, of all that the words have.
fn every_mark(judge: &mut Judge) {
    let shape = Shape {
        columns: 66,
        checks: vec![2, 1, 5],
        exponent: 255,
    };
    let mut data = constant(&shape, 0);
    data[65] = 1;
    let sent = encoded(&shape, &data);
    for k in 0..2048 {
        let mut declared = NOTHING;
        declared[k / 64] = 1 << (k % 64);
        let (h, i) = (k / 256, k % 256);
        let mut received = sent.clone();
        let is_inside = h < 3 && i < 66;
        if is_inside {
            received[h * 66 + i] = 65535;
        }
        let mut job = shaped(&shape);
        let answer = judge.locate(&mut job, &declared, &received);
        let number = if is_inside { 0 } else { 31 };
        judge.compare("one mark", &(h, i), number, answer.refusal);
        let (_, mended) = judge.repair(&mut job, &received);
        judge.compare("the lost cell", &(h, i), &sent, &mended);
    }
}

fn frames(judge: &mut Judge, random: &mut Random, shape: &Shape) {
    let job = shaped(shape);
    let sent = some_legal_frame(random, shape);
    for _ in 0..4 {
        let declared = some_cells(random, shape);
        let left = shape.least_left(&declared);
        let any = random.below(left + 2);
        let count = random.pick(&[0, 1, left / 2, any]).min(shape.columns);
        let received = damaged(random, shape, &sent, count);
        let received = refilled(random, shape, &declared, &received);
        let (answer, mended) = mend(judge, &job, shape, &declared, &received);
        if 2 * differing(shape, &declared, &sent, &received).len() <= left {
            judge.compare(
                "the sent frame comes back",
                &(shape, &declared, &received),
                (0, &sent),
                (answer.refusal, &mended),
            );
        }
    }
    let declared = some_cells(random, shape);
    let data = random.symbols(257, shape.size());
    let data = refilled(random, shape, &declared, &data);
    mend(judge, &job, shape, &declared, &data);
    refusals(judge, random, &job, shape, &sent);
}

/// Malformed frames, with cells that can be declared and with others, on jobs of each phase.
fn refusals(judge: &mut Judge, random: &mut Random, shaped: &Job, shape: &Shape, sent: &[u16]) {
    let declared = some_cells(random, shape);
    let mut located = *shaped;
    judge.locate(&mut located, &declared, sent);
    for _ in 0..4 {
        let received = refilled(random, shape, &declared, sent);
        let frame = malformed(random, shape, &received);
        let other = some_cells(random, shape);
        let bad = bad_cells(random, shape);
        for job in [FILLED, *shaped, located] {
            for cells in [&declared, &other, &bad] {
                judge.locate(&mut { job }, cells, &frame);
            }
            judge.encode(&job, &frame);
            judge.repair(&mut { job }, &frame);
        }
        let refusal = judge.locate(&mut located, &bad, sent).refusal;
        judge.compare("cells that cannot be declared", &(shape, bad), 31, refusal);
    }
    let (answer, mended) = judge.repair(&mut located, sent);
    judge.compare(
        "the cells of the locate before are kept",
        &(shape, declared),
        (0, sent),
        (answer.refusal, &mended),
    );
}

/// As many declared cells as checks in every row: no sequence is left, and nothing is damaged. One
/// more in any row is refused.
fn all_checks(judge: &mut Judge, random: &mut Random, shape: &Shape) {
    let job = shaped(shape);
    let sent = some_legal_frame(random, shape);
    let cells = |&checks: &u16| random.subset(shape.columns, usize::from(checks));
    let rows: Vec<_> = shape.checks.iter().map(cells).collect();
    let declared = declaring(&rows);
    let received = refilled(random, shape, &declared, &sent);
    let (answer, mended) = mend(judge, &job, shape, &declared, &received);
    let inputs = (shape, declared, &received);
    judge.compare(
        "all is filled",
        &inputs,
        (0, 0, &sent),
        (answer.refusal, answer.count, &mended),
    );
    let altered = damaged(random, shape, &sent, 1);
    let received = refilled(random, shape, &declared, &altered);
    let is_dead = uniform_at(shape, &declared, &received).is_some();
    let (answer, mended) = mend(judge, &job, shape, &declared, &received);
    let is_legal = is_legal(shape, &mended);
    judge.compare(
        "any cells are data, but for a dead line",
        &inputs,
        (if is_dead { 22 } else { 0 }, 0, !is_dead),
        (answer.refusal, answer.count, is_legal),
    );
    let h = random.below(rows.len());
    let mut rows = rows;
    rows[h] = random.subset(shape.columns, rows[h].len() + 1);
    let refusal = judge.locate(&mut { job }, &declaring(&rows), &sent).refusal;
    judge.compare("one declared cell too many", &(shape, rows), 31, refusal);
}

/// As many damaged and declared columns together as a row has checks, 64 of them, beside a row that
/// tells the damage.
fn full_set(judge: &mut Judge, random: &mut Random, columns: usize, count: usize) {
    let shape = Shape {
        columns,
        checks: vec![64, 64],
        exponent: some_exponent(random),
    };
    let sent = some_legal_frame(random, &shape);
    let hit = random.subset(columns, count);
    let mut received = sent.clone();
    for row in received.chunks_mut(columns) {
        for &i in &hit {
            row[i] = (row[i] + random.from_to(1, 256) as u16) % 257;
        }
    }
    let kept: Vec<usize> = (0..columns).filter(|i| !hit.contains(i)).collect();
    let cells = random.subset(kept.len(), 64 - count);
    let declared = declaring(&[cells.iter().map(|&k| kept[k]).collect(), vec![]]);
    let received = refilled(random, &shape, &declared, &received);
    let (answer, mended) = mend(judge, &shaped(&shape), &shape, &declared, &received);
    judge.compare(
        "64 damaged and declared columns",
        &(&shape, &declared, &received),
        (0, count as u64, &sent),
        (answer.refusal, answer.count, &mended),
    );
}

/// Two locates with other cells: repair goes by the second one's where it is not refused, by the
/// first one's where it is refused early, and is refused after a late refusal.
fn other_cells(judge: &mut Judge, random: &mut Random, shape: &Shape) {
    let sent = some_legal_frame(random, shape);
    let cells = [(); 2].map(|_| some_cells(random, shape));
    let frames = cells.map(|declared| refilled(random, shape, &declared, &sent));
    let mut job = shaped(shape);
    judge.locate(&mut job, &cells[0], &frames[0]);
    let first = job;
    let second = judge.locate(&mut job, &cells[1], &frames[1]).refusal;
    let other = judge.repair(&mut { job }, &frames[0]).0.refusal;
    let (answer, mended) = judge.repair(&mut job, &frames[1]);
    let inputs = (shape, cells, &frames);
    judge.compare(
        "the cells of the last locate",
        &inputs,
        (0, 0, &sent),
        (second, answer.refusal, &mended),
    );
    judge.expect("the other frame", &inputs, [0, 4, 23, 26].contains(&other));
    let mut job = first;
    let altered = random.symbols(257, shape.size());
    let refusal = judge.locate(&mut job, &cells[1], &altered).refusal;
    let (answer, mended) = judge.repair(&mut job, &frames[0]);
    match refusal {
        24..=26 => judge.compare(
            "after a late refusal",
            &inputs,
            (22, &frames[0]),
            (answer.refusal, &mended),
        ),
        _ => judge.expect("located by any frame", &inputs, refusal == 0),
    }
}

/// Damaged columns, some declared in a row that has as many checks left as there are damaged ones.
/// Its sequence says nothing of them, and where it is altered elsewhere no legal frame is near by.
fn marked_and_declared(judge: &mut Judge, random: &mut Random) {
    let mut refusals = [0; 2];
    for _ in 0..1_500 {
        let count = random.from_to(1, 3);
        let lost = random.from_to(1, 3);
        let least = (2 * count).max(count + lost) + 1;
        let shape = Shape {
            columns: random.from_to(least, least + 4),
            checks: vec![2 * count as u16, (count + lost) as u16],
            exponent: some_exponent(random),
        };
        let sent = some_legal_frame(random, &shape);
        let (mut first, mut second) = (
            sent[..shape.columns].to_vec(),
            sent[shape.columns..].to_vec(),
        );
        let hit = random.subset(shape.columns, count);
        random.damage(&mut first, shape.columns, &hit);
        let mut cells = random.subset(shape.columns, lost);
        if !cells.contains(&hit[0]) {
            cells[0] = hit[0];
        }
        let altered = random.below(2);
        let elsewhere = random.subset(shape.columns, altered);
        random.damage(&mut second, shape.columns, &elsewhere);
        let declared = declaring(&[vec![], cells]);
        let received = refilled(random, &shape, &declared, &[first, second].concat());
        let (answer, _) = mend(judge, &shaped(&shape), &shape, &declared, &received);
        refusals[usize::from(answer.refusal != 0)] += 1;
    }
    let both = refusals.iter().all(|&number| number > 100);
    judge.expect("columns both damaged and declared", &refusals, both);
}

/// Frames so small that all legal ones can be listed.
fn enumerated(judge: &mut Judge, random: &mut Random) {
    let mut rows = CodewordRows::default();
    let mut lengths = [0; 2];
    for _ in 0..1_500 {
        let columns = random.pick(&[2, 3, 3, 4, 4, 4]);
        let least = (columns - 1).min(columns / 2);
        let checks = (0..random.from_to(1, 4))
            .map(|_| random.from_to(least, columns - 1) as u16)
            .collect();
        let shape = Shape {
            columns,
            checks,
            exponent: random.pick(&EXPONENTS),
        };
        let declared = some_cells(random, &shape);
        let sent = some_codeword(random, &shape, &declared);
        let count = random.below(columns);
        let received = damaged(random, &shape, &sent, count);
        let received = refilled(random, &shape, &declared, &received);
        if let Some(is_legal) = listed(judge, &mut rows, &shape, &declared, &received) {
            lengths[usize::from(is_legal)] += 1;
        }
    }
    let both = lengths.iter().all(|&number| number > 20);
    judge.expect("legal frames at the length, and none", &lengths, both);
}

/// Where the register is alone and no row is short, locate is refused by 26 exactly if no legal
/// frame lies at its length, which is answered, and repair leaves the only nearest one.
fn listed(
    judge: &mut Judge,
    rows: &mut CodewordRows,
    shape: &Shape,
    declared: &Declared,
    received: &[u16],
) -> Option<bool> {
    let mut job = shaped(shape);
    let located = judge.locate(&mut job, declared, received);
    let (_, mended) = judge.repair(&mut job, received);
    let c = register_of(shape, declared, received)?.len() - 1;
    if c > shape.least_left(declared) {
        return None;
    }
    let distances = rows.by_distance(shape, declared, received);
    let number = if distances.contains_key(&c) { 0 } else { 26 };
    let inputs = (shape, declared, received);
    judge.compare("26 without a legal frame", &inputs, number, located.refusal);
    if located.refusal == 0 {
        let nearest = distances
            .first_key_value()
            .map(|(&distance, frames)| (distance, frames.clone()));
        let only = Alike {
            count: 1,
            frame: mended.clone(),
        };
        judge.compare(
            "the only nearest legal frame",
            &inputs,
            Some((c, only)),
            nearest,
        );
        let columns = differing(shape, declared, &mended, received);
        judge.compare(
            "the columns that differ",
            &inputs,
            (c as u64, marks_of(&columns)),
            (located.count, located.marks),
        );
    }
    Some(number == 0)
}
