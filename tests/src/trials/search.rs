//! The search for the columns that taps name: short and long registers, products of locators inside
//! and outside the columns, taps that no register has, every refusal, and what locate tells of its own
//! search.

use common::interface::Columns;
use common::random::Random;

use crate::independent::frames::{Shape, differing, marks_of};
use crate::independent::search::locator_polynomial;
use crate::judge::Judge;
use crate::trials::{damaged, refilled, shaped, some_cells, some_legal_frame, some_shape};

pub fn run(judge: &mut Judge) {
    let mut random = Random::new(11);
    for columns in 2..=256 {
        for i in 0..256 {
            product(judge, columns, &[i]);
        }
        places(judge, &mut random, columns);
        any_factors(judge, &mut random, columns);
        zeros(judge, columns);
        every_column(judge, &mut random, columns);
    }
    for length in (0..=66).cycle().take(40 * 67) {
        register(judge, &mut random, length);
    }
    for length in (67..=130).chain([255, 256, 257, 300, 1_000, 4_000]) {
        register(judge, &mut random, length);
    }
    bad_columns(judge);
    bad_taps(judge, &mut random);
    for (most_columns, count) in [(12, 1_000), (40, 100), (256, 6)] {
        for _ in 0..count {
            let shape = some_shape(&mut random, most_columns);
            located(judge, &mut random, &shape);
        }
    }
}

/// What the search of a register of length c answers where it names these columns, rising, of which
/// there are c or fewer.
fn found(columns: usize, c: usize, named: &[usize]) -> Columns {
    let last = named.last().map_or(0, |last| last + 1);
    let tried = if named.len() == c { last } else { columns };
    Columns {
        refusal: 0,
        tried: tried as u64,
        marks: marks_of(named),
    }
}

fn taps_of(factors: &[usize]) -> Vec<u16> {
    let coefficients = locator_polynomial(factors);
    coefficients.into_iter().map(|x| x as u16).collect()
}

/// The columns among the factors, rising.
fn inside(columns: usize, factors: &[usize]) -> Vec<usize> {
    (0..columns).filter(|i| factors.contains(i)).collect()
}

/// The product of (1 − 3^i·x) over the factors i, which may lie outside the columns, or be the same.
fn product(judge: &mut Judge, columns: usize, factors: &[usize]) {
    let answer = judge.search(columns, &taps_of(factors));
    let named = inside(columns, factors);
    judge.compare(
        "the columns of a product",
        &(columns, factors),
        found(columns, factors.len(), &named),
        answer,
    );
}

/// Columns side by side, at the start, in the middle and at the end.
fn places(judge: &mut Judge, random: &mut Random, columns: usize) {
    for count in [2, random.from_to(2, columns), columns] {
        for first in [0, (columns - count) / 2, columns - count] {
            let factors: Vec<usize> = (first..first + count).collect();
            product(judge, columns, &factors);
        }
    }
}

/// Some columns, also with some of them twice, and factors anywhere; and the same by other taps.
fn any_factors(judge: &mut Judge, random: &mut Random, columns: usize) {
    for most in [4, 64, 256] {
        let count = random.below(most.min(columns) + 1);
        let within = random.subset(columns, count);
        let twice = [&within[..], &within[..count / 2]].concat();
        let count = random.from_to(1, most);
        let anywhere = random.subset(256, count);
        for factors in [within, twice, anywhere] {
            product(judge, columns, &factors);
            other_taps(judge, random, columns, &factors);
        }
    }
}

/// The same factors times a number, which is then the first tap; and with zeros in front or behind, which
/// make more taps of the same columns.
fn other_taps(judge: &mut Judge, random: &mut Random, columns: usize, factors: &[usize]) {
    let taps = taps_of(factors);
    let named = inside(columns, factors);
    let times = random.from_to(2, 256) as u32;
    let multiple = taps
        .iter()
        .map(|&tap| (u32::from(tap) * times % 257) as u16);
    let zeros = vec![0; random.from_to(1, 5)];
    for taps in [
        multiple.collect(),
        [&zeros[..], &taps].concat(),
        [&taps[..], &zeros].concat(),
    ] {
        let answer = judge.search(columns, &taps);
        judge.compare(
            "the columns of a product, by other taps",
            &(columns, factors, &taps),
            found(columns, taps.len() - 1, &named),
            answer,
        );
    }
}

/// Zeros name every column, and the first ones are found.
fn zeros(judge: &mut Judge, columns: usize) {
    for count in [0, 1, 2, 5, 66, columns, columns + 1, columns + 2, 300] {
        let answer = judge.search(columns, &vec![0; count]);
        let first: Vec<usize> = (0..columns).take(count.saturating_sub(1)).collect();
        judge.compare(
            "the columns of zeros",
            &(columns, count),
            found(columns, first.len(), &first),
            answer,
        );
    }
}

/// x^256 − 1 names every column, and so does a product with it.
fn every_column(judge: &mut Judge, random: &mut Random, columns: usize) {
    let count = random.below(40);
    let factor = random.symbols(257, count);
    for factor in [&[1], &[&factor[..], &[1]].concat()[..]] {
        let mut taps = vec![0; 256 + factor.len()];
        for (k, &x) in factor.iter().enumerate() {
            taps[k] = (257 - x) % 257;
            taps[256 + k] = x;
        }
        let answer = judge.search(columns, &taps);
        let all: Vec<usize> = (0..columns).collect();
        judge.compare(
            "the columns of a product that names all",
            &(columns, factor),
            found(columns, columns, &all),
            answer,
        );
    }
}

/// Any register of the length, and the same taps with any first one.
fn register(judge: &mut Judge, random: &mut Random, length: usize) {
    let columns = random.from_to(2, 256);
    let mut taps = [vec![1], random.symbols(257, length)].concat();
    judge.search(columns, &taps);
    taps[0] = random.symbol(257);
    judge.search(columns, &taps);
}

/// The number of columns comes before the taps.
fn bad_columns(judge: &mut Judge) {
    let counts = [
        0,
        1,
        257,
        258,
        65_536 + 8,
        1 << 32,
        (1 << 32) + 8,
        usize::MAX,
    ];
    for columns in counts {
        for taps in [&[][..], &[1], &[1, 254], &[257], &[1, 65_535], &[0; 300]] {
            let answer = judge.search(columns, taps);
            judge.compare(
                "a number of columns",
                &(columns, taps),
                Columns::refused(5),
                answer,
            );
        }
    }
}

/// A tap at each place, the largest that is taken and those beyond it.
fn bad_taps(judge: &mut Judge, random: &mut Random) {
    for columns in [2, 8, 256] {
        for count in [1, 2, 5, 65, 300] {
            let mut taps = random.symbols(257, count);
            for place in 0..count {
                let kept = taps[place];
                for tap in [257, 258, 513, 32_768, 65_535] {
                    taps[place] = tap;
                    let answer = judge.search(columns, &taps);
                    judge.compare("a tap", &(columns, &taps), Columns::refused(4), answer);
                }
                taps[place] = 256;
                let refusal = judge.search(columns, &taps).refusal;
                judge.compare("the largest tap", &(columns, &taps), 0, refusal);
                taps[place] = kept;
            }
        }
    }
}

/// What locate tells of its search is what search answers to the taps that the job holds, and ends at the
/// last column that is damaged. Repair tries none.
fn located(judge: &mut Judge, random: &mut Random, shape: &Shape) {
    let sent = some_legal_frame(random, shape);
    let declared = some_cells(random, shape);
    let count = random.below(shape.least_left(&declared) / 2 + 1);
    let received = damaged(random, shape, &sent, count);
    let received = refilled(random, shape, &declared, &received);
    let hit = differing(shape, &declared, &sent, &received);
    let mut job = shaped(shape);
    let answer = judge.locate(&mut job, &declared, &received);
    let inputs = (shape, &declared, &received);
    judge.compare(
        "what locate tried, by what is damaged",
        &inputs,
        found(shape.columns, hit.len(), &hit),
        Columns {
            refusal: answer.refusal,
            tried: answer.tried,
            marks: answer.marks,
        },
    );
    let sought = judge.search(shape.columns, &job.taps[..=hit.len()]);
    judge.compare(
        "what locate tried, by its taps",
        &inputs,
        (sought.tried, sought.marks),
        (answer.tried, answer.marks),
    );
    let (repaired, _) = judge.repair(&mut job, &received);
    judge.compare(
        "repair tries nothing",
        &inputs,
        (0, answer.count, 0),
        (repaired.refusal, repaired.count, repaired.tried),
    );
}
