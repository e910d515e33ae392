//! The calls of the library from what SPECIFICATION.md says of them, by elimination and direct
//! sums. It shares no method with the library, but for the taps of a register that is not alone,
//! which are defined by Algorithm 4.

mod elimination;
pub mod enumeration;
pub mod frames;
pub mod registers;
pub mod search;

use std::sync::LazyLock;

use common::interface::{
    Answer, Calls, Columns, Declared, Head, Job, LOCATED, Register, SHAPED, UNFINISHED,
};

use frames::{Shape, as_read, cells_of, columns_of, is_uniform, marks_of, open_columns};
use search::{locator_polynomial, named, tried};

pub struct Independent;

/// The number of the first reason that holds, or 0.
fn first(reasons: &[(u32, &dyn Fn() -> bool)]) -> u32 {
    reasons
        .iter()
        .find(|(_, holds)| holds())
        .map_or(0, |(number, _)| *number)
}

/// The primes up to the largest that is taken, by the sieve of Eratosthenes.
fn is_prime(p: u32) -> bool {
    static PRIME: LazyLock<Vec<bool>> = LazyLock::new(|| {
        let mut prime = vec![true; 65522];
        prime[..2].fill(false);
        for d in 2..256 {
            prime
                .iter_mut()
                .skip(2 * d)
                .step_by(d)
                .for_each(|multiple| *multiple = false);
        }
        prime
    });
    PRIME[p as usize]
}

fn find_refusal(p: u32, lengths: &[u16], symbols: &[u16], taps: usize) -> u32 {
    let longest = || lengths.iter().copied().max().map_or(0, usize::from);
    let total = || {
        lengths
            .iter()
            .map(|&length| usize::from(length))
            .sum::<usize>()
    };
    first(&[
        (1, &|| p > 65521 || !is_prime(p)),
        (2, &|| lengths.is_empty() || lengths.len() > 8),
        (3, &|| longest() > 128 || total() != symbols.len()),
        (8, &|| taps < longest() + 1),
        (4, &|| symbols.iter().any(|&symbol| u32::from(symbol) >= p)),
    ])
}

fn search_refusal(columns: usize, taps: &[u16]) -> u32 {
    first(&[
        (5, &|| !(2..=256).contains(&columns)),
        (4, &|| taps.iter().any(|&tap| tap >= 257)),
    ])
}

fn is_bad_count(columns: usize, count: u16) -> bool {
    !(1..=64).contains(&count) || usize::from(count) >= columns
}

fn shape_refusal(columns: usize, checks: &[u16], exponent: u32) -> u32 {
    first(&[
        (2, &|| checks.is_empty() || checks.len() > 8),
        (5, &|| !(2..=256).contains(&columns)),
        (6, &|| {
            checks.iter().any(|&count| is_bad_count(columns, count))
        }),
        (32, &|| exponent > 255),
    ])
}

/// The shape of a job that does not count as empty, by its head alone. One that no call can leave
/// is taken for what it says where its numbers are in their ranges, and counts as empty elsewhere.
pub fn shape_of(head: &Head) -> Option<Shape> {
    let rows = usize::try_from(head.rows).ok()?;
    let columns = usize::try_from(head.columns).ok()?;
    let shape = Shape {
        columns,
        checks: head.checks.get(..rows)?.to_vec(),
        exponent: head.exponent,
    };
    let shaped = shape_refusal(columns, &shape.checks, shape.exponent) == 0;
    let marked = columns_of(&head.marks);
    let found = head.alone == 1
        && marked.len() as u64 == head.length
        && marked.iter().all(|&i| i < columns)
        && shape.least_checks() >= marked.len();
    let stands = match head.phase {
        SHAPED | UNFINISHED => true,
        LOCATED => found,
        _ => false,
    };
    (shaped && stands).then_some(shape)
}

fn held_sums(shape: &Shape, frame: &[u16]) -> [u16; 512] {
    let mut held = [0; 512];
    let sums = frames::check_sums(shape, frame);
    held[..sums.len()].copy_from_slice(&sums);
    held
}

/// Each row completed at its marked and declared columns, which as many check sums determine.
fn mended(shape: &Shape, declared: &Declared, frame: &[u16], columns: &[usize]) -> Vec<u16> {
    let complete = |(h, row)| {
        let open = open_columns(declared, h, columns);
        frames::completed(row, &open, shape.exponents(open.len())).expect("as many sums as columns")
    };
    let rows = frame.chunks(shape.columns).enumerate();
    rows.flat_map(complete).collect()
}

/// γ_0·S_(j+ε) + .. + γ_ε·S_j for each j from 1, γ_0 .. γ_ε being the coefficients of the product
/// of (1 − 3^i·x) over the columns i.
fn remaining(sums: &[u64], columns: &[usize]) -> Vec<u64> {
    let gamma = locator_polynomial(columns);
    let product = |window: &[u64]| {
        gamma
            .iter()
            .zip(window.iter().rev())
            .map(|(g, s)| g * s)
            .sum::<u64>()
    };
    sums.windows(gamma.len())
        .map(|window| product(window) % 257)
        .collect()
}

/// What remains of a frame's check sums, for each row.
pub fn sequences(shape: &Shape, declared: &Declared, frame: &[u16]) -> Vec<Vec<u64>> {
    let sums = frames::check_sums(shape, &as_read(shape, declared, frame));
    let rows = registers::split(&shape.checks, &sums)
        .into_iter()
        .enumerate();
    rows.map(|(h, sums)| remaining(&sums, &cells_of(declared, h)))
        .collect()
}

/// The register of these, if it is alone.
pub fn register_of(shape: &Shape, declared: &Declared, frame: &[u16]) -> Option<Vec<u64>> {
    registers::shortest(257, &sequences(shape, declared, frame)).1
}

/// More declared cells than checks in a row, or a mark past the last column or row.
fn are_bad_cells(shape: &Shape, declared: &Declared) -> bool {
    (0..8).any(|h| {
        let cells = cells_of(declared, h);
        match shape.checks.get(h) {
            Some(&checks) => {
                cells.len() > usize::from(checks) || cells.iter().any(|&i| i >= shape.columns)
            }
            None => !cells.is_empty(),
        }
    })
}

/// That of a frame with the cells that are declared of it: where it is 0, the frame is well-formed.
pub fn frame_refusal(shape: &Shape, declared: &Declared, frame: &[u16]) -> u32 {
    first(&[
        (7, &|| frame.len() != shape.size()),
        (31, &|| are_bad_cells(shape, declared)),
        (4, &|| {
            as_read(shape, declared, frame)
                .iter()
                .any(|&symbol| symbol >= 257)
        }),
    ])
}

/// The only codeword with the data of a frame.
pub fn encoded(shape: &Shape, frame: &[u16]) -> Vec<u16> {
    let rows = frame.chunks(shape.columns).zip(&shape.checks);
    let complete = |(row, &checks): (&[u16], &u16)| {
        let columns: Vec<usize> = (0..usize::from(checks)).collect();
        let exponents = shape.exponents(columns.len());
        frames::completed(row, &columns, exponents).expect("as many sums as columns")
    };
    rows.flat_map(complete).collect()
}

/// The columns that the register of a frame names and the codeword that differs in these, or the number
/// of the first reason why there is none.
fn candidate(
    shape: &Shape,
    declared: &Declared,
    frame: &[u16],
) -> Result<(Vec<u64>, Vec<usize>, Vec<u16>), u32> {
    let taps = register_of(shape, declared, frame).ok_or(24u32)?;
    let c = taps.len() - 1;
    if c > shape.least_left(declared) {
        return Err(25);
    }
    let columns = named(shape.columns, &taps);
    if columns.len() != c {
        return Err(26);
    }
    let codeword = frames::codeword_at_columns(shape, declared, frame, &columns).ok_or(26u32)?;
    Ok((taps, columns, codeword))
}

/// The distance of the only codeword near by from a well-formed frame, where that codeword is uniform.
pub fn uniform_at(shape: &Shape, declared: &Declared, frame: &[u16]) -> Option<usize> {
    let (_, columns, codeword) = candidate(shape, declared, frame).ok()?;
    is_uniform(&codeword).then_some(columns.len())
}

/// What a locate that has only sums to go by does, as in slices: a uniform codeword is as good as any.
pub fn locate_by_sums(job: &mut Job, declared: &Declared, frame: &[u16]) -> Answer {
    locate(job, declared, frame, true)
}

fn locate(job: &mut Job, declared: &Declared, frame: &[u16], takes_uniform: bool) -> Answer {
    let Some(shape) = shape_of(&job.head) else {
        return Answer::refused(21);
    };
    let refusal = frame_refusal(&shape, declared, frame);
    if refusal != 0 {
        return Answer::refused(refusal);
    }
    job.head = job.head.reshaped();
    let (taps, columns) = match candidate(&shape, declared, frame) {
        Ok((_, _, codeword)) if !takes_uniform && is_uniform(&codeword) => {
            return Answer::refused(26);
        }
        Ok((taps, columns, _)) => (taps, columns),
        Err(number) => return Answer::refused(number),
    };
    job.declared = *declared;
    job.sums = held_sums(&shape, &as_read(&shape, declared, frame));
    job.taps = [0; 65];
    for (entry, tap) in job.taps.iter_mut().zip(taps) {
        *entry = tap as u16;
    }
    let c = columns.len();
    let tried = tried(shape.columns, c, &columns);
    job.head.located(c, tried, marks_of(&columns))
}

impl Calls for Independent {
    fn find(&self, p: u32, lengths: &[u16], symbols: &[u16], taps: &mut [u16]) -> Register {
        let refusal = find_refusal(p, lengths, symbols, taps.len());
        if refusal != 0 {
            return Register::refused(refusal);
        }
        let sequences = registers::split(lengths, symbols);
        let (length, only) = registers::shortest(p, &sequences);
        let alone = u32::from(only.is_some());
        let found = only.unwrap_or_else(|| registers::algorithm_4(p, &sequences));
        assert!(found.len() == length + 1 && registers::generates(p, &found, &sequences));
        for (entry, tap) in taps.iter_mut().zip(found) {
            *entry = tap as u16;
        }
        Register {
            refusal: 0,
            length: length as u64,
            alone,
        }
    }

    fn search(&self, columns: usize, taps: &[u16]) -> Columns {
        let refusal = search_refusal(columns, taps);
        if refusal != 0 {
            return Columns::refused(refusal);
        }
        let c = taps.len().saturating_sub(1);
        let taps: Vec<u64> = taps.iter().map(|&tap| u64::from(tap)).collect();
        let mut found = named(columns, &taps);
        let tried = tried(columns, c, &found);
        found.retain(|&i| i < tried);
        Columns {
            refusal: 0,
            tried: tried as u64,
            marks: marks_of(&found),
        }
    }

    fn empty(&self, job: &mut Job) {
        *job = Job::EMPTY;
    }

    fn shape(&self, job: &mut Job, columns: usize, checks: &[u16], exponent: u32) -> u32 {
        let refusal = shape_refusal(columns, checks, exponent);
        if refusal == 0 {
            job.head = Head::shaped(columns, checks, exponent);
        }
        refusal
    }

    fn encode(&self, job: &Job, frame: &mut [u16]) -> u32 {
        let Some(shape) = shape_of(&job.head) else {
            return 21;
        };
        if frame.len() != shape.size() {
            return 7;
        }
        let is_data = |k: &usize| k % shape.columns >= usize::from(shape.checks[k / shape.columns]);
        if (0..frame.len()).filter(is_data).any(|k| frame[k] >= 257) {
            return 4;
        }
        let codeword = encoded(&shape, frame);
        if is_uniform(&codeword) {
            return 34;
        }
        frame.copy_from_slice(&codeword);
        0
    }

    fn locate(&self, job: &mut Job, declared: &Declared, frame: &[u16]) -> Answer {
        locate(job, declared, frame, false)
    }

    fn repair(&self, job: &mut Job, frame: &mut [u16]) -> Answer {
        let Head {
            phase,
            length,
            marks,
            ..
        } = job.head;
        let Some(shape) = shape_of(&job.head) else {
            return Answer::refused(21);
        };
        let declared = &job.declared;
        let holds_cells =
            || !are_bad_cells(&shape, declared) && shape.least_left(declared) as u64 >= length;
        if phase != LOCATED || !holds_cells() {
            return Answer::refused(22);
        }
        let refusal = frame_refusal(&shape, declared, frame);
        if refusal != 0 {
            return Answer::refused(refusal);
        }
        if held_sums(&shape, &as_read(&shape, declared, frame)) != job.sums {
            return Answer::refused(23);
        }
        let mended = mended(&shape, declared, frame, &columns_of(&marks));
        job.head = job.head.reshaped();
        if is_uniform(&mended) {
            return Answer::refused(26);
        }
        frame.copy_from_slice(&mended);
        Answer {
            refusal: 0,
            unfinished: 0,
            count: length,
            tried: 0,
            marks,
        }
    }
}
