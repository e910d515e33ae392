//! Registers: sequences of every kind at every size, and every refusal alone and among others.

use common::random::Random;

use crate::independent::registers;
use crate::judge::Judge;

const PRIMES: [u32; 12] = [2, 3, 5, 7, 13, 61, 251, 257, 4093, 32749, 65519, 65521];

pub fn run(judge: &mut Judge) {
    let mut random = Random::new(1);
    against_enumeration(judge, &mut random);
    for _ in 0..12_000 {
        sequences(judge, &mut random, 9);
    }
    for _ in 0..1_200 {
        sequences(judge, &mut random, 30);
    }
    for _ in 0..60 {
        sequences(judge, &mut random, 128);
    }
    edges(judge);
    for p in 0..66_000 {
        judge.find(p, &[2], &[1, 1], 3);
    }
    for p in [65_537, 131_071, 1 << 31, u32::MAX - 4, u32::MAX] {
        judge.find(p, &[2], &[1, 1], 3);
    }
    for _ in 0..6_000 {
        faults(judge, &mut random);
    }
}

fn some_lengths(random: &mut Random, most: usize) -> Vec<u16> {
    let count = random.from_to(1, 8);
    let mut lengths: Vec<u16> = (0..count).map(|_| random.from_to(0, most) as u16).collect();
    if random.once_in(3) {
        lengths.fill(random.from_to(0, most) as u16);
    }
    lengths
}

/// Random symbols; those of one register, whole or with one symbol altered; few that are not 0; 0
/// and 1; zeros with a last symbol that is not, whose register is as long as it can be.
fn some_symbols(random: &mut Random, p: u32, lengths: &[u16]) -> Vec<u16> {
    let total = lengths.iter().map(|&length| usize::from(length)).sum();
    let longest = lengths.iter().copied().max().map_or(0, usize::from);
    let mut symbols = vec![0; total];
    match random.below(6) {
        0 => symbols = random.symbols(p, total),
        kind @ 1..3 => {
            let order = random.from_to(0, longest / 2);
            symbols = random.generated(p, lengths, order);
            if kind == 2 && total > 0 {
                symbols[random.below(total)] = random.symbol(p);
            }
        }
        3 => symbols
            .iter_mut()
            .filter(|_| random.once_in(8))
            .for_each(|symbol| *symbol = 1),
        4 => symbols = random.symbols(2, total),
        _ => symbols
            .iter_mut()
            .rev()
            .take(1)
            .for_each(|symbol| *symbol = 1),
    }
    symbols
}

fn sequences(judge: &mut Judge, random: &mut Random, most: usize) {
    let p = random.pick(&PRIMES);
    let lengths = some_lengths(random, most);
    let symbols = some_symbols(random, p, &lengths);
    let longest = lengths.iter().copied().max().map_or(0, usize::from);
    let spare = random.below(3);
    judge.find(p, &lengths, &symbols, longest + 1 + spare);
}

/// Where all registers can be tried, the independent side finds what the definition says.
fn against_enumeration(judge: &mut Judge, random: &mut Random) {
    for _ in 0..3_000 {
        let (p, most) = random.pick(&[(2, 9), (3, 6), (5, 4)]);
        let lengths = some_lengths(random, most);
        let symbols = some_symbols(random, p, &lengths);
        let sequences = registers::split(&lengths, &symbols);
        let (length, only) = registers::shortest(p, &sequences);
        let shorter: usize = (0..length)
            .map(|l| registers::enumerate(p, l, &sequences).len())
            .sum();
        let all = registers::enumerate(p, length, &sequences);
        let is_right = match only {
            Some(taps) => all == [taps],
            None => all.len() > 1 && all.contains(&registers::algorithm_4(p, &sequences)),
        };
        judge.expect(
            "elimination against enumeration",
            &(p, sequences),
            shorter == 0 && is_right,
        );
        judge.find(p, &lengths, &symbols, length.max(most) + 1);
    }
}

/// The edge of each range, and the first value beyond it.
fn edges(judge: &mut Judge) {
    let mut refusal = |number: u32, p: u32, lengths: &[u16], symbols: &[u16], taps: usize| {
        let (register, _) = judge.find(p, lengths, symbols, taps);
        judge.compare(
            "a refusal at the edge",
            &(p, lengths, taps),
            number,
            register.refusal,
        );
    };
    for (p, number) in [
        (0, 1),
        (1, 1),
        (2, 0),
        (65_521, 0),
        (65_522, 1),
        (65_535, 1),
        (65_537, 1),
        (63_001, 1),
    ] {
        refusal(number, p, &[1], &[1], 2);
    }
    for (count, number) in [(0, 2), (1, 0), (8, 0), (9, 2), (300, 2)] {
        refusal(number, 7, &vec![1; count], &vec![1; count], 2);
    }
    for (length, number) in [(0, 0), (127, 0), (128, 0), (129, 3), (65_535, 3)] {
        refusal(
            number,
            7,
            &[length],
            &vec![1; usize::from(length)],
            usize::from(length) + 1,
        );
        refusal(
            number,
            7,
            &[2, length],
            &vec![1; usize::from(length) + 2],
            usize::from(length).max(2) + 1,
        );
    }
    refusal(0, 65_521, &[128; 8], &[65_520; 1024], 129);
    for (symbols, number) in [(0, 3), (6, 3), (7, 0), (8, 3)] {
        refusal(number, 7, &[3, 4], &vec![1; symbols], 5);
    }
    for (taps, number) in [(0, 8), (4, 8), (5, 0), (6, 0), (1000, 0)] {
        refusal(number, 7, &[3, 4], &[1; 7], taps);
    }
    for (taps, number) in [(0, 8), (1, 0)] {
        refusal(number, 7, &[0, 0], &[], taps);
    }
    for p in [2, 257, 65_521] {
        for (symbol, number) in [(p - 1, 0), (p, 4), (65_535, 4)] {
            refusal(number, p, &[1, 2], &[0, symbol as u16, 0], 3);
            refusal(number, p, &[1, 2], &[0, 0, symbol as u16], 3);
        }
    }
    // all at once, and then each time one fewer
    refusal(1, 4, &[129; 9], &[9; 3], 0);
    refusal(2, 7, &[129; 9], &[9; 3], 0);
    refusal(3, 7, &[129; 8], &[9; 3], 0);
    refusal(8, 7, &[1; 8], &[9; 8], 0);
    refusal(4, 7, &[1; 8], &[9; 8], 2);
}

/// Any of the faults, several at once.
fn faults(judge: &mut Judge, random: &mut Random) {
    let mut p = random.pick(&PRIMES);
    let mut lengths = some_lengths(random, 6);
    let mut symbols = some_symbols(random, p, &lengths);
    let mut taps = lengths.iter().copied().max().map_or(0, usize::from) + 1;
    if random.once_in(3) && !symbols.is_empty() {
        let place = random.below(symbols.len());
        symbols[place] = random.pick(&[p as u16, 65_535]);
    }
    if random.once_in(3) {
        taps = random.below(taps + 1);
    }
    if random.once_in(4) {
        symbols.resize(random.below(60), 0);
    }
    if random.once_in(4) {
        let place = random.below(lengths.len());
        lengths[place] = random.pick(&[128, 129, 65_535]);
    }
    if random.once_in(4) {
        lengths.resize(random.pick(&[0, 9, 10]), 1);
    }
    if random.once_in(4) {
        p = random.pick(&[0, 1, 4, 255, 65_520, 65_523, 65_535, 65_537]);
    }
    judge.find(p, &lengths, &symbols, taps);
}
