//! The search for the columns that a register names, by its definition: every column is tried, and
//! how many a search tries is told from the list of those that are named.

use std::sync::LazyLock;

/// The inverse of the locator of each column, by trying the whole field.
static INVERSES: LazyLock<Vec<u64>> = LazyLock::new(|| {
    let locators = std::iter::successors(Some(1), |x| Some(x * 3 % 257)).take(256);
    locators
        .map(|x: u64| (1..257).find(|y| x * y % 257 == 1).expect("not 0"))
        .collect()
});

/// The columns i for which the taps have the root 3^(−i).
pub fn named(columns: usize, taps: &[u64]) -> Vec<usize> {
    let value = |y: u64| {
        let falling = taps.iter().rev();
        falling.fold(0, |value, tap| (value * y + tap) % 257)
    };
    (0..columns).filter(|&i| value(INVERSES[i]) == 0).collect()
}

/// How many of the columns are tried for c of those that are named: none where c is 0, else up to and
/// with the c-th, or all where there are fewer.
pub fn tried(columns: usize, c: usize, named: &[usize]) -> usize {
    match c {
        0 => 0,
        _ => named.get(c - 1).map_or(columns, |last| last + 1),
    }
}

/// The coefficients of the product of (1 − 3^i·x) over the columns i, of which some may be the same.
pub fn locator_polynomial(columns: &[usize]) -> Vec<u64> {
    columns.iter().fold(vec![1], |product, &i| {
        let factor = (0..i).fold(256, |power, _| power * 3 % 257);
        let moved = std::iter::once(&0).chain(&product);
        let kept = product.iter().chain(&[0]);
        moved
            .zip(kept)
            .map(|(low, high)| (high + factor * low) % 257)
            .collect()
    })
}
