//! Registers by their definition: which generate the sequences, the shortest by solving for the
//! taps at each length in turn, and the taps of Algorithm 4, step by step (SPECIFICATION.md,
//! "Registers").

use super::elimination::{System, inverse};

/// The sequences that are lent one after the other.
pub fn split(lengths: &[u16], symbols: &[u16]) -> Vec<Vec<u64>> {
    let mut rest = symbols.iter().map(|&symbol| u64::from(symbol));
    lengths
        .iter()
        .map(|&length| rest.by_ref().take(usize::from(length)).collect())
        .collect()
}

/// S_j + σ_1·S_(j−1) + .. + σ_l·S_(j−l) modulo p, where the taps are σ_0 .. σ_l.
fn discrepancy(p: u64, taps: &[u64], sequence: &[u64], j: usize) -> u64 {
    (0..taps.len())
        .map(|i| taps[i] * sequence[j - i - 1])
        .sum::<u64>()
        % p
}

pub fn generates(p: u32, taps: &[u64], sequences: &[Vec<u64>]) -> bool {
    taps[0] == 1
        && sequences.iter().all(|sequence| {
            (taps.len()..=sequence.len()).all(|j| discrepancy(u64::from(p), taps, sequence, j) == 0)
        })
}

/// The equations of the taps σ_1 .. σ_l, or nothing if they contradict each other.
fn equations(p: u32, l: usize, sequences: &[Vec<u64>]) -> Option<System> {
    let mut system = System::new(p, l);
    for sequence in sequences {
        for j in l + 1..=sequence.len() {
            let mut equation: Vec<u64> = (1..=l).map(|i| sequence[j - i - 1]).collect();
            equation.push((u64::from(p) - sequence[j - 1]) % u64::from(p));
            if !system.add(equation) {
                return None;
            }
        }
    }
    Some(system)
}

/// The smallest length for which some register generates all sequences, and that register if no
/// other of the length does.
pub fn shortest(p: u32, sequences: &[Vec<u64>]) -> (usize, Option<Vec<u64>>) {
    let (l, system) = (0..)
        .find_map(|l| Some((l, equations(p, l, sequences)?)))
        .expect("the longest length will do");
    let mut taps = vec![1];
    taps.extend(system.solution());
    (l, system.is_unique().then_some(taps))
}

/// The taps that Algorithm 4 of Schmidt and Sidorenko finds.
pub fn algorithm_4(p: u32, sequences: &[Vec<u64>]) -> Vec<u64> {
    let p = u64::from(p);
    let mut sequences = sequences.to_vec();
    sequences.sort_by_key(|sequence| std::cmp::Reverse(sequence.len()));
    let longest = sequences[0].len();
    let (mut l, mut sigma) = (0, vec![0; longest + 1]);
    sigma[0] = 1;
    let mut l_of = vec![0; sequences.len()];
    let mut d_of = vec![1; sequences.len()];
    let mut n_of: Vec<usize> = sequences
        .iter()
        .map(|sequence| longest - sequence.len())
        .collect();
    let mut sigma_of = vec![vec![0; longest + 1]; sequences.len()];
    for n in 1..=longest {
        for h in 0..sequences.len() {
            let missing = longest - sequences[h].len();
            if n <= l + missing {
                continue;
            }
            let d = discrepancy(p, &sigma[..=l], &sequences[h], n - missing);
            if d == 0 {
                continue;
            }
            let (old_l, old_sigma) = (l, sigma.clone());
            let quotient = d * inverse(d_of[h], p) % p;
            for k in n - n_of[h]..=longest {
                sigma[k] = (sigma[k] + (p - quotient) * sigma_of[h][k - (n - n_of[h])]) % p;
            }
            if n - l > n_of[h] - l_of[h] {
                l = n - (n_of[h] - l_of[h]);
                (l_of[h], sigma_of[h], d_of[h], n_of[h]) = (old_l, old_sigma, d, n);
            }
        }
    }
    sigma.truncate(l + 1);
    sigma
}

/// All registers of length l that generate the sequences, by trying every one.
pub fn enumerate(p: u32, l: usize, sequences: &[Vec<u64>]) -> Vec<Vec<u64>> {
    let all = (0..u64::from(p).pow(l as u32)).map(|number| {
        let digits = std::iter::successors(Some(number), |rest| Some(rest / u64::from(p)));
        std::iter::once(1)
            .chain(digits.take(l).map(|rest| rest % u64::from(p)))
            .collect::<Vec<u64>>()
    });
    all.filter(|taps| generates(p, taps, sequences)).collect()
}
