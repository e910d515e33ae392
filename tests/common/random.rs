//! Pseudo-random numbers with a fixed start, so that every run tries the same inputs, and the
//! frames and sequences made of them.

/// Marsaglia's xorshift of 64 bits.
pub struct Random(u64);

impl Random {
    /// Each seed, zero too, gives a start of its own that is not zero.
    pub fn new(seed: u64) -> Random {
        Random((seed + 1).wrapping_mul(0x9e37_79b9_7f4a_7c15) | 1)
    }

    pub fn bits(&mut self) -> u64 {
        self.0 ^= self.0 << 13;
        self.0 ^= self.0 >> 7;
        self.0 ^= self.0 << 17;
        self.0
    }

    /// A number below `bound`, which is not 0.
    pub fn below(&mut self, bound: usize) -> usize {
        ((self.bits() >> 11) % bound as u64) as usize
    }

    /// A number from `low` to `high`.
    pub fn from_to(&mut self, low: usize, high: usize) -> usize {
        low + self.below(high - low + 1)
    }

    /// True once in `bound` times.
    pub fn once_in(&mut self, bound: usize) -> bool {
        self.below(bound) == 0
    }

    pub fn pick<T: Copy>(&mut self, from: &[T]) -> T {
        from[self.below(from.len())]
    }

    pub fn symbol(&mut self, p: u32) -> u16 {
        self.below(p as usize) as u16
    }

    pub fn symbols(&mut self, p: u32, count: usize) -> Vec<u16> {
        (0..count).map(|_| self.symbol(p)).collect()
    }

    /// `count` different numbers below `bound`, rising.
    pub fn subset(&mut self, bound: usize, count: usize) -> Vec<usize> {
        let mut chosen: Vec<usize> = (0..bound).collect();
        while chosen.len() > count {
            let out = self.below(chosen.len());
            chosen.remove(out);
        }
        chosen
    }

    /// Sequences of the given lengths, one after the other, that one random register of length
    /// `order` generates: each symbol after the first `order` obeys the register.
    pub fn generated(&mut self, p: u32, lengths: &[u16], order: usize) -> Vec<u16> {
        let taps = self.symbols(p, order);
        let mut symbols = Vec::new();
        for &length in lengths {
            let start = symbols.len();
            for j in 0..length as usize {
                if j < order {
                    symbols.push(self.symbol(p));
                    continue;
                }
                let before = symbols[start + j - order..].iter().rev();
                let sum: u64 = taps
                    .iter()
                    .zip(before)
                    .map(|(&t, &s)| u64::from(t) * u64::from(s))
                    .sum();
                let p = u64::from(p);
                symbols.push(((p - sum % p) % p) as u16);
            }
        }
        symbols
    }

    /// Alters the given columns of a frame of `n` columns: each in one row at least.
    pub fn damage(&mut self, frame: &mut [u16], n: usize, columns: &[usize]) {
        let rows = frame.len() / n;
        for &i in columns {
            let hit = self.below(rows);
            for h in 0..rows {
                let cell = &mut frame[h * n + i];
                if h == hit {
                    *cell = (*cell + self.from_to(1, 256) as u16) % 257;
                } else if self.once_in(2) {
                    *cell = self.symbol(257);
                }
            }
        }
    }
}
