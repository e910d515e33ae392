//! Linear equations modulo a prime by Gaussian elimination: the one method of the independent
//! implementation.

pub struct System {
    p: u64,
    unknowns: usize,
    /// For each pivot its unknown and its equation: the coefficients and the right side, with 1 at
    /// the pivot and 0 at the pivots of all other equations.
    reduced: Vec<(usize, Vec<u64>)>,
}

/// The inverse of a nonzero residue, by the extended algorithm of Euclid.
pub fn inverse(d: u64, p: u64) -> u64 {
    let (mut a, mut b) = (d as i64, p as i64);
    let (mut x, mut y) = (1, 0);
    while b != 0 {
        (a, b, x, y) = (b, a % b, y, x - a / b * y);
    }
    x.rem_euclid(p as i64) as u64
}

impl System {
    pub fn new(p: u32, unknowns: usize) -> System {
        System {
            p: u64::from(p),
            unknowns,
            reduced: Vec::new(),
        }
    }

    fn subtract(&self, from: &mut [u64], what: &[u64], factor: u64) {
        for (x, y) in from.iter_mut().zip(what) {
            *x = (*x + (self.p - factor) * y) % self.p;
        }
    }

    /// Adds an equation, the right side last. False if no solution is left.
    pub fn add(&mut self, mut equation: Vec<u64>) -> bool {
        for (pivot, other) in &self.reduced {
            let factor = equation[*pivot];
            if factor != 0 {
                self.subtract(&mut equation, other, factor);
            }
        }
        let Some(pivot) = equation.iter().position(|&x| x != 0) else {
            return true;
        };
        if pivot == self.unknowns {
            return false;
        }
        let scale = inverse(equation[pivot], self.p);
        for x in &mut equation {
            *x = *x * scale % self.p;
        }
        let mut reduced = std::mem::take(&mut self.reduced);
        for (_, other) in &mut reduced {
            let factor = other[pivot];
            if factor != 0 {
                self.subtract(other, &equation, factor);
            }
        }
        reduced.push((pivot, equation));
        self.reduced = reduced;
        true
    }

    /// Whether the equations leave one solution alone.
    pub fn is_unique(&self) -> bool {
        self.reduced.len() == self.unknowns
    }

    /// The solution whose free unknowns are 0.
    pub fn solution(&self) -> Vec<u64> {
        let mut values = vec![0; self.unknowns];
        for (pivot, equation) in &self.reduced {
            values[*pivot] = equation[self.unknowns];
        }
        values
    }
}
