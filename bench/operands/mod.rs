//! Random operands, the same in every run. The usual ones are those of a book: factors near 1 and amounts far below the
//! ceiling, a few units wide. The others have every size and sign, stored numbers that count as zero, numbers at and past
//! the ceilings, and results that are refused.
use crate::plain::{AMOUNT_CEILING, FACTOR_CEILING};

pub mod centre;

/// A factor's two numbers and an amount's, or the p and the q of a ratio.
pub type Operands = [i64; 4];

pub struct Random(u64);

impl Random {
    pub fn new(seed: u64) -> Self {
        Random(seed)
    }

    pub fn shuffle(&mut self, operands: &mut [Operands]) {
        for i in (1..operands.len()).rev() {
            operands.swap(i, self.below(i as i64 + 1) as usize);
        }
    }

    fn bits(&mut self) -> u64 {
        self.0 = self.0.wrapping_add(0x9e37_79b9_7f4a_7c15);
        let mut z = self.0;
        z = (z ^ (z >> 30)).wrapping_mul(0xbf58_476d_1ce4_e5b9);
        z = (z ^ (z >> 27)).wrapping_mul(0x94d0_49bb_1331_11eb);
        z ^ (z >> 31)
    }

    fn below(&mut self, n: i64) -> i64 {
        (self.bits() % n as u64) as i64
    }

    fn between(&mut self, low: i64, high: i64) -> i64 {
        low + self.below(high - low + 1)
    }

    /// A number from 0 to `most`, of any size: each number of digits is as likely.
    fn sized(&mut self, most: i64) -> i64 {
        let bits = self.below(i64::from(most.max(1).ilog2()) + 2);
        self.below(1 << bits).min(most)
    }

    fn signed(&mut self, most: i64) -> i64 {
        let size = self.sized(most);
        if self.below(2) == 0 { size } else { -size }
    }

    /// Two numbers, most often the lower and the upper end of something within the ceiling.
    fn any_ends(&mut self, ceiling: i64) -> [i64; 2] {
        let a = self.signed(ceiling);
        let b = (a + self.sized(ceiling)).min(ceiling);
        match self.below(16) {
            0 => [b, a],
            1 => [self.bits() as i64, self.bits() as i64],
            2 => [a, ceiling + self.between(-1, 1)],
            3 => [-ceiling + self.between(-1, 1), a],
            4..8 => [a, a],
            _ => [a, b],
        }
    }
}

fn many(n: usize, seed: u64, mut one: impl FnMut(&mut Random) -> Operands) -> Vec<Operands> {
    let mut random = Random::new(seed);
    (0..n).map(|_| one(&mut random)).collect()
}

pub fn usual_ends(n: usize) -> Vec<Operands> {
    many(n, 1, |r| {
        let factor = r.between(5_000_000, 30_000_000);
        let amount = r.between(0, 2_000_000_000);
        [
            factor,
            factor + r.between(0, 4),
            amount,
            amount + r.between(0, 9),
        ]
    })
}

pub fn any_ends(n: usize) -> Vec<Operands> {
    many(n, 2, |r| {
        let [low, high] = r.any_ends(FACTOR_CEILING);
        let [least, most] = r.any_ends(AMOUNT_CEILING);
        [low, high, least, most]
    })
}

pub fn usual_ratios(n: usize) -> Vec<Operands> {
    many(n, 3, |r| {
        let q = r.between(1_000, 2_000_000_000);
        [r.between(q / 2, 3 * q), q, 0, 0]
    })
}

pub fn any_ratios(n: usize) -> Vec<Operands> {
    many(n, 4, |r| {
        let q = r.sized(AMOUNT_CEILING);
        match r.below(16) {
            0 => [r.signed(AMOUNT_CEILING), -q, 0, 0],
            1 => [r.bits() as i64, r.bits() as i64, 0, 0],
            2 => [AMOUNT_CEILING + r.between(-1, 1), q, 0, 0],
            3 => [-AMOUNT_CEILING + r.between(-1, 1), q, 0, 0],
            4..8 => [
                (q * r.between(-21, 21)).clamp(-AMOUNT_CEILING, AMOUNT_CEILING),
                q,
                0,
                0,
            ],
            _ => [r.signed(AMOUNT_CEILING), q, 0, 0],
        }
    })
}
