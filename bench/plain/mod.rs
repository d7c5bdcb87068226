//! The forms in plain Rust, with the same reading of stored numbers, the same ceilings and the same answers.
pub mod centre;
pub mod ends;

use crate::Answer;

/// The largest amount of either sign, in hundredths.
pub const AMOUNT_CEILING: i64 = 40_000_000_000;

/// The largest factor of either sign, in ten-millionths.
pub const FACTOR_CEILING: i64 = 200_000_000;

/// Ten-millionths in one.
const SCALE: i64 = 10_000_000;

const REFUSED: Answer = Answer {
    refused: true,
    first: 0,
    second: 0,
};

fn is_ratio(p: i64, q: i64) -> bool {
    (-AMOUNT_CEILING..=AMOUNT_CEILING).contains(&p) && (1..=AMOUNT_CEILING).contains(&q)
}

fn div_floor(z: i64, d: i64) -> i64 {
    z.div_euclid(d)
}

fn div_ceil(z: i64, d: i64) -> i64 {
    z.div_euclid(d) + i64::from(z.rem_euclid(d) != 0)
}
