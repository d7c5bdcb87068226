use super::{AMOUNT_CEILING, FACTOR_CEILING, REFUSED, SCALE, div_ceil, div_floor, is_ratio};
use crate::Answer;

/// The two ends, or zeros if they are out of order or past the ceiling.
fn read(low: i64, high: i64, ceiling: i64) -> (i64, i64) {
    if -ceiling <= low && low <= high && high <= ceiling {
        (low, high)
    } else {
        (0, 0)
    }
}

fn held(low: i64, high: i64, ceiling: i64) -> Answer {
    if low < -ceiling || high > ceiling {
        return REFUSED;
    }
    Answer {
        refused: false,
        first: low,
        second: high,
    }
}

#[inline(never)]
pub extern "C" fn ratio(p: i64, q: i64) -> Answer {
    if !is_ratio(p, q) {
        return REFUSED;
    }
    let scaled = SCALE * p;
    held(div_floor(scaled, q), div_ceil(scaled, q), FACTOR_CEILING)
}

#[inline(never)]
pub extern "C" fn apply(factor_low: i64, factor_high: i64, low: i64, high: i64) -> Answer {
    let (x, y) = read(factor_low, factor_high, FACTOR_CEILING);
    let (c, d) = read(low, high, AMOUNT_CEILING);
    let least = (x * c).min(x * d).min(y * c).min(y * d);
    let greatest = (x * c).max(x * d).max(y * c).max(y * d);
    held(
        div_floor(least, SCALE),
        div_ceil(greatest, SCALE),
        AMOUNT_CEILING,
    )
}
