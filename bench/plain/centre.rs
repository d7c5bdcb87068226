use super::{AMOUNT_CEILING, FACTOR_CEILING, REFUSED, SCALE, div_ceil, div_floor, is_ratio};
use crate::Answer;

/// The centre and the radius, or zeros if the radius is below 0 or an end is past the ceiling.
fn read(centre: i64, radius: i64, ceiling: i64) -> (i64, i64) {
    if (0..=ceiling).contains(&radius) && radius - ceiling <= centre && centre <= ceiling - radius {
        (centre, radius)
    } else {
        (0, 0)
    }
}

fn held(centre: i64, radius: i64, ceiling: i64) -> Answer {
    if centre - radius < -ceiling || centre + radius > ceiling {
        return REFUSED;
    }
    Answer {
        refused: false,
        first: centre,
        second: radius,
    }
}

/// 1 if z / d is not whole, and else 0.
fn inexact(z: i64, d: i64) -> i64 {
    i64::from(z.rem_euclid(d) != 0)
}

#[inline(never)]
pub extern "C" fn ratio(p: i64, q: i64) -> Answer {
    if !is_ratio(p, q) {
        return REFUSED;
    }
    let scaled = SCALE * p;
    held(div_floor(scaled, q), inexact(scaled, q), FACTOR_CEILING)
}

#[inline(never)]
pub extern "C" fn apply(
    factor_centre: i64,
    factor_radius: i64,
    centre: i64,
    radius: i64,
) -> Answer {
    let (f, r) = read(factor_centre, factor_radius, FACTOR_CEILING);
    let (a, s) = read(centre, radius, AMOUNT_CEILING);
    let exact = f * a;
    let spread = f.abs() * s + a.abs() * r + r * s;
    held(
        div_floor(exact, SCALE),
        div_ceil(spread, SCALE) + inexact(exact, SCALE),
        AMOUNT_CEILING,
    )
}
