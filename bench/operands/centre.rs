use super::{Operands, Random, many};
use crate::plain::{AMOUNT_CEILING, FACTOR_CEILING};

/// Two numbers, most often the centre and the radius of something within the ceiling.
fn any_one(r: &mut Random, ceiling: i64) -> [i64; 2] {
    let centre = r.signed(ceiling);
    let room = ceiling - centre.abs();
    match r.below(16) {
        0 => [centre, -r.sized(room)],
        1 => [r.bits() as i64, r.bits() as i64],
        2 => [centre, room + r.between(-1, 1)],
        3 => [centre, r.sized(ceiling)],
        4..8 => [centre, 0],
        _ => [centre, r.sized(room)],
    }
}

pub fn usual(n: usize) -> Vec<Operands> {
    many(n, 5, |r| {
        [
            r.between(5_000_000, 30_000_000),
            r.between(0, 4),
            r.between(0, 2_000_000_000),
            r.between(0, 9),
        ]
    })
}

pub fn any(n: usize) -> Vec<Operands> {
    many(n, 6, |r| {
        let [factor_centre, factor_radius] = any_one(r, FACTOR_CEILING);
        let [centre, radius] = any_one(r, AMOUNT_CEILING);
        [factor_centre, factor_radius, centre, radius]
    })
}
