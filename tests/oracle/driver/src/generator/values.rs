//! Whole numbers and floats, those at the edges more often than chance would have them.

use super::rng::Rng;

/// A number of all kinds below 2^64.
pub fn whole(rng: &mut Rng) -> u64 {
    match rng.below(8) {
        0 => rng.below(10),
        1 => {
            let power = rng.pick(&[1 << 52, 1 << 53, 1 << 62, 1 << 63, 0]);
            rng.near(power, 4)
        }
        2 => {
            let power = 1 << rng.below(64);
            rng.near(power, 2)
        }
        3 => halfway(rng),
        4 => u64::MAX - rng.below(3_000),
        5 => {
            let power = 10u64.pow(rng.below(20) as u32);
            rng.near(power, 1)
        }
        6 => rng.next(),
        _ => rng.of_bits(64),
    }
}

/// A number with 54 to 64 bits that lies halfway between two floats, or beside such a number.
fn halfway(rng: &mut Rng) -> u64 {
    let dropped = rng.between(1, 11);
    let kept = (1 << 52) | (rng.next() >> 12);
    let kept = if rng.chance(10) { (1 << 53) - 1 } else { kept };
    rng.near((kept << dropped) | (1 << (dropped - 1)), 1)
}

/// The bits of a float of any kind.
pub fn float(rng: &mut Rng) -> u64 {
    let bits = match rng.below(10) {
        0 => rng.pick(&EDGES),
        1 => return rng.next(),
        2 => (rng.of_bits(52) as f64 + 0.5).to_bits(),
        3 => {
            let power = (1021 + rng.below(68)) << 52;
            rng.near(power, 2)
        }
        4 => with_short_fraction(rng),
        5 => (whole(rng) as f64).to_bits(),
        6 => rng.of_bits(53),
        7 => not_a_number(rng),
        8 => (rng.below(100_000) as f64 / 10.0).to_bits(),
        _ => rng.below(2048) << 52 | rng.next() >> 12,
    };
    if rng.chance(25) { bits ^ 1 << 63 } else { bits }
}

/// Zero, the smallest and largest subnormal and normal, infinity, NaNs, and the edges of rounding.
const EDGES: [u64; 26] = [
    0x0000_0000_0000_0000,
    0x0000_0000_0000_0001,
    0x000f_ffff_ffff_ffff,
    0x0010_0000_0000_0000,
    0x0010_0000_0000_0001,
    0x7fef_ffff_ffff_ffff,
    0x7ff0_0000_0000_0000,
    0x7ff0_0000_0000_0001,
    0x7ff8_0000_0000_0000,
    0x7fff_ffff_ffff_ffff,
    0x3fdf_ffff_ffff_ffff, // just below 0.5
    0x3fe0_0000_0000_0000, // 0.5
    0x3fe0_0000_0000_0001,
    0x3fef_ffff_ffff_ffff, // just below 1
    0x3ff0_0000_0000_0000, // 1
    0x3ff0_0000_0000_0001,
    0x3ff8_0000_0000_0000, // 1.5
    0x4004_0000_0000_0000, // 2.5
    0x432f_ffff_ffff_ffff, // 2^52 − 0.5
    0x4330_0000_0000_0000, // 2^52
    0x4330_0000_0000_0001,
    0x4340_0000_0000_0000, // 2^53
    0x43df_ffff_ffff_ffff, // just below 2^63
    0x43e0_0000_0000_0000, // 2^63
    0x43ef_ffff_ffff_ffff, // just below 2^64
    0x43f0_0000_0000_0000, // 2^64
];

/// Below 2^70 or so, with few bits after the point or none.
fn with_short_fraction(rng: &mut Rng) -> u64 {
    let exponent = rng.between(1020, 1090);
    let cleared = rng.below(53);
    exponent << 52 | (rng.next() >> 12) >> cleared << cleared
}

fn not_a_number(rng: &mut Rng) -> u64 {
    0x7ff0_0000_0000_0000 | rng.between(1, (1 << 52) - 1)
}

/// The bits of a float that is finite with a clear sign bit.
pub fn demand(rng: &mut Rng) -> u64 {
    match rng.below(8) {
        0 => 0,
        1 => rng.pick(&[1, 0x000f_ffff_ffff_ffff, 0x0010_0000_0000_0000, 0x7fef_ffff_ffff_ffff]),
        2 => rng.below(0x7ff0_0000_0000_0000),
        3 => 0.001f64.to_bits().wrapping_add(rng.below(3)).wrapping_sub(1),
        4 => (rng.below(1000) as f64).to_bits(),
        _ => (rng.of_bits(40) as f64 / 1000.0).to_bits(),
    }
}

/// The bits of a float that is no demand.
pub fn no_demand(rng: &mut Rng) -> u64 {
    match rng.below(4) {
        0 => (-0.0f64).to_bits(),
        1 => f64::INFINITY.to_bits(),
        2 => demand(rng) | 1 << 63,
        _ => not_a_number(rng),
    }
}

/// A reading of the clock.
pub fn reading(rng: &mut Rng) -> u64 {
    match rng.below(6) {
        0 => rng.below(4),
        1 => rng.of_bits(40),
        2 => rng.near(1 << 62, 3),
        3 => rng.near(1 << 63, 3),
        4 => whole(rng),
        _ => rng.below(1 << 62),
    }
}
