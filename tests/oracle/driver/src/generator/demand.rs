//! Calls of lone estimators, the decay weight, shares, rounds and the stale window.

use super::Source;
use super::rng::Rng;
use super::values::{demand, float, no_demand, reading, whole};

pub struct Estimators;

impl Source for Estimators {
    fn next(&mut self, rng: &mut Rng) -> String {
        match rng.below(12) {
            0..=2 => tick(rng),
            3 => format!("l.drec {} {}", estimator(rng).text, whole(rng)),
            4 | 5 => format!("l.dunb {}", estimator(rng).text),
            6 | 7 => decay(rng),
            8 | 9 => share(rng),
            10 => newer(rng),
            _ => format!("l.stale {}", cluster_size(rng)),
        }
    }
}

/// Time constants that are used, and the edges.
fn time_constant(rng: &mut Rng) -> u64 {
    match rng.below(4) {
        0 => rng.pick(&[0, 1, 2, 3, 1 << 52, (1 << 52) + 1, u64::MAX]),
        1 => rng.pick(&[1_000_000_000, 10_000_000_000]),
        2 => rng.of_bits(36),
        _ => whole(rng),
    }
}

/// A time of up to 40 time constants, at whole ones and beside them, or any.
fn elapsed(rng: &mut Rng, constant: u64) -> u64 {
    let whole_ones = constant.saturating_mul(rng.below(40));
    match rng.below(6) {
        0 => rng.pick(&[0, 1, 2, 200_000_000, u64::MAX]),
        1 => rng.near(whole_ones, 1),
        2 => whole(rng),
        3 => rng.below(constant.max(1)),
        4 => rng.of_bits(34),
        _ => whole_ones.saturating_add(rng.below(constant.max(1))),
    }
}

fn decay(rng: &mut Rng) -> String {
    let constant = time_constant(rng);
    format!("l.decay {} {constant}", elapsed(rng, constant))
}

/// An estimator's five fields, with what a call at a later reading needs of them.
struct Estimator {
    text: String,
    last: u64,
    constant: u64,
}

fn estimator(rng: &mut Rng) -> Estimator {
    let rate = if rng.chance(8) { no_demand(rng) } else { demand(rng) };
    let attempts = if rng.chance(60) { rng.below(1000) } else { whole(rng) };
    let constant = time_constant(rng);
    let since = reading(rng);
    let last = since.saturating_add(elapsed(rng, constant));
    let last = if rng.chance(5) { reading(rng) } else { last };
    let times = match rng.below(50) {
        0..=4 => "none none".into(),
        5 => format!("none {since}"),
        6 => format!("{last} none"),
        _ => format!("{last} {since}"),
    };
    Estimator { text: format!("{rate:016x} {attempts} {times} {constant}"), last, constant }
}

fn tick(rng: &mut Rng) -> String {
    let estimator = estimator(rng);
    let now = match rng.below(8) {
        0 => rng.near(estimator.last, 1),
        1 => reading(rng),
        _ => estimator.last.saturating_add(elapsed(rng, estimator.constant)),
    };
    format!("l.dtick {} {now}", estimator.text)
}

fn cluster_size(rng: &mut Rng) -> u64 {
    match rng.below(10) {
        0 => rng.pick(&[0, 65_536, 65_537, 1 << 32, u64::MAX]),
        1 => rng.pick(&[1, 2, 3, 4, 65_534, 65_535]),
        2 => rng.between(1, 65_535),
        _ => rng.between(1, 100),
    }
}

fn limit(rng: &mut Rng) -> u64 {
    match rng.below(12) {
        0 => float(rng),
        1 => no_demand(rng),
        2 => rng.pick(&[0, 1, 0x7fef_ffff_ffff_ffff]),
        3..=5 => (rng.of_bits(30).max(1) as f64 / 3600.0).to_bits(),
        _ => (rng.of_bits(30).max(1) as f64).to_bits(),
    }
}

fn floor_factor(rng: &mut Rng) -> u64 {
    match rng.below(12) {
        0 => rng.pick(&[0x8000_0000_0000_0001, 0x3ff0_0000_0000_0001, 0x7ff8_0000_0000_0000]),
        1 => float(rng),
        2 | 3 => rng.pick(&[0, 1 << 63, 1, 0x3fef_ffff_ffff_ffff, 0x3ff0_0000_0000_0000]),
        4 => rng.below(0x3ff0_0000_0000_0000),
        _ => (rng.below(101) as f64 / 100.0).to_bits(),
    }
}

fn share(rng: &mut Rng) -> String {
    let given = |rng: &mut Rng| if rng.chance(20) { float(rng) } else { demand(rng) };
    let (limit, size, floor) = (limit(rng), cluster_size(rng), floor_factor(rng));
    let own = given(rng);
    let others = if rng.chance(5) { own ^ 1 << 63 } else { given(rng) };
    format!("l.share {limit:016x} {size} {floor:016x} {own:016x} {others:016x}")
}

/// Two rounds, mostly a telling distance apart.
fn newer(rng: &mut Rng) -> String {
    let a = rng.next() as u16;
    let ahead = match rng.below(3) {
        0 => rng.next() as u16,
        _ => rng.pick(&[0, 1, 2, 0x3fff, 0x4000, 0x7ffe, 0x7fff, 0x8000, 0x8001, 0xfffe, 0xffff]),
    };
    format!("l.newer {} {a}", a.wrapping_add(ahead))
}
