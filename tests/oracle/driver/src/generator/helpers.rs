//! Calls of the float helpers. None has a question, so every call but a spoiled one is fit.

use super::Source;
use super::rng::Rng;
use super::values::{float, whole};

pub struct Helpers;

impl Source for Helpers {
    fn next(&mut self, rng: &mut Rng) -> String {
        match rng.below(7) {
            0 => format!("l.u2f {}", whole(rng)),
            1 => format!("l.f2u {:016x}", float(rng)),
            2 => format!("l.ceil {:016x}", float(rng)),
            3 => format!("l.round {:016x}", float(rng)),
            4 => pair("l.min", rng),
            5 => pair("l.max", rng),
            _ => pair("l.totcmp", rng),
        }
    }
}

/// Two floats, often close to each other or alike but for the sign.
fn pair(name: &str, rng: &mut Rng) -> String {
    let a = float(rng);
    let b = match rng.below(6) {
        0 => a,
        1 => a ^ 1 << 63,
        2 => rng.near(a, 1),
        _ => float(rng),
    };
    format!("{name} {a:016x} {b:016x}")
}
