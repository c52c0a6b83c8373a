//! Calls of a lone hot set: small sets that fill up, demands at the eviction margin, cooldowns at their end.

use super::Source;
use super::rng::Rng;
use super::values::{float, no_demand, reading};

/// The set that the calls go to, as far as the choice of calls needs it.
#[derive(Default)]
pub struct HotSets {
    calls: u64,
    keys: u64,
    cooldown: u64,
    now: u64,
}

impl Source for HotSets {
    fn next(&mut self, rng: &mut Rng) -> String {
        self.calls += 1;
        // The first calls find no set yet.
        if self.calls == 4 || (self.calls > 4 && rng.chance(1)) {
            return self.renew(rng);
        }
        self.move_clock(rng);
        match rng.below(3) {
            0 => format!("l.hget {}", self.key(rng)),
            _ => self.update(rng),
        }
    }
}

impl HotSets {
    fn renew(&mut self, rng: &mut Rng) -> String {
        let size = match rng.below(10) {
            0 => rng.pick(&[0, 65, 1 << 32, u64::MAX]),
            1 => rng.between(5, 64),
            2 => 64,
            _ => rng.between(1, 4),
        };
        self.cooldown = rng.pick(&[0, 1, 5, 10, 1_000, u64::MAX]);
        self.keys = size.min(64) + rng.between(1, 4);
        self.now = reading(rng);
        format!("l.hnew {} {size}", self.cooldown)
    }

    fn key(&self, rng: &mut Rng) -> u64 {
        match rng.below(40) {
            0 => u64::MAX,
            1 => rng.next(),
            _ => rng.below(self.keys + 1),
        }
    }

    /// On by the cooldown, one less or one more, a step, back, or not at all.
    fn move_clock(&mut self, rng: &mut Rng) {
        self.now = match rng.below(8) {
            0 => self.now.saturating_add(rng.near(self.cooldown.clamp(1, 1 << 40), 1)),
            1 => self.now.saturating_sub(rng.below(20)),
            2..=4 => self.now.saturating_add(rng.below(4)),
            _ => self.now,
        };
    }

    fn update(&self, rng: &mut Rng) -> String {
        let demand = if rng.chance(8) { no_demand(rng) } else { demand(rng) };
        let threshold = threshold(rng, demand);
        let (key, now, elsewhere) = (self.key(rng), self.now, rng.below(2));
        format!("l.hupd {key} {demand:016x} {threshold:016x} {now} {elsewhere}")
    }
}

/// Of few sizes, each 1.1 times another or the float beside that.
fn demand(rng: &mut Rng) -> u64 {
    let base = rng.pick(&[0.0, 1e-3, 1.0, 10.0, 10.0, 10.0, 1e300]);
    let steps = rng.below(4);
    let value: f64 = (0..steps).fold(base, |value, _| value * 1.1);
    match rng.below(4) {
        0 if value > 0.0 => rng.near(value.to_bits(), 1),
        1 => (rng.below(200) as f64 / 10.0).to_bits(),
        _ => value.to_bits(),
    }
}

/// Below the demand more often than not.
fn threshold(rng: &mut Rng, demand: u64) -> u64 {
    match rng.below(10) {
        0 => demand,
        1 => rng.near(demand, 1),
        2 => float(rng),
        3 | 4 => 1e3f64.to_bits(),
        _ => 0,
    }
}
