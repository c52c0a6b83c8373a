//! Calls of the meter: lone ones at the edges, and chains in which each Gcra is what the call before left.

use rateguard_core::gcra::{Decision, Gcra, MAX_BURST, MAX_INTERVAL, Quota};

use super::Source;
use super::rng::Rng;
use super::values::{float, reading, whole};

/// The first value of a unit above the finest: 2^40 ns is the first interval that needs it.
const FIRST_COARSE: u64 = 1_099_511_628;
const LAST_VALUE: u64 = (1 << 40) - 1;

#[derive(Default)]
pub struct Meter {
    chain: Option<Chain>,
}

impl Source for Meter {
    fn next(&mut self, rng: &mut Rng) -> String {
        if self.chain.is_none() && rng.chance(3) {
            self.chain = Some(Chain::new(rng));
        }
        match &mut self.chain {
            Some(chain) if chain.left > 0 => chain.next(rng),
            _ => {
                self.chain = None;
                lone(rng)
            }
        }
    }
}

fn lone(rng: &mut Rng) -> String {
    match rng.below(14) {
        0 => quota_new(rng),
        1 => format!("l.persec {:016x} {}", rate(rng), any_burst(rng)),
        2 => format!("l.unpack {}", word(rng)),
        3 => format!("l.ratepersec {}", quota_text(any_quota(rng))),
        4 => format!("l.pack {}", quota_text(any_quota(rng))),
        5 | 6 => ceiling(rng),
        7 | 8 => at_reading("l.gcheck", rng),
        9 | 10 => set_quota(rng),
        11 => at_reading("l.gdebt", rng),
        12 => at_reading("l.gretry", rng),
        _ => step(rng),
    }
}

fn quota_text(quota: Quota) -> String {
    format!("{} {}", quota.interval, quota.burst)
}

fn tat_text(tat: Option<u64>) -> String {
    tat.map_or_else(|| "none".into(), |tat| tat.to_string())
}

/// An interval that a quota can have, in each of the three units.
fn interval(rng: &mut Rng) -> u64 {
    match rng.below(8) {
        0 => rng.pick(&[1, 2, 3, 999, 1_000, 1_001, 999_999, 1_000_000, 333_333_334, LAST_VALUE - 1, LAST_VALUE]),
        1 => rng.pick(&[FIRST_COARSE, FIRST_COARSE + 1, LAST_VALUE - 1, LAST_VALUE]) * rng.pick(&[1_000, 1_000_000]),
        2 => 1_000_000_000u64.div_ceil(rng.of_bits(32).max(1)),
        3 => rng.between(FIRST_COARSE, LAST_VALUE) * 1_000,
        4 => rng.between(FIRST_COARSE, LAST_VALUE) * 1_000_000,
        _ => rng.of_bits(40).max(1),
    }
}

/// One that it can't have, or just may.
fn odd_interval(rng: &mut Rng) -> u64 {
    match rng.below(5) {
        0 => rng.pick(&[0, 1 << 40, (1 << 40) + 1, MAX_INTERVAL + 1, MAX_INTERVAL + 1_000_000, u64::MAX]),
        1 => rng.near(FIRST_COARSE * 1_000, 1),
        2 => rng.near(FIRST_COARSE * 1_000_000, 1_000),
        3 => whole(rng),
        _ => {
            let near = interval(rng);
            rng.near(near, 1)
        }
    }
}

fn burst(rng: &mut Rng) -> u32 {
    match rng.below(5) {
        0 => rng.between(1, 3) as u32,
        1 => MAX_BURST - rng.below(2) as u32,
        2 => rng.between(1, MAX_BURST as u64) as u32,
        _ => rng.of_bits(22).max(1) as u32,
    }
}

fn odd_burst(rng: &mut Rng) -> u32 {
    rng.pick(&[0, MAX_BURST + 1, MAX_BURST + 2, u32::MAX])
}

fn any_burst(rng: &mut Rng) -> u32 {
    if rng.chance(10) { odd_burst(rng) } else { burst(rng) }
}

fn quota(rng: &mut Rng) -> Quota {
    Quota { interval: interval(rng), burst: burst(rng) }
}

/// A quota that is valid nine times in ten.
fn any_quota(rng: &mut Rng) -> Quota {
    let fit = quota(rng);
    match rng.below(20) {
        0 => Quota { interval: odd_interval(rng), ..fit },
        1 => Quota { burst: odd_burst(rng), ..fit },
        _ => fit,
    }
}

fn tau(quota: Quota) -> u64 {
    quota.interval.saturating_mul((quota.burst as u64).saturating_sub(1)).min(u64::MAX / 2)
}

/// A TAT that is missing, at an end, or near one of the places where the answer turns.
fn tat(rng: &mut Rng, quota: Quota, now: u64) -> Option<u64> {
    let edge = now.saturating_add(tau(quota));
    Some(match rng.below(10) {
        0 => return None,
        1 => rng.pick(&[0, 1, u64::MAX, u64::MAX - 1]),
        2 => rng.near(now, 2),
        3 | 4 => rng.near(edge, 2),
        5 => rng.near(edge.saturating_add(quota.interval), 1),
        6 => rng.near(u64::MAX - quota.interval, 2),
        7 => now.saturating_add(quota.interval.saturating_mul(rng.below(5))),
        8 => now.saturating_add(rng.below(edge - now + 1)),
        _ => whole(rng),
    })
}

fn quota_new(rng: &mut Rng) -> String {
    let rate = match rng.below(8) {
        0 => rng.pick(&[0, 1, 2, 3, u32::MAX as u64, 1_000_000_000, 1_000_000_001]),
        _ => rng.of_bits(32).max(1),
    };
    format!("l.quotanew {rate} {}", any_burst(rng))
}

/// The bits of a rate: of any kind, or so that 10^9 divided by it comes close to an interval.
fn rate(rng: &mut Rng) -> u64 {
    match rng.below(5) {
        0 => float(rng),
        1 => (rng.of_bits(30) as f64).to_bits(),
        2 => (rng.of_bits(20) as f64 / 3600.0).to_bits(),
        _ => {
            let exact = (1e9 / interval(rng) as f64).to_bits();
            rng.near(exact, 2)
        }
    }
}

/// A packed word: of a quota, of a quota with its unit or burst changed, or any.
fn word(rng: &mut Rng) -> u64 {
    let packed = quota(rng).pack();
    match rng.below(8) {
        0 => rng.next(),
        1 => packed | 3 << 22,
        2 => packed & !0x3f_ffff,
        3 => packed & 0xff_ffff,
        4 => rng.of_bits(40) << 24 | rng.below(4) << 22 | burst(rng) as u64,
        _ => packed,
    }
}

fn ceiling(rng: &mut Rng) -> String {
    let quota = any_quota(rng);
    let window = match rng.below(5) {
        0 => rng.pick(&[0, 1, 1_000_000_000, 60_000_000_000, (1 << 62) - 1, 1 << 62]),
        1 => rng.pick(&[(1 << 62) + 1, 1 << 63, u64::MAX]),
        2 => whole(rng),
        3 => rng.below(1 << 62),
        _ => {
            let slots = rng.of_bits(20);
            rng.near(quota.interval.wrapping_mul(slots), 1)
        }
    };
    format!("l.ceiling {} {window}", quota_text(quota))
}

fn at_reading(name: &str, rng: &mut Rng) -> String {
    let (quota, now) = (any_quota(rng), reading(rng));
    let tat = tat(rng, quota, now);
    format!("{name} {} {} {now}", quota_text(quota), tat_text(tat))
}

fn set_quota(rng: &mut Rng) -> String {
    let (old, now) = (any_quota(rng), reading(rng));
    let tat = tat(rng, old, now);
    let new = other_quota(rng, old);
    format!("l.gset {} {} {} {now}", quota_text(old), tat_text(tat), quota_text(new))
}

/// The same quota, one that differs in one field, or another.
fn other_quota(rng: &mut Rng, old: Quota) -> Quota {
    match rng.below(6) {
        0 => old,
        1 => Quota { burst: any_burst(rng), ..old },
        2 => Quota { interval: interval(rng), ..old },
        3 => Quota { interval: (old.interval.wrapping_add(1)).clamp(1, LAST_VALUE), ..old },
        _ => any_quota(rng),
    }
}

fn step(rng: &mut Rng) -> String {
    let (word, now) = (word(rng), reading(rng));
    let tat = tat(rng, as_decoded(word), now).unwrap_or(0);
    format!("l.step {tat} {word} {now}")
}

/// The quota that a step reads in a word; one of unit code 3 counts milliseconds.
fn as_decoded(word: u64) -> Quota {
    let unit = [1, 1_000, 1_000_000, 1_000_000][(word >> 22 & 3) as usize];
    Quota { interval: (word >> 24) * unit, burst: (word & 0x3f_ffff) as u32 }
}

/// A Gcra that is called again and again, as the Rust leaves it each time.
struct Chain {
    gcra: Gcra,
    now: u64,
    left: u64,
}

impl Chain {
    fn new(rng: &mut Rng) -> Self {
        let quota = Quota { burst: rng.between(1, 6) as u32, ..quota(rng) };
        Self { gcra: Gcra::new(quota), now: reading(rng), left: rng.between(3, 40) }
    }

    fn next(&mut self, rng: &mut Rng) -> String {
        self.left -= 1;
        let before = format!("{} {}", quota_text(self.gcra.quota), tat_text(self.gcra.tat));
        if rng.chance(10) {
            let new = Quota { burst: rng.between(1, 6) as u32, ..quota(rng) };
            self.gcra.set_quota(new, self.now);
            return format!("l.gset {before} {} {}", quota_text(new), self.now);
        }
        let call = format!("l.gcheck {before} {}", self.now);
        let decision = self.gcra.check(self.now);
        self.move_clock(decision, rng);
        call
    }

    /// To the retry time or beside it, on by up to two intervals, back a little, or not at all.
    fn move_clock(&mut self, decision: Decision, rng: &mut Rng) {
        let interval = self.gcra.quota.interval;
        self.now = match (decision, rng.below(6)) {
            (Decision::Deny { retry_at }, 0..=2) => rng.near(retry_at, 1),
            (_, 3) => self.now.saturating_add(rng.below(2 * interval)),
            (_, 4) => self.now.saturating_sub(rng.below(interval)),
            _ => self.now,
        };
    }
}
