//! Lone quotas and meters.

use std::time::Duration;

use crate::refused::{answered, or_panic, told, Refused};
use crate::sizes::GCRA_WORDS;
use crate::words;

/// A reading of the caller's clock, in nanoseconds.
pub type Nanos = u64;

/// The longest interval of a quota, 2^40 − 1 milliseconds.
pub const MAX_INTERVAL: Nanos = ((1 << 40) - 1) * 1_000_000;

/// The largest burst of a quota.
pub const MAX_BURST: u32 = (1 << 22) - 1;

/// An interval in nanoseconds, one request each, and a burst.
#[derive(Debug, Clone, Copy, PartialEq, Eq)]
pub struct Quota {
    interval: Nanos,
    burst: u32,
}

/// The answer to a request.
#[derive(Debug, Clone, Copy, PartialEq, Eq)]
pub enum Decision {
    /// The request passes.
    Allow,
    /// The request does not pass.
    Deny {
        /// When a check would pass, with no other one allowed before it.
        retry_at: Nanos,
    },
}

impl Decision {
    /// The decision of an answer's two words.
    pub(crate) fn of(denied: u64, retry_at: u64) -> Self {
        if denied == 0 {
            Decision::Allow
        } else {
            Decision::Deny { retry_at }
        }
    }
}

impl Quota {
    /// The quota of an answer's two words; the library answers no burst above `MAX_BURST`.
    pub(crate) fn of(interval: u64, burst: u64) -> Self {
        Self { interval, burst: burst as u32 }
    }

    /// Makes a quota by a call that answers its words.
    fn made(call: impl FnOnce(&mut [u64]) -> u8) -> Result<Self, Refused> {
        let mut answer = [0; 2];
        answered(call(&mut answer))?;
        Ok(Self::of(answer[0], answer[1]))
    }

    /// A whole number of requests a second.
    pub fn try_new(rate_per_sec: u32, burst: u32) -> Result<Self, Refused> {
        Self::made(|answer| words::quota_new(rate_per_sec, burst, answer))
    }

    /// The same, or a panic where it is refused.
    #[track_caller]
    pub fn new(rate_per_sec: u32, burst: u32) -> Self {
        or_panic(Self::try_new(rate_per_sec, burst))
    }

    /// Any rate; one that is too slow, zero, infinite or not a number gives `MAX_INTERVAL`.
    pub fn try_per_second(rate: f64, burst: u32) -> Result<Self, Refused> {
        Self::made(|answer| words::quota_per_second(rate, burst, answer))
    }

    /// The same, or a panic where it is refused.
    #[track_caller]
    pub fn per_second(rate: f64, burst: u32) -> Self {
        or_panic(Self::try_per_second(rate, burst))
    }

    /// The quota with this interval and burst, where packing gives it back.
    pub fn try_from_interval(interval: Nanos, burst: u32) -> Result<Self, Refused> {
        let quota = Self { interval, burst };
        quota.try_pack().map(|_| quota)
    }

    /// The quota of a word that `pack` gave.
    pub fn try_unpack(packed: u64) -> Result<Self, Refused> {
        Self::made(|answer| words::quota_unpack(packed, answer))
    }

    /// The same, or a panic where it is refused.
    #[track_caller]
    pub fn unpack(packed: u64) -> Self {
        or_panic(Self::try_unpack(packed))
    }

    /// The quota as one word.
    pub fn try_pack(self) -> Result<u64, Refused> {
        told(|answer| words::quota_pack(self.interval, self.burst, answer))
    }

    /// The same, or a panic where it is refused.
    #[track_caller]
    pub fn pack(self) -> u64 {
        or_panic(self.try_pack())
    }

    /// The rate, in requests a second.
    pub fn try_rate_per_sec(&self) -> Result<f64, Refused> {
        told(|answer| words::quota_rate_per_sec(self.interval, self.burst, answer)).map(f64::from_bits)
    }

    /// The same, or a panic where it is refused.
    #[track_caller]
    pub fn rate_per_sec(&self) -> f64 {
        or_panic(self.try_rate_per_sec())
    }

    /// The quoted ceiling: the most checks that the quota allows at readings from s to s + `window`.
    pub fn try_ceiling(&self, window: Nanos) -> Result<u64, Refused> {
        told(|answer| words::quota_ceiling(self.interval, self.burst, window, answer))
    }

    /// The same, or a panic where it is refused.
    #[track_caller]
    pub fn ceiling(&self, window: Nanos) -> u64 {
        or_panic(self.try_ceiling(window))
    }

    /// The interval, in nanoseconds.
    pub fn interval(&self) -> Nanos {
        self.interval
    }

    /// The burst.
    pub fn burst(&self) -> u32 {
        self.burst
    }
}

/// One key's meter.
#[derive(Debug, Clone, Copy)]
pub struct Gcra {
    words: [u64; GCRA_WORDS],
}

impl Gcra {
    /// A meter that has allowed nothing yet.
    pub fn try_new(quota: Quota) -> Result<Self, Refused> {
        let mut words = [0; GCRA_WORDS];
        answered(words::gcra_new(&mut words, quota.interval, quota.burst))?;
        Ok(Self { words })
    }

    /// The same, or a panic where it is refused.
    #[track_caller]
    pub fn new(quota: Quota) -> Self {
        or_panic(Self::try_new(quota))
    }

    /// A meter as an earlier one with this quota and TAT was left.
    pub fn try_with_tat(quota: Quota, tat: Option<Nanos>) -> Result<Self, Refused> {
        let mut meter = Self::try_new(quota)?;
        if let Some(tat) = tat {
            meter.words[2..].copy_from_slice(&[1, tat]);
        }
        Ok(meter)
    }

    /// The quota that it enforces now.
    pub fn quota(&self) -> Quota {
        Quota::of(self.words[0], self.words[1])
    }

    /// The theoretical arrival time of the next request, if one was allowed.
    pub fn tat(&self) -> Option<Nanos> {
        (self.words[2] != 0).then_some(self.words[3])
    }

    /// Allows or denies one request at `now`.
    pub fn try_check(&mut self, now: Nanos) -> Result<Decision, Refused> {
        let mut answer = [0; 2];
        answered(words::gcra_check(&mut self.words, now, &mut answer))?;
        Ok(Decision::of(answer[0], answer[1]))
    }

    /// The same, or a panic where it is refused.
    #[track_caller]
    pub fn check(&mut self, now: Nanos) -> Decision {
        or_panic(self.try_check(now))
    }

    /// Changes the quota; a debt of so many slots of the old one is as many of the new one.
    pub fn try_set_quota(&mut self, quota: Quota, now: Nanos) -> Result<(), Refused> {
        answered(words::gcra_set_quota(&mut self.words, quota.interval, quota.burst, now))
    }

    /// The same, or a panic where it is refused.
    #[track_caller]
    pub fn set_quota(&mut self, quota: Quota, now: Nanos) {
        or_panic(self.try_set_quota(quota, now))
    }

    /// Whether the TAT is later than the reading.
    pub fn try_has_debt(&self, now: Nanos) -> Result<bool, Refused> {
        told(|answer| words::gcra_has_debt(&self.words, now, answer)).map(|flag| flag != 0)
    }

    /// The same, or a panic where it is refused.
    #[track_caller]
    pub fn has_debt(&self, now: Nanos) -> bool {
        or_panic(self.try_has_debt(now))
    }

    /// The nanoseconds that a denied check has to wait; `None` where a check would pass.
    pub fn try_retry_after(&self, now: Nanos) -> Result<Option<Duration>, Refused> {
        let mut answer = [0; 2];
        answered(words::gcra_retry_after(&self.words, now, &mut answer))?;
        Ok((answer[0] != 0).then(|| Duration::from_nanos(answer[1])))
    }

    /// The same, or a panic where it is refused.
    #[track_caller]
    pub fn retry_after(&self, now: Nanos) -> Option<Duration> {
        or_panic(self.try_retry_after(now))
    }
}

/// One attempt on a TAT, 0 for none, and a packed quota: the decision, and the TAT after it.
pub fn try_step(tat: u64, packed: u64, now: Nanos) -> Result<(Decision, u64), Refused> {
    let mut answer = [0; 3];
    answered(words::step(tat, packed, now, &mut answer))?;
    Ok((Decision::of(answer[0], answer[1]), answer[2]))
}

/// The same, or a panic where it is refused.
#[track_caller]
pub fn step(tat: u64, packed: u64, now: Nanos) -> (Decision, u64) {
    or_panic(try_step(tat, packed, now))
}
