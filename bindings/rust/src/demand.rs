//! Estimators of attempts a second.

use crate::gcra::Nanos;
use crate::refused::{answered, or_panic, told, Refused};
use crate::sizes::DEMAND_WORDS;
use crate::words;

/// An estimator of attempts a second.
#[derive(Debug, Clone, Copy)]
pub struct Demand {
    words: [u64; DEMAND_WORDS],
}

impl Demand {
    /// An estimator at rate 0 that has no times yet, and smooths over `time_constant`.
    pub fn try_new(time_constant: Nanos) -> Result<Self, Refused> {
        let mut words = [0; DEMAND_WORDS];
        answered(words::demand_new(&mut words, time_constant))?;
        Ok(Self { words })
    }

    /// The same, or a panic where it is refused.
    #[track_caller]
    pub fn new(time_constant: Nanos) -> Self {
        or_panic(Self::try_new(time_constant))
    }

    /// The same with both times at `now`, so that its first tick moves the rate.
    pub fn try_starting_at(time_constant: Nanos, now: Nanos) -> Result<Self, Refused> {
        let mut words = [0; DEMAND_WORDS];
        answered(words::demand_starting_at(&mut words, time_constant, now))?;
        Ok(Self { words })
    }

    /// The same, or a panic where it is refused.
    #[track_caller]
    pub fn starting_at(time_constant: Nanos, now: Nanos) -> Self {
        or_panic(Self::try_starting_at(time_constant, now))
    }

    /// An estimator by its words: calls on such as no estimator has are refused, by 2.
    pub fn from_words(words: [u64; DEMAND_WORDS]) -> Self {
        Self { words }
    }

    /// Its words: rate (bits), attempts since the last tick, whether it has its times, that of the last tick, that from
    /// which it measures, the time constant.
    pub fn words(&self) -> &[u64; DEMAND_WORDS] {
        &self.words
    }

    /// Counts one attempt.
    pub fn try_record_attempt(&mut self) -> Result<(), Refused> {
        answered(words::demand_record_attempt(&mut self.words))
    }

    /// The same, or a panic where it is refused.
    #[track_caller]
    pub fn record_attempt(&mut self) {
        or_panic(self.try_record_attempt())
    }

    /// Counts `n` attempts.
    pub fn try_record_attempts(&mut self, n: u64) -> Result<(), Refused> {
        answered(words::demand_record_attempts(&mut self.words, n))
    }

    /// The same, or a panic where it is refused.
    #[track_caller]
    pub fn record_attempts(&mut self, n: u64) {
        or_panic(self.try_record_attempts(n))
    }

    /// Moves the rate by the attempts counted, and starts counting again.
    pub fn try_tick(&mut self, now: Nanos) -> Result<(), Refused> {
        answered(words::demand_tick(&mut self.words, now))
    }

    /// The same, or a panic where it is refused.
    #[track_caller]
    pub fn tick(&mut self, now: Nanos) {
        or_panic(self.try_tick(now))
    }

    /// Whether there are attempts that no tick has folded.
    pub fn try_has_pending(&self) -> Result<bool, Refused> {
        told(|answer| words::demand_has_pending(&self.words, answer)).map(|flag| flag != 0)
    }

    /// The same, or a panic where it is refused.
    #[track_caller]
    pub fn has_pending(&self) -> bool {
        or_panic(self.try_has_pending())
    }

    /// The rate that the last tick left, in attempts a second.
    pub fn try_rate(&self) -> Result<f64, Refused> {
        told(|answer| words::demand_rate(&self.words, answer)).map(f64::from_bits)
    }

    /// The same, or a panic where it is refused.
    #[track_caller]
    pub fn rate(&self) -> f64 {
        or_panic(self.try_rate())
    }

    /// The rate with the start at 0 taken out.
    pub fn try_unbiased_rate(&self) -> Result<f64, Refused> {
        told(|answer| words::demand_unbiased_rate(&self.words, answer)).map(f64::from_bits)
    }

    /// The same, or a panic where it is refused.
    #[track_caller]
    pub fn unbiased_rate(&self) -> f64 {
        or_panic(self.try_unbiased_rate())
    }
}
