//! Hot keys: a set of bounded size that a demand above a threshold puts a key into.

use crate::gcra::Nanos;
use crate::refused::{answered, or_panic, told, Refused};
use crate::sizes::{HOT_SET_WORDS, HOT_WORDS, MAX_HOT};
use crate::words;

/// A set of hot keys; it owns the words of its entries.
#[derive(Debug, Clone)]
pub struct HotSet {
    words: [u64; HOT_SET_WORDS],
    entries: Vec<u64>,
}

/// A key's demand, as `HotSet::update_each` takes it in.
#[derive(Debug, Clone, Copy, PartialEq)]
pub struct Update {
    /// The key.
    pub key: u64,
    /// Its demand, in attempts a second.
    pub demand_rate: f64,
    /// The demand above which it is hot.
    pub threshold: f64,
    /// Whether a peer has it as primary.
    pub hot_elsewhere: bool,
}

/// A call that tells something of a key in the answer's words.
type Reader = fn(&[u64], &[u64], u64, &mut [u64]) -> u8;

impl HotSet {
    /// A set with no entry that may grow to `max_size`; below its threshold a primary key stays for `cooldown`.
    pub fn try_new(cooldown: Nanos, max_size: usize) -> Result<Self, Refused> {
        let entries = vec![0; HOT_WORDS * max_size.min(MAX_HOT)];
        let mut words = [0; HOT_SET_WORDS];
        answered(words::hot_set_new(&mut words, &entries, cooldown, max_size as u64))?;
        Ok(Self { words, entries })
    }

    /// The same, or a panic where it is refused.
    #[track_caller]
    pub fn new(cooldown: Nanos, max_size: usize) -> Self {
        or_panic(Self::try_new(cooldown, max_size))
    }

    /// A set by its words and those of its entries: calls on such as no set has are refused, by 1 and 2.
    pub fn from_words(words: [u64; HOT_SET_WORDS], entries: Vec<u64>) -> Self {
        Self { words, entries }
    }

    /// Its words: the cooldown, the most entries, and how many are in use.
    pub fn words(&self) -> &[u64; HOT_SET_WORDS] {
        &self.words
    }

    /// The words of its entries.
    pub fn entries(&self) -> &[u64] {
        &self.entries
    }

    /// Takes in a key's demand; answers whether the key is hot then.
    pub fn try_update(&mut self, key: u64, demand_rate: f64, threshold: f64, now: Nanos) -> Result<bool, Refused> {
        let Self { words, entries } = self;
        told(|answer| words::hot_set_update(words, entries, key, demand_rate, threshold, now, answer)).map(is_yes)
    }

    /// The same, or a panic where it is refused.
    #[track_caller]
    pub fn update(&mut self, key: u64, demand_rate: f64, threshold: f64, now: Nanos) -> bool {
        or_panic(self.try_update(key, demand_rate, threshold, now))
    }

    /// `update` where a peer may have the key as primary.
    pub fn try_update_with(
        &mut self,
        key: u64,
        demand_rate: f64,
        threshold: f64,
        now: Nanos,
        hot_elsewhere: bool,
    ) -> Result<bool, Refused> {
        let (Self { words, entries }, elsewhere) = (self, hot_elsewhere.into());
        let update = words::hot_set_update_with;
        told(|answer| update(words, entries, key, demand_rate, threshold, now, elsewhere, answer)).map(is_yes)
    }

    /// The same, or a panic where it is refused.
    #[track_caller]
    pub fn update_with(&mut self, key: u64, demand_rate: f64, threshold: f64, now: Nanos, hot_elsewhere: bool) -> bool {
        or_panic(self.try_update_with(key, demand_rate, threshold, now, hot_elsewhere))
    }

    /// `update_with` of many keys, one after the other: whether each is hot after its own update.
    pub fn try_update_each(&mut self, updates: &[Update], now: Nanos) -> Result<Vec<bool>, Refused> {
        let keys: Vec<u64> = updates.iter().map(|update| update.key).collect();
        let demands: Vec<f64> = updates.iter().map(|update| update.demand_rate).collect();
        let thresholds: Vec<f64> = updates.iter().map(|update| update.threshold).collect();
        let elsewhere: Vec<bool> = updates.iter().map(|update| update.hot_elsewhere).collect();
        let (Self { words, entries }, count) = (self, updates.len() as u64);
        let mut out = vec![false; updates.len()];
        answered(words::hot_set_update_each(
            words,
            entries,
            &keys,
            1,
            count,
            &demands,
            &thresholds,
            &elsewhere,
            now,
            &mut out,
        ))?;
        Ok(out)
    }

    /// The same, or a panic where it is refused.
    #[track_caller]
    pub fn update_each(&mut self, updates: &[Update], now: Nanos) -> Vec<bool> {
        or_panic(self.try_update_each(updates, now))
    }

    /// The one word that a call tells.
    fn told(&self, read: Reader, key: u64) -> Result<u64, Refused> {
        told(|answer| read(&self.words, &self.entries, key, answer))
    }

    /// Whether the set has the key.
    pub fn try_is_hot(&self, key: u64) -> Result<bool, Refused> {
        self.told(words::hot_set_is_hot, key).map(is_yes)
    }

    /// The same, or a panic where it is refused.
    #[track_caller]
    pub fn is_hot(&self, key: u64) -> bool {
        or_panic(self.try_is_hot(key))
    }

    /// When the key came in, if the set has it.
    pub fn try_hot_since(&self, key: u64) -> Result<Option<Nanos>, Refused> {
        let mut answer = [0; 2];
        answered(words::hot_set_hot_since(&self.words, &self.entries, key, &mut answer))?;
        Ok((answer[0] != 0).then_some(answer[1]))
    }

    /// The same, or a panic where it is refused.
    #[track_caller]
    pub fn hot_since(&self, key: u64) -> Option<Nanos> {
        or_panic(self.try_hot_since(key))
    }

    /// Whether the set has the key as primary.
    pub fn try_is_primary(&self, key: u64) -> Result<bool, Refused> {
        self.told(words::hot_set_is_primary, key).map(is_yes)
    }

    /// The same, or a panic where it is refused.
    #[track_caller]
    pub fn is_primary(&self, key: u64) -> bool {
        or_panic(self.try_is_primary(key))
    }

    /// The number of hot keys.
    pub fn try_len(&self) -> Result<usize, Refused> {
        let len: Reader = |words, entries, _, answer| words::hot_set_len(words, entries, answer);
        self.told(len, 0).map(|count| count as usize)
    }

    /// The same, or a panic where it is refused.
    #[track_caller]
    pub fn len(&self) -> usize {
        or_panic(self.try_len())
    }

    /// Whether that is 0.
    pub fn try_is_empty(&self) -> Result<bool, Refused> {
        let none: Reader = |words, entries, _, answer| words::hot_set_is_empty(words, entries, answer);
        self.told(none, 0).map(is_yes)
    }

    /// The same, or a panic where it is refused.
    #[track_caller]
    pub fn is_empty(&self) -> bool {
        or_panic(self.try_is_empty())
    }
}

fn is_yes(flag: u64) -> bool {
    flag != 0
}
