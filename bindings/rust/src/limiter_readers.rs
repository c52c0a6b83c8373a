//! What a limiter tells of its keys and quotas.

use crate::gcra::{Nanos, Quota};
use crate::limiter::{KeyRates, Limit, Limiter, Tables};
use crate::refused::{answered, or_panic, Refused};
use crate::sizes::MAX_HOT;
use crate::words;

/// A call that tells something of a key in the answer's words.
type Reader = fn(&[u64], &[u64], &[u64], &[u64], u64, &mut [u64]) -> u8;

/// A call that lists up to so many keys.
type Lister = fn(&[u64], &[u64], &[u64], &[u64], u64, &mut [u64], &mut [u64]) -> u8;

fn rates_of(words: &[u64]) -> KeyRates {
    KeyRates {
        requests_per_sec: f64::from_bits(words[0]),
        denied_per_sec: f64::from_bits(words[1]),
        shadow_denied_per_sec: f64::from_bits(words[2]),
    }
}

impl Limiter {
    /// What a call tells of a key, in an answer of so many words.
    fn told_of<const N: usize>(&self, read: Reader, key: u64) -> Result<[u64; N], Refused> {
        let Tables { keys, hot, shadows } = &self.tables;
        let mut answer = [0; N];
        answered(read(&self.words, keys, hot, shadows, key, &mut answer))?;
        Ok(answer)
    }

    /// The same where the first word says whether there is an answer.
    fn maybe_of<const N: usize>(&self, read: Reader, key: u64) -> Result<Option<[u64; N]>, Refused> {
        self.told_of::<N>(read, key).map(|answer| (answer[0] != 0).then_some(answer))
    }

    /// The three rates of a tracked key.
    pub fn try_key_rates(&self, key: u64) -> Result<Option<KeyRates>, Refused> {
        Ok(self.maybe_of::<4>(words::key_rates, key)?.map(|answer| rates_of(&answer[1..])))
    }

    /// The same, or a panic where it is refused.
    #[track_caller]
    pub fn key_rates(&self, key: u64) -> Option<KeyRates> {
        or_panic(self.try_key_rates(key))
    }

    /// A tracked key's quota.
    pub fn try_quota(&self, key: u64) -> Result<Option<Quota>, Refused> {
        Ok(self.maybe_of::<3>(words::quota, key)?.map(|answer| Quota::of(answer[1], answer[2])))
    }

    /// The same, or a panic where it is refused.
    #[track_caller]
    pub fn quota(&self, key: u64) -> Option<Quota> {
        or_panic(self.try_quota(key))
    }

    /// A tracked key's limit.
    pub fn try_limit(&self, key: u64) -> Result<Option<Limit>, Refused> {
        let limit = |answer: [u64; 3]| Limit { rate: f64::from_bits(answer[1]), burst: answer[2] as u32 };
        Ok(self.maybe_of::<3>(words::limit, key)?.map(limit))
    }

    /// The same, or a panic where it is refused.
    #[track_caller]
    pub fn limit(&self, key: u64) -> Option<Limit> {
        or_panic(self.try_limit(key))
    }

    /// A new key's quota under `limit`.
    pub fn try_new_key_quota(&self, limit: Limit, cluster_size: usize) -> Result<Quota, Refused> {
        let Tables { keys, hot, shadows } = &self.tables;
        let (n, mut answer) = (cluster_size as u64, [0; 2]);
        let Limit { rate, burst } = limit;
        answered(words::new_key_quota(&self.words, keys, hot, shadows, rate, burst, n, &mut answer))?;
        Ok(Quota::of(answer[0], answer[1]))
    }

    /// The same, or a panic where it is refused.
    #[track_caller]
    pub fn new_key_quota(&self, limit: Limit, cluster_size: usize) -> Quota {
        or_panic(self.try_new_key_quota(limit, cluster_size))
    }

    /// A new key's part of its limit.
    pub fn try_new_key_factor(&self, cluster_size: usize) -> Result<f64, Refused> {
        self.told_of::<1>(words::new_key_factor, cluster_size as u64).map(|answer| f64::from_bits(answer[0]))
    }

    /// The same, or a panic where it is refused.
    #[track_caller]
    pub fn new_key_factor(&self, cluster_size: usize) -> f64 {
        or_panic(self.try_new_key_factor(cluster_size))
    }

    /// The hot keys, greatest demand first: demand, and whether the key is primary.
    pub fn try_hot_demand(&self) -> Result<Vec<(u64, f64, bool)>, Refused> {
        let Tables { keys, hot, shadows } = &self.tables;
        let (mut out, mut count) = ([0; 3 * MAX_HOT], [0]);
        answered(words::hot_demand(&self.words, keys, hot, shadows, &mut out, &mut count))?;
        let entry = |words: &[u64]| (words[0], f64::from_bits(words[1]), words[2] != 0);
        Ok(out.chunks_exact(3).take(count[0] as usize).map(entry).collect())
    }

    /// The same, or a panic where it is refused.
    #[track_caller]
    pub fn hot_demand(&self) -> Vec<(u64, f64, bool)> {
        or_panic(self.try_hot_demand())
    }

    /// Up to `k` keys that a call ranks, with their rates.
    fn listed(&self, list: Lister, k: usize) -> Result<Vec<(u64, KeyRates)>, Refused> {
        let Tables { keys, hot, shadows } = &self.tables;
        let most = k.min(self.words[13] as usize);
        let (mut out, mut count) = (vec![0; 4 * most], [0]);
        answered(list(&self.words, keys, hot, shadows, k as u64, &mut out, &mut count))?;
        let entry = |words: &[u64]| (words[0], rates_of(&words[1..]));
        Ok(out.chunks_exact(4).take(count[0] as usize).map(entry).collect())
    }

    /// The first `k` keys by denials a second, with their rates.
    pub fn try_most_denied(&self, k: usize) -> Result<Vec<(u64, KeyRates)>, Refused> {
        self.listed(words::most_denied, k)
    }

    /// The same, or a panic where it is refused.
    #[track_caller]
    pub fn most_denied(&self, k: usize) -> Vec<(u64, KeyRates)> {
        or_panic(self.try_most_denied(k))
    }

    /// The first `k` keys by shadow denials a second.
    pub fn try_most_shadow_denied(&self, k: usize) -> Result<Vec<(u64, KeyRates)>, Refused> {
        self.listed(words::most_shadow_denied, k)
    }

    /// The same, or a panic where it is refused.
    #[track_caller]
    pub fn most_shadow_denied(&self, k: usize) -> Vec<(u64, KeyRates)> {
        or_panic(self.try_most_shadow_denied(k))
    }

    /// When a hot key came into the hot set.
    pub fn try_hot_since(&self, key: u64) -> Result<Option<Nanos>, Refused> {
        Ok(self.maybe_of::<2>(words::hot_since, key)?.map(|answer| answer[1]))
    }

    /// The same, or a panic where it is refused.
    #[track_caller]
    pub fn hot_since(&self, key: u64) -> Option<Nanos> {
        or_panic(self.try_hot_since(key))
    }

    /// Whether the hot set has the key.
    pub fn try_is_hot(&self, key: u64) -> Result<bool, Refused> {
        self.told_of::<1>(words::is_hot, key).map(|answer| answer[0] != 0)
    }

    /// The same, or a panic where it is refused.
    #[track_caller]
    pub fn is_hot(&self, key: u64) -> bool {
        or_panic(self.try_is_hot(key))
    }

    /// Whether the key is tracked.
    pub fn try_tracked(&self, key: u64) -> Result<bool, Refused> {
        self.told_of::<1>(words::tracked, key).map(|answer| answer[0] != 0)
    }

    /// The same, or a panic where it is refused.
    #[track_caller]
    pub fn tracked(&self, key: u64) -> bool {
        or_panic(self.try_tracked(key))
    }

    /// The number of tracked keys.
    pub fn try_tracked_keys(&self) -> Result<usize, Refused> {
        let count: Reader =
            |words, keys, hot, shadows, _, answer| words::tracked_keys(words, keys, hot, shadows, answer);
        self.told_of::<1>(count, 0).map(|answer| answer[0] as usize)
    }

    /// The same, or a panic where it is refused.
    #[track_caller]
    pub fn tracked_keys(&self) -> usize {
        or_panic(self.try_tracked_keys())
    }

    /// The size of the hot set now.
    pub fn try_hot_keys(&self) -> Result<usize, Refused> {
        let count: Reader = |words, keys, hot, shadows, _, answer| words::hot_keys(words, keys, hot, shadows, answer);
        self.told_of::<1>(count, 0).map(|answer| answer[0] as usize)
    }

    /// The same, or a panic where it is refused.
    #[track_caller]
    pub fn hot_keys(&self) -> usize {
        or_panic(self.try_hot_keys())
    }
}
