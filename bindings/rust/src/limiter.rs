//! The limiter of a node: a quota and a meter for every tracked key.

use crate::gcra::{Decision, Nanos};
use crate::peer_demand::PeerDemand;
use crate::refused::{answered, or_panic, Refused};
use crate::sizes::{HOT_WORDS, KEY_WORDS, LIMITER_WORDS, MAX_HOT, MAX_KEYS, SHADOW_WORDS};
use crate::words;

/// One key's limit.
#[derive(Debug, Clone, Copy, PartialEq)]
pub struct Limit {
    /// The rate of all nodes together.
    pub rate: f64,
    /// The burst on each node.
    pub burst: u32,
}

/// A limiter's settings.
#[derive(Debug, Clone, Copy, PartialEq)]
pub struct Config {
    /// What `check` holds a key to.
    pub limit: Limit,
    /// A cold key's part of an even split, above 0 and at most 1.
    pub alpha: f64,
    /// What every node has of a hot key's limit whatever its demand, from 0 to 1.
    pub floor_factor: f64,
    /// Nanoseconds below the threshold until a key is no longer hot.
    pub cooldown: Nanos,
    /// The most hot keys, at most 64.
    pub hot_set_size: usize,
    /// The most keys that a tick leaves tracked.
    pub max_tracked_keys: usize,
    /// The time constant of the estimators of demand.
    pub demand_time_constant: Nanos,
}

/// Counts of one key that were taken elsewhere, for `record`.
#[derive(Debug, Clone, Copy, Default, PartialEq, Eq)]
pub struct Tally {
    /// All checks.
    pub attempts: u64,
    /// The denied ones.
    pub denials: u64,
    /// Those that a shadow limit denies.
    pub shadow_denials: u64,
}

/// Three rates of a key, a second each.
#[derive(Debug, Clone, Copy, PartialEq)]
pub struct KeyRates {
    /// Checks.
    pub requests_per_sec: f64,
    /// Denied checks.
    pub denied_per_sec: f64,
    /// Checks that its shadow limit denies.
    pub shadow_denied_per_sec: f64,
}

/// The words that a limiter lends to each call.
#[derive(Debug, Clone, Default)]
pub struct Tables {
    /// The records of tracked keys.
    pub keys: Vec<u64>,
    /// Those of hot keys.
    pub hot: Vec<u64>,
    /// Those of shadow limits.
    pub shadows: Vec<u64>,
}

impl Tables {
    /// Tables for these sizes; a size above its bound counts as that bound.
    pub fn for_sizes(table_size: usize, hot_set_size: usize) -> Self {
        let (keys, hot) = (table_size.min(MAX_KEYS), hot_set_size.min(MAX_HOT));
        Self { keys: vec![0; KEY_WORDS * keys], hot: vec![0; HOT_WORDS * hot], shadows: vec![0; SHADOW_WORDS * keys] }
    }
}

/// The limiter of one node, which owns its tables.
#[derive(Debug, Clone)]
pub struct Limiter {
    pub(crate) words: [u64; LIMITER_WORDS],
    pub(crate) tables: Tables,
    config: Config,
}

impl Limiter {
    /// A limiter with no key yet, whose table has room for as many keys as one may have.
    pub fn try_new(config: Config) -> Result<Self, Refused> {
        Self::try_with_table_size(config, MAX_KEYS)
    }

    /// The same, or a panic where it is refused.
    #[track_caller]
    pub fn new(config: Config) -> Self {
        or_panic(Self::try_new(config))
    }

    /// A limiter whose table has room for so many keys, at most 4,096.
    pub fn try_with_table_size(config: Config, table_size: usize) -> Result<Self, Refused> {
        Self::try_with_tables(config, table_size, Tables::for_sizes(table_size, config.hot_set_size))
    }

    /// The same, or a panic where it is refused.
    #[track_caller]
    pub fn with_table_size(config: Config, table_size: usize) -> Self {
        or_panic(Self::try_with_table_size(config, table_size))
    }

    /// The same in tables of the caller's, which may hold anything.
    pub fn try_with_tables(config: Config, table_size: usize, tables: Tables) -> Result<Self, Refused> {
        let mut words = [0; LIMITER_WORDS];
        answered(words::limiter_new(
            &mut words,
            &tables.keys,
            &tables.hot,
            &tables.shadows,
            config.limit.rate,
            config.limit.burst,
            config.alpha,
            config.floor_factor,
            config.cooldown,
            config.hot_set_size as u64,
            config.max_tracked_keys as u64,
            config.demand_time_constant,
            table_size as u64,
        ))?;
        Ok(Self { words, tables, config })
    }

    /// The limiter of words that the library wrote, in the tables that go with them.
    pub(crate) fn of_words(words: [u64; LIMITER_WORDS], tables: Tables) -> Self {
        let config = Config {
            limit: Limit { rate: f64::from_bits(words[0]), burst: words[1] as u32 },
            alpha: f64::from_bits(words[2]),
            floor_factor: f64::from_bits(words[3]),
            cooldown: words[4],
            hot_set_size: words[5] as usize,
            max_tracked_keys: words[6] as usize,
            demand_time_constant: words[7],
        };
        Self { words, tables, config }
    }

    /// The config that it was made with.
    pub fn config(&self) -> &Config {
        &self.config
    }

    /// How many keys its table has room for.
    pub fn table_size(&self) -> usize {
        self.words[8] as usize
    }

    /// Its words, as include/nultiway.h lists them.
    pub fn words(&self) -> &[u64; LIMITER_WORDS] {
        &self.words
    }

    /// The words that it lends.
    pub fn tables(&self) -> &Tables {
        &self.tables
    }

    /// The same, to change: calls on tables that are too short or hold no valid state are refused, by 1 and 2.
    pub fn tables_mut(&mut self) -> &mut Tables {
        &mut self.tables
    }

    /// Whether its tables are long enough and hold a valid state.
    pub fn try_ask(&self) -> Result<(), Refused> {
        answered(words::limiter_ask(&self.words, &self.tables.keys, &self.tables.hot, &self.tables.shadows))
    }

    /// Sets or lifts the cap, the greatest part of its limit that a key gets, a tracked one from the next tick on; NaN
    /// counts as none.
    pub fn try_set_cap(&mut self, cap: Option<f64>) -> Result<(), Refused> {
        let Self { words, tables, .. } = self;
        let (has_cap, cap) = (cap.is_some().into(), cap.unwrap_or_default());
        answered(words::set_cap(words, &tables.keys, &tables.hot, &tables.shadows, has_cap, cap))
    }

    /// The same, or a panic where it is refused.
    #[track_caller]
    pub fn set_cap(&mut self, cap: Option<f64>) {
        or_panic(self.try_set_cap(cap))
    }

    /// Decides on a request for `key` under the settings' limit, which a tracked key takes over at the next tick.
    pub fn try_check(&mut self, key: u64, now: Nanos, cluster_size: usize) -> Result<Decision, Refused> {
        let Self { words, tables, .. } = self;
        let (n, mut answer) = (cluster_size as u64, [0; 2]);
        answered(words::check(words, &mut tables.keys, &tables.hot, &tables.shadows, key, now, n, &mut answer))?;
        Ok(Decision::of(answer[0], answer[1]))
    }

    /// The same, or a panic where it is refused.
    #[track_caller]
    pub fn check(&mut self, key: u64, now: Nanos, cluster_size: usize) -> Decision {
        or_panic(self.try_check(key, now, cluster_size))
    }

    /// Decides under another limit, which a tracked key takes over at the next tick.
    pub fn try_check_in(
        &mut self,
        key: u64,
        limit: Limit,
        now: Nanos,
        cluster_size: usize,
    ) -> Result<Decision, Refused> {
        let Self { words, tables: Tables { keys, hot, shadows }, .. } = self;
        let (n, mut answer) = (cluster_size as u64, [0; 2]);
        answered(words::check_in(words, keys, hot, shadows, key, limit.rate, limit.burst, now, n, &mut answer))?;
        Ok(Decision::of(answer[0], answer[1]))
    }

    /// The same, or a panic where it is refused.
    #[track_caller]
    pub fn check_in(&mut self, key: u64, limit: Limit, now: Nanos, cluster_size: usize) -> Decision {
        or_panic(self.try_check_in(key, limit, now, cluster_size))
    }

    /// Decides as `check_in` does, and tells the decision of a shadow limit beside it.
    pub fn try_check_in_traced(
        &mut self,
        key: u64,
        limit: Limit,
        shadow: Option<Limit>,
        now: Nanos,
        cluster_size: usize,
    ) -> Result<(Decision, Option<Decision>), Refused> {
        let Self { words, tables: Tables { keys, hot, shadows }, .. } = self;
        let (n, mut answer) = (cluster_size as u64, [0; 5]);
        let (rate, burst) = (limit.rate, limit.burst);
        let tried = shadow.unwrap_or(Limit { rate: 0.0, burst: 0 });
        let has_shadow = shadow.is_some().into();
        answered(words::check_in_traced(
            words,
            keys,
            hot,
            shadows,
            key,
            rate,
            burst,
            has_shadow,
            tried.rate,
            tried.burst,
            now,
            n,
            &mut answer,
        ))?;
        let traced = (answer[2] != 0).then(|| Decision::of(answer[3], answer[4]));
        Ok((Decision::of(answer[0], answer[1]), traced))
    }

    /// The same, or a panic where it is refused.
    #[track_caller]
    pub fn check_in_traced(
        &mut self,
        key: u64,
        limit: Limit,
        shadow: Option<Limit>,
        now: Nanos,
        cluster_size: usize,
    ) -> (Decision, Option<Decision>) {
        or_panic(self.try_check_in_traced(key, limit, shadow, now, cluster_size))
    }

    /// Adds counts that were taken elsewhere to those of `key`, which gets the limit as by a check and is made if new.
    pub fn try_record(
        &mut self,
        key: u64,
        tally: Tally,
        limit: Limit,
        now: Nanos,
        cluster_size: usize,
    ) -> Result<(), Refused> {
        let Self { words, tables: Tables { keys, hot, shadows }, .. } = self;
        let Tally { attempts, denials, shadow_denials } = tally;
        let (n, rate, burst) = (cluster_size as u64, limit.rate, limit.burst);
        answered(words::record(words, keys, hot, shadows, key, attempts, denials, shadow_denials, rate, burst, now, n))
    }

    /// The same, or a panic where it is refused.
    #[track_caller]
    pub fn record(&mut self, key: u64, tally: Tally, limit: Limit, now: Nanos, cluster_size: usize) {
        or_panic(self.try_record(key, tally, limit, now, cluster_size))
    }

    /// Checks many keys, each at its time, as single calls of `check`, one after the other; some may be refused and others
    /// not.
    pub fn try_check_each(
        &mut self,
        checks: &[(u64, Nanos)],
        cluster_size: usize,
    ) -> Result<Vec<Result<Decision, Refused>>, Refused> {
        let list: Vec<u64> = checks.iter().flat_map(|&(key, now)| [key, now]).collect();
        let mut out = vec![0; 3 * checks.len()];
        self.try_check_each_into(&list, cluster_size, &mut out)?;
        let told = |entry: &[u64]| answered(entry[0] as u8).map(|()| Decision::of(entry[1], entry[2]));
        Ok(out.chunks_exact(3).map(told).collect())
    }

    /// The same, or a panic where it or one of the checks is refused.
    #[track_caller]
    pub fn check_each(&mut self, checks: &[(u64, Nanos)], cluster_size: usize) -> Vec<Decision> {
        or_panic(self.try_check_each(checks, cluster_size).and_then(|each| each.into_iter().collect()))
    }

    /// The same without an allocation: `list` has key and time of each check, `out` gets three words for each, the number
    /// of the question that it fails or 0, 1 where denied, and the retry time.
    pub fn try_check_each_into(&mut self, list: &[u64], cluster_size: usize, out: &mut [u64]) -> Result<(), Refused> {
        let Self { words, tables: Tables { keys, hot, shadows }, .. } = self;
        let (count, n) = (list.len() as u64 / 2, cluster_size as u64);
        answered(words::check_each(words, keys, hot, shadows, list, count, n, out))
    }

    /// The work of a period: estimators, hot set, quotas, and the keys that go.
    pub fn try_tick(&mut self, now: Nanos, cluster_size: usize) -> Result<(), Refused> {
        let Self { words, tables: Tables { keys, hot, shadows }, .. } = self;
        answered(words::tick(words, keys, hot, shadows, now, cluster_size as u64))
    }

    /// The same, or a panic where it is refused.
    #[track_caller]
    pub fn tick(&mut self, now: Nanos, cluster_size: usize) {
        or_panic(self.try_tick(now, cluster_size))
    }

    /// The same with what the peers told: they decide a hot key's share, and which keys are hot elsewhere.
    pub fn try_tick_with_shares(&mut self, now: Nanos, cluster_size: usize, peers: &PeerDemand) -> Result<(), Refused> {
        let Self { words, tables: Tables { keys, hot, shadows }, .. } = self;
        let (there, n) = (&peers.tables, cluster_size as u64);
        answered(words::tick_with_shares(
            words,
            keys,
            hot,
            shadows,
            &peers.words,
            &there.peers,
            &there.snapshot_keys,
            &there.contested,
            now,
            n,
        ))
    }

    /// The same, or a panic where it is refused.
    #[track_caller]
    pub fn tick_with_shares(&mut self, now: Nanos, cluster_size: usize, peers: &PeerDemand) {
        or_panic(self.try_tick_with_shares(now, cluster_size, peers))
    }
}
