//! What the peers told of their demand.

use crate::boundary::PeerId;
use crate::gcra::Nanos;
use crate::proto::DemandReport;
use crate::refused::{answered, or_panic, told, Refused};
use crate::sizes::{CONTESTED_SIZE, MAX_DEMAND_KEYS, PEERS_WORDS, PEER_TABLE_SIZE, SNAPSHOT_KEYS_SIZE};
use crate::words;

/// A peer's word on a key.
#[derive(Debug, Clone, Copy, PartialEq)]
pub struct Heard {
    /// The demand that it reported.
    pub demand: f32,
    /// Whether it holds the key as primary.
    pub primary: bool,
    /// The report's round.
    pub round: u16,
    /// The reading at which it came.
    pub heard_at: Nanos,
}

/// The words that the peers lend to each call.
#[derive(Debug, Clone, Default)]
pub struct Tables {
    /// The records of peers.
    pub peers: Vec<u64>,
    /// Those of the keys of their latest reports.
    pub snapshot_keys: Vec<u64>,
    /// Those of keys of reports that were not taken.
    pub contested: Vec<u64>,
}

impl Tables {
    /// Tables as long as the peers need them.
    pub fn whole() -> Self {
        Self {
            peers: vec![0; PEER_TABLE_SIZE],
            snapshot_keys: vec![0; SNAPSHOT_KEYS_SIZE],
            contested: vec![0; CONTESTED_SIZE],
        }
    }
}

/// The latest report of each peer, and of those not taken what still counts; it owns its tables.
#[derive(Debug, Clone)]
pub struct PeerDemand {
    pub(crate) words: [u64; PEERS_WORDS],
    pub(crate) tables: Tables,
}

impl Default for PeerDemand {
    fn default() -> Self {
        Self::new()
    }
}

/// A call that tells something in the answer's words.
type Reader = fn(&[u64], &[u64], &[u64], &[u64], u64, &mut [u64]) -> u8;

impl PeerDemand {
    /// No peer heard from yet.
    pub fn try_new() -> Result<Self, Refused> {
        Self::try_with_tables(Tables::whole())
    }

    /// The same, or a panic where it is refused.
    #[track_caller]
    pub fn new() -> Self {
        or_panic(Self::try_new())
    }

    /// The same in tables of the caller's, which may hold anything.
    pub fn try_with_tables(tables: Tables) -> Result<Self, Refused> {
        let mut words = [0; PEERS_WORDS];
        answered(words::peers_new(&mut words, &tables.peers, &tables.snapshot_keys, &tables.contested))?;
        Ok(Self { words, tables })
    }

    /// Its words: how many records of each table are in use.
    pub fn words(&self) -> &[u64; PEERS_WORDS] {
        &self.words
    }

    /// The words that it lends.
    pub fn tables(&self) -> &Tables {
        &self.tables
    }

    /// The same, to change: calls on tables that are too short or hold no valid state are refused, by 1 and 2.
    pub fn tables_mut(&mut self) -> &mut Tables {
        &mut self.tables
    }

    /// Whether its tables are long enough and hold a valid state.
    pub fn try_ask(&self) -> Result<(), Refused> {
        let Tables { peers, snapshot_keys, contested } = &self.tables;
        answered(words::peers_ask(&self.words, peers, snapshot_keys, contested))
    }

    /// Applies a report that came from a peer; one that the peer made about someone else changes nothing.
    pub fn try_apply(&mut self, from: PeerId, report: &DemandReport, now: Nanos) -> Result<(), Refused> {
        // One key more than a report may have tells as much as all of them.
        let listed = report.keys.iter().take(MAX_DEMAND_KEYS + 1);
        let keys: Vec<u64> =
            listed.flat_map(|key| [key.key_hash, key.demand.to_bits().into(), key.primary.into()]).collect();
        let Self { words, tables: Tables { peers, snapshot_keys, contested } } = self;
        let DemandReport { origin, epoch, round, .. } = *report;
        let count = report.keys.len() as u64;
        answered(words::peers_apply(
            words,
            peers,
            snapshot_keys,
            contested,
            from.get(),
            origin,
            epoch,
            round,
            &keys,
            count,
            now,
        ))
    }

    /// The same, or a panic where it is refused.
    #[track_caller]
    pub fn apply(&mut self, from: PeerId, report: &DemandReport, now: Nanos) {
        or_panic(self.try_apply(from, report, now))
    }

    /// Removes a peer's record and keys.
    pub fn try_forget(&mut self, peer: PeerId) -> Result<(), Refused> {
        let Self { words, tables: Tables { peers, snapshot_keys, contested } } = self;
        answered(words::peers_forget(words, peers, snapshot_keys, contested, peer.get()))
    }

    /// The same, or a panic where it is refused.
    #[track_caller]
    pub fn forget(&mut self, peer: PeerId) {
        or_panic(self.try_forget(peer))
    }

    /// A peer leaves: it is removed at once where `hold` is 0, and else held for that time.
    pub fn try_leave(&mut self, peer: PeerId, now: Nanos, hold: Nanos) -> Result<(), Refused> {
        let Self { words, tables: Tables { peers, snapshot_keys, contested } } = self;
        answered(words::peers_leave(words, peers, snapshot_keys, contested, peer.get(), now, hold))
    }

    /// The same, or a panic where it is refused.
    #[track_caller]
    pub fn leave(&mut self, peer: PeerId, now: Nanos, hold: Nanos) {
        or_panic(self.try_leave(peer, now, hold))
    }

    /// Removes what is `max_age` old, and peers that are held no longer.
    pub fn try_expire(&mut self, now: Nanos, max_age: Nanos) -> Result<(), Refused> {
        let Self { words, tables: Tables { peers, snapshot_keys, contested } } = self;
        answered(words::peers_expire(words, peers, snapshot_keys, contested, now, max_age))
    }

    /// The same, or a panic where it is refused.
    #[track_caller]
    pub fn expire(&mut self, now: Nanos, max_age: Nanos) {
        or_panic(self.try_expire(now, max_age))
    }

    /// What counts of the word of `peer` on `key`, if there is one.
    pub fn try_get(&self, peer: PeerId, key: u64) -> Result<Option<Heard>, Refused> {
        let Tables { peers, snapshot_keys, contested } = &self.tables;
        let mut answer = [0; 5];
        answered(words::peers_get(&self.words, peers, snapshot_keys, contested, peer.get(), key, &mut answer))?;
        let [there, demand, primary, round, heard_at] = answer;
        let demand = f32::from_bits(demand as u32);
        Ok((there != 0).then_some(Heard { demand, primary: primary != 0, round: round as u16, heard_at }))
    }

    /// The same, or a panic where it is refused.
    #[track_caller]
    pub fn get(&self, peer: PeerId, key: u64) -> Option<Heard> {
        or_panic(self.try_get(peer, key))
    }

    /// The one word that a call tells.
    fn told(&self, read: Reader, key: u64) -> Result<u64, Refused> {
        let Tables { peers, snapshot_keys, contested } = &self.tables;
        told(|answer| read(&self.words, peers, snapshot_keys, contested, key, answer))
    }

    /// The peers' demands for `key`, added up.
    pub fn try_total(&self, key: u64) -> Result<f64, Refused> {
        self.told(words::peers_total, key).map(f64::from_bits)
    }

    /// The same, or a panic where it is refused.
    #[track_caller]
    pub fn total(&self, key: u64) -> f64 {
        or_panic(self.try_total(key))
    }

    /// Whether `key` is primary at a peer.
    pub fn try_hot_elsewhere(&self, key: u64) -> Result<bool, Refused> {
        self.told(words::peers_hot_elsewhere, key).map(|flag| flag != 0)
    }

    /// The same, or a panic where it is refused.
    #[track_caller]
    pub fn hot_elsewhere(&self, key: u64) -> bool {
        or_panic(self.try_hot_elsewhere(key))
    }

    /// `total` of each of many keys.
    pub fn try_total_of_each(&self, keys: &[u64]) -> Result<Vec<f64>, Refused> {
        let Tables { peers, snapshot_keys, contested } = &self.tables;
        let mut out = vec![0.0; keys.len()];
        let count = keys.len() as u64;
        answered(words::peers_total_of_each(&self.words, peers, snapshot_keys, contested, keys, 1, count, &mut out))?;
        Ok(out)
    }

    /// The same, or a panic where it is refused.
    #[track_caller]
    pub fn total_of_each(&self, keys: &[u64]) -> Vec<f64> {
        or_panic(self.try_total_of_each(keys))
    }

    /// `hot_elsewhere` of each of many keys.
    pub fn try_hot_elsewhere_of_each(&self, keys: &[u64]) -> Result<Vec<bool>, Refused> {
        let Tables { peers, snapshot_keys, contested } = &self.tables;
        let mut out = vec![false; keys.len()];
        let (words, count) = (&self.words, keys.len() as u64);
        answered(words::peers_hot_elsewhere_of_each(words, peers, snapshot_keys, contested, keys, 1, count, &mut out))?;
        Ok(out)
    }

    /// The same, or a panic where it is refused.
    #[track_caller]
    pub fn hot_elsewhere_of_each(&self, keys: &[u64]) -> Vec<bool> {
        or_panic(self.try_hot_elsewhere_of_each(keys))
    }

    /// The number of keys of all peers.
    pub fn try_len(&self) -> Result<usize, Refused> {
        let len: Reader =
            |words, peers, keys, contested, _, answer| words::peers_len(words, peers, keys, contested, answer);
        self.told(len, 0).map(|count| count as usize)
    }

    /// The same, or a panic where it is refused.
    #[track_caller]
    pub fn len(&self) -> usize {
        or_panic(self.try_len())
    }

    /// Whether that is 0.
    pub fn try_is_empty(&self) -> Result<bool, Refused> {
        let none: Reader =
            |words, peers, keys, contested, _, answer| words::peers_is_empty(words, peers, keys, contested, answer);
        self.told(none, 0).map(|flag| flag != 0)
    }

    /// The same, or a panic where it is refused.
    #[track_caller]
    pub fn is_empty(&self) -> bool {
        or_panic(self.try_is_empty())
    }
}

/// Whether the difference of the rounds, modulo 65,536, is 1 to 32,767.
pub fn round_is_newer(a: u16, b: u16) -> bool {
    words::round_is_newer(a, b)
}

/// After how many rounds a report is stale.
pub fn try_stale_after_rounds(cluster_size: usize) -> Result<u64, Refused> {
    told(|answer| words::stale_after_rounds(cluster_size as u64, answer))
}

/// The same, or a panic where it is refused.
#[track_caller]
pub fn stale_after_rounds(cluster_size: usize) -> u64 {
    or_panic(try_stale_after_rounds(cluster_size))
}
