//! Judges an image and rebuilds its state; `None` throughout says that the image is not valid.

use rateguard_core::boundary::PeerId;
use rateguard_core::demand::Demand;
use rateguard_core::gcra::{Gcra, Quota};
use rateguard_core::hot_set::HotEntry;
use rateguard_core::limiter::{Config, DENIAL_TIME_CONSTANT, KeyState, Limit, Limiter};
use rateguard_core::peer_demand::{Contested, Peer, PeerDemand, Snapshot};

use super::{CONTESTED, END, HOT, KEY, MARK, PAST_EPOCHS, PEER, SETTINGS, SHADOW, SNAPSHOT_KEY, WORDS};
use crate::limiter::{Held, sizes_fit};
use crate::peers::{MOST_CONTESTED, MOST_PEERS, MOST_SNAPSHOT_KEYS};
use crate::questions::{alpha_fits, burst_fits, floor_fits, is_demand, is_demand32, rate_fits};

struct Record {
    kind: u8,
    words: Vec<u64>,
}

/// The table size and the hot set size, as question 1 of a load takes them; `None` where they can't be read.
pub fn sizes(bytes: &[u8]) -> Option<(u64, u64)> {
    let (first, _) = record(bytes)?;
    (first.kind == SETTINGS).then(|| (first.words[8], first.words[5]))
}

pub fn read(bytes: &[u8]) -> Option<(Held, PeerDemand)> {
    let records = records(bytes)?;
    let (first, others) = records.split_first().filter(|(first, _)| first.kind == SETTINGS)?;
    let mut held = settings(&mut Words::of(first))?;
    let mut peers = PeerDemand::new();
    for record in others {
        let words = &mut Words::of(record);
        match record.kind {
            KEY => add_key(&mut held, words)?,
            HOT => add_hot(&mut held, words)?,
            SHADOW => add_shadow(&mut held, words)?,
            PEER => add_peer(&mut peers, words)?,
            SNAPSHOT_KEY => add_snapshot_key(&mut peers, words)?,
            CONTESTED => add_contested(&mut peers, words)?,
            _ => return None,
        }
    }
    Some((held, peers))
}

/// The record at the front, and what is behind it.
fn record(bytes: &[u8]) -> Option<(Record, &[u8])> {
    let (&kind, rest) = bytes.strip_prefix(&MARK)?.split_first()?;
    let (words, rest) = rest.split_at_checked(8 * WORDS.get(kind as usize)?)?;
    let words = words.as_chunks().0.iter().map(|&word| u64::from_le_bytes(word)).collect();
    Some((Record { kind, words }, rest))
}

/// All records before the end, which tells their count and has nothing behind it. They ascend by kind, then ids.
fn records(mut bytes: &[u8]) -> Option<Vec<Record>> {
    let mut records: Vec<Record> = Vec::new();
    loop {
        let (next, rest) = record(bytes)?;
        if next.kind == END {
            let ends_here = next.words[0] == records.len() as u64 && rest.is_empty();
            return ends_here.then_some(records);
        }
        if records.last().is_some_and(|last| place(last) >= place(&next)) {
            return None;
        }
        records.push(next);
        bytes = rest;
    }
}

/// Kind and ids. There is one place for settings.
fn place(record: &Record) -> (u8, u64, u64) {
    let words = &record.words;
    match record.kind {
        SETTINGS => (SETTINGS, 0, 0),
        kind @ (SNAPSHOT_KEY | CONTESTED) => (kind, words[0], words[1]),
        kind => (kind, words[0], 0),
    }
}

/// The words of a record, read from left to right.
struct Words<'a> {
    rest: std::slice::Iter<'a, u64>,
}

impl<'a> Words<'a> {
    fn of(record: &'a Record) -> Self {
        Self { rest: record.words.iter() }
    }

    fn u64(&mut self) -> Option<u64> {
        self.rest.next().copied()
    }

    fn u32(&mut self) -> Option<u32> {
        self.u64()?.try_into().ok()
    }

    fn u16(&mut self) -> Option<u16> {
        self.u64()?.try_into().ok()
    }

    fn flag(&mut self) -> Option<bool> {
        match self.u64()? {
            0 => Some(false),
            1 => Some(true),
            _ => None,
        }
    }

    fn f64(&mut self) -> Option<f64> {
        self.u64().map(f64::from_bits)
    }

    fn demand(&mut self) -> Option<f64> {
        self.f64().filter(|&demand| is_demand(demand))
    }

    /// An f32 stands in the low half.
    fn demand32(&mut self) -> Option<f32> {
        self.u32().map(f32::from_bits).filter(|&demand| is_demand32(demand))
    }

    /// Flag and value; an absent value is 0.
    fn maybe(&mut self) -> Option<Option<u64>> {
        match (self.flag()?, self.u64()?) {
            (true, value) => Some(Some(value)),
            (false, 0) => Some(None),
            (false, _) => None,
        }
    }

    /// Rate and burst, which pass 3 and 4.
    fn limit(&mut self) -> Option<Limit> {
        let limit = Limit { rate: self.f64()?, burst: self.u32()? };
        (rate_fits(limit.rate) && burst_fits(limit.burst)).then_some(limit)
    }

    /// A packed word that `pack` gives, of at least 1 ns and a burst that fits.
    fn quota(&mut self) -> Option<Quota> {
        let word = self.u64()?;
        let (value, unit, burst) = (word >> 24, word >> 22 & 3, word as u32 & 0x3f_ffff);
        if value == 0 || unit == 3 || !burst_fits(burst) {
            return None;
        }
        let quota = Quota::unpack(word);
        (quota.pack() == word).then_some(quota)
    }

    fn gcra(&mut self) -> Option<Gcra> {
        Some(Gcra { quota: self.quota()?, tat: self.maybe()? })
    }

    fn estimator(&mut self, time_constant: u64) -> Option<Demand> {
        let (current_rate, attempts_since_tick) = (self.demand()?, self.u64()?);
        let (last_tick, since) = (Some(self.u64()?), Some(self.u64()?));
        Some(Demand { current_rate, attempts_since_tick, last_tick, since, time_constant })
    }
}

/// A limiter without keys. The settings pass 3 to 6, and a cap is not NaN.
fn settings(words: &mut Words) -> Option<Held> {
    let limit = words.limit()?;
    let (alpha, floor_factor, cooldown) = (words.f64()?, words.f64()?, words.u64()?);
    let (hot_set_size, max_tracked_keys) = (words.u64()? as usize, words.u64()? as usize);
    let (demand_time_constant, table_size) = (words.u64()?, words.u64()?);
    let config = Config { limit, alpha, floor_factor, cooldown, hot_set_size, max_tracked_keys, demand_time_constant };
    let cap = words.maybe()?.map(f64::from_bits);
    let last_tick = words.maybe()?;
    let fits = alpha_fits(alpha) && floor_fits(floor_factor) && sizes_fit(&config, table_size);
    if !fits || cap.is_some_and(f64::is_nan) {
        return None;
    }
    let limiter = Limiter { cap, last_tick, ..Limiter::new(config) };
    Some(Held { limiter, table_size })
}

fn add_key(held: &mut Held, words: &mut Words) -> Option<()> {
    let (key, limit) = (words.u64()?, words.limit()?);
    let demand = words.estimator(held.limiter.config.demand_time_constant)?;
    let (requests, denials) = (words.estimator(DENIAL_TIME_CONSTANT)?, words.estimator(DENIAL_TIME_CONSTANT)?);
    let (shadow_denials, gcra) = (words.estimator(DENIAL_TIME_CONSTANT)?, words.gcra()?);
    let applied = gcra.quota;
    let keys = &mut held.limiter.keys;
    keys.insert(key, KeyState { limit, demand, requests, denials, shadow_denials, gcra, applied });
    (keys.len() as u64 <= held.table_size).then_some(())
}

fn add_hot(held: &mut Held, words: &mut Words) -> Option<()> {
    let (key, demand, primary) = (words.u64()?, words.demand()?, words.flag()?);
    let (cooling_since, since) = (words.maybe()?, words.u64()?);
    let limiter = &mut held.limiter;
    let hot = &mut limiter.hot_set.hot;
    hot.insert(key, HotEntry { cooling_since, demand, primary, since });
    (limiter.keys.contains_key(&key) && hot.len() <= limiter.config.hot_set_size).then_some(())
}

fn add_shadow(held: &mut Held, words: &mut Words) -> Option<()> {
    let (key, gcra) = (words.u64()?, words.gcra()?);
    held.limiter.shadows.insert(key, gcra);
    held.limiter.keys.contains_key(&key).then_some(())
}

fn add_peer(peers: &mut PeerDemand, words: &mut Words) -> Option<()> {
    let (id, held_until, has_snapshot) = (PeerId::new(words.u64()?), words.maybe()?, words.flag()?);
    let (epoch, round, heard_at) = (words.u32()?, words.u16()?, words.u64()?);
    let count = words.u64().filter(|&count| count <= PAST_EPOCHS as u64)? as usize;
    let mut past_epochs = (0..PAST_EPOCHS).map(|_| words.u32()).collect::<Option<Vec<_>>>()?;
    let none_behind = past_epochs.drain(count..).all(|epoch| epoch == 0);
    let nothing = (epoch, round, heard_at, count) == (0, 0, 0, 0);
    let snapshot = Snapshot { epoch, past_epochs, round, heard_at, keys: Default::default() };
    let snapshot = has_snapshot.then_some(snapshot);
    let absent_is_zero = none_behind && (has_snapshot || nothing);
    peers.peers.insert(id, Peer { snapshot, contested: Default::default(), held_until });
    (absent_is_zero && peers.peers.len() <= MOST_PEERS).then_some(())
}

fn add_snapshot_key(peers: &mut PeerDemand, words: &mut Words) -> Option<()> {
    let (id, key) = (PeerId::new(words.u64()?), words.u64()?);
    let (demand, primary) = (words.demand32()?, words.flag()?);
    let keys = &mut peers.peers.get_mut(&id)?.snapshot.as_mut()?.keys;
    keys.insert(key, (demand, primary));
    (keys.len() <= MOST_SNAPSHOT_KEYS).then_some(())
}

fn add_contested(peers: &mut PeerDemand, words: &mut Words) -> Option<()> {
    let (id, key) = (PeerId::new(words.u64()?), words.u64()?);
    let (demand, primary) = (words.demand32()?, words.flag()?);
    let (round, heard_at) = (words.u16()?, words.u64()?);
    let contested = &mut peers.peers.get_mut(&id)?.contested;
    contested.insert(key, Contested { demand, primary, round, heard_at });
    (contested.len() <= MOST_CONTESTED).then_some(())
}
