//! Writes the image of a limiter and its peers.

use rateguard_core::boundary::PeerId;
use rateguard_core::demand::Demand;
use rateguard_core::gcra::Gcra;
use rateguard_core::hot_set::HotEntry;
use rateguard_core::limiter::KeyState;
use rateguard_core::peer_demand::{Contested, Peer, PeerDemand};

use super::{CONTESTED, END, HOT, KEY, PAST_EPOCHS, PEER, SETTINGS, SHADOW, SNAPSHOT_KEY, put};
use crate::limiter::Held;

/// The bytes so far, and how many records they are.
struct Writer {
    bytes: Vec<u8>,
    records: u64,
}

impl Writer {
    fn record(&mut self, kind: u8, words: &[u64]) {
        put(&mut self.bytes, kind, words);
        self.records += 1;
    }
}

pub fn write(held: &Held, peers: &PeerDemand) -> Vec<u8> {
    let mut out = Writer { bytes: Vec::new(), records: 0 };
    let limiter = &held.limiter;
    out.record(SETTINGS, &settings(held));
    for (&key, state) in &limiter.keys {
        out.record(KEY, &key_words(key, state));
    }
    for (&key, entry) in &limiter.hot_set.hot {
        out.record(HOT, &hot_words(key, entry));
    }
    for (&key, gcra) in &limiter.shadows {
        let [quota, flag, tat] = gcra_words(gcra);
        out.record(SHADOW, &[key, quota, flag, tat]);
    }
    for (&id, peer) in &peers.peers {
        out.record(PEER, &peer_words(id, peer));
    }
    write_snapshot_keys(&mut out, peers);
    write_contested(&mut out, peers);
    let count = out.records;
    out.record(END, &[count]);
    out.bytes
}

fn write_snapshot_keys(out: &mut Writer, peers: &PeerDemand) {
    for (id, peer) in &peers.peers {
        let keys = peer.snapshot.iter().flat_map(|snapshot| &snapshot.keys);
        for (&key, &(demand, primary)) in keys {
            out.record(SNAPSHOT_KEY, &[id.get(), key, demand.to_bits() as u64, primary as u64]);
        }
    }
}

fn write_contested(out: &mut Writer, peers: &PeerDemand) {
    for (id, peer) in &peers.peers {
        for (&key, entry) in &peer.contested {
            let &Contested { demand, primary, round, heard_at } = entry;
            let words = [id.get(), key, demand.to_bits() as u64, primary as u64, round as u64, heard_at];
            out.record(CONTESTED, &words);
        }
    }
}

/// Flag and value: both are 0 where there is none.
fn maybe(value: Option<u64>) -> [u64; 2] {
    value.map_or([0, 0], |value| [1, value])
}

fn settings(held: &Held) -> [u64; 13] {
    let limiter = &held.limiter;
    let config = &limiter.config;
    let [has_cap, cap] = maybe(limiter.cap.map(f64::to_bits));
    let [has_ticked, last_tick] = maybe(limiter.last_tick);
    [
        config.limit.rate.to_bits(),
        config.limit.burst as u64,
        config.alpha.to_bits(),
        config.floor_factor.to_bits(),
        config.cooldown,
        config.hot_set_size as u64,
        config.max_tracked_keys as u64,
        config.demand_time_constant,
        held.table_size,
        has_cap,
        cap,
        has_ticked,
        last_tick,
    ]
}

/// Packed quota, and TAT with its flag.
fn gcra_words(gcra: &Gcra) -> [u64; 3] {
    let [flag, tat] = maybe(gcra.tat);
    [gcra.quota.pack(), flag, tat]
}

/// Rate, attempts, last and since. A tracked key's estimators have both times.
fn estimator_words(estimator: &Demand) -> [u64; 4] {
    let Demand { current_rate, attempts_since_tick, last_tick, since, .. } = *estimator;
    let time = |time: Option<u64>| time.expect("an estimator of a key starts with its times");
    [current_rate.to_bits(), attempts_since_tick, time(last_tick), time(since)]
}

fn key_words(key: u64, state: &KeyState) -> [u64; 22] {
    assert!(state.applied == state.gcra.quota, "a key has one quota");
    let mut words = [0; 22];
    words[..3].copy_from_slice(&[key, state.limit.rate.to_bits(), state.limit.burst as u64]);
    let estimators = [&state.demand, &state.requests, &state.denials, &state.shadow_denials];
    words[3..19].copy_from_slice(estimators.map(estimator_words).as_flattened());
    words[19..].copy_from_slice(&gcra_words(&state.gcra));
    words
}

fn hot_words(key: u64, entry: &HotEntry) -> [u64; 6] {
    let [cooling, cooling_since] = maybe(entry.cooling_since);
    [key, entry.demand.to_bits(), entry.primary as u64, cooling, cooling_since, entry.since]
}

/// All that a snapshot has is 0 where there is none.
fn peer_words(id: PeerId, peer: &Peer) -> [u64; 12] {
    let mut words = [0; 12];
    words[0] = id.get();
    words[1..3].copy_from_slice(&maybe(peer.held_until));
    let Some(snapshot) = &peer.snapshot else {
        return words;
    };
    words[3] = 1;
    words[4] = snapshot.epoch as u64;
    words[5] = snapshot.round as u64;
    words[6] = snapshot.heard_at;
    words[7] = snapshot.past_epochs.len() as u64;
    assert!(snapshot.past_epochs.len() <= PAST_EPOCHS, "a peer has few past epochs");
    for (word, &epoch) in words[8..].iter_mut().zip(&snapshot.past_epochs) {
        *word = epoch as u64;
    }
    words
}
