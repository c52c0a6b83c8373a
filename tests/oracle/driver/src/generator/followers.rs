//! Calls that come after a load: they show what is in the state, and move it on.

use rateguard_core::gcra::Gcra;

use super::limiter_calls::{burst, rate};
use super::peers::demand as demand32;
use super::rng::Rng;
use super::values::whole;
use crate::script::State;

/// Some calls on the state, or none.
pub fn followers(state: &State, rng: &mut Rng) -> Vec<String> {
    let count = rng.pick(&[0, 1, 2, 4]);
    (0..count).map(|_| follower(state, rng)).collect()
}

fn follower(state: &State, rng: &mut Rng) -> String {
    let (key, peer, size) = (key(state, rng), peer(state, rng), rng.pick(&[1, 2, 100, 65_535]));
    let now = reading(state, key, rng);
    match rng.below(20) {
        0..4 => format!("check {key} {now} {size}"),
        4 | 5 => {
            let limits = [rate(rng), rate(rng)].map(|rate| format!("{rate:016x} {}", burst(rng)));
            format!("traced {key} {} {now} {size}", limits.join(" "))
        }
        6..8 => format!("tick {now} {size}"),
        8..10 => format!("ticks {now} {size}"),
        10 => format!(
            "report {peer} {now} {peer} {} {} 1 {key} {:08x} 1",
            epoch(state, peer, rng),
            rng.below(65_536),
            demand32(rng)
        ),
        11 => format!("expire {now} {}", whole(rng)),
        12 => format!("get {peer} {key}"),
        13 => format!("total {key}"),
        14 => format!("rates {key}"),
        15 => "hotdemand 64".into(),
        16 => format!("record {key} 1 1 1 {:016x} {} {now} {size}", rate(rng), burst(rng)),
        17 => "dump".into(),
        18 => "reload".into(),
        _ => "config".into(),
    }
}

/// A tracked key, mostly.
fn key(state: &State, rng: &mut Rng) -> u64 {
    let keys: Vec<u64> = state.limiter.iter().flat_map(|held| held.limiter.keys.keys().copied()).collect();
    if keys.is_empty() || rng.chance(20) { rng.below(6) } else { rng.pick(&keys) }
}

/// A known peer, mostly.
fn peer(state: &State, rng: &mut Rng) -> u64 {
    let ids: Vec<u64> = state.peers.iter().flat_map(|peers| peers.peers.keys().map(|id| id.get())).collect();
    if ids.is_empty() || rng.chance(20) { rng.below(6) } else { rng.pick(&ids) }
}

/// The peer's present epoch, one of its past ones, or another.
fn epoch(state: &State, peer: u64, rng: &mut Rng) -> u32 {
    let mut epochs = vec![rng.next() as u32];
    let peers = state.peers.iter().flat_map(|peers| &peers.peers);
    for (_, known) in peers.filter(|(id, _)| id.get() == peer) {
        epochs
            .extend(known.snapshot.iter().flat_map(|snapshot| [&[snapshot.epoch], &snapshot.past_epochs[..]].concat()));
    }
    rng.pick(&epochs)
}

/// Beside the key's TAT, soon after the last tick, or any.
fn reading(state: &State, key: u64, rng: &mut Rng) -> u64 {
    let held = state.limiter.as_ref();
    let gcra: Option<&Gcra> = held.and_then(|held| held.limiter.keys.get(&key)).map(|state| &state.gcra);
    match (rng.below(4), gcra.and_then(|gcra| gcra.tat), held.and_then(|held| held.limiter.last_tick)) {
        (0, Some(tat), _) => rng.near(tat, 1),
        (1 | 2, _, Some(last)) => last.saturating_add(rng.of_bits(34)),
        _ => whole(rng),
    }
}
