//! Times calls of a limiter, the library's or rateguard's by what `limiter` names: prints a line `NAME KEYS NANOSECONDS` for
//! each. The same source is built for each, so that all run the same calls.

use std::hint::black_box;
use std::time::Instant;

use limiter::boundary::PeerId;
use limiter::limiter::{Config, Limit, Limiter, Tally};
use limiter::peer_demand::PeerDemand;
#[cfg(feature = "library")]
use limiter::proto::{DemandReport, KeyDemand};
#[cfg(not(feature = "library"))]
use {
    limiter::allocation::{View, share},
    proto::{DemandReport, KeyDemand},
};

const SECOND: u64 = 1_000_000_000;
const LISTED: u64 = 1000;
const PEERS: u64 = 32;
const ROUNDS: usize = 7;
const LIMIT: Limit = Limit { rate: 1.0, burst: 1 };

/// The least time of a call over the rounds, in each of which it is made so often, counted on from 1.
fn least<T>(times: u64, mut call: impl FnMut(u64) -> T) -> f64 {
    let mut turn = 0;
    let mut round = || {
        let start = Instant::now();
        for _ in 0..times {
            turn += 1;
            black_box(call(turn));
        }
        start.elapsed().as_nanos() as f64 / times as f64
    };
    (0..ROUNDS).map(|_| round()).fold(f64::INFINITY, f64::min)
}

fn row(name: &str, keys: u64, nanoseconds: f64) {
    println!("{name} {keys} {nanoseconds:.1}");
}

fn config(keys: u64, most: u64) -> Config {
    Config {
        limit: LIMIT,
        alpha: 1.0,
        floor_factor: 0.5,
        cooldown: SECOND,
        hot_set_size: 64.min(keys / 2) as usize,
        max_tracked_keys: most as usize,
        demand_time_constant: 10 * SECOND,
    }
}

/// A limiter of so many keys at most after a tick, with room for all of them.
#[cfg(feature = "library")]
fn new(keys: u64, most: u64) -> Limiter {
    Limiter::with_table_size(config(keys, most), keys as usize)
}

#[cfg(not(feature = "library"))]
fn new(keys: u64, most: u64) -> Limiter {
    Limiter::new(config(keys, most))
}

/// Every key is checked up to eight times in a second, and up to 64 of them have more attempts, which make them hot.
fn busy(keys: u64, most: u64) -> Limiter {
    let mut limiter = new(keys, most);
    limiter.tick(0, 1);
    for turn in 0..8 {
        let pairs: Vec<u64> = (0..keys).filter(|key| key % 8 >= turn).flat_map(|key| [7 * key, turn * SECOND / 8]).collect();
        check_each(&mut limiter, &pairs, &mut vec![0; 2 * pairs.len()]);
    }
    for key in hot(keys) {
        limiter.record(7 * key, Tally { attempts: 100 + key, denials: 0, shadow_denials: 0 }, LIMIT, SECOND, 1);
    }
    limiter
}

fn hot(keys: u64) -> impl Iterator<Item = u64> {
    (0..keys).step_by((keys / 64.min(keys / 2)) as usize)
}

fn filled(keys: u64) -> Limiter {
    let mut limiter = busy(keys, keys);
    limiter.tick(SECOND, 1);
    limiter
}

/// Each of 32 peers lists the hot keys, every second one as primary.
fn peers(keys: u64) -> PeerDemand {
    let mut peers = PeerDemand::new();
    let listed = |(place, key)| KeyDemand { key_hash: 7 * key, demand: 1.0, primary: place % 2 == 1 };
    for origin in 0..PEERS {
        let report = DemandReport { origin, epoch: 1, round: 1, keys: hot(keys).enumerate().map(listed).collect() };
        peers.apply(PeerId::new(origin), &report, SECOND);
    }
    peers
}

/// Checks of pairs of key and time, in one call where there is one; three words for each answer.
#[cfg(feature = "library")]
fn check_each(limiter: &mut Limiter, pairs: &[u64], out: &mut [u64]) {
    limiter.try_check_each_into(pairs, 1, out).expect("the limiter is valid");
}

#[cfg(not(feature = "library"))]
fn check_each(limiter: &mut Limiter, pairs: &[u64], out: &mut [u64]) {
    for (pair, answer) in pairs.chunks_exact(2).zip(out.chunks_exact_mut(3)) {
        let told = match limiter.check(pair[0], pair[1], 1) {
            limiter::gcra::Decision::Allow => [0, 0, 0],
            limiter::gcra::Decision::Deny { retry_at } => [0, 1, retry_at],
        };
        answer.copy_from_slice(&told);
    }
}

#[cfg(feature = "library")]
fn tick_with_shares(limiter: &mut Limiter, now: u64, peers: &PeerDemand) {
    limiter.tick_with_shares(now, 1, peers);
}

#[cfg(not(feature = "library"))]
fn tick_with_shares(limiter: &mut Limiter, now: u64, peers: &PeerDemand) {
    let share_of = |key, own, limit| {
        share(View { limit, cluster_size: 1, floor_factor: 0.5, own, others: peers.total(key) })
    };
    limiter.tick_with_shares(now, 1, |key| peers.hot_elsewhere(key), share_of);
}

/// A tick whose cap removes half of the keys; a limiter is made for each.
fn capped(keys: u64) -> f64 {
    let once = |_| {
        let mut limiter = busy(keys, keys / 2);
        let start = Instant::now();
        limiter.tick(SECOND, 1);
        black_box(&limiter);
        start.elapsed().as_nanos() as f64
    };
    (0..ROUNDS).map(once).fold(f64::INFINITY, f64::min)
}

fn limiter_calls(keys: u64) {
    let mut limiter = filled(keys);
    row("tracked_keys", keys, least(200, |_| limiter.tracked_keys()));
    row("check", keys, least(200, |turn| limiter.check(7 * (turn * 1237 % keys), 2 * SECOND + turn, 1)));
    let pairs: Vec<u64> = (0..LISTED).flat_map(|at| [7 * (at * 1237 % keys), 3 * SECOND + at]).collect();
    let mut out = vec![0; 3 * LISTED as usize];
    row("check_each", keys, least(20, |_| check_each(&mut limiter, &pairs, &mut out)));
    let mut ticked = filled(keys);
    row("tick", keys, least(30, |turn| ticked.tick(SECOND + turn * 1_000_000, 1)));
    row("hot_demand", keys, least(50, |_| ticked.hot_demand()));
    row("most_denied", keys, least(50, |_| ticked.most_denied(10)));
    let (mut shared, peers) = (filled(keys), peers(keys));
    row("tick_with_shares", keys, least(10, |turn| tick_with_shares(&mut shared, SECOND + turn * 1_000_000, &peers)));
    row("tick_with_cap", keys, capped(keys));
}

/// Save and load of the largest image beside a copy of as many bytes.
#[cfg(feature = "library")]
fn images() {
    let keys = 4096;
    let (mut full, mut peers) = (filled(keys), PeerDemand::new());
    for key in 0..keys {
        full.check_in_traced(7 * key, LIMIT, Some(LIMIT), SECOND, 1);
    }
    for origin in 0..32 {
        for (round, from) in [(10, 0), (5, 0), (5, 64), (5, 128), (5, 192)] {
            let key = |at: u64| KeyDemand { key_hash: 7 * (from + at), demand: 1.0, primary: true };
            let report = DemandReport { origin, epoch: 1, round, keys: (0..64).map(key).collect() };
            peers.apply(PeerId::new(origin), &report, SECOND);
        }
    }
    let image = full.save(&peers);
    assert_eq!(image.len(), limiter::sizes::LARGEST_IMAGE);
    let mut out = vec![0; image.len()];
    row("memcpy", keys, least(200, |_| black_box(&mut out).copy_from_slice(black_box(&image))));
    row("save", keys, least(20, |_| full.try_save_into(&peers, &mut out)));
    row(
        "load",
        keys,
        least(20, |_| {
            let (here, there) = (std::mem::take(full.tables_mut()), std::mem::take(peers.tables_mut()));
            (full, peers) = Limiter::try_load_in(&image, here, there).expect("the image is valid");
        }),
    );
    assert_eq!(full.save(&peers), image);
}

#[cfg(not(feature = "library"))]
fn images() {}

fn main() {
    for keys in [64, 512, 4096] {
        limiter_calls(keys);
    }
    images();
}
