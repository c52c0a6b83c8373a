//! The stack that calls take, as docs/LIBRARY.md states it: each is made of the largest state on a thread with no more.

use std::thread;

use nultiway::boundary::PeerId;
use nultiway::hot_set::Update;
use nultiway::proto::{DemandReport, KeyDemand};
use nultiway::sizes::LARGEST_IMAGE;
use nultiway::{limiter, peer_demand};
use nultiway::{Config, HotSet, Limit, Limiter, PeerDemand, Tally};

const KIB: usize = 1024;
const SECOND: u64 = 1_000_000_000;
const LIMIT: Limit = Limit { rate: 1.0, burst: 1 };

fn report(origin: u64, round: u16, from: u64) -> DemandReport {
    let key = |at: u64| KeyDemand { key_hash: 7 * (from + at), demand: 1.0, primary: true };
    DemandReport { origin, epoch: 1, round, keys: (0..64).map(key).collect() }
}

/// Every table is full.
fn largest() -> (Limiter, PeerDemand) {
    let mut limiter = Limiter::new(Config {
        limit: LIMIT,
        alpha: 1.0,
        floor_factor: 0.5,
        cooldown: SECOND,
        hot_set_size: 64,
        max_tracked_keys: 4096,
        demand_time_constant: 10 * SECOND,
    });
    let mut peers = PeerDemand::new();
    for key in 0..4096 {
        limiter.check_in_traced(7 * key, LIMIT, Some(LIMIT), 0, 1);
    }
    for key in 0..64 {
        limiter.record(7 * key, Tally { attempts: 1_000, ..Tally::default() }, LIMIT, 0, 1);
    }
    limiter.tick(SECOND, 1);
    for origin in 0..32 {
        for (round, from) in [(10, 0), (5, 0), (5, 64), (5, 128), (5, 192)] {
            peers.apply(PeerId::new(origin), &report(origin, round, from), SECOND);
        }
    }
    (limiter, peers)
}

/// Runs on a thread with so much stack; where that is too little the process ends.
fn within<T: Send>(stack: usize, call: impl FnOnce() -> T + Send) -> T {
    thread::scope(|scope| {
        let thread = thread::Builder::new().stack_size(stack).spawn_scoped(scope, call).expect("a thread");
        thread.join().expect("the call is answered")
    })
}

#[test]
fn calls_keep_to_their_stack() {
    let (mut limiter, mut peers) = largest();
    let mut image = vec![0; LARGEST_IMAGE];
    within(64 * KIB, || {
        limiter.check(7, SECOND, 1);
        limiter.check_in_traced(7, LIMIT, Some(LIMIT), SECOND, 1);
        limiter.check_each(&[(7, SECOND), (14, SECOND)], 1);
        peers.apply(PeerId::new(3), &report(3, 5, 1000), SECOND);
        peers.total_of_each(&[7, 14]);
        peers.hot_elsewhere_of_each(&[7, 14]);
    });
    let size = within(64 * KIB, || limiter.try_save_into(&peers, &mut image)).expect("there is room");
    assert_eq!(size, LARGEST_IMAGE);
    let (here, there) = (limiter::Tables::for_sizes(4096, 64), peer_demand::Tables::whole());
    let (again, others) = within(KIB * KIB, || Limiter::try_load_in(&image, here, there)).expect("the image is valid");
    assert_eq!(again.save(&others), image);
    within(128 * KIB, || {
        limiter.hot_demand();
        limiter.most_denied(4096);
        limiter.tick(2 * SECOND, 1);
        limiter.tick_with_shares(3 * SECOND, 1, &peers);
    });
    within(64 * KIB, || peers.expire(4 * SECOND, 1));
    assert!(peers.is_empty());
}

#[test]
fn calls_on_a_lone_hot_set_keep_to_it_too() {
    let mut set = HotSet::new(SECOND, 64);
    let update = |key: u64| Update { key: 7 * key, demand_rate: 1.0, threshold: 0.0, hot_elsewhere: false };
    let updates: Vec<Update> = (0..64).map(update).collect();
    within(64 * KIB, || set.update_each(&updates, SECOND));
    assert!(within(64 * KIB, || set.update(3, 2.0, 0.0, SECOND)));
    assert_eq!((set.len(), set.is_hot(0)), (64, false));
}
