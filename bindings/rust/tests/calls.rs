//! The binding's two forms of a call, refusals in words, the calls on many keys, and the layers alone.

use nultiway::allocation::{share, try_share, View};
use nultiway::boundary::PeerId;
use nultiway::gcra::{step, MAX_BURST, MAX_INTERVAL};
use nultiway::hot_set::Update;
use nultiway::peer_demand::{round_is_newer, stale_after_rounds, try_stale_after_rounds};
use nultiway::proto::{DemandReport, KeyDemand};
use nultiway::sizes::VERSION;
use nultiway::{words, Config, Decision, Demand, Gcra, HotSet, Limit, Limiter, PeerDemand, Quota, Tally};

const SECOND: u64 = 1_000_000_000;

fn config() -> Config {
    Config {
        limit: Limit { rate: 3.0, burst: 2 },
        alpha: 1.0,
        floor_factor: 0.5,
        cooldown: 10 * SECOND,
        hot_set_size: 4,
        max_tracked_keys: 8,
        demand_time_constant: SECOND,
    }
}

fn report(origin: u64, keys: &[(u64, f32)]) -> DemandReport {
    let keys = keys.iter().map(|&(key_hash, demand)| KeyDemand { key_hash, demand, primary: true }).collect();
    DemandReport { origin, epoch: 1, round: 1, keys }
}

/// A limiter and peers that have seen some calls.
fn used() -> (Limiter, PeerDemand) {
    let (mut limiter, mut peers) = (Limiter::with_table_size(config(), 16), PeerDemand::new());
    peers.apply(PeerId::new(7), &report(7, &[(1, 20.0), (2, 0.5)]), 0);
    for now in 0..40 {
        limiter.check(now % 5, now * SECOND / 8, 2);
        limiter.check_in_traced(9, Limit { rate: 1.0, burst: 1 }, Some(config().limit), now * SECOND / 8, 2);
        limiter.record(3, Tally { attempts: 9, denials: 2, shadow_denials: 1 }, config().limit, now * SECOND / 8, 2);
        limiter.tick_with_shares(now * SECOND / 8, 2, &peers);
    }
    (limiter, peers)
}

#[test]
fn version_is_the_archives() {
    assert_eq!(words::version(), VERSION);
}

#[test]
fn a_refused_call_says_its_number_and_its_question() {
    let mut limiter = Limiter::new(config());
    let refused = limiter.try_check(1, 0, 65_536).unwrap_err();
    assert_eq!(refused.number(), 7);
    assert_eq!(refused.question(), "the cluster size is not 1 to 65,535");
    assert_eq!(refused.to_string(), "the cluster size is not 1 to 65,535 (question 7)");
    assert_eq!(limiter.tracked_keys(), 0);
}

#[test]
#[should_panic(expected = "the cluster size is not 1 to 65,535")]
fn rateguards_form_panics_with_those_words() {
    Limiter::new(config()).check(1, 0, 0);
}

#[test]
#[should_panic(expected = "alpha is not in (0, 1]")]
fn a_config_out_of_range_panics() {
    Limiter::new(Config { alpha: 0.0, ..config() });
}

#[test]
fn a_full_table_refuses_a_new_key_alone() {
    let mut limiter = Limiter::with_table_size(config(), 8);
    let checks: Vec<(u64, u64)> = (0..9).map(|key| (key, 0)).collect();
    let each = limiter.try_check_each(&checks, 1).unwrap();
    assert!(each[..8].iter().all(|answer| *answer == Ok(Decision::Allow)));
    assert_eq!(each[8].unwrap_err().number(), 8);
    assert_eq!(limiter.check(3, 0, 1), Decision::Allow);
}

#[test]
fn many_checks_are_single_checks() {
    let ((mut one, _), (mut many, _)) = (used(), used());
    let checks: Vec<(u64, u64)> = (0..60).map(|at| (at % 7, 6 * SECOND + at * SECOND / 50)).collect();
    let single: Vec<Decision> = checks.iter().map(|&(key, now)| one.check(key, now, 2)).collect();
    assert_eq!(many.check_each(&checks, 2), single);
    assert!(single.contains(&Decision::Allow) && single.iter().any(|decision| *decision != Decision::Allow));
}

#[test]
fn many_keys_of_the_peers_are_single_keys() {
    let (_, peers) = used();
    let keys: Vec<u64> = (0..5).collect();
    assert_eq!(peers.total_of_each(&keys), keys.iter().map(|&key| peers.total(key)).collect::<Vec<f64>>());
    assert_eq!(peers.hot_elsewhere_of_each(&keys), [false, true, true, false, false]);
    assert_eq!((peers.len(), peers.is_empty()), (2, false));
    assert_eq!(peers.get(PeerId::new(7), 2).map(|heard| heard.demand), Some(0.5));
}

#[test]
fn a_loaded_limiter_goes_on_as_the_saved_one() {
    let (mut limiter, peers) = used();
    let image = limiter.save(&peers);
    assert_eq!(image.len(), limiter.image_size(&peers));
    let (mut again, there) = Limiter::load(&image);
    assert_eq!(again.save(&there), image);
    assert_eq!((again.config(), again.table_size()), (&config(), 16));
    assert_eq!(again.tables().keys.len(), limiter.tables().keys.len());
    for now in 40..80 {
        assert_eq!(again.check(now % 5, now * SECOND / 8, 2), limiter.check(now % 5, now * SECOND / 8, 2));
        assert_eq!(again.hot_demand(), limiter.hot_demand());
        assert_eq!(again.most_denied(3), limiter.most_denied(3));
        again.tick_with_shares(now * SECOND / 8, 2, &there);
        limiter.tick_with_shares(now * SECOND / 8, 2, &peers);
    }
    assert_eq!(again.save(&there), limiter.save(&peers));
}

#[test]
fn a_damaged_image_is_refused() {
    let (limiter, peers) = used();
    let mut image = limiter.save(&peers);
    image.pop();
    assert_eq!(Limiter::try_load(&image).unwrap_err().number(), 13);
    assert_eq!(Limiter::try_load(&[]).unwrap_err().number(), 13);
}

#[test]
fn spoiled_tables_are_refused() {
    let (mut limiter, _) = used();
    limiter.tables_mut().keys[1] = 0;
    assert_eq!(limiter.try_check(1, 0, 2).unwrap_err().number(), 2);
    limiter.tables_mut().keys.clear();
    assert_eq!(limiter.try_ask().unwrap_err().number(), 1);
}

#[test]
fn short_tables_come_before_words_that_are_no_limiter() {
    let (limiter, _) = used();
    let (mut spoiled, tables) = (*limiter.words(), limiter.tables());
    let asked = |words: &[u64], keys: &[u64]| words::limiter_ask(words, keys, &tables.hot, &tables.shadows);
    assert_eq!(asked(&spoiled, &tables.keys), 0);
    // A flag of the cap that is neither 0 nor 1.
    spoiled[9] = 2;
    assert_eq!(asked(&spoiled, &tables.keys), 2);
    assert_eq!(asked(&spoiled, &tables.keys[1..]), 1);
}

#[test]
fn short_tables_come_before_words_that_are_no_report() {
    let mut peers = PeerDemand::new();
    let (mut counts, tables) = (*peers.words(), peers.tables_mut());
    let mut applied = |peer_table: &mut [u64], flag: u64| {
        let (keys, contested) = (&mut tables.snapshot_keys, &mut tables.contested);
        words::peers_apply(&mut counts, peer_table, keys, contested, 1, 1, 1, 1, &[5, 0, flag], 1, 0)
    };
    let mut peer_table = vec![0; nultiway::sizes::PEER_TABLE_SIZE];
    assert_eq!(applied(&mut peer_table, 2), 2);
    assert_eq!(applied(&mut peer_table[1..], 2), 1);
    assert_eq!(applied(&mut peer_table, 1), 0);
}

#[test]
fn a_long_report_is_refused() {
    let keys: Vec<(u64, f32)> = (0..65).map(|key| (key, 1.0)).collect();
    let mut peers = PeerDemand::new();
    assert_eq!(peers.try_apply(PeerId::new(1), &report(1, &keys), 0).unwrap_err().number(), 10);
    assert_eq!(peers.try_apply(PeerId::new(1), &report(1, &[(1, f32::NAN)]), 0).unwrap_err().number(), 11);
    peers.apply(PeerId::new(1), &report(1, &keys[..64]), 0);
    assert_eq!(peers.len(), 64);
}

#[test]
fn rounds_are_serial_numbers() {
    assert!(round_is_newer(1, 65_535));
    assert!(!round_is_newer(32_768, 0) && !round_is_newer(0, 32_768) && !round_is_newer(5, 5));
    assert_eq!([3, 4].map(stale_after_rounds), [10, 12]);
    assert_eq!([0, 65_536].map(|size| try_stale_after_rounds(size).unwrap_err().number()), [7; 2]);
}

#[test]
#[should_panic(expected = "the cluster size is not 1 to 65,535")]
fn no_nodes_have_no_rounds() {
    stale_after_rounds(0);
}

/// A full set of two keys, the least demand 10.
fn full() -> HotSet {
    let mut set = HotSet::new(10 * SECOND, 2);
    assert!(set.is_empty() && set.update(1, 10.0, 5.0, 0) && set.update(2, 20.0, 5.0, SECOND));
    set
}

#[test]
fn a_newcomer_needs_a_tenth_more_than_the_weakest() {
    let mut set = full();
    assert!(!set.update(3, 11.0, 5.0, 2 * SECOND));
    assert_eq!((set.len(), set.hot_since(1), set.hot_since(3)), (2, Some(0), None));
    assert!(set.update(3, 11.5, 5.0, 2 * SECOND));
    assert_eq!((set.len(), set.is_hot(1), set.hot_since(3)), (2, false, Some(2 * SECOND)));
}

#[test]
fn a_key_cools_and_stays_where_a_peer_has_it() {
    let mut set = full();
    assert!(set.update(1, 1.0, 5.0, SECOND) && set.is_primary(1));
    assert!(set.update_with(1, 1.0, 5.0, 11 * SECOND, true) && !set.is_primary(1));
    assert!(!set.update(1, 1.0, 5.0, 11 * SECOND) && !set.is_hot(1));
}

#[test]
fn many_updates_are_single_updates() {
    let update =
        |at: u64| Update { key: at % 5, demand_rate: (at * 7 % 11) as f64, threshold: 4.0, hot_elsewhere: at % 3 == 1 };
    let updates: Vec<Update> = (0..60).map(update).collect();
    let (mut one, mut many) = (full(), full());
    let single: Vec<bool> = updates
        .iter()
        .map(|next| one.update_with(next.key, next.demand_rate, next.threshold, SECOND, next.hot_elsewhere))
        .collect();
    assert_eq!(many.update_each(&updates, SECOND), single);
    assert_eq!((many.words(), many.entries()), (one.words(), one.entries()));
    assert!(single.contains(&true) && single.contains(&false));
}

#[test]
fn a_hot_set_that_no_calls_leave_is_refused() {
    assert_eq!([0, 65].map(|size| HotSet::try_new(0, size).unwrap_err().number()), [6; 2]);
    let mut set = full();
    assert_eq!(set.try_update(1, -1.0, 5.0, 0).unwrap_err().number(), 11);
    let spoiled = Update { key: 1, demand_rate: f64::NAN, threshold: 5.0, hot_elsewhere: false };
    assert_eq!(set.try_update_each(&[spoiled], 0).unwrap_err().number(), 11);
    let mut entries = set.entries().to_vec();
    entries.swap(0, 6);
    assert_eq!(HotSet::from_words(*set.words(), entries.clone()).try_len().unwrap_err().number(), 2);
    entries.pop();
    assert_eq!(HotSet::from_words(*set.words(), entries).try_len().unwrap_err().number(), 1);
    assert_eq!(HotSet::from_words(*set.words(), set.entries().to_vec()).len(), 2);
}

#[test]
fn an_estimator_follows_its_attempts() {
    let mut demand = Demand::starting_at(SECOND, 0);
    demand.record_attempt();
    demand.record_attempts(9);
    assert!(demand.has_pending());
    demand.tick(SECOND);
    assert_eq!((demand.has_pending(), demand.unbiased_rate()), (false, 10.0));
    assert!((demand.rate() - 10.0 * (1.0 - (-1.0f64).exp())).abs() < 1e-9);
    let mut later = Demand::new(SECOND);
    later.record_attempt();
    later.tick(SECOND);
    assert_eq!((later.rate(), later.unbiased_rate(), later.has_pending()), (0.0, 0.0, true));
}

#[test]
fn an_estimator_is_refused() {
    let mut demand = Demand::new(SECOND);
    demand.record_attempts(u64::MAX);
    assert_eq!(demand.try_record_attempt().unwrap_err().number(), 9);
    assert_eq!(*demand.words(), [0, u64::MAX, 0, 0, 0, SECOND]);
    assert_eq!(Demand::from_words([0, 0, 0, 1, 0, SECOND]).try_rate().unwrap_err().number(), 2);
    assert_eq!(Demand::from_words([f64::NAN.to_bits(), 0, 0, 0, 0, SECOND]).try_tick(0).unwrap_err().number(), 2);
}

#[test]
fn a_share_is_a_floor_and_a_part_by_demand() {
    let view = View { limit: 100.0, cluster_size: 4, floor_factor: 0.5, own: 3.0, others: 1.0 };
    assert_eq!(share(view), 50.0);
    assert_eq!(share(View { own: 0.0, others: 0.0, ..view }), 25.0);
    assert_eq!(try_share(View { limit: 0.0, ..view }).unwrap_err().number(), 3);
    assert_eq!(try_share(View { floor_factor: 1.5, ..view }).unwrap_err().number(), 5);
    assert_eq!(try_share(View { cluster_size: 0, ..view }).unwrap_err().number(), 7);
}

#[test]
fn lone_quotas_and_meters() {
    let quota = Quota::new(3, 2);
    assert_eq!((quota.interval(), quota.burst(), quota.pack()), (333_333_334, 2, 5_592_405_344_518_146));
    assert_eq!(Quota::unpack(quota.pack()), quota);
    assert_eq!(quota.ceiling(SECOND), 4);
    assert_eq!(Quota::per_second(0.0, MAX_BURST).interval(), MAX_INTERVAL);
    assert_eq!(Quota::try_from_interval(0, 1).unwrap_err().number(), 2);
    let mut meter = Gcra::new(quota);
    assert_eq!([meter.check(0), meter.check(0)], [Decision::Allow; 2]);
    assert_eq!(meter.check(0), Decision::Deny { retry_at: 333_333_334 });
    assert_eq!(meter.retry_after(1).map(|wait| wait.as_nanos()), Some(333_333_333));
    assert_eq!(step(meter.tat().unwrap(), quota.pack(), 0), (Decision::Deny { retry_at: 333_333_334 }, 666_666_668));
}
