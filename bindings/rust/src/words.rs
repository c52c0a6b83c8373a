//! The functions of libnultiway.a, each over slices that the caller lends: all unsafe code is here.
//!
//! Made by tests/library/interface from the sources of the crate nultiway. Changes belong there.
//! A function that answers `u8` answers 0, or the number of the first question that the call fails. include/nultiway.h
//! tells what the words are.
#![allow(clippy::too_many_arguments)]

extern "C" {
    fn nultiway_demand_new(demand: *mut u64, demand_len: usize, time_constant: u64) -> u8;
    fn nultiway_demand_starting_at(demand: *mut u64, demand_len: usize, time_constant: u64, reading: u64) -> u8;
    fn nultiway_demand_record_attempt(demand: *mut u64, demand_len: usize) -> u8;
    fn nultiway_demand_record_attempts(demand: *mut u64, demand_len: usize, attempts: u64) -> u8;
    fn nultiway_demand_tick(demand: *mut u64, demand_len: usize, reading: u64) -> u8;
    fn nultiway_demand_has_pending(demand: *const u64, demand_len: usize, answer: *mut u64, answer_len: usize) -> u8;
    fn nultiway_demand_rate(demand: *const u64, demand_len: usize, answer: *mut u64, answer_len: usize) -> u8;
    fn nultiway_demand_unbiased_rate(demand: *const u64, demand_len: usize, answer: *mut u64, answer_len: usize) -> u8;
    fn nultiway_gcra_new(gcra: *mut u64, gcra_len: usize, interval: u64, burst: u32) -> u8;
    fn nultiway_gcra_check(gcra: *mut u64, gcra_len: usize, reading: u64, answer: *mut u64, answer_len: usize) -> u8;
    fn nultiway_gcra_set_quota(gcra: *mut u64, gcra_len: usize, interval: u64, burst: u32, reading: u64) -> u8;
    fn nultiway_gcra_has_debt(gcra: *const u64, gcra_len: usize, reading: u64,
        answer: *mut u64, answer_len: usize) -> u8;
    fn nultiway_gcra_retry_after(gcra: *const u64, gcra_len: usize, reading: u64,
        answer: *mut u64, answer_len: usize) -> u8;
    fn nultiway_u64_to_f64(n: u64) -> f64;
    fn nultiway_f64_to_u64(x: f64) -> u64;
    fn nultiway_high_product(a: u64, b: u64) -> u64;
    fn nultiway_decay_weight(elapsed: u64, time_constant: u64) -> u64;
    fn nultiway_hot_set_new(hot_set: *mut u64, hot_set_len: usize, entries: *const u64, entries_len: usize,
        cooldown: u64, max_size: u64) -> u8;
    fn nultiway_hot_set_update(hot_set: *mut u64, hot_set_len: usize, entries: *mut u64, entries_len: usize, key: u64,
        demand_rate: f64, threshold: f64, reading: u64, answer: *mut u64, answer_len: usize) -> u8;
    fn nultiway_hot_set_update_with(hot_set: *mut u64, hot_set_len: usize, entries: *mut u64, entries_len: usize,
        key: u64, demand_rate: f64, threshold: f64, reading: u64, hot_elsewhere: u8,
        answer: *mut u64, answer_len: usize) -> u8;
    fn nultiway_hot_set_update_each(hot_set: *mut u64, hot_set_len: usize, entries: *mut u64, entries_len: usize,
        keys: *const u64, keys_len: usize, width: u64, count: u64, demands: *const f64, demands_len: usize,
        thresholds: *const f64, thresholds_len: usize, elsewhere: *const bool, elsewhere_len: usize, reading: u64,
        out: *mut bool, out_len: usize) -> u8;
    fn nultiway_hot_set_is_hot(hot_set: *const u64, hot_set_len: usize, entries: *const u64, entries_len: usize,
        key: u64, answer: *mut u64, answer_len: usize) -> u8;
    fn nultiway_hot_set_is_primary(hot_set: *const u64, hot_set_len: usize, entries: *const u64, entries_len: usize,
        key: u64, answer: *mut u64, answer_len: usize) -> u8;
    fn nultiway_hot_set_hot_since(hot_set: *const u64, hot_set_len: usize, entries: *const u64, entries_len: usize,
        key: u64, answer: *mut u64, answer_len: usize) -> u8;
    fn nultiway_hot_set_len(hot_set: *const u64, hot_set_len: usize, entries: *const u64, entries_len: usize,
        answer: *mut u64, answer_len: usize) -> u8;
    fn nultiway_hot_set_is_empty(hot_set: *const u64, hot_set_len: usize, entries: *const u64, entries_len: usize,
        answer: *mut u64, answer_len: usize) -> u8;
    fn nultiway_save(limiter: *const u64, limiter_len: usize, keys: *const u64, keys_len: usize,
        hot: *const u64, hot_len: usize, shadows: *const u64, shadows_len: usize, peers: *const u64, peers_len: usize,
        peer_table: *const u64, peer_table_len: usize, snapshot_keys: *const u64, snapshot_keys_len: usize,
        contested: *const u64, contested_len: usize, out: *mut u8, out_len: usize,
        answer: *mut u64, answer_len: usize) -> u8;
    fn nultiway_load(image: *const u8, image_len: usize, limiter: *mut u64, limiter_len: usize,
        keys: *mut u64, keys_len: usize, hot: *mut u64, hot_len: usize, shadows: *mut u64, shadows_len: usize,
        peers: *mut u64, peers_len: usize, peer_table: *mut u64, peer_table_len: usize,
        snapshot_keys: *mut u64, snapshot_keys_len: usize, contested: *mut u64, contested_len: usize) -> u8;
    fn nultiway_limiter_new(limiter: *mut u64, limiter_len: usize, keys: *const u64, keys_len: usize,
        hot: *const u64, hot_len: usize, shadows: *const u64, shadows_len: usize, rate: f64, burst: u32, alpha: f64,
        floor_factor: f64, cooldown: u64, hot_set_size: u64, max_tracked_keys: u64, demand_time_constant: u64,
        table_size: u64) -> u8;
    fn nultiway_limiter_ask(limiter: *const u64, limiter_len: usize, keys: *const u64, keys_len: usize,
        hot: *const u64, hot_len: usize, shadows: *const u64, shadows_len: usize) -> u8;
    fn nultiway_set_cap(limiter: *mut u64, limiter_len: usize, keys: *const u64, keys_len: usize,
        hot: *const u64, hot_len: usize, shadows: *const u64, shadows_len: usize, has_cap: u8, cap: f64) -> u8;
    fn nultiway_record(limiter: *mut u64, limiter_len: usize, keys: *mut u64, keys_len: usize,
        hot: *const u64, hot_len: usize, shadows: *const u64, shadows_len: usize, key: u64, attempts: u64, denials: u64,
        shadow_denials: u64, rate: f64, burst: u32, reading: u64, cluster_size: u64) -> u8;
    fn nultiway_tick(limiter: *mut u64, limiter_len: usize, keys: *mut u64, keys_len: usize,
        hot: *mut u64, hot_len: usize, shadows: *mut u64, shadows_len: usize, reading: u64, cluster_size: u64) -> u8;
    fn nultiway_tick_with_shares(limiter: *mut u64, limiter_len: usize, keys: *mut u64, keys_len: usize,
        hot: *mut u64, hot_len: usize, shadows: *mut u64, shadows_len: usize, peers: *const u64, peers_len: usize,
        peer_table: *const u64, peer_table_len: usize, snapshot_keys: *const u64, snapshot_keys_len: usize,
        contested: *const u64, contested_len: usize, reading: u64, cluster_size: u64) -> u8;
    fn nultiway_check(limiter: *mut u64, limiter_len: usize, keys: *mut u64, keys_len: usize,
        hot: *const u64, hot_len: usize, shadows: *const u64, shadows_len: usize, key: u64, reading: u64,
        cluster_size: u64, answer: *mut u64, answer_len: usize) -> u8;
    fn nultiway_check_in(limiter: *mut u64, limiter_len: usize, keys: *mut u64, keys_len: usize,
        hot: *const u64, hot_len: usize, shadows: *const u64, shadows_len: usize, key: u64, rate: f64, burst: u32,
        reading: u64, cluster_size: u64, answer: *mut u64, answer_len: usize) -> u8;
    fn nultiway_check_in_traced(limiter: *mut u64, limiter_len: usize, keys: *mut u64, keys_len: usize,
        hot: *const u64, hot_len: usize, shadows: *mut u64, shadows_len: usize, key: u64, rate: f64, burst: u32,
        has_shadow: u8, shadow_rate: f64, shadow_burst: u32, reading: u64, cluster_size: u64,
        answer: *mut u64, answer_len: usize) -> u8;
    fn nultiway_check_each(limiter: *mut u64, limiter_len: usize, keys: *mut u64, keys_len: usize,
        hot: *const u64, hot_len: usize, shadows: *const u64, shadows_len: usize, list: *const u64, list_len: usize,
        count: u64, cluster_size: u64, out: *mut u64, out_len: usize) -> u8;
    fn nultiway_hot_demand(limiter: *const u64, limiter_len: usize, keys: *const u64, keys_len: usize,
        hot: *const u64, hot_len: usize, shadows: *const u64, shadows_len: usize, out: *mut u64, out_len: usize,
        answer: *mut u64, answer_len: usize) -> u8;
    fn nultiway_most_denied(limiter: *const u64, limiter_len: usize, keys: *const u64, keys_len: usize,
        hot: *const u64, hot_len: usize, shadows: *const u64, shadows_len: usize, k: u64, out: *mut u64, out_len: usize,
        answer: *mut u64, answer_len: usize) -> u8;
    fn nultiway_most_shadow_denied(limiter: *const u64, limiter_len: usize, keys: *const u64, keys_len: usize,
        hot: *const u64, hot_len: usize, shadows: *const u64, shadows_len: usize, k: u64, out: *mut u64, out_len: usize,
        answer: *mut u64, answer_len: usize) -> u8;
    fn nultiway_new_key_quota(limiter: *const u64, limiter_len: usize, keys: *const u64, keys_len: usize,
        hot: *const u64, hot_len: usize, shadows: *const u64, shadows_len: usize, rate: f64, burst: u32,
        cluster_size: u64, answer: *mut u64, answer_len: usize) -> u8;
    fn nultiway_new_key_factor(limiter: *const u64, limiter_len: usize, keys: *const u64, keys_len: usize,
        hot: *const u64, hot_len: usize, shadows: *const u64, shadows_len: usize, cluster_size: u64,
        answer: *mut u64, answer_len: usize) -> u8;
    fn nultiway_key_rates(limiter: *const u64, limiter_len: usize, keys: *const u64, keys_len: usize,
        hot: *const u64, hot_len: usize, shadows: *const u64, shadows_len: usize, key: u64,
        answer: *mut u64, answer_len: usize) -> u8;
    fn nultiway_quota(limiter: *const u64, limiter_len: usize, keys: *const u64, keys_len: usize,
        hot: *const u64, hot_len: usize, shadows: *const u64, shadows_len: usize, key: u64,
        answer: *mut u64, answer_len: usize) -> u8;
    fn nultiway_limit(limiter: *const u64, limiter_len: usize, keys: *const u64, keys_len: usize,
        hot: *const u64, hot_len: usize, shadows: *const u64, shadows_len: usize, key: u64,
        answer: *mut u64, answer_len: usize) -> u8;
    fn nultiway_config(limiter: *const u64, limiter_len: usize, keys: *const u64, keys_len: usize,
        hot: *const u64, hot_len: usize, shadows: *const u64, shadows_len: usize,
        answer: *mut u64, answer_len: usize) -> u8;
    fn nultiway_hot_since(limiter: *const u64, limiter_len: usize, keys: *const u64, keys_len: usize,
        hot: *const u64, hot_len: usize, shadows: *const u64, shadows_len: usize, key: u64,
        answer: *mut u64, answer_len: usize) -> u8;
    fn nultiway_is_hot(limiter: *const u64, limiter_len: usize, keys: *const u64, keys_len: usize,
        hot: *const u64, hot_len: usize, shadows: *const u64, shadows_len: usize, key: u64,
        answer: *mut u64, answer_len: usize) -> u8;
    fn nultiway_tracked(limiter: *const u64, limiter_len: usize, keys: *const u64, keys_len: usize,
        hot: *const u64, hot_len: usize, shadows: *const u64, shadows_len: usize, key: u64,
        answer: *mut u64, answer_len: usize) -> u8;
    fn nultiway_hot_keys(limiter: *const u64, limiter_len: usize, keys: *const u64, keys_len: usize,
        hot: *const u64, hot_len: usize, shadows: *const u64, shadows_len: usize,
        answer: *mut u64, answer_len: usize) -> u8;
    fn nultiway_tracked_keys(limiter: *const u64, limiter_len: usize, keys: *const u64, keys_len: usize,
        hot: *const u64, hot_len: usize, shadows: *const u64, shadows_len: usize,
        answer: *mut u64, answer_len: usize) -> u8;
    fn nultiway_quota_new(rate: u32, burst: u32, answer: *mut u64, answer_len: usize) -> u8;
    fn nultiway_quota_per_second(rate: f64, burst: u32, answer: *mut u64, answer_len: usize) -> u8;
    fn nultiway_quota_unpack(word: u64, answer: *mut u64, answer_len: usize) -> u8;
    fn nultiway_quota_pack(interval: u64, burst: u32, answer: *mut u64, answer_len: usize) -> u8;
    fn nultiway_quota_rate_per_sec(interval: u64, burst: u32, answer: *mut u64, answer_len: usize) -> u8;
    fn nultiway_quota_ceiling(interval: u64, burst: u32, window: u64, answer: *mut u64, answer_len: usize) -> u8;
    fn nultiway_step(tat: u64, packed: u64, reading: u64, answer: *mut u64, answer_len: usize) -> u8;
    fn nultiway_peers_ask(peers: *const u64, peers_len: usize, peer_table: *const u64, peer_table_len: usize,
        snapshot_keys: *const u64, snapshot_keys_len: usize, contested: *const u64, contested_len: usize) -> u8;
    fn nultiway_peers_get(peers: *const u64, peers_len: usize, peer_table: *const u64, peer_table_len: usize,
        snapshot_keys: *const u64, snapshot_keys_len: usize, contested: *const u64, contested_len: usize, peer: u64,
        key: u64, answer: *mut u64, answer_len: usize) -> u8;
    fn nultiway_peers_total(peers: *const u64, peers_len: usize, peer_table: *const u64, peer_table_len: usize,
        snapshot_keys: *const u64, snapshot_keys_len: usize, contested: *const u64, contested_len: usize, key: u64,
        answer: *mut u64, answer_len: usize) -> u8;
    fn nultiway_peers_hot_elsewhere(peers: *const u64, peers_len: usize, peer_table: *const u64, peer_table_len: usize,
        snapshot_keys: *const u64, snapshot_keys_len: usize, contested: *const u64, contested_len: usize, key: u64,
        answer: *mut u64, answer_len: usize) -> u8;
    fn nultiway_peers_len(peers: *const u64, peers_len: usize, peer_table: *const u64, peer_table_len: usize,
        snapshot_keys: *const u64, snapshot_keys_len: usize, contested: *const u64, contested_len: usize,
        answer: *mut u64, answer_len: usize) -> u8;
    fn nultiway_peers_is_empty(peers: *const u64, peers_len: usize, peer_table: *const u64, peer_table_len: usize,
        snapshot_keys: *const u64, snapshot_keys_len: usize, contested: *const u64, contested_len: usize,
        answer: *mut u64, answer_len: usize) -> u8;
    fn nultiway_peers_total_of_each(peers: *const u64, peers_len: usize, peer_table: *const u64, peer_table_len: usize,
        snapshot_keys: *const u64, snapshot_keys_len: usize, contested: *const u64, contested_len: usize,
        keys: *const u64, keys_len: usize, width: u64, count: u64, out: *mut f64, out_len: usize) -> u8;
    fn nultiway_peers_hot_elsewhere_of_each(peers: *const u64, peers_len: usize,
        peer_table: *const u64, peer_table_len: usize, snapshot_keys: *const u64, snapshot_keys_len: usize,
        contested: *const u64, contested_len: usize, keys: *const u64, keys_len: usize, width: u64, count: u64,
        out: *mut bool, out_len: usize) -> u8;
    fn nultiway_peers_new(peers: *mut u64, peers_len: usize, peer_table: *const u64, peer_table_len: usize,
        snapshot_keys: *const u64, snapshot_keys_len: usize, contested: *const u64, contested_len: usize) -> u8;
    fn nultiway_peers_forget(peers: *mut u64, peers_len: usize, peer_table: *mut u64, peer_table_len: usize,
        snapshot_keys: *mut u64, snapshot_keys_len: usize, contested: *mut u64, contested_len: usize, peer: u64) -> u8;
    fn nultiway_peers_leave(peers: *mut u64, peers_len: usize, peer_table: *mut u64, peer_table_len: usize,
        snapshot_keys: *mut u64, snapshot_keys_len: usize, contested: *mut u64, contested_len: usize, peer: u64,
        reading: u64, hold: u64) -> u8;
    fn nultiway_peers_expire(peers: *mut u64, peers_len: usize, peer_table: *mut u64, peer_table_len: usize,
        snapshot_keys: *mut u64, snapshot_keys_len: usize, contested: *mut u64, contested_len: usize, reading: u64,
        max_age: u64) -> u8;
    fn nultiway_peers_apply(peers: *mut u64, peers_len: usize, peer_table: *mut u64, peer_table_len: usize,
        snapshot_keys: *mut u64, snapshot_keys_len: usize, contested: *mut u64, contested_len: usize, from: u64,
        origin: u64, epoch: u32, round: u16, report: *const u64, report_len: usize, count: u64, reading: u64) -> u8;
    fn nultiway_share(limit: f64, cluster_size: u64, floor_factor: f64, own: f64, others: f64,
        answer: *mut u64, answer_len: usize) -> u8;
    fn nultiway_stale_after_rounds(cluster_size: u64, answer: *mut u64, answer_len: usize) -> u8;
    fn nultiway_round_is_newer(a: u16, b: u16) -> bool;
    fn nultiway_version() -> u32;
}

/// Makes an estimator at rate 0 that has no times yet.
pub fn demand_new(demand: &mut [u64], time_constant: u64) -> u8 {
    // SAFETY: each pointer goes with its slice's length, and is borrowed for the call.
    unsafe { nultiway_demand_new(demand.as_mut_ptr(), demand.len(), time_constant) }
}

/// Makes an estimator at rate 0 with both times at the reading, so that its first tick moves the rate.
pub fn demand_starting_at(demand: &mut [u64], time_constant: u64, reading: u64) -> u8 {
    // SAFETY: each pointer goes with its slice's length, and is borrowed for the call.
    unsafe { nultiway_demand_starting_at(demand.as_mut_ptr(), demand.len(), time_constant, reading) }
}

/// Counts one attempt on an estimator.
pub fn demand_record_attempt(demand: &mut [u64]) -> u8 {
    // SAFETY: each pointer goes with its slice's length, and is borrowed for the call.
    unsafe { nultiway_demand_record_attempt(demand.as_mut_ptr(), demand.len()) }
}

/// Counts attempts on an estimator.
pub fn demand_record_attempts(demand: &mut [u64], attempts: u64) -> u8 {
    // SAFETY: each pointer goes with its slice's length, and is borrowed for the call.
    unsafe { nultiway_demand_record_attempts(demand.as_mut_ptr(), demand.len(), attempts) }
}

/// Moves an estimator's rate by the attempts counted since its last tick, and counts from 0 again.
pub fn demand_tick(demand: &mut [u64], reading: u64) -> u8 {
    // SAFETY: each pointer goes with its slice's length, and is borrowed for the call.
    unsafe { nultiway_demand_tick(demand.as_mut_ptr(), demand.len(), reading) }
}

/// Tells whether an estimator has attempts that no tick has folded.
pub fn demand_has_pending(demand: &[u64], answer: &mut [u64]) -> u8 {
    // SAFETY: each pointer goes with its slice's length, and is borrowed for the call.
    unsafe { nultiway_demand_has_pending(demand.as_ptr(), demand.len(), answer.as_mut_ptr(), answer.len()) }
}

/// Tells the rate that an estimator's last tick left: the bits of a double.
pub fn demand_rate(demand: &[u64], answer: &mut [u64]) -> u8 {
    // SAFETY: each pointer goes with its slice's length, and is borrowed for the call.
    unsafe { nultiway_demand_rate(demand.as_ptr(), demand.len(), answer.as_mut_ptr(), answer.len()) }
}

/// Tells an estimator's rate with its start at 0 taken out: the bits of a double.
pub fn demand_unbiased_rate(demand: &[u64], answer: &mut [u64]) -> u8 {
    // SAFETY: each pointer goes with its slice's length, and is borrowed for the call.
    unsafe { nultiway_demand_unbiased_rate(demand.as_ptr(), demand.len(), answer.as_mut_ptr(), answer.len()) }
}

/// Makes a meter that has allowed nothing yet.
pub fn gcra_new(gcra: &mut [u64], interval: u64, burst: u32) -> u8 {
    // SAFETY: each pointer goes with its slice's length, and is borrowed for the call.
    unsafe { nultiway_gcra_new(gcra.as_mut_ptr(), gcra.len(), interval, burst) }
}

/// Decides on a request by a meter.
pub fn gcra_check(gcra: &mut [u64], reading: u64, answer: &mut [u64]) -> u8 {
    // SAFETY: each pointer goes with its slice's length, and is borrowed for the call.
    unsafe { nultiway_gcra_check(gcra.as_mut_ptr(), gcra.len(), reading, answer.as_mut_ptr(), answer.len()) }
}

/// Changes a meter's quota: a debt of so many slots of the old one is as many of the new one.
pub fn gcra_set_quota(gcra: &mut [u64], interval: u64, burst: u32, reading: u64) -> u8 {
    // SAFETY: each pointer goes with its slice's length, and is borrowed for the call.
    unsafe { nultiway_gcra_set_quota(gcra.as_mut_ptr(), gcra.len(), interval, burst, reading) }
}

/// Tells whether a meter's TAT is later than the reading.
pub fn gcra_has_debt(gcra: &[u64], reading: u64, answer: &mut [u64]) -> u8 {
    // SAFETY: each pointer goes with its slice's length, and is borrowed for the call.
    unsafe { nultiway_gcra_has_debt(gcra.as_ptr(), gcra.len(), reading, answer.as_mut_ptr(), answer.len()) }
}

/// Tells whether a meter would deny a check, and the nanoseconds to wait then.
pub fn gcra_retry_after(gcra: &[u64], reading: u64, answer: &mut [u64]) -> u8 {
    // SAFETY: each pointer goes with its slice's length, and is borrowed for the call.
    unsafe { nultiway_gcra_retry_after(gcra.as_ptr(), gcra.len(), reading, answer.as_mut_ptr(), answer.len()) }
}

/// Tells the double nearest to a whole number, ties to even.
pub fn u64_to_f64(n: u64) -> f64 {
    // SAFETY: it takes numbers only.
    unsafe { nultiway_u64_to_f64(n) }
}

/// Tells the whole part of a double, held within 64 bits, and 0 of a NaN.
pub fn f64_to_u64(x: f64) -> u64 {
    // SAFETY: it takes numbers only.
    unsafe { nultiway_f64_to_u64(x) }
}

/// Tells the high half of a product of 128 bits.
pub fn high_product(a: u64, b: u64) -> u64 {
    // SAFETY: it takes numbers only.
    unsafe { nultiway_high_product(a, b) }
}

/// Tells the weight that a rate keeps after some time, in parts of 2^52.
pub fn decay_weight(elapsed: u64, time_constant: u64) -> u64 {
    // SAFETY: it takes numbers only.
    unsafe { nultiway_decay_weight(elapsed, time_constant) }
}

/// Makes a hot set that may grow to `max_size` entries and has none yet.
pub fn hot_set_new(hot_set: &mut [u64], entries: &[u64], cooldown: u64, max_size: u64) -> u8 {
    // SAFETY: each pointer goes with its slice's length, and is borrowed for the call.
    unsafe { nultiway_hot_set_new(hot_set.as_mut_ptr(), hot_set.len(), entries.as_ptr(), entries.len(), cooldown,
        max_size) }
}

/// Takes in a key's demand, and tells whether the key is hot then.
pub fn hot_set_update(hot_set: &mut [u64], entries: &mut [u64], key: u64, demand_rate: f64, threshold: f64,
    reading: u64, answer: &mut [u64]) -> u8 {
    // SAFETY: each pointer goes with its slice's length, and is borrowed for the call.
    unsafe { nultiway_hot_set_update(hot_set.as_mut_ptr(), hot_set.len(), entries.as_mut_ptr(), entries.len(), key,
        demand_rate, threshold, reading, answer.as_mut_ptr(), answer.len()) }
}

/// Takes in a key's demand where a peer may have the key as primary, and tells whether the key is hot then.
pub fn hot_set_update_with(hot_set: &mut [u64], entries: &mut [u64], key: u64, demand_rate: f64, threshold: f64,
    reading: u64, hot_elsewhere: u8, answer: &mut [u64]) -> u8 {
    // SAFETY: each pointer goes with its slice's length, and is borrowed for the call.
    unsafe { nultiway_hot_set_update_with(hot_set.as_mut_ptr(), hot_set.len(), entries.as_mut_ptr(), entries.len(), key,
        demand_rate, threshold, reading, hot_elsewhere, answer.as_mut_ptr(), answer.len()) }
}

/// Takes in the demand of each of `count` keys, the first words of records of `width` words, one after the other, and
/// tells of each whether it is hot after its own update.
pub fn hot_set_update_each(hot_set: &mut [u64], entries: &mut [u64], keys: &[u64], width: u64, count: u64,
    demands: &[f64], thresholds: &[f64], elsewhere: &[bool], reading: u64, out: &mut [bool]) -> u8 {
    // SAFETY: each pointer goes with its slice's length, and is borrowed for the call.
    unsafe { nultiway_hot_set_update_each(hot_set.as_mut_ptr(), hot_set.len(), entries.as_mut_ptr(), entries.len(),
        keys.as_ptr(), keys.len(), width, count, demands.as_ptr(), demands.len(), thresholds.as_ptr(), thresholds.len(),
        elsewhere.as_ptr(), elsewhere.len(), reading, out.as_mut_ptr(), out.len()) }
}

/// Tells whether the set has a key.
pub fn hot_set_is_hot(hot_set: &[u64], entries: &[u64], key: u64, answer: &mut [u64]) -> u8 {
    // SAFETY: each pointer goes with its slice's length, and is borrowed for the call.
    unsafe { nultiway_hot_set_is_hot(hot_set.as_ptr(), hot_set.len(), entries.as_ptr(), entries.len(), key,
        answer.as_mut_ptr(), answer.len()) }
}

/// Tells whether the set has a key as primary.
pub fn hot_set_is_primary(hot_set: &[u64], entries: &[u64], key: u64, answer: &mut [u64]) -> u8 {
    // SAFETY: each pointer goes with its slice's length, and is borrowed for the call.
    unsafe { nultiway_hot_set_is_primary(hot_set.as_ptr(), hot_set.len(), entries.as_ptr(), entries.len(), key,
        answer.as_mut_ptr(), answer.len()) }
}

/// Tells whether the set has a key, and when the key came in.
pub fn hot_set_hot_since(hot_set: &[u64], entries: &[u64], key: u64, answer: &mut [u64]) -> u8 {
    // SAFETY: each pointer goes with its slice's length, and is borrowed for the call.
    unsafe { nultiway_hot_set_hot_since(hot_set.as_ptr(), hot_set.len(), entries.as_ptr(), entries.len(), key,
        answer.as_mut_ptr(), answer.len()) }
}

/// Tells the number of the set's entries.
pub fn hot_set_len(hot_set: &[u64], entries: &[u64], answer: &mut [u64]) -> u8 {
    // SAFETY: each pointer goes with its slice's length, and is borrowed for the call.
    unsafe { nultiway_hot_set_len(hot_set.as_ptr(), hot_set.len(), entries.as_ptr(), entries.len(),
        answer.as_mut_ptr(), answer.len()) }
}

/// Tells whether the set has no entry.
pub fn hot_set_is_empty(hot_set: &[u64], entries: &[u64], answer: &mut [u64]) -> u8 {
    // SAFETY: each pointer goes with its slice's length, and is borrowed for the call.
    unsafe { nultiway_hot_set_is_empty(hot_set.as_ptr(), hot_set.len(), entries.as_ptr(), entries.len(),
        answer.as_mut_ptr(), answer.len()) }
}

/// Writes the image of a limiter and its peers to `out`, and tells how many bytes it has.
pub fn save(limiter: &[u64], keys: &[u64], hot: &[u64], shadows: &[u64], peers: &[u64], peer_table: &[u64],
    snapshot_keys: &[u64], contested: &[u64], out: &mut [u8], answer: &mut [u64]) -> u8 {
    // SAFETY: each pointer goes with its slice's length, and is borrowed for the call.
    unsafe { nultiway_save(limiter.as_ptr(), limiter.len(), keys.as_ptr(), keys.len(), hot.as_ptr(), hot.len(),
        shadows.as_ptr(), shadows.len(), peers.as_ptr(), peers.len(), peer_table.as_ptr(), peer_table.len(),
        snapshot_keys.as_ptr(), snapshot_keys.len(), contested.as_ptr(), contested.len(), out.as_mut_ptr(), out.len(),
        answer.as_mut_ptr(), answer.len()) }
}

/// Makes the limiter and the peers that an image was saved of, in tables that may hold anything.
pub fn load(image: &[u8], limiter: &mut [u64], keys: &mut [u64], hot: &mut [u64], shadows: &mut [u64],
    peers: &mut [u64], peer_table: &mut [u64], snapshot_keys: &mut [u64], contested: &mut [u64]) -> u8 {
    // SAFETY: each pointer goes with its slice's length, and is borrowed for the call.
    unsafe { nultiway_load(image.as_ptr(), image.len(), limiter.as_mut_ptr(), limiter.len(),
        keys.as_mut_ptr(), keys.len(), hot.as_mut_ptr(), hot.len(), shadows.as_mut_ptr(), shadows.len(),
        peers.as_mut_ptr(), peers.len(), peer_table.as_mut_ptr(), peer_table.len(),
        snapshot_keys.as_mut_ptr(), snapshot_keys.len(), contested.as_mut_ptr(), contested.len()) }
}

/// Makes a limiter with no key yet.
pub fn limiter_new(limiter: &mut [u64], keys: &[u64], hot: &[u64], shadows: &[u64], rate: f64, burst: u32, alpha: f64,
    floor_factor: f64, cooldown: u64, hot_set_size: u64, max_tracked_keys: u64, demand_time_constant: u64,
    table_size: u64) -> u8 {
    // SAFETY: each pointer goes with its slice's length, and is borrowed for the call.
    unsafe { nultiway_limiter_new(limiter.as_mut_ptr(), limiter.len(), keys.as_ptr(), keys.len(),
        hot.as_ptr(), hot.len(), shadows.as_ptr(), shadows.len(), rate, burst, alpha, floor_factor, cooldown,
        hot_set_size, max_tracked_keys, demand_time_constant, table_size) }
}

/// Asks questions 1 and 2 of a limiter and its tables.
pub fn limiter_ask(limiter: &[u64], keys: &[u64], hot: &[u64], shadows: &[u64]) -> u8 {
    // SAFETY: each pointer goes with its slice's length, and is borrowed for the call.
    unsafe { nultiway_limiter_ask(limiter.as_ptr(), limiter.len(), keys.as_ptr(), keys.len(), hot.as_ptr(), hot.len(),
        shadows.as_ptr(), shadows.len()) }
}

/// Sets the cap, the greatest part of its limit that a key gets, or lifts it where `has_cap` is 0 or the cap is NaN:
/// for a new key at once, for a tracked one from the next tick on.
pub fn set_cap(limiter: &mut [u64], keys: &[u64], hot: &[u64], shadows: &[u64], has_cap: u8, cap: f64) -> u8 {
    // SAFETY: each pointer goes with its slice's length, and is borrowed for the call.
    unsafe { nultiway_set_cap(limiter.as_mut_ptr(), limiter.len(), keys.as_ptr(), keys.len(), hot.as_ptr(), hot.len(),
        shadows.as_ptr(), shadows.len(), has_cap, cap) }
}

/// Adds attempts and denials of a key that were counted elsewhere, and gives it the limit, without asking its meter; a
/// key that is not tracked is made.
pub fn record(limiter: &mut [u64], keys: &mut [u64], hot: &[u64], shadows: &[u64], key: u64, attempts: u64,
    denials: u64, shadow_denials: u64, rate: f64, burst: u32, reading: u64, cluster_size: u64) -> u8 {
    // SAFETY: each pointer goes with its slice's length, and is borrowed for the call.
    unsafe { nultiway_record(limiter.as_mut_ptr(), limiter.len(), keys.as_mut_ptr(), keys.len(),
        hot.as_ptr(), hot.len(), shadows.as_ptr(), shadows.len(), key, attempts, denials, shadow_denials, rate, burst,
        reading, cluster_size) }
}

/// Does the work of a period: estimators, hot set, quotas, and the keys that go.
pub fn tick(limiter: &mut [u64], keys: &mut [u64], hot: &mut [u64], shadows: &mut [u64], reading: u64,
    cluster_size: u64) -> u8 {
    // SAFETY: each pointer goes with its slice's length, and is borrowed for the call.
    unsafe { nultiway_tick(limiter.as_mut_ptr(), limiter.len(), keys.as_mut_ptr(), keys.len(),
        hot.as_mut_ptr(), hot.len(), shadows.as_mut_ptr(), shadows.len(), reading, cluster_size) }
}

/// Does the same with what the peers told: they decide a hot key's share, and which keys are hot elsewhere.
pub fn tick_with_shares(limiter: &mut [u64], keys: &mut [u64], hot: &mut [u64], shadows: &mut [u64], peers: &[u64],
    peer_table: &[u64], snapshot_keys: &[u64], contested: &[u64], reading: u64, cluster_size: u64) -> u8 {
    // SAFETY: each pointer goes with its slice's length, and is borrowed for the call.
    unsafe { nultiway_tick_with_shares(limiter.as_mut_ptr(), limiter.len(), keys.as_mut_ptr(), keys.len(),
        hot.as_mut_ptr(), hot.len(), shadows.as_mut_ptr(), shadows.len(), peers.as_ptr(), peers.len(),
        peer_table.as_ptr(), peer_table.len(), snapshot_keys.as_ptr(), snapshot_keys.len(),
        contested.as_ptr(), contested.len(), reading, cluster_size) }
}

/// Decides on a request for a key under the settings' limit: a new key's quota is made of it, a tracked key keeps its
/// quota until the next tick, which goes by the limit given last, here this one.
pub fn check(limiter: &mut [u64], keys: &mut [u64], hot: &[u64], shadows: &[u64], key: u64, reading: u64,
    cluster_size: u64, answer: &mut [u64]) -> u8 {
    // SAFETY: each pointer goes with its slice's length, and is borrowed for the call.
    unsafe { nultiway_check(limiter.as_mut_ptr(), limiter.len(), keys.as_mut_ptr(), keys.len(), hot.as_ptr(), hot.len(),
        shadows.as_ptr(), shadows.len(), key, reading, cluster_size, answer.as_mut_ptr(), answer.len()) }
}

/// Decides on a request for a key under the limit given: a new key's quota is made of it, a tracked key keeps its quota
/// until the next tick, which goes by the limit given last.
pub fn check_in(limiter: &mut [u64], keys: &mut [u64], hot: &[u64], shadows: &[u64], key: u64, rate: f64, burst: u32,
    reading: u64, cluster_size: u64, answer: &mut [u64]) -> u8 {
    // SAFETY: each pointer goes with its slice's length, and is borrowed for the call.
    unsafe { nultiway_check_in(limiter.as_mut_ptr(), limiter.len(), keys.as_mut_ptr(), keys.len(),
        hot.as_ptr(), hot.len(), shadows.as_ptr(), shadows.len(), key, rate, burst, reading, cluster_size,
        answer.as_mut_ptr(), answer.len()) }
}

/// Does the same beside a shadow limit, and tells a decision, whether there is a shadow, and its decision: the shadow's
/// quota has the rate of the key's, at the ratio of the two limits' rates, and the shadow limit's burst, and where
/// `has_shadow` is 0 the key's shadow is removed.
pub fn check_in_traced(limiter: &mut [u64], keys: &mut [u64], hot: &[u64], shadows: &mut [u64], key: u64, rate: f64,
    burst: u32, has_shadow: u8, shadow_rate: f64, shadow_burst: u32, reading: u64, cluster_size: u64,
    answer: &mut [u64]) -> u8 {
    // SAFETY: each pointer goes with its slice's length, and is borrowed for the call.
    unsafe { nultiway_check_in_traced(limiter.as_mut_ptr(), limiter.len(), keys.as_mut_ptr(), keys.len(),
        hot.as_ptr(), hot.len(), shadows.as_mut_ptr(), shadows.len(), key, rate, burst, has_shadow, shadow_rate,
        shadow_burst, reading, cluster_size, answer.as_mut_ptr(), answer.len()) }
}

/// Checks `count` pairs of a key and a reading under the settings' limit, one after the other: three words for each,
/// the number of the question that it fails or 0, whether it is denied, and the retry time.
pub fn check_each(limiter: &mut [u64], keys: &mut [u64], hot: &[u64], shadows: &[u64], list: &[u64], count: u64,
    cluster_size: u64, out: &mut [u64]) -> u8 {
    // SAFETY: each pointer goes with its slice's length, and is borrowed for the call.
    unsafe { nultiway_check_each(limiter.as_mut_ptr(), limiter.len(), keys.as_mut_ptr(), keys.len(),
        hot.as_ptr(), hot.len(), shadows.as_ptr(), shadows.len(), list.as_ptr(), list.len(), count, cluster_size,
        out.as_mut_ptr(), out.len()) }
}

/// Lists the hot keys, greatest demand first, and tells how many: three words for each, the key, its demand's bits, and
/// whether it is primary.
pub fn hot_demand(limiter: &[u64], keys: &[u64], hot: &[u64], shadows: &[u64], out: &mut [u64],
    answer: &mut [u64]) -> u8 {
    // SAFETY: each pointer goes with its slice's length, and is borrowed for the call.
    unsafe { nultiway_hot_demand(limiter.as_ptr(), limiter.len(), keys.as_ptr(), keys.len(), hot.as_ptr(), hot.len(),
        shadows.as_ptr(), shadows.len(), out.as_mut_ptr(), out.len(), answer.as_mut_ptr(), answer.len()) }
}

/// Lists the first `k` keys by denials a second, and tells how many: four words for each, the key and the bits of its
/// three rates.
pub fn most_denied(limiter: &[u64], keys: &[u64], hot: &[u64], shadows: &[u64], k: u64, out: &mut [u64],
    answer: &mut [u64]) -> u8 {
    // SAFETY: each pointer goes with its slice's length, and is borrowed for the call.
    unsafe { nultiway_most_denied(limiter.as_ptr(), limiter.len(), keys.as_ptr(), keys.len(), hot.as_ptr(), hot.len(),
        shadows.as_ptr(), shadows.len(), k, out.as_mut_ptr(), out.len(), answer.as_mut_ptr(), answer.len()) }
}

/// Lists the first `k` keys by shadow denials a second likewise.
pub fn most_shadow_denied(limiter: &[u64], keys: &[u64], hot: &[u64], shadows: &[u64], k: u64, out: &mut [u64],
    answer: &mut [u64]) -> u8 {
    // SAFETY: each pointer goes with its slice's length, and is borrowed for the call.
    unsafe { nultiway_most_shadow_denied(limiter.as_ptr(), limiter.len(), keys.as_ptr(), keys.len(),
        hot.as_ptr(), hot.len(), shadows.as_ptr(), shadows.len(), k, out.as_mut_ptr(), out.len(),
        answer.as_mut_ptr(), answer.len()) }
}

/// Tells a new key's quota under a limit: interval and burst.
pub fn new_key_quota(limiter: &[u64], keys: &[u64], hot: &[u64], shadows: &[u64], rate: f64, burst: u32,
    cluster_size: u64, answer: &mut [u64]) -> u8 {
    // SAFETY: each pointer goes with its slice's length, and is borrowed for the call.
    unsafe { nultiway_new_key_quota(limiter.as_ptr(), limiter.len(), keys.as_ptr(), keys.len(), hot.as_ptr(), hot.len(),
        shadows.as_ptr(), shadows.len(), rate, burst, cluster_size, answer.as_mut_ptr(), answer.len()) }
}

/// Tells a new key's part of its limit: the bits of a double.
pub fn new_key_factor(limiter: &[u64], keys: &[u64], hot: &[u64], shadows: &[u64], cluster_size: u64,
    answer: &mut [u64]) -> u8 {
    // SAFETY: each pointer goes with its slice's length, and is borrowed for the call.
    unsafe { nultiway_new_key_factor(limiter.as_ptr(), limiter.len(), keys.as_ptr(), keys.len(),
        hot.as_ptr(), hot.len(), shadows.as_ptr(), shadows.len(), cluster_size, answer.as_mut_ptr(), answer.len()) }
}

/// Tells whether a key is tracked, and the bits of three rates a second: requests, denials, and shadow denials.
pub fn key_rates(limiter: &[u64], keys: &[u64], hot: &[u64], shadows: &[u64], key: u64, answer: &mut [u64]) -> u8 {
    // SAFETY: each pointer goes with its slice's length, and is borrowed for the call.
    unsafe { nultiway_key_rates(limiter.as_ptr(), limiter.len(), keys.as_ptr(), keys.len(), hot.as_ptr(), hot.len(),
        shadows.as_ptr(), shadows.len(), key, answer.as_mut_ptr(), answer.len()) }
}

/// Tells whether a key is tracked, and the interval and burst of its quota.
pub fn quota(limiter: &[u64], keys: &[u64], hot: &[u64], shadows: &[u64], key: u64, answer: &mut [u64]) -> u8 {
    // SAFETY: each pointer goes with its slice's length, and is borrowed for the call.
    unsafe { nultiway_quota(limiter.as_ptr(), limiter.len(), keys.as_ptr(), keys.len(), hot.as_ptr(), hot.len(),
        shadows.as_ptr(), shadows.len(), key, answer.as_mut_ptr(), answer.len()) }
}

/// Tells whether a key is tracked, and its limit: the rate's bits and the burst.
pub fn limit(limiter: &[u64], keys: &[u64], hot: &[u64], shadows: &[u64], key: u64, answer: &mut [u64]) -> u8 {
    // SAFETY: each pointer goes with its slice's length, and is borrowed for the call.
    unsafe { nultiway_limit(limiter.as_ptr(), limiter.len(), keys.as_ptr(), keys.len(), hot.as_ptr(), hot.len(),
        shadows.as_ptr(), shadows.len(), key, answer.as_mut_ptr(), answer.len()) }
}

/// Tells the settings: the first nine words of the limiter.
pub fn config(limiter: &[u64], keys: &[u64], hot: &[u64], shadows: &[u64], answer: &mut [u64]) -> u8 {
    // SAFETY: each pointer goes with its slice's length, and is borrowed for the call.
    unsafe { nultiway_config(limiter.as_ptr(), limiter.len(), keys.as_ptr(), keys.len(), hot.as_ptr(), hot.len(),
        shadows.as_ptr(), shadows.len(), answer.as_mut_ptr(), answer.len()) }
}

/// Tells whether a key is hot, and when it came into the hot set.
pub fn hot_since(limiter: &[u64], keys: &[u64], hot: &[u64], shadows: &[u64], key: u64, answer: &mut [u64]) -> u8 {
    // SAFETY: each pointer goes with its slice's length, and is borrowed for the call.
    unsafe { nultiway_hot_since(limiter.as_ptr(), limiter.len(), keys.as_ptr(), keys.len(), hot.as_ptr(), hot.len(),
        shadows.as_ptr(), shadows.len(), key, answer.as_mut_ptr(), answer.len()) }
}

/// Tells whether a key is hot.
pub fn is_hot(limiter: &[u64], keys: &[u64], hot: &[u64], shadows: &[u64], key: u64, answer: &mut [u64]) -> u8 {
    // SAFETY: each pointer goes with its slice's length, and is borrowed for the call.
    unsafe { nultiway_is_hot(limiter.as_ptr(), limiter.len(), keys.as_ptr(), keys.len(), hot.as_ptr(), hot.len(),
        shadows.as_ptr(), shadows.len(), key, answer.as_mut_ptr(), answer.len()) }
}

/// Tells whether a key is tracked.
pub fn tracked(limiter: &[u64], keys: &[u64], hot: &[u64], shadows: &[u64], key: u64, answer: &mut [u64]) -> u8 {
    // SAFETY: each pointer goes with its slice's length, and is borrowed for the call.
    unsafe { nultiway_tracked(limiter.as_ptr(), limiter.len(), keys.as_ptr(), keys.len(), hot.as_ptr(), hot.len(),
        shadows.as_ptr(), shadows.len(), key, answer.as_mut_ptr(), answer.len()) }
}

/// Tells how many keys are hot.
pub fn hot_keys(limiter: &[u64], keys: &[u64], hot: &[u64], shadows: &[u64], answer: &mut [u64]) -> u8 {
    // SAFETY: each pointer goes with its slice's length, and is borrowed for the call.
    unsafe { nultiway_hot_keys(limiter.as_ptr(), limiter.len(), keys.as_ptr(), keys.len(), hot.as_ptr(), hot.len(),
        shadows.as_ptr(), shadows.len(), answer.as_mut_ptr(), answer.len()) }
}

/// Tells how many keys are tracked.
pub fn tracked_keys(limiter: &[u64], keys: &[u64], hot: &[u64], shadows: &[u64], answer: &mut [u64]) -> u8 {
    // SAFETY: each pointer goes with its slice's length, and is borrowed for the call.
    unsafe { nultiway_tracked_keys(limiter.as_ptr(), limiter.len(), keys.as_ptr(), keys.len(), hot.as_ptr(), hot.len(),
        shadows.as_ptr(), shadows.len(), answer.as_mut_ptr(), answer.len()) }
}

/// Makes the quota of a whole number of requests a second: interval and burst.
pub fn quota_new(rate: u32, burst: u32, answer: &mut [u64]) -> u8 {
    // SAFETY: each pointer goes with its slice's length, and is borrowed for the call.
    unsafe { nultiway_quota_new(rate, burst, answer.as_mut_ptr(), answer.len()) }
}

/// Makes the quota of any rate, the longest interval where it is too slow or no rate: interval and burst.
pub fn quota_per_second(rate: f64, burst: u32, answer: &mut [u64]) -> u8 {
    // SAFETY: each pointer goes with its slice's length, and is borrowed for the call.
    unsafe { nultiway_quota_per_second(rate, burst, answer.as_mut_ptr(), answer.len()) }
}

/// Reads the quota that a packed word holds: interval and burst.
pub fn quota_unpack(word: u64, answer: &mut [u64]) -> u8 {
    // SAFETY: each pointer goes with its slice's length, and is borrowed for the call.
    unsafe { nultiway_quota_unpack(word, answer.as_mut_ptr(), answer.len()) }
}

/// Packs a quota into one word.
pub fn quota_pack(interval: u64, burst: u32, answer: &mut [u64]) -> u8 {
    // SAFETY: each pointer goes with its slice's length, and is borrowed for the call.
    unsafe { nultiway_quota_pack(interval, burst, answer.as_mut_ptr(), answer.len()) }
}

/// Tells the requests a second of a quota: the bits of a double.
pub fn quota_rate_per_sec(interval: u64, burst: u32, answer: &mut [u64]) -> u8 {
    // SAFETY: each pointer goes with its slice's length, and is borrowed for the call.
    unsafe { nultiway_quota_rate_per_sec(interval, burst, answer.as_mut_ptr(), answer.len()) }
}

/// Tells the quoted ceiling: the most checks that a quota allows at readings from s to s + `window`.
pub fn quota_ceiling(interval: u64, burst: u32, window: u64, answer: &mut [u64]) -> u8 {
    // SAFETY: each pointer goes with its slice's length, and is borrowed for the call.
    unsafe { nultiway_quota_ceiling(interval, burst, window, answer.as_mut_ptr(), answer.len()) }
}

/// Makes one attempt on a TAT, 0 for none, and a packed quota: a decision, and the TAT after it.
pub fn step(tat: u64, packed: u64, reading: u64, answer: &mut [u64]) -> u8 {
    // SAFETY: each pointer goes with its slice's length, and is borrowed for the call.
    unsafe { nultiway_step(tat, packed, reading, answer.as_mut_ptr(), answer.len()) }
}

/// Asks questions 1 and 2 of the peers and their tables.
pub fn peers_ask(peers: &[u64], peer_table: &[u64], snapshot_keys: &[u64], contested: &[u64]) -> u8 {
    // SAFETY: each pointer goes with its slice's length, and is borrowed for the call.
    unsafe { nultiway_peers_ask(peers.as_ptr(), peers.len(), peer_table.as_ptr(), peer_table.len(),
        snapshot_keys.as_ptr(), snapshot_keys.len(), contested.as_ptr(), contested.len()) }
}

/// Tells whether a peer said something of a key, the bits of the demand (a float), whether the key is primary there,
/// the round, and when it was heard.
pub fn peers_get(peers: &[u64], peer_table: &[u64], snapshot_keys: &[u64], contested: &[u64], peer: u64, key: u64,
    answer: &mut [u64]) -> u8 {
    // SAFETY: each pointer goes with its slice's length, and is borrowed for the call.
    unsafe { nultiway_peers_get(peers.as_ptr(), peers.len(), peer_table.as_ptr(), peer_table.len(),
        snapshot_keys.as_ptr(), snapshot_keys.len(), contested.as_ptr(), contested.len(), peer, key,
        answer.as_mut_ptr(), answer.len()) }
}

/// Tells the peers' demands for a key, added up: the bits of a double.
pub fn peers_total(peers: &[u64], peer_table: &[u64], snapshot_keys: &[u64], contested: &[u64], key: u64,
    answer: &mut [u64]) -> u8 {
    // SAFETY: each pointer goes with its slice's length, and is borrowed for the call.
    unsafe { nultiway_peers_total(peers.as_ptr(), peers.len(), peer_table.as_ptr(), peer_table.len(),
        snapshot_keys.as_ptr(), snapshot_keys.len(), contested.as_ptr(), contested.len(), key,
        answer.as_mut_ptr(), answer.len()) }
}

/// Tells whether a key is primary at a peer.
pub fn peers_hot_elsewhere(peers: &[u64], peer_table: &[u64], snapshot_keys: &[u64], contested: &[u64], key: u64,
    answer: &mut [u64]) -> u8 {
    // SAFETY: each pointer goes with its slice's length, and is borrowed for the call.
    unsafe { nultiway_peers_hot_elsewhere(peers.as_ptr(), peers.len(), peer_table.as_ptr(), peer_table.len(),
        snapshot_keys.as_ptr(), snapshot_keys.len(), contested.as_ptr(), contested.len(), key,
        answer.as_mut_ptr(), answer.len()) }
}

/// Tells the number of keys of all peers.
pub fn peers_len(peers: &[u64], peer_table: &[u64], snapshot_keys: &[u64], contested: &[u64],
    answer: &mut [u64]) -> u8 {
    // SAFETY: each pointer goes with its slice's length, and is borrowed for the call.
    unsafe { nultiway_peers_len(peers.as_ptr(), peers.len(), peer_table.as_ptr(), peer_table.len(),
        snapshot_keys.as_ptr(), snapshot_keys.len(), contested.as_ptr(), contested.len(),
        answer.as_mut_ptr(), answer.len()) }
}

/// Tells whether there is no key of any peer.
pub fn peers_is_empty(peers: &[u64], peer_table: &[u64], snapshot_keys: &[u64], contested: &[u64],
    answer: &mut [u64]) -> u8 {
    // SAFETY: each pointer goes with its slice's length, and is borrowed for the call.
    unsafe { nultiway_peers_is_empty(peers.as_ptr(), peers.len(), peer_table.as_ptr(), peer_table.len(),
        snapshot_keys.as_ptr(), snapshot_keys.len(), contested.as_ptr(), contested.len(),
        answer.as_mut_ptr(), answer.len()) }
}

/// Tells the peers' demands, added up, for each of `count` keys, the first words of records of `width` words.
pub fn peers_total_of_each(peers: &[u64], peer_table: &[u64], snapshot_keys: &[u64], contested: &[u64], keys: &[u64],
    width: u64, count: u64, out: &mut [f64]) -> u8 {
    // SAFETY: each pointer goes with its slice's length, and is borrowed for the call.
    unsafe { nultiway_peers_total_of_each(peers.as_ptr(), peers.len(), peer_table.as_ptr(), peer_table.len(),
        snapshot_keys.as_ptr(), snapshot_keys.len(), contested.as_ptr(), contested.len(), keys.as_ptr(), keys.len(),
        width, count, out.as_mut_ptr(), out.len()) }
}

/// Tells of each of `count` keys, the first words of records of `width` words, whether it is primary at a peer.
pub fn peers_hot_elsewhere_of_each(peers: &[u64], peer_table: &[u64], snapshot_keys: &[u64], contested: &[u64],
    keys: &[u64], width: u64, count: u64, out: &mut [bool]) -> u8 {
    // SAFETY: each pointer goes with its slice's length, and is borrowed for the call.
    unsafe { nultiway_peers_hot_elsewhere_of_each(peers.as_ptr(), peers.len(), peer_table.as_ptr(), peer_table.len(),
        snapshot_keys.as_ptr(), snapshot_keys.len(), contested.as_ptr(), contested.len(), keys.as_ptr(), keys.len(),
        width, count, out.as_mut_ptr(), out.len()) }
}

/// Makes the state of peers of which none is known.
pub fn peers_new(peers: &mut [u64], peer_table: &[u64], snapshot_keys: &[u64], contested: &[u64]) -> u8 {
    // SAFETY: each pointer goes with its slice's length, and is borrowed for the call.
    unsafe { nultiway_peers_new(peers.as_mut_ptr(), peers.len(), peer_table.as_ptr(), peer_table.len(),
        snapshot_keys.as_ptr(), snapshot_keys.len(), contested.as_ptr(), contested.len()) }
}

/// Removes a peer's record and keys.
pub fn peers_forget(peers: &mut [u64], peer_table: &mut [u64], snapshot_keys: &mut [u64], contested: &mut [u64],
    peer: u64) -> u8 {
    // SAFETY: each pointer goes with its slice's length, and is borrowed for the call.
    unsafe { nultiway_peers_forget(peers.as_mut_ptr(), peers.len(), peer_table.as_mut_ptr(), peer_table.len(),
        snapshot_keys.as_mut_ptr(), snapshot_keys.len(), contested.as_mut_ptr(), contested.len(), peer) }
}

/// Lets a peer leave: it is removed at once where `hold` is 0, and else held for that time.
pub fn peers_leave(peers: &mut [u64], peer_table: &mut [u64], snapshot_keys: &mut [u64], contested: &mut [u64],
    peer: u64, reading: u64, hold: u64) -> u8 {
    // SAFETY: each pointer goes with its slice's length, and is borrowed for the call.
    unsafe { nultiway_peers_leave(peers.as_mut_ptr(), peers.len(), peer_table.as_mut_ptr(), peer_table.len(),
        snapshot_keys.as_mut_ptr(), snapshot_keys.len(), contested.as_mut_ptr(), contested.len(), peer, reading, hold) }
}

/// Removes what is `max_age` old, and peers that are held no longer.
pub fn peers_expire(peers: &mut [u64], peer_table: &mut [u64], snapshot_keys: &mut [u64], contested: &mut [u64],
    reading: u64, max_age: u64) -> u8 {
    // SAFETY: each pointer goes with its slice's length, and is borrowed for the call.
    unsafe { nultiway_peers_expire(peers.as_mut_ptr(), peers.len(), peer_table.as_mut_ptr(), peer_table.len(),
        snapshot_keys.as_mut_ptr(), snapshot_keys.len(), contested.as_mut_ptr(), contested.len(), reading, max_age) }
}

/// Applies a report of `count` keys that came from a peer: three words for each key, the key, the bits of its demand (a
/// float), and whether it is primary there.
pub fn peers_apply(peers: &mut [u64], peer_table: &mut [u64], snapshot_keys: &mut [u64], contested: &mut [u64],
    from: u64, origin: u64, epoch: u32, round: u16, report: &[u64], count: u64, reading: u64) -> u8 {
    // SAFETY: each pointer goes with its slice's length, and is borrowed for the call.
    unsafe { nultiway_peers_apply(peers.as_mut_ptr(), peers.len(), peer_table.as_mut_ptr(), peer_table.len(),
        snapshot_keys.as_mut_ptr(), snapshot_keys.len(), contested.as_mut_ptr(), contested.len(), from, origin, epoch,
        round, report.as_ptr(), report.len(), count, reading) }
}

/// Tells the part of a limit, a rate a second, that falls to a node by its demand and that of all others: the bits of a
/// double.
pub fn share(limit: f64, cluster_size: u64, floor_factor: f64, own: f64, others: f64, answer: &mut [u64]) -> u8 {
    // SAFETY: each pointer goes with its slice's length, and is borrowed for the call.
    unsafe { nultiway_share(limit, cluster_size, floor_factor, own, others, answer.as_mut_ptr(), answer.len()) }
}

/// Tells after how many rounds without a word a peer's snapshot is stale.
pub fn stale_after_rounds(cluster_size: u64, answer: &mut [u64]) -> u8 {
    // SAFETY: each pointer goes with its slice's length, and is borrowed for the call.
    unsafe { nultiway_stale_after_rounds(cluster_size, answer.as_mut_ptr(), answer.len()) }
}

/// Tells whether round `a` is 1 to 32,767 ahead of round `b`, modulo 65,536.
pub fn round_is_newer(a: u16, b: u16) -> bool {
    // SAFETY: it takes numbers only.
    unsafe { nultiway_round_is_newer(a, b) }
}

/// Tells the version of the archive: 10,000 * major + 100 * minor + patch.
pub fn version() -> u32 {
    // SAFETY: it takes numbers only.
    unsafe { nultiway_version() }
}
