//! What a server imports of rateguard, each at rateguard's own type: compiles over rateguard and over the library's binding
//! alike, with the imports alone changed.

#[cfg(feature = "library")]
use nultiway::{self as rateguard_core, proto as rateguard_proto};

use std::time::Duration;

use rateguard_core::allocation::{View, share};
use rateguard_core::boundary::PeerId;
use rateguard_core::demand::Demand;
use rateguard_core::gcra::{Decision, Gcra, MAX_BURST, MAX_INTERVAL, Nanos, Quota};
use rateguard_core::hot_set::HotSet;
use rateguard_core::limiter::{Config, KeyRates, Limit, Limiter, Tally};
use rateguard_core::peer_demand::{Heard, PeerDemand, round_is_newer, stale_after_rounds};
use rateguard_proto::{DemandReport, KeyDemand, MAX_DEMAND_KEYS};

type Traced = fn(&mut Limiter, u64, Limit, Option<Limit>, Nanos, usize) -> (Decision, Option<Decision>);

fn limiter() {
    let _: fn(Config) -> Limiter = Limiter::new;
    let _: fn(&mut Limiter, Option<f64>) = Limiter::set_cap;
    let _: fn(&mut Limiter, u64, Nanos, usize) -> Decision = Limiter::check;
    let _: fn(&mut Limiter, u64, Limit, Nanos, usize) -> Decision = Limiter::check_in;
    let _: Traced = Limiter::check_in_traced;
    let _: fn(&mut Limiter, u64, Tally, Limit, Nanos, usize) = Limiter::record;
    let _: fn(&mut Limiter, Nanos, usize) = Limiter::tick;
    let _: fn(&Limiter, u64) -> Option<KeyRates> = Limiter::key_rates;
    let _: fn(&Limiter, u64) -> Option<Quota> = Limiter::quota;
    let _: fn(&Limiter, u64) -> Option<Limit> = Limiter::limit;
    let _: fn(&Limiter, Limit, usize) -> Quota = Limiter::new_key_quota;
    let _: fn(&Limiter, usize) -> f64 = Limiter::new_key_factor;
    let _: fn(&Limiter) -> Vec<(u64, f64, bool)> = Limiter::hot_demand;
    let _: fn(&Limiter, usize) -> Vec<(u64, KeyRates)> = Limiter::most_denied;
    let _: fn(&Limiter, usize) -> Vec<(u64, KeyRates)> = Limiter::most_shadow_denied;
    let _: fn(&Limiter) -> &Config = Limiter::config;
    let _: fn(&Limiter, u64) -> Option<Nanos> = Limiter::hot_since;
    let _: fn(&Limiter, u64) -> bool = Limiter::is_hot;
    let _: fn(&Limiter, u64) -> bool = Limiter::tracked;
    let _: fn(&Limiter) -> usize = Limiter::tracked_keys;
    let _: fn(&Limiter) -> usize = Limiter::hot_keys;
}

fn peers() {
    let _: fn() -> PeerDemand = PeerDemand::new;
    let _: fn() -> PeerDemand = PeerDemand::default;
    let _: fn(&PeerDemand) -> PeerDemand = PeerDemand::clone;
    let _: fn(&mut PeerDemand, PeerId, &DemandReport, Nanos) = PeerDemand::apply;
    let _: fn(&mut PeerDemand, PeerId) = PeerDemand::forget;
    let _: fn(&mut PeerDemand, PeerId, Nanos, Nanos) = PeerDemand::leave;
    let _: fn(&mut PeerDemand, Nanos, Nanos) = PeerDemand::expire;
    let _: fn(&PeerDemand, PeerId, u64) -> Option<Heard> = PeerDemand::get;
    let _: fn(&PeerDemand, u64) -> f64 = PeerDemand::total;
    let _: fn(&PeerDemand, u64) -> bool = PeerDemand::hot_elsewhere;
    let _: fn(&PeerDemand) -> usize = PeerDemand::len;
    let _: fn(&PeerDemand) -> bool = PeerDemand::is_empty;
    let _: fn(u16, u16) -> bool = round_is_newer;
    let _: fn(usize) -> u64 = stale_after_rounds;
    let _: fn(PeerId) -> u64 = PeerId::get;
}

fn meter() {
    let _: fn(u32, u32) -> Quota = Quota::new;
    let _: fn(f64, u32) -> Quota = Quota::per_second;
    let _: fn(&Quota) -> f64 = Quota::rate_per_sec;
    let _: fn(&Quota) -> u32 = Quota::burst;
    let _: fn(Quota) -> u64 = Quota::pack;
    let _: fn(u64) -> Quota = Quota::unpack;
    let _: fn(Quota) -> Gcra = Gcra::new;
    let _: fn(&Gcra) -> Quota = Gcra::quota;
    let _: fn(&mut Gcra, Nanos) -> Decision = Gcra::check;
    let _: fn(&mut Gcra, Quota, Nanos) = Gcra::set_quota;
    let _: fn(&Gcra, Nanos) -> bool = Gcra::has_debt;
    let _: fn(&Gcra, Nanos) -> Option<Duration> = Gcra::retry_after;
}

fn demand() {
    let _: fn(Nanos) -> Demand = Demand::new;
    let _: fn(Nanos, Nanos) -> Demand = Demand::starting_at;
    let _: fn(&Demand) -> Demand = Demand::clone;
    let _: fn(&mut Demand) = Demand::record_attempt;
    let _: fn(&mut Demand, u64) = Demand::record_attempts;
    let _: fn(&mut Demand, Nanos) = Demand::tick;
    let _: fn(&Demand) -> bool = Demand::has_pending;
    let _: fn(&Demand) -> f64 = Demand::rate;
    let _: fn(&Demand) -> f64 = Demand::unbiased_rate;
    let _: fn(View) -> f64 = share;
}

fn hot_set() {
    let _: fn(Nanos, usize) -> HotSet = HotSet::new;
    let _: fn(&mut HotSet, u64, f64, f64, Nanos) -> bool = HotSet::update;
    let _: fn(&mut HotSet, u64, f64, f64, Nanos, bool) -> bool = HotSet::update_with;
    let _: fn(&HotSet, u64) -> bool = HotSet::is_hot;
    let _: fn(&HotSet, u64) -> Option<Nanos> = HotSet::hot_since;
    let _: fn(&HotSet, u64) -> bool = HotSet::is_primary;
    let _: fn(&HotSet) -> usize = HotSet::len;
    let _: fn(&HotSet) -> bool = HotSet::is_empty;
}

/// Values made by their fields, and what is asked of them.
fn values() {
    let limit = Limit { rate: 3.0, burst: MAX_BURST };
    let config = Config {
        limit,
        alpha: 1.0,
        floor_factor: 0.5,
        cooldown: MAX_INTERVAL,
        hot_set_size: MAX_DEMAND_KEYS,
        max_tracked_keys: 100,
        demand_time_constant: 1,
    };
    let key = KeyDemand { key_hash: 1, demand: 1.0, primary: true };
    let report = DemandReport { origin: 1, epoch: 1, round: 1, keys: vec![key] };
    let (mut limiter, mut peers) = (Limiter::new(config), PeerDemand::new());
    peers.apply(PeerId::new(1), &report, 0);
    assert_eq!(limiter.check(1, 0, 1), Decision::Allow);
    assert_eq!(limiter.limit(1), Some(limit));
    assert_eq!(limiter.config().limit, limit);
    assert_eq!(Tally::default(), Tally { attempts: 0, denials: 0, shadow_denials: 0 });
    assert_eq!(peers.get(PeerId::new(1), 1), Some(Heard { demand: 1.0, primary: true, round: 1, heard_at: 0 }));
    assert_eq!(share(View { limit: 100.0, cluster_size: 4, floor_factor: 0.5, own: 3.0, others: 1.0 }), 50.0);
}

fn main() {
    limiter();
    peers();
    meter();
    demand();
    hot_set();
    values();
}
