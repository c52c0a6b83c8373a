//! The limiter, which `new` makes beside the peers: checks, records and ticks.

use rateguard_core::allocation::{View, share};
use rateguard_core::demand::Demand;
use rateguard_core::gcra::Decision;
use rateguard_core::hot_set::HotSet;
use rateguard_core::limiter::{Config, KeyState, Limit, Limiter, Tally};
use rateguard_core::peer_demand::PeerDemand;

use crate::fields::Fields;
use crate::lent::{Lent, MOST_HOT, MOST_KEYS};
use crate::questions::{alpha_fits, ask, burst_fits, cluster_fits, floor_fits, rate_fits, told};
use crate::script::{Call, State, no_state};
use crate::text::decision_text;

pub const CALLS: &[(&str, Call)] = &[
    ("new", new),
    ("cap", set_cap),
    ("check", check),
    ("checkin", check_in),
    ("checks", check_each),
    ("traced", check_in_traced),
    ("record", record),
    ("tick", tick),
    ("ticks", tick_with_shares),
];

/// The most pairs that a line may list.
const MOST_LISTED: u64 = 256;

/// The limiter, and the size of its key table, which the Rust doesn't have.
pub struct Held {
    pub limiter: Limiter,
    pub table_size: u64,
}

impl Held {
    /// 1.
    pub fn has_room(&self, lent: &Lent) -> bool {
        lent.hold_limiter(self.table_size, self.limiter.config.hot_set_size as u64)
    }

    /// 8: the key is tracked, or there is a place for it.
    fn has_place(&self, key: u64) -> bool {
        self.limiter.tracked(key) || (self.limiter.tracked_keys() as u64) < self.table_size
    }

    /// Asks 8 and 9 of a call on this key that raises no counter by more than `most`, and makes it.
    fn act<T>(&mut self, key: u64, most: u64, call: impl Fn(&mut Limiter) -> T) -> Result<T, u8> {
        ask(&[(8, self.has_place(key))])?;
        ask(&[(9, counters_fit(&self.limiter, key, most, &call))])?;
        Ok(call(&mut self.limiter))
    }
}

/// 9. Where it may be no, what the call raises is seen on a limiter that holds this key alone, with its counters at 0.
fn counters_fit<T>(limiter: &Limiter, key: u64, most: u64, call: impl Fn(&mut Limiter) -> T) -> bool {
    let Some(state) = limiter.keys.get(&key) else {
        return true;
    };
    if counters(state).into_iter().all(|count| count.checked_add(most).is_some()) {
        return true;
    }
    let mut alone = Limiter {
        config: limiter.config,
        hot_set: HotSet::new(0, 1),
        keys: [(key, with_no_counts(state))].into_iter().collect(),
        shadows: limiter.shadows.get(&key).map(|&gcra| (key, gcra)).into_iter().collect(),
        cap: limiter.cap,
        last_tick: limiter.last_tick,
    };
    call(&mut alone);
    let raised = counters(&alone.keys[&key]);
    counters(state).into_iter().zip(raised).all(|(count, more)| count.checked_add(more).is_some())
}

fn with_no_counts(state: &KeyState) -> KeyState {
    let none = |estimator: Demand| Demand { attempts_since_tick: 0, ..estimator };
    KeyState {
        limit: state.limit,
        demand: none(state.demand),
        requests: none(state.requests),
        denials: none(state.denials),
        shadow_denials: none(state.shadow_denials),
        gcra: state.gcra,
        applied: state.applied,
    }
}

fn counters(state: &KeyState) -> [u64; 4] {
    [&state.demand, &state.requests, &state.denials, &state.shadow_denials].map(|one| one.attempts_since_tick)
}

/// The settings, and the size of the key table.
fn settings(fields: &mut Fields) -> Option<(Config, u64)> {
    let limit = limit(fields)?;
    let (alpha, floor_factor, cooldown) = (fields.f64()?, fields.f64()?, fields.u64()?);
    let (hot_set_size, max_tracked_keys) = (fields.u64()? as usize, fields.u64()? as usize);
    let (demand_time_constant, table_size) = (fields.u64()?, fields.u64()?);
    fields.end()?;
    let config = Config { limit, alpha, floor_factor, cooldown, hot_set_size, max_tracked_keys, demand_time_constant };
    Some((config, table_size))
}

pub fn limit(fields: &mut Fields) -> Option<Limit> {
    let (rate, burst) = (fields.f64()?, fields.u32()?);
    Some(Limit { rate, burst })
}

/// 6: each size is within the next.
pub fn sizes_fit(config: &Config, table_size: u64) -> bool {
    let (hot, keys) = (config.hot_set_size as u64, config.max_tracked_keys as u64);
    (1..=MOST_HOT).contains(&hot) && hot <= keys && keys <= table_size && table_size <= MOST_KEYS
}

/// Makes limiter and peers: the limiter's questions come first, then that of the peers.
fn new(state: &mut State, fields: &mut Fields) -> Option<String> {
    let (config, table_size) = settings(fields)?;
    let lent = state.lent;
    let questions = [
        (1, lent.hold_limiter(table_size, config.hot_set_size as u64)),
        (3, rate_fits(config.limit.rate)),
        (4, burst_fits(config.limit.burst)),
        (5, alpha_fits(config.alpha) && floor_fits(config.floor_factor)),
        (6, sizes_fit(&config, table_size)),
        (1, lent.hold_peers()),
    ];
    told(ask(&questions).map(|()| {
        state.limiter = Some(Held { limiter: Limiter::new(config), table_size });
        state.peers = Some(PeerDemand::new());
        "ok".into()
    }))
}

/// 3 and 4, of a limit and of a shadow's.
pub fn limit_questions(limit: Limit, shadow: Limit) -> [(u8, bool); 2] {
    [(3, rate_fits(limit.rate) && rate_fits(shadow.rate)), (4, burst_fits(limit.burst) && burst_fits(shadow.burst))]
}

/// Asks 1, and makes a call on the limiter.
pub fn on_limiter(state: &mut State, call: impl FnOnce(&mut Held) -> Result<String, u8>) -> Option<String> {
    let Some(held) = &mut state.limiter else {
        return no_state();
    };
    told(ask(&[(1, held.has_room(&state.lent))]).and_then(|()| call(held)))
}

/// A cap that is NaN is stored as none.
fn set_cap(state: &mut State, fields: &mut Fields) -> Option<String> {
    let cap = fields.maybe_f64()?.filter(|cap| !cap.is_nan());
    fields.end()?;
    on_limiter(state, |held| {
        held.limiter.set_cap(cap);
        Ok("ok".into())
    })
}

fn check(state: &mut State, fields: &mut Fields) -> Option<String> {
    let (key, now, n) = (fields.u64()?, fields.u64()?, fields.u64()?);
    fields.end()?;
    on_limiter(state, |held| {
        ask(&[(7, cluster_fits(n))])?;
        checked(held, key, now, n).map(|decision| decision_text(&decision))
    })
}

fn checked(held: &mut Held, key: u64, now: u64, n: u64) -> Result<Decision, u8> {
    held.act(key, 1, |limiter| limiter.check(key, now, n as usize))
}

fn check_in(state: &mut State, fields: &mut Fields) -> Option<String> {
    let (key, limit) = (fields.u64()?, limit(fields)?);
    let (now, n) = (fields.u64()?, fields.u64()?);
    fields.end()?;
    on_limiter(state, |held| {
        ask(&limit_questions(limit, limit))?;
        ask(&[(7, cluster_fits(n))])?;
        held.act(key, 1, |limiter| decision_text(&limiter.check_in(key, limit, now, n as usize)))
    })
}

/// Many checks in one call; the room is that for answers.
fn check_each(state: &mut State, fields: &mut Fields) -> Option<String> {
    let (n, room) = (fields.u64()?, fields.u64()?);
    let count = fields.u64().filter(|&count| count <= MOST_LISTED)?;
    let pairs = (0..count).map(|_| Some((fields.u64()?, fields.u64()?))).collect::<Option<Vec<_>>>()?;
    fields.end()?;
    on_limiter(state, |held| {
        ask(&[(7, cluster_fits(n)), (16, count <= room)])?;
        let answers = pairs.into_iter().map(|(key, now)| match checked(held, key, now, n) {
            Ok(decision) => format!(" / {}", decision_text(&decision)),
            Err(number) => format!(" / no {number}"),
        });
        Ok(count.to_string() + &answers.collect::<String>())
    })
}

/// A shadow limit, or `none`.
fn maybe_limit(fields: &mut Fields) -> Option<Option<Limit>> {
    match fields.maybe_f64()? {
        None => Some(None),
        Some(rate) => fields.u32().map(|burst| Some(Limit { rate, burst })),
    }
}

fn check_in_traced(state: &mut State, fields: &mut Fields) -> Option<String> {
    let (key, limit, shadow) = (fields.u64()?, limit(fields)?, maybe_limit(fields)?);
    let (now, n) = (fields.u64()?, fields.u64()?);
    fields.end()?;
    on_limiter(state, |held| {
        ask(&limit_questions(limit, shadow.unwrap_or(limit)))?;
        ask(&[(7, cluster_fits(n))])?;
        let (decision, traced) =
            held.act(key, 1, |limiter| limiter.check_in_traced(key, limit, shadow, now, n as usize))?;
        let traced = traced.map_or_else(|| "none".into(), |traced| decision_text(&traced));
        Ok(format!("{} / {traced}", decision_text(&decision)))
    })
}

fn record(state: &mut State, fields: &mut Fields) -> Option<String> {
    let key = fields.u64()?;
    let (attempts, denials, shadow_denials) = (fields.u64()?, fields.u64()?, fields.u64()?);
    let (limit, now, n) = (limit(fields)?, fields.u64()?, fields.u64()?);
    fields.end()?;
    let tally = Tally { attempts, denials, shadow_denials };
    let most = attempts.max(denials).max(shadow_denials);
    on_limiter(state, |held| {
        ask(&limit_questions(limit, limit))?;
        ask(&[(7, cluster_fits(n))])?;
        held.act(key, most, |limiter| limiter.record(key, tally, limit, now, n as usize))?;
        Ok("ok".into())
    })
}

fn tick(state: &mut State, fields: &mut Fields) -> Option<String> {
    let (now, n) = (fields.u64()?, fields.u64()?);
    fields.end()?;
    on_limiter(state, |held| {
        ask(&[(7, cluster_fits(n))])?;
        held.limiter.tick(now, n as usize);
        Ok("ok".into())
    })
}

/// The closures are the peers' answers: whether a key is hot elsewhere, and its share.
fn tick_with_shares(state: &mut State, fields: &mut Fields) -> Option<String> {
    let (now, n) = (fields.u64()?, fields.u64()?);
    fields.end()?;
    let (Some(held), Some(peers)) = (&mut state.limiter, &state.peers) else {
        return no_state();
    };
    let questions = [(1, held.has_room(&state.lent) && state.lent.hold_peers()), (7, cluster_fits(n))];
    told(ask(&questions).map(|()| {
        let (cluster_size, floor_factor) = (n as usize, held.limiter.config.floor_factor);
        let share_of =
            |key, own, limit| share(View { limit, cluster_size, floor_factor, own, others: 0.0 + peers.total(key) });
        held.limiter.tick_with_shares(now, cluster_size, |key| peers.hot_elsewhere(key), share_of);
        "ok".into()
    }))
}
