//! What the limiter tells of its keys, its quotas and its settings.

use rateguard_core::limiter::{KeyRates, Limiter};

use crate::fields::Fields;
use crate::limiter::{limit, limit_questions, on_limiter};
use crate::questions::{ask, cluster_fits};
use crate::script::{Call, State};
use crate::text::{f64_text, flag_text, maybe_text, quota_text};

pub const CALLS: &[(&str, Call)] = &[
    ("rates", key_rates),
    ("quota", quota),
    ("limit", limit_of),
    ("newquota", new_key_quota),
    ("newfactor", new_key_factor),
    ("config", config),
    ("hotdemand", hot_demand),
    ("mostdenied", most_denied),
    ("mostshadow", most_shadow_denied),
    ("hotsince", hot_since),
    ("ishot", is_hot),
    ("tracked", tracked),
    ("ntracked", tracked_keys),
    ("nhot", hot_keys),
];

/// A call that tells something and has no question of its own.
fn tell(state: &mut State, teller: impl FnOnce(&Limiter) -> String) -> Option<String> {
    on_limiter(state, |held| Ok(teller(&held.limiter)))
}

/// The same of a key, the call's one field.
fn tell_of_key(state: &mut State, fields: &mut Fields, teller: impl FnOnce(&Limiter, u64) -> String) -> Option<String> {
    let key = fields.u64()?;
    fields.end()?;
    tell(state, |limiter| teller(limiter, key))
}

fn or_none(told: Option<String>) -> String {
    told.unwrap_or_else(|| "none".into())
}

fn rates_text(rates: &KeyRates) -> String {
    let rates = [rates.requests_per_sec, rates.denied_per_sec, rates.shadow_denied_per_sec];
    rates.map(f64_text).join(" ")
}

fn key_rates(state: &mut State, fields: &mut Fields) -> Option<String> {
    tell_of_key(state, fields, |limiter, key| or_none(limiter.key_rates(key).map(|rates| rates_text(&rates))))
}

fn quota(state: &mut State, fields: &mut Fields) -> Option<String> {
    tell_of_key(state, fields, |limiter, key| or_none(limiter.quota(key).map(quota_text)))
}

fn limit_of(state: &mut State, fields: &mut Fields) -> Option<String> {
    let text =
        |limiter: &Limiter, key| limiter.limit(key).map(|limit| format!("{} {}", f64_text(limit.rate), limit.burst));
    tell_of_key(state, fields, |limiter, key| or_none(text(limiter, key)))
}

fn new_key_quota(state: &mut State, fields: &mut Fields) -> Option<String> {
    let (limit, n) = (limit(fields)?, fields.u64()?);
    fields.end()?;
    on_limiter(state, |held| {
        ask(&limit_questions(limit, limit))?;
        ask(&[(7, cluster_fits(n))])?;
        Ok(quota_text(held.limiter.new_key_quota(limit, n as usize)))
    })
}

/// The least of +0 and a cap of −0 is −0 here; the Rust may answer either.
fn new_key_factor(state: &mut State, fields: &mut Fields) -> Option<String> {
    let n = fields.u64()?;
    fields.end()?;
    on_limiter(state, |held| {
        ask(&[(7, cluster_fits(n))])?;
        let (factor, cap) = (held.limiter.new_key_factor(n as usize), held.limiter.cap);
        let of_zeros = factor == 0.0 && cap == Some(0.0);
        Ok(f64_text(if of_zeros { cap.unwrap_or(factor) } else { factor }))
    })
}

/// The settings in the order in which `new` is given them.
fn config(state: &mut State, fields: &mut Fields) -> Option<String> {
    fields.end()?;
    on_limiter(state, |held| {
        let config = held.limiter.config();
        Ok(format!(
            "{} {} {} {} {} {} {} {} {}",
            f64_text(config.limit.rate),
            config.limit.burst,
            f64_text(config.alpha),
            f64_text(config.floor_factor),
            config.cooldown,
            config.hot_set_size,
            config.max_tracked_keys,
            config.demand_time_constant,
            held.table_size
        ))
    })
}

/// The most entries that an answer has room for.
const MOST_LISTED: u64 = 256;

/// How many entries there are, and each; 16 where there is not so much room.
fn listed(room: u64, entries: Vec<String>) -> Result<String, u8> {
    ask(&[(16, entries.len() as u64 <= room.min(MOST_LISTED))])?;
    Ok(entries.iter().fold(entries.len().to_string(), |text, entry| text + " " + entry))
}

fn hot_demand(state: &mut State, fields: &mut Fields) -> Option<String> {
    let room = fields.u64()?;
    fields.end()?;
    on_limiter(state, |held| {
        let entry = |(key, demand, primary)| format!("{key} {} {}", f64_text(demand), flag_text(primary));
        listed(room, held.limiter.hot_demand().into_iter().map(entry).collect())
    })
}

fn most_denied(state: &mut State, fields: &mut Fields) -> Option<String> {
    most_by(state, fields, Limiter::most_denied)
}

fn most_shadow_denied(state: &mut State, fields: &mut Fields) -> Option<String> {
    most_by(state, fields, Limiter::most_shadow_denied)
}

fn most_by(
    state: &mut State,
    fields: &mut Fields,
    most: fn(&Limiter, usize) -> Vec<(u64, KeyRates)>,
) -> Option<String> {
    let (k, room) = (fields.u64()?, fields.u64()?);
    fields.end()?;
    on_limiter(state, |held| {
        let entry = |(key, rates)| format!("{key} {}", rates_text(&rates));
        listed(room, most(&held.limiter, k as usize).into_iter().map(entry).collect())
    })
}

fn hot_since(state: &mut State, fields: &mut Fields) -> Option<String> {
    tell_of_key(state, fields, |limiter, key| maybe_text(limiter.hot_since(key)))
}

fn is_hot(state: &mut State, fields: &mut Fields) -> Option<String> {
    tell_of_key(state, fields, |limiter, key| flag_text(limiter.is_hot(key)))
}

fn tracked(state: &mut State, fields: &mut Fields) -> Option<String> {
    tell_of_key(state, fields, |limiter, key| flag_text(limiter.tracked(key)))
}

fn tracked_keys(state: &mut State, fields: &mut Fields) -> Option<String> {
    fields.end()?;
    tell(state, |limiter| limiter.tracked_keys().to_string())
}

fn hot_keys(state: &mut State, fields: &mut Fields) -> Option<String> {
    fields.end()?;
    tell(state, |limiter| limiter.hot_keys().to_string())
}
