//! What the limiter tells of its keys, its quotas and its settings.

use nultiway::limiter::Tables;
use nultiway::{KeyRates, Limiter, Refused, words};

use crate::fields::Fields;
use crate::limiter::{limit, on_limiter};
use crate::state::{Call, State, answered};
use crate::text::{f64_text, flag_text, maybe_text, quota_text, rates_text};

pub const CALLS: &[(&str, Call)] = &[
    ("rates", key_rates),
    ("quota", quota),
    ("limit", limit_of),
    ("newquota", new_key_quota),
    ("newfactor", new_key_factor),
    ("config", config),
    ("hotdemand", hot_demand),
    ("mostdenied", most_denied),
    ("mostshadow", most_shadow_denied),
    ("hotsince", hot_since),
    ("ishot", is_hot),
    ("tracked", tracked),
    ("ntracked", tracked_keys),
    ("nhot", hot_keys),
];

/// A call that tells something of a key, its one field.
fn tell_of_key(
    state: &mut State,
    fields: &mut Fields,
    tell: impl FnOnce(&Limiter, u64) -> Result<String, Refused>,
) -> Option<String> {
    let key = fields.u64()?;
    fields.end()?;
    on_limiter(state, |limiter| tell(limiter, key))
}

fn key_rates(state: &mut State, fields: &mut Fields) -> Option<String> {
    tell_of_key(state, fields, |limiter, key| Ok(maybe_text(limiter.try_key_rates(key)?, rates_text)))
}

fn quota(state: &mut State, fields: &mut Fields) -> Option<String> {
    tell_of_key(state, fields, |limiter, key| Ok(maybe_text(limiter.try_quota(key)?, quota_text)))
}

fn limit_of(state: &mut State, fields: &mut Fields) -> Option<String> {
    tell_of_key(state, fields, |limiter, key| {
        Ok(maybe_text(limiter.try_limit(key)?, |limit| format!("{} {}", f64_text(limit.rate), limit.burst)))
    })
}

fn new_key_quota(state: &mut State, fields: &mut Fields) -> Option<String> {
    let (limit, n) = (limit(fields)?, fields.u64()? as usize);
    fields.end()?;
    on_limiter(state, |limiter| limiter.try_new_key_quota(limit, n).map(quota_text))
}

fn new_key_factor(state: &mut State, fields: &mut Fields) -> Option<String> {
    let n = fields.u64()? as usize;
    fields.end()?;
    on_limiter(state, |limiter| limiter.try_new_key_factor(n).map(f64_text))
}

/// The settings in the order in which `new` is given them, as the library tells them.
fn config(state: &mut State, fields: &mut Fields) -> Option<String> {
    fields.end()?;
    on_limiter(state, |limiter| {
        let Tables { keys, hot, shadows } = limiter.tables();
        let mut told = [0; 9];
        if let Err(no) = answered(words::config(limiter.words(), keys, hot, shadows, &mut told)) {
            return Ok(no);
        }
        assert_eq!(told[..], limiter.words()[..9], "the settings are the value's first words");
        let [rate, burst, alpha, floor, rest @ ..] = told;
        let floats = |bits| f64_text(f64::from_bits(bits));
        let rest: String = rest.iter().map(|word| format!(" {word}")).collect();
        Ok(format!("{} {burst} {} {}{rest}", floats(rate), floats(alpha), floats(floor)))
    })
}

/// The most entries that an answer has room for.
const MOST_LISTED: u64 = 256;

/// How many entries there are, and each.
fn listed(entries: Vec<String>) -> String {
    entries.iter().fold(entries.len().to_string(), |text, entry| text + " " + entry)
}

fn hot_demand(state: &mut State, fields: &mut Fields) -> Option<String> {
    let room = fields.u64()?.min(MOST_LISTED);
    fields.end()?;
    on_limiter(state, |limiter| {
        let Tables { keys, hot, shadows } = limiter.tables();
        let mut out = vec![0; 3 * room as usize];
        if let Err(no) = answered(words::hot_demand(limiter.words(), keys, hot, shadows, &mut out, &mut [0])) {
            return Ok(no);
        }
        let entry = |(key, demand, primary)| format!("{key} {} {}", f64_text(demand), flag_text(primary));
        Ok(listed(limiter.try_hot_demand()?.into_iter().map(entry).collect()))
    })
}

/// A list of the binding's, and the library's function behind it, which is lent the room that the line gives.
type Lister = fn(&[u64], &[u64], &[u64], &[u64], u64, &mut [u64], &mut [u64]) -> u8;
type Listed = fn(&Limiter, usize) -> Result<Vec<(u64, KeyRates)>, Refused>;

fn most_by(state: &mut State, fields: &mut Fields, lister: Lister, most: Listed) -> Option<String> {
    let (k, room) = (fields.u64()?, fields.u64()?.min(MOST_LISTED));
    fields.end()?;
    on_limiter(state, |limiter| {
        let Tables { keys, hot, shadows } = limiter.tables();
        let mut out = vec![0; 4 * room as usize];
        if let Err(no) = answered(lister(limiter.words(), keys, hot, shadows, k, &mut out, &mut [0])) {
            return Ok(no);
        }
        let entry = |(key, rates)| format!("{key} {}", rates_text(rates));
        Ok(listed(most(limiter, k as usize)?.into_iter().map(entry).collect()))
    })
}

fn most_denied(state: &mut State, fields: &mut Fields) -> Option<String> {
    most_by(state, fields, words::most_denied, Limiter::try_most_denied)
}

fn most_shadow_denied(state: &mut State, fields: &mut Fields) -> Option<String> {
    most_by(state, fields, words::most_shadow_denied, Limiter::try_most_shadow_denied)
}

fn hot_since(state: &mut State, fields: &mut Fields) -> Option<String> {
    tell_of_key(state, fields, |limiter, key| Ok(maybe_text(limiter.try_hot_since(key)?, |time| time.to_string())))
}

fn is_hot(state: &mut State, fields: &mut Fields) -> Option<String> {
    tell_of_key(state, fields, |limiter, key| limiter.try_is_hot(key).map(flag_text))
}

fn tracked(state: &mut State, fields: &mut Fields) -> Option<String> {
    tell_of_key(state, fields, |limiter, key| limiter.try_tracked(key).map(flag_text))
}

fn tracked_keys(state: &mut State, fields: &mut Fields) -> Option<String> {
    fields.end()?;
    on_limiter(state, |limiter| limiter.try_tracked_keys().map(|count| count.to_string()))
}

fn hot_keys(state: &mut State, fields: &mut Fields) -> Option<String> {
    fields.end()?;
    on_limiter(state, |limiter| limiter.try_hot_keys().map(|count| count.to_string()))
}
