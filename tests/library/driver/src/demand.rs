//! Lone estimators, the decay weight, shares, rounds and the stale window.

use nultiway::allocation::try_share;
use nultiway::peer_demand::{round_is_newer, try_stale_after_rounds};
use nultiway::{Demand, Refused, View, words};

use crate::fields::Fields;
use crate::state::{Call, State, told};
use crate::text::{f64_text, flag_text, maybe_text};

pub const CALLS: &[(&str, Call)] = &[
    ("l.dtick", tick),
    ("l.drec", record_attempts),
    ("l.dunb", unbiased_rate),
    ("l.decay", decay_weight),
    ("l.share", share),
    ("l.newer", newer),
    ("l.stale", stale),
];

/// An estimator has both its times or neither.
fn lone_demand(fields: &mut Fields) -> Option<Demand> {
    let (rate, attempts) = (fields.f64()?.to_bits(), fields.u64()?);
    let (last_tick, since, time_constant) = (fields.maybe_u64()?, fields.maybe_u64()?, fields.u64()?);
    let [has_times, last_tick, since] = match (last_tick, since) {
        (Some(last_tick), Some(since)) => [1, last_tick, since],
        (None, None) => [0; 3],
        _ => return None,
    };
    Some(Demand::from_words([rate, attempts, has_times, last_tick, since, time_constant]))
}

/// What an estimator holds, by its words and by the calls that read it.
fn demand_text(demand: &Demand) -> Result<String, Refused> {
    let [rate, attempts, has_times, last_tick, since, _] = *demand.words();
    assert_eq!((demand.try_rate()?.to_bits(), demand.try_has_pending()?), (rate, attempts > 0));
    let time = |time: u64| maybe_text((has_times != 0).then_some(time), |time| time.to_string());
    Ok(format!("{} {attempts} {} {}", f64_text(f64::from_bits(rate)), time(last_tick), time(since)))
}

fn tick(_: &mut State, fields: &mut Fields) -> Option<String> {
    let (mut demand, now) = (lone_demand(fields)?, fields.u64()?);
    fields.end()?;
    told(demand.try_tick(now).and_then(|()| demand_text(&demand)))
}

fn record_attempts(_: &mut State, fields: &mut Fields) -> Option<String> {
    let (mut demand, more) = (lone_demand(fields)?, fields.u64()?);
    fields.end()?;
    if more == 1 {
        return told(demand.try_record_attempt().and_then(|()| demand_text(&demand)));
    }
    told(demand.try_record_attempts(more).and_then(|()| demand_text(&demand)))
}

fn unbiased_rate(_: &mut State, fields: &mut Fields) -> Option<String> {
    let demand = lone_demand(fields)?;
    fields.end()?;
    told(demand.try_unbiased_rate().map(f64_text))
}

fn decay_weight(_: &mut State, fields: &mut Fields) -> Option<String> {
    let (elapsed, time_constant) = (fields.u64()?, fields.u64()?);
    fields.end()?;
    Some(words::decay_weight(elapsed, time_constant).to_string())
}

fn share(_: &mut State, fields: &mut Fields) -> Option<String> {
    let (limit, cluster_size, floor_factor) = (fields.f64()?, fields.u64()? as usize, fields.f64()?);
    let (own, others) = (fields.f64()?, fields.f64()?);
    fields.end()?;
    told(try_share(View { limit, cluster_size, floor_factor, own, others }).map(f64_text))
}

fn newer(_: &mut State, fields: &mut Fields) -> Option<String> {
    let (a, b) = (fields.u16()?, fields.u16()?);
    fields.end()?;
    Some(flag_text(round_is_newer(a, b)))
}

fn stale(_: &mut State, fields: &mut Fields) -> Option<String> {
    let cluster_size = fields.u64()? as usize;
    fields.end()?;
    told(try_stale_after_rounds(cluster_size).map(|rounds| rounds.to_string()))
}
