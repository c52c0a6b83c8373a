//! Demand and shares: lone estimators, the decay weight, `share`, rounds, and the stale window.

use rateguard_core::allocation::{View, share};
use rateguard_core::decay;
use rateguard_core::demand::Demand;
use rateguard_core::peer_demand::{round_is_newer, stale_after_rounds};

use crate::fields::Fields;
use crate::questions::{asked, cluster_fits, floor_fits, is_demand, rate_fits};
use crate::script::{Call, State};
use crate::text::{f64_text, flag_text, maybe_text};

pub const CALLS: &[(&str, Call)] = &[
    ("l.dtick", tick),
    ("l.drec", record_attempts),
    ("l.dunb", unbiased_rate),
    ("l.decay", decay_weight),
    ("l.share", share_of),
    ("l.newer", newer),
    ("l.stale", stale),
];

/// A lone estimator has both its times or neither.
fn lone_demand(fields: &mut Fields) -> Option<Demand> {
    let (current_rate, attempts_since_tick) = (fields.f64()?, fields.u64()?);
    let (last_tick, since) = (fields.maybe_u64()?, fields.maybe_u64()?);
    let time_constant = fields.u64()?;
    (last_tick.is_some() == since.is_some()).then_some(Demand {
        current_rate,
        attempts_since_tick,
        last_tick,
        since,
        time_constant,
    })
}

fn demand_text(demand: &Demand) -> String {
    format!(
        "{} {} {} {}",
        f64_text(demand.current_rate),
        demand.attempts_since_tick,
        maybe_text(demand.last_tick),
        maybe_text(demand.since)
    )
}

fn tick(_: &mut State, fields: &mut Fields) -> Option<String> {
    let (mut demand, now) = (lone_demand(fields)?, fields.u64()?);
    fields.end()?;
    asked(&[(2, is_demand(demand.current_rate))], || {
        demand.tick(now);
        demand_text(&demand)
    })
}

fn record_attempts(_: &mut State, fields: &mut Fields) -> Option<String> {
    let (mut demand, more) = (lone_demand(fields)?, fields.u64()?);
    fields.end()?;
    let fits = demand.attempts_since_tick.checked_add(more).is_some();
    asked(&[(2, is_demand(demand.current_rate)), (9, fits)], || {
        demand.record_attempts(more);
        demand_text(&demand)
    })
}

fn unbiased_rate(_: &mut State, fields: &mut Fields) -> Option<String> {
    let demand = lone_demand(fields)?;
    fields.end()?;
    asked(&[(2, is_demand(demand.current_rate))], || f64_text(demand.unbiased_rate()))
}

/// D, as a whole number.
fn decay_weight(_: &mut State, fields: &mut Fields) -> Option<String> {
    let (elapsed, time_constant) = (fields.u64()?, fields.u64()?);
    fields.end()?;
    Some(decay::kept(elapsed, time_constant).to_string())
}

fn share_of(_: &mut State, fields: &mut Fields) -> Option<String> {
    let (limit, size, floor_factor) = (fields.f64()?, fields.u64()?, fields.f64()?);
    let (own, others) = (fields.f64()?, fields.f64()?);
    fields.end()?;
    asked(&[(3, rate_fits(limit)), (5, floor_fits(floor_factor)), (7, cluster_fits(size))], || {
        let cluster_size = size as usize;
        f64_text(share(View { limit, cluster_size, floor_factor, own, others }))
    })
}

fn newer(_: &mut State, fields: &mut Fields) -> Option<String> {
    let (a, b) = (fields.u16()?, fields.u16()?);
    fields.end()?;
    Some(flag_text(round_is_newer(a, b)))
}

fn stale(_: &mut State, fields: &mut Fields) -> Option<String> {
    let size = fields.u64()?;
    fields.end()?;
    asked(&[(7, cluster_fits(size))], || stale_after_rounds(size as usize).to_string())
}
