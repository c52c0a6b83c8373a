//! One lone hot set, which `l.hnew` makes and the other calls use.

use rateguard_core::hot_set::HotSet;
use rateguard_proto::MAX_DEMAND_KEYS;

use crate::fields::Fields;
use crate::questions::{asked, is_demand};
use crate::script::{Call, State, no_state};
use crate::text::{flag_text, maybe_text};

pub const CALLS: &[(&str, Call)] = &[("l.hnew", new), ("l.hupd", update), ("l.hget", get)];

fn new(state: &mut State, fields: &mut Fields) -> Option<String> {
    let (cooldown, max_size) = (fields.u64()?, fields.u64()?);
    fields.end()?;
    asked(&[(6, (1..=MAX_DEMAND_KEYS as u64).contains(&max_size))], || {
        state.hot_set = Some(HotSet::new(cooldown, max_size as usize));
        "ok".into()
    })
}

fn update(state: &mut State, fields: &mut Fields) -> Option<String> {
    let (key, demand, threshold) = (fields.u64()?, fields.f64()?, fields.f64()?);
    let (now, elsewhere) = (fields.u64()?, fields.flag()?);
    fields.end()?;
    let Some(hot_set) = &mut state.hot_set else {
        return no_state();
    };
    asked(&[(11, is_demand(demand))], || flag_text(hot_set.update_with(key, demand, threshold, now, elsewhere)))
}

/// Whether the key is hot, whether it is primary, since when, and how many keys are hot.
fn get(state: &mut State, fields: &mut Fields) -> Option<String> {
    let key = fields.u64()?;
    fields.end()?;
    let Some(hot_set) = &state.hot_set else {
        return no_state();
    };
    Some(format!(
        "{} {} {} {}",
        flag_text(hot_set.is_hot(key)),
        flag_text(hot_set.is_primary(key)),
        maybe_text(hot_set.hot_since(key)),
        hot_set.len()
    ))
}
