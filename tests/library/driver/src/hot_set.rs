//! One lone hot set, which `l.hnew` makes and the other calls use.

use nultiway::hot_set::Update;
use nultiway::{HotSet, Refused};

use crate::fields::Fields;
use crate::state::{Call, State, done, no_state, told};
use crate::text::{flag_text, maybe_text};

pub const CALLS: &[(&str, Call)] = &[("l.hnew", new), ("l.hupd", update), ("l.hget", get)];

fn new(state: &mut State, fields: &mut Fields) -> Option<String> {
    let (cooldown, max_size) = (fields.u64()?, fields.u64()? as usize);
    fields.end()?;
    done(HotSet::try_new(cooldown, max_size).map(|made| state.hot_set = Some(made)))
}

/// An update by each of the library's calls that has it: they must agree in the answer, the set and its entries.
fn updated(hot_set: &mut HotSet, update: Update, now: u64) -> Result<bool, Refused> {
    let Update { key, demand_rate, threshold, hot_elsewhere } = update;
    let (mut alone, mut among_many) = (hot_set.clone(), hot_set.clone());
    let answer = hot_set.try_update_with(key, demand_rate, threshold, now, hot_elsewhere);
    let each = among_many.try_update_each(&[update], now);
    assert_eq!((each, of(&among_many)), (answer.map(|is_hot| vec![is_hot]), of(hot_set)));
    if !hot_elsewhere {
        assert_eq!((alone.try_update(key, demand_rate, threshold, now), of(&alone)), (answer, of(hot_set)));
    }
    answer
}

/// The words that a set stands in.
fn of(hot_set: &HotSet) -> (&[u64], &[u64]) {
    (hot_set.words(), hot_set.entries())
}

fn update(state: &mut State, fields: &mut Fields) -> Option<String> {
    let (key, demand_rate, threshold) = (fields.u64()?, fields.f64()?, fields.f64()?);
    let (now, hot_elsewhere) = (fields.u64()?, fields.flag()?);
    fields.end()?;
    let Some(hot_set) = &mut state.hot_set else {
        return no_state();
    };
    told(updated(hot_set, Update { key, demand_rate, threshold, hot_elsewhere }, now).map(flag_text))
}

/// Whether the key is hot, whether it is primary, since when, and how many keys are hot.
fn get(state: &mut State, fields: &mut Fields) -> Option<String> {
    let key = fields.u64()?;
    fields.end()?;
    let Some(hot_set) = &state.hot_set else {
        return no_state();
    };
    let tell = || {
        let (is_hot, is_primary) = (flag_text(hot_set.try_is_hot(key)?), flag_text(hot_set.try_is_primary(key)?));
        let (since, len) = (maybe_text(hot_set.try_hot_since(key)?, |since| since.to_string()), hot_set.try_len()?);
        assert_eq!(hot_set.try_is_empty()?, len == 0);
        Ok(format!("{is_hot} {is_primary} {since} {len}"))
    };
    told(tell())
}
