//! The limiter's changes: checks, records and ticks.

use nultiway::{Config, Decision, Limit, Limiter, PeerDemand, Refused, Tally};

use crate::fields::Fields;
use crate::state::{Call, State, done, no_state, told};
use crate::text::{decision_text, maybe_text};

pub const CALLS: &[(&str, Call)] = &[
    ("new", new),
    ("cap", set_cap),
    ("check", check),
    ("checkin", check_in),
    ("checks", check_each),
    ("traced", check_in_traced),
    ("record", record),
    ("tick", tick),
    ("ticks", tick_with_shares),
];

/// The most pairs that a line may list.
const MOST_LISTED: u64 = 256;

pub fn limit(fields: &mut Fields) -> Option<Limit> {
    let (rate, burst) = (fields.f64()?, fields.u32()?);
    Some(Limit { rate, burst })
}

/// Makes limiter and peers: the limiter's questions come first, then that of the peers.
fn new(state: &mut State, fields: &mut Fields) -> Option<String> {
    let limit = limit(fields)?;
    let (alpha, floor_factor, cooldown) = (fields.f64()?, fields.f64()?, fields.u64()?);
    let (hot_set_size, max_tracked_keys) = (fields.u64()? as usize, fields.u64()? as usize);
    let (demand_time_constant, table_size) = (fields.u64()?, fields.u64()? as usize);
    fields.end()?;
    let config = Config { limit, alpha, floor_factor, cooldown, hot_set_size, max_tracked_keys, demand_time_constant };
    let made = if state.lends_all() {
        Limiter::try_with_table_size(config, table_size).and_then(|limiter| Ok((limiter, PeerDemand::try_new()?)))
    } else {
        Limiter::try_with_tables(config, table_size, state.limiter_tables())
            .and_then(|limiter| Ok((limiter, PeerDemand::try_with_tables(state.peer_tables())?)))
    };
    done(made.map(|(limiter, peers)| state.take(Some(limiter), peers)))
}

/// A call on the limiter.
pub fn on_limiter(state: &mut State, call: impl FnOnce(&mut Limiter) -> Result<String, Refused>) -> Option<String> {
    match &mut state.limiter {
        Some(limiter) => told(call(limiter)),
        None => no_state(),
    }
}

/// One that changes it.
fn change(state: &mut State, call: impl FnOnce(&mut Limiter) -> Result<(), Refused>) -> Option<String> {
    on_limiter(state, |limiter| call(limiter).map(|()| "ok".into()))
}

fn set_cap(state: &mut State, fields: &mut Fields) -> Option<String> {
    let cap = fields.maybe_f64()?;
    fields.end()?;
    change(state, |limiter| limiter.try_set_cap(cap))
}

fn check(state: &mut State, fields: &mut Fields) -> Option<String> {
    let (key, now, n) = (fields.u64()?, fields.u64()?, fields.u64()? as usize);
    fields.end()?;
    on_limiter(state, |limiter| limiter.try_check(key, now, n).map(decision_text))
}

fn check_in(state: &mut State, fields: &mut Fields) -> Option<String> {
    let (key, limit) = (fields.u64()?, limit(fields)?);
    let (now, n) = (fields.u64()?, fields.u64()? as usize);
    fields.end()?;
    on_limiter(state, |limiter| limiter.try_check_in(key, limit, now, n).map(decision_text))
}

/// Many checks in one call; the room is that for answers.
fn check_each(state: &mut State, fields: &mut Fields) -> Option<String> {
    let (n, room) = (fields.u64()? as usize, fields.u64()?);
    let count = fields.u64().filter(|&count| count <= MOST_LISTED)?;
    let pairs = (0..count).map(|_| Some((fields.u64()?, fields.u64()?))).collect::<Option<Vec<_>>>()?;
    fields.end()?;
    on_limiter(state, |limiter| {
        if room < count {
            let list: Vec<u64> = pairs.iter().flat_map(|&(key, now)| [key, now]).collect();
            return limiter.try_check_each_into(&list, n, &mut vec![0; 3 * room as usize]).map(|()| "done".into());
        }
        let text = |answer: &Result<Decision, Refused>| match answer {
            Ok(decision) => format!(" / {}", decision_text(*decision)),
            Err(refused) => format!(" / no {}", refused.number()),
        };
        let each = limiter.try_check_each(&pairs, n)?;
        Ok(count.to_string() + &each.iter().map(text).collect::<String>())
    })
}

fn check_in_traced(state: &mut State, fields: &mut Fields) -> Option<String> {
    let (key, limit) = (fields.u64()?, limit(fields)?);
    let shadow = match fields.maybe_f64()? {
        None => None,
        Some(rate) => Some(Limit { rate, burst: fields.u32()? }),
    };
    let (now, n) = (fields.u64()?, fields.u64()? as usize);
    fields.end()?;
    on_limiter(state, |limiter| {
        let (decision, traced) = limiter.try_check_in_traced(key, limit, shadow, now, n)?;
        Ok(format!("{} / {}", decision_text(decision), maybe_text(traced, decision_text)))
    })
}

fn record(state: &mut State, fields: &mut Fields) -> Option<String> {
    let key = fields.u64()?;
    let (attempts, denials, shadow_denials) = (fields.u64()?, fields.u64()?, fields.u64()?);
    let (limit, now, n) = (limit(fields)?, fields.u64()?, fields.u64()? as usize);
    fields.end()?;
    let tally = Tally { attempts, denials, shadow_denials };
    change(state, |limiter| limiter.try_record(key, tally, limit, now, n))
}

fn tick(state: &mut State, fields: &mut Fields) -> Option<String> {
    let (now, n) = (fields.u64()?, fields.u64()? as usize);
    fields.end()?;
    change(state, |limiter| limiter.try_tick(now, n))
}

fn tick_with_shares(state: &mut State, fields: &mut Fields) -> Option<String> {
    let (now, n) = (fields.u64()?, fields.u64()? as usize);
    fields.end()?;
    let (Some(limiter), Some(peers)) = (&mut state.limiter, &state.peers) else {
        return no_state();
    };
    done(limiter.try_tick_with_shares(now, n, peers))
}
