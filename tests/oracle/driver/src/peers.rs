//! The peers' state, which `newpeers` makes: reports, departures, expiry, and what is known of a key.

use rateguard_core::boundary::PeerId;
use rateguard_core::peer_demand::{Heard, PeerDemand};
use rateguard_proto::{DemandReport, KeyDemand, MAX_DEMAND_KEYS};

use crate::fields::Fields;
use crate::questions::{asked, is_demand32};
use crate::script::{Call, State, no_state};
use crate::text::{f32_text, f64_text, flag_text};

pub const CALLS: &[(&str, Call)] = &[
    ("newpeers", new),
    ("report", apply),
    ("forget", forget),
    ("leave", leave),
    ("expire", expire),
    ("get", get),
    ("total", total),
    ("elsewhere", hot_elsewhere),
    ("plen", len),
    ("pempty", is_empty),
    ("totals", totals),
    ("elsewheres", elsewheres),
];

/// The most keys that a line may list; a report may hold fewer.
const MOST_LISTED: u64 = 256;
/// The most peers that may be known, and keys of each: in its snapshot, and contested.
pub const MOST_PEERS: usize = 32;
pub const MOST_SNAPSHOT_KEYS: usize = MAX_DEMAND_KEYS;
pub const MOST_CONTESTED: usize = 4 * MAX_DEMAND_KEYS;

/// Makes the peers alone: a limiter that stood beside the old ones is gone.
fn new(state: &mut State, fields: &mut Fields) -> Option<String> {
    fields.end()?;
    asked(&[(1, state.lent.hold_peers())], || {
        state.limiter = None;
        state.peers = Some(PeerDemand::new());
        "ok".into()
    })
}

fn listed_key(fields: &mut Fields) -> Option<KeyDemand> {
    let (key_hash, demand, primary) = (fields.u64()?, fields.f32()?, fields.flag()?);
    Some(KeyDemand { key_hash, demand, primary })
}

/// The report's own fields, to the end of the line.
fn report(fields: &mut Fields) -> Option<DemandReport> {
    let (origin, epoch, round) = (fields.u64()?, fields.u32()?, fields.u16()?);
    let count = fields.u64().filter(|&count| count <= MOST_LISTED)?;
    let keys = (0..count).map(|_| listed_key(fields)).collect::<Option<Vec<_>>>()?;
    fields.end()?;
    Some(DemandReport { origin, epoch, round, keys })
}

fn apply(state: &mut State, fields: &mut Fields) -> Option<String> {
    let (from, now, report) = (PeerId::new(fields.u64()?), fields.u64()?, report(fields)?);
    let Some(peers) = &mut state.peers else {
        return no_state();
    };
    let questions = [
        (1, state.lent.hold_peers()),
        (10, report.keys.len() <= MAX_DEMAND_KEYS),
        (11, report.keys.iter().all(|key| is_demand32(key.demand))),
        (12, peers.peers.contains_key(&from) || peers.peers.len() < MOST_PEERS),
    ];
    asked(&questions, || {
        peers.apply(from, &report, now);
        "ok".into()
    })
}

fn forget(state: &mut State, fields: &mut Fields) -> Option<String> {
    let peer = PeerId::new(fields.u64()?);
    fields.end()?;
    changed(state, |peers| peers.forget(peer))
}

fn leave(state: &mut State, fields: &mut Fields) -> Option<String> {
    let (peer, now, hold) = (PeerId::new(fields.u64()?), fields.u64()?, fields.u64()?);
    fields.end()?;
    changed(state, |peers| peers.leave(peer, now, hold))
}

fn expire(state: &mut State, fields: &mut Fields) -> Option<String> {
    let (now, max_age) = (fields.u64()?, fields.u64()?);
    fields.end()?;
    changed(state, |peers| peers.expire(now, max_age))
}

fn changed(state: &mut State, change: impl FnOnce(&mut PeerDemand)) -> Option<String> {
    let Some(peers) = &mut state.peers else {
        return no_state();
    };
    asked(&[(1, state.lent.hold_peers())], || {
        change(peers);
        "ok".into()
    })
}

fn get(state: &mut State, fields: &mut Fields) -> Option<String> {
    let (peer, key) = (PeerId::new(fields.u64()?), fields.u64()?);
    fields.end()?;
    read(state, |peers| peers.get(peer, key).map_or_else(|| "none".into(), heard_text))
}

fn heard_text(heard: Heard) -> String {
    let (demand, primary) = (f32_text(heard.demand), flag_text(heard.primary));
    format!("{demand} {primary} {} {}", heard.round, heard.heard_at)
}

/// Adds from +0, where the Rust's sum of no peers has the other sign.
fn total(state: &mut State, fields: &mut Fields) -> Option<String> {
    let key = fields.u64()?;
    fields.end()?;
    read(state, |peers| f64_text(0.0 + peers.total(key)))
}

fn hot_elsewhere(state: &mut State, fields: &mut Fields) -> Option<String> {
    let key = fields.u64()?;
    fields.end()?;
    read(state, |peers| flag_text(peers.hot_elsewhere(key)))
}

fn len(state: &mut State, fields: &mut Fields) -> Option<String> {
    fields.end()?;
    read(state, |peers| peers.len().to_string())
}

fn is_empty(state: &mut State, fields: &mut Fields) -> Option<String> {
    fields.end()?;
    read(state, |peers| flag_text(peers.is_empty()))
}

/// The room for answers and the listed keys, to the end of the line.
fn wanted(fields: &mut Fields) -> Option<(u64, Vec<u64>)> {
    let room = fields.u64()?;
    let count = fields.u64().filter(|&count| count <= MOST_LISTED)?;
    let keys = (0..count).map(|_| fields.u64()).collect::<Option<Vec<_>>>()?;
    fields.end()?;
    Some((room, keys))
}

fn totals(state: &mut State, fields: &mut Fields) -> Option<String> {
    each(state, fields, |peers, key| f64_text(0.0 + peers.total(key)))
}

fn elsewheres(state: &mut State, fields: &mut Fields) -> Option<String> {
    each(state, fields, |peers, key| flag_text(peers.hot_elsewhere(key)))
}

/// How many keys are listed, and what is told of each.
fn each(state: &State, fields: &mut Fields, tell: impl Fn(&PeerDemand, u64) -> String) -> Option<String> {
    let (room, keys) = wanted(fields)?;
    let Some(peers) = &state.peers else {
        return no_state();
    };
    asked(&[(1, state.lent.hold_peers()), (16, keys.len() as u64 <= room)], || {
        let told = keys.iter().map(|&key| format!(" {}", tell(peers, key)));
        keys.len().to_string() + &told.collect::<String>()
    })
}

fn read(state: &State, reader: impl FnOnce(&PeerDemand) -> String) -> Option<String> {
    let Some(peers) = &state.peers else {
        return no_state();
    };
    asked(&[(1, state.lent.hold_peers())], || reader(peers))
}
