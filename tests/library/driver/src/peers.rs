//! The peers: reports, departures, expiry, and what is known of a key.

use nultiway::boundary::PeerId;
use nultiway::peer_demand::Tables;
use nultiway::proto::{DemandReport, KeyDemand};
use nultiway::{PeerDemand, Refused, words};

use crate::fields::Fields;
use crate::state::{Call, State, answered, done, no_state, told};
use crate::text::{f32_text, f64_text, flag_text, maybe_text};

pub const CALLS: &[(&str, Call)] = &[
    ("newpeers", new),
    ("report", apply),
    ("forget", forget),
    ("leave", leave),
    ("expire", expire),
    ("get", get),
    ("total", total),
    ("elsewhere", hot_elsewhere),
    ("plen", len),
    ("pempty", is_empty),
    ("totals", totals),
    ("elsewheres", elsewheres),
];

/// The most keys that a line may list; a report may hold fewer.
const MOST_LISTED: u64 = 256;

/// Makes the peers alone: a limiter that stood beside the old ones is gone.
fn new(state: &mut State, fields: &mut Fields) -> Option<String> {
    fields.end()?;
    done(PeerDemand::try_with_tables(state.peer_tables()).map(|peers| state.take(None, peers)))
}

fn on_peers(state: &mut State, call: impl FnOnce(&mut PeerDemand) -> Result<String, Refused>) -> Option<String> {
    match &mut state.peers {
        Some(peers) => told(call(peers)),
        None => no_state(),
    }
}

fn change(state: &mut State, call: impl FnOnce(&mut PeerDemand) -> Result<(), Refused>) -> Option<String> {
    on_peers(state, |peers| call(peers).map(|()| "ok".into()))
}

fn listed_key(fields: &mut Fields) -> Option<KeyDemand> {
    let (key_hash, demand, primary) = (fields.u64()?, fields.f32()?, fields.flag()?);
    Some(KeyDemand { key_hash, demand, primary })
}

fn apply(state: &mut State, fields: &mut Fields) -> Option<String> {
    let (from, now) = (PeerId::new(fields.u64()?), fields.u64()?);
    let (origin, epoch, round) = (fields.u64()?, fields.u32()?, fields.u16()?);
    let count = fields.u64().filter(|&count| count <= MOST_LISTED)?;
    let keys = (0..count).map(|_| listed_key(fields)).collect::<Option<Vec<_>>>()?;
    fields.end()?;
    change(state, |peers| peers.try_apply(from, &DemandReport { origin, epoch, round, keys }, now))
}

fn forget(state: &mut State, fields: &mut Fields) -> Option<String> {
    let peer = PeerId::new(fields.u64()?);
    fields.end()?;
    change(state, |peers| peers.try_forget(peer))
}

fn leave(state: &mut State, fields: &mut Fields) -> Option<String> {
    let (peer, now, hold) = (PeerId::new(fields.u64()?), fields.u64()?, fields.u64()?);
    fields.end()?;
    change(state, |peers| peers.try_leave(peer, now, hold))
}

fn expire(state: &mut State, fields: &mut Fields) -> Option<String> {
    let (now, max_age) = (fields.u64()?, fields.u64()?);
    fields.end()?;
    change(state, |peers| peers.try_expire(now, max_age))
}

fn get(state: &mut State, fields: &mut Fields) -> Option<String> {
    let (peer, key) = (PeerId::new(fields.u64()?), fields.u64()?);
    fields.end()?;
    on_peers(state, |peers| {
        Ok(maybe_text(peers.try_get(peer, key)?, |heard| {
            let (demand, primary) = (f32_text(heard.demand), flag_text(heard.primary));
            format!("{demand} {primary} {} {}", heard.round, heard.heard_at)
        }))
    })
}

fn total(state: &mut State, fields: &mut Fields) -> Option<String> {
    let key = fields.u64()?;
    fields.end()?;
    on_peers(state, |peers| peers.try_total(key).map(f64_text))
}

fn hot_elsewhere(state: &mut State, fields: &mut Fields) -> Option<String> {
    let key = fields.u64()?;
    fields.end()?;
    on_peers(state, |peers| peers.try_hot_elsewhere(key).map(flag_text))
}

fn len(state: &mut State, fields: &mut Fields) -> Option<String> {
    fields.end()?;
    on_peers(state, |peers| peers.try_len().map(|count| count.to_string()))
}

fn is_empty(state: &mut State, fields: &mut Fields) -> Option<String> {
    fields.end()?;
    on_peers(state, |peers| peers.try_is_empty().map(flag_text))
}

/// The room for answers and the listed keys, to the end of the line.
fn wanted(fields: &mut Fields) -> Option<(u64, Vec<u64>)> {
    let room = fields.u64()?;
    let count = fields.u64().filter(|&count| count <= MOST_LISTED)?;
    let keys = (0..count).map(|_| fields.u64()).collect::<Option<Vec<_>>>()?;
    fields.end()?;
    Some((room, keys))
}

fn totals(state: &mut State, fields: &mut Fields) -> Option<String> {
    let (room, keys) = wanted(fields)?;
    on_peers(state, |peers| {
        if room < keys.len() as u64 {
            let Tables { peers: table, snapshot_keys, contested } = peers.tables();
            let (count, mut out) = (keys.len() as u64, vec![0.0; room as usize]);
            let said =
                words::peers_total_of_each(peers.words(), table, snapshot_keys, contested, &keys, 1, count, &mut out);
            return Ok(answered(said).err().unwrap_or_default());
        }
        let told: String =
            peers.try_total_of_each(&keys)?.into_iter().map(|total| format!(" {}", f64_text(total))).collect();
        Ok(format!("{}{told}", keys.len()))
    })
}

fn elsewheres(state: &mut State, fields: &mut Fields) -> Option<String> {
    let (room, keys) = wanted(fields)?;
    on_peers(state, |peers| {
        if room < keys.len() as u64 {
            let Tables { peers: table, snapshot_keys, contested } = peers.tables();
            let (count, mut out) = (keys.len() as u64, vec![false; room as usize]);
            let said = words::peers_hot_elsewhere_of_each(
                peers.words(),
                table,
                snapshot_keys,
                contested,
                &keys,
                1,
                count,
                &mut out,
            );
            return Ok(answered(said).err().unwrap_or_default());
        }
        let flags = peers.try_hot_elsewhere_of_each(&keys)?;
        let told: String = flags.into_iter().map(|flag| format!(" {}", flag_text(flag))).collect();
        Ok(format!("{}{told}", keys.len()))
    })
}
