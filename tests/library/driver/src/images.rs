//! Saves and loads, and the line that shows the image after each call.

use nultiway::{Limiter, Refused};

use crate::fields::Fields;
use crate::state::{Call, State, no_state, told};

pub const CALLS: &[(&str, Call)] =
    &[("save", save), ("load", load), ("loadhex", load_hex), ("reload", reload), ("dump", dump)];

/// What a save with room writes; `None` where there is no limiter.
fn saved(state: &State) -> Option<Result<Vec<u8>, Refused>> {
    Some(state.limiter.as_ref()?.try_save(state.peers.as_ref()?))
}

/// Length and hash of the image, which follow an answer; empty where no image can be saved.
pub fn shown(state: &State) -> String {
    match saved(state) {
        Some(Ok(bytes)) => format!(" | {}", summary(&bytes)),
        _ => String::new(),
    }
}

/// FNV-1a, of 64 bits.
fn hash(bytes: &[u8]) -> u64 {
    bytes.iter().fold(0xcbf2_9ce4_8422_2325, |hash, &byte| (hash ^ u64::from(byte)).wrapping_mul(0x100_0000_01b3))
}

fn summary(bytes: &[u8]) -> String {
    format!("{} {:016x}", bytes.len(), hash(bytes))
}

fn loaded(state: &mut State, bytes: &[u8]) -> Result<String, Refused> {
    let (limiter, peers) = if state.lends_all() {
        Limiter::try_load(bytes)?
    } else {
        Limiter::try_load_in(bytes, state.limiter_tables(), state.peer_tables())?
    };
    state.take(Some(limiter), peers);
    Ok("ok".into())
}

fn save(state: &mut State, fields: &mut Fields) -> Option<String> {
    let room = fields.u64()?;
    fields.end()?;
    let (Some(limiter), Some(peers)) = (&state.limiter, &state.peers) else {
        return no_state();
    };
    let saved = if room < limiter.image_size(peers) as u64 {
        limiter.try_save_into(peers, &mut vec![0; room as usize]).map(|_| Vec::new())
    } else {
        limiter.try_save(peers)
    };
    told(saved.map(|bytes| {
        state.kept = bytes;
        format!("image {}", summary(&state.kept))
    }))
}

fn load(state: &mut State, fields: &mut Fields) -> Option<String> {
    fields.end()?;
    let kept = std::mem::take(&mut state.kept);
    let answer = loaded(state, &kept);
    state.kept = kept;
    told(answer)
}

fn load_hex(state: &mut State, fields: &mut Fields) -> Option<String> {
    let bytes = fields.bytes()?;
    fields.end()?;
    told(loaded(state, &bytes))
}

fn reload(state: &mut State, fields: &mut Fields) -> Option<String> {
    fields.end()?;
    let Some(saved) = saved(state) else {
        return no_state();
    };
    told(saved.and_then(|bytes| {
        state.kept = bytes.clone();
        loaded(state, &bytes)
    }))
}

fn dump(state: &mut State, fields: &mut Fields) -> Option<String> {
    fields.end()?;
    let Some(saved) = saved(state) else {
        return no_state();
    };
    told(saved.map(|bytes| format!("image {}", bytes.iter().map(|byte| format!("{byte:02x}")).collect::<String>())))
}
