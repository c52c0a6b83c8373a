//! Saves and loads, and the line that shows the image after each call.

use crate::fields::Fields;
use crate::image;
use crate::questions::{ask, told};
use crate::script::{Call, State, no_state};

pub const CALLS: &[(&str, Call)] =
    &[("save", save), ("load", load), ("loadhex", load_hex), ("reload", reload), ("dump", dump)];

/// What a save with room writes, or the number of the question that it fails; `None` where there is no limiter.
pub fn saved(state: &State) -> Option<Result<Vec<u8>, u8>> {
    let (held, peers) = (state.limiter.as_ref()?, state.peers.as_ref()?);
    let has_room = held.has_room(&state.lent) && state.lent.hold_peers();
    Some(ask(&[(1, has_room)]).map(|()| image::write(held, peers)))
}

/// Length and hash of the image, which follow an answer; empty where no image can be saved.
pub fn shown(state: &State) -> String {
    match saved(state) {
        Some(Ok(bytes)) => format!(" | {}", summary(&bytes)),
        _ => String::new(),
    }
}

fn summary(bytes: &[u8]) -> String {
    format!("{} {:016x}", bytes.len(), image::hash(bytes))
}

/// Asks 1 and 13, and makes limiter and peers. Sizes that can't be read pass 1.
fn loaded(state: &mut State, bytes: &[u8]) -> Result<String, u8> {
    if let Some((table_size, hot_set_size)) = image::sizes(bytes) {
        let lent = &state.lent;
        ask(&[(1, lent.hold_limiter(table_size, hot_set_size) && lent.hold_peers())])?;
    }
    let (held, peers) = image::read(bytes).ok_or(13)?;
    state.limiter = Some(held);
    state.peers = Some(peers);
    Ok("ok".into())
}

fn save(state: &mut State, fields: &mut Fields) -> Option<String> {
    let room = fields.u64()?;
    fields.end()?;
    let Some(saved) = saved(state) else {
        return no_state();
    };
    told(saved.and_then(|bytes| {
        ask(&[(16, bytes.len() as u64 <= room)])?;
        state.kept = bytes;
        Ok(format!("image {}", summary(&state.kept)))
    }))
}

fn load(state: &mut State, fields: &mut Fields) -> Option<String> {
    fields.end()?;
    let kept = std::mem::take(&mut state.kept);
    let answer = loaded(state, &kept);
    state.kept = kept;
    told(answer)
}

fn load_hex(state: &mut State, fields: &mut Fields) -> Option<String> {
    let bytes = fields.bytes()?;
    fields.end()?;
    told(loaded(state, &bytes))
}

fn reload(state: &mut State, fields: &mut Fields) -> Option<String> {
    fields.end()?;
    let Some(saved) = saved(state) else {
        return no_state();
    };
    told(saved.and_then(|bytes| {
        state.kept = bytes.clone();
        loaded(state, &bytes)
    }))
}

fn dump(state: &mut State, fields: &mut Fields) -> Option<String> {
    fields.end()?;
    let Some(saved) = saved(state) else {
        return no_state();
    };
    told(saved.map(|bytes| format!("image {}", hex(&bytes))))
}

/// Two hexadecimal digits for each byte.
pub fn hex(bytes: &[u8]) -> String {
    const DIGITS: &[u8; 16] = b"0123456789abcdef";
    bytes.iter().flat_map(|byte| [byte >> 4, byte & 15]).map(|digit| DIGITS[digit as usize] as char).collect()
}
