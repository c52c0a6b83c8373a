//! How many words of each table the calls are lent: all that question 1 can want, until `lend` says otherwise.

use crate::fields::Fields;
use crate::script::{Call, State};

pub const CALLS: &[(&str, Call)] = &[("lend", lend)];

/// The most keys that a table and a hot set may hold.
pub const MOST_KEYS: u64 = 4096;
pub const MOST_HOT: u64 = 64;

/// The words of a record: a key, a hot key, a shadow.
const KEY_WORDS: u64 = 22;
const HOT_WORDS: u64 = 6;
const SHADOW_WORDS: u64 = 4;

/// The words of the peers' tables: 32 peers, 64 snapshot keys and 256 contested keys of each.
const PEERS: u64 = 32 * 12;
const SNAPSHOTS: u64 = 32 * 64 * 4;
const CONTESTED: u64 = 32 * 256 * 6;

#[derive(Clone, Copy)]
pub struct Lent {
    keys: u64,
    hot: u64,
    shadows: u64,
    peers: u64,
    snapshots: u64,
    contested: u64,
}

impl Default for Lent {
    fn default() -> Self {
        let (keys, hot, shadows) = limiter_words(MOST_KEYS, MOST_HOT);
        Self { keys, hot, shadows, peers: PEERS, snapshots: SNAPSHOTS, contested: CONTESTED }
    }
}

impl Lent {
    /// 1, of the limiter's tables.
    pub fn hold_limiter(&self, table_size: u64, hot_set_size: u64) -> bool {
        let (keys, hot, shadows) = limiter_words(table_size, hot_set_size);
        keys <= self.keys && hot <= self.hot && shadows <= self.shadows
    }

    /// 1, of the peers' tables.
    pub fn hold_peers(&self) -> bool {
        PEERS <= self.peers && SNAPSHOTS <= self.snapshots && CONTESTED <= self.contested
    }
}

/// The words that keys, hot keys and shadows want; a size above its bound counts as that bound.
pub fn limiter_words(table_size: u64, hot_set_size: u64) -> (u64, u64, u64) {
    let (keys, hot) = (table_size.min(MOST_KEYS), hot_set_size.min(MOST_HOT));
    (KEY_WORDS * keys, HOT_WORDS * hot, SHADOW_WORDS * keys)
}

/// Those that the peers want.
pub fn peers_words() -> (u64, u64, u64) {
    (PEERS, SNAPSHOTS, CONTESTED)
}

fn lend(state: &mut State, fields: &mut Fields) -> Option<String> {
    let (keys, hot, shadows) = (fields.u64()?, fields.u64()?, fields.u64()?);
    let (peers, snapshots, contested) = (fields.u64()?, fields.u64()?, fields.u64()?);
    fields.end()?;
    state.lent = Lent { keys, hot, shadows, peers, snapshots, contested };
    Some("ok".into())
}
