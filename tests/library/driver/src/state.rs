//! What calls leave for later ones, and how many words of each table they are lent.

use nultiway::sizes::{CONTESTED_SIZE, HOT_WORDS, KEY_WORDS, MAX_HOT, MAX_KEYS};
use nultiway::sizes::{PEER_TABLE_SIZE, SHADOW_WORDS, SNAPSHOT_KEYS_SIZE};
use nultiway::{HotSet, Limiter, PeerDemand, Refused, limiter, peer_demand};

use crate::fields::Fields;

pub const CALLS: &[(&str, Call)] = &[("lend", lend)];

/// A call reads its fields and answers; `None` says that the line is no call, and then nothing has changed.
pub type Call = fn(&mut State, &mut Fields) -> Option<String>;

/// The words of all tables: keys, hot, shadows, peers, snapshot keys, contested.
const WHOLE: [usize; 6] = [
    KEY_WORDS * MAX_KEYS,
    HOT_WORDS * MAX_HOT,
    SHADOW_WORDS * MAX_KEYS,
    PEER_TABLE_SIZE,
    SNAPSHOT_KEYS_SIZE,
    CONTESTED_SIZE,
];

pub struct State {
    pub limiter: Option<Limiter>,
    pub peers: Option<PeerDemand>,
    pub hot_set: Option<HotSet>,
    /// The image that `load` takes.
    pub kept: Vec<u8>,
    /// How many words of each table are lent.
    lent: [usize; 6],
    /// What is cut off each table because it is not lent.
    rest: [Vec<u64>; 6],
}

impl Default for State {
    fn default() -> Self {
        Self { limiter: None, peers: None, hot_set: None, kept: Vec::new(), lent: WHOLE, rest: Default::default() }
    }
}

impl State {
    /// Whether all that a table can need is lent.
    pub fn lends_all(&self) -> bool {
        self.lent == WHOLE
    }

    /// Tables of a limiter, as long as they are lent, holding anything.
    pub fn limiter_tables(&self) -> limiter::Tables {
        let [keys, hot, shadows, ..] = self.lent.map(filled);
        limiter::Tables { keys, hot, shadows }
    }

    pub fn peer_tables(&self) -> peer_demand::Tables {
        let [.., peers, snapshot_keys, contested] = self.lent.map(filled);
        peer_demand::Tables { peers, snapshot_keys, contested }
    }

    /// Takes what a call made in new tables, of which nothing is cut off.
    pub fn take(&mut self, limiter: Option<Limiter>, peers: PeerDemand) {
        self.limiter = limiter;
        self.peers = Some(peers);
        self.rest = Default::default();
    }
}

fn filled(words: usize) -> Vec<u64> {
    vec![0x0123_4567_89ab_cdef; words]
}

/// Cuts a table to the words that are lent; the rest is put back when more are.
fn cut(table: &mut Vec<u64>, rest: &mut Vec<u64>, lent: usize) {
    table.append(rest);
    *rest = table.split_off(lent.min(table.len()));
}

fn lend(state: &mut State, fields: &mut Fields) -> Option<String> {
    let mut lent = [0; 6];
    for (words, whole) in lent.iter_mut().zip(WHOLE) {
        *words = fields.u64()?.min(whole as u64) as usize;
    }
    fields.end()?;
    state.lent = lent;
    let [keys, hot, shadows, peers, snapshot_keys, contested] = &mut state.rest;
    if let Some(limiter) = &mut state.limiter {
        let tables = limiter.tables_mut();
        cut(&mut tables.keys, keys, lent[0]);
        cut(&mut tables.hot, hot, lent[1]);
        cut(&mut tables.shadows, shadows, lent[2]);
    }
    if let Some(there) = &mut state.peers {
        let tables = there.tables_mut();
        cut(&mut tables.peers, peers, lent[3]);
        cut(&mut tables.snapshot_keys, snapshot_keys, lent[4]);
        cut(&mut tables.contested, contested, lent[5]);
    }
    Some("ok".into())
}

/// What a call answers on a state that nothing has made yet.
pub fn no_state() -> Option<String> {
    Some("nostate".into())
}

/// The answer of a call: what it tells, or `no N`.
pub fn told(answer: Result<String, Refused>) -> Option<String> {
    Some(answer.unwrap_or_else(|refused| format!("no {}", refused.number())))
}

/// The answer of a call that changes something.
pub fn done(answer: Result<(), Refused>) -> Option<String> {
    told(answer.map(|()| "ok".into()))
}

/// The call's number where it is refused.
pub fn answered(number: u8) -> Result<(), String> {
    if number == 0 { Ok(()) } else { Err(format!("no {number}")) }
}
