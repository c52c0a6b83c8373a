//! The report that a peer sends of its demand, as rateguard-proto has it.

pub use crate::sizes::MAX_DEMAND_KEYS;

/// A peer's demand for one key.
#[derive(Debug, Clone, Copy, PartialEq)]
pub struct KeyDemand {
    /// The key.
    pub key_hash: u64,
    /// Attempts a second at the peer.
    pub demand: f32,
    /// Whether the key is hot there by its own demand.
    pub primary: bool,
}

/// A peer's hot keys, all of them.
#[derive(Debug, Clone, PartialEq)]
pub struct DemandReport {
    /// The peer that the report is about.
    pub origin: u64,
    /// The run of the peer, from its start to its restart.
    pub epoch: u32,
    /// The round of that run.
    pub round: u16,
    /// The keys, at most `MAX_DEMAND_KEYS`.
    pub keys: Vec<KeyDemand>,
}
