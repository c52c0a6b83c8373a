//! Stands in for rateguard-proto: the plain data of a report, without its encoding.

/// The most keys a report may list.
pub const MAX_DEMAND_KEYS: usize = 64;

/// One listed key of a report.
#[derive(Debug, Clone, Copy, PartialEq)]
pub struct KeyDemand {
    pub key_hash: u64,
    pub demand: f32,
    pub primary: bool,
}

/// What one peer says of its keys in one of its rounds.
#[derive(Debug, Clone, PartialEq)]
pub struct DemandReport {
    pub origin: u64,
    pub epoch: u32,
    pub round: u16,
    pub keys: Vec<KeyDemand>,
}
