//! How a key's limit is divided among the nodes of a cluster.

use crate::refused::{or_panic, told, Refused};
use crate::words;

/// What a share depends on.
#[derive(Debug, Clone, Copy, PartialEq)]
pub struct View {
    /// The limit of the whole cluster, in requests a second.
    pub limit: f64,
    /// The number of nodes, this one among them.
    pub cluster_size: usize,
    /// The part of the limit that goes to all nodes alike, in [0, 1].
    pub floor_factor: f64,
    /// This node's demand, in attempts a second.
    pub own: f64,
    /// That of all others.
    pub others: f64,
}

/// The part of the limit that falls to this node, in requests a second.
pub fn try_share(view: View) -> Result<f64, Refused> {
    let View { limit, cluster_size, floor_factor, own, others } = view;
    told(|answer| words::share(limit, cluster_size as u64, floor_factor, own, others, answer)).map(f64::from_bits)
}

/// The same, or a panic where it is refused.
#[track_caller]
pub fn share(view: View) -> f64 {
    or_panic(try_share(view))
}
