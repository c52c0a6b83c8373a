//! Stands in for rateguard's `sync`, of which `gcra` uses the two names below.

pub use std::sync::atomic::{AtomicU64, Ordering};
