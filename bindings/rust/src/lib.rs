//! A rate limiter whose quoted figure is a theorem: rateguard's sequential limiter, over the proved library
//! libnultiway.a. The modules have rateguard-core's names, and `proto` those of rateguard-proto, so a server that uses
//! its limiter, its peers' demand or a layer below these changes its imports and little else.
//!
//! Each call comes in two forms. `try_check(..)` and its like answer `Result<_, Refused>`; a refused call has changed
//! nothing. `check(..)` has rateguard's signature and panics with the question's words where the call is refused, also
//! where rateguard would answer, as where the table is full. Of rateguard's signatures that of `Limiter::tick_with_shares`
//! alone is another one: it takes the peers.
//!
//! ```
//! use nultiway::gcra::Decision;
//! use nultiway::limiter::{Config, Limit, Limiter};
//!
//! let config = Config {
//!     limit: Limit { rate: 3.0, burst: 2 },
//!     alpha: 1.0,
//!     floor_factor: 0.5,
//!     cooldown: 10_000_000_000,
//!     hot_set_size: 64,
//!     max_tracked_keys: 1_000,
//!     demand_time_constant: 1_000_000_000,
//! };
//! let mut limiter = Limiter::with_table_size(config, 1_000);
//! assert_eq!(limiter.check(7, 0, 1), Decision::Allow);
//! assert_eq!(limiter.check(7, 0, 1), Decision::Allow);
//! assert_eq!(limiter.check(7, 0, 1), Decision::Deny { retry_at: 333_333_334 });
//! assert_eq!(limiter.try_check(7, 0, 0).unwrap_err().number(), 7);
//! ```
#![deny(unsafe_code)]
#![warn(missing_docs)]

pub mod allocation;
pub mod boundary;
pub mod demand;
pub mod gcra;
pub mod hot_set;
pub mod image;
pub mod limiter;
mod limiter_readers;
pub mod peer_demand;
pub mod proto;
mod refused;
pub mod sizes;
#[allow(unsafe_code)]
#[rustfmt::skip]
pub mod words;

pub use allocation::View;
pub use demand::Demand;
pub use gcra::{Decision, Gcra, Nanos, Quota};
pub use hot_set::HotSet;
pub use limiter::{Config, KeyRates, Limit, Limiter, Tally};
pub use peer_demand::{Heard, PeerDemand};
pub use refused::Refused;

/// README's start, as a test of the documentation.
#[cfg(doctest)]
#[doc = include_str!("../../../README.md")]
struct Readme;
