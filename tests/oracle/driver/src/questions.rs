//! Document 01's questions, asked around the Rust's functions so that no unfit call reaches a panic.

use rateguard_core::gcra::{MAX_BURST, MAX_INTERVAL, Quota};

/// The number of the first question that is answered no, in the order given.
pub fn ask(questions: &[(u8, bool)]) -> Result<(), u8> {
    questions.iter().find(|(_, yes)| !yes).map_or(Ok(()), |&(number, _)| Err(number))
}

/// The answer of a call: what it tells, or `no N`.
pub fn told(answer: Result<String, u8>) -> Option<String> {
    Some(answer.unwrap_or_else(|number| format!("no {number}")))
}

/// The same where all questions can be asked at once.
pub fn asked(questions: &[(u8, bool)], act: impl FnOnce() -> String) -> Option<String> {
    told(ask(questions).map(|()| act()))
}

/// 2, of a lone quota: an interval that packing gives back, and a burst that fits.
pub fn quota_is_valid(quota: Quota) -> bool {
    (1..=MAX_INTERVAL).contains(&quota.interval)
        && burst_fits(quota.burst)
        && Quota::unpack(quota.pack()).interval == quota.interval
}

/// 2 and 11, of an estimator's rate or a demand: finite with a clear sign bit.
pub fn is_demand(value: f64) -> bool {
    value.is_finite() && value.is_sign_positive()
}

/// 11, of a reported demand.
pub fn is_demand32(value: f32) -> bool {
    value.is_finite() && value.is_sign_positive()
}

/// 3.
pub fn rate_fits(rate: f64) -> bool {
    rate.is_finite() && rate > 0.0
}

/// 4.
pub fn burst_fits(burst: u32) -> bool {
    (1..=MAX_BURST).contains(&burst)
}

/// 5, of alpha.
pub fn alpha_fits(alpha: f64) -> bool {
    alpha > 0.0 && alpha <= 1.0
}

/// 5, of the floor factor.
pub fn floor_fits(floor: f64) -> bool {
    (0.0..=1.0).contains(&floor)
}

/// 7.
pub fn cluster_fits(size: u64) -> bool {
    (1..=65_535).contains(&size)
}
