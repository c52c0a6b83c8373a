//! Values as an answer writes them.

use rateguard_core::gcra::{Decision, Quota};

pub fn f64_text(value: f64) -> String {
    if value.is_nan() { "nan".into() } else { format!("{:016x}", value.to_bits()) }
}

pub fn f32_text(value: f32) -> String {
    if value.is_nan() { "nan".into() } else { format!("{:08x}", value.to_bits()) }
}

/// A missing value is `none`.
pub fn maybe_text(value: Option<u64>) -> String {
    value.map_or_else(|| "none".into(), |value| value.to_string())
}

pub fn flag_text(value: bool) -> String {
    if value { "1".into() } else { "0".into() }
}

pub fn decision_text(decision: &Decision) -> String {
    match decision {
        Decision::Allow => "allow".into(),
        Decision::Deny { retry_at } => format!("deny {retry_at}"),
    }
}

pub fn quota_text(quota: Quota) -> String {
    format!("{} {}", quota.interval, quota.burst)
}
