//! Values as an answer writes them.

use nultiway::{Decision, KeyRates, Quota};

pub fn f64_text(value: f64) -> String {
    if value.is_nan() { "nan".into() } else { format!("{:016x}", value.to_bits()) }
}

pub fn f32_text(value: f32) -> String {
    if value.is_nan() { "nan".into() } else { format!("{:08x}", value.to_bits()) }
}

/// A missing value is `none`.
pub fn maybe_text<T>(value: Option<T>, text: impl FnOnce(T) -> String) -> String {
    value.map_or_else(|| "none".into(), text)
}

pub fn flag_text(value: bool) -> String {
    u8::from(value).to_string()
}

pub fn decision_text(decision: Decision) -> String {
    match decision {
        Decision::Allow => "allow".into(),
        Decision::Deny { retry_at } => format!("deny {retry_at}"),
    }
}

pub fn quota_text(quota: Quota) -> String {
    format!("{} {}", quota.interval(), quota.burst())
}

pub fn rates_text(rates: KeyRates) -> String {
    [rates.requests_per_sec, rates.denied_per_sec, rates.shadow_denied_per_sec].map(f64_text).join(" ")
}
