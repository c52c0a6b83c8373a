//! The float helpers: what the Rust's own operations on f64 answer.

use crate::fields::Fields;
use crate::script::{Call, State};
use crate::text::f64_text;

pub const CALLS: &[(&str, Call)] = &[
    ("l.u2f", u64_to_f64),
    ("l.f2u", f64_to_u64),
    ("l.ceil", ceil),
    ("l.round", round),
    ("l.min", min),
    ("l.max", max),
    ("l.totcmp", total_cmp),
];

/// The one f64 that the call has.
fn one(fields: &mut Fields) -> Option<f64> {
    let value = fields.f64()?;
    fields.end()?;
    Some(value)
}

/// The two that it has.
fn two(fields: &mut Fields) -> Option<(f64, f64)> {
    let values = (fields.f64()?, fields.f64()?);
    fields.end()?;
    Some(values)
}

fn u64_to_f64(_: &mut State, fields: &mut Fields) -> Option<String> {
    let value = fields.u64()?;
    fields.end()?;
    Some(f64_text(value as f64))
}

fn f64_to_u64(_: &mut State, fields: &mut Fields) -> Option<String> {
    Some((one(fields)? as u64).to_string())
}

fn ceil(_: &mut State, fields: &mut Fields) -> Option<String> {
    Some(f64_text(one(fields)?.ceil()))
}

fn round(_: &mut State, fields: &mut Fields) -> Option<String> {
    Some(f64_text(one(fields)?.round()))
}

fn min(_: &mut State, fields: &mut Fields) -> Option<String> {
    let (a, b) = two(fields)?;
    Some(f64_text(if both_zero(a, b) { lesser(a, b) } else { a.min(b) }))
}

fn max(_: &mut State, fields: &mut Fields) -> Option<String> {
    let (a, b) = two(fields)?;
    Some(f64_text(if both_zero(a, b) { -lesser(-a, -b) } else { a.max(b) }))
}

/// Of two zeros the Rust's `min` and `max` answer either; a recorded sample needs one, and −0 is the lesser.
fn both_zero(a: f64, b: f64) -> bool {
    a == 0.0 && b == 0.0
}

fn lesser(a: f64, b: f64) -> f64 {
    if a.is_sign_negative() { a } else { b }
}

fn total_cmp(_: &mut State, fields: &mut Fields) -> Option<String> {
    let (a, b) = two(fields)?;
    Some(format!("{:?}", a.total_cmp(&b)))
}
