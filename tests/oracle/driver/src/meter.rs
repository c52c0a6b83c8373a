//! The meter: lone quotas, lone Gcras, and one step on a packed word.

use rateguard_core::gcra::{Decision, Gcra, Quota, step};
use rateguard_core::sync::{AtomicU64, Ordering};

use crate::fields::Fields;
use crate::questions::{asked, burst_fits, quota_is_valid};
use crate::script::{Call, State};
use crate::text::{decision_text, f64_text, flag_text, maybe_text, quota_text};

pub const CALLS: &[(&str, Call)] = &[
    ("l.quotanew", quota_new),
    ("l.persec", per_second),
    ("l.unpack", unpack),
    ("l.ratepersec", rate_per_sec),
    ("l.pack", pack),
    ("l.ceiling", ceiling),
    ("l.gcheck", check),
    ("l.gset", set_quota),
    ("l.gdebt", has_debt),
    ("l.gretry", retry_after),
    ("l.step", one_step),
];

/// The longest window that has a ceiling, 2^62 ns.
const LONGEST_WINDOW: u64 = 1 << 62;

fn lone_quota(fields: &mut Fields) -> Option<Quota> {
    let (interval, burst) = (fields.u64()?, fields.u32()?);
    Some(Quota { interval, burst })
}

fn lone_gcra(fields: &mut Fields) -> Option<Gcra> {
    let (quota, tat) = (lone_quota(fields)?, fields.maybe_u64()?);
    Some(Gcra { quota, tat })
}

/// A call's Gcra and reading, the last of its fields.
fn gcra_at(fields: &mut Fields) -> Option<(Gcra, u64)> {
    let (gcra, now) = (lone_gcra(fields)?, fields.u64()?);
    fields.end()?;
    Some((gcra, now))
}

fn check_text(decision: &Decision, tat: Option<u64>) -> String {
    format!("{} {}", decision_text(decision), maybe_text(tat))
}

fn quota_new(_: &mut State, fields: &mut Fields) -> Option<String> {
    let (rate, burst) = (fields.u32()?, fields.u32()?);
    fields.end()?;
    asked(&[(3, rate > 0), (4, burst_fits(burst))], || quota_text(Quota::new(rate, burst)))
}

fn per_second(_: &mut State, fields: &mut Fields) -> Option<String> {
    let (rate, burst) = (fields.f64()?, fields.u32()?);
    fields.end()?;
    asked(&[(4, burst_fits(burst))], || quota_text(Quota::per_second(rate, burst)))
}

fn unpack(_: &mut State, fields: &mut Fields) -> Option<String> {
    let word = fields.u64()?;
    fields.end()?;
    let (unit, burst) = (word >> 22 & 3, word & 0x3f_ffff);
    asked(&[(14, unit <= 2 && burst > 0)], || quota_text(Quota::unpack(word)))
}

fn rate_per_sec(_: &mut State, fields: &mut Fields) -> Option<String> {
    let quota = lone_quota(fields)?;
    fields.end()?;
    asked(&[(2, quota_is_valid(quota))], || f64_text(quota.rate_per_sec()))
}

fn pack(_: &mut State, fields: &mut Fields) -> Option<String> {
    let quota = lone_quota(fields)?;
    fields.end()?;
    asked(&[(2, quota_is_valid(quota))], || quota.pack().to_string())
}

/// Added by document 01: burst + floor(W ÷ T).
fn ceiling(_: &mut State, fields: &mut Fields) -> Option<String> {
    let (quota, window) = (lone_quota(fields)?, fields.u64()?);
    fields.end()?;
    asked(&[(2, quota_is_valid(quota)), (15, window <= LONGEST_WINDOW)], || {
        (quota.burst as u64 + window / quota.interval).to_string()
    })
}

fn check(_: &mut State, fields: &mut Fields) -> Option<String> {
    let (mut gcra, now) = gcra_at(fields)?;
    asked(&[(2, quota_is_valid(gcra.quota))], || {
        let decision = gcra.check(now);
        check_text(&decision, gcra.tat)
    })
}

fn set_quota(_: &mut State, fields: &mut Fields) -> Option<String> {
    let (mut gcra, quota, now) = (lone_gcra(fields)?, lone_quota(fields)?, fields.u64()?);
    fields.end()?;
    asked(&[(2, quota_is_valid(gcra.quota)), (2, quota_is_valid(quota))], || {
        gcra.set_quota(quota, now);
        format!("{} {}", quota_text(gcra.quota), maybe_text(gcra.tat))
    })
}

fn has_debt(_: &mut State, fields: &mut Fields) -> Option<String> {
    let (gcra, now) = gcra_at(fields)?;
    asked(&[(2, quota_is_valid(gcra.quota))], || flag_text(gcra.has_debt(now)))
}

fn retry_after(_: &mut State, fields: &mut Fields) -> Option<String> {
    let (gcra, now) = gcra_at(fields)?;
    asked(&[(2, quota_is_valid(gcra.quota))], || maybe_text(gcra.retry_after(now).map(|wait| wait.as_nanos() as u64)))
}

/// Takes every word; TAT 0 stands for none, so `none` is no call here.
fn one_step(_: &mut State, fields: &mut Fields) -> Option<String> {
    let (tat, word, now) = (fields.u64()?, fields.u64()?, fields.u64()?);
    fields.end()?;
    let tat = AtomicU64::new(tat);
    let decision = step(&tat, word, now);
    Some(check_text(&decision, Some(tat.load(Ordering::Relaxed))))
}
