//! Lone quotas and meters, and one step on a packed word.

use nultiway::gcra::try_step;
use nultiway::{Gcra, Quota, Refused};

use crate::fields::Fields;
use crate::state::{Call, State, told};
use crate::text::{decision_text, f64_text, flag_text, maybe_text, quota_text};

pub const CALLS: &[(&str, Call)] = &[
    ("l.quotanew", quota_new),
    ("l.persec", per_second),
    ("l.unpack", unpack),
    ("l.ratepersec", rate_per_sec),
    ("l.pack", pack),
    ("l.ceiling", ceiling),
    ("l.gcheck", check),
    ("l.gset", set_quota),
    ("l.gdebt", has_debt),
    ("l.gretry", retry_after),
    ("l.step", step),
];

fn tat_text(tat: Option<u64>) -> String {
    maybe_text(tat, |tat| tat.to_string())
}

fn quota_new(_: &mut State, fields: &mut Fields) -> Option<String> {
    let (rate, burst) = (fields.u32()?, fields.u32()?);
    fields.end()?;
    told(Quota::try_new(rate, burst).map(quota_text))
}

fn per_second(_: &mut State, fields: &mut Fields) -> Option<String> {
    let (rate, burst) = (fields.f64()?, fields.u32()?);
    fields.end()?;
    told(Quota::try_per_second(rate, burst).map(quota_text))
}

fn unpack(_: &mut State, fields: &mut Fields) -> Option<String> {
    let word = fields.u64()?;
    fields.end()?;
    told(Quota::try_unpack(word).map(quota_text))
}

/// Interval and burst, as they are in the line.
fn parts(fields: &mut Fields) -> Option<(u64, u32)> {
    Some((fields.u64()?, fields.u32()?))
}

fn rate_per_sec(_: &mut State, fields: &mut Fields) -> Option<String> {
    let (interval, burst) = parts(fields)?;
    fields.end()?;
    told(Quota::try_from_interval(interval, burst).and_then(|quota| quota.try_rate_per_sec()).map(f64_text))
}

fn pack(_: &mut State, fields: &mut Fields) -> Option<String> {
    let (interval, burst) = parts(fields)?;
    fields.end()?;
    told(Quota::try_from_interval(interval, burst).and_then(Quota::try_pack).map(|word| word.to_string()))
}

fn ceiling(_: &mut State, fields: &mut Fields) -> Option<String> {
    let ((interval, burst), window) = (parts(fields)?, fields.u64()?);
    fields.end()?;
    let quoted = Quota::try_from_interval(interval, burst).and_then(|quota| quota.try_ceiling(window));
    told(quoted.map(|most| most.to_string()))
}

/// Makes the line's meter and calls it with the reading, the last of the fields.
fn on_meter(fields: &mut Fields, call: impl FnOnce(&mut Gcra, u64) -> Result<String, Refused>) -> Option<String> {
    let ((interval, burst), tat, now) = (parts(fields)?, fields.maybe_u64()?, fields.u64()?);
    fields.end()?;
    let made = Quota::try_from_interval(interval, burst).and_then(|quota| Gcra::try_with_tat(quota, tat));
    told(made.and_then(|mut meter| call(&mut meter, now)))
}

fn check(_: &mut State, fields: &mut Fields) -> Option<String> {
    on_meter(fields, |meter, now| {
        let decision = meter.try_check(now)?;
        Ok(format!("{} {}", decision_text(decision), tat_text(meter.tat())))
    })
}

fn set_quota(_: &mut State, fields: &mut Fields) -> Option<String> {
    let ((interval, burst), tat) = (parts(fields)?, fields.maybe_u64()?);
    let ((to_interval, to_burst), now) = (parts(fields)?, fields.u64()?);
    fields.end()?;
    let set = || {
        let mut meter = Gcra::try_with_tat(Quota::try_from_interval(interval, burst)?, tat)?;
        meter.try_set_quota(Quota::try_from_interval(to_interval, to_burst)?, now)?;
        Ok(format!("{} {}", quota_text(meter.quota()), tat_text(meter.tat())))
    };
    told(set())
}

fn has_debt(_: &mut State, fields: &mut Fields) -> Option<String> {
    on_meter(fields, |meter, now| meter.try_has_debt(now).map(flag_text))
}

fn retry_after(_: &mut State, fields: &mut Fields) -> Option<String> {
    on_meter(fields, |meter, now| Ok(maybe_text(meter.try_retry_after(now)?, |wait| wait.as_nanos().to_string())))
}

fn step(_: &mut State, fields: &mut Fields) -> Option<String> {
    let (tat, word, now) = (fields.u64()?, fields.u64()?, fields.u64()?);
    fields.end()?;
    told(try_step(tat, word, now).map(|(decision, tat)| format!("{} {tat}", decision_text(decision))))
}
