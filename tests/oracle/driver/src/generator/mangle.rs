//! Spoils a call, so that most of what comes out is no call.

use super::rng::Rng;

/// Fields that stand in for another: too large, too long, signed, missing, padded, of another kind.
const WRONG: [&str; 14] = [
    "18446744073709551616",
    "99999999999999999999",
    "000000000000000000000",
    "00000000000000000001",
    "4294967296",
    "65536",
    "-1",
    "+1",
    "none",
    "nan",
    "1.5",
    "7ff000000000000",
    "7FF0000000000000",
    "7ff00000000000000",
];

pub fn spoiled(call: &str, rng: &mut Rng) -> String {
    let mut fields: Vec<&str> = call.split(' ').collect();
    let at = rng.below(fields.len() as u64) as usize;
    match rng.below(8) {
        0 if fields.len() > 1 => {
            fields.remove(at);
        }
        1 => fields.insert(at, "0"),
        2 => fields.insert(at, ""),
        3 => fields.push(""),
        4 => fields.push("0"),
        5 => return call.to_uppercase(),
        _ => fields[at] = rng.pick(&WRONG),
    }
    fields.join(" ")
}
