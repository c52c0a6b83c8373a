//! The decay weight as document 01 defines it, in whole numbers.

const S: u64 = 1 << 52;
const TERMS: u64 = 20;
/// From this many time constants on nothing is kept.
const NOTHING_KEPT: usize = 37;
/// E(0) to E(36).
const WHOLE: [u64; NOTHING_KEPT] = whole();

/// floor(a × b ÷ S).
const fn scaled(a: u64, b: u64) -> u64 {
    (a as u128 * b as u128 / S as u128) as u64
}

/// P: the sum of T0 to T20 at y, the signs in turn.
const fn series(y: u64) -> u64 {
    let mut term = S;
    let mut sum = S as i64;
    let mut k = 1;
    while k <= TERMS {
        // Dividing by S and then by k gives the floor of dividing by k × S.
        term = scaled(term, y) / k;
        sum += if k % 2 == 0 { term as i64 } else { -(term as i64) };
        k += 1;
    }
    sum as u64
}

/// E(0) = S, and each next is scaled by E1, which is P at y = S.
const fn whole() -> [u64; NOTHING_KEPT] {
    let mut table = [S; NOTHING_KEPT];
    let mut q = 1;
    while q < NOTHING_KEPT {
        table[q] = scaled(table[q - 1], series(S));
        q += 1;
    }
    table
}

/// D: what is kept of S after `elapsed` at this time constant.
pub fn kept(elapsed: u64, time_constant: u64) -> u64 {
    if time_constant == 0 || elapsed / time_constant >= NOTHING_KEPT as u64 {
        return 0;
    }
    let (q, r) = (elapsed / time_constant, elapsed % time_constant);
    let y = (r as u128 * S as u128 / time_constant as u128) as u64;
    scaled(series(y), WHOLE[q as usize])
}

/// (S − D) ÷ S: the weight of what is new.
pub fn alpha(elapsed: u64, time_constant: u64) -> f64 {
    (S - kept(elapsed, time_constant)) as f64 / S as f64
}
