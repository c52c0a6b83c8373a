// The machine's own operations under C names, compiled apart from the benchmark so that both sides are called alike.
#![no_std]

#[no_mangle]
pub extern "C" fn machine_u64_to_f64(n: u64) -> f64 {
    n as f64
}

#[no_mangle]
pub extern "C" fn machine_f64_to_u64(x: f64) -> u64 {
    x as u64
}

#[no_mangle]
pub extern "C" fn machine_high_product(a: u64, b: u64) -> u64 {
    (u128::from(a) * u128::from(b) >> 64) as u64
}

// The decay weight of document 01, in 128-bit whole numbers.
#[no_mangle]
pub extern "C" fn machine_decay_weight(elapsed: u64, time_constant: u64) -> u64 {
    const S: u128 = 1 << 52;
    // the series at y = S
    const E1: u128 = 1_656_781_714_176_974;
    fn series(y: u128) -> u128 {
        let (mut term, mut sum) = (S, S);
        for k in 1..=20 {
            term = term * y / (k * S);
            sum = if k % 2 == 0 { sum + term } else { sum - term };
        }
        sum
    }
    if time_constant == 0 {
        return 0;
    }
    let (q, r) = (elapsed / time_constant, elapsed % time_constant);
    if q >= 37 {
        return 0;
    }
    let mut power = S;
    for _ in 0..q {
        power = power * E1 / S;
    }
    (series(u128::from(r) * S / u128::from(time_constant)) * power / S) as u64
}
