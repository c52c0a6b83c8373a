// Times the port's functions beside the machine's or the Rust's own, on the same inputs, through the same boundary.
use std::hint::black_box;
use std::time::Instant;

extern "C" {
    fn nultiway_u64_to_f64(n: u64) -> f64;
    fn nultiway_f64_to_u64(x: f64) -> u64;
    fn nultiway_high_product(a: u64, b: u64) -> u64;
    fn nultiway_decay_weight(elapsed: u64, time_constant: u64) -> u64;
    fn machine_decay_weight(elapsed: u64, time_constant: u64) -> u64;
    fn machine_u64_to_f64(n: u64) -> f64;
    fn machine_f64_to_u64(x: f64) -> u64;
    fn machine_high_product(a: u64, b: u64) -> u64;
}

const INPUTS: usize = 1 << 16;
const ROUNDS: usize = 400;

// A weight takes longer than the rest, and is timed over fewer rounds.
const WEIGHT_ROUNDS: usize = 8;

// splitmix64
fn words() -> Vec<u64> {
    let mut state = 1u64;
    (0..INPUTS)
        .map(|i| {
            state = state.wrapping_add(0x9e37_79b9_7f4a_7c15);
            let mut z = state;
            z = (z ^ (z >> 30)).wrapping_mul(0xbf58_476d_1ce4_e5b9);
            z = (z ^ (z >> 27)).wrapping_mul(0x94d0_49bb_1331_11eb);
            (z ^ (z >> 31)) >> (i % 64)
        })
        .collect()
}

// The least time of five runs, in nanoseconds a call.
fn time<A: Copy, B>(inputs: &[A], rounds: usize, call: impl Fn(A) -> B) -> f64 {
    (0..5)
        .map(|_| {
            let start = Instant::now();
            for _ in 0..rounds {
                for &a in inputs {
                    black_box(call(a));
                }
            }
            start.elapsed().as_nanos() as f64 / (inputs.len() * rounds) as f64
        })
        .fold(f64::INFINITY, f64::min)
}

fn row(name: &str, port: f64, other: f64) {
    println!("{name:<24} {port:>8.2} ns {other:>8.2} ns   ratio {:.2}", port / other);
}

// Times of a tick and time constants of up to `bits` bits, the time up to `most` time constants.
fn ages(words: &[u64], bits: u32, most: u64) -> Vec<(u64, u64)> {
    words
        .iter()
        .map(|&w| {
            let c = (w.wrapping_mul(0x9e37_79b9_7f4a_7c15) >> (64 - bits)) | 1;
            (c.saturating_mul(w % most) + w % c, c)
        })
        .collect()
}

fn weight(name: &str, inputs: &[(u64, u64)]) {
    for &(e, c) in inputs {
        assert_eq!(unsafe { nultiway_decay_weight(e, c) }, unsafe { machine_decay_weight(e, c) });
    }
    row(
        name,
        time(inputs, WEIGHT_ROUNDS, |(e, c)| unsafe { nultiway_decay_weight(e, c) }),
        time(inputs, WEIGHT_ROUNDS, |(e, c)| unsafe { machine_decay_weight(e, c) }),
    );
}

fn main() {
    let words = words();
    let floats: Vec<f64> = words.iter().map(|&w| w as f64 * 1.5).collect();
    println!("{:<24} {:>11} {:>11}", "", "port", "other");
    row(
        "u64 to f64",
        time(&words, ROUNDS, |n| unsafe { nultiway_u64_to_f64(n) }),
        time(&words, ROUNDS, |n| unsafe { machine_u64_to_f64(n) }),
    );
    row(
        "f64 to u64",
        time(&floats, ROUNDS, |x| unsafe { nultiway_f64_to_u64(x) }),
        time(&floats, ROUNDS, |x| unsafe { machine_f64_to_u64(x) }),
    );
    row(
        "high product",
        time(&words, ROUNDS, |n| unsafe { nultiway_high_product(n, !n) }),
        time(&words, ROUNDS, |n| unsafe { machine_high_product(n, !n) }),
    );
    weight("weight, c 34 bits, q 0", &ages(&words, 34, 1));
    weight("weight, c 38 bits, q < 4", &ages(&words, 38, 4));
    weight("weight, c 50 bits, q < 4", &ages(&words, 50, 4));
    weight("weight, c 62 bits, q < 4", &ages(&words, 62, 4));
    weight("weight, c 38 bits, q < 40", &ages(&words, 38, 40));
}
