//! An image as a list of records, and valid ones made up of all kinds of values.

use std::collections::BTreeSet;

use rateguard_core::gcra::{MAX_INTERVAL, Quota};

use super::limiter_calls::{burst, cap_bits, part, rate};
use super::peers::demand as demand32;
use super::rng::Rng;
use super::values::{demand, whole};
use crate::image::{CONTESTED, END, HOT, KEY, PEER, SETTINGS, SHADOW, SNAPSHOT_KEY, WORDS, put};

#[derive(Clone)]
pub struct Record {
    pub kind: u8,
    pub words: Vec<u64>,
}

pub fn bytes(records: &[Record]) -> Vec<u8> {
    let mut bytes = Vec::new();
    for record in records {
        put(&mut bytes, record.kind, &record.words);
    }
    bytes
}

/// The records of a valid image, its end among them.
pub fn of_image(mut bytes: &[u8]) -> Vec<Record> {
    let mut records = Vec::new();
    while let Some(&kind) = bytes.get(2) {
        let (record, rest) = bytes.split_at(3 + 8 * WORDS[kind as usize]);
        let words = record[3..].as_chunks().0.iter().map(|&word| u64::from_le_bytes(word)).collect();
        records.push(Record { kind, words });
        bytes = rest;
    }
    records
}

/// Sets the end's count to the records before it.
pub fn count(records: &mut [Record]) {
    let before = records.len() as u64 - 1;
    if let Some(end) = records.last_mut() {
        end.words = vec![before];
    }
}

/// How many records there are of each kind; snapshot keys and contested keys are counted for each peer. Of the parts that may
/// be missing so many in a hundred are.
#[derive(Clone, Copy)]
pub struct Counts {
    pub keys: u64,
    pub hot: u64,
    pub shadows: u64,
    pub peers: u64,
    pub snapshot_keys: u64,
    pub contested: u64,
    pub missing: u64,
}

impl Counts {
    pub const NONE: Self = Self { keys: 0, hot: 0, shadows: 0, peers: 0, snapshot_keys: 0, contested: 0, missing: 30 };
    pub const LARGEST: Self =
        Self { keys: 4096, hot: 64, shadows: 4096, peers: 32, snapshot_keys: 64, contested: 256, missing: 0 };

    pub fn each(count: u64, missing: u64) -> Self {
        Self { keys: count, hot: count, shadows: count, peers: count, snapshot_keys: 1, contested: 1, missing }
    }

    pub fn few(rng: &mut Rng) -> Self {
        Self {
            keys: rng.below(4),
            hot: rng.below(3),
            shadows: rng.below(3),
            peers: rng.below(3),
            snapshot_keys: rng.below(3),
            contested: rng.below(3),
            missing: rng.pick(&[0, 30, 30, 100]),
        }
    }
}

/// The sizes in an image's settings.
#[derive(Clone, Copy)]
pub struct Sizes {
    pub hot: u64,
    pub tracked: u64,
    pub table: u64,
}

impl Sizes {
    /// Sizes that hold so many records, just so or with places to spare.
    pub fn holding(counts: Counts, rng: &mut Rng) -> Self {
        let hot = if rng.chance(50) { counts.hot } else { rng.between(counts.hot, 64) }.max(1);
        let table = counts.keys.max(hot);
        let table = if rng.chance(50) { table } else { rng.between(table, 4096) };
        Self { hot, tracked: rng.between(hot, table), table }
    }
}

/// An image with these sizes and so many records. It is valid where the counts keep their bounds.
pub fn made(counts: Counts, sizes: Sizes, rng: &mut Rng) -> Vec<Record> {
    let mut all = vec![record(SETTINGS, settings(sizes, counts.missing, rng))];
    let keys = ids(counts.keys, rng);
    all.extend(keys.iter().map(|&key| record(KEY, key_words(key, counts.missing, rng))));
    for key in some(&keys, counts.hot, rng) {
        all.push(record(HOT, hot_words(key, counts.missing, rng)));
    }
    for key in some(&keys, counts.shadows, rng) {
        let [flag, tat] = maybe(counts.missing, rng);
        all.push(record(SHADOW, vec![key, packed(rng), flag, tat]));
    }
    add_peers(&mut all, counts, rng);
    all.push(record(END, vec![0]));
    count(&mut all);
    all
}

fn add_peers(all: &mut Vec<Record>, counts: Counts, rng: &mut Rng) {
    let peers = ids(counts.peers, rng);
    let records: Vec<Record> = peers.iter().map(|&peer| record(PEER, peer_words(peer, counts.missing, rng))).collect();
    all.extend(records.iter().cloned());
    for peer in records.iter().filter(|peer| peer.words[3] == 1) {
        for key in ids(counts.snapshot_keys, rng) {
            all.push(record(SNAPSHOT_KEY, vec![peer.words[0], key, demand32(rng) as u64, rng.below(2)]));
        }
    }
    for peer in peers {
        for key in ids(counts.contested, rng) {
            let (demand, primary, round) = (demand32(rng) as u64, rng.below(2), rng.below(0x1_0000));
            all.push(record(CONTESTED, vec![peer, key, demand, primary, round, whole(rng)]));
        }
    }
}

fn record(kind: u8, words: Vec<u64>) -> Record {
    Record { kind, words }
}

/// So many different ids, ascending.
fn ids(count: u64, rng: &mut Rng) -> Vec<u64> {
    let mut ids = BTreeSet::new();
    while (ids.len() as u64) < count {
        ids.insert(if rng.chance(70) { rng.below(2 * count + 4) } else { whole(rng) });
    }
    ids.into_iter().collect()
}

/// At most so many of these, in their order.
fn some(ids: &[u64], count: u64, rng: &mut Rng) -> Vec<u64> {
    let mut left = ids.to_vec();
    while left.len() as u64 > count {
        left.remove(rng.below(left.len() as u64) as usize);
    }
    left
}

/// Flag and value.
fn maybe(missing: u64, rng: &mut Rng) -> [u64; 2] {
    if rng.chance(missing) { [0, 0] } else { [1, whole(rng)] }
}

fn settings(sizes: Sizes, missing: u64, rng: &mut Rng) -> Vec<u64> {
    let (limit, alpha, floor) = ([rate(rng), burst(rng) as u64], part(rng).max(1), part(rng));
    let floor = rng.pick(&[0, 1 << 63, floor, floor]);
    let cap = cap_bits(rng).filter(|&bits| !f64::from_bits(bits).is_nan()).unwrap_or(0);
    let cap = if rng.chance(missing) { [0, 0] } else { [1, cap] };
    let (cooldown, constant) = (whole(rng), whole(rng));
    let constant = rng.pick(&[0, 1_000_000_000, constant]);
    let last_tick = maybe(missing, rng);
    let sizes = [sizes.hot, sizes.tracked, constant, sizes.table];
    [&limit[..], &[alpha, floor, cooldown], &sizes, &cap, &last_tick].concat()
}

/// A word that packs some quota, often at the edges of a unit.
pub fn packed(rng: &mut Rng) -> u64 {
    let interval = match rng.below(6) {
        0 => rng.pick(&[1, 2, 1_000, MAX_INTERVAL, MAX_INTERVAL - 1]),
        1 => rng.near(1 << 40, 2_000),
        2 => rng.near(1_000 << 40, 2_000_000),
        3 => rng.between(1, MAX_INTERVAL),
        _ => rng.of_bits(59).max(1),
    };
    Quota { interval, burst: burst(rng) }.pack()
}

fn key_words(key: u64, missing: u64, rng: &mut Rng) -> Vec<u64> {
    let mut words = vec![key, rate(rng), burst(rng) as u64];
    for _ in 0..4 {
        words.extend([demand(rng), whole(rng), whole(rng), whole(rng)]);
    }
    words.push(packed(rng));
    words.extend(maybe(missing, rng));
    words
}

fn hot_words(key: u64, missing: u64, rng: &mut Rng) -> Vec<u64> {
    let [cooling, since] = maybe(missing, rng);
    vec![key, demand(rng), rng.below(2), cooling, since, whole(rng)]
}

fn peer_words(id: u64, missing: u64, rng: &mut Rng) -> Vec<u64> {
    let [held, until] = maybe(missing, rng);
    let mut words = vec![id, held, until];
    if rng.chance(missing) {
        words.resize(WORDS[PEER as usize], 0);
        return words;
    }
    let past = rng.below(5);
    words.extend([1, rng.next() >> 32, rng.below(0x1_0000), whole(rng), past]);
    words.extend((0..past).map(|_| rng.of_bits(32)));
    words.resize(WORDS[PEER as usize], 0);
    words
}
