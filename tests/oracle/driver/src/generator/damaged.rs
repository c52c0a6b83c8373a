//! Loads of damaged images and of valid ones. Every second load is the next of a walk through all damages of four small
//! images; the others are chosen at random. Calls follow a load that is taken, so that the states compare.

use std::collections::VecDeque;

use super::Source;
use super::damage::FAMILIES;
use super::followers::followers;
use super::images::{lend_all, lend_for};
use super::records::{Counts, Record, Sizes, bytes, made, of_image};
use super::rng::Rng;
use crate::images::{hex, saved};
use crate::script::{LONGEST_LINE, Session};

/// Images up to so many bytes are damaged.
const SMALL: usize = 2_000;

/// The most bytes that a line of `loadhex` has digits for.
const LONGEST_IMAGE: usize = (LONGEST_LINE - "loadhex ".len()) / 2;

/// The walk's stride, a prime; and how far apart two seeds begin, so that each goes on from the seed before in scripts of
/// twice as many loads.
const STRIDE: u64 = 1_000_003;
const STEPS_OF_A_SEED: u64 = 50_000;

pub struct Damaged {
    session: Session,
    planned: VecDeque<String>,
    walked: Vec<Vec<Record>>,
    /// How many steps the walk has gone, and whether the next load is one.
    steps: u64,
    walks: bool,
}

impl Source for Damaged {
    fn next(&mut self, rng: &mut Rng) -> String {
        if self.planned.is_empty() {
            self.plan(rng);
        }
        let call = self.planned.pop_front().unwrap_or_default();
        let answer = self.session.answer(call.as_bytes());
        if self.counts(&call) && answer.as_deref() == Some("ok") {
            self.planned.extend(followers(&self.session.state, rng));
        }
        call
    }

    fn counts(&self, call: &str) -> bool {
        call.starts_with("loadhex")
    }
}

impl Damaged {
    pub fn new(seed: u64) -> Self {
        let rng = &mut Rng::new(0, "walk");
        let walked = [(0, 100), (1, 100), (1, 0), (2, 0)];
        let walked = walked.map(|(each, missing)| sample(Counts::each(each, missing), rng)).to_vec();
        let steps = seed.wrapping_mul(STEPS_OF_A_SEED);
        Self { session: Session::default(), planned: VecDeque::new(), walked, steps, walks: false }
    }

    /// A load, now and then into tables that are lent just long enough or not.
    fn plan(&mut self, rng: &mut Rng) {
        self.walks = !self.walks;
        let image = if self.walks { self.walk() } else { self.chosen(rng) };
        let load = format!("loadhex {}", hex(&image));
        if rng.chance(6) {
            self.planned.extend([lend_for(&image, rng), load, lend_all()]);
        } else {
            self.planned.push_back(load);
        }
    }

    /// The next damage of the walk: after as many steps as there are ways, each was taken once.
    fn walk(&mut self) -> Vec<u8> {
        let ways = || self.walked.iter().flat_map(|image| FAMILIES.iter().map(move |family| (image, family)));
        let total: u64 = ways().map(|(image, family)| (family.ways)(image)).sum();
        let mut way = self.steps % total * STRIDE % total;
        self.steps += 1;
        for (image, family) in ways() {
            let these = (family.ways)(image);
            if way < these {
                return (family.damaged)(image, way);
            }
            way -= these;
        }
        Vec::new()
    }

    fn chosen(&self, rng: &mut Rng) -> Vec<u8> {
        match rng.below(10_000) {
            0 => large(rng),
            1..30 => at_bounds(rng),
            30..4_000 => bytes(&self.small(rng)),
            4_000..5_000 => at_small_bounds(rng),
            _ => {
                let image = self.small(rng);
                let family = &FAMILIES[rng.below(FAMILIES.len() as u64) as usize];
                (family.damaged)(&image, rng.below((family.ways)(&image)))
            }
        }
    }

    /// A small valid image: that of the present state, or one made up.
    fn small(&self, rng: &mut Rng) -> Vec<Record> {
        match saved(&self.session.state) {
            Some(Ok(image)) if image.len() <= SMALL && rng.chance(40) => of_image(&image),
            _ => sample(Counts::few(rng), rng),
        }
    }
}

fn sample(counts: Counts, rng: &mut Rng) -> Vec<Record> {
    let sizes = Sizes::holding(counts, rng);
    made(counts, sizes, rng)
}

/// The largest image; with one key too many; or zeros, as many as a line may have or one more.
fn large(rng: &mut Rng) -> Vec<u8> {
    let counts = Counts::LARGEST;
    match rng.below(4) {
        0 => vec![0; LONGEST_IMAGE],
        1 => vec![0; LONGEST_IMAGE + 1],
        2 => {
            let sizes = Sizes { hot: 64, tracked: 4096, table: 4096 };
            bytes(&made(Counts { keys: 4097, ..counts }, sizes, rng))
        }
        _ => bytes(&sample(counts, rng)),
    }
}

/// As many peers, or keys of a peer, as there may be, or one more.
fn at_bounds(rng: &mut Rng) -> Vec<u8> {
    let more = rng.below(2);
    let counts = match rng.below(3) {
        0 => Counts { peers: 32 + more, ..Counts::NONE },
        1 => Counts { peers: 2, snapshot_keys: 64 + more, missing: 0, ..Counts::NONE },
        _ => Counts { peers: 1, contested: 256 + more, ..Counts::NONE },
    };
    bytes(&sample(counts, rng))
}

/// As many keys or hot keys as the sizes allow, or one more; or sizes beside the bounds of question 6.
fn at_small_bounds(rng: &mut Rng) -> Vec<u8> {
    let (counts, more) = (Counts { keys: 3, hot: 2, ..Counts::few(rng) }, rng.below(2));
    let sizes = match rng.below(3) {
        0 => Sizes { hot: 2, tracked: 3 - more, table: 3 - more },
        1 => Sizes { hot: 2 - more, tracked: 3, table: 3 },
        _ => {
            let mut beside = || {
                let bound = rng.pick(&[3, 3, 64, 4096]);
                rng.near(bound, 1)
            };
            Sizes { hot: beside(), tracked: beside(), table: beside() }
        }
    };
    bytes(&made(counts, sizes, rng))
}
