//! Calls of limiter and peers with saves, loads and reloads anywhere among them.

use super::Source;
use super::limiter::Limiters;
use super::peers::Peers;
use super::rng::Rng;
use crate::image;
use crate::images::{hex, saved};
use crate::lent::{limiter_words, peers_words};

/// Images up to so many bytes are written into scripts and answers; larger ones seldom.
const SMALL: usize = 2_000;

#[derive(Default)]
pub struct Images {
    limiters: Limiters,
    peers: Peers,
}

impl Source for Images {
    fn next(&mut self, rng: &mut Rng) -> String {
        let call = match rng.below(100) {
            0..10 => self.image_call(rng),
            10..30 => self.peers_call(rng),
            _ => return self.limiters.next(rng),
        };
        self.limiters.hear(&call);
        call
    }
}

impl Images {
    /// A call of the peers that leaves them beside their limiter.
    fn peers_call(&mut self, rng: &mut Rng) -> String {
        loop {
            let call = self.peers.next(rng);
            if call != "newpeers" {
                return call;
            }
        }
    }

    fn image_call(&self, rng: &mut Rng) -> String {
        let present = self.present();
        let shown = present.len() <= SMALL || rng.chance(1);
        match rng.below(100) {
            0..15 => format!("save {}", room(present.len() as u64, rng)),
            15..25 => "load".into(),
            25..33 if shown => "dump".into(),
            33 => lend_for(&self.limiters.state().kept, rng),
            34..37 => lend_all(),
            37..42 if shown => format!("loadhex {}", hex(&present)),
            42 => format!("loadhex {}", rng.pick(&["", "52", "5247", "524701", "5247000000000000000000"])),
            _ => "reload".into(),
        }
    }

    /// The image that a save would write; the kept one where it is refused.
    fn present(&self) -> Vec<u8> {
        let state = self.limiters.state();
        saved(state).and_then(Result::ok).unwrap_or_else(|| state.kept.clone())
    }
}

/// As many words as the image wants, or one less in one table.
pub fn lend_for(image: &[u8], rng: &mut Rng) -> String {
    let (table_size, hot_set_size) = image::sizes(image).unwrap_or((1, 1));
    let (keys, hot, shadows) = limiter_words(table_size, hot_set_size);
    let (peers, snapshots, contested) = peers_words();
    let mut words = [keys, hot, shadows, peers, snapshots, contested];
    if rng.chance(50) {
        let word = &mut words[rng.below(6) as usize];
        *word = word.saturating_sub(1);
    }
    lend(words)
}

pub fn lend_all() -> String {
    lend([u64::MAX; 6])
}

fn lend(words: [u64; 6]) -> String {
    words.iter().fold("lend".into(), |text, word| format!("{text} {word}"))
}

/// Room for an image of this length, for one byte less, or for every image.
fn room(length: u64, rng: &mut Rng) -> u64 {
    match rng.below(8) {
        0 => length.saturating_sub(1),
        1 => length,
        2 => rng.pick(&[0, 1, 117, 118, 1_372_565]),
        3 => u64::MAX,
        _ => 1_372_566,
    }
}
