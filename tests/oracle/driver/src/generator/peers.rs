//! Calls of the peers' state. A scene begins with `newpeers`; its peers report in turn, take up old rounds and epochs,
//! leave and come back, and its keys are few or many.

use super::Source;
use super::rng::Rng;

#[derive(Default)]
pub struct Peers {
    started: bool,
    scene: Scene,
    left: u64,
}

impl Source for Peers {
    fn next(&mut self, rng: &mut Rng) -> String {
        if self.left > 0 {
            self.left -= 1;
            return self.scene.next(rng);
        }
        self.left = rng.between(20, 600);
        self.scene = Scene::new(rng);
        // The very first calls find no state yet.
        if self.started {
            return "newpeers".into();
        }
        self.started = true;
        self.left = 10;
        self.scene.next(rng)
    }
}

/// What a peer said last, as far as the choice of its next words needs it.
#[derive(Clone, Default)]
struct Talker {
    id: u64,
    epoch: u32,
    past: Vec<u32>,
    round: u16,
    keys: String,
    heard_at: u64,
    held_until: u64,
}

#[derive(Default)]
struct Scene {
    talkers: Vec<Talker>,
    /// How many different keys are spoken of, and how far they lie apart.
    keys: u64,
    spread: u64,
    /// Reports list up to so many keys.
    listed: u64,
    /// Little is forgotten or expires, so that what is known grows to its bounds.
    lasting: bool,
    now: u64,
}

impl Scene {
    fn new(rng: &mut Rng) -> Self {
        // Few peers, more than are taken, or one that says much.
        let (peers, keys, listed) = match rng.below(8) {
            0 => (40, 6, 3),
            1 => (2, 500, 64),
            2 => (33, 40, 8),
            _ => (rng.between(1, 6), rng.between(1, 12), 5),
        };
        let spread = rng.pick(&[1, 1, 0x9e37_79b9_7f4a_7c15]);
        let talkers = (0..peers).map(|id| Talker::new(id.wrapping_mul(spread), rng)).collect();
        let now = rng.pick(&[0, 1_000, 1 << 62, u64::MAX - 200]);
        Self { talkers, keys, spread, listed, lasting: peers > 6 || keys > 12, now }
    }

    fn next(&mut self, rng: &mut Rng) -> String {
        self.now = self.now.saturating_add(rng.below(3));
        let turn = rng.below(100);
        match turn {
            0..50 => self.report(rng),
            88.. if self.lasting && rng.chance(90) => self.report(rng),
            50..66 => format!("get {} {}", self.talker(rng).id, self.key(rng)),
            66..74 => format!("total {}", self.key(rng)),
            74..81 => format!("elsewhere {}", self.key(rng)),
            81..82 => format!("totals {}", self.wanted_keys(rng)),
            82..83 => format!("elsewheres {}", self.wanted_keys(rng)),
            83..87 => "plen".into(),
            87..88 => "pempty".into(),
            88..93 => self.expire(rng),
            93..98 => self.leave(rng),
            _ => format!("forget {}", self.talker(rng).id),
        }
    }

    fn talker(&self, rng: &mut Rng) -> &Talker {
        &self.talkers[rng.below(self.talkers.len() as u64) as usize]
    }

    fn key(&self, rng: &mut Rng) -> u64 {
        match rng.below(60) {
            0 => u64::MAX,
            _ => rng.below(self.keys).wrapping_mul(self.spread),
        }
    }

    fn report(&mut self, rng: &mut Rng) -> String {
        let keys = self.listed_keys(rng);
        let at = rng.below(self.talkers.len() as u64) as usize;
        let now = self.now;
        let talker = &mut self.talkers[at];
        let origin = if rng.chance(3) { rng.below(4) } else { talker.id };
        let (epoch, round, keys) = talker.speak(keys, now, rng);
        format!("report {} {now} {origin} {epoch} {round} {keys}", talker.id)
    }

    /// The count and the listed keys. Now and then too many, a demand that is none, or a key listed twice.
    fn listed_keys(&self, rng: &mut Rng) -> String {
        let count = match rng.below(100) {
            0 => rng.between(65, 70),
            1 => 64,
            2 if rng.chance(10) => rng.pick(&[255, 256, 257]),
            3..20 => self.listed,
            _ => rng.between(0, self.listed),
        };
        let unfit = rng.chance(3);
        let mut text = count.to_string();
        for _ in 0..count {
            let demand = if unfit && rng.chance(40) { no_demand(rng) } else { demand(rng) };
            text += &format!(" {} {demand:08x} {}", self.key(rng), rng.below(2));
        }
        text
    }

    /// Room for answers, the count and the keys that are asked for. Now and then there is too little room, or there are too many keys.
    fn wanted_keys(&self, rng: &mut Rng) -> String {
        let count = match rng.below(50) {
            0 => rng.pick(&[255, 256, 257]),
            1 => 0,
            _ => rng.between(1, 12),
        };
        let room = match rng.below(10) {
            0 => u64::MAX,
            1 => count.saturating_sub(1),
            _ => count + rng.below(2),
        };
        let keys: String = (0..count).map(|_| format!(" {}", self.key(rng))).collect();
        format!("{room} {count}{keys}")
    }

    /// At the edge of some peer's age or hold, or with an age that drops all or nothing.
    fn expire(&mut self, rng: &mut Rng) -> String {
        let talker = self.talker(rng);
        let (age, held_until) = (self.now.saturating_sub(talker.heard_at), talker.held_until);
        let max_age = match rng.below(10) {
            0 => rng.pick(&[0, 1, u64::MAX]),
            1..=5 => age.saturating_add(rng.below(3)).saturating_sub(1),
            _ => age.saturating_add(rng.below(50)),
        };
        if rng.chance(30) && held_until > self.now && held_until < self.now.saturating_add(1000) {
            self.now = rng.near(held_until, 1);
        }
        format!("expire {} {max_age}", self.now)
    }

    fn leave(&mut self, rng: &mut Rng) -> String {
        let hold = match rng.below(5) {
            0 => 0,
            1 => u64::MAX,
            _ => rng.between(1, 60),
        };
        let at = rng.below(self.talkers.len() as u64) as usize;
        self.talkers[at].held_until = self.now.saturating_add(hold);
        format!("leave {} {} {hold}", self.talkers[at].id, self.now)
    }
}

impl Talker {
    fn new(id: u64, rng: &mut Rng) -> Self {
        let (epoch, round) = (rng.next() as u32, rng.pick(&[0, 1, 0x7fff, 0xfffe, 0xffff]));
        Self { id, epoch, round, keys: "0".into(), ..Self::default() }
    }

    /// Epoch, round and keys of the next report: in order, late, again, a long way ahead, or of another run.
    fn speak(&mut self, keys: String, now: u64, rng: &mut Rng) -> (u32, u16, String) {
        let kind = rng.below(100);
        match kind {
            0..50 => self.takes(rng.between(1, 3) as u16, keys, now),
            50..58 => return (self.epoch, self.round, keys),
            58..66 => {}
            66..78 => return (self.epoch, self.round.wrapping_sub(rng.between(1, 5) as u16), keys),
            78..82 => return (self.epoch, self.round.wrapping_add(rng.pick(&[0x8000, 0x8001])), keys),
            82..88 => self.takes(rng.pick(&[0x3fff, 0x4000, 0x4001, 0x7fff]), keys, now),
            88..94 if !self.past.is_empty() => return (rng.pick(&self.past), rng.next() as u16, keys),
            _ => {
                self.past.insert(0, self.epoch);
                self.past.truncate(6);
                self.epoch = rng.next() as u32;
                self.takes(rng.next() as u16, keys, now);
            }
        }
        (self.epoch, self.round, self.keys.clone())
    }

    /// The report that the peer's next ones follow.
    fn takes(&mut self, ahead: u16, keys: String, now: u64) {
        self.round = self.round.wrapping_add(ahead);
        self.keys = keys;
        self.heard_at = now;
    }
}

/// The bits of an f32 that is finite with a clear sign bit, often one of few.
pub fn demand(rng: &mut Rng) -> u32 {
    match rng.below(8) {
        0 => rng.pick(&[0, 1, 0x007f_ffff, 0x0080_0000, 0x7f7f_ffff]),
        1 => rng.below(0x7f80_0000) as u32,
        2 => (rng.below(10_000) as f32 / 7.0).to_bits(),
        _ => (rng.below(6) as f32).to_bits(),
    }
}

/// The bits of one that is not.
fn no_demand(rng: &mut Rng) -> u32 {
    rng.pick(&[0x8000_0000, 0x8000_0001, 0xbf80_0000, 0x7f80_0000, 0xff80_0000, 0x7fc0_0000, 0x7f80_0001, 0xffff_ffff])
}
