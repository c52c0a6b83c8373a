//! The calls of one scene of a limiter.

use rateguard_core::gcra::{Gcra, MAX_BURST};
use rateguard_core::limiter::{KeyState, Limiter};

use super::peers::demand as demand32;
use super::rng::Rng;
use super::values::{float, reading, whole};
use crate::lent::{limiter_words, peers_words};
use crate::limiter::Held;
use crate::script::State;

const SECOND: u64 = 1_000_000_000;
const INFINITE: u64 = 0x7ff0_0000_0000_0000;

/// How many keys a scene has: some, some hundreds, or more than a table may hold.
#[derive(PartialEq)]
pub enum Size {
    Small,
    Middle,
    Large,
}

pub struct Scene {
    size: Size,
    table_size: u64,
    hot_set_size: u64,
    max_tracked_keys: u64,
    /// How many different keys are spoken of, and how far they lie apart.
    keys: u64,
    spread: u64,
    cluster_size: u64,
    /// The bits of rates, and bursts.
    limits: Vec<(u64, u32)>,
    now: u64,
    period: u64,
    /// The round of each peer.
    rounds: [u16; 4],
    /// Whether a table was lent too short.
    short: bool,
}

impl Scene {
    pub fn new(size: Size, rng: &mut Rng) -> Self {
        let table_size = match size {
            Size::Small => rng.between(1, 10),
            Size::Middle => rng.between(20, 300),
            Size::Large => 4096,
        };
        let most_hot = rng.pick(&[3, 3, 3, 64]);
        let hot_set_size = rng.between(1, most_hot).min(table_size);
        let max_tracked_keys = if rng.chance(30) { table_size } else { rng.between(hot_set_size, table_size) };
        let period = rng.pick(&[200_000_000, SECOND, 1_000, 1]);
        Self {
            size,
            table_size,
            hot_set_size,
            max_tracked_keys,
            keys: table_size + rng.below(table_size / 4 + 4),
            spread: rng.pick(&[1, 1, 0x9e37_79b9_7f4a_7c15]),
            cluster_size: rng.pick(&[1, 1, 2, 3, 4, 19, 100, 65_535]),
            limits: (0..3).map(|_| (rate(rng), burst(rng))).collect(),
            now: rng.pick(&[0, 1_000, 1_000 * SECOND, 1 << 62, u64::MAX - 40 * period]),
            period,
            rounds: [0, 1, 0x7fff, 0xffff],
            short: false,
        }
    }

    pub fn is_small(&self) -> bool {
        self.size == Size::Small
    }

    pub fn lend_all(&mut self) -> String {
        self.short = false;
        format!("lend{}", format!(" {}", u64::MAX).repeat(6))
    }

    /// `new`; now and then a setting is one that is refused.
    pub fn new_limiter(&self, rng: &mut Rng) -> String {
        let (rate, burst) = self.limit(rng);
        let alpha = if rng.chance(3) { no_part(rng) } else { part(rng).max(1) };
        let floor = match rng.below(40) {
            0 => no_part(rng),
            1 => 1 << 63,
            2..6 => 0,
            _ => part(rng),
        };
        let cooldown = rng.pick(&[0, 1, self.period, 3 * self.period, 10 * SECOND, u64::MAX]);
        let constant = rng.pick(&[SECOND, SECOND, SECOND, self.period, 3 * self.period, 0, 1, 1 << 53, u64::MAX]);
        let mut sizes = [self.hot_set_size, self.max_tracked_keys, self.table_size];
        if rng.chance(4) {
            sizes[rng.below(3) as usize] = rng.pick(&[0, 1, 64, 65, 4096, 4097, u64::MAX]);
        }
        let [hot, tracked, table] = sizes;
        format!("new {rate:016x} {burst} {alpha:016x} {floor:016x} {cooldown} {hot} {tracked} {constant} {table}")
    }

    /// Checks of every key, so many a line.
    pub fn fill(&self, listed: u64) -> Vec<String> {
        let all: Vec<u64> = (0..self.keys).collect();
        let line = |part: &[u64]| {
            let pairs: String = part.iter().map(|&at| format!(" {} {}", self.key_at(at), self.now)).collect();
            format!("checks {} {listed} {}{pairs}", self.cluster_size, part.len())
        };
        all.chunks(listed as usize).map(line).collect()
    }

    /// What can be seen of every tracked key.
    pub fn look_around(&self, state: &State) -> Vec<String> {
        let mut calls = vec!["ntracked".into(), "nhot".into(), "hotdemand 64".into(), "mostshadow 64 64".into()];
        for key in state.limiter.iter().flat_map(|held| held.limiter.keys.keys()) {
            calls.extend(["quota", "rates", "hotsince"].map(|name| format!("{name} {key}")));
        }
        calls
    }

    pub fn next(&mut self, state: &State, rng: &mut Rng) -> String {
        if self.short && rng.chance(40) {
            return self.lend_all();
        }
        self.now = self.now.saturating_add(rng.below(self.period / 8 + 2));
        let held = state.limiter.as_ref();
        match rng.below(100) {
            0..20 => self.check(held, rng),
            20..30 => self.check_in(held, rng),
            30..42 => self.traced(held, rng),
            42..52 => self.record(held, rng),
            52..59 => self.tick("tick", rng),
            59..66 => self.tick("ticks", rng),
            66..74 => self.report(rng),
            74..76 => self.expire(rng),
            76..79 => format!("cap {}", cap(rng)),
            79..82 => self.checks(held, rng),
            82 => self.lend(rng),
            83 => self.again(rng),
            _ => self.read(rng),
        }
    }

    fn key_at(&self, at: u64) -> u64 {
        at.wrapping_mul(self.spread)
    }

    fn key(&self, rng: &mut Rng) -> u64 {
        match rng.below(300) {
            0 => u64::MAX,
            1..150 => self.key_at(rng.below(self.keys.min(4))),
            _ => self.key_at(rng.below(self.keys)),
        }
    }

    fn size(&self, rng: &mut Rng) -> u64 {
        match rng.below(60) {
            0 => rng.pick(&[0, 65_536, 1 << 32, u64::MAX]),
            1..4 => rng.pick(&[1, 2, 3, 65_534, 65_535]),
            _ => self.cluster_size,
        }
    }

    /// The bits of a rate, and a burst.
    fn limit(&self, rng: &mut Rng) -> (u64, u32) {
        let (rate, burst) = rng.pick(&self.limits);
        match rng.below(60) {
            0 => (rng.pick(&[0, 1 << 63, INFINITE, INFINITE | 1 << 63, INFINITE | 1, (-1.0f64).to_bits()]), burst),
            1 => (rate, rng.pick(&[0, MAX_BURST + 1, u32::MAX])),
            _ => (rate, burst),
        }
    }

    /// Now, back in time, or where the key's answer turns.
    fn reading(&mut self, gcra: Option<&Gcra>, rng: &mut Rng) -> u64 {
        let turn = gcra.and_then(|gcra| gcra.tat.map(|tat| (tat, earliest(gcra, tat))));
        match (rng.below(20), turn) {
            (0..4, Some((_, earliest))) => {
                let at = rng.near(earliest, 1);
                if at > self.now && at - self.now < 20 * self.period && rng.chance(50) {
                    self.now = at;
                }
                at
            }
            (4, Some((tat, _))) => rng.near(tat, 1),
            (5, _) => self.now.saturating_sub(rng.below(2 * self.period)),
            (6, _) if rng.chance(10) => reading(rng),
            _ => self.now,
        }
    }

    fn check(&mut self, held: Option<&Held>, rng: &mut Rng) -> String {
        let key = self.key(rng);
        let now = self.reading(gcra(held, key), rng);
        format!("check {key} {now} {}", self.size(rng))
    }

    /// Now and then with a rate whose threshold is the key's demand, or beside it.
    fn check_in(&mut self, held: Option<&Held>, rng: &mut Rng) -> String {
        let (key, (mut rate, burst)) = (self.key(rng), self.limit(rng));
        if let (Some(limiter), Some(state)) = (limiter(held), state(held, key))
            && rng.chance(10)
        {
            let at = state.demand.rate() * self.cluster_size as f64 / limiter.config.alpha;
            rate = rng.near(at.to_bits(), 1);
        }
        let now = self.reading(gcra(held, key), rng);
        format!("checkin {key} {rate:016x} {burst} {now} {}", self.size(rng))
    }

    /// At the edge of the key's meter or of its shadow's.
    fn traced(&mut self, held: Option<&Held>, rng: &mut Rng) -> String {
        let (key, (rate, burst)) = (self.key(rng), self.limit(rng));
        let shadow = match rng.below(10) {
            0..3 => "none".into(),
            _ => {
                let (rate, burst) = self.limit(rng);
                format!("{rate:016x} {burst}")
            }
        };
        let metered = if rng.chance(50) { gcra(held, key) } else { limiter(held).and_then(|it| it.shadows.get(&key)) };
        let now = self.reading(metered, rng);
        format!("traced {key} {rate:016x} {burst} {shadow} {now} {}", self.size(rng))
    }

    /// Small tallies, or those that fill a counter to its end or one beyond.
    fn record(&mut self, held: Option<&Held>, rng: &mut Rng) -> String {
        let (key, (rate, burst)) = (self.key(rng), self.limit(rng));
        let left = counters(state(held, key)).map(|count| u64::MAX - count);
        let tally = match rng.below(12) {
            0 => left.map(|left| rng.pick(&[0, left, left, left.wrapping_add(1)])),
            1 => left.map(|_| whole(rng)),
            2 => [0; 3],
            _ => {
                let attempts = rng.below(40);
                [attempts, rng.below(attempts + 1), rng.below(attempts + 1)]
            }
        };
        let [attempts, denials, shadow_denials] = tally;
        let (now, size) = (self.reading(None, rng), self.size(rng));
        format!("record {key} {attempts} {denials} {shadow_denials} {rate:016x} {burst} {now} {size}")
    }

    /// After a period, at the same reading, back in time, or after long.
    fn tick(&mut self, name: &str, rng: &mut Rng) -> String {
        match rng.below(20) {
            0..3 => {}
            3 => self.now = self.now.saturating_sub(rng.below(3 * self.period)),
            4 => self.now = self.now.saturating_add(rng.below(50) * SECOND),
            5 if rng.chance(5) => self.now = rng.pick(&[0, u64::MAX]),
            _ => self.now = self.now.saturating_add(self.period),
        }
        format!("{name} {} {}", self.now, self.size(rng))
    }

    fn report(&mut self, rng: &mut Rng) -> String {
        let peer = rng.below(4);
        let round = &mut self.rounds[peer as usize];
        *round = round.wrapping_add(rng.pick(&[1, 1, 1, 0, 0xffff]));
        let round = *round;
        let count = rng.below(if self.is_small() { 6 } else { 65 });
        let keys: String =
            (0..count).map(|_| format!(" {} {:08x} {}", self.key(rng), demand32(rng), rng.below(2))).collect();
        format!("report {peer} {} {peer} 1 {round} {count}{keys}", self.now)
    }

    fn expire(&self, rng: &mut Rng) -> String {
        match rng.below(3) {
            0 => format!("forget {}", rng.below(4)),
            1 => format!("leave {} {} {}", rng.below(4), self.now, rng.below(4) * self.period),
            _ => format!("expire {} {}", self.now, rng.below(8) * self.period),
        }
    }

    /// Some pairs or many; now and then there is too little room, or there are more than a line may list.
    fn checks(&mut self, held: Option<&Held>, rng: &mut Rng) -> String {
        let count = match rng.below(60) {
            0 => rng.pick(&[255, 256, 257]),
            1 => 0,
            _ => rng.between(1, 12),
        };
        let room = match rng.below(10) {
            0 => u64::MAX,
            1 => count.saturating_sub(1),
            _ => count + rng.below(2),
        };
        let mut text = format!("checks {} {room} {count}", self.size(rng));
        for _ in 0..count {
            let key = self.key(rng);
            text += &format!(" {key} {}", self.reading(gcra(held, key), rng));
        }
        text
    }

    /// As many words as question 1 wants, one less in one table, or more.
    fn lend(&mut self, rng: &mut Rng) -> String {
        let (keys, hot, shadows) = limiter_words(self.table_size, self.hot_set_size);
        let (peers, snapshots, contested) = peers_words();
        let mut words = [keys, hot, shadows, peers, snapshots, contested];
        if rng.chance(75) {
            words[rng.below(6) as usize] -= 1;
            self.short = true;
        } else {
            words[rng.below(6) as usize] += rng.below(3);
        }
        words.iter().fold("lend".into(), |text, word| format!("{text} {word}"))
    }

    /// A limiter or peers made anew within a scene, seldom; else how many keys are tracked.
    fn again(&self, rng: &mut Rng) -> String {
        match rng.below(20) {
            0 => self.new_limiter(rng),
            1 if rng.chance(20) => "newpeers".into(),
            _ => "ntracked".into(),
        }
    }

    fn read(&self, rng: &mut Rng) -> String {
        let key = self.key(rng);
        match rng.below(18) {
            0 | 1 => format!("rates {key}"),
            2 | 3 => format!("quota {key}"),
            4 => format!("limit {key}"),
            5 => {
                let (rate, burst) = self.limit(rng);
                format!("newquota {rate:016x} {burst} {}", self.size(rng))
            }
            6 => format!("newfactor {}", self.size(rng)),
            7 => "config".into(),
            8 | 9 => format!("hotdemand {}", room(self.hot_set_size, rng)),
            10 => format!("mostdenied {} {}", room(3, rng), room(self.keys, rng)),
            11 => format!("mostshadow {} {}", room(3, rng), room(self.keys, rng)),
            12 => format!("hotsince {key}"),
            13 => format!("ishot {key}"),
            14 => format!("tracked {key}"),
            15 => "nhot".into(),
            16 => format!("total {key}"),
            _ => format!("elsewhere {key}"),
        }
    }
}

fn limiter(held: Option<&Held>) -> Option<&Limiter> {
    held.map(|held| &held.limiter)
}

fn state(held: Option<&Held>, key: u64) -> Option<&KeyState> {
    limiter(held)?.keys.get(&key)
}

fn gcra(held: Option<&Held>, key: u64) -> Option<&Gcra> {
    state(held, key).map(|state| &state.gcra)
}

/// What `record` raises: attempts, denials and shadow denials.
fn counters(state: Option<&KeyState>) -> [u64; 3] {
    state.map_or([0; 3], |state| {
        [&state.requests, &state.denials, &state.shadow_denials].map(|one| one.attempts_since_tick)
    })
}

/// The first reading that is allowed: TAT − tau.
fn earliest(gcra: &Gcra, tat: u64) -> u64 {
    let tau = gcra.quota.interval.saturating_mul(gcra.quota.burst as u64 - 1).min(u64::MAX / 2);
    tat.saturating_sub(tau)
}

/// The bits of a rate that passes 3.
pub fn rate(rng: &mut Rng) -> u64 {
    match rng.below(12) {
        0 => rng.pick(&[1, 0x000f_ffff_ffff_ffff, INFINITE - 1, 1e300f64.to_bits()]),
        1 => rng.between(1, INFINITE - 1),
        2 => (rng.of_bits(12).max(1) as f64 / 3600.0).to_bits(),
        3 => (rng.of_bits(30).max(1) as f64).to_bits(),
        _ => rng.pick(&[0.5f64, 1.0, 3.0, 10.0, 100.0, 100.0, 1000.0]).to_bits(),
    }
}

pub fn burst(rng: &mut Rng) -> u32 {
    match rng.below(10) {
        0 => MAX_BURST - rng.below(2) as u32,
        1 => rng.between(1, MAX_BURST as u64) as u32,
        _ => rng.pick(&[1, 1, 2, 3, 5, 10]),
    }
}

/// The bits of a float in [0, 1].
pub fn part(rng: &mut Rng) -> u64 {
    match rng.below(8) {
        0 => rng.pick(&[1, 0x0010_0000_0000_0000, 0x3fef_ffff_ffff_ffff]),
        1 => rng.below(0x3ff0_0000_0000_0001),
        2 | 3 => 1f64.to_bits(),
        _ => (rng.between(1, 99) as f64 / 100.0).to_bits(),
    }
}

/// Those of one that is not in it, or a zero, which alpha may not be.
fn no_part(rng: &mut Rng) -> u64 {
    rng.pick(&[0, 1 << 63, (1 << 63) + 1, 0x3ff0_0000_0000_0001, INFINITE, INFINITE + 1, 0x7ff8_0000_0000_0000])
}

/// A cap of any kind, or none.
fn cap(rng: &mut Rng) -> String {
    cap_bits(rng).map_or_else(|| "none".into(), |bits| format!("{bits:016x}"))
}

pub fn cap_bits(rng: &mut Rng) -> Option<u64> {
    Some(match rng.below(8) {
        0 | 1 => return None,
        2 => float(rng),
        3 => rng.pick(&[0, 1 << 63, 1, INFINITE, INFINITE | 1 << 63, INFINITE | 1, 0x7ff8_0000_0000_0000]),
        4 => (-1.0 / rng.between(1, 9) as f64).to_bits(),
        _ => (1.0 / rng.between(1, 200) as f64).to_bits(),
    })
}

/// A number of entries about the one given.
fn room(about: u64, rng: &mut Rng) -> u64 {
    match rng.below(12) {
        0 => rng.pick(&[0, u64::MAX]),
        1 => rng.below(about + 1),
        _ => about + rng.below(2),
    }
}
