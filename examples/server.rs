//! A server loop over the crate `nultiway`: reads keys, one a line, and answers each with `allow`, with `deny TIME`, the
//! reading from which it would be allowed, or with `no N` where its check is refused; a line that is no number counts as
//! key 0. It ticks once a period. It saves its state on SIGUSR1, and at the end of its input or on SIGTERM or SIGINT, when it
//! ends: with status 1 where reading, writing or that save failed. Answers that nobody reads hold it up; a second SIGTERM or
//! SIGINT ends it then, without a save. It takes the state up again when it starts.
//!
//!     cargo run --manifest-path bindings/rust/Cargo.toml --example server STATE

use std::io::{self, BufRead, ErrorKind, Write};
use std::sync::atomic::{AtomicBool, Ordering};
use std::sync::mpsc::{self, Receiver, RecvTimeoutError};
use std::time::{Duration, Instant, SystemTime, UNIX_EPOCH};
use std::{env, fs, thread};

use nultiway::sizes::LAST_TICK;
use nultiway::{Config, Decision, Limit, Limiter, Nanos, PeerDemand};

const CLUSTER_SIZE: usize = 1;
const TABLE_SIZE: usize = 1024;
const BATCH: usize = 256;
const PERIOD: Duration = Duration::from_millis(200);
const SIGINT: i32 = 2;
const SIGUSR1: i32 = 10;
const SIGTERM: i32 = 15;

static SAVE_WANTED: AtomicBool = AtomicBool::new(false);
static END_WANTED: AtomicBool = AtomicBool::new(false);

extern "C" {
    fn signal(number: i32, handler: usize) -> usize;
}

/// Notes what is wanted; a second signal that is to end the server does so at once.
extern "C" fn on_signal(number: i32) {
    if number == SIGUSR1 {
        SAVE_WANTED.store(true, Ordering::Relaxed);
        return;
    }
    END_WANTED.store(true, Ordering::Relaxed);
    // SAFETY: `signal` may be called in a handler; 0 is the default action.
    unsafe { signal(number, 0) };
}

/// Readings that never go back: a monotonic clock that starts at the time of day, or at a state's last tick where that is
/// later.
struct Clock {
    start: Nanos,
    since: Instant,
}

impl Clock {
    fn of(limiter: &Limiter) -> Self {
        let today = SystemTime::now().duration_since(UNIX_EPOCH).map_or(0, |time| time.as_nanos() as Nanos);
        Self { start: today.max(limiter.words()[LAST_TICK]), since: Instant::now() }
    }

    fn now(&self) -> Nanos {
        self.start.saturating_add(self.since.elapsed().as_nanos() as Nanos)
    }
}

/// The state in the file, or a new one where there is no file: one request in ten seconds, two at once.
fn resume(path: &str) -> io::Result<(Limiter, PeerDemand)> {
    match fs::read(path) {
        Ok(image) => Limiter::try_load(&image).map_err(io::Error::other),
        Err(error) if error.kind() == ErrorKind::NotFound => Ok(new()),
        Err(error) => Err(error),
    }
}

fn new() -> (Limiter, PeerDemand) {
    let config = Config {
        limit: Limit { rate: 0.1, burst: 2 },
        alpha: 1.0,
        floor_factor: 0.5,
        cooldown: 10_000_000_000,
        hot_set_size: 64,
        max_tracked_keys: TABLE_SIZE,
        demand_time_constant: 1_000_000_000,
    };
    (Limiter::with_table_size(config, TABLE_SIZE), PeerDemand::new())
}

/// Writes the image beside the file and renames it, so that the file is always a whole image. The tick before it is for the
/// image to have the latest reading, from which a resumed clock goes on.
fn save(path: &str, limiter: &mut Limiter, peers: &PeerDemand, time: Nanos) -> io::Result<()> {
    limiter.tick_with_shares(time, CLUSTER_SIZE, peers);
    let beside = format!("{path}.new");
    fs::write(&beside, limiter.save(peers))?;
    fs::rename(&beside, path)
}

/// Answers the keys that are there, in one call.
fn answer(limiter: &mut Limiter, keys: &[u64], time: Nanos) -> io::Result<()> {
    let checks: Vec<(u64, Nanos)> = keys.iter().map(|&key| (key, time)).collect();
    let mut out = io::stdout().lock();
    for decision in limiter.try_check_each(&checks, CLUSTER_SIZE).expect("the state is valid") {
        match decision {
            Ok(Decision::Allow) => writeln!(out, "allow")?,
            Ok(Decision::Deny { retry_at }) => writeln!(out, "deny {retry_at}")?,
            Err(refused) => writeln!(out, "no {}", refused.number())?,
        }
    }
    out.flush()
}

/// The key of a line.
fn key_of(line: Vec<u8>) -> u64 {
    String::from_utf8(line).ok().and_then(|text| text.parse().ok()).unwrap_or(0)
}

/// The keys of standard input, as they come, a batch ahead at most.
fn keys() -> Receiver<io::Result<u64>> {
    let (sender, receiver) = mpsc::sync_channel(BATCH);
    thread::spawn(move || {
        let lines = io::stdin().lock().split(b'\n');
        lines.map(|line| line.map(key_of)).try_for_each(|key| sender.send(key))
    });
    receiver
}

/// Answers key after key and ticks, until the input ends or a signal comes.
fn serve(path: &str, limiter: &mut Limiter, peers: &PeerDemand, clock: &Clock) -> io::Result<()> {
    let (keys, mut ticked) = (keys(), clock.now());
    while !END_WANTED.load(Ordering::Relaxed) {
        let first = keys.recv_timeout(PERIOD.saturating_sub(Duration::from_nanos(clock.now() - ticked)));
        if SAVE_WANTED.swap(false, Ordering::Relaxed) {
            save(path, limiter, peers, clock.now()).unwrap_or_else(|error| eprintln!("{path}: {error}"));
        }
        if clock.now() - ticked >= PERIOD.as_nanos() as Nanos {
            ticked = clock.now();
            limiter.tick_with_shares(ticked, CLUSTER_SIZE, peers);
        }
        match first {
            Ok(key) => {
                let batch: io::Result<Vec<u64>> = [key].into_iter().chain(keys.try_iter().take(BATCH - 1)).collect();
                answer(limiter, &batch?, clock.now())?;
            }
            Err(RecvTimeoutError::Timeout) => {}
            Err(RecvTimeoutError::Disconnected) => return Ok(()),
        }
    }
    Ok(())
}

fn main() -> io::Result<()> {
    let path = env::args().nth(1).expect("usage: server STATE");
    let (mut limiter, peers) = resume(&path)?;
    let clock = Clock::of(&limiter);
    for number in [SIGUSR1, SIGTERM, SIGINT] {
        // SAFETY: the handler stores to an atomic and calls `signal`, as a handler may.
        unsafe { signal(number, on_signal as extern "C" fn(i32) as usize) };
    }
    let served = serve(&path, &mut limiter, &peers, &clock);
    save(&path, &mut limiter, &peers, clock.now()).and(served)
}
