//! Scripts made from a seed: the same layer, seed and count give the same script.

mod damage;
mod damaged;
mod demand;
mod followers;
mod helpers;
mod hot_set;
mod images;
mod limiter;
mod limiter_calls;
mod mangle;
mod meter;
mod peers;
mod records;
mod rng;
mod values;

use std::io::{self, Write};

use rng::Rng;

/// Makes the calls of one layer, one after the other.
trait Source {
    fn next(&mut self, rng: &mut Rng) -> String;

    /// Whether the script's count of calls is of calls like this one.
    fn counts(&self, _call: &str) -> bool {
        true
    }
}

fn source(layer: &str, seed: u64) -> Option<Box<dyn Source>> {
    Some(match layer {
        "helpers" => Box::new(helpers::Helpers),
        "meter" => Box::<meter::Meter>::default(),
        "demand" => Box::new(demand::Estimators),
        "hotset" => Box::<hot_set::HotSets>::default(),
        "peers" => Box::<peers::Peers>::default(),
        "limiter" => Box::<limiter::Limiters>::default(),
        "images" => Box::<images::Images>::default(),
        "damaged" => Box::new(damaged::Damaged::new(seed)),
        _ => return None,
    })
}

/// Writes `count` calls. Here and there an empty line, a comment, or a spoiled copy of the call goes before one.
pub fn write(layer: &str, seed: u64, count: u64, out: &mut impl Write) -> io::Result<()> {
    let mut source = source(layer, seed).ok_or_else(|| io::Error::other("no such layer"))?;
    let mut rng = Rng::new(seed, layer);
    writeln!(out, "# {layer}, seed {seed}: {count} calls")?;
    let mut left = count;
    while left > 0 {
        match rng.below(500) {
            0 => writeln!(out)?,
            1 => writeln!(out, "# passed over")?,
            _ => {}
        }
        let call = source.next(&mut rng);
        left -= source.counts(&call) as u64;
        if rng.chance(2) {
            writeln!(out, "{}", mangle::spoiled(&call, &mut rng))?;
        }
        writeln!(out, "{call}")?;
    }
    Ok(())
}
