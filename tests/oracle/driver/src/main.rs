//! The Rust oracle: answers scripts with rateguard's own functions, makes scripts, and compares two lists of answers.
//!
//! - `oracle answer [--images]` reads a script and writes a line for each call, with the image after it where wanted
//! - `oracle gen LAYER SEED COUNT` writes a script of COUNT calls
//! - `oracle diff LAYER SCRIPT PORT RUST` compares the answers in two files

mod demand;
mod diff;
mod fields;
mod generator;
mod helpers;
mod hot_set;
mod image;
mod images;
mod lent;
mod limiter;
mod limiter_readers;
mod meter;
mod peers;
mod questions;
mod script;
mod text;

use std::io::{self, BufReader, BufWriter, Write};
use std::process::ExitCode;

fn main() -> ExitCode {
    let arguments: Vec<String> = std::env::args().skip(1).collect();
    let words: Vec<&str> = arguments.iter().map(String::as_str).collect();
    let done = match words[..] {
        ["answer"] => answer(false),
        ["answer", "--images"] => answer(true),
        ["gen", layer, seed, count] => generate(layer, seed, count),
        ["diff", layer, script, port, rust] => return diff::run(layer, script, port, rust),
        _ => Err(io::Error::other(
            "usage: oracle answer [--images] | gen LAYER SEED COUNT | diff LAYER SCRIPT PORT RUST",
        )),
    };
    match done {
        Ok(()) => ExitCode::SUCCESS,
        Err(error) => {
            eprintln!("oracle: {error}");
            ExitCode::FAILURE
        }
    }
}

fn answer(with_images: bool) -> io::Result<()> {
    let mut script = BufReader::with_capacity(1 << 20, io::stdin().lock());
    let mut out = BufWriter::with_capacity(1 << 20, io::stdout().lock());
    script::answer_all(&mut script, &mut out, with_images)?;
    out.flush()
}

fn generate(layer: &str, seed: &str, count: &str) -> io::Result<()> {
    let number = |word: &str| word.parse::<u64>().map_err(io::Error::other);
    let (seed, count) = (number(seed)?, number(count)?);
    let mut out = BufWriter::with_capacity(1 << 20, io::stdout().lock());
    generator::write(layer, seed, count, &mut out)?;
    out.flush()
}
