//! Answers scripts of calls, as the program `replay` does, through the Rust binding. It knows all calls but the float
//! helpers' (`l.u2f` to `l.totcmp`), of which the library has not all. With the argument `--images` each answer is
//! followed by length and hash of the image that a save would write then.

mod demand;
#[path = "../../../oracle/driver/src/fields.rs"]
mod fields;
mod hot_set;
mod images;
mod limiter;
mod limiter_readers;
mod meter;
mod peers;
mod state;
mod text;

use std::collections::HashMap;
use std::io::{self, BufRead, BufReader, BufWriter, Write};

use fields::Fields;
use state::{Call, State};

/// The longest line that can be a call.
const LONGEST_LINE: usize = 3 << 20;

const LAYERS: &[&[(&str, Call)]] = &[
    state::CALLS,
    meter::CALLS,
    demand::CALLS,
    hot_set::CALLS,
    peers::CALLS,
    limiter::CALLS,
    limiter_readers::CALLS,
    images::CALLS,
];

fn answer(table: &HashMap<&[u8], Call>, state: &mut State, line: &[u8]) -> Option<String> {
    if line.len() > LONGEST_LINE {
        return None;
    }
    let mut fields = Fields::of(line);
    let call = table.get(fields.word()?)?;
    call(state, &mut fields)
}

fn main() -> io::Result<()> {
    let shows_images = std::env::args().nth(1).as_deref() == Some("--images");
    let table: HashMap<&[u8], Call> =
        LAYERS.iter().flat_map(|layer| layer.iter()).map(|&(name, call)| (name.as_bytes(), call)).collect();
    let mut script = BufReader::with_capacity(1 << 20, io::stdin().lock());
    let mut out = BufWriter::with_capacity(1 << 20, io::stdout().lock());
    let (mut state, mut line) = (State::default(), Vec::new());
    while script.read_until(b'\n', &mut line)? > 0 {
        let call = line.strip_suffix(b"\n").unwrap_or(&line);
        if !call.is_empty() && call[0] != b'#' {
            let answered = answer(&table, &mut state, call);
            out.write_all(answered.as_deref().unwrap_or("?").as_bytes())?;
            if shows_images {
                out.write_all(images::shown(&state).as_bytes())?;
            }
            out.write_all(b"\n")?;
        }
        line.clear();
    }
    out.flush()
}
