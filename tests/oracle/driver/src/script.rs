//! A script: its lines, the state that its calls share, and the table of calls.

use std::collections::HashMap;
use std::io::{self, BufRead, Write};

use rateguard_core::hot_set::HotSet;
use rateguard_core::peer_demand::PeerDemand;

use crate::fields::Fields;
use crate::lent::Lent;
use crate::limiter::Held;
use crate::{demand, helpers, hot_set, images, lent, limiter, limiter_readers, meter, peers};

/// The longest line that can be a call.
pub const LONGEST_LINE: usize = 3 << 20;

/// What calls leave for later ones; `None` before the call that makes it. A limiter never stands without its peers.
#[derive(Default)]
pub struct State {
    pub hot_set: Option<HotSet>,
    pub limiter: Option<Held>,
    pub peers: Option<PeerDemand>,
    pub lent: Lent,
    /// The image that the last save wrote.
    pub kept: Vec<u8>,
}

/// A call reads its fields and answers; `None` says that the line is no call, and then nothing has changed.
pub type Call = fn(&mut State, &mut Fields) -> Option<String>;

/// The calls of each layer, by name.
const LAYERS: &[&[(&str, Call)]] = &[
    helpers::CALLS,
    meter::CALLS,
    demand::CALLS,
    hot_set::CALLS,
    peers::CALLS,
    lent::CALLS,
    limiter::CALLS,
    limiter_readers::CALLS,
    images::CALLS,
];

/// What a call answers on a state that nothing has made yet.
pub fn no_state() -> Option<String> {
    Some("nostate".into())
}

/// Whether a line of a script gets an answer. One that is too long does, whatever it begins with.
fn is_call(line: &[u8]) -> bool {
    !line.is_empty() && (line[0] != b'#' || line.len() > LONGEST_LINE)
}

/// The lines of a script that get an answer.
pub fn calls(script: &[u8]) -> impl Iterator<Item = &[u8]> {
    script.split(|&byte| byte == b'\n').filter(|line| is_call(line))
}

/// Answers a script line by line as it is read, and shows the image after each answer where that is wanted.
pub fn answer_all(script: &mut impl BufRead, out: &mut impl Write, with_images: bool) -> io::Result<()> {
    let mut session = Session::default();
    let mut line = Vec::new();
    while script.read_until(b'\n', &mut line)? > 0 {
        let call = line.strip_suffix(b"\n").unwrap_or(&line);
        if is_call(call) {
            let answer = session.answer(call);
            out.write_all(answer.as_deref().unwrap_or("?").as_bytes())?;
            if with_images {
                out.write_all(images::shown(&session.state).as_bytes())?;
            }
            out.write_all(b"\n")?;
        }
        line.clear();
    }
    Ok(())
}

/// The calls by name, and what those so far have left.
pub struct Session {
    table: HashMap<&'static [u8], Call>,
    pub state: State,
}

impl Default for Session {
    fn default() -> Self {
        let all = LAYERS.iter().flat_map(|layer| layer.iter());
        Self { table: all.map(|&(name, call)| (name.as_bytes(), call)).collect(), state: State::default() }
    }
}

impl Session {
    /// The answer to a line that gets one; `None` where it is no call.
    pub fn answer(&mut self, line: &[u8]) -> Option<String> {
        if line.len() > LONGEST_LINE {
            return None;
        }
        let mut fields = Fields::of(line);
        let call = self.table.get(fields.word()?)?;
        call(&mut self.state, &mut fields)
    }
}
