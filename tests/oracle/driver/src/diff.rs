//! Compares the port's answers with the Rust's, call by call.

use std::fs;
use std::io;
use std::process::ExitCode;

use crate::fields::Fields;
use crate::script::calls;

/// How many differences are shown.
const SHOWN: usize = 5;
/// The longest piece of a call or an answer that is shown.
const SHOWN_BYTES: usize = 400;

pub fn run(layer: &str, script: &str, port: &str, rust: &str) -> ExitCode {
    match compared(layer, script, port, rust) {
        Ok(true) => ExitCode::SUCCESS,
        Ok(false) => ExitCode::FAILURE,
        Err(error) => {
            eprintln!("oracle: {error}");
            ExitCode::FAILURE
        }
    }
}

fn compared(layer: &str, script: &str, port: &str, rust: &str) -> io::Result<bool> {
    let (script, port, rust) = (fs::read(script)?, fs::read(port)?, fs::read(rust)?);
    let (mut ported, mut wanted) = (lines(&port), lines(&rust));
    let (mut agreeing, mut others, mut differing) = (0, 0, 0);
    for call in calls(&script) {
        let (got, want) = (ported.next(), wanted.next());
        if got.is_none() || !alike(call, got, want) {
            differing += 1;
            if differing <= SHOWN {
                show(layer, call, got, want);
            }
        } else if want.is_some_and(|want| want.starts_with(b"?")) {
            others += 1;
        } else {
            agreeing += 1;
        }
    }
    differing += ported.count() + wanted.count();
    if differing == 0 {
        println!("{layer}: {agreeing} calls agree (and {others} lines that are no call)");
    } else {
        println!("{layer}: {differing} answers differ, {agreeing} calls agree");
    }
    Ok(differing == 0)
}

/// The answers in a file, each of which ends with a line feed.
fn lines(answers: &[u8]) -> impl Iterator<Item = &[u8]> {
    answers.split_inclusive(|&byte| byte == b'\n')
}

fn alike(call: &[u8], got: Option<&[u8]>, want: Option<&[u8]>) -> bool {
    got == want || (of_two_zeros(call) && is_zero(got) && is_zero(want))
}

/// `l.min` or `l.max` of two zeros: the Rust leaves the sign open, so it is not compared.
fn of_two_zeros(call: &[u8]) -> bool {
    let mut fields = Fields::of(call);
    let named = matches!(fields.word(), Some(b"l.min" | b"l.max"));
    named && fields.f64() == Some(0.0) && fields.f64() == Some(0.0)
}

fn is_zero(answer: Option<&[u8]>) -> bool {
    matches!(answer, Some(b"0000000000000000\n" | b"8000000000000000\n"))
}

fn show(layer: &str, call: &[u8], got: Option<&[u8]>, want: Option<&[u8]>) {
    println!("{layer}: {}", shown(Some(call)));
    println!("  port: {}", shown(got));
    println!("  rust: {}", shown(want));
}

fn shown(text: Option<&[u8]>) -> String {
    let Some(text) = text else {
        return "(nothing)".into();
    };
    let text = String::from_utf8_lossy(&text[..text.len().min(SHOWN_BYTES)]).into_owned();
    text.trim_end_matches('\n').into()
}
