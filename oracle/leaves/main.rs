//! Answers the cases of `crates/leaf_cases` by chrono's own leaf scanners.
mod format;
mod weekday;
pub use weekday::Weekday;

use std::io::{self, BufRead, Write};

/// What `weekday.rs` answers for a number of no day.
#[derive(Debug, Clone, Copy, PartialEq, Eq)]
pub struct OutOfRange(());

impl OutOfRange {
    pub(crate) const fn new() -> OutOfRange {
        OutOfRange(())
    }
}

fn unhex(s: &str) -> Vec<u8> {
    if s == "-" {
        return Vec::new();
    }
    (0..s.len()).step_by(2).map(|i| u8::from_str_radix(&s[i..i + 2], 16).unwrap()).collect()
}

fn main() {
    let out = io::stdout();
    let mut out = io::BufWriter::new(out.lock());
    for line in io::stdin().lock().lines() {
        let line = line.unwrap();
        let words: Vec<&str> = line.split(' ').collect();
        let args: Vec<usize> = words[1..5].iter().map(|w| w.parse().unwrap()).collect();
        let bytes = unhex(words[5]);
        let answer = match std::str::from_utf8(&bytes) {
            Ok(text) => format::answer(words[0], &args, text),
            Err(e) => format!("nottext {}", e.valid_up_to()),
        };
        writeln!(out, "{answer}").unwrap();
    }
}
