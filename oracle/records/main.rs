//! Answers the cases of `crates/record_cases` by chrono's own record.
mod format;
mod stubs;
mod weekday;
pub use stubs::{naive, offset, DateTime, Datelike, OutOfRange, TimeDelta, Timelike};
pub use weekday::Weekday;

use std::io::{self, BufRead, Write};

fn main() {
    let out = io::stdout();
    let mut out = io::BufWriter::new(out.lock());
    for line in io::stdin().lock().lines() {
        let line = line.unwrap();
        let calls: Vec<(&str, i64)> = line
            .split(" ; ")
            .map(|call| match call.split(' ').collect::<Vec<_>>()[..] {
                ["S", name, value] => (name, value.parse().unwrap()),
                _ => panic!("no call: {call}"),
            })
            .collect();
        writeln!(out, "{}", format::answer(&calls)).unwrap();
    }
}
