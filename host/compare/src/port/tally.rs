//! What the cases of one call of the port came to.

use cases::{Code, Refusal};
use std::collections::BTreeMap;
use std::fmt::{self, Display, Formatter};

#[derive(Default)]
pub struct Tally {
    call: &'static str,
    /// Lists or descriptions.
    pub cases: u64,
    /// Calls of the port: each case with several rooms.
    calls: u64,
    /// Calls that spline.rs decides: the same numbers, or the same refusal at the same value.
    pub by_rust: u64,
    /// Calls where how much spline.rs takes of the list tells SHORT or TRAIL.
    pub by_taken: u64,
    accepted: u64,
    refused: BTreeMap<String, u64>,
    pub round_trips: u64,
    differences: u64,
    smallest: Option<String>,
    progress: bool,
}

/// Calls from one line of progress to the next.
const CALLS_A_LINE: u64 = 500_000;

impl Tally {
    pub const HEAD: &'static str =
        "call       cases    calls  by spline.rs  by its progress  accepted  round trips  differences";

    /// With progress, how far a long run has come is said now and then.
    pub fn new(call: &'static str, progress: bool) -> Tally {
        Tally {
            call,
            progress,
            ..Tally::default()
        }
    }

    /// Counts a call by its expected answer.
    pub fn called<T>(&mut self, expected: &Result<T, Refusal>) {
        self.calls += 1;
        if self.progress && self.calls % CALLS_A_LINE == 0 {
            let Tally {
                call,
                cases,
                calls,
                differences,
                ..
            } = self;
            eprintln!("{call}: {cases} cases, {calls} calls, {differences} differences");
        }
        match expected {
            Ok(_) => self.accepted += 1,
            Err(refusal) => *self.refused.entry(name(refusal.code)).or_default() += 1,
        }
    }

    /// Counts a difference, and keeps the shortest in words.
    pub fn differs(&mut self, words: String) {
        self.differences += 1;
        self.keep(words);
    }

    fn keep(&mut self, words: String) {
        let shorter = |kept: &String| words.len() < kept.len();
        if self.smallest.as_ref().map_or(true, shorter) {
            self.smallest = Some(words);
        }
    }

    /// A tally of the same call that has counted nothing yet.
    pub fn none_yet(&self) -> Tally {
        Tally::new(self.call, self.progress)
    }

    /// Adds the counts of another call, or of other cases of this one, and keeps the shorter difference.
    pub fn join(&mut self, other: &Tally) {
        self.cases += other.cases;
        self.calls += other.calls;
        self.by_rust += other.by_rust;
        self.by_taken += other.by_taken;
        self.accepted += other.accepted;
        self.round_trips += other.round_trips;
        self.differences += other.differences;
        if let Some(words) = &other.smallest {
            self.keep(words.clone());
        }
        for (code, count) in &other.refused {
            *self.refused.entry(code.clone()).or_default() += count;
        }
    }

    pub fn smallest(&self) -> Option<&str> {
        self.smallest.as_deref()
    }
}

/// A code as the scope writes it.
fn name(code: Code) -> String {
    format!("{code:?}").to_uppercase()
}

impl Display for Tally {
    fn fmt(&self, f: &mut Formatter) -> fmt::Result {
        write!(
            f,
            "{:<9} {:>6} {:>8} {:>13} {:>16} {:>9} {:>12} {:>12}",
            self.call,
            self.cases,
            self.calls,
            self.by_rust,
            self.by_taken,
            self.accepted,
            self.round_trips,
            self.differences
        )?;
        if self.refused.is_empty() {
            return Ok(());
        }
        let refused: Vec<String> = self
            .refused
            .iter()
            .map(|(code, count)| format!("{code} {count}"))
            .collect();
        write!(f, "\n  refused: {}", refused.join(", "))
    }
}
