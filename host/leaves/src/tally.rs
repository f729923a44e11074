//! What one comparison came to.

use std::fmt::{Debug, Display, Formatter, Result};
use std::time::{Duration, Instant};

pub struct Tally {
    name: &'static str,
    cases: u64,
    pub differences: u64,
    first: Option<String>,
    pub note: String,
    time: Duration,
}

impl Tally {
    pub const HEAD: &'static str = "leaf                  cases  differences  seconds";

    /// Compares the two answers to every question.
    pub fn of<Q: Copy + Debug, A: PartialEq + Debug>(
        name: &'static str,
        questions: impl Iterator<Item = Q>,
        ours: impl Fn(Q) -> A,
        theirs: impl Fn(Q) -> A,
    ) -> Tally {
        let started = Instant::now();
        let (mut cases, mut differences, mut first) = (0, 0, None);
        for question in questions {
            cases += 1;
            let (mine, other) = (ours(question), theirs(question));
            if mine != other {
                differences += 1;
                first.get_or_insert_with(|| {
                    format!("{question:x?}: ours {mine:?}, Rust's {other:?}")
                });
            }
        }
        let time = started.elapsed();
        let note = String::new();
        Tally {
            name,
            cases,
            differences,
            first,
            note,
            time,
        }
    }
}

impl Display for Tally {
    fn fmt(&self, out: &mut Formatter) -> Result {
        let seconds = self.time.as_secs_f64();
        let Tally {
            name,
            cases,
            differences,
            note,
            ..
        } = self;
        write!(
            out,
            "{name:<14} {cases:>12} {differences:>12} {seconds:>8.1}"
        )?;
        if !note.is_empty() {
            write!(out, "  {note}")?;
        }
        match &self.first {
            Some(first) => write!(out, "\n  first at {first}"),
            None => Ok(()),
        }
    }
}
