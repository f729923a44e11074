//! What the cases of one layer came to.

use std::collections::BTreeMap;
use std::fmt::{self, Debug, Display, Formatter};
use std::time::{Duration, Instant};

pub struct Tally {
    layer: &'static str,
    cases: u64,
    /// How often each outcome was expected.
    outcomes: BTreeMap<&'static str, u64>,
    differences: u64,
    smallest: Option<String>,
    began: Instant,
    time: Duration,
}

impl Tally {
    pub const HEAD: &'static str = "layer          cases  differences  seconds";

    pub fn new(layer: &'static str) -> Tally {
        Tally {
            layer,
            cases: 0,
            outcomes: BTreeMap::new(),
            differences: 0,
            smallest: None,
            began: Instant::now(),
            time: Duration::ZERO,
        }
    }

    /// Counts a case by its expected outcome.
    pub fn case(&mut self, outcome: &'static str) {
        self.cases += 1;
        self.also(outcome);
    }

    /// Counts a further outcome of the same case.
    pub fn also(&mut self, outcome: &'static str) {
        *self.outcomes.entry(outcome).or_default() += 1;
    }

    /// Holds an answer against the expected one; keeps the input that is shortest in words.
    pub fn hold<A: Debug>(&mut self, input: &dyn Debug, ours: A, expected: A, same: bool) {
        if same {
            return;
        }
        self.differences += 1;
        let words = format!("{input:?}\n  port:     {ours:?}\n  expected: {expected:?}");
        let shorter = |kept: &String| words.len() < kept.len();
        if self.smallest.as_ref().map_or(true, shorter) {
            self.smallest = Some(words);
        }
    }

    /// The same for answers that are equal or not.
    pub fn equal<A: Debug + PartialEq>(&mut self, input: &dyn Debug, ours: A, expected: A) {
        let same = ours == expected;
        self.hold(input, ours, expected, same);
    }

    pub fn done(&mut self) {
        self.time = self.began.elapsed();
    }

    /// What is wrong with the run: a difference, too few cases, or an outcome that no case had.
    pub fn fault(&self, least: u64, outcomes: &[&str]) -> Option<String> {
        let missing = outcomes.iter().find(|o| !self.outcomes.contains_key(*o));
        if let Some(smallest) = &self.smallest {
            Some(format!(
                "the smallest input with another answer:\n{smallest}"
            ))
        } else if let Some(missing) = missing {
            Some(format!("no case came to: {missing}"))
        } else if self.cases < least {
            Some(format!("only {} cases, {least} are due", self.cases))
        } else {
            None
        }
    }
}

impl Display for Tally {
    fn fmt(&self, f: &mut Formatter) -> fmt::Result {
        let outcomes: Vec<String> = self
            .outcomes
            .iter()
            .map(|(outcome, count)| format!("{outcome} {count}"))
            .collect();
        write!(
            f,
            "{:<12} {:>7}  {:>11}  {:>7.1}\n  {}",
            self.layer,
            self.cases,
            self.differences,
            self.time.as_secs_f64(),
            outcomes.join(", ")
        )
    }
}
