//! What the cases of one layer came to.

use crate::verdict::Verdict;
use cases::Code;
use std::collections::BTreeMap;
use std::fmt::{self, Debug, Display, Formatter};

/// Counts by kind of verdict, and the smallest input on which the parties differ.
pub struct Tally {
    layer: &'static str,
    cases: u64,
    refused: BTreeMap<String, u64>,
    outside: BTreeMap<String, u64>,
    listed: BTreeMap<&'static str, u64>,
    panics: u64,
    no_memory: u64,
    differences: u64,
    pub smallest: Option<String>,
}

impl Tally {
    pub const HEAD: &'static str =
        "layer          cases  refused  outside  panics  no memory  differences";

    pub fn new(layer: &'static str) -> Tally {
        Tally {
            layer,
            cases: 0,
            refused: BTreeMap::new(),
            outside: BTreeMap::new(),
            listed: BTreeMap::new(),
            panics: 0,
            no_memory: 0,
            differences: 0,
            smallest: None,
        }
    }

    /// Counts the verdict on one case.
    pub fn add(&mut self, kind: &str, seed: u64, case: &dyn Debug, verdict: Verdict) {
        self.cases += 1;
        match verdict {
            Verdict::Same => {}
            Verdict::Refused(code) => *self.refused.entry(name(code)).or_default() += 1,
            Verdict::Outside(code) => *self.outside.entry(name(code)).or_default() += 1,
            Verdict::Panicked => self.panics += 1,
            Verdict::NoMemory => self.no_memory += 1,
            Verdict::Differs(answers) => {
                self.differences += 1;
                let layer = self.layer;
                self.keep_smaller(format!(
                    "{layer}, kind {kind}, seed {seed}: {case:?}\n{answers}"
                ));
            }
        }
    }

    /// Counts something that docs/DIFFERENCES.md lists.
    pub fn listed(&mut self, what: &'static str) {
        *self.listed.entry(what).or_default() += 1;
    }

    fn keep_smaller(&mut self, difference: String) {
        let smaller = self
            .smallest
            .as_ref()
            .map_or(true, |kept| difference.len() < kept.len());
        if smaller {
            self.smallest = Some(difference);
        }
    }

    /// The codes of the scope that no case gave.
    pub fn never_given(&self) -> Vec<String> {
        let given =
            |name: &String| self.refused.contains_key(name) || self.outside.contains_key(name);
        cases::CODES
            .iter()
            .map(|&code| name(code))
            .filter(|name| !given(name))
            .collect()
    }

    /// Adds another layer's counts.
    pub fn join(&mut self, other: &Tally) {
        self.cases += other.cases;
        self.panics += other.panics;
        self.no_memory += other.no_memory;
        self.differences += other.differences;
        add_all(&mut self.refused, &other.refused);
        add_all(&mut self.outside, &other.outside);
        add_all(&mut self.listed, &other.listed);
        if let Some(difference) = &other.smallest {
            self.keep_smaller(difference.clone());
        }
    }
}

fn add_all<K: Ord + Clone>(sums: &mut BTreeMap<K, u64>, more: &BTreeMap<K, u64>) {
    for (key, count) in more {
        *sums.entry(key.clone()).or_default() += count;
    }
}

/// A code as the scope writes it.
fn name(code: Code) -> String {
    format!("{code:?}").to_uppercase()
}

impl Display for Tally {
    fn fmt(&self, f: &mut Formatter) -> fmt::Result {
        let (refused, outside) = (
            self.refused.values().sum::<u64>(),
            self.outside.values().sum::<u64>(),
        );
        write!(
            f,
            "{:<12} {:>7}  {refused:>7}  {outside:>7}",
            self.layer, self.cases
        )?;
        write!(
            f,
            "  {:>6}  {:>9}  {:>11}",
            self.panics, self.no_memory, self.differences
        )?;
        line(f, "refused", &self.refused)?;
        line(f, "outside", &self.outside)?;
        line(f, "listed", &self.listed)
    }
}

/// The counts by name, on a line of their own if there are any.
fn line<K: Display>(f: &mut Formatter, title: &str, counts: &BTreeMap<K, u64>) -> fmt::Result {
    if counts.is_empty() {
        return Ok(());
    }
    let each: Vec<String> = counts
        .iter()
        .map(|(key, count)| format!("{key} {count}"))
        .collect();
    write!(f, "\n  {title}: {}", each.join(", "))
}
