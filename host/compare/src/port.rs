//! The proved port, through its C interface, against spline.rs where that decides and against the second reading everywhere.

pub mod bands;
pub mod build;
pub mod check;
pub mod desks;
pub mod draw;
pub mod fuzz;
pub mod great;
pub mod guarded;
pub mod lent;
pub mod limits;
pub mod ln;
pub mod mixed;
pub mod null;
pub mod pages;
pub mod polyline;
pub mod profile;
pub mod reach;
pub mod read;
pub mod tally;
pub mod trace;
pub mod trace2;
pub mod write;

use cases::{Description, Refusal, Table};
use port::{Answer, Parts};

/// The code and answer that stand for a description that was read, or for a refusal.
fn told_read(expected: &Result<Description, Refusal>) -> (u32, Answer) {
    match expected {
        Ok(description) => (
            0,
            [
                0,
                description.counts.len() as i64,
                description.deltas.len() as i64 / 2,
                description.adjustment.into(),
                0,
            ],
        ),
        Err(refusal) => told_refusal(refusal),
    }
}

/// The code and answer that stand for a list, a trace file or a text that was written, or for a refusal.
fn told_write<T>(expected: &Result<Vec<T>, Refusal>) -> (u32, Answer) {
    match expected {
        Ok(written) => (0, [0, written.len() as i64, 0, 0, 0]),
        Err(refusal) => told_refusal(refusal),
    }
}

/// What a build that is done tells.
fn told_table(table: &Table) -> (u32, Answer) {
    let counts = [
        0,
        table.segments.len() as i64,
        table.entries.len() as i64,
        table.estimate as i64,
        table.faint as i64,
    ];
    (0, counts)
}

/// The code and answer that stand for a table that was built, or for a refusal.
fn told_build(expected: &Result<Table, Refusal>) -> (u32, Answer) {
    match expected {
        Ok(table) => told_table(table),
        Err(refusal) => told_refusal(refusal),
    }
}

/// A description as the port takes it.
fn parts(description: &Description) -> Parts<'_> {
    Parts {
        counts: &description.counts,
        starts: &description.starts,
        deltas: &description.deltas,
        coefficients: &description.coefficients,
        adjustment: description.adjustment,
    }
}

fn told_refusal(refusal: &Refusal) -> (u32, Answer) {
    (refusal.code as u32, [refusal.place as i64, 0, 0, 0, 0])
}
