//! How an answer of the model and an outcome of spline.rs are held against each other.

use cases::{bits, Code};
use oracle::Outcome;
use std::fmt::Debug;

pub use oracle::code_of;

/// What one case came to.
pub enum Verdict {
    /// Both give the same numbers.
    Same,
    /// Both refuse for the same reason.
    Refused(Code),
    /// The model gives a code for which the scope promises no equality.
    Outside(Code),
    /// spline.rs panics on a position out of 32 bits, which the model refuses.
    Panicked,
    /// spline.rs needs more memory than it is given.
    NoMemory,
    /// Both answers, in words.
    Differs(String),
}

/// Same or not, with both answers in words if not.
pub fn equal<M: Debug, O: Debug>(same: bool, mine: &M, theirs: &O) -> Verdict {
    if same {
        Verdict::Same
    } else {
        Verdict::Differs(format!(
            "  model:  {}\n  oracle: {}",
            short(mine),
            short(theirs)
        ))
    }
}

/// The model's answer against an outcome, where `same` holds two values against each other.
pub fn hold<M: Debug, O: Debug>(
    mine: &Result<M, Code>,
    theirs: &Outcome<O>,
    same: impl Fn(&M, &O) -> bool,
) -> Verdict {
    match (mine, theirs) {
        (Err(code), _) if no_equality(*code) => Verdict::Outside(*code),
        (Err(Code::Position), Outcome::Panicked(_)) => Verdict::Panicked,
        (Ok(_), Outcome::NoMemory) => Verdict::NoMemory,
        (Err(code), Outcome::Refused(why)) if *code == code_of(*why) => Verdict::Refused(*code),
        (Ok(value), Outcome::Done(other)) => equal(same(value, other), value, other),
        _ => equal(false, mine, theirs),
    }
}

/// Codes of the scope for which the Rust has no counterpart.
pub fn no_equality(code: Code) -> bool {
    use Code::*;
    matches!(
        code,
        Short
            | Trail
            | Room
            | Size
            | Shape
            | Table
            | Row
            | Span
            | Header
            | Text
            | Desk
            | Trace
            | Profile
            | Edition
            | Band
    )
}

/// The same numbers, any NaN counting as NaN.
pub fn same_floats(a: &[f32], b: &[f32]) -> bool {
    a.len() == b.len() && a.iter().zip(b).all(|(&x, &y)| bits(x) == bits(y))
}

/// Whether two NaNs differ in their bits.
pub fn other_nans(a: &[f32], b: &[f32]) -> bool {
    a.iter()
        .zip(b)
        .any(|(x, y)| x.is_nan() && y.is_nan() && x.to_bits() != y.to_bits())
}

/// A value in words, cut where it gets long.
fn short(value: &dyn Debug) -> String {
    let text = format!("{value:?}");
    match text.char_indices().nth(2000) {
        None => text,
        Some((end, _)) => format!("{} ..", &text[..end]),
    }
}
