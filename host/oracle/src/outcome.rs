//! What a call of the original comes to; its panics are caught here.

use crate::error::Error;
use crate::stubs::memory::{self, OutOfMemory};
use cases::Code;
use std::any::Any;
use std::cell::Cell;
use std::panic::{self, AssertUnwindSafe};
use std::sync::Once;

/// What a call of the original came to.
#[derive(Clone, Debug, PartialEq)]
pub enum Outcome<T> {
    Done(T),
    Refused(Why),
    /// The original panicked; its message.
    Panicked(String),
    /// It asked for more memory than the judge allows (see [`crate::set_memory`]), or passed a call's own cap.
    NoMemory,
}

/// spline.rs's errors by their names there.
#[derive(Clone, Copy, Debug, PartialEq, Eq)]
pub enum Why {
    SplinesTooMany,
    SplinesCoordinatesLimit,
    SplinesTooManyControlPoints,
    SplinesDeltaLimit,
    SplinesPointOutOfRange,
    SplinesDistanceTooLarge,
    SplinesAreaTooLarge,
    SplineAdjacentCoincidingControlPoints,
}

/// The code of the scope that an error of spline.rs stands for.
pub fn code_of(why: Why) -> Code {
    match why {
        Why::SplinesTooMany => Code::Splines,
        Why::SplinesCoordinatesLimit => Code::Coord,
        Why::SplinesTooManyControlPoints => Code::Points,
        Why::SplinesDeltaLimit => Code::Delta,
        Why::SplinesPointOutOfRange => Code::Position,
        Why::SplinesDistanceTooLarge => Code::Distance,
        Why::SplinesAreaTooLarge => Code::Area,
        Why::SplineAdjacentCoincidingControlPoints => Code::Coincide,
    }
}

impl<T> Outcome<T> {
    pub fn map<U>(self, f: impl FnOnce(T) -> U) -> Outcome<U> {
        match self {
            Outcome::Done(value) => Outcome::Done(f(value)),
            Outcome::Refused(why) => Outcome::Refused(why),
            Outcome::Panicked(message) => Outcome::Panicked(message),
            Outcome::NoMemory => Outcome::NoMemory,
        }
    }

    /// The value, if there is one.
    pub fn done(self) -> Option<T> {
        match self {
            Outcome::Done(value) => Some(value),
            _ => None,
        }
    }
}

thread_local! {
    /// Whether this thread is inside a call of the original: its panics then print nothing.
    static JUDGING: Cell<bool> = const { Cell::new(false) };
}

/// Keeps the panic messages of judged calls off the terminal, and leaves all others as they were.
fn silence_judged_panics() {
    static ONCE: Once = Once::new();
    ONCE.call_once(|| {
        let usual = panic::take_hook();
        panic::set_hook(Box::new(move |info| {
            if !JUDGING.with(Cell::get) {
                usual(info)
            }
        }));
    });
}

/// Runs a call of the original with the memory that [`crate::set_memory`] allows and names what it comes to.
pub(crate) fn judge<T>(call: impl FnOnce() -> Result<T, Error>) -> Outcome<T> {
    judge_within(memory::allowed(), call)
}

/// The same with a budget of its own, in bytes.
pub(crate) fn judge_within<T>(bytes: u64, call: impl FnOnce() -> Result<T, Error>) -> Outcome<T> {
    silence_judged_panics();
    memory::refill(bytes);
    JUDGING.with(|judging| judging.set(true));
    let result = panic::catch_unwind(AssertUnwindSafe(call));
    JUDGING.with(|judging| judging.set(false));
    match result {
        Ok(Ok(value)) => Outcome::Done(value),
        Ok(Err(error)) => error.why().map_or(Outcome::NoMemory, Outcome::Refused),
        Err(payload) if payload.is::<OutOfMemory>() => Outcome::NoMemory,
        Err(payload) => Outcome::Panicked(message(&*payload)),
    }
}

/// The text of a panic.
fn message(payload: &(dyn Any + Send)) -> String {
    if let Some(text) = payload.downcast_ref::<&str>() {
        text.to_string()
    } else if let Some(text) = payload.downcast_ref::<String>() {
        text.clone()
    } else {
        String::from("a panic without a message")
    }
}
