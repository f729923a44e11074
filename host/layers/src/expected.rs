//! What is expected of the port: spline.rs's outcome, or the second reading's code where spline.rs has none.

use cases::Code;
use compare::verdict::code_of;
use oracle::Outcome;

/// The value or the code of an outcome, beside the second reading's code. Where spline.rs panics the port refuses, and that is
/// a position that is no i32 (docs/DIFFERENCES.md): the second reading must say so.
pub fn by_rust<T>(outcome: Outcome<T>, second: Option<Code>) -> Result<T, Refused> {
    match outcome {
        Outcome::Done(value) => Ok(value),
        Outcome::Refused(why) => Err(Refused {
            code: code_of(why),
            panicked: false,
        }),
        Outcome::Panicked(_) if second == Some(Code::Position) => Err(Refused {
            code: Code::Position,
            panicked: true,
        }),
        Outcome::Panicked(message) => {
            panic!("spline.rs panics: {message}; second reading: {second:?}")
        }
        Outcome::NoMemory => panic!("spline.rs ran out of memory where nothing is stored"),
    }
}

#[derive(Clone, Copy, Debug, PartialEq)]
pub struct Refused {
    pub code: Code,
    pub panicked: bool,
}

impl Refused {
    /// Building's DELTA, which spline.rs does not have.
    pub const DELTA: Refused = Refused {
        code: Code::Delta,
        panicked: false,
    };

    pub fn outcome(self) -> &'static str {
        match self.code {
            Code::Delta => "DELTA (by the second reading)",
            Code::Position if self.panicked => "POSITION (the Rust panics)",
            Code::Position => "POSITION",
            Code::Distance => "DISTANCE",
            Code::Area => "AREA",
            Code::Coincide => "COINCIDE",
            _ => "another code",
        }
    }
}
