//! Codes and refusals.

use std::fmt;

// The judge has an enum of its own in host/cases, so that this crate needs nothing of it and it nothing of this crate: a test holds both together.

/// Why a call was refused.
#[derive(Clone, Copy, Debug, PartialEq, Eq, Hash)]
#[repr(u32)]
pub enum Code {
    /// The list or trace file ends before the next value.
    Short = 1,
    /// More splines than the limit; writing also: none.
    Splines = 2,
    /// A start that is too far out; writing also: not whole, minus zero, NaN, or, in a list, a negative first start.
    Coord = 3,
    /// More points than the limit.
    Points = 4,
    /// A double delta of magnitude 2^30 or more.
    Delta = 5,
    /// Values or bytes are left over.
    Trail = 6,
    /// It needs more memory than it may take, or than there is.
    Room = 7,
    /// A width or height above 2^23.
    Size = 8,
    /// Lengths that disagree.
    Shape = 9,
    /// A start, delta or point outside -2^23 up to but not including 2^23.
    Position = 10,
    /// A spline whose steps add up to more than the area limit.
    Distance = 11,
    /// Splines whose estimates add up to more than the area limit.
    Area = 12,
    /// Two adjacent control points are equal.
    Coincide = 13,
    /// A table that no build makes.
    Table = 14,
    /// A row that is not below the height.
    Row = 15,
    /// Pixels past 2^23, or channels of different lengths.
    Span = 16,
    /// A trace file of another version or with an offset that is not its part's; writing: a count or offset of 2^32 or more.
    Header = 17,
    /// A byte that no text of points could have there, or a text that stops early.
    Text = 18,
    /// A desk other than 0 and 1.
    Desk = 19,
    /// Fewer shared bytes than the description had splines, or a bit of a spline without a byte.
    Trace = 20,
    /// A rule of the fineness profile is broken.
    Profile = 21,
    /// An edition other than 1 and 2, or edition 2 in a trace file of version 1.
    Edition = 22,
    Band = 23,
}

/// Each code with its name and what it says, in the order of their numbers.
const CODES: [(Code, &str, &str); 23] = [
    (Code::Short, "SHORT", "it ends before the next value"),
    (
        Code::Splines,
        "SPLINES",
        "no splines, or more than the limit",
    ),
    (
        Code::Coord,
        "COORD",
        "a start that no list, or no trace file, can hold",
    ),
    (Code::Points, "POINTS", "more points than the limit"),
    (
        Code::Delta,
        "DELTA",
        "a double delta of magnitude 2^30 or more",
    ),
    (Code::Trail, "TRAIL", "values or bytes are left over"),
    (
        Code::Room,
        "ROOM",
        "it needs more memory than it may take, or than there is",
    ),
    (Code::Size, "SIZE", "a width or height above 2^23"),
    (Code::Shape, "SHAPE", "lengths that disagree"),
    (
        Code::Position,
        "POSITION",
        "a point outside -2^23 up to 2^23",
    ),
    (
        Code::Distance,
        "DISTANCE",
        "a spline longer than the area limit",
    ),
    (Code::Area, "AREA", "splines of more than the area limit"),
    (
        Code::Coincide,
        "COINCIDE",
        "two adjacent control points are equal",
    ),
    (Code::Table, "TABLE", "a table that no build makes"),
    (Code::Row, "ROW", "a row that is not below the height"),
    (
        Code::Span,
        "SPAN",
        "pixels past 2^23, or channels of different lengths",
    ),
    (
        Code::Header,
        "HEADER",
        "a version or offset that a trace file cannot have there",
    ),
    (
        Code::Text,
        "TEXT",
        "a byte that no text of points could have there",
    ),
    (Code::Desk, "DESK", "a desk other than 0 and 1"),
    (Code::Trace, "TRACE", "fewer shared bytes than splines"),
    (
        Code::Profile,
        "PROFILE",
        "a rule of the fineness profile is broken",
    ),
    (
        Code::Edition,
        "EDITION",
        "an edition other than 1 and 2, or one that the version cannot hold",
    ),
    (Code::Band, "BAND", "a band past the last"),
];

impl Code {
    /// The code of a number from 1 through 23.
    fn of(number: u32) -> Option<Code> {
        CODES
            .get((number as usize).checked_sub(1)?)
            .map(|&(code, _, _)| code)
    }

    pub fn number(self) -> u32 {
        self as u32
    }

    /// Its name, as `SHORT`.
    pub fn name(self) -> &'static str {
        CODES[self as usize - 1].1
    }
}

/// A refusal: what, and where.
///
/// The place is an index of the list for reading and writing, a byte of the file or text for trace files and for reading points, the number of a
/// spline for building and for writing points, and 0 for drawing and reach.
#[derive(Clone, Copy, Debug, PartialEq, Eq, Hash)]
pub struct Refusal {
    pub code: Code,
    pub place: u64,
}

impl fmt::Display for Refusal {
    fn fmt(&self, f: &mut fmt::Formatter<'_>) -> fmt::Result {
        let (code, name, what) = CODES[self.code as usize - 1];
        write!(f, "{name} ({}) at {}: {what}", code.number(), self.place)
    }
}

impl std::error::Error for Refusal {}

/// The counts of an answer, or its refusal.
pub(crate) fn judged((number, answer): (u32, port::Answer)) -> Result<[i64; 4], Refusal> {
    match Code::of(number) {
        None => Ok([answer[1], answer[2], answer[3], answer[4]]),
        Some(code) => Err(Refusal {
            code,
            place: answer[0] as u64,
        }),
    }
}

#[cfg(test)]
mod tests {
    use super::*;

    #[test]
    fn each_code_stands_at_its_number() {
        for (index, (code, _, _)) in CODES.into_iter().enumerate() {
            assert_eq!(code.number() as usize, index + 1);
            assert_eq!(Code::of(code.number()), Some(code));
        }
        assert_eq!((Code::of(0), Code::of(24)), (None, None));
    }

    #[test]
    fn the_header_and_the_judge_have_the_same_codes() {
        let header = include_str!("../../../include/aktyrbuz.h");
        assert_eq!(header.matches("    AKTYRBUZ_").count(), CODES.len() + 1);
        for ((code, name, _), judge) in CODES.into_iter().zip(cases::CODES) {
            let number = code.number();
            assert!(
                header.contains(&format!("AKTYRBUZ_{name} = {number}")),
                "{name}"
            );
            assert_eq!(
                (judge as u32, format!("{judge:?}")),
                (number, format!("{code:?}"))
            );
            assert_eq!(format!("{code:?}").to_uppercase(), name);
        }
    }

    #[test]
    fn a_refusal_is_told_in_words() {
        let refusal = Refusal {
            code: Code::Delta,
            place: 41,
        };
        assert_eq!(
            refusal.to_string(),
            "DELTA (5) at 41: a double delta of magnitude 2^30 or more"
        );
    }
}
