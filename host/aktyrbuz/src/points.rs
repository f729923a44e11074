//! Line drawings: the control points of a spline as the value of an SVG `points` attribute.

use crate::cells::{first, zeros};
use crate::code::{judged, Refusal};
use crate::Description;

/// One spline's points as a description holds them: its start and its double deltas.
#[derive(Clone, Debug, Default, PartialEq)]
pub struct Points {
    pub start: [f32; 2],
    /// x and y of each double delta.
    pub deltas: Vec<i32>,
}

/// Reads the value of a `points` attribute: pairs `x,y` of whole numbers with one comma, one space between pairs, and nothing else.
///
/// The place of a refusal is a byte of the text.
pub fn read(text: &str) -> Result<Points, Refusal> {
    // A pair has three bytes at least and a space before it, and gives a double delta of two cells.
    let mut deltas = zeros(text.len() / 2)?;
    let mut start = [0.0; 2];
    let told = port::points_read(text.as_bytes(), &mut start, &mut deltas);
    let [doubles, ..] = judged(told)?;
    Ok(Points {
        start,
        deltas: first(deltas, 2 * doubles as usize),
    })
}

impl Description {
    /// The control points of one spline as the value of a `points` attribute. Read back, it is the spline's start, rounded as building rounds it,
    /// and its double deltas.
    pub fn points(&self, spline: u64) -> Result<String, Refusal> {
        let number = usize::try_from(spline).ok();
        let count = number.and_then(|number| self.counts.get(number));
        // Where a count goes beyond the deltas the lengths disagree, and nothing is written.
        let points = 1 + count
            .map_or(0, |&count| count as usize)
            .min(self.deltas.len() / 2);
        // Two numbers of up to eight bytes, the comma and a space.
        let mut text = zeros(18 * points)?;
        let told = port::points_write(&self.parts(), spline, &mut text);
        let [bytes, ..] = judged(told)?;
        let text = first(text, bytes as usize);
        Ok(text.into_iter().map(char::from).collect())
    }
}

#[cfg(test)]
mod tests {
    use super::*;
    use crate::Code;

    fn refused<T: std::fmt::Debug>(answer: Result<T, Refusal>) -> (Code, u64) {
        let refusal = answer.expect_err("a refusal");
        (refusal.code, refusal.place)
    }

    #[test]
    fn a_text_is_read_and_written_back() {
        let text = "-8388608,8388607 -8388600,0 7,-10 8,-10";
        let points = read(text).expect("a good text");
        assert_eq!(points.start, [-8_388_608.0, 8_388_607.0]);
        assert_eq!(points.deltas.len(), 6);
        let description = Description {
            counts: vec![0, 3],
            starts: [[2.5, -0.4], points.start].concat(),
            deltas: points.deltas,
            coefficients: vec![0; 256],
            adjustment: 0,
        };
        assert_eq!(description.points(1).as_deref(), Ok(text));
        assert_eq!(description.points(0).as_deref(), Ok("3,0"));
        assert_eq!(refused(description.points(2)), (Code::Shape, 0));
        let widest = ["-8388608,-8388608", "-8388607,-8388608"]
            .repeat(5)
            .join(" ");
        let points = read(&widest).expect("a good text");
        let description = Description {
            counts: vec![9],
            starts: points.start.to_vec(),
            deltas: points.deltas,
            coefficients: vec![0; 128],
            adjustment: 0,
        };
        assert_eq!(description.points(0), Ok(widest));
    }

    #[test]
    fn texts_are_refused_by_code_and_byte() {
        for (text, due) in [
            ("", (Code::Text, 0)),
            ("1,2 ", (Code::Text, 4)),
            ("1,-0", (Code::Text, 3)),
            ("01,2", (Code::Text, 1)),
            ("1,2  3,4", (Code::Text, 4)),
            ("1,2 8388608,4", (Code::Position, 4)),
            ("1,2 3,4 3,4", (Code::Coincide, 8)),
        ] {
            assert_eq!(refused(read(text)), due, "{text:?}");
        }
    }
}
