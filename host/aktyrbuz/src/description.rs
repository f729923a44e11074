//! Descriptions, and the lists and trace files that hold them.

use crate::cells::{first, zeros};
use crate::code::{judged, Code, Refusal};
use port::Parts;

/// How many splines and points a list may have: the lesser of the configured limit and half the pixels.
#[derive(Clone, Copy, Debug, PartialEq, Eq)]
pub struct Limit {
    pub configured: u32,
    pub pixels: u32,
}

impl Limit {
    /// The usual configured limit, 2^20, for an image of so many pixels.
    pub fn of_pixels(pixels: u32) -> Limit {
        Limit {
            configured: 1 << 20,
            pixels,
        }
    }
}

/// Splines as a list holds them, quantized.
///
/// The lengths go together: S `counts`, 2S `starts`, two `deltas` for each point that `counts` adds up to, and 128S `coefficients`.
/// Where they do not, [`write`](Description::write) and [`Table::build`](crate::Table::build) refuse it with [`Code::Shape`].
#[derive(Clone, Debug, Default, PartialEq)]
pub struct Description {
    /// Points of each spline, the start not among them.
    pub counts: Vec<u32>,
    /// x and y of each spline's start.
    pub starts: Vec<f32>,
    /// x and y of each double delta, spline after spline.
    pub deltas: Vec<i32>,
    /// 32 values each for X, Y, B and sigma, spline after spline.
    pub coefficients: Vec<i32>,
    pub adjustment: i32,
}

/// What a call leaves in the four parts of a description, each with so many cells, and its last count.
pub(crate) fn filled(
    room: usize,
    call: impl FnOnce(&mut [u32], &mut [f32], &mut [i32], &mut [i32]) -> (u32, port::Answer),
) -> Result<(Description, i64), Refusal> {
    let (mut counts, mut starts) = (zeros(room)?, zeros(room)?);
    let (mut deltas, mut coefficients) = (zeros(room)?, zeros(room)?);
    let told = call(&mut counts, &mut starts, &mut deltas, &mut coefficients);
    let [splines, points, adjustment, last] = judged(told)?;
    let description = Description {
        counts: first(counts, splines as usize),
        starts: first(starts, 2 * splines as usize),
        deltas: first(deltas, 2 * points as usize),
        coefficients: first(coefficients, 128 * splines as usize),
        adjustment: adjustment as i32,
    };
    Ok((description, last))
}

impl Description {
    /// Reads a list of decoded values.
    ///
    /// Each cell of a description is a value of its list, so buffers as long as the list do for every good one. One that claims more than it
    /// has gets 128 times that, but no more than 256 MiB for it, before it is refused with [`Code::Room`]: so a list that was cut short is told
    /// from one that asks for the moon.
    pub fn read(list: &[u32], limit: Limit) -> Result<Description, Refusal> {
        let len = list.len();
        match Description::read_within(list, limit, len) {
            Err(Refusal {
                code: Code::Room, ..
            }) => Description::read_within(list, limit, len.max((128 * len).min(1 << 24))),
            other => other,
        }
    }

    /// The same with so many cells for each of the four parts.
    fn read_within(list: &[u32], limit: Limit, room: usize) -> Result<Description, Refusal> {
        filled(room, |counts, starts, deltas, coefficients| {
            let Limit { configured, pixels } = limit;
            port::read(
                list,
                configured,
                pixels,
                counts,
                starts,
                deltas,
                coefficients,
            )
        })
        .map(|(description, _)| description)
    }

    /// The list that is read back as this description under the same limit.
    pub fn write(&self, limit: Limit) -> Result<Vec<u32>, Refusal> {
        // The count, the adjustment, and each cell of the four parts.
        let mut list = zeros(2 + self.cells())?;
        let [values, ..] = judged(port::write(
            &self.parts(),
            limit.configured,
            limit.pixels,
            &mut list,
        ))?;
        Ok(first(list, values as usize))
    }

    /// Reads a trace file of version 1, which holds a description without its picture. A first start may be negative here.
    pub fn from_trace(file: &[u8]) -> Result<Description, Refusal> {
        // Each cell of a description is four bytes of the file, and a file of another length is refused before any cell is asked for.
        filled(file.len() / 4, |counts, starts, deltas, coefficients| {
            port::trace_read(file, counts, starts, deltas, coefficients)
        })
        .map(|(description, _)| description)
    }

    /// The one trace file of version 1 that is read back as this description.
    pub fn to_trace(&self) -> Result<Vec<u8>, Refusal> {
        // The header, and four bytes for each cell of the four parts.
        let mut file = zeros(32 + 4 * self.cells())?;
        let [bytes, ..] = judged(port::trace_write(&self.parts(), &mut file))?;
        Ok(first(file, bytes as usize))
    }

    pub(crate) fn cells(&self) -> usize {
        self.counts.len() + self.starts.len() + self.deltas.len() + self.coefficients.len()
    }

    /// The points of the longest path: 16 for each point of its spline, and the start.
    pub(crate) fn longest_path(&self) -> usize {
        let points = self.counts.iter().max().map_or(0, |&most| most as usize);
        // Where the counts go beyond the deltas the lengths disagree, and no path is drawn.
        16 * points.min(self.deltas.len() / 2) + 1
    }

    pub(crate) fn parts(&self) -> Parts<'_> {
        Parts {
            counts: &self.counts,
            starts: &self.starts,
            deltas: &self.deltas,
            coefficients: &self.coefficients,
            adjustment: self.adjustment,
        }
    }
}

#[cfg(test)]
mod tests {
    use super::*;

    fn limit() -> Limit {
        Limit::of_pixels(1000)
    }

    fn list() -> Vec<u32> {
        let mut list = vec![0, 10, 8, 3, 1, 60, 1];
        list.extend(0..128);
        list
    }

    #[test]
    fn what_is_read_is_written_back() {
        let read = Description::read(&list(), limit()).expect("a good list");
        assert_eq!(read.counts, [1]);
        assert_eq!(read.starts, [10.0, 8.0]);
        assert_eq!(read.deltas, [30, -1]);
        assert_eq!(read.coefficients[..4], [0, -1, 1, -2]);
        assert_eq!(read.adjustment, -2);
        assert_eq!(read.write(limit()), Ok(list()));
    }

    #[test]
    fn every_list_that_is_cut_short_is_refused() {
        let list = list();
        for end in 0..list.len() {
            let refusal = Description::read(&list[..end], limit()).expect_err("a list cut short");
            assert_eq!(
                refusal,
                Refusal {
                    code: Code::Short,
                    place: end as u64
                }
            );
        }
    }

    #[test]
    fn a_value_too_many_is_refused_at_its_index() {
        let mut long = list();
        long.push(0);
        let refusal = Refusal {
            code: Code::Trail,
            place: list().len() as u64,
        };
        assert_eq!(Description::read(&long, limit()), Err(refusal));
    }

    #[test]
    fn a_list_that_asks_for_the_moon_takes_no_memory() {
        let refusal = Refusal {
            code: Code::Room,
            place: 0,
        };
        let greatest = Limit {
            configured: u32::MAX,
            pixels: u32::MAX,
        };
        assert_eq!(Description::read(&[1 << 30, 0, 0], greatest), Err(refusal));
    }

    #[test]
    fn a_trace_file_holds_what_a_list_holds_and_more() {
        let mut read = Description::read(&list(), limit()).expect("a good list");
        let file = read.to_trace().expect("a trace");
        assert_eq!(file.len(), 32 + 4 + 8 + 8 + 512);
        assert_eq!(Description::from_trace(&file).as_ref(), Ok(&read));
        // No list holds a negative first start.
        read.starts = vec![-8_388_608.0, -1.0];
        let file = read.to_trace().expect("a trace");
        assert_eq!(Description::from_trace(&file), Ok(read));
        let nothing = Description::default();
        let file = nothing.to_trace().expect("a trace of no splines");
        assert_eq!(file.len(), 32);
        assert_eq!(Description::from_trace(&file), Ok(nothing));
    }

    #[test]
    fn trace_files_are_refused_by_code_and_byte() {
        let good = Description::read(&list(), limit()).expect("a good list");
        let file = good.to_trace().expect("a trace");
        let refused = |file: &[u8]| {
            let refusal = Description::from_trace(file).expect_err("a bad file");
            (refusal.code, refusal.place)
        };
        for end in 0..file.len() {
            assert_eq!(refused(&file[..end]), (Code::Short, end as u64));
        }
        for (byte, value, due) in [
            (0, 2, (Code::Header, 0)),
            (20, 0, (Code::Header, 20)),
            (32, 2, (Code::Shape, 0)),
            (43, 1, (Code::Coord, 40)),
            (47, 64, (Code::Delta, 44)),
        ] {
            let mut bad = file.clone();
            bad[byte] = value;
            assert_eq!(refused(&bad), due);
        }
        let longer = [&file[..], &[0]].concat();
        assert_eq!(refused(&longer), (Code::Trail, file.len() as u64));
        let mut minus_zero = good;
        minus_zero.starts[1] = -0.0;
        let refusal = minus_zero.to_trace().expect_err("minus zero");
        assert_eq!((refusal.code, refusal.place), (Code::Coord, 40));
    }

    #[test]
    fn lengths_that_disagree_are_refused() {
        let mut read = Description::read(&list(), limit()).expect("a good list");
        read.deltas.pop();
        assert_eq!(
            read.write(limit()),
            Err(Refusal {
                code: Code::Shape,
                place: 0
            })
        );
    }
}
