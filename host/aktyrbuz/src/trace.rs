//! Trace files of version 2, which tell the edition of the profile that they are made for.

use crate::cells::{first, zeros};
use crate::code::{judged, Refusal};
use crate::description::filled;
use crate::{Description, Edition};

impl Description {
    /// Reads a trace file of either version, with its edition: that of a version 1 file is the first. Whether the description meets the profile is
    /// not asked: that is [`Description::profile`].
    pub fn from_trace2(file: &[u8]) -> Result<(Description, Edition), Refusal> {
        // Each cell of a description is four bytes of the file, and a file of another length is refused before any cell is asked for.
        let (description, edition) =
            filled(file.len() / 4, |counts, starts, deltas, coefficients| {
                port::trace_read2(file, counts, starts, deltas, coefficients)
            })?;
        let edition = match edition {
            1 => Edition::One,
            _ => Edition::Two,
        };
        Ok((description, edition))
    }

    /// The one trace file of version 2 that is read back as this description with this edition.
    pub fn to_trace2(&self, edition: Edition) -> Result<Vec<u8>, Refusal> {
        // The header, and four bytes for each cell of the four parts.
        let mut file = zeros(36 + 4 * self.cells())?;
        let told = port::trace_write2(&self.parts(), 2, edition.number(), &mut file);
        let [bytes, ..] = judged(told)?;
        Ok(first(file, bytes as usize))
    }
}

#[cfg(test)]
mod tests {
    use super::*;
    use crate::Code;

    fn description() -> Description {
        Description {
            counts: vec![1],
            starts: vec![-5.0, 6.0],
            deltas: vec![7, -7],
            coefficients: (0..128).collect(),
            adjustment: 3,
        }
    }

    #[test]
    fn files_of_either_version() {
        for edition in [Edition::One, Edition::Two] {
            let file = description().to_trace2(edition).expect("a trace");
            assert_eq!((file.len(), file[0]), (36 + 4 + 8 + 8 + 512, 2));
            assert_eq!(
                Description::from_trace2(&file),
                Ok((description(), edition))
            );
            let older = Description::from_trace(&file).expect_err("a version 2 file");
            assert_eq!((older.code, older.place), (Code::Header, 0));
        }
        let file = description().to_trace().expect("a trace");
        let read = Description::from_trace2(&file);
        assert_eq!(read, Ok((description(), Edition::One)));
    }

    #[test]
    fn files_of_version_2_are_refused_by_code_and_byte() {
        let file = description().to_trace2(Edition::Two).expect("a trace");
        let refused = |file: &[u8]| {
            let refusal = Description::from_trace2(file).expect_err("a bad file");
            (refusal.code, refusal.place)
        };
        for end in 0..file.len() {
            assert_eq!(refused(&file[..end]), (Code::Short, end as u64));
        }
        for (byte, value, due) in [
            (0, 3, (Code::Header, 0)),
            (16, 32, (Code::Header, 16)),
            (32, 3, (Code::Edition, 32)),
            (36, 2, (Code::Shape, 0)),
        ] {
            let mut bad = file.clone();
            bad[byte] = value;
            assert_eq!(refused(&bad), due);
        }
    }
}
