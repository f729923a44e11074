//! The readers of spline.rs as stand-ins that hand out a list of decoded values.

use crate::entropy_coding::decode::unpack_signed;
use crate::error::Result;

/// Holds the list and how much of it was taken.
pub struct BitReader<'a> {
    list: &'a [u32],
    pub taken: usize,
    pub ran_short: bool,
}

impl<'a> BitReader<'a> {
    pub fn new(list: &'a [u32]) -> Self {
        BitReader {
            list,
            taken: 0,
            ran_short: false,
        }
    }

    /// The next value; past the end a 0, which is remembered.
    fn next(&mut self) -> u32 {
        match self.list.get(self.taken) {
            Some(&value) => {
                self.taken += 1;
                value
            }
            None => {
                self.ran_short = true;
                0
            }
        }
    }
}

/// Nothing is left of it.
pub struct Histograms;

impl Histograms {
    pub fn decode(_contexts: usize, _br: &mut BitReader, _lz77: bool) -> Result<Self> {
        Ok(Histograms)
    }
}

/// Hands out the list whatever the context.
pub struct SymbolReader;

impl SymbolReader {
    pub fn new(_: &Histograms, _: &mut BitReader, _width: Option<usize>) -> Result<Self> {
        Ok(SymbolReader)
    }

    pub fn read_unsigned(&mut self, _: &Histograms, br: &mut BitReader, _context: usize) -> u32 {
        br.next()
    }

    pub fn read_signed(&mut self, _: &Histograms, br: &mut BitReader, _context: usize) -> i32 {
        unpack_signed(br.next())
    }

    pub fn check_final_state(self, _: &Histograms, _: &mut BitReader) -> Result<()> {
        Ok(())
    }
}
