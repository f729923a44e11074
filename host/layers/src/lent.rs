//! A buffer that is lent from the middle of a greater one, full of other numbers.

use cases::bits;

/// Cells on either side that are not lent.
const AROUND: usize = 3;

pub struct Lent {
    cells: Vec<f32>,
}

/// Another number at each index.
fn other(index: usize) -> f32 {
    (index % 1000) as f32 + 0.25
}

impl Lent {
    pub fn new(room: usize) -> Lent {
        Lent {
            cells: (0..room + 2 * AROUND).map(other).collect(),
        }
    }

    pub fn lend(&mut self) -> &mut [f32] {
        let past = self.cells.len() - AROUND;
        &mut self.cells[AROUND..past]
    }

    /// Whether it holds these values, any NaN counting as NaN, and all else is as it was.
    pub fn holds(&self, values: impl ExactSizeIterator<Item = f32>) -> bool {
        let past = AROUND + values.len();
        self.kept(0..AROUND)
            && values
                .zip(&self.cells[AROUND..])
                .all(|(a, &b)| bits(a) == bits(b))
            && self.kept(past..self.cells.len())
    }

    /// Whether nothing around what was lent was touched.
    pub fn inside(&self) -> bool {
        let all = self.cells.len();
        self.kept(0..AROUND) && self.kept(all - AROUND..all)
    }

    fn kept(&self, mut cells: std::ops::Range<usize>) -> bool {
        cells.all(|index| self.cells[index].to_bits() == other(index).to_bits())
    }
}
