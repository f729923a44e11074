//! Buffers that are lent to the port full of other numbers, from the middle of a greater one.

/// What a buffer is made of.
pub trait Cell: Copy {
    const ZERO: Self;

    /// A number that is not 0, another one at each index.
    fn other(index: usize) -> Self;

    /// Equal in every bit.
    fn same(self, other: Self) -> bool;
}

impl Cell for u8 {
    const ZERO: u8 = 0;

    fn other(index: usize) -> u8 {
        u32::other(index) as u8
    }

    fn same(self, other: u8) -> bool {
        self == other
    }
}

impl Cell for u32 {
    const ZERO: u32 = 0;

    fn other(index: usize) -> u32 {
        (index as u32).wrapping_mul(0x9e37_79b9) | 1
    }

    fn same(self, other: u32) -> bool {
        self == other
    }
}

impl Cell for u64 {
    const ZERO: u64 = 0;

    fn other(index: usize) -> u64 {
        u64::from(u32::other(index)) << 32 | u64::from(u32::other(index + 1))
    }

    fn same(self, other: u64) -> bool {
        self == other
    }
}

impl Cell for i32 {
    const ZERO: i32 = 0;

    fn other(index: usize) -> i32 {
        u32::other(index) as i32
    }

    fn same(self, other: i32) -> bool {
        self == other
    }
}

impl Cell for f32 {
    const ZERO: f32 = 0.0;

    fn other(index: usize) -> f32 {
        f32::from_bits(u32::other(index))
    }

    fn same(self, other: f32) -> bool {
        self.to_bits() == other.to_bits()
    }
}

/// Cells on either side that are not lent.
const AROUND: usize = 3;

/// A buffer whose middle is lent.
pub struct Lent<T> {
    cells: Vec<T>,
}

impl<T: Cell> Lent<T> {
    pub fn new(room: usize) -> Lent<T> {
        Lent {
            cells: (0..room + 2 * AROUND).map(T::other).collect(),
        }
    }

    fn past(&self) -> usize {
        self.cells.len() - AROUND
    }

    pub fn lend(&mut self) -> &mut [T] {
        let past = self.past();
        &mut self.cells[AROUND..past]
    }

    pub fn lent(&self) -> &[T] {
        &self.cells[AROUND..self.past()]
    }

    /// Whether it holds these values, then zeros, and nothing around it was touched.
    pub fn holds(&self, values: &[T]) -> bool {
        self.holds_as(values, T::same)
    }

    /// The same, where `same` holds a value against another.
    pub fn holds_as(&self, values: &[T], same: impl Fn(T, T) -> bool) -> bool {
        let lent = self.lent();
        let untouched = |index: usize| self.cells[index].same(T::other(index));
        values.len() <= lent.len()
            && lent.iter().zip(values).all(|(&a, &b)| same(a, b))
            && lent[values.len()..].iter().all(|&a| a.same(T::ZERO))
            && (0..AROUND).all(untouched)
            && (self.past()..self.cells.len()).all(untouched)
    }
}
