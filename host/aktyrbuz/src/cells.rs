//! Buffers that are lent to the calls.

use crate::code::{Code, Refusal};

/// So many zeros; where there is no memory for them, the refusal that too short a buffer would get.
pub(crate) fn zeros<T: Clone + Default>(cells: usize) -> Result<Vec<T>, Refusal> {
    let mut buffer = Vec::new();
    buffer.try_reserve_exact(cells).map_err(|_| Refusal {
        code: Code::Room,
        place: 0,
    })?;
    buffer.resize(cells, T::default());
    Ok(buffer)
}

/// The first cells, and no memory for others.
pub(crate) fn first<T>(mut buffer: Vec<T>, cells: usize) -> Vec<T> {
    buffer.truncate(cells);
    buffer.shrink_to_fit();
    buffer
}

#[cfg(test)]
mod tests {
    use super::*;

    #[test]
    fn no_memory_is_a_refusal() {
        assert_eq!(zeros::<u32>(3), Ok(vec![0; 3]));
        let room = Refusal {
            code: Code::Room,
            place: 0,
        };
        // More than there is of addresses, and more than a number of bytes can say.
        for cells in [1 << 58, usize::MAX] {
            assert_eq!(zeros::<u32>(cells), Err(room));
        }
    }
}
