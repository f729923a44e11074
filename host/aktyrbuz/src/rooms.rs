//! How much memory a build may take.

/// How much a build may take: points of the longest path and of the longest walk, segments and entries in all.
#[derive(Clone, Copy, Debug, PartialEq, Eq)]
pub struct Rooms {
    pub path: usize,
    pub walk: usize,
    pub segments: usize,
    pub entries: usize,
}

impl Rooms {
    /// What [`Table::build`](crate::Table::build) keeps to: 240 MiB with every room full, enough for two million segments.
    pub const USUAL: Rooms = Rooms {
        path: 1 << 20,
        walk: 1 << 21,
        segments: 1 << 21,
        entries: 1 << 25,
    };

    /// As much as any build makes use of: what needs more is refused by every build. With every room full, 4896 MiB.
    pub const MOST: Rooms = Rooms {
        path: 1 << 23,
        walk: 1 << 23,
        segments: 1 << 24,
        entries: 1 << 30,
    };

    /// The memory that the buffers of these rooms take. The row starts come to it, four bytes for each row of the image and four more, and the bands, twenty bytes for each 64 rows.
    pub const fn bytes(self) -> usize {
        let path = self.path.saturating_mul(8);
        let walk = self.walk.saturating_mul(12);
        // Eight floats a segment, and its owner.
        let segments = self.segments.saturating_mul(40);
        let entries = self.entries.saturating_mul(4);
        path.saturating_add(walk)
            .saturating_add(segments)
            .saturating_add(entries)
    }

    /// Where a build begins, whose longest path has so many points.
    pub(crate) fn first(path: usize) -> Rooms {
        Rooms {
            path,
            walk: 1 << 12,
            segments: 1 << 12,
            entries: 1 << 16,
        }
    }

    pub(crate) fn within(self, most: Rooms) -> Rooms {
        Rooms {
            path: self.path.min(most.path),
            walk: self.walk.min(most.walk),
            segments: self.segments.min(most.segments),
            entries: self.entries.min(most.entries),
        }
    }

    /// The rooms of the next try, after one was too small at this place. The path's stays. Entries come last, and are refused at
    /// place 0: a refusal of a later spline is not theirs.
    pub(crate) fn grown(self, place: u64, most: Rooms) -> Rooms {
        let entries = if place == 0 { 4 } else { 1 };
        Rooms {
            path: self.path,
            walk: self.walk.saturating_mul(4),
            segments: self.segments.saturating_mul(4),
            entries: self.entries.saturating_mul(entries),
        }
        .within(most)
    }
}

#[cfg(test)]
mod tests {
    use super::*;

    #[test]
    fn the_memory_is_as_the_pages_say() {
        assert_eq!(Rooms::USUAL.bytes(), 240 << 20);
        assert_eq!(Rooms::MOST.bytes(), 4896 << 20);
        let endless = Rooms {
            entries: usize::MAX,
            ..Rooms::USUAL
        };
        assert_eq!(endless.bytes(), usize::MAX);
    }
}
