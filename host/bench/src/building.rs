//! A picture's table built.

use crate::picture::{description, given, SIDE};
use crate::Work;
use cases::Description;
use oracle::{Outcome, Prepared};
use port::{Buffers, Image, Parts};

/// Numbers lent for the path and the walk of one fibre: more than any has.
const PATH: usize = 2 * 256;
const WALK: usize = 3 * 4096;

/// One description as each side takes it, and the port's buffers: exact but for path and walk.
pub struct Building {
    prepared: Prepared,
    description: Description,
    path: Vec<f32>,
    walk: Vec<f32>,
    segments: Vec<f32>,
    owners: Vec<u64>,
    row_starts: Vec<u32>,
    entries: Vec<u32>,
}

impl Building {
    /// Both sides build the same table.
    pub fn of(sigmas: &[i32]) -> Building {
        let description = description(sigmas);
        let Outcome::Done(built) = oracle::build(&description, &given()) else {
            panic!("spline.rs builds the pictures");
        };
        let table = built.table;
        let mut building = Building {
            prepared: oracle::prepare(&description),
            description,
            path: vec![0.0; PATH],
            walk: vec![0.0; WALK],
            segments: vec![0.0; 8 * table.segments.len()],
            owners: vec![0; table.segments.len()],
            row_starts: vec![0; SIDE as usize + 1],
            entries: vec![0; table.entries.len()],
        };
        building.by_port();
        assert!(
            building.segments == table.segments.concat()
                && building.owners == table.owners
                && building.row_starts == table.row_starts
                && building.entries == table.entries,
            "both sides build the same table"
        );
        building
    }
}

impl Work for Building {
    fn clear(&mut self) {
        for floats in [&mut self.path, &mut self.walk, &mut self.segments] {
            floats.fill(0.0);
        }
        self.owners.fill(0);
        self.row_starts.fill(0);
        self.entries.fill(0);
    }

    fn by_rust(&mut self) {
        let built = self.prepared.build(&given());
        assert_eq!(built, Outcome::Done(()), "spline.rs builds the pictures");
    }

    fn by_port(&mut self) -> i64 {
        let parts = Parts {
            counts: &self.description.counts,
            starts: &self.description.starts,
            deltas: &self.description.deltas,
            coefficients: &self.description.coefficients,
            adjustment: self.description.adjustment,
        };
        let given = given();
        let image = Image {
            width: given.width,
            height: given.height,
            y_to_x: given.y_to_x,
            y_to_b: given.y_to_b,
            high_precision: given.high_precision,
            level10: given.level10,
        };
        let lent = Buffers {
            path: &mut self.path,
            walk: &mut self.walk,
            segments: &mut self.segments,
            owners: &mut self.owners,
            row_starts: &mut self.row_starts,
            entries: &mut self.entries,
        };
        let (code, answer) = port::build(&parts, &image, lent);
        assert_eq!(code, 0, "the port builds the pictures");
        answer[1]
    }
}
