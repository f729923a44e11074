//! What a desk lends beside a table: how many splines the description had and the shared bytes, by kind and seed.

use crate::random::Random;
use crate::{Description, FlatTable};

/// A desk with the shared bytes, as drawing and reach take them beside a table.
#[derive(Clone, Debug, PartialEq)]
pub struct Sight {
    /// How many splines the description had.
    pub splines: u64,
    /// A byte a spline: bit 0 hides it for the operator, bit 1 for the checker.
    pub bits: Vec<u8>,
    pub desk: u32,
}

impl Sight {
    /// The operator's, with nothing hidden.
    pub fn open(splines: u64) -> Sight {
        Sight {
            splines,
            bits: vec![0; splines as usize],
            desk: 0,
        }
    }
}

pub const SIGHT_KINDS: [&str; 7] = ["hidden", "open", "all", "longer", "short", "owners", "desk"];

/// The sight of this kind and seed on a table.
pub fn sight(kind: &str, seed: u64, table: &FlatTable) -> Sight {
    let mut random = Random::new(kind, seed);
    let r = &mut random;
    let last = (table.owners.iter().take(table.segment_count as usize))
        .max()
        .map_or(0, |&owner| owner.min(64));
    let splines = last + r.pick(&[1, 1, 2, 4]);
    let desk = r.below(2) as u32;
    let mut sight = Sight {
        splines,
        bits: (0..splines).map(|_| r.next() as u8).collect(),
        desk,
    };
    match kind {
        "hidden" => {}
        // The desk's own bits alike, the other desk's and nobody's as they come.
        "open" => sight.bits.iter_mut().for_each(|byte| *byte &= !(1 << desk)),
        "all" => sight.bits.iter_mut().for_each(|byte| *byte |= 1 << desk),
        "longer" => (0..r.within(1, 9)).for_each(|_| sight.bits.push(r.next() as u8)),
        "short" => short(r, &mut sight),
        // One past the last owner, or none of a spline that has segments.
        "owners" => sight.splines = r.pick(&[last, last, last + 1, 0]),
        "desk" => sight.desk = r.pick(&[2, 2, 3, 1 << 31, u32::MAX]),
        _ => panic!("no kind of sight is called {kind}"),
    }
    sight
}

/// One byte too few, or far fewer than are said.
fn short(r: &mut Random, sight: &mut Sight) {
    match r.below(4) {
        0 => sight.splines = r.pick(&[u64::MAX, 1 << 32, sight.splines + 1]),
        1 => sight.bits.clear(),
        _ => {
            sight.bits.pop();
        }
    }
}

/// The description without the splines for which this holds.
pub fn without(description: &Description, hidden: impl Fn(u64) -> bool) -> Description {
    let mut left = Description {
        adjustment: description.adjustment,
        ..Description::default()
    };
    let mut deltas = &description.deltas[..];
    for (spline, &count) in description.counts.iter().enumerate() {
        let (own, others) = deltas.split_at(2 * count as usize);
        deltas = others;
        if !hidden(spline as u64) {
            left.counts.push(count);
            left.starts
                .extend(&description.starts[2 * spline..2 * spline + 2]);
            left.deltas.extend(own);
            let first = 128 * spline;
            left.coefficients
                .extend(&description.coefficients[first..first + 128]);
        }
    }
    left
}
