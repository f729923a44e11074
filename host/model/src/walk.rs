//! The walk (the scope, "Curve and walk"): the path at steps of one unit of length.

use crate::curve::{Point, MOST_POINTS};
use crate::left_open::{further, stretch};
use cases::Code;

/// A point and its multiplier.
pub type Step = (Point, f32);

/// "The walk emits the first point with multiplier 1, then a point at each unit of length, then the last with what is
/// left", if there is room for so many.
pub fn walk(path: &[Point], room: u64) -> Result<Vec<Step>, Code> {
    let Some(&first) = path.first() else {
        return Ok(Vec::new());
    };
    let mut steps = vec![(first, 1.0)];
    let (mut at, mut gone) = (first, 0.0);
    for &next in &path[1..] {
        while gone + stretch(at, next) >= 1.0 {
            at = further(at, next, 1.0 - gone);
            gone = 0.0;
            steps.push((at, 1.0));
            // The last is still to come.
            if steps.len() as u64 >= room.min(MOST_POINTS) {
                return Err(Code::Room);
            }
        }
        gone += stretch(at, next);
        at = next;
    }
    steps.push((at, gone));
    if steps.len() as u64 > room.min(MOST_POINTS) {
        return Err(Code::Room);
    }
    Ok(steps)
}

/// "Length is emitted count - 2 + last multiplier".
pub fn length(steps: &[Step]) -> f32 {
    let last = steps.last().map_or(0.0, |step| step.1);
    steps.len() as f32 - 2.0 + last
}

#[cfg(test)]
mod tests {
    use super::*;

    fn multipliers(path: &[Point]) -> Vec<f32> {
        walk(path, 100).unwrap().iter().map(|step| step.1).collect()
    }

    #[test]
    fn readings() {
        assert_eq!(multipliers(&[[0.0, 0.0], [2.5, 0.0]]), [1.0, 1.0, 1.0, 0.5]);
        assert_eq!(multipliers(&[[0.0, 0.0], [1.0, 0.0]]), [1.0, 1.0, 0.0]);
        assert_eq!(multipliers(&[[3.0, 4.0]]), [1.0, 0.0]);
        assert_eq!(length(&walk(&[[3.0, 4.0]], 2).unwrap()), 0.0);
        assert_eq!(walk(&[[3.0, 4.0]], 1), Err(Code::Room));
    }
}
