//! The fineness profile (document 02, request (ix)), with its two editions (request (x)).
//!
//! A comment in quotes is a sentence of those requests.

use crate::list::well_shaped;
use crate::table::{build, is_too_large, BuildRooms};
use cases::{Code, Description, Given, Refusal, Table};
use std::ops::RangeInclusive;

/// Why a description is not taken: the refusal, and "with the rule number as first count" for PROFILE, else 0.
#[derive(Clone, Copy, Debug, PartialEq, Eq)]
pub struct Unmet {
    pub refusal: Refusal,
    pub rule: u64,
}

impl From<Refusal> for Unmet {
    fn from(refusal: Refusal) -> Unmet {
        Unmet { refusal, rule: 0 }
    }
}

fn unmet<T>(code: Code, place: u64, rule: u64) -> Result<T, Unmet> {
    let refusal = Refusal { code, place };
    Err(Unmet { refusal, rule })
}

/// What the editions differ in.
struct Limits {
    double_deltas: RangeInclusive<u32>,
    adjustment: RangeInclusive<i32>,
    first_sigma: RangeInclusive<i32>,
}

fn limits(edition: u32) -> Option<Limits> {
    match edition {
        // "each with 1 to 64 double deltas, adjustment 0, .. first sigma coefficient 1 to 400".
        1 => Some(Limits {
            double_deltas: 1..=64,
            adjustment: 0..=0,
            first_sigma: 1..=400,
        }),
        // "Edition 2 allows 1 to 256 double deltas, adjustment -8 to 8, and the first sigma coefficient up to 1600; the rest stands."
        2 => Some(Limits {
            double_deltas: 1..=256,
            adjustment: -8..=8,
            first_sigma: 1..=1600,
        }),
        _ => None,
    }
}

/// "A profile check looks at SHAPE, then tells yes or names the first broken rule, taken in spline order and then in the order of this list; the
/// whole-description rules come first." "22 EDITION for an edition other than 1 or 2" stands between the two.
pub fn profile(description: &Description, edition: u32) -> Result<(), Unmet> {
    if !well_shaped(description) {
        return unmet(Code::Shape, 0, 0);
    }
    let Some(limits) = limits(edition) else {
        return unmet(Code::Edition, 0, 0);
    };
    // "it has 1 to 4096 splines".
    if !(1..=4096).contains(&description.counts.len()) {
        return unmet(Code::Profile, 0, 1);
    }
    if !limits.adjustment.contains(&description.adjustment) {
        return unmet(Code::Profile, 0, 3);
    }
    for (spline, &count) in description.counts.iter().enumerate() {
        let coefficients = &description.coefficients[128 * spline..128 * (spline + 1)];
        if let Some(rule) = broken_by_spline(&limits, count, coefficients) {
            return unmet(Code::Profile, spline as u64, rule);
        }
    }
    Ok(())
}

/// The rules of a spline by their numbers: "The rules are numbered 1 to 6 in the order given above."
fn broken_by_spline(limits: &Limits, count: u32, coefficients: &[i32]) -> Option<u64> {
    let zeros = |values: &[i32]| values.iter().all(|&value| value == 0);
    let [x, _, b, sigma] = [0, 1, 2, 3].map(|row| &coefficients[32 * row..32 * (row + 1)]);
    let kept = [
        (2, limits.double_deltas.contains(&count)),
        // "sigma coefficients zero after the first".
        (4, zeros(&sigma[1..])),
        (5, limits.first_sigma.contains(&sigma[0])),
        // "X and B coefficients all zero".
        (6, zeros(x) && zeros(b)),
    ];
    kept.into_iter()
        .find(|(_, kept)| !kept)
        .map(|(rule, _)| rule)
}

/// "Building by profile checks it after SHAPE and before row-start room."
pub fn build_profile(
    description: &Description,
    given: &Given,
    edition: u32,
    rooms: &BuildRooms,
) -> Result<Table, Unmet> {
    if is_too_large(given) {
        return unmet(Code::Size, 0, 0);
    }
    profile(description, edition)?;
    build(description, given, rooms).map_err(Unmet::from)
}

#[cfg(test)]
mod tests {
    use super::*;
    use crate::AMPLE;

    /// So many plain splines.
    fn plain(splines: usize) -> Description {
        let mut coefficients = vec![0; 128];
        coefficients[32..64].fill(7);
        coefficients[96] = 400;
        Description {
            counts: vec![1; splines],
            starts: vec![3.0; 2 * splines],
            deltas: vec![2; 2 * splines],
            coefficients: coefficients.repeat(splines),
            adjustment: 0,
        }
    }

    fn told(description: &Description, edition: u32) -> Option<(Code, u64, u64)> {
        let unmet = profile(description, edition).err()?;
        Some((unmet.refusal.code, unmet.refusal.place, unmet.rule))
    }

    fn edited(edition: u32, edit: fn(&mut Description)) -> Option<(Code, u64, u64)> {
        let mut description = plain(3);
        edit(&mut description);
        told(&description, edition)
    }

    fn broken(rule: u64, spline: u64) -> Option<(Code, u64, u64)> {
        Some((Code::Profile, spline, rule))
    }

    #[test]
    fn the_rules() {
        for edition in [1, 2] {
            assert_eq!(told(&plain(1), edition), None);
            assert_eq!(told(&plain(4096), edition), None);
            assert_eq!(told(&plain(4097), edition), broken(1, 0));
            assert_eq!(told(&plain(0), edition), broken(1, 0));
            assert_eq!(edited(edition, |d| d.adjustment = 9), broken(3, 0));
            assert_eq!(
                edited(edition, |d| d.coefficients[128 + 127] = 1),
                broken(4, 1)
            );
            assert_eq!(edited(edition, |d| d.coefficients[96] = 0), broken(5, 0));
            assert_eq!(edited(edition, |d| d.coefficients[256] = -1), broken(6, 2));
            assert_eq!(edited(edition, |d| d.coefficients[95] = -1), broken(6, 0));
        }
        assert_eq!(edited(1, |d| d.coefficients[96] = 401), broken(5, 0));
        assert_eq!(edited(2, |d| d.coefficients[96] = 1600), None);
        assert_eq!(edited(2, |d| d.coefficients[96] = 1601), broken(5, 0));
        assert_eq!(edited(1, |d| d.adjustment = -1), broken(3, 0));
        assert_eq!(edited(2, |d| d.adjustment = -8), None);
        assert_eq!(edited(2, |d| d.adjustment = -9), broken(3, 0));
    }

    #[test]
    fn the_order() {
        let late = |d: &mut Description| d.coefficients[127] = 1;
        assert_eq!(edited(1, late), broken(4, 0));
        // The whole description first, then the earlier spline, then the earlier rule.
        assert_eq!(
            edited(1, |d| (d.adjustment, d.coefficients[127]) = (1, 1)),
            broken(3, 0)
        );
        assert_eq!(
            edited(1, |d| (d.coefficients[0], d.coefficients[255]) = (1, 1)),
            broken(6, 0)
        );
        assert_eq!(
            edited(1, |d| (d.coefficients[0], d.coefficients[96]) = (1, 0)),
            broken(5, 0)
        );
        let mut nothing = plain(0);
        nothing.adjustment = 5;
        assert_eq!(told(&nothing, 1), broken(1, 0));
        for edition in [0, 3, u32::MAX] {
            assert_eq!(told(&nothing, edition), Some((Code::Edition, 0, 0)));
        }
        nothing.counts.push(0);
        assert_eq!(told(&nothing, 3), Some((Code::Shape, 0, 0)));
    }

    #[test]
    fn building_by_profile() {
        let given = Given::of(20, 20);
        let rooms = BuildRooms {
            row_starts: 0,
            ..AMPLE
        };
        let code = |description: &Description, given: &Given, edition| {
            let built = build_profile(description, given, edition, &rooms);
            built.err().map(|unmet| (unmet.refusal.code, unmet.rule))
        };
        let plain = plain(1);
        assert!(build_profile(&plain, &given, 1, &AMPLE).is_ok());
        assert_eq!(code(&plain, &given, 1), Some((Code::Room, 0)));
        assert_eq!(code(&plain, &given, 0), Some((Code::Edition, 0)));
        let coloured = Description {
            coefficients: vec![1; 128],
            ..plain
        };
        assert_eq!(code(&coloured, &given, 1), Some((Code::Profile, 4)));
        let wide = Given::of((1 << 23) + 1, 20);
        assert_eq!(code(&coloured, &wide, 9), Some((Code::Size, 0)));
    }
}
