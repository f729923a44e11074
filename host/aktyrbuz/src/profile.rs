//! The fineness profile, on which class certificates may rest.

use crate::code::{judged, Code, Refusal};
use crate::{Description, Table};
use port::Image;
use std::cell::Cell;
use std::fmt;

/// An edition of the profile. What the first takes the second takes too.
#[derive(Clone, Copy, Debug, PartialEq, Eq, Hash)]
#[repr(u32)]
pub enum Edition {
    /// 1 to 64 double deltas, adjustment 0, a first sigma coefficient of 1 to 400.
    One = 1,
    /// 1 to 256 double deltas, adjustment -8 to 8, a first sigma coefficient of 1 to 1600.
    Two = 2,
}

impl Edition {
    pub fn number(self) -> u32 {
        self as u32
    }
}

/// What a profile check tells.
#[derive(Clone, Copy, Debug, PartialEq, Eq, Hash)]
pub enum Profile {
    Met,
    Broken(Broken),
}

/// The first broken rule, and the spline that breaks it; the rules 1 and 3 are the whole description's, and their spline is 0.
#[derive(Clone, Copy, Debug, PartialEq, Eq, Hash)]
pub struct Broken {
    pub rule: u32,
    pub spline: u64,
}

impl Broken {
    fn of(rule: i64, spline: u64) -> Broken {
        let rule = rule as u32;
        Broken { rule, spline }
    }

    /// The rule in words, where the editions differ without its numbers.
    fn words(self) -> &'static str {
        match self.rule {
            1 => "there are 1 to 4096 splines",
            2 => "a spline has as many double deltas as the edition allows, and one at least",
            3 => "the adjustment is one that the edition allows",
            4 => "sigma coefficients are zero after the first",
            5 => "the first sigma coefficient is one that the edition allows",
            _ => "X and B coefficients are all zero",
        }
    }
}

impl fmt::Display for Broken {
    fn fmt(&self, f: &mut fmt::Formatter<'_>) -> fmt::Result {
        let Broken { rule, spline } = self;
        match rule {
            1 | 3 => write!(f, "rule {rule} is broken: {}", self.words()),
            _ => write!(
                f,
                "rule {rule} is broken by spline {spline}: {}",
                self.words()
            ),
        }
    }
}

/// Why a build by profile made no table.
#[derive(Clone, Copy, Debug, PartialEq, Eq, Hash)]
pub enum Unbuilt {
    Broken(Broken),
    Refused(Refusal),
}

impl fmt::Display for Unbuilt {
    fn fmt(&self, f: &mut fmt::Formatter<'_>) -> fmt::Result {
        match self {
            Unbuilt::Broken(broken) => broken.fmt(f),
            Unbuilt::Refused(refusal) => refusal.fmt(f),
        }
    }
}

impl std::error::Error for Unbuilt {}

impl Description {
    /// Whether this meets an edition of the profile, or else the first broken rule: rules 1 and 3 before all others, then spline by spline. Lengths
    /// that disagree are refused with [`Code::Shape`].
    pub fn profile(&self, edition: Edition) -> Result<Profile, Refusal> {
        let told = port::profile(&self.parts(), edition.number());
        match judged(told) {
            Ok(_) => Ok(Profile::Met),
            Err(refusal) if refusal.code == Code::Profile => {
                Ok(Profile::Broken(Broken::of(told.1[1], refusal.place)))
            }
            Err(refusal) => Err(refusal),
        }
    }
}

impl Table {
    /// [`Table::build`] of a description that meets an edition of the profile; of no other.
    pub fn build_profile(
        description: &Description,
        image: &Image,
        edition: Edition,
    ) -> Result<Table, Unbuilt> {
        // The rule stands where a refusal's counts are, which a refusal leaves out.
        let rule = Cell::new(0);
        let built = Table::build_by(description, image, |parts, image, lent| {
            let told = port::build_profile(parts, image, edition.number(), lent);
            rule.set(told.1[1]);
            told
        });
        built.map_err(|refusal| match refusal.code {
            Code::Profile => Unbuilt::Broken(Broken::of(rule.get(), refusal.place)),
            _ => Unbuilt::Refused(refusal),
        })
    }
}

#[cfg(test)]
mod tests {
    use super::*;

    /// Two plain fibres.
    fn plain() -> Description {
        let mut coefficients = vec![0; 128];
        coefficients[32] = 20;
        coefficients[96] = 6;
        Description {
            counts: vec![1, 1],
            starts: vec![10.0, 8.0, 10.0, 4.0],
            deltas: vec![30, 0, 30, 1],
            coefficients: coefficients.repeat(2),
            adjustment: 0,
        }
    }

    fn told(edit: fn(&mut Description), edition: Edition) -> Result<Profile, Refusal> {
        let mut description = plain();
        edit(&mut description);
        description.profile(edition)
    }

    fn broken(rule: u32, spline: u64) -> Result<Profile, Refusal> {
        Ok(Profile::Broken(Broken { rule, spline }))
    }

    #[test]
    fn the_rules_of_both_editions() {
        for edition in [Edition::One, Edition::Two] {
            assert_eq!(told(|_| {}, edition), Ok(Profile::Met));
            assert_eq!(told(|d| *d = Description::default(), edition), broken(1, 0));
            assert_eq!(told(|d| d.coefficients[255] = 1, edition), broken(4, 1));
            assert_eq!(told(|d| d.coefficients[0] = 1, edition), broken(6, 0));
        }
        let wide = |d: &mut Description| d.coefficients[128 + 96] = 401;
        assert_eq!(told(wide, Edition::One), broken(5, 1));
        assert_eq!(told(wide, Edition::Two), Ok(Profile::Met));
        let adjusted = |d: &mut Description| d.adjustment = -8;
        assert_eq!(told(adjusted, Edition::One), broken(3, 0));
        assert_eq!(told(adjusted, Edition::Two), Ok(Profile::Met));
        let refusal = Refusal {
            code: Code::Shape,
            place: 0,
        };
        assert_eq!(told(|d| d.counts[0] = 2, Edition::One), Err(refusal));
    }

    #[test]
    fn what_meets_the_profile_is_built_and_nothing_else() {
        let image = Image::new(64, 16);
        let by_profile = Table::build_profile(&plain(), &image, Edition::One).expect("plain");
        let built = Table::build(&plain(), &image).expect("a good description");
        assert_eq!(by_profile.counts(), built.counts());
        let mut coloured = plain();
        coloured.coefficients[128] = 5;
        let broken = Broken { rule: 6, spline: 1 };
        let refused = Table::build_profile(&coloured, &image, Edition::Two).expect_err("coloured");
        assert_eq!(refused, Unbuilt::Broken(broken));
        assert_eq!(
            refused.to_string(),
            "rule 6 is broken by spline 1: X and B coefficients are all zero"
        );
        let mut nowhere = plain();
        nowhere.starts[2] = f32::NAN;
        let refusal = Refusal {
            code: Code::Position,
            place: 1,
        };
        let refused = Table::build_profile(&nowhere, &image, Edition::One).expect_err("NaN");
        assert_eq!(refused, Unbuilt::Refused(refusal));
    }
}
