//! The fineness profile, which spline.rs does not know: the second reading against itself. What edition 1 takes edition 2 takes too, and a build by
//! profile is the build of what meets it.

use crate::build::same_table;
use crate::tally::Tally;
use crate::verdict::{equal, Verdict};
use cases::each;
use cases::profiles::{profile_case, ProfileCase, PROFILE_KINDS};
use model::AMPLE;

const CASES_A_KIND: u64 = 1_024;

pub fn compare(tally: &mut Tally) {
    for (kind, seed) in each(&PROFILE_KINDS, CASES_A_KIND) {
        let case = profile_case(kind, seed);
        tally.add(kind, seed, &case, judged(&case));
    }
}

fn judged(ProfileCase { case, edition }: &ProfileCase) -> Verdict {
    let [first, second] = [1, 2].map(|edition| model::profile(&case.description, edition));
    if first.is_ok() && second.is_err() {
        return equal(false, &first, &second);
    }
    let met = model::profile(&case.description, *edition);
    let by_profile = model::build_profile(&case.description, &case.given, *edition, &AMPLE);
    let built = model::build(&case.description, &case.given, &AMPLE);
    match (&by_profile, &built) {
        (Ok(mine), Ok(table)) => equal(met.is_ok() && same_table(mine, table), mine, table),
        (Err(unmet), _) if unmet.rule > 0 => match met {
            Err(broken) if broken == *unmet => Verdict::Outside(unmet.refusal.code),
            _ => equal(false, &by_profile, &met),
        },
        (Err(unmet), Err(refusal)) if unmet.refusal == *refusal => Verdict::Outside(refusal.code),
        (Err(unmet), _) if met == Err(*unmet) => Verdict::Outside(unmet.refusal.code),
        _ => equal(false, &by_profile, &built),
    }
}
