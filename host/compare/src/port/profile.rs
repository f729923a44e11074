//! The fineness profile: the check, and building by it with rooms exact, larger, one short each and none. A build by profile that the profile does
//! not refuse is held against the build, every cell, and against spline.rs where that decides.

use super::build::{exact_rooms, original, rooms, Expected, PortBuilt};
use super::tally::Tally;
use super::{guarded, parts, told_build, told_refusal, told_table};
use cases::profiles::{profile_case, ProfileCase, GREAT_KINDS, PROFILE_KINDS};
use cases::random::Random;
use cases::{each, few, Code, Refusal, Table};
use model::{BuildRooms, Unmet};
use port::Answer;

const CHECKS_A_KIND: u64 = 8_192;
const BUILDS_A_KIND: u64 = 600;
const GREAT_A_KIND: u64 = 12;

pub fn compare_check(tally: &mut Tally) {
    for (kind, seed) in each(&PROFILE_KINDS, CHECKS_A_KIND).chain(few(&GREAT_KINDS, GREAT_A_KIND)) {
        let case = profile_case(kind, seed);
        tally.cases += 1;
        let expected = model::profile(&case.case.description, case.edition);
        tally.called(&refusal_of(&expected));
        if let Some(words) = wrong_check(&case, &expected) {
            tally.differs(format!(
                "profile, kind {kind}, seed {seed}: {case:?}\n  {words}"
            ));
        }
    }
}

/// An answer without its rule.
pub(super) fn refusal_of<T>(expected: &Result<T, Unmet>) -> Result<(), Refusal> {
    match expected {
        Ok(_) => Ok(()),
        Err(unmet) => Err(unmet.refusal),
    }
}

/// In words, if the port holds this description against the profile otherwise.
pub fn wrong_check(case: &ProfileCase, expected: &Result<(), Unmet>) -> Option<String> {
    let told = guarded::profile(&parts(&case.case.description), case.edition);
    let due = match expected {
        Ok(()) => (0, [0; 5]),
        Err(unmet) => told_unmet(unmet),
    };
    (told != due).then(|| format!("port:  {told:?}\n  model: {due:?}"))
}

/// "the one refusal whose counts are not all 0".
pub(super) fn told_unmet(unmet: &Unmet) -> (u32, Answer) {
    let (code, mut answer) = told_refusal(&unmet.refusal);
    answer[1] = unmet.rule as i64;
    (code, answer)
}

pub fn compare_build(tally: &mut Tally) {
    for (kind, seed) in each(&PROFILE_KINDS, BUILDS_A_KIND) {
        compare_case(tally, kind, seed, usize::MAX);
    }
    for (kind, seed) in few(&GREAT_KINDS, GREAT_A_KIND) {
        compare_case(tally, kind, seed, 2);
    }
}

/// With so many of the rooms.
fn compare_case(tally: &mut Tally, kind: &str, seed: u64, most: usize) {
    let case = &profile_case(kind, seed);
    let model = Expected::of(&case.case);
    let Some(exact) = exact_rooms(&case.case, &model) else {
        return;
    };
    let met = model::profile(&case.case.description, case.edition).is_ok();
    tally.cases += 1;
    let whole = original(&case.case);
    let all = rooms(&exact, &mut Random::new("rooms", seed));
    for rooms in all.into_iter().take(most) {
        // What meets the profile is built as any other.
        let built = met.then(|| model.in_rooms(&case.case, &rooms, seed));
        let expected = match built.as_deref() {
            Some(built) => built.as_ref().map_err(|&refusal| Unmet::from(refusal)),
            None => Err(expected_build(case, &rooms).expect_err("an unmet profile")),
        };
        tally.called(&refusal_of(&expected));
        let judged = expected.is_ok().then_some(whole.as_ref()).flatten();
        tally.by_rust += u64::from(judged.is_some());
        if let Some(words) = wrong_build(case, &rooms, &expected, judged) {
            tally.differs(format!(
                "build by profile, kind {kind}, seed {seed}, {rooms:?}: {case:?}\n  {words}"
            ));
        }
    }
}

/// What the second reading builds by profile.
pub fn expected_build(case: &ProfileCase, rooms: &BuildRooms) -> Result<Table, Unmet> {
    let ProfileCase { case, edition } = case;
    model::build_profile(&case.description, &case.given, *edition, rooms)
}

/// In words, if the port builds this by profile otherwise than the second reading, than spline.rs, or than the port builds what it does not refuse
/// by the profile.
pub fn wrong_build(
    case: &ProfileCase,
    rooms: &BuildRooms,
    expected: &Result<&Table, Unmet>,
    judged: Option<&Result<Table, Refusal>>,
) -> Option<String> {
    let built = PortBuilt::of_profile(&case.case, case.edition, rooms);
    let told = built.told();
    let nothing = Table::default();
    let (due, table) = match expected {
        Ok(table) => (told_table(table), *table),
        Err(unmet) => (told_unmet(unmet), &nothing),
    };
    if told != due || !built.holds(table) {
        return Some(format!(
            "port:  {told:?}, or cells differ\n  model: {due:?}"
        ));
    }
    if let Some(judged) = judged.filter(|judged| !built.is(judged)) {
        return Some(format!("spline.rs: {:?}", told_build(judged)));
    }
    if matches!(expected, Err(unmet) if matches!(unmet.refusal.code, Code::Profile | Code::Edition))
    {
        return None;
    }
    let plain = PortBuilt::of(&case.case, rooms);
    (!built.is_as(&plain)).then(|| format!("the port's build: {:?}, or cells differ", plain.told()))
}
