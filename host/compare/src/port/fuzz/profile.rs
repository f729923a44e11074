//! The fineness profile.

use super::build::rooms_and_image;
use super::bytes::Bytes;
use super::list::description;
use crate::port::profile::{expected_build, wrong_build, wrong_check};
use cases::descriptions::BuildCase;
use cases::profiles::ProfileCase;
use cases::Given;

pub fn check(bytes: &mut Bytes) {
    let case = case(bytes, Given::of(0, 0));
    let expected = model::profile(&case.case.description, case.edition);
    assert_eq!(wrong_check(&case, &expected), None, "{case:?}");
}

fn case(bytes: &mut Bytes, given: Given) -> ProfileCase {
    let edition = bytes.number();
    let description = description(bytes);
    ProfileCase {
        case: BuildCase { description, given },
        edition,
    }
}

pub fn build(bytes: &mut Bytes) {
    let (rooms, given) = rooms_and_image(bytes);
    let case = case(bytes, given);
    let expected = expected_build(&case, &rooms);
    let expected = expected.as_ref().map_err(Clone::clone);
    let wrong = wrong_build(&case, &rooms, &expected, None);
    assert_eq!(wrong, None, "{case:?}, {rooms:?}");
}
