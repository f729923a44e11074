//! Reading and writing.

use super::bytes::Bytes;
use crate::port::read::{not_read_back, original, PortRead};
use crate::port::write::PortWritten;
use crate::port::{told_read, told_write};
use cases::lists::{ListCase, WriteCase};
use cases::{Code, Description};
use model::ListRooms;

/// No lent buffer is longer.
pub const MOST_ROOM: usize = 1 << 14;

pub fn read(bytes: &mut Bytes) {
    let rooms = list_rooms(bytes);
    let (configured, pixels) = (bytes.number(), bytes.number());
    let list = bytes.numbers();
    let case = ListCase {
        list,
        configured,
        pixels,
    };
    let expected = model::read(&case.list, configured, pixels, &rooms);
    let read = PortRead::of(&case, &rooms);
    assert!(
        read.is(&expected),
        "reading {rooms:?} {case:?}: the port {:?}, the second reading {:?}",
        read.told(),
        told_read(&expected)
    );
    let room = matches!(&expected, Err(refusal) if refusal.code == Code::Room);
    if let (Some(original), false) = (original(&case), room) {
        assert!(
            read.is(&original),
            "reading {case:?}: the port {:?}, spline.rs {:?}",
            read.told(),
            told_read(&original)
        );
    }
    if expected.is_ok() {
        assert_eq!(read.not_written_back(&case), None, "{case:?}");
    }
}

pub fn list_rooms(bytes: &mut Bytes) -> ListRooms {
    let mut room = || bytes.length(MOST_ROOM) as u64;
    ListRooms {
        counts: room(),
        starts: room(),
        deltas: room(),
        coefficients: room(),
    }
}

/// The parts of a description, whose lengths need not agree.
pub fn description(bytes: &mut Bytes) -> Description {
    Description {
        adjustment: bytes.signed(),
        counts: bytes.numbers(),
        starts: bytes.floats(),
        deltas: bytes.signed_numbers(),
        coefficients: bytes.signed_numbers(),
    }
}

pub fn write(bytes: &mut Bytes) {
    let list_room = bytes.length(MOST_ROOM) as u64;
    let (configured, pixels) = (bytes.number(), bytes.number());
    let description = description(bytes);
    let case = WriteCase {
        description,
        configured,
        pixels,
        list_room,
    };
    let expected = model::write(&case.description, configured, pixels, list_room);
    let written = PortWritten::of(&case, list_room);
    assert!(
        written.is(&expected),
        "writing {case:?}: the port {:?}, the second reading {:?}",
        written.told(),
        told_write(&expected)
    );
    if let Ok(list) = expected {
        let list_case = ListCase {
            list,
            configured,
            pixels,
        };
        assert_eq!(
            not_read_back(&list_case, &case.description),
            None,
            "{case:?}"
        );
    }
}
