//! Trace files.

use super::bytes::Bytes;
use super::list::{description, list_rooms, MOST_ROOM};
use crate::port::trace::{wrong_read, wrong_write};
use crate::port::trace2;

/// What is left of the input is the file.
pub fn read(bytes: &mut Bytes) {
    let rooms = list_rooms(bytes);
    let file = bytes.0;
    let expected = model::trace_read(file, &rooms);
    let wrong = wrong_read(file, &rooms, &expected);
    assert_eq!(wrong, None, "trace file {file:?}, {rooms:?}");
}

pub fn write(bytes: &mut Bytes) {
    let room = bytes.length(MOST_ROOM) as u64;
    let description = description(bytes);
    let expected = model::trace_write(&description, room);
    let wrong = wrong_write(&description, room, &expected);
    assert_eq!(
        wrong, None,
        "trace to be written {description:?}, room {room}"
    );
}

pub fn read2(bytes: &mut Bytes) {
    let rooms = list_rooms(bytes);
    let file = bytes.0;
    let expected = model::trace_read2(file, &rooms);
    let wrong = trace2::wrong_read(file, &rooms, &expected);
    assert_eq!(wrong, None, "trace file {file:?}, {rooms:?}");
}

pub fn write2(bytes: &mut Bytes) {
    let room = bytes.length(MOST_ROOM) as u64;
    let (version, edition) = (bytes.number(), bytes.number());
    let description = description(bytes);
    let expected = model::trace_write2(&description, version, edition, room);
    let wrong = trace2::wrong_write(&description, version, edition, room, &expected);
    assert_eq!(
        wrong, None,
        "trace to be written {description:?}, version {version}, edition {edition}, room {room}"
    );
}
