//! Line drawings.

use super::bytes::Bytes;
use super::list::{description, MOST_ROOM};
use crate::port::polyline::{wrong_read, wrong_write};

/// What is left of the input is the text.
pub fn read(bytes: &mut Bytes) {
    let rooms = [0; 2].map(|_| bytes.length(MOST_ROOM) as u64);
    let text = bytes.0;
    let expected = model::points_read(text, rooms[0], rooms[1]);
    let wrong = wrong_read(text, rooms, &expected);
    assert_eq!(wrong, None, "text of points {text:?}, rooms {rooms:?}");
}

pub fn write(bytes: &mut Bytes) {
    let room = bytes.length(MOST_ROOM) as u64;
    // One past all splines, or far past, in both halves.
    let spline = u64::from(bytes.number()) << (32 * u32::from(bytes.flag()));
    let description = description(bytes);
    let expected = model::points_write(&description, spline, room);
    let wrong = wrong_write(&description, spline, room, &expected);
    assert_eq!(
        wrong, None,
        "spline {spline} of {description:?} to be exported, room {room}"
    );
}
