//! The trace file (document 02, requests (i) and (x)): reading one into a description, and writing a description as one.
//!
//! Counts and offsets are whole numbers of 128 bits here, which nothing in 64 bits makes wrap. A comment in quotes is a sentence of those requests.

use crate::list::{outrageous, well_shaped, ListRooms};
use cases::{Code, Description, Refusal};
use std::ops::Range;

/// "The file opens with a header of eight little-endian 32-bit numbers: version 1, ..".
const HEADER: u128 = 32;
/// "Trace file version 2 has a ninth header number, the edition, so its parts start at byte 36".
const HEADER_2: u128 = 36;
/// "starts as signed whole numbers from -2^23 up to but not including 2^23".
const COORDINATES: Range<i32> = -(1 << 23)..1 << 23;
/// What 32 bits cannot hold.
const TOO_GREAT: u128 = 1 << 32;

fn refuse<T>(code: Code, place: u128) -> Result<T, Refusal> {
    let place = place as u64;
    Err(Refusal { code, place })
}

/// The byte at which the parts of a version start, which is one of the two.
fn start_of_parts(version: u32) -> u128 {
    match version {
        1 => HEADER,
        _ => HEADER_2,
    }
}

/// "The parts follow in that order from byte 32, with no gaps, each number four bytes": where each begins, and where the file ends.
fn layout(version: u32, splines: u128, points: u128) -> [u128; 5] {
    let numbers = [splines, 2 * splines, 2 * points, 128 * splines];
    let mut places = [start_of_parts(version); 5];
    for part in 0..4 {
        places[part + 1] = places[part] + 4 * numbers[part];
    }
    places
}

/// Little-endian numbers.
fn numbers(bytes: &[u8]) -> Vec<u32> {
    let fours = bytes.chunks_exact(4);
    fours
        .map(|b| (0..4).map(|k| u32::from(b[k]) << (8 * k)).sum())
        .collect()
}

fn signed(numbers: Vec<u32>) -> Vec<i32> {
    numbers.into_iter().map(|number| number as i32).collect()
}

/// "Refusals on reading: SHORT for a file below 32 bytes, 17 HEADER for a wrong version or offset, SHORT, TRAIL, SHAPE where counts do not sum to
/// P, COORD, DELTA, ROOM last". "Places are the byte offset of the number refused, for TRAIL of the first byte left over, for SHORT the file
/// length, for SHAPE and ROOM 0."
pub fn trace_read(bytes: &[u8], rooms: &ListRooms) -> Result<Description, Refusal> {
    read_versions(bytes, &[1], rooms).map(|(description, _)| description)
}

/// A file of either version, and its edition: "version 1 files are read as edition 1". "Refusals: SHORT for a version 2 file below 36 bytes, after
/// the version is read; 22 EDITION for an edition other than 1 or 2, after HEADER and before part lengths".
pub fn trace_read2(bytes: &[u8], rooms: &ListRooms) -> Result<(Description, u32), Refusal> {
    read_versions(bytes, &[1, 2], rooms)
}

fn read_versions(
    bytes: &[u8],
    known: &[u32],
    rooms: &ListRooms,
) -> Result<(Description, u32), Refusal> {
    let length = bytes.len() as u128;
    if length < HEADER {
        return refuse(Code::Short, length);
    }
    let version = numbers(&bytes[..4])[0];
    if !known.contains(&version) {
        return refuse(Code::Header, 0);
    }
    if length < start_of_parts(version) {
        return refuse(Code::Short, length);
    }
    let header = numbers(&bytes[..start_of_parts(version) as usize]);
    let (splines, points) = (u128::from(header[1]), u128::from(header[2]));
    let places = layout(version, splines, points);
    check_offsets(&header, &places)?;
    let edition = header.get(8).copied().unwrap_or(1);
    if !is_edition(edition) {
        return refuse(Code::Edition, EDITION_AT);
    }
    let end = places[4];
    if length < end {
        return refuse(Code::Short, length);
    }
    if length > end {
        return refuse(Code::Trail, end);
    }
    let part = |k: usize| numbers(&bytes[places[k] as usize..places[k + 1] as usize]);
    let description = Description {
        counts: part(0),
        starts: Vec::new(),
        deltas: signed(part(2)),
        coefficients: signed(part(3)),
        adjustment: header[3] as i32,
    };
    let counted: u128 = description.counts.iter().map(|&count| count as u128).sum();
    if counted != points {
        return refuse(Code::Shape, 0);
    }
    let starts = signed(part(1));
    refuse_first(Code::Coord, places[1], &starts, |start| {
        !COORDINATES.contains(start)
    })?;
    refuse_first(Code::Delta, places[2], &description.deltas, |&delta| {
        outrageous(delta)
    })?;
    if splines > rooms.counts.into()
        || 2 * splines > rooms.starts.into()
        || 2 * points > rooms.deltas.into()
        || 128 * splines > rooms.coefficients.into()
    {
        return refuse(Code::Room, 0);
    }
    let starts = starts.into_iter().map(|start| start as f32).collect();
    let description = Description {
        starts,
        ..description
    };
    Ok((description, edition))
}

/// Where the ninth number of a header stands.
const EDITION_AT: u128 = 32;

fn is_edition(edition: u32) -> bool {
    edition == 1 || edition == 2
}

/// "then four byte offsets for counts, starts, double deltas and coefficients".
fn check_offsets(header: &[u32], places: &[u128; 5]) -> Result<(), Refusal> {
    for (number, &place) in (4..8).zip(places) {
        if u128::from(header[number]) != place {
            return refuse(Code::Header, 4 * number as u128);
        }
    }
    Ok(())
}

/// The first number of a part that begins at this place which is to be refused, with its own place.
fn refuse_first<T>(
    code: Code,
    place: u128,
    numbers: &[T],
    refused: impl FnMut(&T) -> bool,
) -> Result<(), Refusal> {
    match numbers.iter().position(refused) {
        None => Ok(()),
        Some(index) => refuse(code, place + 4 * index as u128),
    }
}

/// "on writing SHAPE, HEADER (a count or offset of 2^32 or more), COORD (out of range, not whole, minus zero or NaN), DELTA, ROOM."
pub fn trace_write(description: &Description, room: u64) -> Result<Vec<u8>, Refusal> {
    trace_write2(description, 1, 1, room)
}

/// "on writing after SHAPE, also for edition 2 in version 1": EDITION comes there, and HEADER also for a version that there is not.
pub fn trace_write2(
    description: &Description,
    version: u32,
    edition: u32,
    room: u64,
) -> Result<Vec<u8>, Refusal> {
    if !well_shaped(description) {
        return refuse(Code::Shape, 0);
    }
    if !is_edition(edition) || version == 1 && edition == 2 {
        return refuse(Code::Edition, EDITION_AT);
    }
    if version != 1 && version != 2 {
        return refuse(Code::Header, 0);
    }
    let splines = description.counts.len() as u128;
    let points = description.deltas.len() as u128 / 2;
    let places = layout(version, splines, points);
    check_sizes(splines, points, &places)?;
    let starts = &description.starts;
    refuse_first(Code::Coord, places[1], starts, |&start| {
        whole(start).is_none()
    })?;
    let deltas = &description.deltas;
    refuse_first(Code::Delta, places[2], deltas, |&delta| outrageous(delta))?;
    if places[4] > room.into() {
        return refuse(Code::Room, 0);
    }
    let mut numbers = vec![version, splines as u32, points as u32];
    numbers.push(description.adjustment as u32);
    numbers.extend(places[..4].iter().map(|&place| place as u32));
    if version == 2 {
        numbers.push(edition);
    }
    numbers.extend(&description.counts);
    numbers.extend(starts.iter().filter_map(|&start| whole(start)));
    numbers.extend(deltas.iter().map(|&delta| delta as u32));
    numbers.extend(description.coefficients.iter().map(|&value| value as u32));
    let byte = |number: u32, k: u32| (number >> (8 * k)) as u8;
    let bytes = numbers
        .into_iter()
        .flat_map(|number| [0, 1, 2, 3].map(|k| byte(number, k)));
    Ok(bytes.collect())
}

/// The counts and offsets of a header to be written, each with its place.
fn check_sizes(splines: u128, points: u128, places: &[u128; 5]) -> Result<(), Refusal> {
    let mut sizes = vec![(4, splines), (8, points)];
    sizes.extend((4..8).map(|number| (4 * number, places[number as usize - 4])));
    match sizes.iter().find(|(_, size)| *size >= TOO_GREAT) {
        None => Ok(()),
        Some(&(place, _)) => refuse(Code::Header, place),
    }
}

/// A coordinate as it stands in the file, unless it is "out of range, not whole, minus zero or NaN".
fn whole(start: f32) -> Option<u32> {
    // Every f32 of these is a whole number of 32 bits and back.
    let number = start as i32;
    let same = (number as f32).to_bits() == start.to_bits();
    (same && COORDINATES.contains(&number)).then_some(number as u32)
}

#[cfg(test)]
mod tests {
    use super::*;

    const ROOMS: ListRooms = ListRooms {
        counts: 2,
        starts: 4,
        deltas: 2,
        coefficients: 256,
    };

    /// Two splines, the first with a negative start and one double delta.
    fn description() -> Description {
        Description {
            counts: vec![1, 0],
            starts: vec![-5.0, 6.0, -8_388_608.0, 8_388_607.0],
            deltas: vec![7, -7],
            coefficients: (-128..128).collect(),
            adjustment: -3,
        }
    }

    fn file() -> Vec<u8> {
        trace_write(&description(), u64::MAX).unwrap()
    }

    #[test]
    fn a_file_byte_by_byte() {
        let file = file();
        assert_eq!(file.len(), 32 + 8 + 16 + 8 + 1024);
        let head = [1, 0, 0, 0, 2, 0, 0, 0, 1, 0, 0, 0, 253, 255, 255, 255];
        assert_eq!(file[..16], head);
        let offsets = [32, 0, 0, 0, 40, 0, 0, 0, 56, 0, 0, 0, 64, 0, 0, 0];
        assert_eq!(file[16..32], offsets);
        assert_eq!(file[32..44], [1, 0, 0, 0, 0, 0, 0, 0, 251, 255, 255, 255]);
        assert_eq!(file[48..56], [0, 0, 128, 255, 255, 255, 127, 0]);
        assert_eq!(file[60..68], [249, 255, 255, 255, 128, 255, 255, 255]);
        assert_eq!(trace_read(&file, &ROOMS), Ok(description()));
        let empty = trace_write(&Description::default(), 32).unwrap();
        assert_eq!(empty.len(), 32);
        assert_eq!(trace_read(&empty, &ROOMS), Ok(Description::default()));
    }

    fn refused(file: &[u8], rooms: &ListRooms) -> Option<(Code, u64)> {
        let refusal = trace_read(file, rooms).err();
        refusal.map(|refusal| (refusal.code, refusal.place))
    }

    #[test]
    fn files_that_are_refused() {
        let end = file().len() as u64;
        for length in 0..file().len() {
            let short = Some((Code::Short, length as u64));
            assert_eq!(refused(&file()[..length], &ROOMS), short);
        }
        let mut longer = file();
        longer.extend([0, 0]);
        assert_eq!(refused(&longer, &ROOMS), Some((Code::Trail, end)));
        for (byte, value, refusal) in [
            (0, 2, (Code::Header, 0)),
            (16, 33, (Code::Header, 16)),
            (4, 3, (Code::Header, 20)),
            (8, 2, (Code::Header, 28)),
            (24, 0, (Code::Header, 24)),
            (32, 2, (Code::Shape, 0)),
            (51, 127, (Code::Coord, 48)),
            (55, 255, (Code::Coord, 52)),
            (59, 64, (Code::Delta, 56)),
            (63, 64, (Code::Delta, 60)),
        ] {
            let mut file = file();
            file[byte] = value;
            assert_eq!(refused(&file, &ROOMS), Some(refusal), "byte {byte}");
        }
        let short = ListRooms { deltas: 1, ..ROOMS };
        assert_eq!(refused(&file(), &short), Some((Code::Room, 0)));
    }

    #[test]
    fn descriptions_that_are_refused() {
        let end = file().len() as u64;
        let refused = |edit: fn(&mut Description), room| {
            let mut description = description();
            edit(&mut description);
            let refusal = trace_write(&description, room).err();
            refusal.map(|refusal| (refusal.code, refusal.place))
        };
        let room = Some((Code::Room, 0));
        assert_eq!(refused(|_| {}, end), None);
        assert_eq!(refused(|_| {}, end - 1), room);
        let shape = Some((Code::Shape, 0));
        assert_eq!(refused(|d| d.counts[1] = 1, 0), shape);
        let coord = Some((Code::Coord, 44));
        for edit in [
            (|d| d.starts[1] = -0.0) as fn(&mut Description),
            |d| d.starts[1] = 0.5,
            |d| d.starts[1] = f32::NAN,
            |d| d.starts[1] = 8_388_608.0,
            |d| d.starts[1] = -8_388_609.0,
            |d| d.starts[1] = f32::INFINITY,
        ] {
            assert_eq!(refused(edit, 0), coord);
        }
        let delta = Some((Code::Delta, 60));
        assert_eq!(refused(|d| d.deltas[1] = -(1 << 30), 0), delta);
        // One that 32 bits cannot hold, first in the order of the header.
        let sizes = |splines, points| {
            let refusal = check_sizes(splines, points, &layout(1, splines, points)).err();
            refusal.map(|refusal| refusal.place)
        };
        assert_eq!(sizes(1 << 32, 1 << 32), Some(4));
        assert_eq!(sizes(1, 1 << 32), Some(8));
        assert_eq!(sizes((1 << 30) - 8, 0), Some(20));
        assert_eq!(sizes(357_913_939, 0), Some(24));
        assert_eq!(sizes(1, 1 << 29), Some(28));
        assert_eq!(sizes(1, (1 << 29) - 6), None);
    }

    fn file_2(edition: u32) -> Vec<u8> {
        trace_write2(&description(), 2, edition, u64::MAX).unwrap()
    }

    #[test]
    fn files_of_version_2() {
        let (old, new) = (file(), file_2(2));
        assert_eq!(new.len(), old.len() + 4);
        assert_eq!((new[0], &new[1..16]), (2, &old[1..16]));
        let offsets = [36, 0, 0, 0, 44, 0, 0, 0, 60, 0, 0, 0, 68, 0, 0, 0];
        assert_eq!(
            (&new[16..32], &new[32..36]),
            (&offsets[..], &[2, 0, 0, 0][..])
        );
        assert_eq!(new[36..], old[32..]);
        for edition in [1, 2] {
            let read = trace_read2(&file_2(edition), &ROOMS);
            assert_eq!(read, Ok((description(), edition)));
        }
        assert_eq!(trace_read2(&old, &ROOMS), Ok((description(), 1)));
        assert_eq!(refused(&new, &ROOMS), Some((Code::Header, 0)));
    }

    #[test]
    fn files_of_version_2_that_are_refused() {
        let refused = |file: &[u8]| {
            let refusal = trace_read2(file, &ROOMS).err();
            refusal.map(|refusal| (refusal.code, refusal.place))
        };
        let file = file_2(2);
        for length in 0..file.len() {
            assert_eq!(refused(&file[..length]), Some((Code::Short, length as u64)));
        }
        for (byte, value, refusal) in [
            (0, 3, (Code::Header, 0)),
            (0, 1, (Code::Header, 16)),
            (16, 32, (Code::Header, 16)),
            (28, 0, (Code::Header, 28)),
            (32, 3, (Code::Edition, 32)),
            (32, 0, (Code::Edition, 32)),
            (35, 1, (Code::Edition, 32)),
            (36, 2, (Code::Shape, 0)),
            (55, 127, (Code::Coord, 52)),
        ] {
            let mut file = file.clone();
            file[byte] = value;
            assert_eq!(refused(&file), Some(refusal), "byte {byte}");
            // The edition is looked at after the offsets and before the length.
            if refusal.0 == Code::Edition {
                assert_eq!(refused(&file[..36]), Some(refusal));
                file[16] = 0;
                assert_eq!(refused(&file), Some((Code::Header, 16)));
            }
        }
    }

    #[test]
    fn versions_and_editions_that_are_refused() {
        let refused = |version, edition| {
            let refusal = trace_write2(&description(), version, edition, 0).err();
            refusal.map(|refusal| (refusal.code, refusal.place))
        };
        let edition = Some((Code::Edition, 32));
        for (version, number) in [(1, 2), (1, 0), (2, 3), (2, 0), (3, 3), (0, u32::MAX)] {
            assert_eq!(refused(version, number), edition);
        }
        for version in [0, 3, u32::MAX] {
            assert_eq!(refused(version, 2), Some((Code::Header, 0)));
        }
        assert_eq!(refused(2, 2), Some((Code::Room, 0)));
    }
}
