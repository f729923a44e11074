//! The list (the scope, "The list"): reading it into a description, and writing a description as a list.

use cases::{Code, Description, Refusal};

/// Lengths of the buffers that reading is lent.
#[derive(Clone, Copy, Debug)]
pub struct ListRooms {
    pub counts: u64,
    pub starts: u64,
    pub deltas: u64,
    pub coefficients: u64,
}

/// COORD: "a start with a coordinate of magnitude 2^23 or more".
const COORD_LIMIT: i64 = 1 << 23;
/// DELTA: "a double delta of magnitude 2^30 or more".
pub const DELTA_LIMIT: i64 = 1 << 30;

/// "Limit L = min(configured limit, pixels / 2 rounded down)".
pub fn limit(configured: u32, pixels: u32) -> u64 {
    u64::from(configured).min(u64::from(pixels) / 2)
}

/// "even u gives u/2, odd u gives -(u+1)/2".
pub fn unpack(u: u32) -> i32 {
    let u = i64::from(u);
    let value = if u % 2 == 0 { u / 2 } else { -(u + 1) / 2 };
    value as i32
}

/// The u32 that unpacks to this value: 2v, or -2v-1 below 0.
pub fn pack(value: i32) -> u32 {
    let v = i64::from(value);
    let packed = if v < 0 { -2 * v - 1 } else { 2 * v };
    packed as u32
}

/// DELTA's condition, for one of the two numbers of a pair.
pub fn outrageous(double_delta: i32) -> bool {
    i64::from(double_delta).abs() >= DELTA_LIMIT
}

/// A refusal at an index of the list.
fn refuse<T>(code: Code, place: usize) -> Result<T, Refusal> {
    let place = place as u64;
    Err(Refusal { code, place })
}

/// The list and how far it has been read.
struct Reader<'a> {
    list: &'a [u32],
    index: usize,
}

impl Reader<'_> {
    /// "reads the next value of the list or stops with SHORT"; "SHORT: list length" (Codes).
    fn value(&mut self) -> Result<u32, Refusal> {
        let Some(&value) = self.list.get(self.index) else {
            return refuse(Code::Short, self.list.len());
        };
        self.index += 1;
        Ok(value)
    }

    fn signed(&mut self) -> Result<i32, Refusal> {
        self.value().map(unpack)
    }
}

/// "Order: spline count less one; starts x, y; adjustment; per spline its point count, pairs of double deltas, then 32
/// values each for X, Y, B and sigma." The checks stand where "Order of checks" has them, SHORT before any other.
pub fn read(
    list: &[u32],
    configured: u32,
    pixels: u32,
    rooms: &ListRooms,
) -> Result<Description, Refusal> {
    let most = limit(configured, pixels);
    let mut reader = Reader { list, index: 0 };
    let splines = u64::from(reader.value()?) + 1;
    if splines > most {
        return refuse(Code::Splines, 0);
    }
    if splines > rooms.counts || 2 * splines > rooms.starts || 128 * splines > rooms.coefficients {
        return refuse(Code::Room, 0);
    }
    let mut description = Description {
        starts: read_starts(&mut reader, splines)?,
        adjustment: reader.signed()?,
        ..Description::default()
    };
    for _ in 0..splines {
        read_spline(&mut reader, most, rooms.deltas, &mut description)?;
    }
    if reader.index < list.len() {
        return refuse(Code::Trail, reader.index);
    }
    Ok(description)
}

/// "The first start is unsigned; later ones are signed differences." "COORD after both coordinates"; its place is x's.
fn read_starts(reader: &mut Reader, splines: u64) -> Result<Vec<f32>, Refusal> {
    let mut starts = Vec::new();
    let mut last = [0i64; 2];
    for spline in 0..splines {
        let place = reader.index;
        let pair = [reader.value()?, reader.value()?];
        let start = if spline == 0 {
            pair.map(i64::from)
        } else {
            [0, 1].map(|axis| last[axis] + i64::from(unpack(pair[axis])))
        };
        if start
            .iter()
            .any(|coordinate| coordinate.abs() >= COORD_LIMIT)
        {
            return refuse(Code::Coord, place);
        }
        starts.extend(start.map(|coordinate| coordinate as f32));
        last = start;
    }
    Ok(starts)
}

/// "POINTS then ROOM (for double deltas) at each point count", then the pairs, then 128 coefficients.
fn read_spline(
    reader: &mut Reader,
    most: u64,
    delta_room: u64,
    description: &mut Description,
) -> Result<(), Refusal> {
    let place = reader.index;
    let count = reader.value()?;
    let before = description.deltas.len() as u64 / 2;
    let total = before + u64::from(count);
    if total > most {
        return refuse(Code::Points, place);
    }
    if 2 * total > delta_room {
        return refuse(Code::Room, place);
    }
    description.counts.push(count);
    for _ in 0..count {
        description.deltas.extend(read_pair(reader)?);
    }
    let coefficients: Result<Vec<i32>, Refusal> = (0..128).map(|_| reader.signed()).collect();
    description.coefficients.extend(coefficients?);
    Ok(())
}

/// "DELTA after both of a pair"; its place is x's.
fn read_pair(reader: &mut Reader) -> Result<[i32; 2], Refusal> {
    let place = reader.index;
    let pair = [reader.signed()?, reader.signed()?];
    if pair.into_iter().any(outrageous) {
        return refuse(Code::Delta, place);
    }
    Ok(pair)
}

/// SHAPE's condition: "S counts need 2S start numbers, two delta numbers a point, 128S coefficients, exactly" (Codes).
pub fn well_shaped(description: &Description) -> bool {
    let splines = description.counts.len() as u128;
    let points: u128 = description
        .counts
        .iter()
        .map(|&count| u128::from(count))
        .sum();
    description.starts.len() as u128 == 2 * splines
        && description.deltas.len() as u128 == 2 * points
        && description.coefficients.len() as u128 == 128 * splines
}

/// "The writer is given the same two numbers for L. It checks SHAPE, then in the same list order, then ROOM." The places
/// are "writer's ROOM: lent length; writer's SHAPE: 0" (Codes), and else the index that the value would have.
pub fn write(
    description: &Description,
    configured: u32,
    pixels: u32,
    list_room: u64,
) -> Result<Vec<u32>, Refusal> {
    let most = limit(configured, pixels);
    if !well_shaped(description) {
        return refuse(Code::Shape, 0);
    }
    let splines = description.counts.len() as u64;
    // SPLINES: "spline count above the limit, or a writer's count of 0".
    if splines == 0 || splines > most {
        return refuse(Code::Splines, 0);
    }
    let mut list = vec![(splines - 1) as u32];
    write_starts(&description.starts, &mut list)?;
    list.push(pack(description.adjustment));
    let (mut used, mut points) = (0, 0);
    for (&count, coefficients) in description
        .counts
        .iter()
        .zip(description.coefficients.chunks(128))
    {
        points += u64::from(count);
        if points > most {
            return refuse(Code::Points, list.len());
        }
        list.push(count);
        let past = 2 * points as usize;
        write_deltas(&description.deltas[used..past], &mut list)?;
        used = past;
        list.extend(coefficients.iter().map(|&value| pack(value)));
    }
    if list.len() as u64 > list_room {
        return refuse(Code::Room, list_room as usize);
    }
    Ok(list)
}

/// The starts: the first as it is, later ones as differences.
fn write_starts(starts: &[f32], list: &mut Vec<u32>) -> Result<(), Refusal> {
    let mut last = None;
    for pair in starts.chunks(2) {
        let (Some(x), Some(y)) = (
            listed(pair[0], last.is_none()),
            listed(pair[1], last.is_none()),
        ) else {
            return refuse(Code::Coord, list.len());
        };
        list.extend(match last {
            None => [x as u32, y as u32],
            Some((before_x, before_y)) => [pack(x - before_x), pack(y - before_y)],
        });
        last = Some((x, y));
    }
    Ok(())
}

/// A coordinate as a whole number, unless it is COORD's: "magnitude 2^23 or more; writer also: not whole, minus zero, NaN,
/// or a negative first start" (Codes).
fn listed(coordinate: f32, first: bool) -> Option<i32> {
    let fits = coordinate.abs() < COORD_LIMIT as f32;
    let whole = coordinate.trunc() == coordinate;
    let minus_zero = coordinate == 0.0 && coordinate.is_sign_negative();
    let negative_first = first && coordinate < 0.0;
    (fits && whole && !minus_zero && !negative_first).then_some(coordinate as i32)
}

/// One spline's double deltas.
fn write_deltas(deltas: &[i32], list: &mut Vec<u32>) -> Result<(), Refusal> {
    for pair in deltas.chunks(2) {
        if pair.iter().any(|&value| outrageous(value)) {
            return refuse(Code::Delta, list.len());
        }
        list.extend(pair.iter().map(|&value| pack(value)));
    }
    Ok(())
}

#[cfg(test)]
mod tests {
    use super::*;

    #[test]
    fn unpacking() {
        assert_eq!(unpack(3), -2);
        assert_eq!(unpack(u32::MAX), i32::MIN);
        for value in [0, 1, -1, i32::MAX, i32::MIN] {
            assert_eq!(unpack(pack(value)), value);
        }
    }

    #[test]
    fn coordinates_of_starts() {
        assert_eq!(listed(8388607.0, true), Some(8388607));
        assert_eq!(listed(-8388607.0, false), Some(-8388607));
        for bad in [f32::NAN, -0.0, 0.5, 8388608.0, -8388608.0, f32::INFINITY] {
            assert_eq!(listed(bad, false), None);
        }
        assert_eq!(listed(-1.0, true), None);
    }

    const ROOMS: ListRooms = ListRooms {
        counts: 2,
        starts: 4,
        deltas: 2,
        coefficients: 256,
    };

    /// Two splines at (5, 6) and (4, 8), with one double delta in all.
    fn list() -> Vec<u32> {
        let mut list = vec![1, 5, 6, pack(-1), pack(2), pack(-3), 1, pack(7), pack(-7)];
        list.extend([9; 128]);
        list.push(0);
        list.extend([8; 128]);
        list
    }

    fn refused(list: &[u32], configured: u32, rooms: &ListRooms) -> Option<(Code, u64)> {
        let refusal = read(list, configured, 100, rooms).err();
        refusal.map(|refusal| (refusal.code, refusal.place))
    }

    #[test]
    fn lists_are_read_and_written() {
        let description = read(&list(), 2, 100, &ROOMS).unwrap();
        assert_eq!(description.starts, [5.0, 6.0, 4.0, 8.0]);
        assert_eq!(description.deltas, [7, -7]);
        assert_eq!(description.adjustment, -3);
        let length = list().len() as u64;
        assert_eq!(write(&description, 2, 100, length), Ok(list()));
        let short = Refusal {
            code: Code::Room,
            place: length - 1,
        };
        assert_eq!(write(&description, 2, 100, length - 1), Err(short));
        let splines = Refusal {
            code: Code::Splines,
            place: 0,
        };
        assert_eq!(write(&Description::default(), 2, 100, length), Err(splines));
    }

    #[test]
    fn lists_that_are_refused() {
        for length in 0..list().len() {
            let short = Some((Code::Short, length as u64));
            assert_eq!(refused(&list()[..length], 2, &ROOMS), short);
        }
        let mut longer = list();
        longer.push(0);
        assert_eq!(
            refused(&longer, 2, &ROOMS),
            Some((Code::Trail, list().len() as u64))
        );
        assert_eq!(refused(&list(), 1, &ROOMS), Some((Code::Splines, 0)));
        let places = [
            (ListRooms { counts: 1, ..ROOMS }, 0),
            (ListRooms { starts: 3, ..ROOMS }, 0),
            (
                ListRooms {
                    coefficients: 255,
                    ..ROOMS
                },
                0,
            ),
            (ListRooms { deltas: 1, ..ROOMS }, 6),
        ];
        for (rooms, place) in places {
            assert_eq!(refused(&list(), 2, &rooms), Some((Code::Room, place)));
        }
    }

    #[test]
    fn values_that_are_refused() {
        for (index, value, refusal) in [
            (2, 1 << 23, (Code::Coord, 1)),
            (4, pack(-(1 << 23) - 6), (Code::Coord, 3)),
            (6, 3, (Code::Points, 6)),
            (8, pack(1 << 30), (Code::Delta, 7)),
            (137, 2, (Code::Points, 137)),
        ] {
            let mut list = list();
            list[index] = value;
            assert_eq!(refused(&list, 2, &ROOMS), Some(refusal));
        }
    }
}
