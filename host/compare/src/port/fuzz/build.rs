//! Building, and drawing a part of what was built for a desk.

use super::bytes::Bytes;
use super::list::description;
use super::table::{draw_part, sight};
use crate::build::same_table;
use crate::port::build::PortBuilt;
use crate::port::told_build;
use crate::verdict::{code_of, no_equality};
use cases::descriptions::BuildCase;
use cases::{Code, FlatTable, Given, Refusal, Table};
use model::BuildRooms;
use oracle::Outcome;

/// Most cells of path, walk, segments, owners, row starts and entries.
const MOST_ROOMS: [usize; 6] = [2000, 6000, 16_000, 2000, 1100, 20_000];

/// Rooms of a build, and the image.
pub fn rooms_and_image(bytes: &mut Bytes) -> (BuildRooms, Given) {
    let rooms = rooms(MOST_ROOMS.map(|most| bytes.length(most) as u64));
    let given = Given {
        width: bytes.number(),
        height: bytes.number(),
        y_to_x: bytes.float(),
        y_to_b: bytes.float(),
        high_precision: bytes.flag(),
        level10: bytes.flag(),
    };
    (rooms, given)
}

pub fn build(bytes: &mut Bytes) {
    let (rooms, given) = rooms_and_image(bytes);
    let (y, x0, n) = (bytes.number(), bytes.number(), bytes.byte());
    let description = description(bytes);
    let case = BuildCase { description, given };
    let expected = model::build(&case.description, &given, &rooms);
    check_build(&case, &rooms, &expected);
    check_against_rust(&case, &expected);
    let Ok(table) = expected else { return };
    check_rooms(&case, &table);
    let channels = [0.25, -0.5, 1.0].map(|before| vec![before; n.into()]);
    let sight = sight(case.description.counts.len() as u64, bytes);
    draw_part(&FlatTable::from(&table), &sight, y, x0, n.into(), &channels);
}

fn rooms([path, walk, segments, owners, row_starts, entries]: [u64; 6]) -> BuildRooms {
    BuildRooms {
        path,
        walk,
        segments,
        owners,
        row_starts,
        entries,
    }
}

/// The least rooms, then one short each: done, then ROOM.
fn check_rooms(case: &BuildCase, table: &Table) {
    let BuildCase { description, given } = case;
    let Ok(least) = model::least_rooms(description, given) else {
        panic!("a build that is done has least rooms: {case:?}");
    };
    check_build(case, &least, &Ok(table.clone()));
    let least = [
        least.path,
        least.walk,
        least.segments,
        least.owners,
        least.row_starts,
        least.entries,
    ];
    for short in 0..least.len() {
        let mut lengths = least;
        if let Some(less) = lengths[short].checked_sub(1) {
            lengths[short] = less;
            let rooms = rooms(lengths);
            let expected = model::build(description, given, &rooms);
            check_build(case, &rooms, &expected);
        }
    }
}

fn check_build(case: &BuildCase, rooms: &BuildRooms, expected: &Result<Table, Refusal>) {
    let built = PortBuilt::of(case, rooms);
    assert!(
        built.is(expected),
        "building {case:?} {rooms:?}: the port {:?} or other cells, the second reading {:?}",
        built.told(),
        told_build(expected)
    );
}

/// Where spline.rs decides: the same table, or the same refusal of the same spline.
fn check_against_rust(case: &BuildCase, expected: &Result<Table, Refusal>) {
    let BuildCase { description, given } = case;
    match expected {
        Ok(table) => match oracle::build(description, given) {
            Outcome::NoMemory => {}
            Outcome::Done(built) => assert!(
                same_table(table, &built.table),
                "building {case:?}: {table:?}, spline.rs {built:?}"
            ),
            other => panic!("building {case:?}: {table:?}, spline.rs {other:?}"),
        },
        Err(refusal) if no_equality(refusal.code) || refusal.code == Code::Delta => {}
        Err(refusal) => {
            let place = oracle::refused_spline(description, given).map(|number| number as u64);
            assert!(
                place == Some(refusal.place),
                "building {case:?}: {refusal:?}, spline.rs at {place:?}"
            );
            match oracle::build(description, given) {
                Outcome::Refused(why) if code_of(why) == refusal.code => {}
                Outcome::Panicked(_) if refusal.code == Code::Position => {}
                other => panic!("building {case:?}: {refusal:?}, spline.rs {other:?}"),
            }
        }
    }
}
