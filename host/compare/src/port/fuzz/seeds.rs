//! Inputs to begin with: cases of the generator as bytes.

use super::bytes::Put;
use super::{
    BAND, BANDS, BUILD, BUILD_PROFILE, CHECK, DRAW, HIDE, LN, POINTS_READ, POINTS_WRITE, PROFILE,
    REACH, READ, TRACE_READ, TRACE_READ2, TRACE_WRITE, TRACE_WRITE2, WRITE,
};
use crate::draw::sight_by_turns;
use cases::bands::{banded, BANDED_KINDS};
use cases::descriptions::{self, build_case, BuildCase};
use cases::desks::{sight, Sight, SIGHT_KINDS};
use cases::lists::{list_case, write_case, KINDS, WRITE_KINDS};
use cases::polylines::{text, TEXT_KINDS};
use cases::profiles::{profile_case, ProfileCase, PROFILE_KINDS};
use cases::random::Random;
use cases::segments::{record, RECORD_KINDS};
use cases::tables::{edge_row, request, table, EDGE_KINDS, REQUEST_KINDS, TABLE_KINDS};
use cases::traces::{trace_file, trace_file2, traced, FILE2_KINDS, FILE_KINDS, TRACED_KINDS};
use cases::{each, Description, FlatTable, Given};

/// So many of each kind.
const A_KIND: u64 = 3;

/// Room for three splines and ten points.
const ROOMS: [u32; 4] = [3, 6, 20, 384];

/// Each with a name.
pub fn seeds() -> Vec<(String, Vec<u8>)> {
    let mut seeds = Vec::new();
    for (kind, seed) in each(&KINDS, A_KIND) {
        seeds.push((format!("read-{kind}-{seed}"), read(kind, seed)));
    }
    for (kind, seed) in each(&WRITE_KINDS, A_KIND) {
        seeds.push((format!("write-{kind}-{seed}"), write(kind, seed)));
    }
    let builds = each(&descriptions::KINDS, A_KIND);
    for (kind, seed) in builds.chain(each(&descriptions::OWNER_KINDS, A_KIND)) {
        seeds.push((format!("build-{kind}-{seed}"), build(kind, seed)));
    }
    for (kind, seed) in each(&TABLE_KINDS, A_KIND) {
        let table = table(kind, seed);
        seeds.push((format!("draw-{kind}-{seed}"), draw(&table, seed)));
        seeds.push((format!("reach-{kind}-{seed}"), reach(&table, seed)));
    }
    for (kind, seed) in each(&EDGE_KINDS, A_KIND) {
        let (table, _) = edge_row(kind, seed);
        seeds.push((format!("reach-{kind}-{seed}"), reach(&table, seed)));
    }
    for (kind, seed) in each(&BANDED_KINDS, A_KIND) {
        let table = banded(kind, seed);
        seeds.push((format!("bands-{kind}-{seed}"), bands(BANDS, &table, seed)));
        seeds.push((format!("band-{kind}-{seed}"), bands(BAND, &table, seed)));
    }
    for (kind, seed) in each(&SIGHT_KINDS, A_KIND) {
        let table = table("sound", seed);
        let sight = sight(kind, seed, &table);
        seeds.push((format!("hide-{kind}-{seed}"), hide(&sight)));
    }
    for (kind, seed) in each(&RECORD_KINDS, A_KIND) {
        seeds.push((format!("check-{kind}-{seed}"), check(kind, seed)));
    }
    for (kind, seed) in each(&FILE_KINDS, A_KIND) {
        let file = trace_file(kind, seed);
        let input = trace_in(TRACE_READ, &file);
        seeds.push((format!("trace-in-{kind}-{seed}"), input));
    }
    for (kind, seed) in each(&FILE_KINDS, A_KIND).chain(each(&FILE2_KINDS, A_KIND)) {
        let file = trace_file2(kind, seed);
        let input = trace_in(TRACE_READ2, &file);
        seeds.push((format!("trace2-in-{kind}-{seed}"), input));
    }
    for (kind, seed) in each(&TRACED_KINDS, A_KIND) {
        let description = traced(kind, seed);
        seeds.push((format!("trace-out-{kind}-{seed}"), trace_out(&description)));
        let input = trace2_out(&description, seed);
        seeds.push((format!("trace2-out-{kind}-{seed}"), input));
    }
    for (kind, seed) in each(&TEXT_KINDS, A_KIND) {
        seeds.push((format!("line-in-{kind}-{seed}"), line_in(kind, seed)));
    }
    for (kind, seed) in each(&descriptions::KINDS, A_KIND) {
        seeds.push((format!("line-out-{kind}-{seed}"), line_out(kind, seed)));
    }
    for (kind, seed) in each(&PROFILE_KINDS, A_KIND) {
        let case = profile_case(kind, seed);
        seeds.push((format!("profile-{kind}-{seed}"), profile(&case)));
        seeds.push((format!("by-profile-{kind}-{seed}"), by_profile(&case)));
    }
    seeds.push((String::from("ln"), ln()));
    seeds
}

fn read(kind: &str, seed: u64) -> Vec<u8> {
    let case = list_case(kind, seed);
    let mut put = Put::default();
    put.byte(READ);
    put_all(&mut put, &ROOMS);
    put.number(case.configured);
    put.number(case.pixels);
    put.numbers(&case.list);
    put.0
}

fn write(kind: &str, seed: u64) -> Vec<u8> {
    let case = write_case(kind, seed);
    let mut put = Put::default();
    put.byte(WRITE);
    put.number(case.list_room.min(500) as u32);
    put.number(case.configured);
    put.number(case.pixels);
    put_description(&mut put, &case.description);
    put.0
}

fn put_all(put: &mut Put, numbers: &[u32]) {
    numbers.iter().for_each(|&number| put.number(number));
}

fn build(kind: &str, seed: u64) -> Vec<u8> {
    let BuildCase { description, given } = build_case(kind, seed);
    let mut put = Put::default();
    put.byte(BUILD);
    put_rooms_and_image(&mut put, &given);
    // A row and a part of it to be drawn.
    put_all(&mut put, &[given.height / 2, 5, 60]);
    put_description(&mut put, &description);
    put.0
}

/// Rooms for what most builds make, and the image.
fn put_rooms_and_image(put: &mut Put, given: &Given) {
    put_all(
        put,
        &[200, 1200, 3200, 400, 250, 4000, given.width, given.height],
    );
    put.float(given.y_to_x);
    put.float(given.y_to_b);
    put.byte(given.high_precision.into());
    put.byte(given.level10.into());
}

fn put_description(put: &mut Put, description: &Description) {
    put.signed(description.adjustment);
    put.numbers(&description.counts);
    put.floats(&description.starts);
    put.signed_numbers(&description.deltas);
    put.signed_numbers(&description.coefficients);
}

/// Of a kind of sight by turns.
fn put_table(put: &mut Put, table: &FlatTable, seed: u64) {
    put.number(table.segment_count);
    put.number(table.entry_count);
    put.number(table.height);
    put.numbers(&table.row_starts);
    put.numbers(&table.entries);
    put.floats(&table.segments);
    put.signed((table.owners.len() as i32).wrapping_sub(table.segment_count as i32));
    let owners: Vec<u32> = table.owners.iter().map(|&owner| owner as u32).collect();
    put.numbers(&owners);
    put_sight(put, 1, &sight_by_turns(seed, table));
}

/// As `table::sight` takes it beside so many splines.
fn put_sight(put: &mut Put, splines: u64, sight: &Sight) {
    put.signed(sight.splines.wrapping_sub(splines) as i32);
    put.signed((sight.bits.len() as u64).wrapping_sub(sight.splines) as i32);
    put.number(sight.desk);
    sight.bits.iter().for_each(|&byte| put.byte(byte));
}

fn draw(table: &FlatTable, seed: u64) -> Vec<u8> {
    let request = request(REQUEST_KINDS[seed as usize % 3], seed, table.height.max(1));
    let mut put = Put::default();
    put.byte(DRAW);
    put_all(&mut put, &[request.y, request.x0, request.n]);
    for channel in &request.channels {
        put.number(channel.len() as u32);
    }
    put.float(0.5);
    put_table(&mut put, table, seed);
    put.0
}

fn reach(table: &FlatTable, seed: u64) -> Vec<u8> {
    let mut put = Put::default();
    put.byte(REACH);
    put.number(seed as u32);
    put.number(80);
    put_table(&mut put, table, seed);
    put.0
}

/// In just the room that they take; behind the table the bands that are made again.
fn bands(call: u8, table: &FlatTable, seed: u64) -> Vec<u8> {
    let mut put = Put::default();
    put.byte(call);
    put.number(80);
    put.signed(0);
    put_table(&mut put, table, seed);
    if call == BAND {
        put_all(&mut put, &[0, 1, 2, 9]);
    }
    put.0
}

/// Each desk hides the first spline, then the operator shows it.
fn hide(sight: &Sight) -> Vec<u8> {
    let mut put = Put::default();
    put.byte(HIDE);
    put_sight(&mut put, 4, sight);
    for word in [0, 0, 1, 1, 0, 1, 0, 0, 0] {
        put.byte(word);
    }
    put.0
}

/// Three segments of a kind: the right table, one with an entry more behind the first, and one with a start moved.
fn check(kind: &str, seed: u64) -> Vec<u8> {
    let mut put = Put::default();
    put.byte(CHECK);
    put.number(40);
    let records = [0, 1, 2].map(|other| record(kind, 3 * seed + other));
    put.floats(&records.concat());
    for step in [[2, 1, 0], [4, 0, 2], [0, 3, 1]] {
        step.into_iter().for_each(|byte| put.byte(byte));
    }
    put.0
}

fn trace_in(call: u8, file: &[u8]) -> Vec<u8> {
    let mut put = Put::default();
    put.byte(call);
    put_all(&mut put, &ROOMS);
    put.0.extend(file);
    put.0
}

fn trace_out(description: &Description) -> Vec<u8> {
    let mut put = Put::default();
    put.byte(TRACE_WRITE);
    put.number(2000);
    put_description(&mut put, description);
    put.0
}

fn trace2_out(description: &Description, seed: u64) -> Vec<u8> {
    let mut put = Put::default();
    put.byte(TRACE_WRITE2);
    let edition = 1 + (seed % 2) as u32;
    put_all(&mut put, &[2000, 2, edition]);
    put_description(&mut put, description);
    put.0
}

fn line_in(kind: &str, seed: u64) -> Vec<u8> {
    let mut put = Put::default();
    put.byte(POINTS_READ);
    put_all(&mut put, &[2, 80]);
    put.0.extend(text(kind, seed));
    put.0
}

fn line_out(kind: &str, seed: u64) -> Vec<u8> {
    let mut put = Put::default();
    put.byte(POINTS_WRITE);
    put_all(&mut put, &[200, (seed % 2) as u32]);
    put.byte(0);
    put_description(&mut put, &build_case(kind, seed).description);
    put.0
}

fn profile(case: &ProfileCase) -> Vec<u8> {
    let mut put = Put::default();
    put.byte(PROFILE);
    put.number(case.edition);
    put_description(&mut put, &case.case.description);
    put.0
}

fn by_profile(case: &ProfileCase) -> Vec<u8> {
    let mut put = Put::default();
    put.byte(BUILD_PROFILE);
    put_rooms_and_image(&mut put, &case.case.given);
    put.number(case.edition);
    put_description(&mut put, &case.case.description);
    put.0
}

fn ln() -> Vec<u8> {
    let mut r = Random::new("ln", 0);
    let numbers: Vec<f32> = (0..40).map(|_| r.any_f32()).collect();
    let mut put = Put::default();
    put.byte(LN);
    put.floats(&numbers);
    put.0
}
