//! Any bytes as calls of the port with hostile arguments and lent lengths, held against spline.rs where that decides and
//! against the second reading everywhere. A difference is a panic.

mod build;
pub mod bytes;
mod check;
mod list;
mod polyline;
mod profile;
mod seeds;
mod table;
mod trace;

use super::pages;
use bytes::Bytes;

pub use seeds::seeds;

/// Runs the call that these bytes stand for.
pub fn run(input: &[u8]) {
    pages::sides_from(input.iter().fold(1, |seed, &byte| {
        (seed ^ u64::from(byte)).wrapping_mul(0x100_0000_01b3)
    }));
    let mut bytes = Bytes(input);
    match bytes.byte() % CALLS {
        READ => list::read(&mut bytes),
        WRITE => list::write(&mut bytes),
        BUILD => build::build(&mut bytes),
        DRAW => table::draw(&mut bytes),
        REACH => table::reach(&mut bytes),
        HIDE => table::hide(&mut bytes),
        CHECK => check::check(&mut bytes),
        BANDS => table::bands(&mut bytes),
        BAND => table::band(&mut bytes),
        TRACE_READ => trace::read(&mut bytes),
        TRACE_WRITE => trace::write(&mut bytes),
        TRACE_READ2 => trace::read2(&mut bytes),
        TRACE_WRITE2 => trace::write2(&mut bytes),
        POINTS_READ => polyline::read(&mut bytes),
        POINTS_WRITE => polyline::write(&mut bytes),
        PROFILE => profile::check(&mut bytes),
        BUILD_PROFILE => profile::build(&mut bytes),
        _ => table::ln(&mut bytes),
    }
}

const READ: u8 = 0;
const WRITE: u8 = 1;
const BUILD: u8 = 2;
const DRAW: u8 = 3;
const REACH: u8 = 4;
const LN: u8 = 5;
const TRACE_READ: u8 = 6;
const TRACE_WRITE: u8 = 7;
const POINTS_READ: u8 = 8;
const POINTS_WRITE: u8 = 9;
const PROFILE: u8 = 10;
const BUILD_PROFILE: u8 = 11;
const TRACE_READ2: u8 = 12;
const TRACE_WRITE2: u8 = 13;
const HIDE: u8 = 14;
const CHECK: u8 = 15;
const BANDS: u8 = 16;
const BAND: u8 = 17;
const CALLS: u8 = 18;
