//! The port's calls, with every lent slice and the answer copied to where it lies against an inaccessible page: a read or
//! write outside is a fault. The arguments are those of the calls in host/port.

use super::lent::Cell;
use super::pages::Guarded;
use port::{Answer, Buffers, Image, Parts, Sight, Table};

/// What stands in an answer before a call, so that a number that is not filled shows.
const UNFILLED: Answer = [i64::MIN; 5];

impl Cell for i64 {
    const ZERO: i64 = 0;

    fn other(index: usize) -> i64 {
        u32::other(index).into()
    }

    fn same(self, other: i64) -> bool {
        self == other
    }
}

/// The code and the answer that a call fills.
fn answered(call: impl FnOnce(&mut Answer) -> u32) -> (u32, Answer) {
    let mut answer = UNFILLED;
    let mut guarded = Guarded::of(&answer);
    let code = call(guarded.lend().try_into().expect("five of them"));
    guarded.back_to(&mut answer);
    (code, answer)
}

pub fn read(
    list: &[u32],
    configured: u32,
    pixels: u32,
    counts: &mut [u32],
    starts: &mut [f32],
    deltas: &mut [i32],
    coefficients: &mut [i32],
) -> (u32, Answer) {
    let guarded = Guarded::of(list);
    let told = filled(
        counts,
        starts,
        deltas,
        coefficients,
        |counts, starts, deltas, coefficients, answer| {
            port::read_into(
                guarded.lent(),
                configured,
                pixels,
                counts,
                starts,
                deltas,
                coefficients,
                answer,
            )
        },
    );
    guarded.is_still(list);
    told
}

/// The code and the answer of a call that fills the four parts of a description.
fn filled(
    counts: &mut [u32],
    starts: &mut [f32],
    deltas: &mut [i32],
    coefficients: &mut [i32],
    call: impl FnOnce(&mut [u32], &mut [f32], &mut [i32], &mut [i32], &mut Answer) -> u32,
) -> (u32, Answer) {
    let mut lent = (
        Guarded::of(counts),
        Guarded::of(starts),
        Guarded::of(deltas),
        Guarded::of(coefficients),
    );
    let told = answered(|answer| {
        call(
            lent.0.lend(),
            lent.1.lend(),
            lent.2.lend(),
            lent.3.lend(),
            answer,
        )
    });
    lent.0.back_to(counts);
    lent.1.back_to(starts);
    lent.2.back_to(deltas);
    lent.3.back_to(coefficients);
    told
}

/// The slices of a description.
struct GuardedParts {
    counts: Guarded<u32>,
    starts: Guarded<f32>,
    deltas: Guarded<i32>,
    coefficients: Guarded<i32>,
    adjustment: i32,
}

impl GuardedParts {
    fn of(parts: &Parts) -> GuardedParts {
        GuardedParts {
            counts: Guarded::of(parts.counts),
            starts: Guarded::of(parts.starts),
            deltas: Guarded::of(parts.deltas),
            coefficients: Guarded::of(parts.coefficients),
            adjustment: parts.adjustment,
        }
    }

    fn lent(&self) -> Parts<'_> {
        Parts {
            counts: self.counts.lent(),
            starts: self.starts.lent(),
            deltas: self.deltas.lent(),
            coefficients: self.coefficients.lent(),
            adjustment: self.adjustment,
        }
    }

    fn are_still(self, parts: &Parts) {
        self.counts.is_still(parts.counts);
        self.starts.is_still(parts.starts);
        self.deltas.is_still(parts.deltas);
        self.coefficients.is_still(parts.coefficients);
    }
}

/// The code and the answer of a call that writes a description into what is lent.
fn written<T: Cell>(
    parts: &Parts,
    lent: &mut [T],
    call: impl FnOnce(&Parts, &mut [T], &mut Answer) -> u32,
) -> (u32, Answer) {
    let guarded = GuardedParts::of(parts);
    let mut cells = Guarded::of(lent);
    let told = answered(|answer| call(&guarded.lent(), cells.lend(), answer));
    guarded.are_still(parts);
    cells.back_to(lent);
    told
}

pub fn write(parts: &Parts, configured: u32, pixels: u32, list: &mut [u32]) -> (u32, Answer) {
    written(parts, list, |parts, list, answer| {
        port::write_into(parts, configured, pixels, list, answer)
    })
}

/// One of the two calls that fill the four parts of a description from a trace file.
pub type TraceRead = fn(&[u8], &mut [u32], &mut [f32], &mut [i32], &mut [i32], &mut Answer) -> u32;

pub fn trace_read(
    call: TraceRead,
    bytes: &[u8],
    counts: &mut [u32],
    starts: &mut [f32],
    deltas: &mut [i32],
    coefficients: &mut [i32],
) -> (u32, Answer) {
    let guarded = Guarded::of(bytes);
    let told = filled(
        counts,
        starts,
        deltas,
        coefficients,
        |counts, starts, deltas, coefficients, answer| {
            call(guarded.lent(), counts, starts, deltas, coefficients, answer)
        },
    );
    guarded.is_still(bytes);
    told
}

pub fn trace_write(parts: &Parts, bytes: &mut [u8]) -> (u32, Answer) {
    written(parts, bytes, port::trace_write_into)
}

pub fn trace_write2(parts: &Parts, version: u32, edition: u32, bytes: &mut [u8]) -> (u32, Answer) {
    written(parts, bytes, |parts, bytes, answer| {
        port::trace_write2_into(parts, version, edition, bytes, answer)
    })
}

pub fn points_read(text: &[u8], start: &mut [f32], deltas: &mut [i32]) -> (u32, Answer) {
    let guarded = Guarded::of(text);
    let mut lent = (Guarded::of(start), Guarded::of(deltas));
    let told = answered(|answer| {
        port::points_read_into(guarded.lent(), lent.0.lend(), lent.1.lend(), answer)
    });
    guarded.is_still(text);
    lent.0.back_to(start);
    lent.1.back_to(deltas);
    told
}

pub fn points_write(parts: &Parts, spline: u64, text: &mut [u8]) -> (u32, Answer) {
    written(parts, text, |parts, text, answer| {
        port::points_write_into(parts, spline, text, answer)
    })
}

pub fn profile(parts: &Parts, edition: u32) -> (u32, Answer) {
    let guarded = GuardedParts::of(parts);
    let told = answered(|answer| port::profile_into(&guarded.lent(), edition, answer));
    guarded.are_still(parts);
    told
}

pub fn build(parts: &Parts, image: &Image, lent: Buffers) -> (u32, Answer) {
    built(parts, lent, |parts, lent, answer| {
        port::build_into(parts, image, lent, answer)
    })
}

pub fn build_profile(parts: &Parts, image: &Image, edition: u32, lent: Buffers) -> (u32, Answer) {
    built(parts, lent, |parts, lent, answer| {
        port::build_profile_into(parts, image, edition, lent, answer)
    })
}

/// The code and the answer of a call that builds a table in what is lent.
fn built(
    parts: &Parts,
    lent: Buffers,
    call: impl FnOnce(&Parts, Buffers, &mut Answer) -> u32,
) -> (u32, Answer) {
    let guarded = GuardedParts::of(parts);
    let mut floats = [&*lent.path, &*lent.walk, &*lent.segments].map(Guarded::of);
    let mut owners = Guarded::of(lent.owners);
    let mut numbers = [&*lent.row_starts, &*lent.entries].map(Guarded::of);
    let told = answered(|answer| {
        let [path, walk, segments] = &mut floats;
        let [row_starts, entries] = &mut numbers;
        let lent = Buffers {
            path: path.lend(),
            walk: walk.lend(),
            segments: segments.lend(),
            owners: owners.lend(),
            row_starts: row_starts.lend(),
            entries: entries.lend(),
        };
        call(&guarded.lent(), lent, answer)
    });
    guarded.are_still(parts);
    for (buffer, guarded) in [lent.path, lent.walk, lent.segments]
        .into_iter()
        .zip(floats)
    {
        guarded.back_to(buffer);
    }
    owners.back_to(lent.owners);
    for (buffer, guarded) in [lent.row_starts, lent.entries].into_iter().zip(numbers) {
        guarded.back_to(buffer);
    }
    told
}

/// The slices of a table and of a desk's sight of it.
struct GuardedTable<'a> {
    table: Table<'a>,
    sight: Sight<'a>,
    segments: Guarded<f32>,
    owners: Guarded<u64>,
    entries: Guarded<u32>,
    row_starts: Guarded<u32>,
    bits: Guarded<u8>,
}

impl<'a> GuardedTable<'a> {
    fn of(table: &Table<'a>, sight: &Sight<'a>) -> GuardedTable<'a> {
        GuardedTable {
            table: *table,
            sight: *sight,
            segments: Guarded::of(table.segments),
            owners: Guarded::of(table.owners),
            entries: Guarded::of(table.entries),
            row_starts: Guarded::of(table.row_starts),
            bits: Guarded::of(sight.bits),
        }
    }

    fn lent(&self) -> (Table<'_>, Sight<'_>) {
        let table = Table {
            segments: self.segments.lent(),
            owners: self.owners.lent(),
            entries: self.entries.lent(),
            row_starts: self.row_starts.lent(),
            ..self.table
        };
        let sight = Sight {
            bits: self.bits.lent(),
            ..self.sight
        };
        (table, sight)
    }

    fn is_still(self) {
        self.segments.is_still(self.table.segments);
        self.owners.is_still(self.table.owners);
        self.entries.is_still(self.table.entries);
        self.row_starts.is_still(self.table.row_starts);
        self.bits.is_still(self.sight.bits);
    }
}

pub fn draw(
    table: &Table,
    sight: &Sight,
    y: u32,
    x0: u32,
    n: u32,
    channels: [&mut [f32]; 3],
) -> (u32, Answer) {
    let guarded = GuardedTable::of(table, sight);
    let [r0, r1, r2] = channels;
    let mut lent = [&*r0, &*r1, &*r2].map(Guarded::of);
    let told = answered(|answer| {
        let [r0, r1, r2] = &mut lent;
        let channels = [r0.lend(), r1.lend(), r2.lend()];
        let (table, sight) = guarded.lent();
        port::draw_into(&table, &sight, y, x0, n, channels, answer)
    });
    guarded.is_still();
    for (channel, lent) in [r0, r1, r2].into_iter().zip(lent) {
        lent.back_to(channel);
    }
    told
}

pub fn reach(table: &Table, sight: &Sight, y: u32, width: u32) -> (u32, Answer) {
    let guarded = GuardedTable::of(table, sight);
    let told = answered(|answer| {
        let (table, sight) = guarded.lent();
        port::reach_into(&table, &sight, y, width, answer)
    });
    guarded.is_still();
    told
}

pub fn bands(table: &Table, sight: &Sight, width: u32, bands: &mut [u32]) -> (u32, Answer) {
    summed(table, sight, bands, |table, sight, bands, answer| {
        port::bands_into(table, sight, width, bands, answer)
    })
}

pub fn band(
    table: &Table,
    sight: &Sight,
    width: u32,
    bands: &mut [u32],
    band: u32,
) -> (u32, Answer) {
    summed(table, sight, bands, |table, sight, bands, answer| {
        port::band_into(table, sight, width, bands, band, answer)
    })
}

/// The code and the answer of a call that makes bands of a table in what is lent.
fn summed(
    table: &Table,
    sight: &Sight,
    bands: &mut [u32],
    call: impl FnOnce(&Table, &Sight, &mut [u32], &mut Answer) -> u32,
) -> (u32, Answer) {
    let guarded = GuardedTable::of(table, sight);
    let mut cells = Guarded::of(bands);
    let told = answered(|answer| {
        let (table, sight) = guarded.lent();
        call(&table, &sight, cells.lend(), answer)
    });
    guarded.is_still();
    cells.back_to(bands);
    told
}

pub fn hide(bits: &mut [u8], desk: u32, spline: u64, hidden: bool) -> (u32, Answer) {
    let mut lent = Guarded::of(bits);
    let told = answered(|answer| port::hide_into(lent.lend(), desk, spline, hidden, answer));
    lent.back_to(bits);
    told
}

pub fn check(table: &Table) -> (u32, Answer) {
    let nobody = Sight {
        splines: 0,
        bits: &[],
        desk: 0,
    };
    let guarded = GuardedTable::of(table, &nobody);
    let told = answered(|answer| port::check_into(&guarded.lent().0, answer));
    guarded.is_still();
    told
}
