//! Empty slices by NULL, as an empty C++ vector hands them over: each call, with any of its slices emptied, tells and leaves the same by NULL as by a pointer that is not.

use port::{symbols, Answer};
use std::ptr;

/// What is told and left: the code, the answer, and the bits of every cell that may be written.
#[derive(Debug, PartialEq)]
struct Told {
    code: u32,
    answer: Answer,
    cells: Vec<u32>,
}

/// Lends the slices of one call in their order: those of `emptied`, a bit each, with length 0, by NULL or by another pointer.
struct Lender {
    emptied: u32,
    null: bool,
    slices: u32,
}

impl Lender {
    fn lend<T>(&mut self, cells: &mut Vec<T>) -> (*mut T, usize) {
        if self.emptied >> self.slices & 1 == 1 {
            cells.clear();
        }
        self.slices += 1;
        let by_null = self.null && cells.is_empty();
        let first = if by_null {
            ptr::null_mut()
        } else {
            cells.as_mut_ptr()
        };
        (first, cells.len())
    }
}

/// A call that makes its own slices, each with cells, and lends them.
type Call = fn(&mut Lender) -> Told;

const CALLS: [(&str, Call); 25] = [
    ("read", read),
    ("write", write),
    ("trace_read", trace_read),
    ("trace_write", trace_write),
    ("trace_write of nothing", trace_write_nothing),
    ("trace_read2", trace_read2),
    ("trace_write2", trace_write2),
    ("points_read", points_read),
    ("points_write", points_write),
    ("profile", profile),
    ("build_profile", build_profile),
    ("build", build),
    ("build of nothing", build_nothing),
    ("draw", draw),
    ("draw of no columns", draw_no_columns),
    ("draw of no segments", draw_no_segments),
    ("reach", reach),
    ("reach of no segments", reach_no_segments),
    ("bands", bands),
    ("bands of no segments", bands_no_segments),
    ("bands of no rows", bands_no_rows),
    ("band", band),
    ("hide", hide),
    ("check", check_one),
    ("check of no segments", check_no_segments),
];

/// Every set of slices of every call. A call without an emptied one is done, so that all of it is gone through.
pub fn check() {
    for (name, call) in CALLS {
        let mut slices = 1;
        let mut emptied = 0;
        while emptied < 1 << slices {
            let [by_null, by_another] = [true, false].map(|null| {
                let mut lender = Lender {
                    emptied,
                    null,
                    slices: 0,
                };
                let told = call(&mut lender);
                slices = lender.slices;
                told
            });
            assert_eq!(
                by_null, by_another,
                "{name} tells or leaves another thing where the slices {emptied:#b} are NULL"
            );
            assert!(
                emptied != 0 || by_null.code == 0,
                "{name} is refused with all its cells: {by_null:?}"
            );
            emptied += 1;
        }
    }
}

/// The pixels along each side of the image.
const SIDE: u32 = 64;
const LIMIT: u32 = 1 << 20;
const UNFILLED: Answer = [i64::MIN; 5];

fn bits(floats: &[f32]) -> impl Iterator<Item = u32> + '_ {
    floats.iter().map(|float| float.to_bits())
}

fn unsigned(numbers: &[i32]) -> impl Iterator<Item = u32> + '_ {
    numbers.iter().map(|&number| number as u32)
}

/// A description of one spline.
struct Spline {
    counts: Vec<u32>,
    starts: Vec<f32>,
    deltas: Vec<i32>,
    coefficients: Vec<i32>,
}

impl Spline {
    fn new() -> Spline {
        let mut coefficients = vec![0; 128];
        (coefficients[32], coefficients[96]) = (100, 4);
        Spline {
            counts: vec![2],
            starts: vec![20.0, 20.0],
            deltas: vec![8, 4, 2, -3],
            coefficients,
        }
    }

    fn none() -> Spline {
        Spline {
            counts: Vec::new(),
            starts: Vec::new(),
            deltas: Vec::new(),
            coefficients: Vec::new(),
        }
    }

    /// More room than it takes, with other numbers in it.
    fn rooms() -> Spline {
        Spline {
            counts: vec![7; 2],
            starts: vec![7.0; 4],
            deltas: vec![7; 6],
            coefficients: vec![7; 256],
        }
    }

    fn parts(&self) -> port::Parts<'_> {
        port::Parts {
            counts: &self.counts,
            starts: &self.starts,
            deltas: &self.deltas,
            coefficients: &self.coefficients,
            adjustment: 0,
        }
    }

    fn lend(&mut self, lender: &mut Lender) -> LentSpline {
        LentSpline {
            counts: lender.lend(&mut self.counts),
            starts: lender.lend(&mut self.starts),
            deltas: lender.lend(&mut self.deltas),
            coefficients: lender.lend(&mut self.coefficients),
        }
    }
}

/// Each part as a pointer and a length.
struct LentSpline {
    counts: (*mut u32, usize),
    starts: (*mut f32, usize),
    deltas: (*mut i32, usize),
    coefficients: (*mut i32, usize),
}

fn read(lender: &mut Lender) -> Told {
    let mut list = vec![0; 256];
    let (_, written) = port::write(&Spline::new().parts(), LIMIT, LIMIT, &mut list);
    list.truncate(written[1] as usize);
    let (list_at, list_len) = lender.lend(&mut list);
    filled(lender, |lent, answer| {
        // SAFETY: each pointer comes with its vector's length, and where that is 0 may be NULL.
        unsafe {
            symbols::aktyrbuz_read(
                list_at,
                list_len,
                LIMIT,
                LIMIT,
                lent.counts.0,
                lent.counts.1,
                lent.starts.0,
                lent.starts.1,
                lent.deltas.0,
                lent.deltas.1,
                lent.coefficients.0,
                lent.coefficients.1,
                answer,
            )
        }
    })
}

fn trace_read(lender: &mut Lender) -> Told {
    let mut file = vec![0; 1024];
    let (_, written) = port::trace_write(&Spline::new().parts(), &mut file);
    file.truncate(written[1] as usize);
    let (file_at, file_len) = lender.lend(&mut file);
    filled(lender, |lent, answer| {
        // SAFETY: as above.
        unsafe {
            symbols::aktyrbuz_trace_read(
                file_at,
                file_len,
                lent.counts.0,
                lent.counts.1,
                lent.starts.0,
                lent.starts.1,
                lent.deltas.0,
                lent.deltas.1,
                lent.coefficients.0,
                lent.coefficients.1,
                answer,
            )
        }
    })
}

fn trace_read2(lender: &mut Lender) -> Told {
    let mut file = vec![0; 1024];
    let (_, written) = port::trace_write2(&Spline::new().parts(), 2, 2, &mut file);
    file.truncate(written[1] as usize);
    let (file_at, file_len) = lender.lend(&mut file);
    filled(lender, |lent, answer| {
        // SAFETY: as above.
        unsafe {
            symbols::aktyrbuz_trace_read2(
                file_at,
                file_len,
                lent.counts.0,
                lent.counts.1,
                lent.starts.0,
                lent.starts.1,
                lent.deltas.0,
                lent.deltas.1,
                lent.coefficients.0,
                lent.coefficients.1,
                answer,
            )
        }
    })
}

/// What a call that fills the four parts of a description tells and leaves.
fn filled(lender: &mut Lender, call: impl FnOnce(LentSpline, &mut Answer) -> u32) -> Told {
    let mut rooms = Spline::rooms();
    let mut answer = UNFILLED;
    let code = call(rooms.lend(lender), &mut answer);
    let left = rooms.counts.iter().copied().chain(bits(&rooms.starts));
    let left = left.chain(unsigned(&rooms.deltas));
    Told {
        code,
        answer,
        cells: left.chain(unsigned(&rooms.coefficients)).collect(),
    }
}

fn write(lender: &mut Lender) -> Told {
    let mut spline = Spline::new();
    let lent = spline.lend(lender);
    let mut list = vec![7; 256];
    let (list_at, list_len) = lender.lend(&mut list);
    let mut answer = UNFILLED;
    // SAFETY: as above.
    let code = unsafe {
        symbols::aktyrbuz_write(
            lent.counts.0,
            lent.counts.1,
            lent.starts.0,
            lent.starts.1,
            lent.deltas.0,
            lent.deltas.1,
            lent.coefficients.0,
            lent.coefficients.1,
            0,
            LIMIT,
            LIMIT,
            list_at,
            list_len,
            &mut answer,
        )
    };
    Told {
        code,
        answer,
        cells: list,
    }
}

/// What a call that writes bytes tells and leaves.
fn bytes_by(lender: &mut Lender, call: impl FnOnce(*mut u8, usize, &mut Answer) -> u32) -> Told {
    let mut bytes = vec![7u8; 1024];
    let (bytes_at, bytes_len) = lender.lend(&mut bytes);
    let mut answer = UNFILLED;
    let code = call(bytes_at, bytes_len, &mut answer);
    Told {
        code,
        answer,
        cells: bytes.into_iter().map(u32::from).collect(),
    }
}

fn trace_write_of(lender: &mut Lender, mut spline: Spline) -> Told {
    let lent = spline.lend(lender);
    bytes_by(lender, |file_at, file_len, answer| {
        // SAFETY: as above.
        unsafe {
            symbols::aktyrbuz_trace_write(
                lent.counts.0,
                lent.counts.1,
                lent.starts.0,
                lent.starts.1,
                lent.deltas.0,
                lent.deltas.1,
                lent.coefficients.0,
                lent.coefficients.1,
                0,
                file_at,
                file_len,
                answer,
            )
        }
    })
}

fn trace_write(lender: &mut Lender) -> Told {
    trace_write_of(lender, Spline::new())
}

fn trace_write_nothing(lender: &mut Lender) -> Told {
    trace_write_of(lender, Spline::none())
}

fn trace_write2(lender: &mut Lender) -> Told {
    let mut spline = Spline::new();
    let lent = spline.lend(lender);
    bytes_by(lender, |file_at, file_len, answer| {
        // SAFETY: as above.
        unsafe {
            symbols::aktyrbuz_trace_write2(
                lent.counts.0,
                lent.counts.1,
                lent.starts.0,
                lent.starts.1,
                lent.deltas.0,
                lent.deltas.1,
                lent.coefficients.0,
                lent.coefficients.1,
                0,
                2,
                2,
                file_at,
                file_len,
                answer,
            )
        }
    })
}

fn points_read(lender: &mut Lender) -> Told {
    let mut text = b"20,20 28,24 38,25".to_vec();
    let (mut start, mut deltas) = (vec![7.0; 3], vec![7; 6]);
    let (text_at, text_len) = lender.lend(&mut text);
    let (start_at, start_len) = lender.lend(&mut start);
    let (deltas_at, deltas_len) = lender.lend(&mut deltas);
    let mut answer = UNFILLED;
    // SAFETY: as above.
    let code = unsafe {
        symbols::aktyrbuz_points_read(
            text_at,
            text_len,
            start_at,
            start_len,
            deltas_at,
            deltas_len,
            &mut answer,
        )
    };
    Told {
        code,
        answer,
        cells: bits(&start).chain(unsigned(&deltas)).collect(),
    }
}

fn points_write(lender: &mut Lender) -> Told {
    let mut spline = Spline::new();
    let lent = spline.lend(lender);
    bytes_by(lender, |text_at, text_len, answer| {
        // SAFETY: as above.
        unsafe {
            symbols::aktyrbuz_points_write(
                lent.counts.0,
                lent.counts.1,
                lent.starts.0,
                lent.starts.1,
                lent.deltas.0,
                lent.deltas.1,
                lent.coefficients.0,
                lent.coefficients.1,
                0,
                text_at,
                text_len,
                answer,
            )
        }
    })
}

fn profile(lender: &mut Lender) -> Told {
    let mut spline = Spline::new();
    let lent = spline.lend(lender);
    let mut answer = UNFILLED;
    // SAFETY: as above.
    let code = unsafe {
        symbols::aktyrbuz_profile(
            lent.counts.0,
            lent.counts.1,
            lent.starts.0,
            lent.starts.1,
            lent.deltas.0,
            lent.deltas.1,
            lent.coefficients.0,
            lent.coefficients.1,
            0,
            1,
            &mut answer,
        )
    };
    Told {
        code,
        answer,
        cells: Vec::new(),
    }
}

/// The buffers of a build, with room for the spline above.
struct Rooms {
    path: Vec<f32>,
    walk: Vec<f32>,
    segments: Vec<f32>,
    owners: Vec<u64>,
    row_starts: Vec<u32>,
    entries: Vec<u32>,
}

impl Rooms {
    fn new() -> Rooms {
        Rooms {
            path: vec![7.0; 256],
            walk: vec![7.0; 256],
            segments: vec![7.0; 1024],
            owners: vec![7; 128],
            row_starts: vec![7; SIDE as usize + 1],
            entries: vec![7; 4096],
        }
    }
}

/// Each buffer as a pointer and a length.
struct LentRooms {
    path: (*mut f32, usize),
    walk: (*mut f32, usize),
    segments: (*mut f32, usize),
    owners: (*mut u64, usize),
    row_starts: (*mut u32, usize),
    entries: (*mut u32, usize),
}

/// A call that builds in what is lent.
type Build = fn(&LentSpline, &LentRooms, &mut Answer) -> u32;

fn by_build(spline: &LentSpline, rooms: &LentRooms, answer: &mut Answer) -> u32 {
    // SAFETY: as above.
    unsafe {
        symbols::aktyrbuz_build(
            spline.counts.0,
            spline.counts.1,
            spline.starts.0,
            spline.starts.1,
            spline.deltas.0,
            spline.deltas.1,
            spline.coefficients.0,
            spline.coefficients.1,
            0,
            SIDE,
            SIDE,
            0.0,
            1.0,
            false,
            false,
            rooms.path.0,
            rooms.path.1,
            rooms.walk.0,
            rooms.walk.1,
            rooms.segments.0,
            rooms.segments.1,
            rooms.owners.0,
            rooms.owners.1,
            rooms.row_starts.0,
            rooms.row_starts.1,
            rooms.entries.0,
            rooms.entries.1,
            answer,
        )
    }
}

fn by_build_profile(spline: &LentSpline, rooms: &LentRooms, answer: &mut Answer) -> u32 {
    // SAFETY: as above.
    unsafe {
        symbols::aktyrbuz_build_profile(
            spline.counts.0,
            spline.counts.1,
            spline.starts.0,
            spline.starts.1,
            spline.deltas.0,
            spline.deltas.1,
            spline.coefficients.0,
            spline.coefficients.1,
            0,
            SIDE,
            SIDE,
            0.0,
            1.0,
            false,
            false,
            1,
            rooms.path.0,
            rooms.path.1,
            rooms.walk.0,
            rooms.walk.1,
            rooms.segments.0,
            rooms.segments.1,
            rooms.owners.0,
            rooms.owners.1,
            rooms.row_starts.0,
            rooms.row_starts.1,
            rooms.entries.0,
            rooms.entries.1,
            answer,
        )
    }
}

fn build_in(
    lender: &mut Lender,
    spline: &mut Spline,
    rooms: &mut Rooms,
    build: Build,
) -> (u32, Answer) {
    let spline = spline.lend(lender);
    let rooms = LentRooms {
        path: lender.lend(&mut rooms.path),
        walk: lender.lend(&mut rooms.walk),
        segments: lender.lend(&mut rooms.segments),
        owners: lender.lend(&mut rooms.owners),
        row_starts: lender.lend(&mut rooms.row_starts),
        entries: lender.lend(&mut rooms.entries),
    };
    let mut answer = UNFILLED;
    let code = build(&spline, &rooms, &mut answer);
    (code, answer)
}

fn told_of_build(lender: &mut Lender, mut spline: Spline, build: Build) -> Told {
    let mut rooms = Rooms::new();
    let (code, answer) = build_in(lender, &mut spline, &mut rooms, build);
    let floats = [&rooms.path, &rooms.walk, &rooms.segments];
    let left = floats.into_iter().flat_map(|floats| bits(floats));
    let halves = |&owner: &u64| [owner as u32, (owner >> 32) as u32];
    let left = left.chain(rooms.owners.iter().flat_map(halves));
    let left = left.chain(rooms.row_starts.iter().copied());
    Told {
        code,
        answer,
        cells: left.chain(rooms.entries.iter().copied()).collect(),
    }
}

fn build(lender: &mut Lender) -> Told {
    told_of_build(lender, Spline::new(), by_build)
}

fn build_nothing(lender: &mut Lender) -> Told {
    told_of_build(lender, Spline::none(), by_build)
}

fn build_profile(lender: &mut Lender) -> Told {
    told_of_build(lender, Spline::new(), by_build_profile)
}

/// A table of the spline above or of none, with the counts in use.
struct Built {
    rooms: Rooms,
    segment_count: u32,
    entry_count: u32,
}

impl Built {
    fn of(mut spline: Spline) -> Built {
        let mut rooms = Rooms::new();
        let mut nothing_emptied = Lender {
            emptied: 0,
            null: false,
            slices: 0,
        };
        let (_, answer) = build_in(&mut nothing_emptied, &mut spline, &mut rooms, by_build);
        Built {
            rooms,
            segment_count: answer[1] as u32,
            entry_count: answer[2] as u32,
        }
    }
}

/// Draws n columns of the row through the spline's start, which the desk has not hidden.
fn draw_of(lender: &mut Lender, spline: Spline, n: u32) -> Told {
    let splines = spline.counts.len();
    let Built {
        mut rooms,
        segment_count,
        entry_count,
    } = Built::of(spline);
    let mut channels = [(); 3].map(|()| vec![0.5f32; SIDE as usize]);
    let mut bytes = vec![2; splines];
    let (segments_at, segments_len) = lender.lend(&mut rooms.segments);
    let (owners_at, owners_len) = lender.lend(&mut rooms.owners);
    let (entries_at, entries_len) = lender.lend(&mut rooms.entries);
    let (row_starts_at, row_starts_len) = lender.lend(&mut rooms.row_starts);
    let (bits_at, bits_len) = lender.lend(&mut bytes);
    let [(r0, r0_len), (r1, r1_len), (r2, r2_len)] =
        channels.each_mut().map(|channel| lender.lend(channel));
    let mut answer = UNFILLED;
    // SAFETY: as above.
    let code = unsafe {
        symbols::aktyrbuz_draw(
            segments_at,
            segments_len,
            owners_at,
            owners_len,
            segment_count,
            entries_at,
            entries_len,
            entry_count,
            row_starts_at,
            row_starts_len,
            SIDE,
            splines as u64,
            bits_at,
            bits_len,
            0,
            20,
            0,
            n,
            r0,
            r0_len,
            r1,
            r1_len,
            r2,
            r2_len,
            &mut answer,
        )
    };
    Told {
        code,
        answer,
        cells: channels.iter().flat_map(|channel| bits(channel)).collect(),
    }
}

fn draw(lender: &mut Lender) -> Told {
    draw_of(lender, Spline::new(), SIDE)
}

fn draw_no_columns(lender: &mut Lender) -> Told {
    draw_of(lender, Spline::new(), 0)
}

fn draw_no_segments(lender: &mut Lender) -> Told {
    draw_of(lender, Spline::none(), 0)
}

fn reach_of(lender: &mut Lender, spline: Spline) -> Told {
    let splines = spline.counts.len();
    let Built {
        mut rooms,
        segment_count,
        entry_count,
    } = Built::of(spline);
    let mut bytes = vec![1; splines];
    let (segments_at, segments_len) = lender.lend(&mut rooms.segments);
    let (owners_at, owners_len) = lender.lend(&mut rooms.owners);
    let (entries_at, entries_len) = lender.lend(&mut rooms.entries);
    let (row_starts_at, row_starts_len) = lender.lend(&mut rooms.row_starts);
    let (bits_at, bits_len) = lender.lend(&mut bytes);
    let mut answer = UNFILLED;
    // SAFETY: as above.
    let code = unsafe {
        symbols::aktyrbuz_reach(
            segments_at,
            segments_len,
            owners_at,
            owners_len,
            segment_count,
            entries_at,
            entries_len,
            entry_count,
            row_starts_at,
            row_starts_len,
            SIDE,
            splines as u64,
            bits_at,
            bits_len,
            1,
            20,
            SIDE,
            &mut answer,
        )
    };
    Told {
        code,
        answer,
        cells: Vec::new(),
    }
}

fn reach(lender: &mut Lender) -> Told {
    reach_of(lender, Spline::new())
}

fn reach_no_segments(lender: &mut Lender) -> Told {
    reach_of(lender, Spline::none())
}

/// The summary of the first rows, or with the number of a band that one made again, over other numbers.
fn bands_of(lender: &mut Lender, spline: Spline, height: u32, band: Option<u32>) -> Told {
    let splines = spline.counts.len();
    let Built {
        mut rooms,
        segment_count,
        entry_count,
    } = Built::of(spline);
    let (mut bytes, mut cells) = (vec![1; splines], vec![7; 7]);
    let (segments_at, segments_len) = lender.lend(&mut rooms.segments);
    let (owners_at, owners_len) = lender.lend(&mut rooms.owners);
    let (entries_at, entries_len) = lender.lend(&mut rooms.entries);
    let (row_starts_at, row_starts_len) = lender.lend(&mut rooms.row_starts);
    let (bits_at, bits_len) = lender.lend(&mut bytes);
    let (bands_at, bands_len) = lender.lend(&mut cells);
    let mut answer = UNFILLED;
    // SAFETY: as above.
    let code = match band {
        None => unsafe {
            symbols::aktyrbuz_bands(
                segments_at,
                segments_len,
                owners_at,
                owners_len,
                segment_count,
                entries_at,
                entries_len,
                entry_count,
                row_starts_at,
                row_starts_len,
                height,
                splines as u64,
                bits_at,
                bits_len,
                1,
                SIDE,
                bands_at,
                bands_len,
                &mut answer,
            )
        },
        Some(band) => unsafe {
            symbols::aktyrbuz_band(
                segments_at,
                segments_len,
                owners_at,
                owners_len,
                segment_count,
                entries_at,
                entries_len,
                entry_count,
                row_starts_at,
                row_starts_len,
                height,
                splines as u64,
                bits_at,
                bits_len,
                1,
                SIDE,
                bands_at,
                bands_len,
                band,
                &mut answer,
            )
        },
    };
    Told {
        code,
        answer,
        cells,
    }
}

fn bands(lender: &mut Lender) -> Told {
    bands_of(lender, Spline::new(), SIDE, None)
}

fn bands_no_segments(lender: &mut Lender) -> Told {
    bands_of(lender, Spline::none(), SIDE, None)
}

fn bands_no_rows(lender: &mut Lender) -> Told {
    bands_of(lender, Spline::new(), 0, None)
}

fn band(lender: &mut Lender) -> Told {
    bands_of(lender, Spline::new(), SIDE, Some(0))
}

fn hide(lender: &mut Lender) -> Told {
    let mut bytes = vec![7u8; 3];
    let (bits_at, bits_len) = lender.lend(&mut bytes);
    let mut answer = UNFILLED;
    // SAFETY: as above.
    let code = unsafe { symbols::aktyrbuz_hide(bits_at, bits_len, 1, 2, false, &mut answer) };
    Told {
        code,
        answer,
        cells: bytes.into_iter().map(u32::from).collect(),
    }
}

fn check_of(lender: &mut Lender, spline: Spline) -> Told {
    let Built {
        mut rooms,
        segment_count,
        entry_count,
    } = Built::of(spline);
    let (segments_at, segments_len) = lender.lend(&mut rooms.segments);
    let (row_starts_at, row_starts_len) = lender.lend(&mut rooms.row_starts);
    let (entries_at, entries_len) = lender.lend(&mut rooms.entries);
    let mut answer = UNFILLED;
    // SAFETY: as above.
    let code = unsafe {
        symbols::aktyrbuz_check(
            segments_at,
            segments_len,
            segment_count,
            SIDE,
            row_starts_at,
            row_starts_len,
            entries_at,
            entries_len,
            entry_count,
            &mut answer,
        )
    };
    Told {
        code,
        answer,
        cells: Vec::new(),
    }
}

fn check_one(lender: &mut Lender) -> Told {
    check_of(lender, Spline::new())
}

fn check_no_segments(lender: &mut Lender) -> Told {
    check_of(lender, Spline::none())
}
