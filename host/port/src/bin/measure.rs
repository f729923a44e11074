//! What a call costs: the stack that it takes and its time; reading and writing at 2^10 and at 2^20 points, building, drawing and bands at 2^4 and at 2^12 splines.
//!
//! `measure` prints both. `measure CALL POINTS` makes one call of read, write, trace_read, trace_write, points_read or points_write, for a counter of instructions.

use port::stack::stack_of;
use std::process::ExitCode;
use std::time::Instant;

/// Points of one spline, and splines of a picture.
const SIZES: [usize; 2] = [1 << 10, 1 << 20];
const SPLINES: [usize; 2] = [1 << 4, 1 << 12];

/// The least time of this many calls is given.
const CALLS: u32 = 20;

fn main() -> ExitCode {
    quiet::end_with_the_reader();
    let words: Vec<String> = std::env::args().skip(1).collect();
    match words.iter().map(String::as_str).collect::<Vec<_>>()[..] {
        [] => table(),
        [call, points]
            if CALLED.contains(&call) && points.parse::<usize>().is_ok_and(|n| n > 0) =>
        {
            let mut fibre = Fibre::of(points.parse().expect("a number"));
            fibre.call(call);
        }
        _ => {
            eprintln!("usage: measure [{} POINTS]", CALLED.join(" | "));
            return ExitCode::from(2);
        }
    }
    ExitCode::SUCCESS
}

/// The calls on one spline.
const CALLED: [&str; 6] = [
    "read",
    "write",
    "trace_read",
    "trace_write",
    "points_read",
    "points_write",
];

fn table() {
    println!("call           size  stack (bytes)  least time of {CALLS} (microseconds)");
    for call in ["nothing"].into_iter().chain(CALLED) {
        for points in SIZES {
            let mut fibre = Fibre::of(points);
            line(call, points, || fibre.call(call));
        }
    }
    for splines in SPLINES {
        let mut picture = Picture::of(splines);
        line("build", splines, || picture.build());
    }
    for splines in SPLINES {
        let mut picture = Picture::of(splines);
        picture.build();
        line("draw", splines, || picture.draw());
    }
    for splines in SPLINES {
        let mut picture = Picture::of(splines);
        picture.build();
        line("bands", splines, || picture.summed(None));
        line("band", splines, || picture.summed(Some(0)));
    }
}

fn line<F: FnMut()>(call: &str, size: usize, mut make: F) {
    let stack = stack_of(&mut make);
    let least = (0..CALLS).map(|_| {
        let started = Instant::now();
        make();
        started.elapsed().as_nanos()
    });
    let least = least.min().expect("some calls") as f64 / 1000.0;
    println!("{call:<11} {size:>7} {stack:>14} {least:>12.1}");
}

/// One spline as a list, as a trace file and as a description: each call writes one of them again from another. Beside it a straight one as a
/// text of points and as double deltas, since the other one soon leaves all positions.
struct Fibre {
    list: Vec<u32>,
    file: Vec<u8>,
    text: Vec<u8>,
    straight: Vec<i32>,
    counts: Vec<u32>,
    starts: Vec<f32>,
    deltas: Vec<i32>,
    coefficients: Vec<i32>,
}

impl Fibre {
    fn of(points: usize) -> Fibre {
        let deltas: Vec<i32> = (0..2 * points as i32).map(|index| index % 9).collect();
        let coefficients: Vec<i32> = (0..128).collect();
        let mut list = vec![0, 5, 6, 0, points as u32];
        list.extend(
            deltas
                .iter()
                .chain(&coefficients)
                .map(|&value| 2 * value as u32),
        );
        let mut fibre = Fibre {
            list,
            file: vec![0; 32 + 524 + 8 * points],
            text: straight_text(points),
            straight: vec![0; 2 * points],
            counts: vec![points as u32],
            starts: vec![5.0, 6.0],
            deltas,
            coefficients,
        };
        fibre.call("trace_write");
        fibre.call("points_read");
        fibre
    }

    /// Panics if the call is refused.
    #[inline(never)]
    fn call(&mut self, call: &str) {
        let code = match call {
            "read" => self.read(),
            "write" => self.write(),
            "trace_read" => self.trace_read(),
            "trace_write" => self.trace_write(),
            "points_read" => self.points_read(),
            "points_write" => self.points_write(),
            _ => 0,
        };
        assert_eq!(code, 0, "{call} is refused");
    }

    fn read(&mut self) -> u32 {
        let (code, _) = port::read(
            &self.list,
            u32::MAX,
            u32::MAX,
            &mut self.counts,
            &mut self.starts,
            &mut self.deltas,
            &mut self.coefficients,
        );
        code
    }

    /// The call that writes the list or else the trace file.
    fn written(&mut self, call: impl FnOnce(&port::Parts, &mut [u32], &mut [u8]) -> u32) -> u32 {
        let parts = port::Parts {
            counts: &self.counts,
            starts: &self.starts,
            deltas: &self.deltas,
            coefficients: &self.coefficients,
            adjustment: 0,
        };
        call(&parts, &mut self.list, &mut self.file)
    }

    fn write(&mut self) -> u32 {
        self.written(|parts, list, _| port::write(parts, u32::MAX, u32::MAX, list).0)
    }

    fn trace_read(&mut self) -> u32 {
        let (code, _) = port::trace_read(
            &self.file,
            &mut self.counts,
            &mut self.starts,
            &mut self.deltas,
            &mut self.coefficients,
        );
        code
    }

    fn trace_write(&mut self) -> u32 {
        self.written(|parts, _, file| port::trace_write(parts, file).0)
    }

    fn points_read(&mut self) -> u32 {
        port::points_read(&self.text, &mut self.starts, &mut self.straight).0
    }

    fn points_write(&mut self) -> u32 {
        let parts = port::Parts {
            counts: &self.counts,
            starts: &self.starts,
            deltas: &self.straight,
            coefficients: &self.coefficients,
            adjustment: 0,
        };
        port::points_write(&parts, 0, &mut self.text).0
    }
}

/// From (5, 6) to the right, one pixel a point.
fn straight_text(points: usize) -> Vec<u8> {
    let pairs: Vec<String> = (0..=points).map(|k| format!("{},6", 5 + k)).collect();
    pairs.join(" ").into_bytes()
}

/// Short strands below each other in an image of SIDE by SIDE, with the buffers of its table and of one row.
struct Picture {
    counts: Vec<u32>,
    starts: Vec<f32>,
    deltas: Vec<i32>,
    coefficients: Vec<i32>,
    path: Vec<f32>,
    walk: Vec<f32>,
    segments: Vec<f32>,
    owners: Vec<u64>,
    row_starts: Vec<u32>,
    entries: Vec<u32>,
    bits: Vec<u8>,
    told: [u32; 2],
    row: [Vec<f32>; 3],
    bands: Vec<u32>,
}

const SIDE: u32 = 1024;
/// Numbers of its bands: five for each 64 rows.
const BANDS: usize = 5 * SIDE as usize / 64;

impl Picture {
    fn of(splines: usize) -> Picture {
        // 20 to the right and as a whole one thickness: the first numbers of X, Y, B and sigma.
        let mut coefficients = vec![0; 128 * splines];
        for spline in coefficients.chunks_exact_mut(128) {
            spline[32] = 10;
            spline[96] = 6;
        }
        Picture {
            counts: vec![1; splines],
            starts: (0..splines)
                .flat_map(|k| [100.0, (k % SIDE as usize) as f32])
                .collect(),
            deltas: [20, 0].repeat(splines),
            coefficients,
            path: vec![0.0; 1 << 10],
            walk: vec![0.0; 1 << 10],
            segments: vec![0.0; 8 * 64 * splines],
            owners: vec![0; 64 * splines],
            row_starts: vec![0; SIDE as usize + 1],
            entries: vec![0; 64 * 64 * splines],
            bits: vec![0; splines],
            told: [0; 2],
            row: [(); 3].map(|()| vec![0.0; SIDE as usize]),
            bands: vec![0; BANDS],
        }
    }

    #[inline(never)]
    fn build(&mut self) {
        let parts = port::Parts {
            counts: &self.counts,
            starts: &self.starts,
            deltas: &self.deltas,
            coefficients: &self.coefficients,
            adjustment: 0,
        };
        let image = port::Image {
            level10: true,
            ..port::Image::new(SIDE, SIDE)
        };
        let lent = port::Buffers {
            path: &mut self.path,
            walk: &mut self.walk,
            segments: &mut self.segments,
            owners: &mut self.owners,
            row_starts: &mut self.row_starts,
            entries: &mut self.entries,
        };
        let (code, answer) = port::build(&parts, &image, lent);
        assert_eq!(code, 0, "build is refused");
        assert!(answer[1] > 0 && answer[2] > 0, "nothing is built");
        self.told = [answer[1] as u32, answer[2] as u32];
    }

    /// The table and a sight of it with nothing hidden, and what is drawn and summed in.
    fn lent(
        &mut self,
    ) -> (
        port::Table<'_>,
        port::Sight<'_>,
        [&mut [f32]; 3],
        &mut [u32],
    ) {
        let table = port::Table {
            segments: &self.segments,
            owners: &self.owners,
            segment_count: self.told[0],
            entries: &self.entries,
            entry_count: self.told[1],
            row_starts: &self.row_starts,
            height: SIDE,
        };
        let sight = port::Sight {
            splines: self.counts.len() as u64,
            bits: &self.bits,
            desk: 0,
        };
        let [r0, r1, r2] = &mut self.row;
        (table, sight, [r0, r1, r2], &mut self.bands)
    }

    /// The first row.
    #[inline(never)]
    fn draw(&mut self) {
        let (table, sight, channels, _) = self.lent();
        let (code, answer) = port::draw(&table, &sight, 0, 0, SIDE, channels);
        assert_eq!(code, 0, "draw is refused");
        assert!(answer[1] > 0, "nothing is drawn");
    }

    /// All bands made, or one made again.
    #[inline(never)]
    fn summed(&mut self, band: Option<u32>) {
        let (table, sight, _, bands) = self.lent();
        let (code, _) = match band {
            None => port::bands(&table, &sight, SIDE, bands),
            Some(band) => port::band(&table, &sight, SIDE, bands, band),
        };
        assert_eq!(code, 0, "bands are refused");
        assert!(bands[0] > 0, "nothing is summed");
    }
}
