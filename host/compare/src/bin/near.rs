//! The edge allowance, looked for in exact whole numbers: `near [COUNT]` tries so many segments (10,000,000) at the edges of its premises.
//!
//! A row no farther than d - 1 from the centre is listed, and none that is listed is farther than d + 1; columns likewise. Ends with 1 where one is against it; tells the tightest that it met.

use cases::random::Random;
use model::segments::{all_rows, columns};
use std::ops::Range;
use std::process::ExitCode;

/// Values are whole numbers of 2^-100: every f32 from 2^-77 on is one, and smaller ones are not tried.
const ONE: i128 = 1 << 100;

/// |c| + d may be so much.
const MOST: i128 = ONE << 22;

fn exact(x: f32) -> Option<i128> {
    let (magnitude, exponent) = (x.to_bits() & 0x7fff_ffff, (x.to_bits() >> 23 & 0xff) as i32);
    if magnitude == 0 {
        return Some(0);
    }
    if !(50..=172).contains(&exponent) {
        return None;
    }
    let digits = i128::from(magnitude & 0x7f_ffff | 0x80_0000);
    let size = digits << (exponent - 50);
    Some(if x < 0.0 { -size } else { size })
}

/// A row or column with how much farther than d from the centre it is.
#[derive(Clone, Copy)]
struct Met {
    over: i128,
    center: f32,
    distance: f32,
    at: i128,
}

#[derive(Default)]
struct Search {
    tried: u64,
    against: u64,
    farthest_listed: Option<Met>,
    nearest_left_out: Option<Met>,
}

impl Search {
    /// The rows or columns about both ends of a range, and the first two of the image.
    fn about(&mut self, center: f32, distance: f32, range: Range<i128>) {
        self.tried += 1;
        let (Some(c), Some(d)) = (exact(center), exact(distance)) else {
            return;
        };
        let ends = [range.start, range.end, 0].into_iter();
        for at in ends.flat_map(|end| end - 2..end + 2).filter(|&at| at >= 0) {
            let over = (at * ONE - c).abs() - d;
            let met = Met {
                over,
                center,
                distance,
                at,
            };
            if range.contains(&at) {
                self.against += u64::from(over > ONE);
                if self.farthest_listed.map_or(true, |most| over > most.over) {
                    self.farthest_listed = Some(met);
                }
            } else {
                self.against += u64::from(over <= -ONE);
                if self
                    .nearest_left_out
                    .map_or(true, |least| over < least.over)
                {
                    self.nearest_left_out = Some(met);
                }
            }
        }
    }

    fn tell(&self, what: &str) {
        println!(
            "near: {what}: {} segments, {} against the allowance",
            self.tried, self.against
        );
        for (name, met) in [
            ("listed", self.farthest_listed),
            ("left out", self.nearest_left_out),
        ] {
            let Some(Met {
                over,
                center,
                distance,
                at,
            }) = met
            else {
                continue;
            };
            let past = over as f64 / ONE as f64;
            println!("near: {what}: the tightest {name} is d {past:+} away: centre {center:?}, d {distance:?}, at {at}");
        }
    }
}

/// From 2^-24 to 2^22, more often large, with few digits or all.
fn value(r: &mut Random) -> f32 {
    let exponent = if r.once_in(2) {
        103 + r.below(47)
    } else {
        144 + r.below(6)
    };
    let dropped = r.below(24);
    let digits = (r.next() & 0x7f_ffff) >> dropped << dropped;
    f32::from_bits((exponent << 23 | digits) as u32)
}

/// A distance of any size, up to the limit, to a tie, or small; then up to three f32 less.
fn distance(r: &mut Random, center: f32) -> f32 {
    let d = match r.below(4) {
        0 => value(r),
        1 => 4_194_304.0 - center,
        2 => (r.below(4_194_304 * 16) as f64 / 16.0 - f64::from(center)).abs() as f32,
        _ => {
            let small = value(r).min(64.0);
            r.pick(&[0.0, -0.0, small])
        }
    };
    if d > 0.0 {
        f32::from_bits(d.to_bits().saturating_sub(r.below(4) as u32))
    } else {
        d
    }
}

fn main() -> ExitCode {
    quiet::end_with_the_reader();
    let count = match std::env::args().nth(1).map(|count| count.parse()) {
        None => 10_000_000,
        Some(Ok(count)) => count,
        Some(Err(_)) => {
            eprintln!("near: usage: near [COUNT]");
            return ExitCode::from(2);
        }
    };
    let mut r = Random::new("near", 0);
    let (mut by_row, mut by_column) = (Search::default(), Search::default());
    while by_row.tried < count {
        let size = value(&mut r);
        let d = distance(&mut r, size);
        let c = if r.once_in(3) { -size } else { size };
        let (Some(centre), Some(reach)) = (exact(c), exact(d)) else {
            continue;
        };
        if reach < 0 || centre.abs() + reach > MOST {
            continue;
        }
        let segment = [c, c, d, 1.0, 1.0, 1.0, 1.0, 1.0];
        by_row.about(c, d, all_rows(&segment));
        if centre - reach >= ONE {
            by_column.about(c, d, columns(&segment));
        }
    }
    by_row.tell("rows");
    by_column.tell("columns");
    ExitCode::from(u8::from(by_row.against + by_column.against > 0))
}
