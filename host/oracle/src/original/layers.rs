//! The original's layers on plain numbers. Nothing is worked out here that spline.rs works out itself; lib.rs says what each is.

use super::{
    draw_centripetal_catmull_rom_spline, for_each_equally_spaced_point, Dct32, Point,
    PrecomputedCosines, QuantizedSpline, Spline, SplineSegment, Splines, DCT_MULTIPLIERS,
    DESIRED_RENDERING_DISTANCE,
};
use crate::api::JxlCodestreamLevel;
use crate::bit_reader::BitReader;
use crate::error::{Error, Result as OriginalResult};
use crate::frame::color_correlation_map::ColorCorrelationParams;
use crate::outcome::{judge, judge_within};
use crate::stubs::jxl_simd::{Lane, Scalar};
use crate::stubs::memory::{self, MemoryTracker, Vec as Paid};
use crate::util::CeilLog2;
use crate::{Built, Dequantized, Description, Given, Outcome, Read, Rows, Segment, Table};

pub(crate) use crate::entropy_coding::decode::unpack_signed;
pub(crate) use crate::util::fast_cos;

pub(crate) fn read(list: &[u32], configured: u32, pixels: u32) -> Read {
    let mut reader = BitReader::new(list);
    let outcome = judge(|| Splines::read(&mut reader, pixels, Some(configured), &MemoryTracker));
    Read {
        outcome: outcome.map(|splines| description_of(&splines)),
        consumed: reader.taken,
        ran_short: reader.ran_short,
    }
}

fn description_of(splines: &Splines) -> Description {
    let mut description = Description {
        adjustment: splines.quantization_adjustment,
        starts: splines
            .starting_points
            .iter()
            .flat_map(|p| [p.x, p.y])
            .collect(),
        ..Description::default()
    };
    for spline in &splines.splines {
        description.counts.push(spline.control_points.len() as u32);
        for &(x, y) in &spline.control_points {
            // Both came from 32 bits.
            description.deltas.extend([x as i32, y as i32]);
        }
        description
            .coefficients
            .extend(spline.color_dct.iter().flatten());
        description.coefficients.extend(spline.sigma_dct);
    }
    description
}

pub(crate) fn spline_area_limit(level10: bool, area: u64) -> u64 {
    level(level10).spline_area_limit(area)
}

fn level(level10: bool) -> JxlCodestreamLevel {
    if level10 {
        JxlCodestreamLevel::Level10
    } else {
        JxlCodestreamLevel::Level5
    }
}

pub(crate) fn ceil_log2(x: u64) -> u64 {
    x.ceil_log2()
}

pub(crate) fn fast_erff(x: f32) -> f32 {
    crate::util::fast_erff_simd(Scalar, Lane(x)).0
}

pub(crate) fn inv_adjusted_quant(adjustment: i32) -> f32 {
    super::inv_adjusted_quant(adjustment)
}

pub(crate) fn length(x: f32, y: f32) -> f32 {
    Point::new(x, y).abs()
}

pub(crate) fn dequantize(
    start: [f32; 2],
    deltas: &[i32],
    coefficients: &[i32],
    adjustment: i32,
    [y_to_x, y_to_b]: [f32; 2],
    area_limit: u64,
) -> Outcome<Dequantized> {
    let quantized = quantized_spline(deltas, coefficients);
    let start = Point::new(start[0], start[1]);
    judge(|| quantized.dequantize(&start, adjustment, y_to_x, y_to_b, area_limit)).map(|spline| {
        let [x, y, b] = spline.color_dct;
        Dequantized {
            points: spline.control_points.iter().map(|p| [p.x, p.y]).collect(),
            rows: [x.0, y.0, b.0, spline.sigma_dct.0],
            estimate: spline.estimated_area_reached,
        }
    })
}

fn quantized_spline(deltas: &[i32], coefficients: &[i32]) -> QuantizedSpline {
    assert_eq!(deltas.len() % 2, 0, "double deltas come in pairs");
    assert_eq!(coefficients.len(), 128, "a spline has 128 coefficients");
    let row =
        |i: usize| -> [i32; 32] { coefficients[32 * i..][..32].try_into().expect("32 of them") };
    let pairs = deltas
        .chunks_exact(2)
        .map(|pair| (pair[0].into(), pair[1].into()));
    QuantizedSpline {
        control_points: Paid::from_plain(pairs.collect()),
        color_dct: [row(0), row(1), row(2)],
        sigma_dct: row(3),
    }
}

pub(crate) fn coincide(points: &[[f32; 2]]) -> Outcome<()> {
    let spline = Spline {
        control_points: Paid::from_plain(points_of(points)),
        ..Spline::default()
    };
    judge(|| spline.validate_adjacent_point_coincidence())
}

fn points_of(points: &[[f32; 2]]) -> Vec<Point> {
    points.iter().map(|&[x, y]| Point::new(x, y)).collect()
}

pub(crate) fn curve(points: &[[f32; 2]]) -> Outcome<Vec<[f32; 2]>> {
    let points = points_of(points);
    judge(|| draw_centripetal_catmull_rom_spline(&points))
        .map(|path| path.iter().map(|p| [p.x, p.y]).collect())
}

pub(crate) fn walk(path: &[[f32; 2]], cap: usize) -> Outcome<Vec<[f32; 3]>> {
    let path = points_of(path);
    judge(|| {
        let mut emitted = Vec::new();
        for_each_equally_spaced_point(&path, DESIRED_RENDERING_DISTANCE, |p, multiplier| {
            if emitted.len() == cap {
                memory::stop();
            }
            emitted.push([p.x, p.y, multiplier]);
        });
        Ok(emitted)
    })
}

pub(crate) fn length_of_walk(walk: &[[f32; 3]]) -> f32 {
    (walk.len() as isize - 2) as f32 * DESIRED_RENDERING_DISTANCE + walk[walk.len() - 1][2]
}

pub(crate) fn dct_multipliers() -> [f32; 32] {
    DCT_MULTIPLIERS
}

pub(crate) fn cosines(t: f32) -> [f32; 32] {
    PrecomputedCosines::new(t).0
}

pub(crate) fn transform(coefficients: &[f32; 32], t: f32) -> f32 {
    Dct32(*coefficients).continuous_idct_fast(&PrecomputedCosines::new(t))
}

pub(crate) fn segment(
    center: [f32; 2],
    multiplier: f32,
    colour: [f32; 3],
    sigma: f32,
    high_precision: bool,
    cap: usize,
) -> Outcome<Option<(Segment, Rows)>> {
    let add = |y: f32, cap: usize| {
        let bytes = memory::bytes_of::<(u64, usize)>(cap)
            .saturating_add(memory::bytes_of::<SplineSegment>(1));
        judge_within(bytes, || {
            let mut splines = Splines::default();
            let mut rows = Paid::new();
            let center = Point::new(center[0], y);
            splines.add_segment(
                &center,
                multiplier,
                colour,
                sigma,
                high_precision,
                &mut rows,
            );
            Ok(splines
                .segments
                .first()
                .map(|segment| (eight(segment), run(&rows))))
        })
    };
    match add(center[1], cap) {
        // Far above the image there is one row at most, and the other seven floats are the same.
        Outcome::NoMemory => add(f32::NEG_INFINITY, 1).map(|made| {
            made.map(|(mut segment, _)| {
                segment[1] = center[1];
                (segment, Rows::TooMany)
            })
        }),
        outcome => outcome,
    }
}

fn eight(s: &SplineSegment) -> Segment {
    let [c0, c1, c2] = s.color;
    let [d, i, o] = [
        s.maximum_distance,
        s.inv_sigma,
        s.sigma_over_4_times_intensity,
    ];
    [s.center_x, s.center_y, d, i, o, c0, c1, c2]
}

fn run(rows: &[(u64, usize)]) -> Rows {
    let first = rows.first().map_or(0, |row| row.0);
    let past = rows.last().map_or(0, |row| row.0 + 1);
    assert_eq!(past - first, rows.len() as u64, "the rows are a run");
    Rows::Run { first, past }
}

pub(crate) fn segments(
    rows: &[[f32; 32]; 4],
    walk: &[[f32; 3]],
    length: f32,
    high_precision: bool,
) -> Outcome<Vec<Segment>> {
    let [x, y, b, sigma] = *rows;
    let spline = Spline {
        color_dct: [Dct32(x), Dct32(y), Dct32(b)],
        sigma_dct: Dct32(sigma),
        ..Spline::default()
    };
    let points: Vec<_> = walk
        .iter()
        .map(|&[x, y, m]| (Point::new(x, y), m))
        .collect();
    judge(|| {
        let mut splines = Splines::default();
        let distance = DESIRED_RENDERING_DISTANCE;
        let mut by_y = Paid::new();
        splines.add_segments_from_points(
            &spline,
            &points,
            length,
            distance,
            high_precision,
            &mut by_y,
        );
        Ok(splines.segments.iter().map(eight).collect())
    })
}

/// The description as the original holds it.
pub(crate) fn splines_of(description: &Description) -> Splines {
    let Description {
        counts,
        starts,
        deltas,
        coefficients,
        adjustment,
    } = description;
    let points: usize = counts.iter().map(|&count| count as usize).sum();
    let shape = [2 * counts.len(), 2 * points, 128 * counts.len()];
    assert_eq!(
        [starts.len(), deltas.len(), coefficients.len()],
        shape,
        "lengths agree"
    );
    let mut rest = &deltas[..];
    let quantized = counts
        .iter()
        .zip(coefficients.chunks_exact(128))
        .map(|(&count, values)| {
            let (own, others) = rest.split_at(2 * count as usize);
            rest = others;
            quantized_spline(own, values)
        });
    Splines {
        quantization_adjustment: *adjustment,
        splines: Paid::from_plain(quantized.collect()),
        starting_points: Paid::from_plain(
            starts
                .chunks_exact(2)
                .map(|s| Point::new(s[0], s[1]))
                .collect(),
        ),
        ..Splines::default()
    }
}

pub(crate) fn initialize(splines: &mut Splines, given: &Given) -> Outcome<()> {
    let correlation = ColorCorrelationParams {
        y_to_x: given.y_to_x,
        y_to_b: given.y_to_b,
    };
    judge(|| {
        splines.initialize_draw_cache(
            given.width.into(),
            given.height.into(),
            &correlation,
            given.high_precision,
            level(given.level10),
        )
    })
}

pub(crate) fn build(description: &Description, given: &Given) -> Outcome<Built> {
    let mut splines = splines_of(description);
    initialize(&mut splines, given).map(|()| Built {
        table: Table {
            owners: owners(description, given, splines.segments.len()),
            estimate: estimate(&splines, given),
            ..table_of(&splines)
        },
        below: entries_below(&splines),
    })
}

/// The number of each segment's spline, of a build that was done with so many segments. The original keeps none: each spline is
/// built alone, and so many segments as it makes then are its own.
fn owners(description: &Description, given: &Given, segments: usize) -> Vec<u64> {
    let alone = (0..).zip(each_alone(description));
    let owners: Vec<u64> = alone
        .flat_map(|(number, alone)| {
            let mut splines = splines_of(&alone);
            let built = initialize(&mut splines, given);
            assert_eq!(built, Outcome::Done(()), "spline {number} is built alone");
            std::iter::repeat(number).take(splines.segments.len())
        })
        .collect();
    assert_eq!(owners.len(), segments, "each segment has a spline");
    owners
}

/// Each spline as a description of its own.
fn each_alone(description: &Description) -> impl Iterator<Item = Description> + '_ {
    let mut rest = &description.deltas[..];
    let starts = description.starts.chunks_exact(2);
    let coefficients = description.coefficients.chunks_exact(128);
    let splines = description.counts.iter().zip(starts).zip(coefficients);
    splines.map(move |((&count, start), coefficients)| {
        let (own, others) = rest.split_at(2 * count as usize);
        rest = others;
        Description {
            counts: vec![count],
            starts: start.to_vec(),
            deltas: own.to_vec(),
            coefficients: coefficients.to_vec(),
            adjustment: description.adjustment,
        }
    })
}

/// The table that stands in `splines`, whole or not, without owners and the estimate.
fn table_of(splines: &Splines) -> Table {
    let small = |number: u64| {
        u32::try_from(number).expect("a table that fits the memory has 32-bit numbers")
    };
    let entries = splines.segment_indices.iter().take(image_entries(splines));
    Table {
        segments: splines.segments.iter().map(eight).collect(),
        row_starts: splines
            .segment_y_start
            .iter()
            .map(|&start| small(start))
            .collect(),
        entries: entries.map(|&index| small(index as u64)).collect(),
        faint: splines
            .segments
            .iter()
            .filter(|segment| segment.maximum_distance.is_nan())
            .count() as u64,
        ..Table::default()
    }
}

/// How many entries are in image rows: they come first.
fn image_entries(splines: &Splines) -> usize {
    splines
        .segment_y_start
        .last()
        .map_or(0, |&past| past as usize)
}

fn entries_below(splines: &Splines) -> u64 {
    splines
        .segment_indices
        .len()
        .saturating_sub(image_entries(splines)) as u64
}

/// One turn of the first loop of `initialize_draw_cache`: dequantizing, the sum and its limit, coinciding points.
fn judge_spline(
    splines: &Splines,
    index: usize,
    given: &Given,
    total: &mut u64,
) -> OriginalResult<()> {
    let area = u64::from(given.width).saturating_mul(given.height.into());
    let limit = spline_area_limit(given.level10, area);
    let spline = splines.splines[index].dequantize(
        &splines.starting_points[index],
        splines.quantization_adjustment,
        given.y_to_x,
        given.y_to_b,
        limit,
    )?;
    *total = total.wrapping_add(spline.estimated_area_reached);
    if *total > limit {
        return Err(Error::SplinesAreaTooLarge(*total, limit));
    }
    spline.validate_adjacent_point_coincidence()
}

/// The sum over all splines of a build that was done.
fn estimate(splines: &Splines, given: &Given) -> u64 {
    let mut total = 0;
    for index in 0..splines.splines.len() {
        let judged = judge(|| judge_spline(splines, index, given, &mut total));
        assert_eq!(judged, Outcome::Done(()), "the build took spline {index}");
    }
    total
}

pub(crate) fn refused_spline(description: &Description, given: &Given) -> Option<usize> {
    judged(description, given).err().map(|(index, _)| index)
}

pub(crate) fn judged(
    description: &Description,
    given: &Given,
) -> Result<u64, (usize, Outcome<()>)> {
    let splines = splines_of(description);
    let mut total = 0;
    for index in 0..splines.splines.len() {
        match judge(|| judge_spline(&splines, index, given, &mut total)) {
            Outcome::Done(()) => {}
            outcome => return Err((index, outcome)),
        }
    }
    Ok(total)
}

pub(crate) fn rebuild(
    first: &Description,
    second: &Description,
    given: &Given,
) -> Result<(Outcome<()>, Built), Outcome<()>> {
    let mut splines = splines_of(first);
    match initialize(&mut splines, given) {
        Outcome::Done(()) => {}
        failed => return Err(failed),
    }
    let next = splines_of(second);
    splines.quantization_adjustment = next.quantization_adjustment;
    splines.splines = next.splines;
    splines.starting_points = next.starting_points;
    let outcome = initialize(&mut splines, given);
    Ok((
        outcome,
        Built {
            table: table_of(&splines),
            below: entries_below(&splines),
        },
    ))
}

pub(crate) fn load(table: &Table) -> Splines {
    let segment = |&[center_x, center_y, distance, inv_sigma, intensity, c0, c1, c2]: &Segment| {
        SplineSegment {
            center_x,
            center_y,
            maximum_distance: distance,
            inv_sigma,
            sigma_over_4_times_intensity: intensity,
            color: [c0, c1, c2],
        }
    };
    Splines {
        segments: Paid::from_plain(table.segments.iter().map(segment).collect()),
        segment_indices: Paid::from_plain(
            table.entries.iter().map(|&entry| entry as usize).collect(),
        ),
        segment_y_start: Paid::from_plain(
            table.row_starts.iter().map(|&start| start.into()).collect(),
        ),
        ..Splines::default()
    }
}

pub(crate) fn draw(
    splines: &Splines,
    y: u32,
    x0: u32,
    mut channels: [&mut [f32]; 3],
) -> Outcome<()> {
    let n = channels[0].len();
    judge(|| {
        splines.draw_segments(&mut channels, (x0 as usize, y as usize), n);
        Ok(())
    })
}

pub(crate) fn draw_image(
    splines: &Splines,
    width: usize,
    height: usize,
    [r0, r1, r2]: [&mut [f32]; 3],
) -> Outcome<()> {
    judge(|| {
        for y in 0..height {
            let row = y * width..(y + 1) * width;
            let mut channels = [&mut r0[row.clone()], &mut r1[row.clone()], &mut r2[row]];
            splines.draw_segments(&mut channels, (0, y), width);
        }
        Ok(())
    })
}
