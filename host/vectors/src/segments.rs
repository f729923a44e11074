//! The transform at a t, and single segments with their rows and columns.

use crate::frame::Case;
use crate::{kinds, words};
use cases::random::Random;
use cases::segments::{segment_case, MAKING_KINDS};
use cases::{bits, each, Segment, Table};
use oracle::{Outcome, Rows};

const MOST_ROWS: usize = 1 << 16;
const COLUMNS: usize = 64;

fn transform(seed: u64) -> Case {
    let mut random = Random::new("vectors of transforms", seed);
    let mut coefficients = [0.0; 32];
    for coefficient in &mut coefficients {
        *coefficient = if seed % 4 == 3 {
            random.any_f32()
        } else {
            random.between(-3.0, 3.0)
        };
    }
    let t = match seed % 5 {
        0 => random.below(32) as f32,
        1 => random.any_f32(),
        _ => random.between(0.0, 31.0),
    };
    let input = [words::floats(&coefficients), vec![bits(t)]].concat();
    Case {
        kind: kinds::TRANSFORM,
        input,
        output: vec![bits(oracle::transform(&coefficients, t))],
    }
}

/// Which of the first 64 pixels of a row the segment touches: those whose minus zero does not stay in one of two opposite colours.
fn columns(segment: &Segment) -> Vec<u32> {
    let mut probe = *segment;
    probe[5..].copy_from_slice(&[1.0, -1.0, 1.0]);
    let table = Table {
        segments: vec![probe],
        row_starts: vec![0, 1],
        entries: vec![0],
        ..Table::default()
    };
    let blank = || vec![-0.0f32; COLUMNS];
    let Outcome::Done([r0, r1, _]) = oracle::draw(&table, 0, 0, [blank(), blank(), blank()]) else {
        panic!("a segment alone is not drawn");
    };
    let stays = |x: f32| x.to_bits() == 1 << 31;
    let touched = (0..COLUMNS).filter(|&x| !stays(r0[x]) || !stays(r1[x]));
    words::halves(touched.fold(0, |mask, x| mask | 1 << x))
}

/// Made or not; the eight numbers, the first row and one past the last (both all ones if there are too many), the touched columns.
fn segment(kind: &str, seed: u64) -> Case {
    let case = segment_case(kind, seed);
    let made = oracle::segment(
        case.center,
        case.multiplier,
        case.colors,
        case.sigma,
        case.high_precision,
        MOST_ROWS,
    );
    let mut input = words::floats(&case.center);
    input.push(bits(case.multiplier));
    input.extend(words::floats(&case.colors));
    input.extend([bits(case.sigma), case.high_precision.into()]);
    let output = match made {
        Outcome::Done(None) => vec![0],
        Outcome::Done(Some((segment, rows))) => {
            let (first, past) = match rows {
                Rows::Run { first, past } => (first, past),
                Rows::TooMany => (u64::MAX, u64::MAX),
            };
            let numbers = words::floats(&segment);
            [
                vec![1],
                numbers,
                words::halves(first),
                words::halves(past),
                columns(&segment),
            ]
            .concat()
        }
        other => panic!("a segment came to {other:?}"),
    };
    Case {
        kind: kinds::SEGMENT,
        input,
        output,
    }
}

pub fn cases(seeds: u64) -> Vec<Case> {
    let transforms = (0..4 * seeds).map(transform);
    let segments = each(&MAKING_KINDS, seeds).map(|(kind, seed)| segment(kind, seed));
    transforms.chain(segments).collect()
}
