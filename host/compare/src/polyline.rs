//! Line drawings: the second reading against itself, where a text that is read is written as the same one and the other way round, and against
//! spline.rs, whose `dequantize` and judgement of coinciding points find the points of a text legal or not.

use crate::tally::Tally;
use crate::verdict::{code_of, equal, Verdict};
use cases::descriptions::{build_case, KINDS};
use cases::polylines::{exported, text, EXPORT_KINDS, TEXT_KINDS};
use cases::{each, Code, Description, Polyline, Refusal};
use model::list::well_shaped;
use oracle::Outcome;

const TEXTS_A_KIND: u64 = 4_096;
const DESCRIPTIONS_A_KIND: u64 = 250;

pub fn compare(tally: &mut Tally) {
    for (kind, seed) in each(&TEXT_KINDS, TEXTS_A_KIND) {
        let text = text(kind, seed);
        let said = String::from_utf8_lossy(&text).into_owned();
        tally.add(kind, seed, &said, read_and_written(&text));
    }
    let generated = each(&KINDS, DESCRIPTIONS_A_KIND)
        .map(|(kind, seed)| (kind, seed, build_case(kind, seed).description));
    let faulty = each(&EXPORT_KINDS, DESCRIPTIONS_A_KIND)
        .map(|(kind, seed)| (kind, seed, exported(kind, seed)));
    for (kind, seed, description) in generated.chain(faulty) {
        for spline in 0..=description.counts.len() as u64 {
            let verdict = written_and_read(&description, spline);
            tally.add(kind, seed, &(spline, &description), verdict);
        }
    }
}

fn read_and_written(text: &[u8]) -> Verdict {
    let read = model::points_read(text, u64::MAX, u64::MAX);
    if let Err(refusal) = &read {
        if refusal.code == Code::Text {
            return Verdict::Outside(Code::Text);
        }
    }
    let judged = judged_by_rust(text);
    if judged.as_ref().is_some_and(|judged| *judged != read) {
        return equal(false, &read, &judged);
    }
    match read {
        Err(refusal) if judged.is_none() => Verdict::Outside(refusal.code),
        Err(refusal) => Verdict::Refused(refusal.code),
        Ok(line) => {
            let written = model::points_write(&described(&line), 0, u64::MAX);
            equal(written.as_deref() == Ok(text), &text, &written)
        }
    }
}

/// A description of this one line, without colour or thickness.
pub fn described(line: &Polyline) -> Description {
    Description {
        counts: vec![line.deltas.len() as u32 / 2],
        starts: line.start.to_vec(),
        deltas: line.deltas.clone(),
        coefficients: vec![0; 128],
        adjustment: 0,
    }
}

/// What spline.rs makes of a text of the form: the line, or the refusal of the first pair with which it takes the points no more. `None` where a
/// number of the text has no place in what spline.rs is handed.
pub fn judged_by_rust(text: &[u8]) -> Option<Result<Polyline, Refusal>> {
    let text = std::str::from_utf8(text).ok()?;
    let numbers: Option<Vec<i32>> = text
        .split([',', ' '])
        .map(|word| word.parse().ok())
        .collect();
    let numbers = numbers?;
    // A start that is refused needs no digits that an f32 lacks: those past 2^24 are as far out when rounded.
    let start = [numbers[0] as f32, numbers[1] as f32];
    let mut deltas = Vec::new();
    let mut before = [0; 2];
    for pair in numbers.windows(4).step_by(2) {
        for axis in [0, 1] {
            let step = i64::from(pair[axis + 2]) - i64::from(pair[axis]);
            deltas.push(i32::try_from(step - before[axis]).ok()?);
            before[axis] = step;
        }
    }
    let place = |pairs: usize| -> u64 {
        let words = text.split(' ').take(pairs);
        words.map(|word| word.len() as u64 + 1).sum()
    };
    for pairs in 0..=deltas.len() / 2 {
        if let Some(code) = refused(start, &deltas[..2 * pairs]) {
            let place = place(pairs);
            return Some(Err(Refusal { code, place }));
        }
    }
    Some(Ok(Polyline { start, deltas }))
}

/// No limit of area, so that only positions and coinciding points are judged.
const NO_LIMIT: u64 = u64::MAX;

/// The points that spline.rs finds on the way, or its refusal.
fn points(start: [f32; 2], deltas: &[i32]) -> Result<Vec<[f32; 2]>, Code> {
    match oracle::dequantize(start, deltas, &[0; 128], 0, 0.0, 1.0, NO_LIMIT) {
        Outcome::Done(spline) => match oracle::coincide(&spline.points) {
            Outcome::Done(()) => Ok(spline.points),
            Outcome::Refused(why) => Err(code_of(why)),
            other => panic!("spline.rs on points {:?}: {other:?}", spline.points),
        },
        Outcome::Refused(why) => Err(code_of(why)),
        // On a position out of 32 bits.
        Outcome::Panicked(_) => Err(Code::Position),
        Outcome::NoMemory => panic!("spline.rs lacks memory for {} deltas", deltas.len()),
    }
}

fn refused(start: [f32; 2], deltas: &[i32]) -> Option<Code> {
    points(start, deltas).err()
}

fn written_and_read(description: &Description, spline: u64) -> Verdict {
    let written = model::points_write(description, spline, u64::MAX);
    let judged = written_by_rust(description, spline);
    if judged.as_ref().is_some_and(|judged| *judged != written) {
        return equal(false, &written, &judged);
    }
    match written {
        Err(refusal) if judged.is_none() => Verdict::Outside(refusal.code),
        Err(refusal) => Verdict::Refused(refusal.code),
        Ok(text) => {
            let read = model::points_read(&text, u64::MAX, u64::MAX);
            let kept = rounded(description, spline as usize);
            equal(read.as_ref() == Ok(&kept), &kept, &read)
        }
    }
}

/// The line of a spline: its double deltas, and its start rounded as spline.rs rounds it.
pub fn rounded(description: &Description, spline: usize) -> Polyline {
    let before: usize = description.counts[..spline]
        .iter()
        .map(|&n| n as usize)
        .sum();
    let count = description.counts[spline] as usize;
    let start = &description.starts[2 * spline..2 * spline + 2];
    // Adding 0 makes minus zero 0.
    Polyline {
        start: [start[0].round() + 0.0, start[1].round() + 0.0],
        deltas: description.deltas[2 * before..2 * (before + count)].to_vec(),
    }
}

/// What spline.rs's points of one spline are as a text, or its refusal; `None` for SHAPE, and for DELTA, which it does not judge here.
pub fn written_by_rust(description: &Description, spline: u64) -> Option<Result<Vec<u8>, Refusal>> {
    let number = usize::try_from(spline).ok()?;
    if !well_shaped(description) || number >= description.counts.len() {
        return None;
    }
    let line = rounded(description, number);
    if line
        .deltas
        .iter()
        .any(|&delta| model::list::outrageous(delta))
    {
        return None;
    }
    let start = &description.starts[2 * number..2 * number + 2];
    let text = |points: Vec<[f32; 2]>| {
        let pairs: Vec<String> = points.iter().map(|[x, y]| format!("{x},{y}")).collect();
        pairs.join(" ").into_bytes()
    };
    let place = spline;
    Some(
        points([start[0], start[1]], &line.deltas)
            .map(text)
            .map_err(|code| Refusal { code, place }),
    )
}
