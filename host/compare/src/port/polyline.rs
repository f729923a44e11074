//! Line drawings: texts of points read with rooms exact, larger, one short each and none, every spline of a description exported likewise, and
//! both round trips. spline.rs decides where the points of a text are legal, and what the points of a spline are.

use super::lent::Lent;
use super::tally::Tally;
use super::{guarded, parts, told_refusal, told_write};
use crate::polyline::{described, judged_by_rust, rounded, written_by_rust};
use cases::descriptions::{build_case, KINDS, OWNER_KINDS, SLOW_KINDS};
use cases::polylines::{exported, text, written, EXPORT_KINDS, TEXT_KINDS};
use cases::{each, few, Code, Description, Polyline, Refusal};
use port::Answer;
use std::fmt::Debug;

const TEXTS_A_KIND: u64 = 20_480;
const DESCRIPTIONS_A_KIND: u64 = 1_200;
const SLOW_CASES_A_KIND: u64 = 12;

pub fn compare_read(tally: &mut Tally) {
    for (kind, seed) in each(&TEXT_KINDS, TEXTS_A_KIND) {
        compare_text(tally, kind, seed, &text(kind, seed));
    }
    for (seed, text) in (0..).zip(great()) {
        compare_text(tally, "great", seed, &text);
    }
}

/// A text of 2^12 pairs, the same with its last byte missing, and a number of 2^10 digits.
fn great() -> Vec<Vec<u8>> {
    let points: Vec<(i64, i64)> = (0..1 << 12).map(|k| (k, k % 7)).collect();
    let long = written(&points);
    let digits = [&[b'7'; 1 << 10][..], b",1"].concat();
    vec![long[..long.len() - 1].to_vec(), long, digits]
}

/// Longer texts are not judged by spline.rs, which goes through them once for each pair.
const MOST_JUDGED: usize = 1 << 12;

fn compare_text(tally: &mut Tally, kind: &str, seed: u64, text: &[u8]) {
    tally.cases += 1;
    let expected = model::points_read(text, u64::MAX, u64::MAX);
    let in_form = !matches!(&expected, Err(refusal) if refusal.code == Code::Text);
    let judged = (in_form && text.len() <= MOST_JUDGED)
        .then(|| judged_by_rust(text))
        .flatten();
    // As many double deltas as the text has spaces.
    let exact = 2 * text.iter().filter(|&&byte| byte == b' ').count() as u64;
    for (start, deltas) in [
        (2, exact),
        (3 + seed % 4, exact + 1 + seed % 9),
        (2, exact.saturating_sub(1)),
        (1, exact),
        (0, 0),
    ] {
        let expected = model::points_read(text, start, deltas);
        tally.called(&expected);
        tally.round_trips += u64::from(expected.is_ok());
        let wrong = wrong_read(text, [start, deltas], &expected);
        if let Some(words) = wrong.or_else(|| wrong_by_rust(tally, &judged, &expected)) {
            tally.differs(format!(
                "text, kind {kind}, seed {seed}, rooms {start} and {deltas}: {:?}\n  {words}",
                String::from_utf8_lossy(text)
            ));
        }
    }
}

/// In words, if spline.rs, where it decides and room is no matter, judges otherwise.
pub(super) fn wrong_by_rust<T: Debug + PartialEq>(
    tally: &mut Tally,
    judged: &Option<Result<T, Refusal>>,
    expected: &Result<T, Refusal>,
) -> Option<String> {
    let judged = judged.as_ref()?;
    if matches!(expected, Err(refusal) if refusal.code == Code::Room) {
        return None;
    }
    tally.by_rust += 1;
    (judged != expected).then(|| format!("spline.rs: {judged:?}"))
}

/// In words, if the port reads this text otherwise, or does not write what it read as the same text.
pub fn wrong_read(
    text: &[u8],
    rooms: [u64; 2],
    expected: &Result<Polyline, Refusal>,
) -> Option<String> {
    let mut start = Lent::new(rooms[0] as usize);
    let mut deltas = Lent::new(rooms[1] as usize);
    let told = guarded::points_read(text, start.lend(), deltas.lend());
    let due = told_points(expected);
    let (due_start, due_deltas): (&[f32], &[i32]) = match expected {
        Ok(line) => (&line.start, &line.deltas),
        Err(_) => (&[], &[]),
    };
    if told != due || !start.holds(due_start) || !deltas.holds(due_deltas) {
        return Some(format!(
            "port:  {told:?}, or cells differ\n  model: {due:?}"
        ));
    }
    let Ok(line) = expected else { return None };
    let written = PortText::of(&described(line), 0, text.len() as u64);
    let same = written.is(&Ok(text.to_vec()));
    (!same).then(|| format!("written back: {:?}, or another text", written.told()))
}

/// The code and answer that stand for a text that was read, or for a refusal.
pub(super) fn told_points(expected: &Result<Polyline, Refusal>) -> (u32, Answer) {
    match expected {
        Ok(line) => (0, [0, line.deltas.len() as i64 / 2, 0, 0, 0]),
        Err(refusal) => told_refusal(refusal),
    }
}

/// What the port answered, and the text afterwards.
struct PortText {
    code: u32,
    answer: Answer,
    text: Lent<u8>,
}

impl PortText {
    fn of(description: &Description, spline: u64, room: u64) -> PortText {
        let mut text = Lent::new(room as usize);
        let (code, answer) = guarded::points_write(&parts(description), spline, text.lend());
        PortText { code, answer, text }
    }

    fn told(&self) -> (u32, Answer) {
        (self.code, self.answer)
    }

    /// Whether code, place, count and every byte are as expected.
    fn is(&self, expected: &Result<Vec<u8>, Refusal>) -> bool {
        self.told() == told_write(expected) && self.text.holds(expected.as_deref().unwrap_or(&[]))
    }
}

pub fn compare_write(tally: &mut Tally) {
    let quick = each(&KINDS, DESCRIPTIONS_A_KIND).chain(each(&OWNER_KINDS, DESCRIPTIONS_A_KIND));
    for (kind, seed) in quick.chain(few(&SLOW_KINDS, SLOW_CASES_A_KIND)) {
        compare_splines(tally, kind, seed, &build_case(kind, seed).description);
    }
    for (kind, seed) in each(&EXPORT_KINDS, DESCRIPTIONS_A_KIND) {
        compare_splines(tally, kind, seed, &exported(kind, seed));
    }
}

/// Every spline, and numbers that are none's.
fn compare_splines(tally: &mut Tally, kind: &str, seed: u64, description: &Description) {
    tally.cases += 1;
    let splines = description.counts.len() as u64;
    for spline in (0..=splines).chain([splines + 1, u64::MAX]) {
        compare_spline(tally, kind, seed, description, spline);
    }
}

fn compare_spline(
    tally: &mut Tally,
    kind: &str,
    seed: u64,
    description: &Description,
    spline: u64,
) {
    let exact = match model::points_write(description, spline, u64::MAX) {
        Ok(text) => text.len() as u64,
        Err(_) => 40,
    };
    let judged = written_by_rust(description, spline);
    for room in [exact, exact + 1 + seed % 9, exact - 1, 0] {
        let expected = model::points_write(description, spline, room);
        tally.called(&expected);
        tally.round_trips += u64::from(expected.is_ok());
        let wrong = wrong_write(description, spline, room, &expected);
        if let Some(words) = wrong.or_else(|| wrong_by_rust(tally, &judged, &expected)) {
            tally.differs(format!(
                "export, kind {kind}, seed {seed}, spline {spline}, room {room}: {description:?}\n  {words}"
            ));
        }
    }
}

/// In words, if the port exports this spline otherwise, or does not read the text as its rounded start and its double deltas.
pub fn wrong_write(
    description: &Description,
    spline: u64,
    room: u64,
    expected: &Result<Vec<u8>, Refusal>,
) -> Option<String> {
    let written = PortText::of(description, spline, room);
    if !written.is(expected) {
        let (told, due) = (written.told(), told_write(expected));
        return Some(format!(
            "port:  {told:?}, or cells differ\n  model: {due:?}"
        ));
    }
    let Ok(text) = expected else { return None };
    let line = rounded(description, spline as usize);
    let rooms = [2, line.deltas.len() as u64];
    wrong_read(text, rooms, &Ok(line)).map(|words| format!("read back: {words}"))
}
