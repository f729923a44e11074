//! Whole builds that are small enough to keep, and parts of rows drawn from sound tables.

use crate::frame::Case;
use crate::{kinds, words};
use cases::descriptions::{build_case, BuildCase, KINDS, OWNER_KINDS};
use cases::each;
use cases::tables::{request, table};
use oracle::Outcome;

/// Builds with more words than this are left out, and so are kinds that the Rust cannot judge.
const MOST_WORDS: usize = 1500;
const NO_BUILDS: [&str; 1] = ["shape"];

fn build(case: &BuildCase) -> Option<Case> {
    let (description, given) = (&case.description, &case.given);
    let output = match oracle::build(description, given) {
        Outcome::Done(built) => {
            let table = built.table;
            let mut output = vec![
                0,
                0,
                table.segments.len() as u32,
                table.entries.len() as u32,
            ];
            output.extend(words::halves(table.estimate));
            output.extend(words::floats(&table.segments.concat()));
            output.extend(table.owners.iter().map(|&owner| owner as u32));
            output.extend(&table.row_starts);
            output.extend(&table.entries);
            output
        }
        Outcome::Refused(why) => {
            let place = oracle::refused_spline(description, given).expect("a refused spline");
            vec![oracle::code_of(why) as u32, place as u32]
        }
        Outcome::Panicked(_) | Outcome::NoMemory => return None,
    };
    let input = [words::given(given), words::description(description)].concat();
    let kept = input.len() + output.len() <= MOST_WORDS;
    kept.then_some(Case {
        kind: kinds::BUILD,
        input,
        output,
    })
}

fn draw(seed: u64) -> Option<Case> {
    let table = table("sound", seed);
    let part = request("inside", seed, table.height.max(1));
    let n = part.n as usize;
    let before: Vec<Vec<f32>> = part
        .channels
        .iter()
        .map(|channel| channel[..n].to_vec())
        .collect();
    let mut after = before.clone();
    let [r0, r1, r2] = &mut after[..] else {
        return None;
    };
    let drawn =
        oracle::load_flat(&table).draw(part.y, part.x0, [&mut r0[..], &mut r1[..], &mut r2[..]]);
    if drawn != Outcome::Done(()) {
        return None;
    }
    let mut input = vec![
        table.segment_count,
        table.entry_count,
        table.height,
        part.y,
        part.x0,
        part.n,
    ];
    input.extend(words::floats(
        &table.segments[..8 * table.segment_count as usize],
    ));
    input.extend(&table.entries[..table.entry_count as usize]);
    input.extend(&table.row_starts[..table.height as usize + 1]);
    input.extend(words::floats(&before.concat()));
    let kept = input.len() <= MOST_WORDS;
    kept.then_some(Case {
        kind: kinds::DRAW,
        input,
        output: words::floats(&after.concat()),
    })
}

pub fn cases(seeds: u64) -> Vec<Case> {
    let builds = each(&KINDS, seeds).chain(each(&OWNER_KINDS, seeds));
    let builds = builds.filter(|(kind, _)| !NO_BUILDS.contains(kind));
    let builds = builds.filter_map(|(kind, seed)| build(&build_case(kind, seed)));
    builds.chain((0..10 * seeds).filter_map(draw)).collect()
}
