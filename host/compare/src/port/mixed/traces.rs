//! Descriptions, and what they are passed on as: lists, trace files and texts of points.

use super::{leave, room};
use crate::polyline::{described, judged_by_rust, written_by_rust};
use crate::port::lent::Lent;
use crate::port::polyline::{told_points, wrong_by_rust};
use crate::port::profile::{refusal_of, wrong_check};
use crate::port::read::{original, PortRead};
use crate::port::tally::Tally;
use crate::port::trace::{said_rooms, PortTrace};
use crate::port::trace2::told_read2;
use crate::port::write::{exact_room, PortWritten};
use crate::port::{guarded, parts, told_read, told_write};
use cases::descriptions::{build_case, BuildCase, KINDS};
use cases::lists::{list_case, write_case, ListCase, WRITE_KINDS};
use cases::polylines::{text, TEXT_KINDS};
use cases::profiles::{profile_case, ProfileCase, PROFILE_KINDS};
use cases::random::Random;
use cases::traces::{trace_file, trace_file2, traced, FILE2_KINDS, FILE_KINDS, TRACED_KINDS};
use cases::{lists, Code, Description, Given, Refusal};
use model::ListRooms;

/// Of each there are so many at a time.
const SLOTS: usize = 3;

/// Cases are made up of so many seeds.
const SEEDS: u64 = 1 << 20;

/// A list or file that says more of itself is given no room for it.
const MOST_SPLINES: u64 = 64;
const MOST_POINTS: u64 = 512;

/// The usual limits of a list.
const CONFIGURED: u32 = 1 << 20;
const PIXELS: u32 = 1 << 16;

pub struct Traces {
    descriptions: [Description; SLOTS],
    lists: [Vec<u32>; SLOTS],
    files: [Vec<u8>; SLOTS],
    texts: [Vec<u8>; SLOTS],
    /// The cells of the last description that was read, and of the last line.
    counts: Vec<u32>,
    starts: Vec<f32>,
    deltas: Vec<i32>,
    coefficients: Vec<i32>,
    line: (Vec<f32>, Vec<i32>),
}

fn slot(r: &mut Random) -> usize {
    r.below(SLOTS as u64) as usize
}

/// Mostly one that there is.
pub fn edition(r: &mut Random) -> u32 {
    r.pick(&[1, 1, 1, 1, 2, 2, 2, 2, 2, 0, 3, u32::MAX])
}

/// One cell replaced by another, taken away or put in, or the end cut off.
fn damage<T: Copy>(r: &mut Random, cells: &mut Vec<T>, other: impl Fn(&mut Random) -> T) {
    let place = r.below(cells.len() as u64 + 1) as usize;
    let other = other(r);
    match r.below(4) {
        0 => cells.insert(place, other),
        1 => cells.truncate(place),
        _ if place == cells.len() => cells.push(other),
        2 => {
            cells.remove(place);
        }
        _ => cells[place] = other,
    }
}

impl Traces {
    pub fn new() -> Traces {
        Traces {
            descriptions: Default::default(),
            lists: Default::default(),
            files: Default::default(),
            texts: Default::default(),
            counts: Vec::new(),
            starts: Vec::new(),
            deltas: Vec::new(),
            coefficients: Vec::new(),
            line: Default::default(),
        }
    }

    /// One of the descriptions, in one of four times a new one: mostly sound, else of any kind.
    pub fn any(&mut self, r: &mut Random) -> &Description {
        let slot = slot(r);
        if r.once_in(4) || self.descriptions[slot].counts.is_empty() {
            let seed = r.below(SEEDS);
            self.descriptions[slot] = match r.below(10) {
                0 => build_case(r.pick(&KINDS), seed).description,
                1 => write_case(r.pick(&WRITE_KINDS), seed).description,
                2 => traced(r.pick(&TRACED_KINDS), seed),
                3 => profile_case(r.pick(&PROFILE_KINDS), seed).case.description,
                4 | 5 => profile_case("plain", seed).case.description,
                6 | 7 => write_case("fibres", seed).description,
                _ => build_case(r.pick(&["fibres", "crowd", "skipped"]), seed).description,
            };
        }
        &self.descriptions[slot]
    }

    /// The four parts by a call, in cells that hold what the last reading left.
    fn filled(
        &mut self,
        rooms: &ListRooms,
        call: impl FnOnce(&mut [u32], &mut [f32], &mut [i32], &mut [i32]) -> (u32, port::Answer),
    ) -> PortRead {
        let read = PortRead::by(rooms, |counts, starts, deltas, coefficients| {
            leave(&self.counts, counts);
            leave(&self.starts, starts);
            leave(&self.deltas, deltas);
            leave(&self.coefficients, coefficients);
            call(counts, starts, deltas, coefficients)
        });
        let (counts, starts, deltas, coefficients) = read.left();
        self.counts = counts.to_vec();
        self.starts = starts.to_vec();
        self.deltas = deltas.to_vec();
        self.coefficients = coefficients.to_vec();
        read
    }

    /// Keeps what was read: of a refusal nothing is left.
    fn keep(&mut self, slot: usize, read: &PortRead) {
        let parts = read.parts().filter(|_| read.told().0 == 0);
        self.descriptions[slot] = parts.map_or_else(Description::default, |parts| Description {
            counts: parts.counts.to_vec(),
            starts: parts.starts.to_vec(),
            deltas: parts.deltas.to_vec(),
            coefficients: parts.coefficients.to_vec(),
            adjustment: parts.adjustment,
        });
    }

    pub fn read(&mut self, tally: &mut Tally, r: &mut Random, words: impl Fn() -> String) {
        let (from, to) = (slot(r), slot(r));
        let list = &mut self.lists[from];
        match r.below(8) {
            0 => *list = list_case(r.pick(&lists::KINDS), r.below(SEEDS)).list,
            1 => damage(r, list, |r| r.any_i32() as u32),
            _ if list.is_empty() => *list = list_case("fibres", r.below(SEEDS)).list,
            _ => {}
        }
        let [few, pixels] = [9, 99].map(|most| r.below(most) as u32);
        let case = ListCase {
            list: list.clone(),
            configured: r.pick(&[CONFIGURED, CONFIGURED, CONFIGURED, few]),
            pixels: r.pick(&[PIXELS, PIXELS, PIXELS, pixels]),
        };
        let rooms = rooms_of_list(&case.list, r);
        let expected = model::read(&case.list, case.configured, case.pixels, &rooms);
        tally.called(&expected);
        let read = self.filled(&rooms, |counts, starts, deltas, coefficients| {
            let ListCase {
                list,
                configured,
                pixels,
            } = &case;
            guarded::read(
                list,
                *configured,
                *pixels,
                counts,
                starts,
                deltas,
                coefficients,
            )
        });
        let room = matches!(&expected, Err(refusal) if refusal.code == Code::Room);
        let theirs = original(&case).filter(|_| !room);
        tally.by_rust += u64::from(theirs.is_some());
        if !read.is(&expected) || theirs.is_some_and(|theirs| !read.is(&theirs)) {
            let (told, due) = (read.told(), told_read(&expected));
            tally.differs(format!(
                "read, {}: {case:?}, {rooms:?}\n  port: {told:?}, or cells differ\n  due: {due:?}",
                words()
            ));
        }
        self.keep(to, &read);
    }

    pub fn write(&mut self, tally: &mut Tally, r: &mut Random, words: impl Fn() -> String) {
        let description = self.any(r).clone();
        let list = &mut self.lists[slot(r)];
        let room = room(r, exact_room(&description));
        let pixels = r.pick(&[PIXELS, PIXELS, PIXELS, 9]);
        let expected = model::write(&description, CONFIGURED, pixels, room);
        tally.called(&expected);
        let written = PortWritten::by(room, |cells| {
            leave(list, cells);
            guarded::write(&parts(&description), CONFIGURED, pixels, cells)
        });
        if !written.is(&expected) {
            let (told, due) = (written.told(), told_write(&expected));
            tally.differs(format!(
                "write, {}: {description:?}, room {room}\n  port: {told:?}, or cells differ\n  due: {due:?}",
                words()
            ));
        }
        *list = written.left()[..written.told().1[1].max(0) as usize].to_vec();
    }

    /// A file, in one of three times a new one or with a byte changed.
    fn file(&mut self, r: &mut Random, second: bool) -> Vec<u8> {
        let file = &mut self.files[slot(r)];
        let seed = r.below(SEEDS);
        match (r.below(6), second) {
            (0, false) => *file = trace_file(r.pick(&FILE_KINDS), seed),
            (0, true) => *file = trace_file2(r.pick(&FILE2_KINDS), seed),
            (1, true) => *file = trace_file2(r.pick(&FILE_KINDS), seed),
            (2, _) => damage(r, file, |r| r.next() as u8),
            _ if file.is_empty() => *file = trace_file("sound", seed),
            _ => {}
        }
        file.clone()
    }

    pub fn trace_read(&mut self, tally: &mut Tally, r: &mut Random, words: impl Fn() -> String) {
        let file = self.file(r, false);
        let rooms = rooms_of_file(&file, r);
        let expected = model::trace_read(&file, &rooms);
        tally.called(&expected);
        let read = self.filled(&rooms, |counts, starts, deltas, coefficients| {
            let call = port::trace_read_into;
            guarded::trace_read(call, &file, counts, starts, deltas, coefficients)
        });
        if !read.is(&expected) {
            let (told, due) = (read.told(), told_read(&expected));
            tally.differs(format!(
                "trace file, {}: {file:?}, {rooms:?}\n  port: {told:?}, or cells differ\n  due: {due:?}",
                words()
            ));
        }
        self.keep(slot(r), &read);
    }

    pub fn trace_read2(&mut self, tally: &mut Tally, r: &mut Random, words: impl Fn() -> String) {
        let file = self.file(r, true);
        let rooms = rooms_of_file(&file, r);
        let expected = model::trace_read2(&file, &rooms);
        tally.called(&expected);
        let read = self.filled(&rooms, |counts, starts, deltas, coefficients| {
            let call = port::trace_read2_into;
            guarded::trace_read(call, &file, counts, starts, deltas, coefficients)
        });
        let (told, due) = (read.told(), told_read2(&expected));
        let description = expected.map_or_else(|_| Description::default(), |read| read.0);
        if told != due || !read.holds(&description) {
            tally.differs(format!(
                "trace file of either version, {}: {file:?}, {rooms:?}\n  port: {told:?}, or cells differ\n  due: {due:?}",
                words()
            ));
        }
        self.keep(slot(r), &read);
    }

    pub fn trace_write(&mut self, tally: &mut Tally, r: &mut Random, words: impl Fn() -> String) {
        let description = self.any(r).clone();
        let due = model::trace_write(&description, u64::MAX).map_or(600, |file| file.len() as u64);
        let room = room(r, due);
        let expected = model::trace_write(&description, room);
        self.file_by(
            tally,
            r,
            &description,
            room,
            &expected,
            words,
            |parts, bytes| guarded::trace_write(parts, bytes),
        );
    }

    pub fn trace_write2(&mut self, tally: &mut Tally, r: &mut Random, words: impl Fn() -> String) {
        let description = self.any(r).clone();
        let usual = r.pick(&[(1, 1), (2, 1), (2, 2), (2, 2)]);
        let (version, edition) = match r.once_in(3) {
            true => (edition(r), edition(r)),
            false => usual,
        };
        let due = model::trace_write2(&description, version, edition, u64::MAX);
        let room = room(r, due.map_or(600, |file| file.len() as u64));
        let expected = model::trace_write2(&description, version, edition, room);
        let said = || format!("{}, version {version}, edition {edition}", words());
        self.file_by(
            tally,
            r,
            &description,
            room,
            &expected,
            said,
            |parts, bytes| guarded::trace_write2(parts, version, edition, bytes),
        );
    }

    /// A trace file by a call, over the bytes of another.
    fn file_by(
        &mut self,
        tally: &mut Tally,
        r: &mut Random,
        description: &Description,
        room: u64,
        expected: &Result<Vec<u8>, Refusal>,
        words: impl Fn() -> String,
        call: impl FnOnce(&port::Parts, &mut [u8]) -> (u32, port::Answer),
    ) {
        tally.called(expected);
        let file = &mut self.files[slot(r)];
        let written = PortTrace::by(room, |bytes| {
            leave(file, bytes);
            call(&parts(description), bytes)
        });
        if !written.is(expected) {
            let (told, due) = (written.told(), told_write(expected));
            tally.differs(format!(
                "trace to be written, {}: {description:?}, room {room}\n  port: {told:?}, or bytes differ\n  due: {due:?}",
                words()
            ));
        }
        *file = written.left()[..written.told().1[1].max(0) as usize].to_vec();
    }

    pub fn points_read(&mut self, tally: &mut Tally, r: &mut Random, words: impl Fn() -> String) {
        let text_slot = &mut self.texts[slot(r)];
        match r.below(6) {
            0 => *text_slot = text(r.pick(&TEXT_KINDS), r.below(SEEDS)),
            1 => damage(r, text_slot, |r| r.pick(b"0123456789-, .")),
            _ if text_slot.is_empty() => *text_slot = text("sound", r.below(SEEDS)),
            _ => {}
        }
        let text = text_slot.clone();
        let pairs = text.iter().filter(|&&byte| byte == b' ').count() as u64;
        let rooms = [room(r, 2), room(r, 2 * pairs)];
        let expected = model::points_read(&text, rooms[0], rooms[1]);
        tally.called(&expected);
        let in_form = !matches!(&expected, Err(refusal) if refusal.code == Code::Text);
        let judged = in_form.then(|| judged_by_rust(&text)).flatten();
        let (mut start, mut deltas) = (Lent::new(rooms[0] as usize), Lent::new(rooms[1] as usize));
        leave(&self.line.0, start.lend());
        leave(&self.line.1, deltas.lend());
        let told = guarded::points_read(&text, start.lend(), deltas.lend());
        self.line = (start.lent().to_vec(), deltas.lent().to_vec());
        let line = expected.clone().unwrap_or_default();
        let cells = match &expected {
            Ok(line) => start.holds(&line.start) && deltas.holds(&line.deltas),
            Err(_) => start.holds(&[]) && deltas.holds(&[]),
        };
        let other = wrong_by_rust(tally, &judged, &expected);
        if told != told_points(&expected) || !cells || other.is_some() {
            tally.differs(format!(
                "text, {}: {:?}, rooms {rooms:?}\n  port: {told:?}, or cells differ\n  due: {expected:?} {other:?}",
                words(),
                String::from_utf8_lossy(&text)
            ));
        }
        // A line that comes back is a trace again, if it is not too long to be built in a moment.
        let short = line.deltas.iter().all(|delta| delta.abs() < 1 << 9);
        if told.0 == 0 && short && r.once_in(4) {
            let mut description = described(&line);
            description.coefficients[32] = 40;
            description.coefficients[96] = 9;
            self.descriptions[slot(r)] = description;
        }
    }

    pub fn points_write(&mut self, tally: &mut Tally, r: &mut Random, words: impl Fn() -> String) {
        let description = self.any(r).clone();
        let splines = description.counts.len() as u64;
        let any = r.below(splines.max(1));
        let spline = r.pick(&[any, any, any, any, any, any, any, splines, u64::MAX]);
        let due = model::points_write(&description, spline, u64::MAX);
        let room = room(r, due.map_or(40, |text| text.len() as u64));
        let expected = model::points_write(&description, spline, room);
        tally.called(&expected);
        let other = wrong_by_rust(tally, &written_by_rust(&description, spline), &expected);
        let text = &mut self.texts[slot(r)];
        let written = PortTrace::by(room, |bytes| {
            leave(text, bytes);
            guarded::points_write(&parts(&description), spline, bytes)
        });
        if !written.is(&expected) || other.is_some() {
            let (told, due) = (written.told(), told_write(&expected));
            tally.differs(format!(
                "export, {}: spline {spline} of {description:?}, room {room}\n  port: {told:?}, or bytes differ\n  due: {due:?} {other:?}",
                words()
            ));
        }
        *text = written.left()[..written.told().1[1].max(0) as usize].to_vec();
    }

    pub fn profile(&mut self, tally: &mut Tally, r: &mut Random, words: impl Fn() -> String) {
        let case = ProfileCase {
            case: BuildCase {
                description: self.any(r).clone(),
                given: Given::of(0, 0),
            },
            edition: edition(r),
        };
        let expected = model::profile(&case.case.description, case.edition);
        tally.called(&refusal_of(&expected));
        if let Some(other) = wrong_check(&case, &expected) {
            tally.differs(format!("profile, {}: {case:?}\n  {other}", words()));
        }
    }
}

/// About what a list says of itself.
fn rooms_of_list(list: &[u32], r: &mut Random) -> ListRooms {
    let said = list.first().map_or(1, |&less_one| u64::from(less_one) + 1);
    let splines = said.min(MOST_SPLINES);
    let (mut place, mut points) = (2 + 2 * said as usize, 0);
    for _ in 0..splines {
        let Some(&count) = list.get(place) else { break };
        points += u64::from(count);
        place += 129 + 2 * count as usize;
    }
    rooms(splines, points.min(MOST_POINTS), r)
}

/// About what a file says of itself.
fn rooms_of_file(file: &[u8], r: &mut Random) -> ListRooms {
    let said = said_rooms(file, MOST_SPLINES, MOST_POINTS);
    rooms(said.counts, said.deltas / 2, r)
}

fn rooms(splines: u64, points: u64, r: &mut Random) -> ListRooms {
    let mut rooms = ListRooms {
        counts: splines,
        starts: 2 * splines,
        deltas: 2 * points,
        coefficients: 128 * splines,
    };
    // Mostly enough of all four.
    match r.below(16) {
        0 => rooms.counts = room(r, rooms.counts),
        1 => rooms.starts = room(r, rooms.starts),
        2 => rooms.deltas = room(r, rooms.deltas),
        3 => rooms.coefficients = room(r, rooms.coefficients),
        more => rooms.deltas += more % 3,
    }
    rooms
}
