//! Tables: what a build makes, and drawing from it.

use crate::bands;
use crate::cells::{first, zeros};
use crate::code::{judged, Code, Refusal};
use crate::{Description, Desk, Hidden, Rooms};
use port::Image;
use std::ops::Range;

/// What a build is lent.
struct Buffers {
    path: Vec<f32>,
    walk: Vec<f32>,
    segments: Vec<f32>,
    owners: Vec<u64>,
    row_starts: Vec<u32>,
    entries: Vec<u32>,
}

impl Buffers {
    /// Rooms within [`Rooms::MOST`], and the row starts of an image of this height.
    fn new(rooms: Rooms, height: u32) -> Result<Buffers, Refusal> {
        // Above 2^23 the call refuses the height, and needs no room for it.
        let rows = height.min(1 << 23) as usize + 1;
        Ok(Buffers {
            path: zeros(2 * rooms.path)?,
            walk: zeros(3 * rooms.walk)?,
            segments: zeros(8 * rooms.segments)?,
            owners: zeros(rooms.segments)?,
            row_starts: zeros(rows)?,
            entries: zeros(rooms.entries)?,
        })
    }

    fn build(
        mut self,
        description: &Description,
        image: &Image,
        call: impl BuildCall,
    ) -> Result<Table, Refusal> {
        let [made, listed, estimate, faint] = judged(call(
            &description.parts(),
            image,
            port::Buffers {
                path: &mut self.path,
                walk: &mut self.walk,
                segments: &mut self.segments,
                owners: &mut self.owners,
                row_starts: &mut self.row_starts,
                entries: &mut self.entries,
            },
        ))?;
        let mut table = Table {
            segments: first(self.segments, 8 * made as usize),
            owners: first(self.owners, made as usize),
            row_starts: self.row_starts,
            entries: first(self.entries, listed as usize),
            open: Hidden::nothing(description.counts.len())?,
            bands: Vec::new(),
            image: *image,
            counts: Counts {
                segments: made as u32,
                entries: listed as u32,
                estimate: estimate as u64,
                faint: faint as u32,
            },
        };
        table.bands = bands::numbers(&table, &table.seen())?;
        Ok(table)
    }
}

/// A call that builds in what it is lent.
pub(crate) trait BuildCall:
    Fn(&port::Parts, &Image, port::Buffers) -> (u32, port::Answer)
{
}

impl<F: Fn(&port::Parts, &Image, port::Buffers) -> (u32, port::Answer)> BuildCall for F {}

/// What a build counts.
#[derive(Clone, Copy, Debug, PartialEq, Eq)]
pub struct Counts {
    pub segments: u32,
    pub entries: u32,
    /// The estimate of the pixels that drawing touches.
    pub estimate: u64,
    /// How many of the segments are faint.
    pub faint: u32,
}

/// A trace that has a pixel.
#[derive(Clone, Copy, Debug, PartialEq)]
pub struct Near {
    /// The number of its spline.
    pub trace: u64,
    /// From the pixel to the nearest centre of a segment of it that has the pixel, in pixels.
    pub distance: f64,
}

/// The segments of an image, and for each row those that touch it; beside them the bands of 64 rows.
#[derive(Clone, Debug)]
pub struct Table {
    segments: Vec<f32>,
    owners: Vec<u64>,
    row_starts: Vec<u32>,
    entries: Vec<u32>,
    /// Nothing hidden of any spline of the description.
    open: Hidden,
    /// The numbers of its bands, with nothing hidden.
    bands: Vec<u32>,
    image: Image,
    counts: Counts,
}

impl Table {
    /// Builds the table of an image within [`Rooms::USUAL`]: a description that needs more memory, as one from a stranger may, is refused with
    /// [`Code::Room`].
    pub fn build(description: &Description, image: &Image) -> Result<Table, Refusal> {
        Table::build_within(description, image, Rooms::USUAL)
    }

    /// The same within rooms of the caller's: a build that does not fit in them is refused with [`Code::Room`], and so is one for which the
    /// machine has no memory. The buffers begin small and grow to the rooms as they are needed; the table keeps what it uses.
    pub fn build_within(
        description: &Description,
        image: &Image,
        most: Rooms,
    ) -> Result<Table, Refusal> {
        Table::grown(description, image, most, port::build)
    }

    /// By another call, within [`Rooms::USUAL`].
    pub(crate) fn build_by(
        description: &Description,
        image: &Image,
        call: impl BuildCall,
    ) -> Result<Table, Refusal> {
        Table::grown(description, image, Rooms::USUAL, call)
    }

    fn grown(
        description: &Description,
        image: &Image,
        most: Rooms,
        call: impl BuildCall,
    ) -> Result<Table, Refusal> {
        let most = most.within(Rooms::MOST);
        let mut rooms = Rooms::first(description.longest_path()).within(most);
        loop {
            let lent = Buffers::new(rooms, image.height)?;
            let refusal = match lent.build(description, image, &call) {
                Err(refusal) if refusal.code == Code::Room => refusal,
                other => return other,
            };
            let grown = rooms.grown(refusal.place, most);
            if grown == rooms {
                return Err(refusal);
            }
            rooms = grown;
        }
    }

    pub fn counts(&self) -> Counts {
        self.counts
    }

    pub fn image(&self) -> Image {
        self.image
    }

    /// How many segments are faint: their distance is NaN, so that they sit at row 0 and column 0 wherever their centre is.
    pub fn faint(&self) -> u32 {
        self.counts.faint
    }

    /// The number of the spline that this segment comes from; it never falls from one segment to the next.
    pub fn owner(&self, segment: u32) -> Option<u64> {
        self.owners.get(segment as usize).copied()
    }

    /// The traces that have this pixel, each once, the nearest first and of equally near ones the one with the lower number;
    /// none outside the image.
    pub fn at(&self, x: u32, y: u32) -> Vec<Near> {
        let mut found: Vec<Near> = Vec::new();
        for &segment in self.listed(y).iter().filter(|&&entry| self.has(entry, x)) {
            let near = Near {
                trace: self.owners[segment as usize],
                distance: self.distance(segment, x, y),
            };
            // Entries ascend and owners never fall, so that a trace's segments come together.
            match found.last_mut() {
                Some(last) if last.trace == near.trace => {
                    last.distance = last.distance.min(near.distance)
                }
                _ => found.push(near),
            }
        }
        found.sort_by(|a, b| a.distance.total_cmp(&b.distance));
        found
    }

    /// Whether this segment has a column of the image, by the proved drawing: whether a table that lists it alone updates the pixel.
    fn has(&self, segment: u32, x: u32) -> bool {
        let alone = port::Table {
            entries: &[segment],
            entry_count: 1,
            row_starts: &[0, 1],
            height: 1,
            ..self.lent()
        };
        let [mut r0, mut r1, mut r2] = [[0.0]; 3];
        let sight = self.seen();
        let (code, answer) = port::draw(&alone, &sight, 0, x, 1, [&mut r0, &mut r1, &mut r2]);
        x < self.image.width && code == 0 && answer[1] == 1
    }

    /// From a pixel to the centre of a segment.
    fn distance(&self, segment: u32, x: u32, y: u32) -> f64 {
        let centre = &self.segments[8 * segment as usize..][..2];
        let (dx, dy) = (
            f64::from(x) - f64::from(centre[0]),
            f64::from(y) - f64::from(centre[1]),
        );
        (dx * dx + dy * dy).sqrt()
    }

    /// The segments that touch row y; none below the image.
    fn listed(&self, y: u32) -> &[u32] {
        match self.row_starts.get(y as usize..).unwrap_or(&[]) {
            [first, past, ..] => &self.entries[*first as usize..*past as usize],
            _ => &[],
        }
    }

    /// How many segments touch row y; none below the image.
    pub fn entries_of(&self, y: u32) -> u32 {
        self.listed(y).len() as u32
    }

    /// How many splines the description had.
    pub fn splines(&self) -> u64 {
        self.open.bytes().len() as u64
    }

    /// Adds the segments of row y to channels that begin at pixel x0, and answers how many updates that took, one for each segment at each pixel.
    /// Parts of a row may be drawn in any order. Channels of different lengths are refused with [`Code::Span`]; a refusal changes no pixel.
    pub fn draw_row(&self, y: u32, x0: u32, channels: [&mut [f32]; 3]) -> Result<u64, Refusal> {
        self.draw_row_for(Desk::Operator, &self.open, y, x0, channels)
    }

    /// The same without what the desk has hidden. Fewer bytes than the description had splines are refused with [`Code::Trace`].
    pub fn draw_row_for(
        &self,
        desk: Desk,
        hidden: &Hidden,
        y: u32,
        x0: u32,
        channels: [&mut [f32]; 3],
    ) -> Result<u64, Refusal> {
        let n = channels[0].len();
        let Some(n) = u32::try_from(n)
            .ok()
            .filter(|_| channels.iter().all(|channel| channel.len() == n))
        else {
            return Err(Refusal {
                code: Code::Span,
                place: 0,
            });
        };
        let sight = hidden.seen_by(desk, self.splines());
        judged(port::draw(&self.lent(), &sight, y, x0, n, channels))
            .map(|[updates, ..]| updates as u64)
    }

    /// The columns that drawing row y touches, from the first to the last: none outside is updated, and both ends are. What lies wholly left of
    /// the image touches column 0. 0..0 if drawing touches none.
    pub fn reach(&self, y: u32) -> Result<Range<u32>, Refusal> {
        self.reach_for(Desk::Operator, &self.open, y)
    }

    /// The same without what the desk has hidden.
    pub fn reach_for(&self, desk: Desk, hidden: &Hidden, y: u32) -> Result<Range<u32>, Refusal> {
        let sight = hidden.seen_by(desk, self.splines());
        judged(port::reach(&self.lent(), &sight, y, self.image.width))
            .map(|[first, past, ..]| first as u32..past as u32)
    }

    /// Checks row starts and entries that another maker has for the segments of this table: accepted exactly if they are this table's own. Else the
    /// refusal is [`Code::Shape`] where the starts are not one more than rows, or [`Code::Table`] with the first wrong row as its place, which is
    /// the height where entries are left over.
    pub fn check(&self, row_starts: &[u32], entries: &[u32]) -> Result<(), Refusal> {
        let Ok(entry_count) = u32::try_from(entries.len()) else {
            // No table has so many.
            return Err(Refusal {
                code: Code::Table,
                place: 0,
            });
        };
        let theirs = port::Table {
            entries,
            entry_count,
            row_starts,
            ..self.lent()
        };
        judged(port::check(&theirs)).map(|_| ())
    }

    /// Where the entries of each row begin, and where the last row's end.
    pub fn row_starts(&self) -> &[u32] {
        &self.row_starts
    }

    /// The segments that each row lists, row after row.
    pub fn entries(&self) -> &[u32] {
        &self.entries
    }

    /// Made with the table.
    pub(crate) fn kept_bands(&self) -> &[u32] {
        &self.bands
    }

    /// With nothing hidden.
    fn seen(&self) -> port::Sight<'_> {
        self.open.seen_by(Desk::Operator, self.splines())
    }

    pub(crate) fn lent(&self) -> port::Table<'_> {
        port::Table {
            segments: &self.segments,
            owners: &self.owners,
            segment_count: self.counts.segments,
            entries: &self.entries,
            entry_count: self.counts.entries,
            row_starts: &self.row_starts,
            height: self.image.height,
        }
    }
}

#[cfg(test)]
mod tests {
    use super::*;

    /// A straight fibre from (10, 8) to (40, 8).
    fn fibre() -> Description {
        let mut coefficients = vec![0; 128];
        coefficients[32] = 20;
        coefficients[96] = 6;
        Description {
            counts: vec![1],
            starts: vec![10.0, 8.0],
            deltas: vec![30, 0],
            coefficients,
            adjustment: 0,
        }
    }

    fn table() -> Table {
        Table::build(&fibre(), &Image::new(64, 16)).expect("a good description")
    }

    fn row(table: &Table, y: u32, cuts: &[usize]) -> (Vec<f32>, u64) {
        let mut row = [(); 3].map(|()| vec![0.0; 64]);
        let mut updates = 0;
        for pair in cuts.windows(2) {
            let [r0, r1, r2] = &mut row;
            let parts = [r0, r1, r2].map(|channel| &mut channel[pair[0]..pair[1]]);
            updates += table
                .draw_row(y, pair[0] as u32, parts)
                .expect("a row of the image");
        }
        (row.concat(), updates)
    }

    #[test]
    fn a_fibre_lies_where_it_was_described() {
        let table = table();
        let (pixels, updates) = row(&table, 8, &[0, 64]);
        assert!(updates > 0);
        assert!(
            pixels[64 + 25] > 10.0 * pixels[64 + 60],
            "bright inside, dark past its end"
        );
        let reach = table.reach(8).expect("a row of the image");
        assert!(reach.start < 10 && reach.end > 40 && reach.end <= 64);
        assert!(table.entries_of(8) > 0 && table.entries_of(16) == 0);
        assert_eq!(
            (0..16).map(|y| table.entries_of(y)).sum::<u32>(),
            table.counts().entries
        );
    }

    #[test]
    fn a_row_in_parts_is_the_row() {
        let table = table();
        assert_eq!(
            row(&table, 8, &[0, 64]),
            row(&table, 8, &[0, 1, 17, 17, 40, 64])
        );
    }

    /// Its length is a whole number, so that the last segment has multiplier 0 and a NaN distance.
    #[test]
    fn a_faint_segment_sits_at_the_corner() {
        let mut low = fibre();
        low.starts[1] = 100.0;
        let table = Table::build(&low, &Image::new(64, 128)).expect("a good description");
        assert_eq!(table.faint(), 1);
        assert_eq!(table.counts().faint, 1);
        let last = table.counts().segments - 1;
        assert_eq!(table.listed(0), [last]);
        assert_eq!(table.reach(0), Ok(0..1));
        let mut wide = fibre();
        wide.deltas[1] = 1;
        let image = Image::new(64, 16);
        assert_eq!(
            Table::build(&wide, &image)
                .expect("a good description")
                .faint(),
            0
        );
    }

    /// The fibre above, a trace of its start alone, and a fibre from (50, 2) down to (50, 14).
    fn three() -> Description {
        let mut three = fibre();
        let other = fibre();
        three.counts.extend([0, 1]);
        three.starts.extend([30.0, 8.0, 50.0, 2.0]);
        three.deltas.extend([0, 12]);
        three.coefficients.extend(&other.coefficients);
        three.coefficients.extend(&other.coefficients);
        three
    }

    #[test]
    fn each_segment_has_the_number_of_its_spline() {
        let table = Table::build(&three(), &Image::new(64, 16)).expect("a good description");
        let owners: Vec<u64> = (0..table.counts().segments)
            .map(|segment| table.owner(segment).expect("a segment"))
            .collect();
        assert!(owners.windows(2).all(|pair| pair[0] <= pair[1]));
        // Each unit of the length and both ends; the trace of one point has none.
        let of = |trace| owners.iter().filter(|&&owner| owner == trace).count();
        assert_eq!([of(0), of(1), of(2)], [32, 0, 14]);
        assert_eq!(table.owner(table.counts().segments), None);
    }

    /// What both desks are drawn and told of row 8, the operator's first.
    fn seen(table: &Table, hidden: &Hidden) -> [(Vec<f32>, u64, Range<u32>); 2] {
        [Desk::Operator, Desk::Checker].map(|desk| {
            let mut row = [(); 3].map(|()| vec![0.0; 64]);
            let [r0, r1, r2] = &mut row;
            let updates = table.draw_row_for(desk, hidden, 8, 0, [r0, r1, r2]);
            let reach = table.reach_for(desk, hidden, 8);
            (row.concat(), updates.expect("a row"), reach.expect("a row"))
        })
    }

    #[test]
    fn a_desk_is_not_drawn_what_it_hides() {
        let table = Table::build(&three(), &Image::new(64, 16)).expect("a good description");
        let mut hidden = Hidden::nothing(3).expect("three bytes");
        let [all, same] = seen(&table, &hidden);
        assert_eq!(all, same);
        assert_eq!((all.0, all.1), row(&table, 8, &[0, 64]));
        hidden.hide(Desk::Checker, 2).expect("a spline");
        let [operator, checker] = seen(&table, &hidden);
        assert_eq!(operator, same);
        // Without the fibre that goes down at column 50 the row is that of the first one alone.
        let alone = self::table();
        assert_eq!((checker.0, checker.1), row(&alone, 8, &[0, 64]));
        assert_eq!(Ok(checker.2), alone.reach(8));
        hidden.hide(Desk::Operator, 0).expect("a spline");
        hidden.show(Desk::Checker, 2).expect("a spline");
        let [operator, checker] = seen(&table, &hidden);
        assert!(checker == same && operator.1 < same.1);
        let few = Hidden::nothing(2).expect("two bytes");
        let refused = table.reach_for(Desk::Operator, &few, 8);
        assert_eq!(refused.expect_err("a byte too few").code, Code::Trace);
    }

    #[test]
    fn another_makers_rows_are_checked() {
        let table = Table::build(&three(), &Image::new(64, 16)).expect("a good description");
        let (starts, entries) = (table.row_starts().to_vec(), table.entries().to_vec());
        assert_eq!(table.check(&starts, &entries), Ok(()));
        let wrong = |starts: &[u32], entries: &[u32]| {
            let refusal = table.check(starts, entries).expect_err("a wrong table");
            (refusal.code, refusal.place)
        };
        let mut swapped = entries.clone();
        swapped.swap(starts[8] as usize, starts[8] as usize + 1);
        assert_eq!(wrong(&starts, &swapped), (Code::Table, 8));
        let more = [&entries[..], &[0]].concat();
        assert_eq!(wrong(&starts, &more), (Code::Table, 16));
        let fewer = &entries[..entries.len() - 1];
        let last = (0..16).rev().find(|&y| table.entries_of(y) > 0);
        assert_eq!(
            wrong(&starts, fewer),
            (Code::Table, last.map_or(16, u64::from))
        );
        assert_eq!(wrong(&starts[..16], &entries), (Code::Shape, 0));
    }

    #[test]
    fn a_pixel_tells_its_traces() {
        let table = Table::build(&three(), &Image::new(64, 16)).expect("a good description");
        let traces = |x, y| {
            let found = table.at(x, y);
            assert!(found
                .windows(2)
                .all(|two| two[0].distance <= two[1].distance));
            found.into_iter().map(|near| near.trace).collect::<Vec<_>>()
        };
        assert_eq!(traces(20, 8), [0]);
        assert_eq!(traces(56, 8), [2]);
        assert_eq!(
            table.at(50, 8)[0],
            Near {
                trace: 2,
                distance: 0.0
            }
        );
        // Between the end of one and the other.
        assert_eq!(traces(43, 8), [0, 2]);
        assert_eq!(traces(47, 8), [2, 0]);
        assert_eq!(table.at(43, 8)[0].distance, 3.0);
        for outside in [(64, 8), (20, 16), (u32::MAX, u32::MAX)] {
            assert_eq!(table.at(outside.0, outside.1), []);
        }
    }

    #[test]
    fn rooms_grow_and_have_an_end() {
        // 30,000 pixels to the right: more segments than a build begins with.
        let mut long = fibre();
        long.deltas[0] = 30_000;
        let image = Image::new(64, 16);
        assert!(
            Table::build(&long, &image)
                .expect("it fits")
                .counts()
                .segments
                > 20_000
        );
        let small = Rooms {
            path: 100,
            walk: 40_000,
            segments: 1000,
            entries: 100_000,
        };
        let refusal = Table::build_within(&long, &image, small).expect_err("it does not fit");
        assert_eq!(
            refusal,
            Refusal {
                code: Code::Room,
                place: 0
            }
        );
    }

    /// The fibre above, moved so far to the left that only its columns' rule brings it into the image.
    #[test]
    fn what_lies_left_of_the_image_is_reached_at_column_0() {
        let mut left = fibre();
        left.starts[0] = -90.0;
        let table = Table::build(&left, &Image::new(64, 16)).expect("a good description");
        assert_eq!(table.reach(8), Ok(0..1));
        let (_, updates) = row(&table, 8, &[0, 64]);
        let (_, right_of_it) = row(&table, 8, &[1, 64]);
        assert!(updates > 0 && right_of_it == 0);
        let table = self::table();
        for y in 0..16 {
            let reach = table.reach(y).expect("a row of the image");
            let outside = [0..reach.start, reach.end..64]
                .map(|columns| row(&table, y, &[columns.start as usize, columns.end as usize]).1);
            assert_eq!(outside, [0, 0]);
        }
    }

    /// A faint light over 350,000 rows of a great image: 43 million entries.
    fn glow() -> (Description, Image) {
        let mut glow = fibre();
        glow.starts[1] = 4_000_000.0;
        glow.coefficients[32] = 1;
        glow.coefficients[96] = 180_000;
        glow.deltas[0] = 120;
        let image = Image {
            level10: true,
            ..Image::new(1 << 13, 1 << 23)
        };
        (glow, image)
    }

    #[test]
    fn a_build_takes_no_more_memory_than_it_may() {
        let (glow, image) = glow();
        let room = Refusal {
            code: Code::Room,
            place: 0,
        };
        assert_eq!(Table::build(&glow, &image).err(), Some(room));
        let more = Rooms {
            entries: 1 << 26,
            ..Rooms::USUAL
        };
        let table = Table::build_within(&glow, &image, more).expect("it fits");
        assert!(table.counts().entries > 1 << 25, "{:?}", table.counts());
        assert_eq!(table.entries.capacity(), table.counts().entries as usize);
    }

    #[test]
    fn refusals_have_their_codes() {
        let code = |description: &Description, image: &Image| {
            Table::build(description, image).expect_err("refused").code
        };
        assert_eq!(code(&fibre(), &Image::new((1 << 23) + 1, 16)), Code::Size);
        assert_eq!(code(&fibre(), &Image::new(64, u32::MAX)), Code::Size);
        let mut bent = fibre();
        bent.starts.pop();
        assert_eq!(code(&bent, &Image::new(64, 16)), Code::Shape);
        let mut still = fibre();
        still.deltas = vec![0, 0];
        assert_eq!(code(&still, &Image::new(64, 16)), Code::Coincide);
        let table = table();
        assert_eq!(
            table.reach(16).expect_err("below the image").code,
            Code::Row
        );
        let mut channels = [vec![0.5; 8], vec![0.5; 8], vec![0.5; 7]];
        let [r0, r1, r2] = &mut channels;
        assert_eq!(
            table.draw_row(8, 0, [r0, r1, r2]).expect_err("uneven").code,
            Code::Span
        );
        assert!(channels.concat().iter().all(|&cell| cell == 0.5));
    }
}
