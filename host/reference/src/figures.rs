//! What a comparison comes to: pixels touched by one side alone, each with the rule that explains it, and greatest differences.

use crate::files::File;
use crate::rules::{picture, Orders, Picture, Rules};
use oracle::Outcome;

/// The rules in the order in which they become libjxl's, and what is left.
pub const RULES: [&str; 5] = [
    "(a) the distance's exponent",
    "(b) segments left of the image",
    "(c) the colour's floor",
    "(d) orders of operations",
    "unexplained",
];

/// A rule or an order by itself: the rules before it is libjxl's, and after.
pub struct Alone {
    pub name: &'static str,
    pub before: Rules,
    pub after: Rules,
}

/// (a), (b) and (c), in both precisions where that makes a difference.
const RULE_ALONE: [(&str, Rules, Rules); 5] = {
    let (low, high) = (Rules::LOW, Rules::HIGH);
    [
        ("(a)", low, high),
        ("(b) in low precision", low, Rules { left: true, ..low }),
        ("(b) in high precision", high, Rules { left: true, ..high }),
        ("(c) in low precision", low, Rules { floor: true, ..low }),
        (
            "(c) in high precision",
            high,
            Rules {
                floor: true,
                ..high
            },
        ),
    ]
};

/// The orders of (d).
const ORDER_ALONE: [(&str, Orders); 6] = {
    let none = Orders::NONE;
    [
        (
            "(d) multiples of pi/32 from f64",
            Orders {
                turns: true,
                ..none
            },
        ),
        (
            "(d) root 2 in each term, four sums",
            Orders { root: true, ..none },
        ),
        (
            "(d) s(ff)",
            Orders {
                square: true,
                ..none
            },
        ),
        (
            "(d) product and sum rounded once",
            Orders {
                fused: true,
                ..none
            },
        ),
        (
            "(d) distance in f64",
            Orders {
                double: true,
                ..none
            },
        ),
        (
            "(d) 0.5 added, the rest cut off",
            Orders {
                halves: true,
                ..none
            },
        ),
    ]
};

/// All of them.
pub fn alone() -> Vec<Alone> {
    let rules = RULE_ALONE.map(|(name, before, after)| Alone {
        name,
        before,
        after,
    });
    let orders = ORDER_ALONE.map(|(name, orders)| Alone {
        name,
        before: Rules::ABC,
        after: Rules {
            orders,
            ..Rules::ABC
        },
    });
    rules.into_iter().chain(orders).collect()
}

/// How far two pictures are apart.
#[derive(Clone, Copy, Default)]
pub struct Apart {
    pub greatest: f32,
    /// Pixels that are not the same.
    pub pixels: u64,
}

impl Apart {
    fn of(one: &Picture, other: &Picture) -> Apart {
        let mut apart = Apart::default();
        for (p, q) in one.iter().zip(other).filter(|(p, q)| p != q) {
            apart.pixels += 1;
            for (x, y) in p.iter().zip(q) {
                let difference = (x - y).abs();
                let difference = if difference.is_nan() {
                    f32::INFINITY
                } else {
                    difference
                };
                apart.greatest = apart.greatest.max(difference);
            }
        }
        apart
    }

    fn add(&mut self, other: Apart) {
        self.greatest = self.greatest.max(other.greatest);
        self.pixels += other.pixels;
    }
}

/// Pixels with anything but zero, in one precision of spline.rs against libjxl.
#[derive(Clone, Copy, Default)]
pub struct Touched {
    pub both: u64,
    /// By libjxl alone, for each rule.
    pub there: [u64; 5],
    /// By spline.rs alone.
    pub here: [u64; 5],
}

/// The figures of a file, or of many together.
#[derive(Clone, Default)]
pub struct Figures {
    pub files: u64,
    pub pixels: u64,
    /// In low and in high precision.
    pub touched: [Touched; 2],
    /// libjxl's picture and spline.rs's in low precision, then with each rule changed in turn.
    pub ladder: [Apart; 5],
    /// What each rule and each order changes by itself.
    pub alone: Vec<Apart>,
    /// The greatest magnitude of libjxl's floats.
    pub brightest: f32,
}

impl Figures {
    pub fn of(file: &File, there: &Picture) -> Result<Figures, String> {
        let ladder = ladder(file)?;
        let mut figures = Figures {
            files: 1,
            pixels: there.len() as u64,
            ladder: std::array::from_fn(|i| Apart::of(&ladder[i], there)),
            brightest: there
                .iter()
                .flatten()
                .fold(0.0, |most, x| x.abs().max(most)),
            ..Figures::default()
        };
        for (precision, touched) in figures.touched.iter_mut().enumerate() {
            touched.count(&ladder[precision..], there, precision);
        }
        for Alone { before, after, .. } in alone() {
            let apart = Apart::of(&changed(file, before)?, &changed(file, after)?);
            figures.alone.push(apart);
        }
        Ok(figures)
    }

    pub fn add(&mut self, other: &Figures) {
        self.files += other.files;
        self.pixels += other.pixels;
        for (mine, its) in self.touched.iter_mut().zip(other.touched) {
            mine.both += its.both;
            for rule in 0..RULES.len() {
                mine.there[rule] += its.there[rule];
                mine.here[rule] += its.here[rule];
            }
        }
        self.brightest = self.brightest.max(other.brightest);
        self.alone.resize(other.alone.len(), Apart::default());
        let mine = self.ladder.iter_mut().chain(&mut self.alone);
        for (mine, its) in mine.zip(other.ladder.iter().chain(&other.alone)) {
            mine.add(*its);
        }
    }

    pub fn unexplained(&self) -> u64 {
        let last = RULES.len() - 1;
        self.touched
            .iter()
            .map(|t| t.there[last] + t.here[last])
            .sum()
    }
}

impl Touched {
    /// A pixel of one side alone is explained by the rule from which on the two agree on it.
    fn count(&mut self, rungs: &[Picture], there: &Picture, first_rule: usize) {
        for (pixel, value) in there.iter().enumerate() {
            let is = touched(value);
            let agree = |rung: &&Picture| touched(&rung[pixel]) == is;
            if agree(&&rungs[0]) {
                self.both += u64::from(is);
                continue;
            }
            let rule = match rungs.iter().rev().take_while(agree).count() {
                0 => RULES.len() - 1,
                late => first_rule + rungs.len() - 1 - late,
            };
            let side = if is { &mut self.there } else { &mut self.here };
            side[rule] += 1;
        }
    }
}

pub fn touched(pixel: &[f32; 3]) -> bool {
    *pixel != [0.0; 3]
}

/// spline.rs in low and high precision, then with (b), (c) and the orders changed.
pub fn ladder(file: &File) -> Result<Vec<Picture>, String> {
    let mut ladder = vec![drawn(file, false)?, drawn(file, true)?];
    for (rules, original) in [Rules::LOW, Rules::HIGH].into_iter().zip(&ladder) {
        if changed(file, rules)? != *original {
            return Err(format!(
                "{}: with no rule changed it is not the picture of spline.rs",
                file.name
            ));
        }
    }
    let left = Rules {
        left: true,
        ..Rules::HIGH
    };
    for rules in [left, Rules::ABC, Rules::ALL] {
        ladder.push(changed(file, rules)?);
    }
    Ok(ladder)
}

/// The picture by these rules.
pub fn changed(file: &File, rules: Rules) -> Result<Picture, String> {
    picture(&file.description, &file.given(true), rules)
}

/// The picture of spline.rs itself.
fn drawn(file: &File, high_precision: bool) -> Result<Picture, String> {
    let pixels = file.width as usize * file.height as usize;
    let mut channels = [(); 3].map(|()| vec![0.0; pixels]);
    let [xs, ys, bs] = &mut channels;
    let built = oracle::build(&file.description, &file.given(high_precision));
    let outcome = match built {
        Outcome::Done(built) => {
            oracle::load(&built.table).draw_image(file.width, file.height, [xs, ys, bs])
        }
        other => other.map(|_| ()),
    };
    match outcome {
        Outcome::Done(()) => Ok((0..pixels)
            .map(|i| [0, 1, 2].map(|c| channels[c][i]))
            .collect()),
        other => Err(format!("{}: {other:?}", file.name)),
    }
}
