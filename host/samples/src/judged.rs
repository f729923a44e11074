//! The sample as spline.rs takes it, for an image of some size.

use crate::fibres;
use cases::{desks, Description, Given, Table};
use oracle::Outcome;

/// The usual configured limit.
const CONFIGURED: u32 = 1 << 20;

#[derive(Clone, Copy)]
pub struct Size {
    pub width: u32,
    pub height: u32,
    /// Built in high precision.
    pub high: bool,
}

/// The size that the sample was made for.
pub const WHOLE: Size = Size {
    width: fibres::WIDTH,
    height: fibres::HEIGHT,
    high: false,
};

impl Size {
    fn pixels(self) -> u32 {
        self.width.saturating_mul(self.height)
    }
}

pub struct Judged {
    pub description: Description,
    pub list: Vec<u32>,
    pub table: Table,
}

/// Writes the fibres as a list, has spline.rs read it back, which must give the same description, and build its table.
pub fn judged(size: Size) -> Result<Judged, String> {
    judged_of(fibres::fibres(), size)
}

/// The same of the plain fibres.
pub fn judged_plain(size: Size) -> Result<Judged, String> {
    judged_of(fibres::plain(), size)
}

fn judged_of(description: Description, size: Size) -> Result<Judged, String> {
    let list = model::list::write(&description, CONFIGURED, size.pixels(), u64::MAX)
        .map_err(|refusal| format!("the fibres cannot be written as a list: {refusal:?}"))?;
    let read = oracle::read(&list, CONFIGURED, size.pixels());
    if read.outcome != Outcome::Done(description.clone()) || read.consumed != list.len() {
        return Err(String::from("spline.rs does not read the fibres back"));
    }
    let table = table_of(&description, size)?;
    Ok(Judged {
        description,
        list,
        table,
    })
}

/// The sample without the fibres of these numbers, as a desk draws that has hidden them.
pub fn without(judged: &Judged, size: Size, hidden: &[u64]) -> Result<Judged, String> {
    let description = desks::without(&judged.description, |spline| hidden.contains(&spline));
    let table = table_of(&description, size)?;
    Ok(Judged {
        description,
        list: Vec::new(),
        table,
    })
}

fn table_of(description: &Description, size: Size) -> Result<Table, String> {
    let given = Given {
        high_precision: size.high,
        ..Given::of(size.width, size.height)
    };
    match oracle::build(description, &given) {
        Outcome::Done(built) => Ok(built.table),
        other => Err(format!(
            "spline.rs does not build the fibres: {:?}",
            other.map(|_| ())
        )),
    }
}
