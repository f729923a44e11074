//! JPEG XL splines, from a list of decoded values to pixel rows: the proved library behind owned types.
//!
//! A [`Description`] is read from a list or a trace file, or written as one, and each of its splines as the [`points`] of a line drawing; a [`Table`] is built from it for an image; rows of the image are then drawn,
//! whole or in parts, in any order, for either of two desks without what it has [`Hidden`], and [`Bands`] tell which rows hold anything. No input makes a call panic or take more memory than it may: what cannot be done is a [`Refusal`] with its
//! code and place.
//!
//! ```
//! use aktyrbuz::{Description, Image, Limit, Table};
//!
//! // One spline: its start, one point 30 pixels to the right, a steady brightness in Y and a steady width.
//! let mut list = vec![0, 10, 8, 0, 1, 60, 0];
//! list.extend([0; 128]);
//! list[7 + 32] = 40;
//! list[7 + 96] = 12;
//!
//! let description = Description::read(&list, Limit::of_pixels(64 * 16))?;
//! let table = Table::build(&description, &Image::new(64, 16))?;
//! let (mut x, mut y, mut b) = ([0.0; 64], [0.0; 64], [0.0; 64]);
//! let updates = table.draw_row(8, 0, [&mut x, &mut y, &mut b])?;
//! assert!(updates > 0 && y[20] > 0.0);
//! // The trace that an operator touches at this pixel.
//! assert_eq!(table.at(20, 8)[0].trace, 0);
//! # Ok::<(), aktyrbuz::Refusal>(())
//! ```

mod bands;
mod cells;
mod code;
mod description;
mod desk;
pub mod points;
mod profile;
mod rooms;
mod table;
mod trace;

pub use bands::{Band, Bands};
pub use code::{Code, Refusal};
pub use description::{Description, Limit};
pub use desk::{Desk, Hidden};
pub use port::Image;
pub use profile::{Broken, Edition, Profile, Unbuilt};
pub use rooms::Rooms;
pub use table::{Counts, Near, Table};

/// The natural logarithm that building uses, the same on every machine.
pub fn ln(x: f32) -> f32 {
    port::ln(x)
}
