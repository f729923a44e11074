//! A second reading of the scope, written from its words alone and without a look at spline.rs: the whole of reading,
//! writing, building, drawing and reach on plain slices, the trace file, what a desk hides, another maker's tables, the bands of a table, line drawings and the fineness profile. It is slow and plain on purpose, and shares no code with the oracle.
//! What the words leave to the Rust stands in one file, `left_open`.
//!
//! Lent buffers appear as rooms, their lengths in floats or u32s; what would be stored in them is returned.
//! A refusal returns the scope's code and place. A comment in quotes is the scope's sentence, its heading in brackets
//! where it is not the file's.

pub mod bands;
pub mod check;
pub mod curve;
pub mod dequantize;
pub mod desk;
pub mod draw;
mod left_open;
pub mod list;
pub mod logarithm;
pub mod numbers;
pub mod polyline;
pub mod profile;
pub mod segments;
pub mod table;
pub mod trace;
pub mod transform;
pub mod walk;

pub use bands::{band, bands};
pub use check::check;
pub use desk::hide;
pub use draw::{draw, reach};
pub use list::{read, write, ListRooms};
pub use numbers::set_ln;
pub use polyline::{points_read, points_write};
pub use profile::{build_profile, profile, Unmet};
pub use table::{build, least_rooms, measure, BuildRooms, Taken, AMPLE};
pub use trace::{trace_read, trace_read2, trace_write, trace_write2};
