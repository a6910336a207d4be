//! Documents 01 and 02 worked a second time, from their text alone, slowly and
//! plainly.
//!
//! Nothing here is meant to be fast. Each function follows one clause of them
//! and names it, so that the two can be laid side by side.

pub mod average;
pub mod baseline;
pub mod calendar;
pub mod choice;
pub mod generate;
pub mod listing;
pub mod moves;
pub mod overlap;
pub mod record;
pub mod refusal;
pub mod table;
pub mod working;
pub mod writer;

pub use baseline::{verdict, Answer};
pub use generate::{
    gen_call, gen_cuts, gen_file, gen_look_backs, gen_small_file, gen_worked_file, gen_writing,
    Draft,
};
pub use listing::listing;
pub use overlap::{cut_from, overlap, Overlap};
pub use record::host;
pub use refusal::Refusal;
pub use table::{day_part, Request, Table, View};
pub use working::{working, Reason, Working};
pub use writer::write;
