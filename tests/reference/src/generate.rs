//! Generated calls, record files and calls of the writer. The same seed gives the same case on
//! every machine; consecutive seeds give unrelated cases.

mod calls;
mod files;
mod look_back;
mod methods;
mod moves;
mod source;
mod worked;
mod writings;

pub use calls::{gen_call, Draft};
pub use files::{gen_cuts, gen_file, gen_small_file};
pub use look_back::gen_look_backs;
pub use worked::gen_worked_file;
pub use writings::gen_writing;
