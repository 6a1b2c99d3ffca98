//! Recorded histories (document 01, "Recorded histories"; document 02, U1 and U12), from these documents alone.
//!
//! Read in this order: record, request, figures, run; old, the records before U12 and their widening; and garbage, what a run leaves.
//! The rest writes histories and runs other programs on them: text, vectors and its parts, driver.

pub mod driver;
pub mod figures;
pub mod garbage;
pub mod old;
pub mod record;
pub mod request;
pub mod run;
pub mod text;
pub mod vectors;

pub use record::{Operation, Record};
pub use run::{report, Run};
