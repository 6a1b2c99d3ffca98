//! Lists of calls, written: by hand (paper, request_vectors, section_vectors, number_vectors, step_vectors, output_vectors,
//! copy_vectors, large_vectors) and at random. `file` has the form in which
//! they are kept, `generate` the desk at which they are written, `families` what is written there, with `wrong_families`,
//! `section_lists` and `step_lists`; `damaging` and `spoiling` make something wrong; `every_list` tries every short list with U8's claims; `runs` has runs of records on what a list left;
//! `vectors` is the one large file.

pub mod copy_vectors;
pub mod damaging;
pub mod every_list;
pub mod families;
pub mod file;
pub mod generate;
pub mod large_vectors;
pub mod number_vectors;
pub mod output_vectors;
pub mod paper;
pub mod random;
pub mod request_vectors;
pub mod runs;
pub mod section_lists;
pub mod section_vectors;
pub mod spoiling;
pub mod step_lists;
pub mod step_vectors;
pub mod vectors;
pub mod wrong_families;
