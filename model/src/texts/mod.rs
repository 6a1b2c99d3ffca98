//! Lists and their outcomes as texts: lists in words (assembly), what the program `calls` must print (expect), the same in
//! words (show), and the forms for other tools (trace).

pub mod assembly;
pub mod expect;
pub mod show;
pub mod trace;
