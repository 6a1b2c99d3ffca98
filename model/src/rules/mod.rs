//! The rules of document 01, and what must hold of them.
//!
//! Read in this order: heap, chunks, sections, marks, counting, collection, steps, damage, answers; then calls and replay;
//! then reasons (U11), shapes (U13) and outputs, the calls that write those, and copies (U14). Then the claims, which are checked on what was
//! done: claims (demand 3), section_claims (U4), mark_claims and step_claims (U8), list_claims (U2, U6), output_claims (U11, U13)
//! and copy_claims (U14).

pub mod answers;
pub mod calls;
pub mod chunks;
pub mod claims;
pub mod collection;
pub mod copies;
pub mod copy_claims;
pub mod counting;
pub mod damage;
pub mod heap;
pub mod list_claims;
pub mod mark_claims;
pub mod marks;
pub mod output_claims;
pub mod outputs;
pub mod reasons;
pub mod replay;
pub mod section_claims;
pub mod sections;
pub mod shapes;
pub mod step_claims;
pub mod steps;
