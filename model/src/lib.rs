//! A model of the heap of document 01, with the requests of document 02 that have landed. It is written from these
//! documents alone and, but for `product::port`, from none of the product's code.
//!
//! It is meant to be read by someone who knows document 01. It goes bit by bit, keeps reached objects in
//! sets, counts references by looking at every cell and root, and splits chunks by recursion. Each rule
//! stands under the sentence of document 01 that it renders.
//!
//! Read [`rules`] first, in the order that it gives; then [`history`] (recorded histories, U1). The rest are tests and
//! tools: [`lists`] of calls, written; [`texts`], what a list prints; [`product`], the comparisons with the product.

pub mod history;
pub mod lists;
pub mod product;
pub mod rules;
pub mod texts;

pub use rules::answers::Reply;
pub use rules::calls::{apply, Call};
pub use rules::heap::Memory;
