//! Against the product: its library beside the model (library, compare, fuzz, shrink, met), and its library and its
//! program `report` beside the same algorithms in plain Rust (bench, check_bench, copy_bench, data_bench, pause_bench, search_bench,
//! history_bench, timing, port); its library by sizes of heaps (size_bench, growth_bench). Heaps for all: busy, long_lists.

#[cfg(feature = "library")]
pub mod bench;
pub mod busy;
#[cfg(feature = "library")]
pub mod check_bench;
pub mod compare;
#[cfg(feature = "library")]
pub mod copy_bench;
#[cfg(feature = "library")]
pub mod data_bench;
pub mod fuzz;
#[cfg(feature = "library")]
pub mod growth_bench;
pub mod history_bench;
#[cfg(feature = "library")]
pub mod library;
pub mod long_lists;
pub mod met;
#[cfg(feature = "library")]
pub mod pause_bench;
pub mod port;
pub mod search_bench;
pub mod shrink;
#[cfg(feature = "library")]
pub mod size_bench;
pub mod timing;
