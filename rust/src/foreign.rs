//! The functions of libcapi.a, as include/huwekapo.h declares them. A slice is a pointer and a length.

use crate::lent::{Ran, Reading, Reply};
use crate::{Ref, SoFar};

/// Declares functions that take the blocks, the width, each buffer as a pointer and a length, and what is named further. First
/// stands whether the buffers are written, `mut` or `const`, then whether the roots are, then whether the mark map and the list
/// are.
macro_rules! declared {
    ($($call:ident($lent:tt, $roots:tt, $marks:tt $(, $argument:ident: $type:ty)*) -> $answer:ty;)*) => {
        extern "C" {
            $(pub fn $call(
                blocks: usize,
                width: usize,
                a: *$lent u8,
                a_length: usize,
                b: *$lent u8,
                b_length: usize,
                counts: *$lent u8,
                counts_length: usize,
                cells: *$lent Ref,
                cells_length: usize,
                roots: *$roots Ref,
                roots_length: usize,
                waiting: *$lent Ref,
                waiting_length: usize,
                sections: *$lent Ref,
                sections_length: usize,
                data: *$lent u8,
                data_length: usize,
                marks: *$marks u8,
                marks_length: usize,
                list: *$marks Ref,
                list_length: usize,
                $($argument: $type,)*
            ) -> $answer;)*
        }
    };
}

extern "C" {
    pub fn huwekapo_version() -> usize;

    pub fn huwekapo_buffers() -> usize;

    pub fn huwekapo_read_reason(
        text: *const u8,
        text_length: usize,
        cells: *mut u32,
        cells_length: usize,
    ) -> Reading;
}

declared! {
    huwekapo_format(mut, mut, mut) -> Reply;
    huwekapo_check(const, const, const) -> Reply;
    huwekapo_allocate(mut, mut, mut, n: usize, r: usize) -> Reply;
    huwekapo_store_root(mut, mut, mut, r: usize, v: usize) -> Reply;
    huwekapo_store_cell(mut, const, mut, at: usize, j: usize, v: usize) -> Reply;
    huwekapo_return_roots(mut, mut, mut, chosen: u64) -> Reply;
    huwekapo_collect(mut, const, const) -> Reply;
    huwekapo_look(const, const, const, at: usize) -> Reply;
    huwekapo_free_blocks(const, const, const) -> Reply;
    huwekapo_allocate_data(mut, mut, mut, n: usize, r: usize) -> Reply;
    huwekapo_write_number(mut, const, const, at: usize, j: usize, v: Ref) -> Reply;
    huwekapo_read_number(const, const, const, at: usize, j: usize) -> Reply;
    huwekapo_open_collection(const, const, mut) -> Reply;
    huwekapo_step_collection(mut, const, mut, budget: usize) -> Reply;
    huwekapo_reason(
        const, const, const,
        at: usize,
        output: *mut u8,
        output_length: usize
    ) -> Reply;
    huwekapo_shape(const, const, const, output: *mut u32, output_length: usize) -> Reply;
    huwekapo_copy(
        const, const, const,
        second_blocks: usize,
        second_width: usize,
        second_a: *mut u8,
        second_a_length: usize,
        second_b: *mut u8,
        second_b_length: usize,
        second_counts: *mut u8,
        second_counts_length: usize,
        second_cells: *mut Ref,
        second_cells_length: usize,
        second_roots: *mut Ref,
        second_roots_length: usize,
        second_waiting: *mut Ref,
        second_waiting_length: usize,
        second_sections: *mut Ref,
        second_sections_length: usize,
        second_data: *mut u8,
        second_data_length: usize,
        second_marks: *mut u8,
        second_marks_length: usize,
        second_list: *mut Ref,
        second_list_length: usize
    ) -> Reply;
    huwekapo_replay(
        mut, mut, mut,
        calls: *const u64,
        calls_length: usize,
        replies: *mut u64,
        replies_length: usize
    ) -> Reply;
    huwekapo_make_calls(
        mut, mut, mut,
        calls: *const u64,
        calls_length: usize,
        replies: *mut u64,
        replies_length: usize
    ) -> Reply;
    huwekapo_run_records(mut, mut, mut, run: SoFar, bytes: *const u8, bytes_length: usize) -> Ran;
}
