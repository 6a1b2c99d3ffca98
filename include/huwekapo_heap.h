/* Huwekapo's ten buffers as one struct, and the calls on it: each wrapper lends the buffers to the function of the same name
 * in huwekapo.h, at the lengths that belong to the struct's numbers.
 *
 * The caller has to see to it that each pointer of the struct is good for its length. huwekapo_heap_in makes the struct from one
 * piece of memory:
 *
 *     static huwekapo_ref memory[HUWEKAPO_HEAP_LENGTH(1024, 3, 16)];
 *     struct huwekapo_heap heap = huwekapo_heap_in(memory, 1024, 3, 16);
 *     huwekapo_heap_format(&heap);
 *     huwekapo_heap_allocate(&heap, 2, 0);
 */
#ifndef HUWEKAPO_HEAP_H
#define HUWEKAPO_HEAP_H

#include "huwekapo.h"

#ifdef __cplusplus
extern "C" {
#endif

struct huwekapo_heap {
    size_t blocks;
    size_t width;
    size_t roots_length; /* the number of roots */
    uint8_t *a;
    uint8_t *b;
    uint8_t *counts;
    huwekapo_ref *cells;
    huwekapo_ref *roots;
    huwekapo_ref *waiting;
    huwekapo_ref *sections;
    uint8_t *data;
    uint8_t *marks;
    huwekapo_ref *list;
};

/* The numbers that hold all ten buffers: cells, roots, waiting, sections and list, and as many bytes of the maps as a number has in
 * each of the rest. */
#define HUWEKAPO_HEAP_LENGTH(blocks, width, roots) \
    (HUWEKAPO_CELLS_LENGTH(blocks) + (roots) + HUWEKAPO_WAITING_LENGTH(blocks) + HUWEKAPO_SECTIONS_LENGTH(blocks) + \
     HUWEKAPO_LIST_LENGTH(blocks) + \
     (HUWEKAPO_A_LENGTH(blocks) + HUWEKAPO_B_LENGTH(blocks) + HUWEKAPO_COUNTS_LENGTH(blocks, width) + \
      HUWEKAPO_DATA_LENGTH(blocks) + HUWEKAPO_MARKS_LENGTH(blocks) + sizeof(huwekapo_ref) - 1) / sizeof(huwekapo_ref))

/* A heap in one piece of memory, of HUWEKAPO_HEAP_LENGTH numbers. It is not formatted. */
static inline struct huwekapo_heap huwekapo_heap_in(huwekapo_ref *memory, size_t blocks, size_t width, size_t roots) {
    struct huwekapo_heap heap;
    heap.blocks = blocks;
    heap.width = width;
    heap.roots_length = roots;
    heap.cells = memory;
    heap.roots = heap.cells + HUWEKAPO_CELLS_LENGTH(blocks);
    heap.waiting = heap.roots + roots;
    heap.sections = heap.waiting + HUWEKAPO_WAITING_LENGTH(blocks);
    heap.list = heap.sections + HUWEKAPO_SECTIONS_LENGTH(blocks);
    heap.a = (uint8_t *)(heap.list + HUWEKAPO_LIST_LENGTH(blocks));
    heap.b = heap.a + HUWEKAPO_A_LENGTH(blocks);
    heap.counts = heap.b + HUWEKAPO_B_LENGTH(blocks);
    heap.data = heap.counts + HUWEKAPO_COUNTS_LENGTH(blocks, width);
    heap.marks = heap.data + HUWEKAPO_DATA_LENGTH(blocks);
    return heap;
}

/* The arguments that every call begins with. */
#define HUWEKAPO_LEND_(heap) \
    (heap)->blocks, (heap)->width, \
    (heap)->a, HUWEKAPO_A_LENGTH((heap)->blocks), \
    (heap)->b, HUWEKAPO_B_LENGTH((heap)->blocks), \
    (heap)->counts, HUWEKAPO_COUNTS_LENGTH((heap)->blocks, (heap)->width), \
    (heap)->cells, HUWEKAPO_CELLS_LENGTH((heap)->blocks), \
    (heap)->roots, (heap)->roots_length, \
    (heap)->waiting, HUWEKAPO_WAITING_LENGTH((heap)->blocks), \
    (heap)->sections, HUWEKAPO_SECTIONS_LENGTH((heap)->blocks), \
    (heap)->data, HUWEKAPO_DATA_LENGTH((heap)->blocks), \
    (heap)->marks, HUWEKAPO_MARKS_LENGTH((heap)->blocks), \
    (heap)->list, HUWEKAPO_LIST_LENGTH((heap)->blocks)

static inline struct huwekapo_reply huwekapo_heap_format(struct huwekapo_heap *heap) {
    return huwekapo_format(HUWEKAPO_LEND_(heap));
}

static inline struct huwekapo_reply huwekapo_heap_check(const struct huwekapo_heap *heap) {
    return huwekapo_check(HUWEKAPO_LEND_(heap));
}

static inline struct huwekapo_reply huwekapo_heap_allocate(struct huwekapo_heap *heap, size_t n, size_t r) {
    return huwekapo_allocate(HUWEKAPO_LEND_(heap), n, r);
}

static inline struct huwekapo_reply huwekapo_heap_store_root(struct huwekapo_heap *heap, size_t r, size_t v) {
    return huwekapo_store_root(HUWEKAPO_LEND_(heap), r, v);
}

static inline struct huwekapo_reply huwekapo_heap_store_cell(struct huwekapo_heap *heap, size_t at, size_t j, size_t v) {
    return huwekapo_store_cell(HUWEKAPO_LEND_(heap), at, j, v);
}

static inline struct huwekapo_reply huwekapo_heap_return_roots(struct huwekapo_heap *heap, uint64_t chosen) {
    return huwekapo_return_roots(HUWEKAPO_LEND_(heap), chosen);
}

static inline struct huwekapo_reply huwekapo_heap_collect(struct huwekapo_heap *heap) {
    return huwekapo_collect(HUWEKAPO_LEND_(heap));
}

static inline struct huwekapo_reply huwekapo_heap_look(const struct huwekapo_heap *heap, size_t at) {
    return huwekapo_look(HUWEKAPO_LEND_(heap), at);
}

static inline struct huwekapo_reply huwekapo_heap_free_blocks(const struct huwekapo_heap *heap) {
    return huwekapo_free_blocks(HUWEKAPO_LEND_(heap));
}

static inline struct huwekapo_reply huwekapo_heap_allocate_data(struct huwekapo_heap *heap, size_t n, size_t r) {
    return huwekapo_allocate_data(HUWEKAPO_LEND_(heap), n, r);
}

static inline struct huwekapo_reply huwekapo_heap_write_number(struct huwekapo_heap *heap, size_t at, size_t j, huwekapo_ref v) {
    return huwekapo_write_number(HUWEKAPO_LEND_(heap), at, j, v);
}

static inline struct huwekapo_reply huwekapo_heap_read_number(const struct huwekapo_heap *heap, size_t at, size_t j) {
    return huwekapo_read_number(HUWEKAPO_LEND_(heap), at, j);
}

static inline struct huwekapo_reply huwekapo_heap_open_collection(struct huwekapo_heap *heap) {
    return huwekapo_open_collection(HUWEKAPO_LEND_(heap));
}

static inline struct huwekapo_reply huwekapo_heap_step_collection(struct huwekapo_heap *heap, size_t budget) {
    return huwekapo_step_collection(HUWEKAPO_LEND_(heap), budget);
}

static inline struct huwekapo_reply huwekapo_heap_reason(const struct huwekapo_heap *heap, size_t at, uint8_t *output,
                                                         size_t output_length) {
    return huwekapo_reason(HUWEKAPO_LEND_(heap), at, output, output_length);
}

static inline struct huwekapo_reply huwekapo_heap_shape(const struct huwekapo_heap *heap, uint32_t *output, size_t output_length) {
    return huwekapo_shape(HUWEKAPO_LEND_(heap), output, output_length);
}

/* Copies what the roots of the first heap reach into the second. */
static inline struct huwekapo_reply huwekapo_heap_copy(const struct huwekapo_heap *heap, struct huwekapo_heap *second) {
    return huwekapo_copy(HUWEKAPO_LEND_(heap), HUWEKAPO_LEND_(second));
}

/* Whether a collection in small steps is open. */
static inline int huwekapo_heap_is_open(const struct huwekapo_heap *heap) {
    return heap->list[heap->blocks] == 1;
}

static inline struct huwekapo_reply huwekapo_heap_replay(struct huwekapo_heap *heap, const uint64_t *calls, size_t calls_length,
                                                         uint64_t *replies, size_t replies_length) {
    return huwekapo_replay(HUWEKAPO_LEND_(heap), calls, calls_length, replies, replies_length);
}

static inline struct huwekapo_reply huwekapo_heap_make_calls(struct huwekapo_heap *heap, const uint64_t *calls, size_t calls_length,
                                                             uint64_t *replies, size_t replies_length) {
    return huwekapo_make_calls(HUWEKAPO_LEND_(heap), calls, calls_length, replies, replies_length);
}

static inline struct huwekapo_ran huwekapo_heap_run_records(struct huwekapo_heap *heap, struct huwekapo_run run,
                                                            const uint8_t *bytes, size_t bytes_length) {
    return huwekapo_run_records(HUWEKAPO_LEND_(heap), run, bytes, bytes_length);
}

#ifdef __cplusplus
}
#endif

#endif
