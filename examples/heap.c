/* A list of three objects, through the struct of huwekapo_heap.h: built, walked, let go; the largest free chunk beside it; a pair
 * that only a collection frees; a list that a collection in small steps walks, while the program goes on; and why the last of that
 * list is kept. */
#include "huwekapo_heap.h"

#include <inttypes.h>
#include <stdio.h>

enum { BLOCKS = 64, WIDTH = 2, ROOTS = 4 };
enum { LIST, NODE }; /* roots */

static huwekapo_ref memory[HUWEKAPO_HEAP_LENGTH(BLOCKS, WIDTH, ROOTS)];

/* The value of an accepted call. */
static size_t value(const char *call, struct huwekapo_reply reply) {
    if (reply.number != HUWEKAPO_ACCEPTED) {
        printf("%s: refused %zu\n", call, reply.number);
    }
    return reply.value;
}

/* A list of three objects in the root LIST. */
static void make_list(struct huwekapo_heap *heap) {
    for (size_t size = 1; size <= 3; size++) {
        size_t node = value("allocate", huwekapo_heap_allocate(heap, size, NODE));
        value("store", huwekapo_heap_store_cell(heap, node, 0, heap->roots[LIST]));
        value("store", huwekapo_heap_store_root(heap, LIST, HUWEKAPO_REFERENCE(node)));
    }
    value("store", huwekapo_heap_store_root(heap, NODE, 0));
}

int main(void) {
    if (!HUWEKAPO_IS_THIS_LIBRARY()) {
        fprintf(stderr, "heap: this is for libhuwekapo %s, and another is linked\n", HUWEKAPO_VERSION);
        return 1;
    }
    struct huwekapo_heap heap = huwekapo_heap_in(memory, BLOCKS, WIDTH, ROOTS);
    value("format", huwekapo_heap_format(&heap));
    printf("huwekapo %s: %zu blocks, counts up to %d\n", HUWEKAPO_VERSION, heap.blocks, HUWEKAPO_CAPACITY(WIDTH));
    make_list(&heap);
    for (size_t v = heap.roots[LIST]; v != 0; v = heap.cells[HUWEKAPO_CELL(HUWEKAPO_BLOCK(v), 0)]) {
        struct huwekapo_reply look = huwekapo_heap_look(&heap, HUWEKAPO_BLOCK(v));
        printf("an object of %zu blocks at block %zu, count %zu\n", look.value, HUWEKAPO_BLOCK(v), look.second);
    }
    /* One section: the heap has fewer than 256 blocks. */
    printf("%zu blocks are free, at most %" PRIu32 " of them in one chunk\n", value("free blocks", huwekapo_heap_free_blocks(&heap)),
           heap.sections[0]);
    printf("clearing the root frees %zu blocks\n", value("store", huwekapo_heap_store_root(&heap, LIST, 0)));

    size_t first = value("allocate", huwekapo_heap_allocate(&heap, 2, LIST));
    size_t second = value("allocate", huwekapo_heap_allocate(&heap, 2, NODE));
    value("store", huwekapo_heap_store_cell(&heap, first, 0, HUWEKAPO_REFERENCE(second)));
    value("store", huwekapo_heap_store_cell(&heap, second, 0, HUWEKAPO_REFERENCE(first)));
    printf("two that name each other: returning both roots frees %zu blocks,", value("return", huwekapo_heap_return_roots(&heap, 3)));
    printf(" a collection %zu\n", value("collect", huwekapo_heap_collect(&heap)));

    make_list(&heap);
    size_t alone = value("allocate", huwekapo_heap_allocate(&heap, 4, NODE));
    value("store", huwekapo_heap_store_cell(&heap, alone, 0, HUWEKAPO_REFERENCE(alone)));
    value("store", huwekapo_heap_store_root(&heap, NODE, 0));
    value("open", huwekapo_heap_open_collection(&heap));
    while (huwekapo_heap_is_open(&heap)) {
        struct huwekapo_reply steps = huwekapo_heap_step_collection(&heap, 2);
        printf("steps taken: %zu, blocks freed: %zu\n", value("step", steps), steps.second);
        value("allocate", huwekapo_heap_allocate(&heap, 1, NODE));
    }

    size_t last = HUWEKAPO_BLOCK(heap.roots[LIST]);
    while (heap.cells[HUWEKAPO_CELL(last, 0)] != 0) {
        last = HUWEKAPO_BLOCK(heap.cells[HUWEKAPO_CELL(last, 0)]);
    }
    static uint8_t sentence[HUWEKAPO_REASON_LENGTH(BLOCKS)];
    size_t length = value("reason", huwekapo_heap_reason(&heap, last, sentence, sizeof sentence));
    fwrite(sentence, 1, length, stdout);
    return 0;
}
