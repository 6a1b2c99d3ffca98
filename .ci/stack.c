/* The stack that each call takes, by the size of the heap: a thread's stack is painted, the call is made, and the paint that is left is
 * counted. Each call is made on a heap that is in use, with a collection open and with none, and on a full heap whose blocks are one
 * chain of objects, at width 4. What include/huwekapo.h tells device makers is held to it. */
#include "huwekapo_heap.h"

#include <pthread.h>
#include <stdio.h>
#include <stdlib.h>
#include <string.h>

enum { WIDTH = 4, ROOTS = 64, STACK = 1 << 22, PAINT = 0xA5, SIZES = 4, MOST = HUWEKAPO_MAX_BLOCKS };

static const size_t sizes[SIZES] = {64, 512, 8192, MOST};

/* The calls of a list that makes a chain of all blocks and lets go of it, and the records of a history that makes one of a quarter of them. */
#define CALLS(blocks) (3 * (blocks) + 5)
#define LINKS(blocks) ((blocks) / 8)
#define RECORDS(blocks) (3 * LINKS(blocks) + 3)

static huwekapo_ref memory[HUWEKAPO_HEAP_LENGTH(MOST, WIDTH, ROOTS)], kept[2][HUWEKAPO_HEAP_LENGTH(MOST, WIDTH, ROOTS)];
static struct huwekapo_heap heap;
static uint64_t calls[HUWEKAPO_CALLS_LENGTH(CALLS(MOST))], replies[HUWEKAPO_REPLIES_LENGTH(CALLS(MOST))];
static uint8_t records[HUWEKAPO_RECORD_LENGTH * RECORDS(MOST)];
static const struct huwekapo_run new_run;

static int failures = 0;

/* Each call must be accepted: a refusal would take less stack. */
static void made(struct huwekapo_reply reply) { failures += reply.number != HUWEKAPO_ACCEPTED; }

static void nothing(void) {}
static void format(void) { made(huwekapo_heap_format(&heap)); }
static void check(void) { made(huwekapo_heap_check(&heap)); }
static void allocate(void) { made(huwekapo_heap_allocate(&heap, 3, 5)); }
static void store_root(void) { made(huwekapo_heap_store_root(&heap, 0, 0)); }
static void store_cell(void) { made(huwekapo_heap_store_cell(&heap, HUWEKAPO_BLOCK(heap.roots[0]), 0, 0)); }
static void return_roots(void) { made(huwekapo_heap_return_roots(&heap, ~UINT64_C(0))); }
static void collect(void) { made(huwekapo_heap_collect(&heap)); }
static void look(void) { made(huwekapo_heap_look(&heap, HUWEKAPO_BLOCK(heap.roots[0]))); }
static void free_blocks(void) { made(huwekapo_heap_free_blocks(&heap)); }

static void allocate_data(void) { made(huwekapo_heap_allocate_data(&heap, 3, 5)); }
static void write_number(void) {
    made(huwekapo_heap_write_number(&heap, HUWEKAPO_BLOCK(heap.roots[1]), 0, HUWEKAPO_MAX_NUMBER));
}
static void read_number(void) { made(huwekapo_heap_read_number(&heap, HUWEKAPO_BLOCK(heap.roots[1]), 0)); }

static void open_collection(void) { made(huwekapo_heap_open_collection(&heap)); }

/* All steps of a collection, and its close. */
static void step_collection(void) { made(huwekapo_heap_step_collection(&heap, heap.blocks)); }

/* The object that the chain in root 0 ends with. */
static void reason(void) {
    static uint8_t output[HUWEKAPO_REASON_LENGTH(MOST)];
    struct huwekapo_reply reply = huwekapo_heap_reason(&heap, 0, output, sizeof output);
    made(reply);
    static huwekapo_ref cells[MOST];
    struct huwekapo_reading reading = huwekapo_read_reason(output, reply.value, cells, MOST);
    failures += reading.kind != HUWEKAPO_KEPT || reading.root != 0 || reading.links < LINKS(heap.blocks) - 1 || reading.block != 0;
}

static void shape(void) {
    static huwekapo_ref output[HUWEKAPO_SHAPE_LENGTH(MOST, ROOTS)];
    made(huwekapo_heap_shape(&heap, output, sizeof output / sizeof *output));
}

/* Into a heap of the same size. */
static void copy(void) {
    static huwekapo_ref other[HUWEKAPO_HEAP_LENGTH(MOST, WIDTH, ROOTS)];
    struct huwekapo_heap second = huwekapo_heap_in(other, heap.blocks, WIDTH, ROOTS);
    made(huwekapo_heap_copy(&heap, &second));
}

static void replay(void) {
    size_t number = CALLS(heap.blocks);
    made(huwekapo_heap_replay(&heap, calls, HUWEKAPO_CALLS_LENGTH(number), replies, HUWEKAPO_REPLIES_LENGTH(number)));
    for (size_t i = 0; i < number; i++) {
        failures += replies[3 * i] != HUWEKAPO_ACCEPTED;
    }
}

/* The end of the same list; where a collection is open already, without its opening. */
static void make_calls(void) {
    size_t from = 3 * heap.blocks + (huwekapo_heap_is_open(&heap) ? 1 : 0), number = CALLS(heap.blocks) - from;
    made(huwekapo_heap_make_calls(&heap, calls + HUWEKAPO_CALLS_LENGTH(from), HUWEKAPO_CALLS_LENGTH(number), replies,
                                  HUWEKAPO_REPLIES_LENGTH(number)));
    for (size_t i = 0; i < number; i++) {
        failures += replies[3 * i] != HUWEKAPO_ACCEPTED;
    }
}

/* The last record collects, which stops the run while a collection in steps is open. */
static void run_records(void) {
    size_t number = RECORDS(heap.blocks), due = huwekapo_heap_is_open(&heap) ? number - 1 : number;
    struct huwekapo_ran ran = huwekapo_heap_run_records(&heap, new_run, records, HUWEKAPO_RECORD_LENGTH * number);
    made(ran.reply);
    failures += ran.run.records != due;
}

static void put_call(size_t i, uint64_t code, uint64_t x, uint64_t y, uint64_t z) {
    calls[4 * i] = code;
    calls[4 * i + 1] = x;
    calls[4 * i + 2] = y;
    calls[4 * i + 3] = z;
}

/* A list for replay: objects of one block until the heap is full, each naming the one before it, the last in root 0; then a collection
 * in steps, while which the chain is let go of, a full one, and an allocation. */
static void write_calls(size_t blocks) {
    for (size_t i = 0; i < blocks; i++) {
        put_call(3 * i, HUWEKAPO_CODE_ALLOCATE, 1, 1, 0);
        put_call(3 * i + 1, HUWEKAPO_CODE_STORE_CELL, i, 0, i);
        put_call(3 * i + 2, HUWEKAPO_CODE_STORE_ROOT, 0, HUWEKAPO_REFERENCE(i), 0);
    }
    put_call(3 * blocks, HUWEKAPO_CODE_OPEN_COLLECTION, 0, 0, 0);
    put_call(3 * blocks + 1, HUWEKAPO_CODE_RETURN_ROOTS, 3, 0, 0);
    put_call(3 * blocks + 2, HUWEKAPO_CODE_STEP_COLLECTION, blocks, 0, 0);
    put_call(3 * blocks + 3, HUWEKAPO_CODE_COLLECT, 0, 0, 0);
    put_call(3 * blocks + 4, HUWEKAPO_CODE_ALLOCATE, 3, 5, 0);
}

/* Records that make a chain of objects of two blocks in root 0, let go of it at once, and collect. */
static void write_records(size_t blocks) {
    struct huwekapo_recorder recorder = huwekapo_recorder_in(records, sizeof records, NULL, NULL);
    for (size_t i = 0; i < LINKS(blocks); i++) {
        huwekapo_record_allocate(&recorder, 2, 1);
        huwekapo_record_write(&recorder, 0, 0, 1);
        huwekapo_record_copy(&recorder, 1, 0);
    }
    huwekapo_record_clear(&recorder, 1);
    huwekapo_record_clear(&recorder, 0);
    huwekapo_record_collect(&recorder);
    failures += huwekapo_recorder_end(&recorder) != 0 || recorder.records != RECORDS(blocks);
}

/* A heap in use: a chain of objects in root 0, and in the other roots data and objects by turns, of which that of root 4 is let go of
 * and names itself. */
static void fill(void) {
    made(huwekapo_heap_format(&heap));
    struct huwekapo_ran ran =
        huwekapo_heap_run_records(&heap, new_run, records, HUWEKAPO_RECORD_LENGTH * 3 * LINKS(heap.blocks));
    made(ran.reply);
    failures += ran.run.number != 0;
    for (size_t root = 1; root < ROOTS && root < LINKS(heap.blocks); root++) {
        if (root % 2 == 1) {
            made(huwekapo_heap_allocate_data(&heap, 1 + root % 5, root));
        } else {
            made(huwekapo_heap_allocate(&heap, 1 + root % 5, root));
        }
    }
    made(huwekapo_heap_store_cell(&heap, HUWEKAPO_BLOCK(heap.roots[4]), 0, heap.roots[4]));
    made(huwekapo_heap_store_root(&heap, 4, 0));
}

/* A full heap whose blocks are one chain. */
static void fill_with_chain(void) {
    size_t number = 3 * heap.blocks;
    made(huwekapo_heap_replay(&heap, calls, HUWEKAPO_CALLS_LENGTH(number), replies, HUWEKAPO_REPLIES_LENGTH(number)));
    made(huwekapo_heap_store_root(&heap, 1, 0));
}

static void keep(size_t blocks) {
    write_calls(blocks);
    write_records(blocks);
    heap = huwekapo_heap_in(memory, blocks, WIDTH, ROOTS);
    fill();
    memcpy(kept[0], memory, sizeof memory);
    fill_with_chain();
    memcpy(kept[1], memory, sizeof memory);
}

static void *in_thread(void *call) {
    (*(void (**)(void))call)();
    return NULL;
}

static size_t measure(void (*call)(void)) {
    static uint8_t *stack;
    pthread_t thread;
    pthread_attr_t attributes;
    if (stack == NULL && posix_memalign((void **)&stack, 4096, STACK) != 0) {
        return 0;
    }
    memset(stack, PAINT, STACK);
    pthread_attr_init(&attributes);
    pthread_attr_setstack(&attributes, stack, STACK);
    if (pthread_create(&thread, &attributes, in_thread, &call) != 0) {
        return 0;
    }
    pthread_join(thread, NULL);
    pthread_attr_destroy(&attributes);
    size_t left = 0;
    while (left < STACK && stack[left] == PAINT) {
        left++;
    }
    return STACK - left;
}

int main(void) {
    /* On which heaps a call is accepted: with a collection open, with none, and on the full one, with none. */
    enum { OPEN = 1, CLOSED = 2, FULL = 4, ANY = OPEN | CLOSED | FULL };
    /* The most that a call that tests the heap takes, by its size, and that a list of calls, the walk of a reason or of a shape and a
     * copy do. */
#define A_TEST {19000, 19000, 19000, 77000}
#define A_COPY {27000, 27000, 145000, 1070000}
#define A_WALK {18000, 18000, 135000, 1060000}
    static const struct {
        const char *name;
        void (*call)(void);
        size_t most[SIZES];
        int heaps;
    } each[] = {
        {"format", format, {2000, 2000, 2000, 2000}, ANY},
        {"check", check, A_TEST, ANY},
        {"allocate", allocate, A_TEST, OPEN | CLOSED},
        {"store_root", store_root, A_TEST, ANY},
        {"store_cell", store_cell, A_TEST, ANY},
        {"return_roots", return_roots, A_TEST, ANY},
        {"collect", collect, A_TEST, CLOSED | FULL},
        {"look", look, A_TEST, ANY},
        {"free_blocks", free_blocks, A_TEST, ANY},
        {"allocate_data", allocate_data, A_TEST, OPEN | CLOSED},
        {"write_number", write_number, A_TEST, OPEN | CLOSED},
        {"read_number", read_number, A_TEST, OPEN | CLOSED},
        {"open_collection", open_collection, A_TEST, CLOSED | FULL},
        {"step_collection", step_collection, A_TEST, OPEN},
        {"reason", reason, A_WALK, ANY},
        {"shape", shape, A_WALK, ANY},
        {"copy", copy, A_COPY, CLOSED | FULL},
        {"replay", replay, {19000, 19000, 19000, 69000}, ANY},
        {"make_calls", make_calls, {20000, 20000, 20000, 77000}, ANY},
        {"run_records", run_records, A_TEST, OPEN | CLOSED},
    };
    enum { EACH = sizeof each / sizeof *each };
    static size_t bytes[EACH][SIZES];
    size_t thread = measure(nothing);
    for (size_t size = 0; size < SIZES; size++) {
        keep(sizes[size]);
        for (size_t i = 0; i < EACH; i++) {
            for (int on = OPEN; on <= FULL; on *= 2) {
                if (each[i].heaps & on) {
                    memcpy(memory, kept[on == FULL], sizeof memory);
                    if (on == OPEN) {
                        open_collection();
                    }
                    size_t taken = measure(each[i].call) - thread;
                    bytes[i][size] = taken > bytes[i][size] ? taken : bytes[i][size];
                }
            }
        }
    }
    printf("bytes of stack, at blocks:");
    for (size_t size = 0; size < SIZES; size++) {
        printf("%10zu", sizes[size]);
    }
    for (size_t i = 0; i < EACH; i++) {
        int same = 1;
        printf("\n  %-24s", each[i].name);
        for (size_t size = 0; size < SIZES; size++) {
            printf("%10zu", bytes[i][size]);
            same = same && bytes[i][size] > 0 && bytes[i][size] <= each[i].most[size];
        }
        printf("%s", same ? "" : "  MORE than the header says");
        failures += !same;
    }
    puts("");
    return failures != 0;
}
