/* The first paper case, P1, through the C interface: 8 blocks, width 2 and 4 roots.
 *
 * "Fresh; allocate 2 into root 0: block 0. Allocate 1 into root 1: block 2. Allocate 3 into root 2: block 4. A = 119, B = 185.
 * Look at 4: size 3, count 1." */
#include "huwekapo.h"

#include <inttypes.h>
#include <stdio.h>
#include <string.h>

enum { BLOCKS = 8, WIDTH = 2, ROOTS = 4 };

static uint8_t a[BLOCKS / 8], b[BLOCKS / 8], counts[WIDTH * BLOCKS / 8], data[BLOCKS / 8], marks[BLOCKS / 8];
static huwekapo_ref cells[4 * BLOCKS], roots[ROOTS], waiting[BLOCKS], sections[HUWEKAPO_SECTIONS_LENGTH(BLOCKS)], list[BLOCKS + 1];

/* The ten lent buffers. */
#define HEAP \
    BLOCKS, WIDTH, a, sizeof a, b, sizeof b, counts, sizeof counts, cells, 4 * BLOCKS, roots, ROOTS, waiting, BLOCKS, \
        sections, HUWEKAPO_SECTIONS_LENGTH(BLOCKS), data, sizeof data, marks, sizeof marks, list, BLOCKS + 1

/* P1 as a list for replay, with one word behind the replies. */
static const uint64_t p1[] = {2, 2, 0, 0, 2, 1, 1, 0, 2, 3, 2, 0, 6, 4, 0, 0};
static uint64_t replies[18];

static int failures = 0;

/* Ends a line with whether what it shows is what the case names. */
static void verdict(int same) {
    puts(same ? "ok" : "DIFFERENT");
    failures += !same;
}

/* A reply, and the one that the case names. */
static void expect(const char *call, struct huwekapo_reply reply, size_t number, size_t value, size_t second) {
    printf("%-29s %zu %zu %zu  ", call, reply.number, reply.value, reply.second);
    verdict(reply.number == number && reply.value == value && reply.second == second);
}

/* The size of the largest free chunk of the one section. */
static void expect_section(huwekapo_ref figure) {
    printf("sections = %" PRIu32 "  ", sections[0]);
    verdict(sections[0] == figure);
}

/* The two maps of P1; blocks 3 and 7 are free. */
static void expect_maps(void) {
    printf("A = %d, B = %d  ", a[0], b[0]);
    verdict(a[0] == 119 && b[0] == 185);
    expect_section(1);
}

/* The reply of a call of the list. */
static struct huwekapo_reply replied(size_t call) {
    struct huwekapo_reply reply = {(size_t)replies[3 * call], (size_t)replies[3 * call + 1], (size_t)replies[3 * call + 2]};
    return reply;
}

/* P1 once more, as one list: the same replies and maps, and nothing written behind the replies. */
static void replay_p1(void) {
    replies[12] = 7;
    expect("replay P1", huwekapo_replay(HEAP, p1, 16, replies, 13), HUWEKAPO_ACCEPTED, 4, 0);
    expect("  allocate 2 into root 0", replied(0), HUWEKAPO_ACCEPTED, 0, 0);
    expect("  allocate 1 into root 1", replied(1), HUWEKAPO_ACCEPTED, 2, 0);
    expect("  allocate 3 into root 2", replied(2), HUWEKAPO_ACCEPTED, 4, 0);
    expect("  look at 4", replied(3), HUWEKAPO_ACCEPTED, 3, 1);
    expect_maps();
    printf("behind the replies  %d  ", (int)replies[12]);
    verdict(replies[12] == 7);
}

/* Values that no cell can hold, and of which 16 bits would make 1, and 32 bits 1, 0 and the largest number: refused 8. Nothing is
 * written. */
static const struct {
    const char *in_root;
    const char *in_cell;
    size_t v;
} wide[] = {
    {"store 65537 in root 0", "store 65537 in cell 0 of 4", 65537},
    {"store 2^32 + 1 in root 0", "store 2^32 + 1 in cell 0 of 4", ((size_t)1 << 32) + 1},
    {"store 2^32 in root 0", "store 2^32 in cell 0 of 4", (size_t)1 << 32},
    {"store 2^64 - 1 in root 0", "store 2^64 - 1 in cell 0 of 4", SIZE_MAX},
};

static void store_wide(void) {
    for (size_t i = 0; i < sizeof wide / sizeof *wide; i++) {
        expect(wide[i].in_root, huwekapo_store_root(HEAP, 0, wide[i].v), HUWEKAPO_BAD_REFERENCE, 0, 0);
        expect(wide[i].in_cell, huwekapo_store_cell(HEAP, 4, 0, wide[i].v), HUWEKAPO_BAD_REFERENCE, 0, 0);
    }
    printf("root 0 = %" PRIu32 ", cell 0 of 4 = %" PRIu32 "  ", roots[0], cells[16]);
    verdict(roots[0] == 1 && cells[16] == 0);
}

/* A list that is not the maps': refused 11, before anything that the arguments say. Nothing is written. */
static void stale_sections(void) {
    sections[0] = 2;
    expect("check, the list stale", huwekapo_check(HEAP), HUWEKAPO_STALE_SECTIONS, 0, 0);
    expect("allocate 9 into root 4", huwekapo_allocate(HEAP, 9, 4), HUWEKAPO_STALE_SECTIONS, 0, 0);
    expect("look at 8", huwekapo_look(HEAP, 8), HUWEKAPO_STALE_SECTIONS, 0, 0);
    expect_section(2);
    sections[0] = 1;
}

/* The same values in a list, which goes on behind each: allocate 2 into root 0, store each, look at 0. */
static const uint64_t wide_list[] = {
    2, 2, 0, 0, 3, 0, (UINT64_C(1) << 32) + 1, 0, 3, 0, UINT64_C(1) << 32, 0, 4, 0, 0, UINT64_MAX, 6, 0, 0, 0,
};

static void replay_wide(void) {
    expect("replay wide values", huwekapo_replay(HEAP, wide_list, 20, replies, 15), HUWEKAPO_ACCEPTED, 5, 0);
    expect("  allocate 2 into root 0", replied(0), HUWEKAPO_ACCEPTED, 0, 0);
    expect("  store 2^32 + 1 in root 0", replied(1), HUWEKAPO_BAD_REFERENCE, 0, 0);
    expect("  store 2^32 in root 0", replied(2), HUWEKAPO_BAD_REFERENCE, 0, 0);
    expect("  store 2^64 - 1 in cell 0", replied(3), HUWEKAPO_BAD_REFERENCE, 0, 0);
    expect("  look at 0", replied(4), HUWEKAPO_ACCEPTED, 2, 1);
}

/* A pixel buffer of two blocks, in root 0, and an object beside it. Its cells hold any number, 4 too, which as a reference would name
 * no first block. Freed, it leaves nothing. */
static void write_pixels(void) {
    expect("format", huwekapo_format(HEAP), HUWEKAPO_ACCEPTED, 0, 0);
    expect("allocate 2 of data, root 0", huwekapo_allocate_data(HEAP, 2, 0), HUWEKAPO_ACCEPTED, 0, 0);
    expect("allocate 1 into root 1", huwekapo_allocate(HEAP, 1, 1), HUWEKAPO_ACCEPTED, 2, 0);
    expect("write 2^32 - 1 in cell 7 of 0", huwekapo_write_number(HEAP, 0, 7, HUWEKAPO_MAX_NUMBER), HUWEKAPO_ACCEPTED, 0, 0);
    expect("write 4 in cell 0 of 0", huwekapo_write_number(HEAP, 0, 0, 4), HUWEKAPO_ACCEPTED, 0, 0);
    expect("read cell 7 of 0", huwekapo_read_number(HEAP, 0, 7), HUWEKAPO_ACCEPTED, HUWEKAPO_MAX_NUMBER, 0);
    expect("read cell 1 of 0", huwekapo_read_number(HEAP, 0, 1), HUWEKAPO_ACCEPTED, 0, 0);
    expect("check", huwekapo_check(HEAP), HUWEKAPO_ACCEPTED, 0, 0);
    printf("D = %d  ", data[0]);
    verdict(data[0] == 1);
    /* References are not stored in data, numbers not in other objects: 12, which comes after 7 and before 8. */
    expect("store 9 in cell 0 of 0", huwekapo_store_cell(HEAP, 0, 0, 9), HUWEKAPO_WRONG_KIND, 0, 0);
    expect("store 9 in cell 8 of 0", huwekapo_store_cell(HEAP, 0, 8, 9), HUWEKAPO_BAD_CELL, 0, 0);
    expect("write 5 in cell 0 of 2", huwekapo_write_number(HEAP, 2, 0, 5), HUWEKAPO_WRONG_KIND, 0, 0);
    expect("read cell 0 of 2", huwekapo_read_number(HEAP, 2, 0), HUWEKAPO_WRONG_KIND, 0, 0);
    expect("read cell 0 of 1", huwekapo_read_number(HEAP, 1, 0), HUWEKAPO_NO_OBJECT, 0, 0);
    expect("store 1 in cell 0 of 2", huwekapo_store_cell(HEAP, 2, 0, 1), HUWEKAPO_ACCEPTED, 0, 0);
    expect("return roots 0 and 1", huwekapo_return_roots(HEAP, 3), HUWEKAPO_ACCEPTED, 3, 0);
    printf("D = %d, cells 0 and 7 = %" PRIu32 ", %" PRIu32 "  ", data[0], cells[0], cells[7]);
    verdict(data[0] == 0 && cells[0] == 0 && cells[7] == 0);
    data[0] = 4;
    expect("check, a D bit on block 2", huwekapo_check(HEAP), HUWEKAPO_DAMAGED, HUWEKAPO_STRAY_DATA, 0);
    data[0] = 0;
}

/* Data in a list: 1 block into root 0, the largest number in its cell 3, read back. With a number that no cell holds the list is no
 * list of calls, and nothing is written. */
static uint64_t number_list[] = {9, 1, 0, 0, 10, 0, 3, HUWEKAPO_MAX_NUMBER, 11, 0, 3, 0};

static void replay_numbers(void) {
    expect("replay numbers", huwekapo_replay(HEAP, number_list, 12, replies, 9), HUWEKAPO_ACCEPTED, 3, 0);
    expect("  allocate 1 of data, root 0", replied(0), HUWEKAPO_ACCEPTED, 0, 0);
    expect("  write 2^32 - 1 in cell 3", replied(1), HUWEKAPO_ACCEPTED, 0, 0);
    expect("  read cell 3 of 0", replied(2), HUWEKAPO_ACCEPTED, HUWEKAPO_MAX_NUMBER, 0);
    number_list[7] = UINT64_C(1) << 32;
    expect("replay, a number of 2^32", huwekapo_replay(HEAP, number_list, 12, replies, 8), HUWEKAPO_NO_CALL, 0, 0);
    expect("read cell 3 of 0", huwekapo_read_number(HEAP, 0, 3), HUWEKAPO_ACCEPTED, HUWEKAPO_MAX_NUMBER, 0);
}

/* The mark map and the first two places of the list, with its last. */
static void expect_progress(uint8_t map, huwekapo_ref first, huwekapo_ref second, huwekapo_ref last) {
    printf("marks = %d, list = %" PRIu32 ", %" PRIu32 " .. %" PRIu32 "  ", marks[0], list[0], list[1], list[BLOCKS]);
    verdict(marks[0] == map && list[0] == first && list[1] == second && list[BLOCKS] == last);
}

/* A collection in small steps. Root 0 names the object at 0, which names that at 1; those at 2 and 3 name each other. */
static void step_by_step(void) {
    expect("format", huwekapo_format(HEAP), HUWEKAPO_ACCEPTED, 0, 0);
    for (size_t root = 0; root < ROOTS; root++) {
        expect("allocate 1 into each root", huwekapo_allocate(HEAP, 1, root), HUWEKAPO_ACCEPTED, root, 0);
    }
    expect("store 2 in cell 0 of 0", huwekapo_store_cell(HEAP, 0, 0, 2), HUWEKAPO_ACCEPTED, 0, 0);
    expect("store 4 in cell 0 of 2", huwekapo_store_cell(HEAP, 2, 0, 4), HUWEKAPO_ACCEPTED, 0, 0);
    expect("store 3 in cell 0 of 3", huwekapo_store_cell(HEAP, 3, 0, 3), HUWEKAPO_ACCEPTED, 0, 0);
    expect("return roots 1, 2 and 3", huwekapo_return_roots(HEAP, 14), HUWEKAPO_ACCEPTED, 0, 0);
    expect("1 step, none open", huwekapo_step_collection(HEAP, 1), HUWEKAPO_OUT_OF_TURN, 0, 0);
    expect("open", huwekapo_open_collection(HEAP), HUWEKAPO_ACCEPTED, 0, 0);
    expect_progress(1, 1, 0, 1);
    expect("open, one open", huwekapo_open_collection(HEAP), HUWEKAPO_OUT_OF_TURN, 0, 0);
    expect("collect, one open", huwekapo_collect(HEAP), HUWEKAPO_OUT_OF_TURN, 0, 0);
    expect("0 steps", huwekapo_step_collection(HEAP, 0), HUWEKAPO_ACCEPTED, 0, 0);
    expect("1 step", huwekapo_step_collection(HEAP, 1), HUWEKAPO_ACCEPTED, 1, 0);
    expect_progress(3, 2, 0, 1);
    /* Born marked, and not listed. */
    expect("allocate 2 of data, root 1", huwekapo_allocate_data(HEAP, 2, 1), HUWEKAPO_ACCEPTED, 4, 0);
    expect_progress(19, 2, 0, 1);
    /* A mark where no object starts: refused 13, before anything that the arguments say. */
    marks[0] = 19 + 128;
    expect("allocate 9 into root 4", huwekapo_allocate(HEAP, 9, 4), HUWEKAPO_BAD_MARKS, 0, 0);
    marks[0] = 19;
    expect("at most 9 steps", huwekapo_step_collection(HEAP, 9), HUWEKAPO_ACCEPTED, 1, 2);
    expect_progress(0, 0, 0, 0);
    expect("free blocks", huwekapo_free_blocks(HEAP), HUWEKAPO_ACCEPTED, 4, 0);
}

/* The reason and the shape, of what the steps left: the object at 0 names that at 1, and root 1 data of 2 blocks at 4. Their outputs
 * have one place more than they need. */
static const char due_sentence[] = "root 0 cell 0 block 1\n";
static const uint32_t due_shape[] = {4, 1, 2, 0, 0, 1, 0, 3, 0, 0, 0, 2, 1, 0, 0, 0, 0, 0, 0, 0, 0, 1, 0, 0, 0, 0, 0};

static void write_outputs(void) {
    enum { BYTES = sizeof due_sentence - 1, NUMBERS = sizeof due_shape / sizeof *due_shape };
    static uint8_t sentence[BYTES + 1];
    static uint32_t shape[NUMBERS + 1], links[1];
    sentence[BYTES] = 7;
    shape[NUMBERS] = 7;
    expect("reason of 2", huwekapo_reason(HEAP, 2, sentence, 0), HUWEKAPO_NO_OBJECT, 0, 0);
    expect("reason of 1, too short", huwekapo_reason(HEAP, 1, sentence, BYTES - 1), HUWEKAPO_SHORT_REASON, 0, 0);
    printf("nothing written  ");
    verdict(sentence[0] == 0);
    expect("reason of 1", huwekapo_reason(HEAP, 1, sentence, sizeof sentence), HUWEKAPO_ACCEPTED, BYTES, 0);
    printf("%.*s  ", BYTES - 1, (const char *)sentence);
    verdict(memcmp(sentence, due_sentence, BYTES) == 0 && sentence[BYTES] == 7);
    struct huwekapo_reading reading = huwekapo_read_reason(sentence, BYTES, links, 0);
    printf("read back, without room for its cell  ");
    verdict(reading.kind == HUWEKAPO_NO_ROOM && reading.links == 1);
    reading = huwekapo_read_reason(sentence, BYTES, links, 1);
    printf("read back: root %zu cell %u block %zu  ", reading.root, (unsigned)links[0], reading.block);
    verdict(reading.kind == HUWEKAPO_KEPT && reading.root == 0 && reading.links == 1 && links[0] == 0 && reading.block == 1);
    reading = huwekapo_read_reason(sentence, BYTES - 1, links, 1);
    printf("without its line end it is none  ");
    verdict(reading.kind == HUWEKAPO_NO_SENTENCE);
    expect("shape, too short", huwekapo_shape(HEAP, shape, NUMBERS - 1), HUWEKAPO_SHORT_SHAPE, 0, 0);
    expect("shape", huwekapo_shape(HEAP, shape, NUMBERS + 1), HUWEKAPO_ACCEPTED, NUMBERS, 0);
    printf("its numbers, and none behind them  ");
    verdict(memcmp(shape, due_shape, sizeof due_shape) == 0 && shape[NUMBERS] == 7);
}

/* The same in a list: an object that names itself, opened and stepped. */
static const uint64_t step_list[] = {2, 1, 0, 0, 4, 0, 0, 1, 3, 0, 0, 0, 12, 0, 0, 0, 13, 5, 0, 0, 13, 5, 0, 0};

static void replay_steps(void) {
    expect("replay steps", huwekapo_replay(HEAP, step_list, 24, replies, 18), HUWEKAPO_ACCEPTED, 6, 0);
    expect("  open", replied(3), HUWEKAPO_ACCEPTED, 0, 0);
    expect("  at most 5 steps", replied(4), HUWEKAPO_ACCEPTED, 0, 1);
    expect("  5 steps, none open", replied(5), HUWEKAPO_OUT_OF_TURN, 0, 0);
}

/* A list on the heap as it stands, P1's: what it left is there, and is let go of; and on one with a count of 0. */
static const uint64_t more[] = {6, 4, 0, 0, 2, 2, 3, 0, 8, 4, 0, 0, 7, 0, 0, 0};

static void make_calls(void) {
    huwekapo_replay(HEAP, p1, 16, replies, 13);
    replies[12] = 7;
    expect("make calls", huwekapo_make_calls(HEAP, more, 16, replies, 13), HUWEKAPO_ACCEPTED, 4, 0);
    expect("  look at 4", replied(0), HUWEKAPO_ACCEPTED, 3, 1);
    expect("  allocate 2 into root 3", replied(1), HUWEKAPO_NO_CHUNK, 0, 0);
    expect("  return root 2", replied(2), HUWEKAPO_ACCEPTED, 3, 0);
    expect("  free blocks", replied(3), HUWEKAPO_ACCEPTED, 5, 0);
    uint8_t kept = counts[0];
    counts[0] = 0;
    expect("make calls, a count of 0", huwekapo_make_calls(HEAP, more, 15, replies, 13), HUWEKAPO_DAMAGED, HUWEKAPO_WRONG_COUNT, 0);
    counts[0] = kept;
    expect("make calls, cut off", huwekapo_make_calls(HEAP, more, 15, replies, 13), HUWEKAPO_CUT_OFF, 0, 0);
    printf("behind the replies  %d  ", (int)replies[12]);
    verdict(replies[12] == 7);
}

int main(void) {
    expect("format", huwekapo_format(HEAP), HUWEKAPO_ACCEPTED, 0, 0);
    expect_section(BLOCKS);
    expect("allocate 2 into root 0", huwekapo_allocate(HEAP, 2, 0), HUWEKAPO_ACCEPTED, 0, 0);
    expect("allocate 1 into root 1", huwekapo_allocate(HEAP, 1, 1), HUWEKAPO_ACCEPTED, 2, 0);
    expect("allocate 3 into root 2", huwekapo_allocate(HEAP, 3, 2), HUWEKAPO_ACCEPTED, 4, 0);
    expect_maps();
    expect("look at 4", huwekapo_look(HEAP, 4), HUWEKAPO_ACCEPTED, 3, 1);
    expect("check", huwekapo_check(HEAP), HUWEKAPO_ACCEPTED, 0, 0);
    /* P2, the first line: "Then allocate 2 into root 3: refused 5, with blocks 3 and 7 free." */
    expect("allocate 2 into root 3", huwekapo_allocate(HEAP, 2, 3), HUWEKAPO_NO_CHUNK, 0, 0);
    expect("free blocks", huwekapo_free_blocks(HEAP), HUWEKAPO_ACCEPTED, 2, 0);
    store_wide();
    stale_sections();
    /* The rest of the calls, so that each is linked and called once. */
    expect("store 1 in cell 0 of 2", huwekapo_store_cell(HEAP, 2, 0, 1), HUWEKAPO_ACCEPTED, 0, 0);
    expect("store 0 in root 1", huwekapo_store_root(HEAP, 1, 0), HUWEKAPO_ACCEPTED, 1, 0);
    expect("collect", huwekapo_collect(HEAP), HUWEKAPO_ACCEPTED, 0, 0);
    expect("return root 4", huwekapo_return_roots(HEAP, 16), HUWEKAPO_BAD_ROOT, 0, 0);
    expect("return roots 0 and 2", huwekapo_return_roots(HEAP, 5), HUWEKAPO_ACCEPTED, 5, 0);
    /* P4: the third reference brings the count to the capacity, which the second value tells. */
    expect("allocate 1 into root 0", huwekapo_allocate(HEAP, 1, 0), HUWEKAPO_ACCEPTED, 0, 0);
    expect("store 1 in root 1", huwekapo_store_root(HEAP, 1, 1), HUWEKAPO_ACCEPTED, 0, 0);
    expect("store 1 in root 2", huwekapo_store_root(HEAP, 2, 1), HUWEKAPO_ACCEPTED, 0, 1);
    expect("store 1 in root 3", huwekapo_store_root(HEAP, 3, 1), HUWEKAPO_ACCEPTED, 0, 0);
    write_pixels();
    step_by_step();
    write_outputs();
    replay_p1();
    replay_wide();
    replay_numbers();
    replay_steps();
    make_calls();
    puts(failures == 0 ? "paper: ok" : "paper: DIFFERENT");
    return failures != 0;
}
