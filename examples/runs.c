/* Runs of recorded histories through the C interface, on the heap of the program `report`: 4,096 blocks, width 3 and 64
 * roots.
 *
 * "Allocating 2, 1, 3 into roots 0, 1, 2 prints `3 6 3 0 6`", with U5 `3 6 3 0 6 0`. */
#include "huwekapo.h"

#include <inttypes.h>
#include <stdio.h>

enum { BLOCKS = HUWEKAPO_REPORT_BLOCKS, WIDTH = HUWEKAPO_REPORT_WIDTH, ROOTS = HUWEKAPO_REPORT_ROOTS };
enum { RECORD_LENGTH = HUWEKAPO_RECORD_LENGTH };

static uint8_t a[BLOCKS / 8], b[BLOCKS / 8], counts[WIDTH * BLOCKS / 8], data[BLOCKS / 8], marks[BLOCKS / 8];
static huwekapo_ref cells[4 * BLOCKS], roots[ROOTS], waiting[BLOCKS], sections[HUWEKAPO_SECTIONS_LENGTH(BLOCKS)], list[BLOCKS + 1];

/* The ten lent buffers. */
#define HEAP \
    BLOCKS, WIDTH, a, sizeof a, b, sizeof b, counts, sizeof counts, cells, 4 * BLOCKS, roots, ROOTS, waiting, BLOCKS, \
        sections, HUWEKAPO_SECTIONS_LENGTH(BLOCKS), data, sizeof data, marks, sizeof marks, list, BLOCKS + 1

/* The most records of a history. */
#define MOST_RECORDS ((size_t)4294967295u)

/* The twelve bytes of a record of an operation on the roots d and s, cell c and a size. */
#define NUMBER(n) (n) & 0xFF, (n) >> 8 & 0xFF, (n) >> 16 & 0xFF, (n) >> 24 & 0xFF
#define RECORD(operation, d, s, c, size) HUWEKAPO_RECORD_##operation, d, s, 0, NUMBER(c), NUMBER(size)

/* Document 02's example, then an allocation of nothing, which is refused 3, and one that is never run. */
static const uint8_t history[] = {
    RECORD(ALLOCATE, 0, 0, 0, 2), RECORD(ALLOCATE, 1, 0, 0, 1), RECORD(ALLOCATE, 2, 0, 0, 3),
    RECORD(ALLOCATE, 3, 0, 0, 0), RECORD(ALLOCATE, 4, 0, 0, 1),
};
enum { EXAMPLE = 3 * RECORD_LENGTH };

/* Half of the heap in root 0, one block of the other half in root 1, a quarter in root 2; another half is refused 5, after a
 * forced collection. */
static const uint8_t no_room[] = {
    RECORD(ALLOCATE, 0, 0, 0, BLOCKS / 2),
    RECORD(ALLOCATE, 1, 0, 0, 1),
    RECORD(ALLOCATE, 2, 0, 0, BLOCKS / 4),
    RECORD(ALLOCATE, 3, 0, 0, BLOCKS / 2),
};
enum { USED = BLOCKS / 2 + 1 + BLOCKS / 4 };

/* A pixel buffer of two blocks in root 0, its last cell the largest number, and an object in root 1; a reference in the buffer is
 * refused 12. */
static const uint8_t pixels[] = {
    RECORD(ALLOCATE_DATA, 0, 0, 0, 2),
    RECORD(WRITE_NUMBER, 0, 0, 7, HUWEKAPO_MAX_NUMBER),
    RECORD(ALLOCATE, 1, 0, 0, 1),
    RECORD(WRITE, 0, 1, 0, 0),
};

/* Document 02's example as it was before records had twelve bytes. What is read as its first record has the operation of its second
 * in the size field, and its own size in the cell field, which has to be 0. */
static const uint8_t old[] = {1, 0, 0, 0, 0, 0, 2, 0, 1, 1, 0, 0, 0, 0, 1, 0, 1, 2, 0, 0, 0, 0, 3, 0};

/* Collects. */
static const uint8_t collect[] = {RECORD(COLLECT, 0, 0, 0, 0)};

/* A new run: all 0, as statics are. */
static struct huwekapo_run new_run;

static int failures = 0;

/* Ends a line with whether what it shows is what is due. */
static void verdict(int same) {
    puts(same ? "ok" : "DIFFERENT");
    failures += !same;
}

static struct huwekapo_run run_of(size_t number, size_t records, uint64_t allocations, uint64_t blocks, uint64_t largest,
                                  uint64_t collections, uint64_t peak, uint64_t stuck) {
    struct huwekapo_run run = new_run;
    run.number = number;
    run.records = records;
    run.tally.allocations = allocations;
    run.tally.blocks = blocks;
    run.tally.largest = largest;
    run.tally.collections = collections;
    run.tally.peak = peak;
    run.tally.stuck = stuck;
    return run;
}

static int same_run(struct huwekapo_run x, struct huwekapo_run y) {
    return x.number == y.number && x.records == y.records && x.tally.allocations == y.tally.allocations &&
           x.tally.blocks == y.tally.blocks && x.tally.largest == y.tally.largest &&
           x.tally.collections == y.tally.collections && x.tally.peak == y.tally.peak && x.tally.stuck == y.tally.stuck;
}

/* A reply and a run, and those that are due. */
static void expect(const char *what, struct huwekapo_ran ran, size_t number, struct huwekapo_run run) {
    const struct huwekapo_tally *t = &ran.run.tally;
    printf("%-38s %2zu | ", what, ran.reply.number);
    if (ran.run.number == 0)
        printf("%d %d %d %d %d %d", (int)t->allocations, (int)t->blocks, (int)t->largest, (int)t->collections, (int)t->peak,
               (int)t->stuck);
    else
        printf("refused %zu at record %zu", ran.run.number, ran.run.records);
    printf("  ");
    verdict(ran.reply.number == number && ran.reply.value == 0 && ran.reply.second == 0 && same_run(ran.run, run));
}

/* How many blocks are free. */
static void expect_free(size_t free_blocks) {
    struct huwekapo_reply reply = huwekapo_free_blocks(HEAP);
    printf("%-38s %2zu | %zu  ", "free blocks", reply.number, reply.value);
    verdict(reply.number == HUWEKAPO_ACCEPTED && reply.value == free_blocks);
}

/* The size of the largest free chunk of a section. */
static void expect_section(size_t section, huwekapo_ref figure) {
    printf("largest free chunk of section %-8zu %3" PRIu32 "  ", section, sections[section]);
    verdict(sections[section] == figure);
}

/* A history and what it comes to; in two pieces of whole records it comes to the same. */
static void whole_and_pieces(const char *what, const uint8_t *bytes, size_t length, struct huwekapo_run end,
                             size_t free_blocks) {
    (void)huwekapo_format(HEAP);
    expect(what, huwekapo_run_records(HEAP, new_run, bytes, length), HUWEKAPO_ACCEPTED, end);
    expect_free(free_blocks);
    for (size_t cut = 0; cut <= length; cut += RECORD_LENGTH) {
        (void)huwekapo_format(HEAP);
        struct huwekapo_ran first = huwekapo_run_records(HEAP, new_run, bytes, cut);
        struct huwekapo_ran second = huwekapo_run_records(HEAP, first.run, bytes + cut, length - cut);
        struct huwekapo_reply left = huwekapo_free_blocks(HEAP);
        if (first.reply.number != 0 || second.reply.number != 0 || !same_run(second.run, end) || left.value != free_blocks) {
            printf("%s, in pieces of %zu and %zu bytes  ", what, cut, length - cut);
            verdict(0);
        }
    }
}

/* A run that was stopped is handed back as it is, and only the waiting list is written. */
static void stopped(void) {
    struct huwekapo_run end = run_of(3, 3, 3, 6, 3, 0, 6, 0);
    whole_and_pieces("stopped by a size of 0", history, sizeof history, end, BLOCKS - 6);
    waiting[0] = 99;
    expect("handed in again", huwekapo_run_records(HEAP, end, history, EXAMPLE), HUWEKAPO_ACCEPTED, end);
    expect_free(BLOCKS - 6);
    printf("waiting[0] = %" PRIu32 "  ", waiting[0]);
    verdict(waiting[0] == 0);
}

/* The last record that a run may have, and what stands behind it. */
static void limit(void) {
    struct huwekapo_run near = run_of(0, MOST_RECORDS - 1, 0, 0, 0, 0, 0, 0);
    struct huwekapo_run last = run_of(0, MOST_RECORDS, 1, 2, 2, 0, 2, 0);
    struct huwekapo_run past = run_of(10, MOST_RECORDS, 1, 2, 2, 0, 2, 0);
    (void)huwekapo_format(HEAP);
    expect("record 4294967294", huwekapo_run_records(HEAP, near, history, RECORD_LENGTH), HUWEKAPO_ACCEPTED, last);
    expect("nothing behind it", huwekapo_run_records(HEAP, last, history, 0), HUWEKAPO_ACCEPTED, last);
    expect("a byte behind it", huwekapo_run_records(HEAP, last, history, 1), HUWEKAPO_ACCEPTED, past);
    (void)huwekapo_format(HEAP);
    expect("a record too many", huwekapo_run_records(HEAP, near, history, 2 * RECORD_LENGTH), HUWEKAPO_ACCEPTED, past);
    expect_free(BLOCKS - 2);
}

/* While a collection in small steps is open, a record that collects stops the run; and where there is no room none is forced, so
 * that none is counted. */
static void with_one_open(void) {
    (void)huwekapo_format(HEAP);
    (void)huwekapo_open_collection(HEAP);
    expect("a record that collects, one open", huwekapo_run_records(HEAP, new_run, collect, sizeof collect), HUWEKAPO_ACCEPTED,
           run_of(14, 0, 0, 0, 0, 0, 0, 0));
    expect("no room, one open", huwekapo_run_records(HEAP, new_run, no_room, sizeof no_room), HUWEKAPO_ACCEPTED,
           run_of(5, 3, 3, USED, BLOCKS / 2, 0, USED, 0));
    expect_free(BLOCKS - USED);
}

/* Refused before the run is looked at, which is out of range itself. */
static void expect_refused(const char *what, size_t number, size_t value) {
    struct huwekapo_ran ran = huwekapo_run_records(HEAP, run_of(0, 0, 1, 0, 0, 0, 0, 0), history, EXAMPLE);
    printf("%-38s %2zu | %zu  ", what, ran.reply.number, ran.reply.value);
    verdict(ran.reply.number == number && ran.reply.value == value && same_run(ran.run, new_run));
}

/* Refused 19: the run answered is all 0, and nothing is written. */
static void out_of_range(void) {
    (void)huwekapo_format(HEAP);
    waiting[0] = 99;
    struct huwekapo_run wrong[] = {
        run_of(0, MOST_RECORDS + 1, 0, 0, 0, 0, 0, 0),
        run_of(0, 3, 4, 6, 3, 0, 6, 0),
        run_of(0, 1, 1, HUWEKAPO_MAX_BLOCKS + 1, BLOCKS, 0, BLOCKS, 0),
        run_of(0, 3, 3, 6, 3, 4, 6, 0),
        run_of(5, 3, 3, 6, 3, 5, 6, 0),
        run_of(0, 3, 3, 6, 3, 0, 6, 4),
    };
    const char *const names[] = {
        "out of range by its records", "by its allocations",          "by its blocks",
        "by its collections",          "by its collections, stopped", "by its stuck objects",
    };
    for (size_t i = 0; i < 6; i++)
        expect(names[i], huwekapo_run_records(HEAP, wrong[i], history, EXAMPLE), HUWEKAPO_BAD_RUN, new_run);
    expect_free(BLOCKS);
    printf("waiting[0] = %" PRIu32 "  ", waiting[0]);
    verdict(waiting[0] == 99);
    /* One collection more than records, where a record that stopped the run forced it. */
    struct huwekapo_run forced = run_of(5, 3, 3, 3 * HUWEKAPO_MAX_BLOCKS, BLOCKS, 4, BLOCKS, 0);
    expect("in range", huwekapo_run_records(HEAP, forced, history, EXAMPLE), HUWEKAPO_ACCEPTED, forced);
}

int main(void) {
    (void)huwekapo_format(HEAP);
    expect("no records", huwekapo_run_records(HEAP, new_run, history, 0), HUWEKAPO_ACCEPTED, new_run);
    whole_and_pieces("the example", history, EXAMPLE, run_of(0, 3, 3, 6, 3, 0, 6, 0), BLOCKS - 6);
    whole_and_pieces("cut off", history, EXAMPLE + 5, run_of(10, 3, 3, 6, 3, 0, 6, 0), BLOCKS - 6);
    whole_and_pieces("no room", no_room, sizeof no_room, run_of(5, 3, 3, USED, BLOCKS / 2, 1, USED, 0), BLOCKS - USED);
    /* Block 2048 is in use, and from there to block 3072 nothing else is. */
    expect_section(7, 0);
    expect_section(8, 128);
    expect_section(9, 256);
    expect_section(12, 0);
    whole_and_pieces("pixels", pixels, sizeof pixels, run_of(12, 3, 2, 3, 2, 0, 3, 0), BLOCKS - 3);
    printf("D = %d, cell 7 = %" PRIu32 "  ", data[0], cells[7]);
    verdict(data[0] == 1 && cells[7] == HUWEKAPO_MAX_NUMBER);
    (void)huwekapo_format(HEAP);
    expect("an old history", huwekapo_run_records(HEAP, new_run, old, sizeof old), HUWEKAPO_ACCEPTED, run_of(9, 0, 0, 0, 0, 0, 0, 0));
    expect("one old record", huwekapo_run_records(HEAP, new_run, old, 8), HUWEKAPO_ACCEPTED, run_of(10, 0, 0, 0, 0, 0, 0, 0));
    stopped();
    limit();
    with_one_open();
    out_of_range();
    /* A mark while no collection is open comes before 19, a stale list before it, and damage before both. */
    marks[0] = 1;
    expect_refused("a mark, none open", HUWEKAPO_BAD_MARKS, 0);
    sections[HUWEKAPO_SECTIONS_LENGTH(BLOCKS) - 1] = 255;
    expect_refused("a stale list of sections", HUWEKAPO_STALE_SECTIONS, 0);
    b[0] = 254;
    expect_refused("damaged", HUWEKAPO_DAMAGED, HUWEKAPO_END_ON_FREE);
    puts(failures == 0 ? "runs: ok" : "runs: DIFFERENT");
    return failures != 0;
}
