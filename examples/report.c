/* Runs a recorded history from standard input, and prints its line: what the program `report` does, through the C interface, on
 * the heap that it has. The status is 3 where the run stopped, 1 where something failed. */
#include "huwekapo_heap.h"

#include <inttypes.h>
#include <stdio.h>
#include <string.h>

enum { BLOCKS = HUWEKAPO_REPORT_BLOCKS, WIDTH = HUWEKAPO_REPORT_WIDTH, ROOTS = HUWEKAPO_REPORT_ROOTS };

/* Whole records, nearly a mebibyte: the heap is checked once for each piece. */
enum { RECORD = HUWEKAPO_RECORD_LENGTH, PIECE = (1 << 20) / RECORD * RECORD };

static huwekapo_ref memory[HUWEKAPO_HEAP_LENGTH(BLOCKS, WIDTH, ROOTS)];
static uint8_t piece[PIECE];
static struct huwekapo_run run; /* a new one is all 0 */

static void print_line(void) {
    const struct huwekapo_tally *tally = &run.tally;
    if (run.number != 0) {
        printf("refused %zu at record %zu\n", run.number, run.records);
        return;
    }
    printf("%" PRIu64 " %" PRIu64 " %" PRIu64 " %" PRIu64 " %" PRIu64 " %" PRIu64 "\n", tally->allocations, tally->blocks,
           tally->largest, tally->collections, tally->peak, tally->stuck);
}

int main(void) {
    if (!HUWEKAPO_IS_THIS_LIBRARY()) {
        fprintf(stderr, "report: this is for libhuwekapo %s, and another is linked\n", HUWEKAPO_VERSION);
        return 1;
    }
    struct huwekapo_heap heap = huwekapo_heap_in(memory, BLOCKS, WIDTH, ROOTS);
    size_t held = 0, read;
    huwekapo_heap_format(&heap);
    do {
        read = fread(piece + held, 1, PIECE - held, stdin);
        held += read;
        /* Only the last piece may end inside a record. */
        size_t whole = read == 0 ? held : held / RECORD * RECORD;
        struct huwekapo_ran ran = huwekapo_heap_run_records(&heap, run, piece, whole);
        if (ran.reply.number != HUWEKAPO_ACCEPTED) {
            fprintf(stderr, "report: refused %zu\n", ran.reply.number);
            return 1;
        }
        run = ran.run;
        held -= whole;
        memmove(piece, piece + whole, held);
    } while (read != 0 && run.number == 0);
    if (ferror(stdin)) {
        perror("report: reading");
        return 1;
    }
    print_line();
    if (fflush(stdout) != 0) {
        perror("report: writing");
        return 1;
    }
    return run.number == 0 ? 0 : 3;
}
