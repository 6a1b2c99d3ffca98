/* An interpreter's loop that records its run: a small machine whose frames have four slots each, and a program for it that builds a list
 * and calls itself. The history goes to standard output: `record >FILE`, and FILE is run as any other. */
#include <stdio.h>

#include "huwekapo_record.h"

/* The instructions: in what a, b and c are, x.i is cell i of the object in slot x. */
enum operation { NEW, MOVE, GET, PUT, CALL, RETURN, STOP };

struct instruction {
    enum operation operation;
    unsigned a, b, c;
};

/* Slot 0 of a frame is the method's argument. */
static const struct instruction program[] = {
    {NEW, 0, 2, 0},  /*  0  a = new (2 blocks) */
    {NEW, 1, 1, 0},  /*  1  b = new (1 block) */
    {PUT, 0, 7, 1},  /*  2  a.7 = b */
    {CALL, 5, 0, 0}, /*  3  call 5 with a */
    {STOP, 0, 0, 0}, /*  4 */
    {GET, 1, 0, 7},  /*  5  b = argument.7 */
    {MOVE, 2, 1, 0}, /*  6  c = b */
    {NEW, 1, 1, 0},  /*  7  b = new (1 block) */
    {PUT, 1, 0, 2},  /*  8  b.0 = c */
    {PUT, 0, 7, 1},  /*  9  argument.7 = b */
    {CALL, 5, 0, 0}, /* 10  call 5 with the argument */
    {RETURN, 0, 0, 0},
};

enum { SLOTS = 4, DEEPEST = 5 };

static int to_file(void *file, const uint8_t *bytes, size_t length) {
    return fwrite(bytes, 1, length, (FILE *)file) == length ? 0 : 1;
}

int main(void) {
    static uint8_t buffer[HUWEKAPO_RECORD_LENGTH * 16];
    struct huwekapo_recorder recorder = huwekapo_recorder_in(buffer, sizeof buffer, to_file, stdout);
    unsigned at = 0, frame = 0, slot, returns[DEEPEST] = {0};
    for (;;) {
        const struct instruction now = program[at++];
        const unsigned slots = SLOTS * frame; /* the frame's first root */
        switch (now.operation) {
        case NEW:
            huwekapo_record_allocate(&recorder, now.b, slots + now.a);
            break;
        case MOVE:
            huwekapo_record_copy(&recorder, slots + now.b, slots + now.a);
            break;
        case GET:
            huwekapo_record_read(&recorder, now.c, slots + now.b, slots + now.a);
            break;
        case PUT:
            huwekapo_record_write(&recorder, slots + now.c, now.b, slots + now.a);
            break;
        case CALL:
            if (frame + 1 == DEEPEST)
                break; /* deep enough */
            huwekapo_record_copy(&recorder, slots + now.b, slots + SLOTS);
            returns[frame++] = at;
            at = now.a;
            break;
        case RETURN:
            for (slot = 0; slot < SLOTS; slot++)
                huwekapo_record_clear(&recorder, slots + slot);
            at = returns[--frame];
            break;
        case STOP:
            if (huwekapo_recorder_end(&recorder) || fflush(stdout)) {
                fprintf(stderr, "the history could not be written: %d\n", recorder.wrong);
                return 1;
            }
            fprintf(stderr, "%lu records\n", (unsigned long)recorder.records);
            return 0;
        }
    }
}
