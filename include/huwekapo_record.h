/* Records of a history, from C: their form, and what an interpreter calls beside its own work, so that its run can be run again on
 * Huwekapo's heap. A root stands for a local variable: the slot of a frame is a root. Nothing of the library is needed, nor of the
 * C library.
 *
 *     static uint8_t buffer[512 * HUWEKAPO_RECORD_LENGTH];
 *     struct huwekapo_recorder recorder = huwekapo_recorder_in(buffer, sizeof buffer, write_out, file);
 *     huwekapo_record_allocate(&recorder, 2, 0);     (allocate 2 into 0)
 *     huwekapo_record_write(&recorder, 1, 7, 0);     (write 1 into cell 7 of 0)
 *     int wrong = huwekapo_recorder_end(&recorder);
 *
 * Records are appended to a lent buffer. Where it is full, `write_out` is called with what it holds, whole records, and it is used anew;
 * without `write_out` (0) a full buffer ends the recording. Numbers stand in the order of the words of docs/FILES.md.
 *
 * Every function answers 0, or what was wrong first, and from then on nothing is appended: so it is enough to look at the answer of
 * huwekapo_recorder_end. What was appended before is a history that can be run. */
#ifndef HUWEKAPO_RECORD_H
#define HUWEKAPO_RECORD_H

#include <stddef.h>
#include <stdint.h>

#ifdef __cplusplus
extern "C" {
#endif

/* A record: the operation in byte 0, root d in byte 1, root s in byte 2, 0 in byte 3, then the cell number c and the size, each a
 * number of four bytes with the low byte first. (Before version 0.7.0 a record had eight bytes, and these numbers two: the program
 * `widen` makes a history of today of one of then.) */
#define HUWEKAPO_RECORD_LENGTH 12 /* bytes of a record */
#define HUWEKAPO_RECORD_CELL 4    /* where the cell number begins */
#define HUWEKAPO_RECORD_SIZE 8    /* where the size begins */

/* The largest root that a record can name, and the largest cell, size or number: a run refuses most of them. */
#define HUWEKAPO_RECORD_MAX_ROOT UINT8_MAX
#define HUWEKAPO_RECORD_MAX_NUMBER UINT32_MAX

/* The operations. */
enum huwekapo_operation {
    HUWEKAPO_RECORD_ALLOCATE = 1,
    HUWEKAPO_RECORD_COPY = 2,
    HUWEKAPO_RECORD_WRITE = 3,
    HUWEKAPO_RECORD_READ = 4,
    HUWEKAPO_RECORD_CLEAR = 5,
    HUWEKAPO_RECORD_COLLECT = 6,
    HUWEKAPO_RECORD_ALLOCATE_DATA = 7,
    HUWEKAPO_RECORD_WRITE_NUMBER = 8
};

/* What can be wrong. */
#define HUWEKAPO_RECORD_NO_ROOM 1      /* the buffer is full, and nothing takes it; or it is shorter than a record */
#define HUWEKAPO_RECORD_OUT_OF_RANGE 2 /* a root above HUWEKAPO_RECORD_MAX_ROOT, another number above HUWEKAPO_RECORD_MAX_NUMBER */
#define HUWEKAPO_RECORD_NOT_TAKEN 3    /* write_out answered another number than 0 */

/* Takes so many bytes away, to a file, say. 0 is success. */
typedef int (*huwekapo_write_out)(void *to, const uint8_t *bytes, size_t length);

struct huwekapo_recorder {
    uint8_t *buffer;
    size_t room;   /* its length in bytes */
    size_t length; /* the bytes that it holds now, whole records */
    huwekapo_write_out write_out;
    void *to;
    uint64_t records; /* the records appended so far */
    int wrong;        /* 0, or what was wrong first */
};

static inline struct huwekapo_recorder huwekapo_recorder_in(uint8_t *buffer, size_t room, huwekapo_write_out write_out, void *to) {
    struct huwekapo_recorder recorder;
    recorder.buffer = buffer;
    recorder.room = room;
    recorder.length = 0;
    recorder.write_out = write_out;
    recorder.to = to;
    recorder.records = 0;
    recorder.wrong = 0;
    return recorder;
}

/* Hands on what the buffer holds, if something takes it. */
static inline int huwekapo_recorder_end(struct huwekapo_recorder *recorder) {
    if (recorder->length != 0 && recorder->write_out && recorder->wrong != HUWEKAPO_RECORD_NOT_TAKEN) {
        if (recorder->write_out(recorder->to, recorder->buffer, recorder->length) == 0)
            recorder->length = 0;
        else
            recorder->wrong = HUWEKAPO_RECORD_NOT_TAKEN;
    }
    return recorder->wrong;
}

/* Writes a number as a record has it. */
static inline void huwekapo_record_put_(uint8_t *at, size_t number) {
    at[0] = (uint8_t)(number & 0xFF);
    at[1] = (uint8_t)(number >> 8 & 0xFF);
    at[2] = (uint8_t)(number >> 16 & 0xFF);
    at[3] = (uint8_t)(number >> 24 & 0xFF);
}

static inline int huwekapo_record_append_(
    struct huwekapo_recorder *recorder, enum huwekapo_operation operation, size_t d, size_t s, size_t c, size_t size) {
    uint8_t *record;
    if (recorder->wrong)
        return recorder->wrong;
    if (d > HUWEKAPO_RECORD_MAX_ROOT || s > HUWEKAPO_RECORD_MAX_ROOT || c > HUWEKAPO_RECORD_MAX_NUMBER ||
        size > HUWEKAPO_RECORD_MAX_NUMBER)
        return recorder->wrong = HUWEKAPO_RECORD_OUT_OF_RANGE;
    if (recorder->room < HUWEKAPO_RECORD_LENGTH)
        return recorder->wrong = HUWEKAPO_RECORD_NO_ROOM;
    if (recorder->room - recorder->length < HUWEKAPO_RECORD_LENGTH) {
        if (!recorder->write_out)
            return recorder->wrong = HUWEKAPO_RECORD_NO_ROOM;
        if (huwekapo_recorder_end(recorder))
            return recorder->wrong;
    }
    record = recorder->buffer + recorder->length;
    record[0] = (uint8_t)operation;
    record[1] = (uint8_t)d;
    record[2] = (uint8_t)s;
    record[3] = 0;
    huwekapo_record_put_(record + HUWEKAPO_RECORD_CELL, c);
    huwekapo_record_put_(record + HUWEKAPO_RECORD_SIZE, size);
    recorder->length += HUWEKAPO_RECORD_LENGTH;
    recorder->records += 1;
    return 0;
}

/* Allocates so many blocks of 16 bytes into root d. */
static inline int huwekapo_record_allocate(struct huwekapo_recorder *recorder, size_t size, size_t d) {
    return huwekapo_record_append_(recorder, HUWEKAPO_RECORD_ALLOCATE, d, 0, 0, size);
}

/* Copies root s to d. */
static inline int huwekapo_record_copy(struct huwekapo_recorder *recorder, size_t s, size_t d) {
    return huwekapo_record_append_(recorder, HUWEKAPO_RECORD_COPY, d, s, 0, 0);
}

/* Writes root s into cell c of the object in d. */
static inline int huwekapo_record_write(struct huwekapo_recorder *recorder, size_t s, size_t c, size_t d) {
    return huwekapo_record_append_(recorder, HUWEKAPO_RECORD_WRITE, d, s, c, 0);
}

/* Reads cell c of the object in s into root d. */
static inline int huwekapo_record_read(struct huwekapo_recorder *recorder, size_t c, size_t s, size_t d) {
    return huwekapo_record_append_(recorder, HUWEKAPO_RECORD_READ, d, s, c, 0);
}

/* Clears root d. */
static inline int huwekapo_record_clear(struct huwekapo_recorder *recorder, size_t d) {
    return huwekapo_record_append_(recorder, HUWEKAPO_RECORD_CLEAR, d, 0, 0, 0);
}

/* A full collection. */
static inline int huwekapo_record_collect(struct huwekapo_recorder *recorder) {
    return huwekapo_record_append_(recorder, HUWEKAPO_RECORD_COLLECT, 0, 0, 0, 0);
}

/* Allocates so many blocks of data, whose cells hold numbers, into root d. */
static inline int huwekapo_record_allocate_data(struct huwekapo_recorder *recorder, size_t size, size_t d) {
    return huwekapo_record_append_(recorder, HUWEKAPO_RECORD_ALLOCATE_DATA, d, 0, 0, size);
}

/* Writes a number into cell c of the data in d. */
static inline int huwekapo_record_write_number(struct huwekapo_recorder *recorder, size_t number, size_t c, size_t d) {
    return huwekapo_record_append_(recorder, HUWEKAPO_RECORD_WRITE_NUMBER, d, 0, c, number);
}

#ifdef __cplusplus
}
#endif

#endif
