/* Huwekapo: a heap of 16-byte blocks in bitmaps, with limited reference counts.
 *
 * The caller lends the heap's ten buffers to every call, each as a pointer and a length in elements, in this order:
 *
 *   a         blocks / 8 bytes           A-map: 1 is allocated, 0 is free
 *   b         blocks / 8 bytes           B-map: 0 on the last block of each object, 1 everywhere else
 *   counts    width * blocks / 8 bytes   count maps, the least significant bit first
 *   cells     4 * blocks numbers         cells 4i to 4i + 3 for block i: 0, or 1 + the first block of an object; of an object
 *                                        made as data any number
 *   roots     1 to 64 numbers            0, or 1 + the first block of an object
 *   waiting   blocks numbers             working space
 *   sections  blocks / 256 numbers       the size of the largest free chunk of each section, 0 where it has none
 *   data      blocks / 8 bytes           D-map: 1 on the first block of each object made as data, 0 everywhere else
 *   marks     blocks / 8 bytes           mark map: while a collection is open, 1 on the first block of each object it has met
 *   list      blocks + 1 numbers         1 + the first blocks of the marked objects that it has still to look at, strictly
 *                                        rising, then 0s; the last place is 1 while a collection is open and else 0
 *
 * A number is a huwekapo_ref, of 32 bits. blocks is a power of two from HUWEKAPO_MIN_BLOCKS to HUWEKAPO_MAX_BLOCKS, 8 to 65,536;
 * width, the count width, is 1 to 4 bits. Block i is bit i % 8 (bit 0 is the least) of byte i / 8 of a map. A chunk is s blocks
 * starting at a multiple of s, s a power of two. A section is 256 blocks; below 256 blocks it is all of them, and `sections` is one
 * number.
 *
 * Every call may be made with any arguments and any content of the buffers: what is wrong is refused by a number, and a
 * refusal changes no buffer. Arguments are whole words, and nothing of them is cut off: a v of 2^32 + 1 is refused 8. Only the
 * number that is written into data is as wide as a cell: any such number is right. Format, both allocations, both stores, the
 * return, collect, steps, both lists of calls and runs of records leave `waiting` all 0, and `sections` as it must be, when
 * accepted; the opening of a collection writes `marks` and `list` and nothing else; the write of a number changes one cell and
 * nothing else; check, look, free blocks and the read of a number write nothing; the reason and the shape write nothing but their
 * output; a copy writes nothing but the buffers of its second heap, which it leaves as a collection leaves them.
 *
 * The cells of data are never followed, counted or checked as references, whatever they hold. What roots and cells name may be
 * data. When data is freed, its cells become 0, and its D bit too.
 *
 * A collection is made at once by collect, or in small steps: it is opened, stepped, and closes in the call of steps that leaves
 * the list empty. While one is open, every call but collect and a second opening may be made. Objects are born marked then. A
 * store that changes a value, an allocation's too, marks and lists what is unmarked among the object written to, the old and the
 * new one; clearing a freed object's cells marks and lists the unmarked ones that they named; a freed object leaves both. While
 * none is open, `marks` and `list` are all 0. Nothing that a root leads to is ever freed. What no root led to at the opening, and
 * none of those objects of a later store was or led to, is gone at the close. The steps from the opening to the close are at
 * most the objects present at the opening.
 *
 * The buffers, those of both heaps of a copy, the two lists of replay and of make_calls, the bytes of a run, and the outputs of the
 * reason and of the shape must not overlap, nor may the text and the cells of a reason that is read; and each pointer must be good
 * for its length, and not null even where that is 0.
 *
 * huwekapo_heap.h has the ten buffers as one struct, and the same calls on it.
 *
 * Link libhuwekapo, which `bash install.sh PREFIX` makes (`pkg-config --cflags --libs huwekapo`), or libcapi.a, which it is made
 * of. What a device has to bring:
 *
 *   - x86-64, and of a C library memset and memcpy alone. Nothing is allocated, nothing is printed, and there is no global state:
 *     heaps in different buffers may be used by different threads at once. Calls on one heap must not overlap in time.
 *   - Stack: less than 19,000 bytes on heaps of up to 8,192 blocks, and less than 77,000 on larger ones; make_calls less than 20,000
 *     and 77,000. Format takes less than 2,000, whatever the size. The reason and the shape take less than 18,000 bytes up to
 *     1,024 blocks, 135,000 up to 8,192, and 1,060,000 on larger heaps; a copy less than 27,000, 145,000 and 1,070,000.
 *     Recursion goes six deep at most, over the halves of a section.
 *   - Time: every call but format and replay tests the whole heap before it does anything, steps too; make_calls tests it once for
 *     all its calls, and a run of records once for each piece. Many calls at a time are therefore best made by make_calls, by
 *     replay, or by a run of records in long pieces.
 *   - Alignment: the numbers of cells, roots, waiting, sections, list and a shape, and the cells of a reason that is read, are
 *     aligned as uint32_t is, those of lists of calls and of their replies as uint64_t is.
 */
#ifndef HUWEKAPO_H
#define HUWEKAPO_H

#include <stddef.h>
#include <stdint.h>

#include "huwekapo_record.h"

/* The version of this header, and of the library that it goes with. What changes an argument, a struct or a buffer raises the
 * minor number, and with it the shared library's name. */
#define HUWEKAPO_VERSION_MAJOR 0
#define HUWEKAPO_VERSION_MINOR 9
#define HUWEKAPO_VERSION_PATCH 0
#define HUWEKAPO_VERSION "0.9.0"
#define HUWEKAPO_VERSION_NUMBER (1000000 * HUWEKAPO_VERSION_MAJOR + 1000 * HUWEKAPO_VERSION_MINOR + HUWEKAPO_VERSION_PATCH)

/* The number of buffers that every call takes. */
#define HUWEKAPO_BUFFER_COUNT 10

/* A number of cells, roots, waiting, sections and list: a reference is 0, or 1 + the first block of an object. The largest. */
typedef uint32_t huwekapo_ref;
#define HUWEKAPO_MAX_NUMBER UINT32_MAX

/* The limits. */
#define HUWEKAPO_MIN_BLOCKS 8
#define HUWEKAPO_MAX_BLOCKS 65536
#define HUWEKAPO_MIN_WIDTH 1
#define HUWEKAPO_MAX_WIDTH 4
#define HUWEKAPO_MIN_ROOTS 1
#define HUWEKAPO_MAX_ROOTS 64

/* The heap of the program `report`. */
#define HUWEKAPO_REPORT_BLOCKS 4096
#define HUWEKAPO_REPORT_WIDTH 3
#define HUWEKAPO_REPORT_ROOTS 64

/* The length of each buffer, in elements. That of roots is the number of roots. */
#define HUWEKAPO_A_LENGTH(blocks) ((blocks) / 8)
#define HUWEKAPO_B_LENGTH(blocks) ((blocks) / 8)
#define HUWEKAPO_COUNTS_LENGTH(blocks, width) ((width) * ((blocks) / 8))
#define HUWEKAPO_CELLS_LENGTH(blocks) (4 * (blocks))
#define HUWEKAPO_WAITING_LENGTH(blocks) (blocks)
#define HUWEKAPO_SECTIONS_LENGTH(blocks) ((blocks) < 256 ? 1 : (blocks) / 256)
#define HUWEKAPO_DATA_LENGTH(blocks) ((blocks) / 8)
#define HUWEKAPO_MARKS_LENGTH(blocks) ((blocks) / 8)
#define HUWEKAPO_LIST_LENGTH(blocks) ((blocks) + 1)

/* The blocks of a section. */
#define HUWEKAPO_SECTION_BLOCKS(blocks) ((blocks) / HUWEKAPO_SECTIONS_LENGTH(blocks))

/* The lengths of the lists of replay and of make_calls, for so many calls. */
#define HUWEKAPO_CALLS_LENGTH(calls) (4 * (calls))
#define HUWEKAPO_REPLIES_LENGTH(calls) (3 * (calls))

/* Lengths of output that are enough for every heap of so many blocks and roots: of a reason, in bytes, and of a shape, in numbers. */
#define HUWEKAPO_REASON_LENGTH(blocks) (8 + 12 * (blocks))
#define HUWEKAPO_SHAPE_LENGTH(blocks, roots) (1 + (roots) + 6 * (blocks))

/* The number of a cell or root that names the object at a block, and the block that such a number other than 0 names. */
#define HUWEKAPO_REFERENCE(block) (1 + (block))
#define HUWEKAPO_BLOCK(reference) ((reference) - 1)

/* The place in cells of cell j of the object at a block. */
#define HUWEKAPO_CELL(block, j) (4 * (block) + (j))

/* The count at which an object is stuck. */
#define HUWEKAPO_CAPACITY(width) ((1 << (width)) - 1)

#ifdef __cplusplus
extern "C" {
#endif

/* Of the library that is linked: its version, as HUWEKAPO_VERSION_NUMBER has it, and the number of buffers that its calls take. */
size_t huwekapo_version(void);
size_t huwekapo_buffers(void);

/* Whether the library that is linked is the one that this header declares, to be asked before anything is lent: to another one the
 * arguments mean something else. */
#define HUWEKAPO_IS_THIS_LIBRARY() \
    (huwekapo_version() / 1000 == HUWEKAPO_VERSION_NUMBER / 1000 && huwekapo_buffers() == HUWEKAPO_BUFFER_COUNT)

/* A number and its values. `number` is 0 where the call was accepted, else the first that applies of the refusals that the
 * call names, in the order in which it names them. A refusal carries value 0, or the damage kind for number 2. `second` is the
 * count that a look finds, or the number of blocks that accepted steps freed; of an accepted allocation, of data too, or of an
 * accepted store of a reference it is 1 where this call brought the count of the object that it stores to the capacity, at which
 * the object is stuck, and 0 where not. Else it is 0. */
struct huwekapo_reply {
    size_t number;
    size_t value;
    size_t second;
};

enum huwekapo_number {
    HUWEKAPO_ACCEPTED = 0,
    HUWEKAPO_MISSHAPEN = 1,     /* blocks, width, the number of roots or any buffer's length is not as it must be */
    HUWEKAPO_DAMAGED = 2,       /* the heap is damaged; the value is the damage kind */
    HUWEKAPO_BAD_SIZE = 3,      /* n is 0 or above blocks */
    HUWEKAPO_BAD_ROOT = 4,      /* r is not below the number of roots, or a bit of `chosen` is at or past it */
    HUWEKAPO_NO_CHUNK = 5,      /* no chunk is free: a chunk is s blocks starting at a multiple of s, s the least power of
                                   two that is n or more */
    HUWEKAPO_NO_OBJECT = 6,     /* `at` is not a first block (or not below blocks) */
    HUWEKAPO_BAD_CELL = 7,      /* j is not below 4 times the object's size */
    HUWEKAPO_BAD_REFERENCE = 8, /* v is neither 0 nor 1 + a first block */
    HUWEKAPO_NO_CALL = 9,       /* an entry is no call: its code is above 13, or it writes a number that no cell holds. A record
                                   is none: its operation is unknown, or a field that the operation does not name is not 0 */
    HUWEKAPO_CUT_OFF = 10,      /* the list ends inside a call. A history ends inside a record, or goes on past
                                   4,294,967,295 records */
    HUWEKAPO_STALE_SECTIONS = 11, /* a number of `sections` is not the size of the largest free chunk of its section */
    HUWEKAPO_WRONG_KIND = 12,   /* a reference is stored in a cell of data, or read from one; or a number is written or read
                                   where the object is not data */
    HUWEKAPO_BAD_MARKS = 13,    /* while a collection is open: the list is not of its form or holds an object that is unmarked, a
                                   mark is not on a first block, or a root, or a marked object that is not on the list, names
                                   an unmarked one. While none is: a mark or a place of the list is not 0 */
    HUWEKAPO_OUT_OF_TURN = 14,  /* a step while no collection is open; an opening or a full collection while one is */
    HUWEKAPO_SHORT_REASON = 15, /* the output is shorter than the sentence */
    HUWEKAPO_SHORT_SHAPE = 16,  /* the output is shorter than the list */
    HUWEKAPO_NO_PLACE = 17,     /* an object of a copy finds no free chunk at its turn */
    HUWEKAPO_SHORT_REPLIES = 18, /* `replies` is too short for the replies of all calls */
    HUWEKAPO_BAD_RUN = 19       /* the run handed in is out of range */
};

enum huwekapo_damage {
    HUWEKAPO_END_ON_FREE = 1,         /* a 0 in the B-map on a free block */
    HUWEKAPO_OPEN_END = 2,            /* an allocated block with B bit 1 whose next block is free or past the end */
    HUWEKAPO_UNALIGNED = 3,           /* an object whose first block is not a multiple of the least power of two that is
                                         its size or more */
    HUWEKAPO_DANGLING_REFERENCE = 4,  /* a cell of a free block that isn't 0, or a cell, not of data, or a root that is neither
                                         0 nor 1 + a first block */
    HUWEKAPO_WRONG_COUNT = 5,         /* a count other than 0 where no object starts; an object with count 0; a count below
                                         capacity that differs from the number of all roots and all cells, but those of data,
                                         naming the object */
    /* 6 is not used: it was the number of objects against the 0 bits of the B-map, which kinds 1 and 2 imply */
    HUWEKAPO_STRAY_DATA = 7           /* a D bit where no object starts */
};

/* The codes of a list of calls. */
enum huwekapo_code {
    HUWEKAPO_CODE_FORMAT = 0,
    HUWEKAPO_CODE_CHECK = 1,
    HUWEKAPO_CODE_ALLOCATE = 2,
    HUWEKAPO_CODE_STORE_ROOT = 3,
    HUWEKAPO_CODE_STORE_CELL = 4,
    HUWEKAPO_CODE_COLLECT = 5,
    HUWEKAPO_CODE_LOOK = 6,
    HUWEKAPO_CODE_FREE_BLOCKS = 7,
    HUWEKAPO_CODE_RETURN_ROOTS = 8,
    HUWEKAPO_CODE_ALLOCATE_DATA = 9,
    HUWEKAPO_CODE_WRITE_NUMBER = 10,
    HUWEKAPO_CODE_READ_NUMBER = 11,
    HUWEKAPO_CODE_OPEN_COLLECTION = 12,
    HUWEKAPO_CODE_STEP_COLLECTION = 13
};

/* The parameters that every call begins with: blocks, width, and the buffers in their order, each as a pointer and a length in
 * elements. Six macros have them: HUWEKAPO_BUFFERS for a call that may write every buffer, HUWEKAPO_BUFFERS_BUT_ROOTS for one
 * that may write every buffer but the roots, HUWEKAPO_BUFFERS_BUT_ROOTS_AND_MARKS for one that may write every buffer but the
 * roots, `marks` and `list`, HUWEKAPO_CONST_BUFFERS_BUT_CELLS for one that may write the cells alone,
 * HUWEKAPO_CONST_BUFFERS_BUT_MARKS for one that may write `marks` and `list` alone, HUWEKAPO_CONST_BUFFERS for one that writes
 * none. So huwekapo_look is
 *
 *     struct huwekapo_reply huwekapo_look(size_t blocks, size_t width, const uint8_t *a, size_t a_length, .., size_t at);
 */
#define HUWEKAPO_BUFFERS_(byte, number, cell, root, mark, place) \
    size_t blocks, size_t width, \
    byte *a, size_t a_length, \
    byte *b, size_t b_length, \
    byte *counts, size_t counts_length, \
    cell *cells, size_t cells_length, \
    root *roots, size_t roots_length, \
    number *waiting, size_t waiting_length, \
    number *sections, size_t sections_length, \
    byte *data, size_t data_length, \
    mark *marks, size_t marks_length, \
    place *list, size_t list_length
#define HUWEKAPO_BUFFERS HUWEKAPO_BUFFERS_(uint8_t, huwekapo_ref, huwekapo_ref, huwekapo_ref, uint8_t, huwekapo_ref)
#define HUWEKAPO_BUFFERS_BUT_ROOTS HUWEKAPO_BUFFERS_(uint8_t, huwekapo_ref, huwekapo_ref, const huwekapo_ref, uint8_t, huwekapo_ref)
#define HUWEKAPO_BUFFERS_BUT_ROOTS_AND_MARKS \
    HUWEKAPO_BUFFERS_(uint8_t, huwekapo_ref, huwekapo_ref, const huwekapo_ref, const uint8_t, const huwekapo_ref)
#define HUWEKAPO_CONST_BUFFERS_BUT_CELLS \
    HUWEKAPO_BUFFERS_(const uint8_t, const huwekapo_ref, huwekapo_ref, const huwekapo_ref, const uint8_t, const huwekapo_ref)
#define HUWEKAPO_CONST_BUFFERS_BUT_MARKS \
    HUWEKAPO_BUFFERS_(const uint8_t, const huwekapo_ref, const huwekapo_ref, const huwekapo_ref, uint8_t, huwekapo_ref)
#define HUWEKAPO_CONST_BUFFERS \
    HUWEKAPO_BUFFERS_(const uint8_t, const huwekapo_ref, const huwekapo_ref, const huwekapo_ref, const uint8_t, const huwekapo_ref)

/* The buffers of the second heap of a copy. */
#define HUWEKAPO_SECOND_BUFFERS \
    size_t second_blocks, size_t second_width, \
    uint8_t *second_a, size_t second_a_length, \
    uint8_t *second_b, size_t second_b_length, \
    uint8_t *second_counts, size_t second_counts_length, \
    huwekapo_ref *second_cells, size_t second_cells_length, \
    huwekapo_ref *second_roots, size_t second_roots_length, \
    huwekapo_ref *second_waiting, size_t second_waiting_length, \
    huwekapo_ref *second_sections, size_t second_sections_length, \
    uint8_t *second_data, size_t second_data_length, \
    uint8_t *second_marks, size_t second_marks_length, \
    huwekapo_ref *second_list, size_t second_list_length

/* Makes an empty heap of whatever the buffers held: b is all ones, each number of sections the blocks of a section,
 * every other buffer all 0. The value is 0. Refusals: 1. */
struct huwekapo_reply huwekapo_format(HUWEKAPO_BUFFERS);

/* Tests the whole heap. The value is 0. Refusals: 1, 2, 11, 13. */
struct huwekapo_reply huwekapo_check(HUWEKAPO_CONST_BUFFERS);

/* Allocates n blocks into root r. The value is the first block, `second` whether the new object is stuck, as it is at width 1.
 * Refusals: 1, 2, 11, 13, 3, 4, 5. */
struct huwekapo_reply huwekapo_allocate(HUWEKAPO_BUFFERS, size_t n, size_t r);

/* Stores v in root r. The value is the number of blocks freed, `second` whether the object that v names became stuck. Where
 * the root holds v already, only the waiting list is written. Refusals: 1, 2, 11, 13, 4, 8. */
struct huwekapo_reply huwekapo_store_root(HUWEKAPO_BUFFERS, size_t r, size_t v);

/* Stores v in cell j of the object at block `at`. The value is the number of blocks freed, `second` whether the object that v
 * names became stuck. Where the cell holds v already, only the waiting list is written. Refusals: 1, 2, 11, 13, 6, 7, 12, 8. */
struct huwekapo_reply huwekapo_store_cell(HUWEKAPO_BUFFERS_BUT_ROOTS, size_t at, size_t j, size_t v);

/* Clears the roots of a set, bit r of `chosen` for root r, as stores of 0 do one after another. The value is the number of
 * blocks freed in all. Refusals: 1, 2, 11, 13, 4. */
struct huwekapo_reply huwekapo_return_roots(HUWEKAPO_BUFFERS, uint64_t chosen);

/* Frees the objects that no root reaches, and counts the references of the others anew. The value is the number of blocks
 * freed. Refusals: 1, 2, 11, 13, 14. */
struct huwekapo_reply huwekapo_collect(HUWEKAPO_BUFFERS_BUT_ROOTS_AND_MARKS);

/* Looks at the object at block `at`. The value is its size in blocks, `second` its count. Refusals: 1, 2, 11, 13, 6. */
struct huwekapo_reply huwekapo_look(HUWEKAPO_CONST_BUFFERS, size_t at);

/* Counts the free blocks. The value is their number. Refusals: 1, 2, 11, 13. */
struct huwekapo_reply huwekapo_free_blocks(HUWEKAPO_CONST_BUFFERS);

/* Allocates n blocks of data into root r, as huwekapo_allocate does, and with its replies. The cells are 0. Refusals: 1, 2, 11,
 * 13, 3, 4, 5. */
struct huwekapo_reply huwekapo_allocate_data(HUWEKAPO_BUFFERS, size_t n, size_t r);

/* Writes v into cell j of the data at block `at`, and changes nothing else, `waiting` neither. The value is 0. Refusals: 1, 2,
 * 11, 13, 6, 7, 12. C makes 2^32 + 1 a 1 on the way into v: the caller has to see to it that it fits. */
struct huwekapo_reply huwekapo_write_number(HUWEKAPO_CONST_BUFFERS_BUT_CELLS, size_t at, size_t j, huwekapo_ref v);

/* Reads cell j of the data at block `at`. The value is the number. Refusals: 1, 2, 11, 13, 6, 7, 12. */
struct huwekapo_reply huwekapo_read_number(HUWEKAPO_CONST_BUFFERS, size_t at, size_t j);

/* Opens a collection in small steps: marks and lists every object that a root names, and changes nothing else, `waiting` neither.
 * The value is 0. Refusals: 1, 2, 11, 13, 14 (one is open). */
struct huwekapo_reply huwekapo_open_collection(HUWEKAPO_CONST_BUFFERS_BUT_MARKS);

/* Takes at most `budget` steps of the open collection, any number. A step takes the lowest object off the list, and marks and
 * lists what its cells name that is unmarked; those of data name nothing. Where the list is empty then, and `budget` is not 0,
 * the collection closes: it frees what is unmarked, counts down the other objects that this named, once for each cell, frees
 * those that come to 0 as a store does, and makes `marks` and `list` all 0. The value is the number of steps taken, which is
 * `budget` unless the list ran out; `second` is the number of blocks freed. Refusals: 1, 2, 11, 13, 14 (none is open). */
struct huwekapo_reply huwekapo_step_collection(HUWEKAPO_BUFFERS_BUT_ROOTS, size_t budget);

/* Writes why the object at block `at` is kept, as a sentence, in the front of `output`: `root 1 cell 2 block 4`, with `cell J` once
 * for each link followed from the object that the root names, J the cell's number within its owner; or, where no root reaches the
 * object, `no root reaches block 4`. One space parts the words, numbers carry no leading zeros, and a line end (byte 10) closes. The
 * chain has the fewest links; among those the lowest root, then the lowest cell at the first difference. The cells of data are no
 * links. The value is the length in bytes, the line end among them; later bytes of `output` keep their values, and nothing else is
 * written, `waiting` neither. A refusal writes nothing, not even what would fit. Refusals: 1, 2, 11, 13, 6, 15. */
struct huwekapo_reply huwekapo_reason(HUWEKAPO_CONST_BUFFERS, size_t at, uint8_t *output, size_t output_length);

/* Writes the shape of what the roots reach as a list of numbers in the front of `output`. Objects are numbered from 1 as first met,
 * breadth first: from root 0 upwards, then from the cells of object 1, of object 2 and so on, each from cell 0 upwards. First comes
 * the number of roots, then each root's object number or 0; then, for each object, its size, its D bit and its cells, references as
 * object numbers and data as it is. Two heaps, of any sizes and widths, have equal lists exactly where their reached objects can be
 * paired one to one, keeping roots and their number, sizes, D bits, references and data. The value is how many numbers were written;
 * later ones keep theirs, and nothing else is written, `waiting` neither. A refusal writes nothing. Refusals: 1, 2, 11, 13, 16. */
struct huwekapo_reply huwekapo_shape(HUWEKAPO_CONST_BUFFERS, uint32_t *output, size_t output_length);

/* Copies what the roots reach into a second heap, whose blocks, width and buffers stand behind those of the first: into a heap as
 * format leaves it, whatever stood there. Its blocks and width may differ; its roots are as many. Objects are copied in the order of
 * huwekapo_shape's numbers, each to the lowest free chunk then, with its D bit; references name the copies, and data is as it is.
 * Counts are those that a collection gives at the second heap's width. Both heaps then have one shape; the first is only read, its
 * `waiting` too, and of the second nothing but blocks, width and lengths is looked at. The value is the number of blocks in use in
 * the second heap. A refusal changes no buffer of either. Refusals: 1 (of either heap, or other numbers of roots), 2, 11, 13 and 14
 * (a collection is open) of the first heap, 17. */
struct huwekapo_reply huwekapo_copy(HUWEKAPO_CONST_BUFFERS, HUWEKAPO_SECOND_BUFFERS);

/* What a text says. */
enum huwekapo_reading_kind {
    HUWEKAPO_NO_SENTENCE = 0, /* it is no sentence of huwekapo_reason, or has a number above 4,294,967,295 */
    HUWEKAPO_KEPT = 1,        /* a chain */
    HUWEKAPO_UNREACHED = 2,   /* no root reaches the block */
    HUWEKAPO_NO_ROOM = 3      /* a chain of more links than `cells` has room for */
};

/* A sentence read back: what it says, as huwekapo_reading_kind has it; of a chain the root, and how many links are followed; and the
 * block. What it does not say is 0. */
struct huwekapo_reading {
    size_t kind;
    size_t root;
    size_t links;
    size_t block;
};

/* Reads any text as a sentence of huwekapo_reason, line end included. The cells of a chain, the one followed first in front, go to
 * the front of `cells`; later numbers keep their values, and where there is no chain, or no room for its cells, nothing is written.
 * Each sentence can be read in only one way. */
struct huwekapo_reading huwekapo_read_reason(const uint8_t *text, size_t text_length, uint32_t *cells, size_t cells_length);

/* Formats the heap and runs a list of calls, each an entry of four words, a code and arguments:
 *
 *   0             format
 *   1             check
 *   2, n, r       allocate
 *   3, r, v       store_root
 *   4, at, j, v   store_cell
 *   5             collect
 *   6, at         look
 *   7             free_blocks
 *   8, chosen     return_roots
 *   9, n, r       allocate_data
 *   10, at, j, v  write_number, v at most HUWEKAPO_MAX_NUMBER
 *   11, at, j     read_number
 *   12            open_collection
 *   13, budget    step_collection
 *
 * Words that a call does not name are not looked at. The reply of call i goes to places 3i, 3i + 1 and 3i + 2 of `replies`;
 * words of `replies` behind the last reply keep their content. The value is the number of calls. Refusals, which write
 * nothing: 1, 10, 9, 18. */
struct huwekapo_reply huwekapo_replay(HUWEKAPO_BUFFERS, const uint64_t *calls, size_t calls_length,
                                      uint64_t *replies, size_t replies_length);

/* Makes a list of calls, in replay's form, on the heap as it stands: it is tested once, and no call of the list tests it again. What
 * each call answers and does is what it would by itself, and one that is refused does not end the list. Replies and value are as in
 * replay. Refusals, which write nothing: 1, 2, 11, 13, 10, 9, 18. */
struct huwekapo_reply huwekapo_make_calls(HUWEKAPO_BUFFERS, const uint64_t *calls, size_t calls_length,
                                          uint64_t *replies, size_t replies_length);

/* The figures of a run, in the order of the printed line. */
struct huwekapo_tally {
    uint64_t allocations; /* accepted allocations, those of data too */
    uint64_t blocks;      /* blocks allocated in all */
    uint64_t largest;     /* largest accepted size */
    uint64_t collections; /* full collections, forced or recorded */
    uint64_t peak;        /* most blocks in use after any record */
    uint64_t stuck;       /* how often an object became stuck: a reference brought its count to the capacity */
};

/* Where a run of records stands. A new run is all 0. */
struct huwekapo_run {
    size_t number;  /* 0 while it goes on, else the number that stopped it: 3, 4, 5, 6, 7, 9, 10, 12 or 14 */
    size_t records; /* the records run, which is also the number of the one that stopped it, counting from 0 */
    struct huwekapo_tally tally;
};

/* The reply of a run of records, and where the run stands then. */
struct huwekapo_ran {
    struct huwekapo_reply reply;
    struct huwekapo_run run;
};

/* Runs the records of a history, or of a piece of it, from where `run` stands. For a whole history that is a new run, on a
 * formatted heap; in pieces, what the piece before it answered and left. A piece has any length, but only the last may end
 * inside a record, since that stops the run. huwekapo_record.h has the form of a record, HUWEKAPO_RECORD_LENGTH bytes, and the
 * operations:
 *
 *   1             allocates the size into d; where no chunk is free the run collects and tries once more
 *   2             copies root s to d
 *   3             writes root s into cell c of the object in d
 *   4             reads cell c of the object in s into d
 *   5             clears d
 *   6             collects
 *   7             allocates the size into d as 1 does, as data
 *   8             writes the number in the size field into cell c of the data in d
 *
 * Fields that an operation does not name are 0. The first record that is refused stops the run, with the first that applies
 * of 9, 3 (operations 1 and 7), 4, 5 (operations 1 and 7, after the second try), 6 (an empty root where an object is needed), 7,
 * 12 (operations 3 and 4 on data, 8 on what is not), 14 (operation 6 while a collection in steps is open); and so does 10, behind
 * the last whole record. This is no refusal of the call: the number is in `run`, and the reply's is 0. While a collection in
 * steps is open, no full one can be forced: none is counted, and 5 stops the run.
 *
 * Accepted, the value is 0, and `run` is where the run stands after the bytes. The buffers are those that the calls of the
 * records run leave; the record that stopped the run has changed nothing, save by a collection that it forced. `waiting` is all
 * 0. A run handed in stopped is handed back as it is, and only `waiting` is written.
 *
 * Refusals, which change no buffer and answer a run of all 0: 1, 2, 11, 13, then 19 for a `run` of more than 4,294,967,295
 * records, of more allocations than records, of more blocks than HUWEKAPO_MAX_BLOCKS for each record, of more objects that became
 * stuck than records, or of more collections than records (one more where its number is not 0). */
struct huwekapo_ran huwekapo_run_records(HUWEKAPO_BUFFERS, struct huwekapo_run run, const uint8_t *bytes, size_t bytes_length);

#ifdef __cplusplus
}
#endif

#endif
