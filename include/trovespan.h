/*
 * trovespan.h: reads and writes the container of PDB files (MSF) and binary annotations, with a proved library.
 *
 * Link with libtrovespan.a, which `rt lib` in crates/trovespan makes in its out/. It is code for x86-64 Linux (x86-64-v2). It
 * calls the C library's memmove and memset, which the compiler puts where bytes are copied and zeros are written, and nothing
 * else. It allocates nothing, and keeps no pointer and no state, so any number of threads may call it.
 *
 * Each function returns 0, or the number of a refusal, for any input. Its other results go to the numbers that it is lent,
 * all of which it sets. On a refusal `value` is the refusal's value, and a number that has nothing to say is 0.
 *
 * A store is lent for an answer of many entries. A success writes the first entries and leaves the others. A refusal writes
 * none. If a store is too small, the refusal is TROVESPAN_NO_ROOM and `value` is the number of entries needed, so a store of
 * length 0 asks for the size. A small file can name one page many times, so a stream may have up to 4,294,967,294 bytes
 * whatever the size of its file: compare the size with a limit of your own before you allocate.
 *
 * The caller guarantees, for the whole call:
 *
 * - Memory for as many entries as a length says is there. An input can be read; a store, and a number of the answer, can be
 *   read and written. With length 0 nothing is read or written, and the pointer may be null.
 * - Inputs, stores and numbers are aligned for their type.
 * - A store or number overlaps no other store or number, nor an input.
 * - Lent bytes do not change during the call, except by the call itself. The functions judge the input first and then write
 *   without checking again, so if the input changes in between, they may write past a store. A mapping of a file that another
 *   process writes breaks this, even with MAP_PRIVATE: read the file, or map a private copy, which nobody else writes.
 * - A `bool` is true or false, as the C compiler makes it.
 *
 * tests/crate/c checks these declarations against the library.
 */
#ifndef TROVESPAN_H
#define TROVESPAN_H

#include <stdbool.h>
#include <stddef.h>
#include <stdint.h>

#ifdef __cplusplus
extern "C" {
#endif

/*
 * Why a function refuses. If several conditions hold, the first one met in reading decides. trovespan_write_annotations
 * judges in the order 21, 20, 10, and trovespan_write_container in the order 3, 22, 23, 24, 10.
 */
enum {
    /* Value 0. The file has fewer than 4,096 bytes, or does not begin with the magic of a PDB file. */
    TROVESPAN_UNRECOGNIZED_FILE_FORMAT = 1,
    /* Value 0. The file begins with the magic of the small format. */
    TROVESPAN_UNIMPLEMENTED_FEATURE = 2,
    /* The size. The page size is not a power of two from 0x100 to 0x800000. */
    TROVESPAN_INVALID_PAGE_SIZE = 3,
    /* The page. A page number is 0 or not below the number of pages used. */
    TROVESPAN_PAGE_REFERENCE_OUT_OF_RANGE = 4,
    /* The stream. The stream number is not below the stream count, or the stream is absent. */
    TROVESPAN_STREAM_NOT_FOUND = 5,
    /* Value 0. The file ends too early. */
    TROVESPAN_FILE_ENDS = 6,
    /* Value 0. The header block, the directory or the annotation bytes end too early. */
    TROVESPAN_SHORT_DATA = 7,
    /* Value 0. A compressed number of four bytes begins with 0xe0 or more. */
    TROVESPAN_INVALID_COMPRESSED_ANNOTATION = 8,
    /* The opcode. An annotation's opcode is above 13. */
    TROVESPAN_UNKNOWN_BINARY_ANNOTATION = 9,
    /* The entries needed. The answer is complete, but the store is too small for it. */
    TROVESPAN_NO_ROOM = 10,
    /* The record's index, from 0. A record has an opcode or operand that cannot be written. */
    TROVESPAN_BAD_RECORD = 20,
    /* Value 0. The length of a list of records is no multiple of 3. */
    TROVESPAN_RAGGED_LIST = 21,
    /* Value 0. The sizes of the streams to be written do not sum to the number of their bytes. */
    TROVESPAN_SIZES_DIFFER = 22,
    /* Value 0. One page cannot hold the numbers of the pages of the directory to be written. */
    TROVESPAN_DIRECTORY_TOO_LARGE = 23,
    /* Value 0. The size of the directory to be written, or the number of pages, takes more than 32 bits. */
    TROVESPAN_OVER_32_BITS = 24,
    /* The annotation's index, from 0. An annotation cannot be run in a line program, as trovespan_run_lines says. */
    TROVESPAN_BAD_LINE = 25
};

/* The length of a line record that has none, in the store of trovespan_run_lines. */
#define TROVESPAN_NO_LENGTH INT64_C(-1)

/* How many bytes at the start of the file every function on containers reads first. */
#define TROVESPAN_HEADER_BLOCK 4096

/* The size that stands for an absent stream in the list that trovespan_write_container takes. */
#define TROVESPAN_ABSENT UINT32_C(0xffffffff)

/* Opens a container. `value` is the page size, `used` the number of pages used. Refuses with 1, 2, 3, 4 or 7. */
uint32_t trovespan_open(const uint8_t *file, size_t file_len, uint64_t *value, uint64_t *used);

/* Counts the streams of a container, absent ones included: `value`. Refuses as trovespan_open does, and with 6. */
uint32_t trovespan_stream_count(const uint8_t *file, size_t file_len, uint64_t *value);

/*
 * Maps a stream to slices of the file: only its first `limit` bytes if `limited`, else the whole stream, whatever `limit`
 * is. Writes where each slice begins to `offsets`, and its length to `sizes`. The slices, in order, are the stream. `value`
 * is the number of slices, `total` the number of bytes in all of them.
 *
 * Refuses as trovespan_stream_count does, with 5, and with 10 if the shorter store has fewer entries than there are slices.
 * All page numbers of the stream are checked, whatever the limit. A slice may lie past the end of the file.
 */
uint32_t trovespan_map(const uint8_t *file, size_t file_len, uint32_t stream, bool limited, size_t limit, uint64_t *offsets,
                       size_t offsets_len, uint64_t *sizes, size_t sizes_len, uint64_t *value, uint64_t *total);

/*
 * Copies a stream, or its first `limit` bytes if `limited`, to the front of `out`. `value` is the number of bytes copied.
 *
 * Refuses as trovespan_map does, with 6 also if a slice reaches past the end of the file, and with 10 if `out` is too short.
 */
uint32_t trovespan_extract(const uint8_t *file, size_t file_len, uint32_t stream, bool limited, size_t limit, uint8_t *out,
                           size_t out_len, uint64_t *value);

/*
 * Finds which parts of the file trovespan_map reads after the first TROVESPAN_HEADER_BLOCK bytes, and before it comes to the
 * stream: the slices of the directory if `directory`, else those of the location list, which has the directory's page
 * numbers. Writes where each slice begins to `offsets`, and its length to `sizes`. `value` is the number of slices, `total`
 * the number of bytes in all of them.
 *
 * This is for a caller that has not got the whole file. The slices of the location list are found in the header block alone,
 * those of the directory in the header block and the location list. Two files that agree on the header block and on these
 * slices, and are long enough to hold them, have the same stream count and the same mapping of each stream, whatever their
 * lengths.
 *
 * Refuses as trovespan_open does; if `directory`, also with 6 if the location list is not all in the file, and with 4 for a
 * page number in it; then with 10 if the shorter store has fewer entries than there are slices. A slice may lie past the end
 * of the file; trovespan_stream_count and trovespan_map refuse that.
 */
uint32_t trovespan_needed_to_map(const uint8_t *file, size_t file_len, bool directory, uint64_t *offsets,
                                 size_t offsets_len, uint64_t *sizes, size_t sizes_len, uint64_t *value,
                                 uint64_t *total);

/*
 * Reads the compressed number at the place `at`. `value` is the number, `taken` how many bytes it takes: 1, 2 or 4.
 * `shortest` is 1 if that is the shortest form of the number, else 0: a number below 0x80 fits one byte, one below 0x4000
 * two, any other takes four. `next` is the place after the number, or after what is refused.
 *
 * Refuses with 7, and then `next` is `bytes_len`, or with 8. Then `taken` and `shortest` are 0.
 */
uint32_t trovespan_number(const uint8_t *bytes, size_t bytes_len, size_t at, uint64_t *value, uint64_t *taken,
                          uint64_t *shortest, uint64_t *next);

/*
 * Takes one step over binary annotations, from the place `at`. `value` is the opcode, 1 to 13, or 0 at the end. `first` and
 * `second` are the operands, 0 if there is none. `shortest` is 1 if all numbers of the annotation, its opcode among them,
 * have their shortest form, else 0; it is 0 if there is no annotation. `next` is the place where the next step goes on. After
 * the end, and after 7, that is `bytes_len`.
 *
 * Refuses with 7, 8 or 9.
 */
uint32_t trovespan_step(const uint8_t *bytes, size_t bytes_len, size_t at, uint64_t *value, int64_t *first, int64_t *second,
                        uint64_t *shortest, uint64_t *next);

/*
 * Decodes all annotations to the front of `store`, four entries each: opcode, first operand, second operand or 0, and 1 if
 * all its numbers have their shortest form, else 0. `value` is the number of annotations.
 *
 * Refuses with the first refusal of a step, and then `place` is the place after it; if there is none, with 10 if the store
 * has fewer than four entries for each annotation. Otherwise `place` is 0.
 */
uint32_t trovespan_decode(const uint8_t *bytes, size_t bytes_len, int64_t *store, size_t store_len, uint64_t *value,
                          uint64_t *place);

/*
 * Runs the line program of an inlined function. Writes its line records to the front of `store`, eight entries each:
 * offset, length or TROVESPAN_NO_LENGTH, file, first line, line count, kind, start column, end column. `value` is the
 * number of records. The line and the end column may be below zero; the other entries are at most 4294967295.
 *
 * At the start the code offset, its base, the file, the line and both columns are 0, the line count and the kind 1. The
 * annotations change these in turn, and a record has what they have come to when it is emitted. Its offset is the base
 * plus the code offset.
 *
 *     opcode    what it does
 *     1         sets the code offset
 *     2         sets the base
 *     3         advances the code offset, and emits a record
 *     4         sets the length of the record before it; the code offset stays
 *     5         sets the file
 *     6         advances the line
 *     7         sets the line count
 *     8         sets the kind: 0 for an expression, 1 for a statement; others are kept as they are given
 *     9         sets the start column
 *     10        advances the end column
 *     11        advances the code offset by its first operand and the line by its second, and emits a record
 *     12        advances the code offset by its second operand, and emits a record whose length is its first
 *     13        sets the end column
 *
 * If a record has no length when the next one is emitted, it gets the difference of their offsets. So only the last may
 * have none.
 *
 * 4 does not move the code offset here. LLVM, and the crate pdb where it evaluates line programs, move it by 4's length,
 * and clang counts on that: in most programs that clang writes, records after a 4 begin too early here, by the lengths
 * that 4 set before them. See docs/LINES.md of the repository before you map addresses to lines.
 *
 * Refuses with the first refusal met, annotation after annotation: that of a step, and then `place` is the place after
 * it; or 25, if the offset of an emitted record takes more than 32 bits, or is below that of the record before it while
 * that has no length; if the line or the end column leaves 64 bits; or if 4 comes before any record. If none is met,
 * refuses with 10 if the store has fewer than eight entries for each record. But for the refusal of a step, `place` is
 * 0.
 */
uint32_t trovespan_run_lines(const uint8_t *bytes, size_t bytes_len, int64_t *store, size_t store_len, uint64_t *value,
                             uint64_t *place);

/*
 * Writes annotations as bytes to the front of `out`. `records` has three numbers for each, the first three of the four that
 * trovespan_decode writes: opcode, first operand, second operand or 0. `value` is the number of bytes written. Every number
 * has its shortest form, and no opcode 0 closes the bytes. Decoding them gives the same records, each with a fourth entry 1.
 * A record takes 2 to 9 bytes. The empty list is accepted, and writes nothing.
 *
 *     opcode                first operand              second operand
 *     1 to 5, 7 to 9, 13    0 to 536870911             0
 *     6, 10                 -268435455 to 268435455    0
 *     11                    0 to 15                    -16777215 to 16777215
 *     12                    0 to 536870911             0 to 536870911
 *
 * Refuses with 21 if `records_len` is no multiple of 3; else with 20 for the first record that holds anything else; else with
 * 10 if `out` is too short.
 */
uint32_t trovespan_write_annotations(const int64_t *records, size_t records_len, uint8_t *out, size_t out_len,
                                     uint64_t *value);

/*
 * Writes a whole container to the front of `out`. `sizes` has the size of each stream, or TROVESPAN_ABSENT; `bytes` has the
 * bytes of the streams, one after the other. `value` is the length of the file. Reading a stream of the file gives its bytes;
 * an absent one is refused with 5, and one of size 0 is there and empty.
 *
 * The file consists of whole pages, and has at least 4,096 bytes. Page 0 is the header. Pages whose number modulo `page_size`
 * is 1 or 2 are free-map pages. The others are, in this order, the pages of the streams, of the directory, and the one page
 * that lists the directory's pages. If pages are added to get to 4,096 bytes, these, and no others, are marked as free. What
 * a part leaves of its last page is 0.
 *
 * Refuses with 3 for a page size that is none; else with 22 if the sizes, without those of absent streams, do not sum to
 * `bytes_len`; else with 23 if one page cannot hold the numbers of the directory's pages; else with 24 if the size of the
 * directory or the number of pages takes more than 32 bits; else with 10 if `out` is too short.
 */
uint32_t trovespan_write_container(uint32_t page_size, const uint32_t *sizes, size_t sizes_len, const uint8_t *bytes,
                                   size_t bytes_len, uint8_t *out, size_t out_len, uint64_t *value);

#ifdef __cplusplus
}
#endif

#endif
