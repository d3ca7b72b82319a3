/* Calls each function of include/trovespan.h: an answer, refusals, and what the stores hold afterwards. */
#include <stdio.h>
#include <string.h>

#include "trovespan.h"

static int checks;
static int failed;

#define CHECK(condition) check(condition, #condition, __LINE__)

static void check(bool holds, const char *condition, int line) {
    checks++;
    if (!holds) {
        failed++;
        fprintf(stderr, "line %d: does not hold: %s\n", line, condition);
    }
}

/* Document 01's file F. */
static uint8_t file[6144];

/* What the stores and numbers hold before a call. */
#define UNTOUCHED 0x55

/* Byte `i` of little-endian words. */
static uint8_t byte_of(const uint32_t *words, size_t i) { return (uint8_t)(words[i / 4] >> 8 * (i % 4)); }

static void put(size_t at, const uint32_t *words, size_t count) {
    for (size_t i = 0; i < 4 * count; i++)
        file[at + i] = byte_of(words, i);
}

static bool are(const uint8_t *bytes, const uint32_t *words, size_t count) {
    for (size_t i = 0; i < 4 * count; i++)
        if (bytes[i] != byte_of(words, i))
            return false;
    return true;
}

static void make_f(void) {
    static const uint8_t magic[32] = "Microsoft C/C++ MSF 7.00\r\n\x1a\x44\x53\0\0";
    static const uint32_t header[] = {256, 1, 24, 36, 0, 3};
    static const uint32_t location[] = {4};
    static const uint32_t directory[] = {3, 300, 0xffffffff, 600, 20, 21, 10, 11, 5};
    for (size_t i = 0; i < sizeof file; i++)
        file[i] = (uint8_t)(i / 256 + i);
    memcpy(file, magic, sizeof magic);
    put(32, header, 6);
    put(768, location, 1);
    put(1024, directory, 9);
}

static bool untouched(const void *from, size_t count) {
    const uint8_t *bytes = from;
    for (size_t i = 0; i < count; i++)
        if (bytes[i] != UNTOUCHED)
            return false;
    return true;
}

static void open_and_count(void) {
    uint64_t value = 77, used = 77;
    CHECK(trovespan_open(file, sizeof file, &value, &used) == 0 && value == 256 && used == 24);
    CHECK(trovespan_open(file, 4095, &value, &used) == TROVESPAN_UNRECOGNIZED_FILE_FORMAT && value == 0 && used == 0);
    CHECK(trovespan_stream_count(file, sizeof file, &value) == 0 && value == 3);
    CHECK(trovespan_stream_count(NULL, 0, &value) == TROVESPAN_UNRECOGNIZED_FILE_FORMAT && value == 0);
    file[34] = 1; /* the page size is 256 + 65,536 */
    CHECK(trovespan_open(file, sizeof file, &value, &used) == TROVESPAN_INVALID_PAGE_SIZE && value == 65792 && used == 0);
    make_f();
    file[52] = 25; /* a page of the location list */
    CHECK(trovespan_open(file, sizeof file, &value, &used) == TROVESPAN_PAGE_REFERENCE_OUT_OF_RANGE && value == 25);
    memcpy(file, "Microsoft C/C++ program database 2.00\r\n\x1a\x4a\x47", 42);
    CHECK(trovespan_open(file, sizeof file, &value, &used) == TROVESPAN_UNIMPLEMENTED_FEATURE && value == 0 && used == 0);
    make_f();
}

static void map(void) {
    uint64_t offsets[3], sizes[3], value = 77, total = 77;
    memset(offsets, UNTOUCHED, sizeof offsets);
    memset(sizes, UNTOUCHED, sizeof sizes);
    CHECK(trovespan_map(file, sizeof file, 2, false, 0, offsets, 3, sizes, 1, &value, &total) == TROVESPAN_NO_ROOM);
    CHECK(value == 2 && total == 0);
    CHECK(trovespan_map(file, sizeof file, 1, false, 0, offsets, 3, sizes, 3, &value, &total) == TROVESPAN_STREAM_NOT_FOUND);
    CHECK(value == 1 && total == 0);
    CHECK(untouched(offsets, sizeof offsets) && untouched(sizes, sizeof sizes));
    CHECK(trovespan_map(file, sizeof file, 2, false, 0, offsets, 3, sizes, 2, &value, &total) == 0);
    CHECK(value == 2 && total == 600);
    CHECK(offsets[0] == 2560 && sizes[0] == 512 && offsets[1] == 1280 && sizes[1] == 88);
    CHECK(untouched(offsets + 2, 8) && untouched(sizes + 2, 8));
    CHECK(trovespan_map(file, sizeof file, 2, true, 513, offsets, 3, sizes, 3, &value, &total) == 0);
    CHECK(value == 2 && total == 513 && sizes[1] == 1);
}

static void needed_to_map(void) {
    uint64_t offsets[2], sizes[2], value = 77, total = 77;
    memset(offsets, UNTOUCHED, sizeof offsets);
    memset(sizes, UNTOUCHED, sizeof sizes);
    CHECK(trovespan_needed_to_map(file, 4095, false, offsets, 2, sizes, 2, &value, &total) ==
          TROVESPAN_UNRECOGNIZED_FILE_FORMAT);
    CHECK(value == 0 && total == 0);
    file[768] = 24; /* the page of the directory */
    CHECK(trovespan_needed_to_map(file, sizeof file, true, offsets, 2, sizes, 2, &value, &total) ==
          TROVESPAN_PAGE_REFERENCE_OUT_OF_RANGE);
    CHECK(value == 24 && total == 0);
    file[768] = 4;
    CHECK(trovespan_needed_to_map(file, sizeof file, true, offsets, 2, NULL, 0, &value, &total) == TROVESPAN_NO_ROOM);
    CHECK(value == 1 && total == 0);
    CHECK(untouched(offsets, sizeof offsets) && untouched(sizes, sizeof sizes));
    CHECK(trovespan_needed_to_map(file, TROVESPAN_HEADER_BLOCK, false, offsets, 2, sizes, 2, &value, &total) == 0);
    CHECK(value == 1 && total == 4 && offsets[0] == 768 && sizes[0] == 4);
    CHECK(trovespan_needed_to_map(file, TROVESPAN_HEADER_BLOCK, true, offsets, 2, sizes, 1, &value, &total) == 0);
    CHECK(value == 1 && total == 36 && offsets[0] == 1024 && sizes[0] == 36);
    CHECK(untouched(offsets + 1, 8) && untouched(sizes + 1, 8));
}

static void extract(void) {
    uint8_t out[601];
    uint64_t value = 77;
    memset(out, UNTOUCHED, sizeof out);
    CHECK(trovespan_extract(file, sizeof file, 2, false, 0, NULL, 0, &value) == TROVESPAN_NO_ROOM && value == 600);
    CHECK(trovespan_extract(file, sizeof file, 2, false, 0, out, 599, &value) == TROVESPAN_NO_ROOM && value == 600);
    CHECK(trovespan_extract(file, sizeof file, 0, false, 0, out, 601, &value) == 0 && value == 300);
    CHECK(memcmp(out, file + 5120, 300) == 0 && untouched(out + 300, 301));
    CHECK(trovespan_extract(file, sizeof file, 2, true, 3, out, 601, &value) == 0 && value == 3);
    CHECK(memcmp(out, file + 2560, 3) == 0 && memcmp(out + 3, file + 5123, 297) == 0 && untouched(out + 300, 301));
    CHECK(trovespan_extract(file, sizeof file, 2, false, 3, out, 601, &value) == 0 && value == 600);
    CHECK(memcmp(out, file + 2560, 512) == 0 && memcmp(out + 512, file + 1280, 88) == 0 && untouched(out + 600, 1));
    CHECK(trovespan_extract(file, 5400, 0, false, 0, out, 601, &value) == TROVESPAN_FILE_ENDS && value == 0);
}

static void numbers(void) {
    static const uint8_t bytes[] = {0x7f, 0x80, 0x7f, 0x80, 0x80, 0xc0, 0, 0x3f, 0xff, 0xc0, 0, 0x40, 0};
    static const struct {
        size_t at;
        uint64_t value, taken, shortest;
    } wanted[] = {{0, 127, 1, 1}, {1, 127, 2, 0}, {3, 128, 2, 1}, {5, 16383, 4, 0}, {9, 16384, 4, 1}};
    static const uint8_t wrong[] = {0xe0, 0, 0, 0};
    uint64_t value, taken, shortest, next;
    for (size_t i = 0; i < sizeof wanted / sizeof wanted[0]; i++) {
        value = taken = shortest = next = 77;
        CHECK(trovespan_number(bytes, sizeof bytes, wanted[i].at, &value, &taken, &shortest, &next) == 0);
        CHECK(value == wanted[i].value && taken == wanted[i].taken && shortest == wanted[i].shortest);
        CHECK(next == wanted[i].at + wanted[i].taken);
    }
    value = taken = shortest = next = 77;
    CHECK(trovespan_number(bytes, 2, 1, &value, &taken, &shortest, &next) == TROVESPAN_SHORT_DATA);
    CHECK(value == 0 && taken == 0 && shortest == 0 && next == 2);
    value = taken = shortest = next = 77;
    CHECK(trovespan_number(wrong, 4, 0, &value, &taken, &shortest, &next) == TROVESPAN_INVALID_COMPRESSED_ANNOTATION);
    CHECK(value == 0 && taken == 0 && shortest == 0 && next == 4);
}

static void annotations(void) {
    static const uint8_t bytes[] = {3, 5, 11, 0x72, 6, 15, 12, 0x81, 2, 0xc0, 1, 0, 0};
    static const uint8_t wrong[] = {3, 5, 14, 0xe0, 0, 0, 0};
    uint64_t value = 77, shortest = 77, next = 77;
    int64_t first = 77, second = 77;
    CHECK(trovespan_step(bytes, sizeof bytes, 2, &value, &first, &second, &shortest, &next) == 0);
    CHECK(value == 11 && first == 2 && second == -3 && shortest == 1 && next == 4);
    CHECK(trovespan_step(bytes, sizeof bytes, SIZE_MAX, &value, &first, &second, &shortest, &next) == 0);
    CHECK(value == 0 && first == 0 && second == 0 && shortest == 0 && next == 13);
    CHECK(trovespan_step(bytes, sizeof bytes, 6, &value, &first, &second, &shortest, &next) == 0);
    CHECK(value == 12 && first == 0x102 && second == 0x10000 && shortest == 1 && next == 13);
    CHECK(trovespan_step(wrong, sizeof wrong, 2, &value, &first, &second, &shortest, &next) ==
          TROVESPAN_UNKNOWN_BINARY_ANNOTATION);
    CHECK(value == 14 && first == 0 && second == 0 && shortest == 0 && next == 3);
}

/* Annotations with one number that is not in its shortest form: the opcode, the first operand, the second. */
static void long_forms(void) {
    static const uint8_t bytes[3][4] = {{0x80, 12, 5, 7}, {12, 0x80, 5, 7}, {12, 5, 0x80, 7}};
    uint64_t value = 77, shortest = 77, next = 77;
    int64_t first = 77, second = 77;
    for (size_t i = 0; i < 3; i++) {
        CHECK(trovespan_step(bytes[i], 4, 0, &value, &first, &second, &shortest, &next) == 0);
        CHECK(value == 12 && first == 5 && second == 7 && shortest == 0 && next == 4);
    }
}

static void decode(void) {
    static const uint8_t bytes[] = {3, 5, 11, 0x80, 0x72};
    static const uint8_t wrong[] = {3, 5, 14};
    static const int64_t wanted[] = {3, 5, 0, 1, 11, 2, -3, 0};
    int64_t store[9];
    uint64_t value = 77, place = 77;
    memset(store, UNTOUCHED, sizeof store);
    CHECK(trovespan_decode(wrong, sizeof wrong, store, 9, &value, &place) == TROVESPAN_UNKNOWN_BINARY_ANNOTATION);
    CHECK(value == 14 && place == 3);
    CHECK(trovespan_decode(bytes, sizeof bytes, store, 7, &value, &place) == TROVESPAN_NO_ROOM && value == 8 && place == 0);
    CHECK(untouched(store, sizeof store));
    CHECK(trovespan_decode(bytes, sizeof bytes, store, 9, &value, &place) == 0 && value == 2 && place == 0);
    CHECK(memcmp(store, wanted, sizeof wanted) == 0 && untouched(store + 8, 8));
}

/* A program with each opcode, and the room for its records. Then one whose offset falls where no length is due. */
static void run_lines(void) {
    static const uint8_t bytes[] = {1, 16, 2, 100, 5, 24, 6, 15, 7, 2, 8, 0, 9, 4, 13, 9, 10, 22, 3, 5,
                                    11, 0x72, 12, 6, 7, 3, 1, 4, 3, 0, 14};
    static const int64_t wanted[] = {121, 2, 24, -7, 2, 0, 4, 20, 123, 7, 24, -10, 2, 0, 4, 20,
                                     130, 6, 24, -10, 2, 0, 4, 20, 131, 3, 24, -10, 2, 0, 4, 20};
    static const uint8_t lower[] = {1, 100, 12, 5, 0, 1, 0, 3, 0};
    static const int64_t wanted_lower[] = {100, 5, 0, 0, 1, 1, 0, 0, 0, TROVESPAN_NO_LENGTH, 0, 0, 1, 1, 0, 0};
    int64_t store[33];
    uint64_t value = 77, place = 77;
    memset(store, UNTOUCHED, sizeof store);
    CHECK(trovespan_run_lines(bytes, sizeof bytes, store, 31, &value, &place) == TROVESPAN_NO_ROOM);
    CHECK(value == 32 && place == 0);
    place = 77;
    CHECK(trovespan_run_lines(bytes, sizeof bytes, NULL, 0, &value, &place) == TROVESPAN_NO_ROOM);
    CHECK(value == 32 && place == 0);
    place = 77;
    CHECK(trovespan_run_lines(NULL, 0, store, 33, &value, &place) == 0 && value == 0 && place == 0);
    CHECK(untouched(store, sizeof store));
    place = 77;
    CHECK(trovespan_run_lines(bytes, sizeof bytes, store, 33, &value, &place) == 0 && value == 4 && place == 0);
    CHECK(memcmp(store, wanted, sizeof wanted) == 0 && untouched(store + 32, 8));
    memset(store, UNTOUCHED, sizeof store);
    CHECK(trovespan_run_lines(lower, sizeof lower, store, 16, &value, &place) == 0 && value == 2 && place == 0);
    CHECK(memcmp(store, wanted_lower, sizeof wanted_lower) == 0 && untouched(store + 16, 17 * 8));
}

/* Programs that are refused, each into a store that has room for its records, and into none. */
static void refused_lines(void) {
    static const struct {
        uint8_t bytes[9];
        size_t length;
        uint32_t why;
        uint64_t value, place;
    } wanted[] = {
        {{3, 5, 12, 1}, 4, TROVESPAN_SHORT_DATA, 0, 4},
        {{3, 5, 3, 0xe0, 0, 0, 0, 3, 5}, 9, TROVESPAN_INVALID_COMPRESSED_ANNOTATION, 0, 7},
        {{3, 5, 14, 4, 4}, 5, TROVESPAN_UNKNOWN_BINARY_ANNOTATION, 14, 3},
        {{14, 4, 4}, 3, TROVESPAN_UNKNOWN_BINARY_ANNOTATION, 14, 1},
        {{5, 1, 4, 4, 14}, 5, TROVESPAN_BAD_LINE, 1, 0}, /* a length before any record */
        {{1, 8, 3, 0, 1, 0, 3, 7}, 8, TROVESPAN_BAD_LINE, 3, 0}, /* a falling offset */
    };
    int64_t store[16];
    uint64_t value, place;
    memset(store, UNTOUCHED, sizeof store);
    for (size_t i = 0; i < sizeof wanted / sizeof wanted[0]; i++) {
        value = place = 77;
        CHECK(trovespan_run_lines(wanted[i].bytes, wanted[i].length, store, 16, &value, &place) == wanted[i].why);
        CHECK(value == wanted[i].value && place == wanted[i].place);
        value = place = 77;
        CHECK(trovespan_run_lines(wanted[i].bytes, wanted[i].length, NULL, 0, &value, &place) == wanted[i].why);
        CHECK(value == wanted[i].value && place == wanted[i].place);
    }
    CHECK(untouched(store, sizeof store));
}

/* Offsets up to the largest: eight advances of 2^29 - 1, then 7 bytes more. */
static void largest_offset(void) {
    static const uint8_t advance[] = {3, 0xdf, 0xff, 0xff, 0xff};
    uint8_t bytes[8 * sizeof advance + 2];
    int64_t store[72];
    uint64_t value = 77, place = 77;
    for (size_t i = 0; i < 8; i++)
        memcpy(bytes + i * sizeof advance, advance, sizeof advance);
    bytes[40] = 3;
    bytes[41] = 8;
    memset(store, UNTOUCHED, sizeof store);
    CHECK(trovespan_run_lines(bytes, sizeof bytes, store, 72, &value, &place) == TROVESPAN_BAD_LINE);
    CHECK(value == 8 && place == 0 && untouched(store, sizeof store));
    bytes[41] = 7;
    CHECK(trovespan_run_lines(bytes, sizeof bytes, store, 72, &value, &place) == 0 && value == 9 && place == 0);
    CHECK(store[56] == 0xfffffff8 && store[57] == 7 && store[64] == 0xffffffff && store[65] == TROVESPAN_NO_LENGTH);
}

static void write_annotations(void) {
    static const int64_t records[] = {3, 5, 0, 11, 2, -3, 6, -7, 0, 12, 0x102, 0x10000};
    static const int64_t decoded[] = {3, 5, 0, 1, 11, 2, -3, 1, 6, -7, 0, 1, 12, 0x102, 0x10000, 1};
    static const int64_t wrong[] = {3, 5, 0, 3, 5, 1, 14, 0, 0};
    static const uint8_t wanted[] = {3, 5, 11, 0x72, 6, 15, 12, 0x81, 2, 0xc0, 1, 0, 0};
    uint8_t out[14];
    int64_t store[16];
    uint64_t value = 77, place = 77;
    memset(out, UNTOUCHED, sizeof out);
    CHECK(trovespan_write_annotations(wrong, 8, out, 14, &value) == TROVESPAN_RAGGED_LIST && value == 0);
    CHECK(trovespan_write_annotations(wrong, 9, out, 14, &value) == TROVESPAN_BAD_RECORD && value == 1);
    CHECK(trovespan_write_annotations(records, 12, out, 12, &value) == TROVESPAN_NO_ROOM && value == 13);
    CHECK(trovespan_write_annotations(records, 12, NULL, 0, &value) == TROVESPAN_NO_ROOM && value == 13);
    CHECK(trovespan_write_annotations(NULL, 0, out, 14, &value) == 0 && value == 0);
    CHECK(untouched(out, sizeof out));
    CHECK(trovespan_write_annotations(records, 12, out, 14, &value) == 0 && value == 13);
    CHECK(memcmp(out, wanted, sizeof wanted) == 0 && untouched(out + 13, 1));
    CHECK(trovespan_decode(out, 13, store, 16, &value, &place) == 0 && value == 4);
    CHECK(memcmp(store, decoded, sizeof decoded) == 0);
}

static void write_container(void) {
    static const uint32_t sizes[] = {5, TROVESPAN_ABSENT, 0, 6};
    static const uint32_t none[4096] = {0};
    static const uint8_t bytes[] = "hello, you!";
    static const uint32_t header[] = {256, 1, 16, 28, 0, 6};
    static const uint32_t directory[] = {4, 5, TROVESPAN_ABSENT, 0, 6, 3, 4};
    uint8_t out[4097], stream[6];
    uint64_t value = 77, used = 77;
    memset(out, UNTOUCHED, sizeof out);
    CHECK(trovespan_write_container(384, sizes, 4, bytes, 10, out, 4097, &value) == TROVESPAN_INVALID_PAGE_SIZE);
    CHECK(value == 384);
    CHECK(trovespan_write_container(256, sizes, 4, bytes, 10, out, 4097, &value) == TROVESPAN_SIZES_DIFFER && value == 0);
    CHECK(trovespan_write_container(256, sizes, 4, bytes, 12, out, 4097, &value) == TROVESPAN_SIZES_DIFFER && value == 0);
    CHECK(trovespan_write_container(256, none, 4096, NULL, 0, out, 0, &value) == TROVESPAN_DIRECTORY_TOO_LARGE && value == 0);
    CHECK(trovespan_write_container(256, sizes, 4, bytes, 11, out, 4095, &value) == TROVESPAN_NO_ROOM && value == 4096);
    CHECK(trovespan_write_container(4096, NULL, 0, NULL, 0, NULL, 0, &value) == TROVESPAN_NO_ROOM && value == 20480);
    CHECK(untouched(out, sizeof out));
    CHECK(trovespan_write_container(256, sizes, 4, bytes, 11, out, 4097, &value) == 0 && value == 4096);
    CHECK(memcmp(out, file, 32) == 0 && are(out + 32, header, 6) && out[256] == 0x80 && out[257] == 0xff);
    CHECK(memcmp(out + 768, bytes, 5) == 0 && memcmp(out + 1024, bytes + 5, 6) == 0 && are(out + 1280, directory, 7));
    CHECK(untouched(out + 4096, 1));
    CHECK(trovespan_open(out, 4096, &value, &used) == 0 && value == 256 && used == 16);
    CHECK(trovespan_stream_count(out, 4096, &value) == 0 && value == 4);
    CHECK(trovespan_extract(out, 4096, 3, false, 0, stream, 6, &value) == 0 && value == 6);
    CHECK(memcmp(stream, bytes + 5, 6) == 0);
    CHECK(trovespan_extract(out, 4096, 1, false, 0, stream, 6, &value) == TROVESPAN_STREAM_NOT_FOUND && value == 1);
    CHECK(trovespan_extract(out, 4096, 2, false, 0, NULL, 0, &value) == 0 && value == 0);
}

int main(void) {
    make_f();
    open_and_count();
    map();
    extract();
    needed_to_map();
    numbers();
    annotations();
    long_forms();
    decode();
    run_lines();
    refused_lines();
    largest_offset();
    write_annotations();
    write_container();
    printf("%d\n", checks);
    return failed > 0;
}
