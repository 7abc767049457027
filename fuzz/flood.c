/* usage: flood SEED COUNT FILE..
 *
 * Changes streams at random and compares the results of the calls of arrowflow.h for each: check with a reader
 * that gets other pieces, whose columns are read, with the messages, the schema and the rows; and what copy
 * writes with what was read, with the copy of the copy, and with its output in buffers that are too small. At
 * the first disagreement it exits with status 1 and writes the stream to a file `flood.NUMBER.arrows`. It is
 * killed by a signal if the calls on one stream take more than 20 seconds of a processor. Prints how many
 * streams there were of each kind, also if it is interrupted.
 */
#include "arrowflow.h"

#include <signal.h>
#include <stdio.h>
#include <stdlib.h>
#include <string.h>
#include <sys/time.h>

enum { MOST = 1 << 16, ROOM = 1 << 22, KINDS = 64 };

static uint64_t state;

/* A random number below `most` (splitmix64). */
static uint64_t below(uint64_t most) {
    uint64_t z = state += UINT64_C(0x9e3779b97f4a7c15);
    z = (z ^ (z >> 30)) * UINT64_C(0xbf58476d1ce4e5b9);
    z = (z ^ (z >> 27)) * UINT64_C(0x94d049bb133111eb);
    return (z ^ (z >> 31)) % most;
}

typedef struct {
    uint8_t *bytes;
    size_t len;
} stream;

static stream *streams;
static size_t count;
static uint8_t changed[2 * MOST];
static size_t len;

/* ---- changes ---- */

/* Writes a number of 1, 2, 4 or 8 bytes somewhere, mostly one by which lengths and offsets are typically wrong. */
static void put_number(void) {
    static const int64_t numbers[] = {0, 1, 2, 3, 4, 7, 8, 9, 16, 63, 64, 65, 127, 128, 255, 256, 1024, 65535, 65536,
                                      INT32_MAX, INT32_MIN, INT64_MAX, INT64_MIN, -1, -2, -8};
    size_t width = (size_t)1 << below(4);
    if (len < width) return;
    size_t at = below(len - width + 1);
    int64_t number = numbers[below(sizeof numbers / sizeof *numbers)];
    if (below(2)) at -= at % width;
    memcpy(changed + at, &number, width);
}

/* Adds a small number to the number of 4 bytes at some offset. */
static void add_to_number(void) {
    if (len < 4) return;
    size_t at = below(len - 3) & ~(size_t)3;
    int32_t number;
    memcpy(&number, changed + at, 4);
    number = (int32_t)((uint32_t)number + (uint32_t)below(33) - 16);
    memcpy(changed + at, &number, 4);
}

/* Removes a part, or inserts a part of another stream there. */
static void splice(void) {
    const stream *other = &streams[below(count)];
    size_t at = below(len + 1), out = below(2) ? below(len - at + 1) : 0, in = 0, from = 0;
    if (other->len && below(2)) {
        from = below(other->len);
        in = below(other->len - from + 1);
        if (below(2)) from -= from % 8, in -= in % 8;
    }
    if (below(2)) at -= at % 8, out -= out % 8;
    if (len - out + in > MOST) return;
    memmove(changed + at + in, changed + at + out, len - at - out);
    memcpy(changed + at, other->bytes + from, in);
    len = len - out + in;
}

static void change(void) {
    const stream *first = &streams[below(count)];
    len = first->len;
    memcpy(changed, first->bytes, len);
    for (uint64_t changes = below(5); changes > 0; changes--) {
        switch (below(6)) {
        case 0: if (len) changed[below(len)] ^= (uint8_t)(1u << below(8)); break;
        case 1: if (len) changed[below(len)] = (uint8_t)below(256); break;
        case 2: put_number(); break;
        case 3: add_to_number(); break;
        case 4: splice(); break;
        default: if (below(4) == 0) len = below(len + 1); break;
        }
    }
}

/* ---- comparisons ---- */

static void fail(const char *why) {
    char name[64];
    snprintf(name, sizeof name, "flood.%llu.arrows", (unsigned long long)state);
    FILE *file = fopen(name, "wb");
    if (file != NULL) {
        fwrite(changed, 1, len, file);
        fclose(file);
    }
    fprintf(stderr, "%s: %s\n", name, why);
    exit(1);
}

#define WANT(fact) \
    do { \
        if (!(fact)) fail(#fact); \
    } while (0)

static uint8_t copies[2][ROOM];

/* Reads each byte of a buffer. */
static bool is_read(const uint8_t *bytes, size_t size) {
    uint64_t sum = 0;
    for (size_t i = 0; i < size; i++) sum += bytes[i];
    return sum <= 255 * size;
}

/* Reads the buffers of a column, and of what a random path leads to below it; each must have the bytes that its
 * slots take. */
static void look_into(arrowflow_reader *reader, size_t column, uint64_t rows) {
    size_t path[40] = {column};
    for (size_t depth = 1; depth < 40; depth++) {
        arrowflow_column of = arrowflow_reader_column(reader, path, depth);
        bool has_offsets = of.layout == ARROWFLOW_LAYOUT_BINARIES || of.layout == ARROWFLOW_LAYOUT_TEXTS || of.layout == ARROWFLOW_LAYOUT_LISTS;
        uint64_t bits = of.layout == ARROWFLOW_LAYOUT_BITS ? of.slots : has_offsets ? 0 : of.slots * of.width * 8;
        uint64_t below_it = of.children > 0 ? of.children : of.entries;
        WANT(of.layout != ARROWFLOW_LAYOUT_NONE && (depth > 1 ? of.slot < of.slots || of.slot == 0 : of.slots == rows));
        WANT(of.validity_len == 0 || of.slots <= 8 * of.validity_len);
        WANT(bits <= 8 * of.values_len);
        WANT(!has_offsets || of.slots + of.offsets_len == 0 || of.width * (of.slots + 1) <= of.offsets_len);
        WANT(is_read(of.validity, of.validity_len) && is_read(of.offsets, of.offsets_len) && is_read(of.values, of.values_len));
        if (below_it == 0) return;
        path[depth] = below(below_it);
    }
}

/* What a reader returns for pieces of random lengths, and whether cells and columns can be requested. */
static arrowflow_report in_pieces(void) {
    arrowflow_reader *reader = NULL;
    arrowflow_report found = {0, false, 0, 0, 0};
    arrowflow_step step = {0, 0, 0, 0, 0, 0, 0};
    uint64_t most = (uint64_t)1 << below(12);
    WANT(arrowflow_reader_open(arrowflow_standard_limits(), &reader) == ARROWFLOW_KIND_FINE);
    size_t at = 0;
    while (at < len && step.kind == ARROWFLOW_KIND_FINE && !found.ended) {
        size_t given = 1 + below(most);
        step = arrowflow_reader_read(reader, changed + at, len - at < given ? len - at : given);
        WANT(step.taken <= given);
        at += step.taken;
        found.ended = step.message == ARROWFLOW_MESSAGE_END;
        if (step.message == ARROWFLOW_MESSAGE_BATCH) {
            uint8_t text[4];
            found.batches++;
            found.rows += step.rows;
            bool has = step.columns > 0 && step.rows > 0;
            size_t column = has ? below(step.columns) : 0, row = has ? below(step.rows) : 0;
            arrowflow_cell cell = arrowflow_reader_cell(reader, column, row, text, sizeof text);
            WANT((cell.type == ARROWFLOW_CELL_NONE) == !has);
            WANT(arrowflow_reader_cell(reader, column, step.rows, text, 0).type == ARROWFLOW_CELL_NONE);
            if (step.columns > 0) look_into(reader, column, step.rows);
        }
    }
    arrowflow_fault end = arrowflow_reader_end(reader);
    WANT(step.kind == ARROWFLOW_KIND_FINE || (step.kind == end.kind && step.place == end.place));
    arrowflow_reader_close(reader);
    found.kind = end.kind;
    found.place = end.kind == ARROWFLOW_KIND_FINE ? at : end.place;
    return found;
}

static bool is_same(arrowflow_report a, arrowflow_report b) {
    return a.kind == b.kind && a.ended == b.ended && a.place == b.place && a.batches == b.batches && a.rows == b.rows;
}

/* Checks what is written for the stream, and what is read of that. */
static void compare_copy(arrowflow_report report) {
    arrowflow_limits limits = arrowflow_standard_limits();
    arrowflow_options options = {below(2), below(2)};
    arrowflow_text told = arrowflow_copy(changed, len, limits, options, copies[0], ROOM);
    if (told.kind >= ARROWFLOW_KIND_NO_HANDLE) return;
    WANT(told.kind == report.kind);
    WANT(told.kind == ARROWFLOW_KIND_FINE || told.place == report.place);
    WANT(told.size <= ROOM);
    size_t small = below(told.size + 1);
    copies[1][small] = 77;
    arrowflow_text again = arrowflow_copy(changed, len, limits, options, copies[1], small);
    WANT(again.kind == told.kind && again.place == told.place && again.size == told.size);
    WANT(memcmp(copies[0], copies[1], small) == 0 && copies[1][small] == 77);
    arrowflow_report read = arrowflow_check(copies[0], told.size, limits);
    WANT(read.kind == (told.size > 0 ? ARROWFLOW_KIND_FINE : ARROWFLOW_KIND_NO_SCHEMA));
    WANT(read.batches == report.batches && read.rows == report.rows && read.place == told.size);
    WANT(read.ended == (told.kind == ARROWFLOW_KIND_FINE));
    if (told.kind == ARROWFLOW_KIND_FINE) {
        again = arrowflow_copy(copies[0], told.size, limits, options, copies[1], ROOM);
        WANT(again.kind == ARROWFLOW_KIND_FINE && again.size == told.size);
        WANT(memcmp(copies[0], copies[1], told.size) == 0);
    }
}

/* Checks the texts for the stream. */
static void compare_texts(arrowflow_report report) {
    arrowflow_limits limits = arrowflow_standard_limits();
    arrowflow_text told = arrowflow_messages(changed, len, limits, copies[0], ROOM);
    WANT(told.kind == report.kind && (told.kind == ARROWFLOW_KIND_FINE || told.place == report.place));
    arrowflow_text schema = arrowflow_schema(changed, len, limits, copies[1], ROOM);
    WANT((schema.kind == ARROWFLOW_KIND_FINE) == (told.size > 0));
    WANT(schema.kind == ARROWFLOW_KIND_FINE || (schema.kind == report.kind && schema.place == report.place));
    /* a batch without columns, or of nulls, has many rows in few bytes */
    if (report.rows > 100000) return;
    arrowflow_text rows = arrowflow_show(changed, len, limits, copies[1], ROOM);
    WANT(rows.kind == told.kind && rows.place == told.place);
}

static uint64_t kinds[KINDS], alike;

static void compare(void) {
    const struct itimerval patience = {{0, 0}, {20, 0}};
    setitimer(ITIMER_PROF, &patience, NULL);
    arrowflow_report report = arrowflow_check(changed, len, arrowflow_standard_limits());
    WANT(is_same(report, in_pieces()));
    WANT(report.kind != ARROWFLOW_KIND_MEMORY && report.kind < KINDS);
    compare_copy(report);
    if (below(4) == 0) compare_texts(report);
    kinds[report.kind]++;
    alike++;
}

/* Reads a stream. One that is longer than the buffer is left out. */
static bool read_stream(const char *name, stream *into) {
    FILE *file = fopen(name, "rb");
    into->bytes = file == NULL ? NULL : malloc(MOST);
    into->len = into->bytes == NULL ? 0 : fread(into->bytes, 1, MOST, file);
    if (file != NULL) fclose(file);
    if (into->len < MOST && into->bytes != NULL) return true;
    free(into->bytes);
    return false;
}

static volatile sig_atomic_t interrupted = 0;

static void interrupt(int number) {
    (void)number;
    interrupted = 1;
}

int main(int argc, char **argv) {
    if (argc < 4) {
        fprintf(stderr, "usage: flood SEED COUNT FILE..\n");
        return 2;
    }
    state = strtoull(argv[1], NULL, 10);
    uint64_t wanted = strtoull(argv[2], NULL, 10);
    streams = calloc((size_t)argc, sizeof *streams);
    for (int i = 3; i < argc && streams != NULL; i++)
        if (read_stream(argv[i], &streams[count])) count++;
    if (count == 0) return 2;
    signal(SIGINT, interrupt);
    while (alike < wanted && !interrupted) {
        change();
        compare();
    }
    for (int kind = 0; kind < KINDS; kind++)
        if (kinds[kind] > 0) printf("%s %llu\n", arrowflow_kind_name((uint32_t)kind), (unsigned long long)kinds[kind]);
    return 0;
}
