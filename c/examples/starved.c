/* usage: starved FILE
 *
 * Makes each call on a stream again and again, and makes one allocation fail each time: the first one, the
 * second one, and so on. The call returns ARROWFLOW_KIND_MEMORY, or what it returns with enough memory. A
 * reader continues if the same call is made again, and has its batch until then. So does an ArrowArrayStream,
 * whose schemas and arrays are in the end those that it has with enough memory. A copier is over, and the bytes
 * that can still be taken are a prefix of the copy. No memory leaks from a call, from a reader or a copier that
 * was closed at any point, or from a stream and its arrays. It is linked with
 * -Wl,--wrap=malloc,--wrap=calloc,--wrap=realloc,--wrap=free.
 */
#include "arrowflow_stream.h"

#include <errno.h>
#include <stdio.h>
#include <stdlib.h>
#include <string.h>

void *__real_malloc(size_t size);
void *__real_calloc(size_t count, size_t size);
void *__real_realloc(void *at, size_t size);
void __real_free(void *at);
void *__wrap_malloc(size_t size);
void *__wrap_calloc(size_t count, size_t size);
void *__wrap_realloc(void *at, size_t size);
void __wrap_free(void *at);

/* How many allocations succeed before the one that fails; if it is below 0 none fails. */
static long before = -1;
static long refused = 0;
/* How many readers kept a batch when an allocation failed. */
static long kept = 0;

static bool is_refused(void) {
    if (before < 0 || before-- > 0) return false;
    refused++;
    return true;
}

/* How many blocks were allocated and not freed. */
static long blocks = 0;

void *__wrap_malloc(size_t size) {
    void *at = is_refused() ? NULL : __real_malloc(size);
    blocks += at != NULL;
    return at;
}

void *__wrap_calloc(size_t count, size_t size) {
    void *at = is_refused() ? NULL : __real_calloc(count, size);
    blocks += at != NULL;
    return at;
}

void *__wrap_realloc(void *at, size_t size) {
    void *moved = is_refused() ? NULL : __real_realloc(at, size);
    blocks += at == NULL && moved != NULL;
    return moved;
}

void __wrap_free(void *at) {
    blocks -= at != NULL;
    __real_free(at);
}

enum { MOST = 1 << 16 };

static uint8_t bytes[MOST], expected[MOST], found[MOST];
static size_t len;

static void expect(bool fact, const char *what) {
    if (fact) return;
    fprintf(stderr, "not so: %s, with allocation %ld refused\n", what, refused);
    exit(1);
}

static bool is_same_report(arrowflow_report a, arrowflow_report b) {
    return a.kind == b.kind && a.ended == b.ended && a.place == b.place && a.batches == b.batches && a.rows == b.rows;
}

static void starve_check(arrowflow_report whole) {
    for (long number = 0;; number++) {
        before = number;
        arrowflow_report report = arrowflow_check(bytes, len, arrowflow_standard_limits());
        expect(blocks == 0, "nothing left of a check");
        if (before >= 0) return;
        expect(report.kind == ARROWFLOW_KIND_MEMORY ? report.place == 0 && report.batches == 0 : is_same_report(report, whole), "check");
    }
}

static void starve_fault(void) {
    const arrowflow_limits limits = arrowflow_standard_limits();
    char text[256];
    before = -1;
    arrowflow_culprit whole = arrowflow_fault_column(bytes, len, limits);
    for (long number = 0, was_refused = 1; was_refused; number++) {
        before = number;
        arrowflow_culprit culprit = arrowflow_fault_column(bytes, len, limits);
        was_refused = before < 0;
        expect(blocks == 0, "nothing left of a column at fault");
        expect(culprit.kind == ARROWFLOW_KIND_MEMORY ? !culprit.found && culprit.column == 0
               : culprit.found == whole.found && culprit.column == whole.column, "the column at fault");
        before = number;
        expect(arrowflow_fault_text(bytes, len, limits, text, sizeof text) < sizeof text && blocks == 0, "nothing left of a fault's text");
        was_refused |= before < 0;
    }
}

/* One of the calls that return a text, by its number. */
static arrowflow_text give(int call, uint8_t *out) {
    const arrowflow_options options = {false, true};
    arrowflow_limits limits = arrowflow_standard_limits();
    switch (call) {
    case 0: return arrowflow_copy(bytes, len, limits, options, out, MOST);
    case 1: return arrowflow_show(bytes, len, limits, out, MOST);
    case 2: return arrowflow_messages(bytes, len, limits, out, MOST);
    default: return arrowflow_schema(bytes, len, limits, out, MOST);
    }
}

static void starve_text(int call) {
    before = -1;
    arrowflow_text whole = give(call, expected);
    for (long number = 0;; number++) {
        before = number;
        arrowflow_text result = give(call, found);
        expect(blocks == 0, "nothing left of a text");
        if (before >= 0) return;
        expect(result.kind == ARROWFLOW_KIND_MEMORY ? result.size <= whole.size : result.kind == whole.kind && result.size == whole.size, "the text's length");
        expect(result.size <= MOST && memcmp(found, expected, result.size) == 0, "the text, or its beginning");
    }
}

/* The first column of the reader's batch, if it has one. */
static arrowflow_column first_column(arrowflow_reader *reader) {
    const size_t path[1] = {0};
    return arrowflow_reader_column(reader, path, 1);
}

/* Whether the batch that this is the first column of is still in the reader, at the same address. */
static bool is_kept(arrowflow_reader *reader, arrowflow_column of) {
    arrowflow_column now = first_column(reader);
    return now.layout == of.layout && now.slots == of.slots && now.validity_len == of.validity_len
        && now.offsets_len == of.offsets_len && now.values_len == of.values_len
        && (now.values_len == 0 || now.values == of.values);
}

/* Reads the stream in pieces of this length, with one failing allocation; the call that failed is made once
 * more. */
static arrowflow_report read_starved(long number, size_t most) {
    arrowflow_reader *reader = NULL;
    arrowflow_report report = {0, false, 0, 0, 0};
    before = number;
    if (arrowflow_reader_open(arrowflow_standard_limits(), &reader) == ARROWFLOW_KIND_MEMORY)
        expect(arrowflow_reader_open(arrowflow_standard_limits(), &reader) == ARROWFLOW_KIND_FINE, "opened again");
    for (size_t at = 0; at < len && report.kind == ARROWFLOW_KIND_FINE && !report.ended;) {
        size_t piece = len - at < most ? len - at : most;
        arrowflow_column last = first_column(reader);
        arrowflow_step step = arrowflow_reader_read(reader, bytes + at, piece);
        if (step.kind == ARROWFLOW_KIND_MEMORY) {
            expect(step.taken == 0, "nothing taken");
            expect(is_kept(reader, last), "the last batch still there");
            kept += last.layout != ARROWFLOW_LAYOUT_NONE;
        } else if (step.message != ARROWFLOW_MESSAGE_BATCH)
            expect(first_column(reader).layout == ARROWFLOW_LAYOUT_NONE, "no batch where none came");
        at += step.taken;
        report.kind = step.kind == ARROWFLOW_KIND_MEMORY ? (uint32_t)ARROWFLOW_KIND_FINE : step.kind;
        report.ended = step.message == ARROWFLOW_MESSAGE_END;
        report.batches += step.message == ARROWFLOW_MESSAGE_BATCH;
        report.rows += step.rows;
        report.place = at;
    }
    arrowflow_fault end = arrowflow_reader_end(reader);
    arrowflow_reader_close(reader);
    expect(blocks == 0, "nothing left of a reader");
    if (end.kind != ARROWFLOW_KIND_FINE) report.place = end.place;
    report.kind = end.kind;
    return report;
}

static void starve_reader(arrowflow_report whole, size_t most) {
    for (long number = 0;; number++) {
        arrowflow_report report = read_starved(number, most);
        expect(is_same_report(report, whole), "a reader that was asked again");
        if (before >= 0) return;
    }
}

/* Opens a reader, and makes this number of calls on it. Returns whether the stream continues. */
static bool feed(arrowflow_reader **reader, long calls) {
    size_t at = 0;
    arrowflow_step step = {0, 0, 0, 0, 0, 0, 0};
    expect(arrowflow_reader_open(arrowflow_standard_limits(), reader) == ARROWFLOW_KIND_FINE, "opened");
    for (; calls > 0 && at < len && step.kind == ARROWFLOW_KIND_FINE && step.message != ARROWFLOW_MESSAGE_END; calls--) {
        size_t left = len - at, piece = len / 16 + 1;
        step = arrowflow_reader_read(*reader, bytes + at, left < piece ? left : piece);
        at += step.taken;
    }
    return calls == 0;
}

/* Closes a reader after each of its calls. */
static void close_readers(void) {
    arrowflow_reader *reader;
    before = -1;
    for (long calls = 0, goes_on = 1; goes_on; calls++) {
        goes_on = feed(&reader, calls);
        arrowflow_reader_close(reader);
        expect(blocks == 0, "nothing left of a closed reader");
    }
}

/* Readers and copiers that cannot be opened, because of bad limits or failing allocations: there is nothing to
 * close. */
static void open_none(void) {
    const arrowflow_options options = {false, false};
    arrowflow_limits fine = arrowflow_standard_limits(), high = fine;
    arrowflow_reader *reader;
    arrowflow_copier *copier;
    high.max_rows++;
    before = -1;
    expect(arrowflow_reader_open(high, &reader) == ARROWFLOW_KIND_BAD_LIMITS && reader == NULL, "no reader with bad limits");
    expect(arrowflow_copier_open(high, options, &copier) == ARROWFLOW_KIND_BAD_LIMITS && copier == NULL, "no copier with bad limits");
    before = 0;
    expect(arrowflow_reader_open(fine, &reader) == ARROWFLOW_KIND_MEMORY && reader == NULL, "no reader without memory");
    before = 0;
    expect(arrowflow_copier_open(fine, options, &copier) == ARROWFLOW_KIND_MEMORY && copier == NULL, "no copier without memory");
    expect(blocks == 0, "nothing left of what was not opened");
}

/* ---- copiers ---- */

/* Takes the waiting bytes into buffers of 13 bytes. */
static size_t take(arrowflow_copier *copier, size_t size) {
    for (size_t got; (got = arrowflow_copier_take(copier, found + size, MOST - size < 13 ? MOST - size : 13)) > 0;) size += got;
    return size;
}

/* Copies the stream in pieces of this length, and takes the copy, with one failing allocation. Returns the
 * copy's length. */
static size_t copy_starved(long number, size_t most, arrowflow_copied *copied) {
    const arrowflow_options options = {false, true};
    arrowflow_copier *copier;
    size_t size = 0;
    before = number;
    if (arrowflow_copier_open(arrowflow_standard_limits(), options, &copier) == ARROWFLOW_KIND_MEMORY)
        expect(arrowflow_copier_open(arrowflow_standard_limits(), options, &copier) == ARROWFLOW_KIND_FINE, "opened again");
    for (size_t at = 0; at < len; at += most) {
        *copied = arrowflow_copier_put(copier, bytes + at, len - at < most ? len - at : most);
        if (at / most % 2 == 0) size = take(copier, size);
        if (copied->is_over) break;
    }
    *copied = arrowflow_copier_end(copier);
    arrowflow_copied again = arrowflow_copier_put(copier, bytes, len);
    expect(copied->is_over && again.is_over && again.kind == copied->kind && again.place == copied->place, "it stays over");
    expect(again.waiting == copied->waiting, "nothing more is written");
    size_t whole = take(copier, size);
    expect(whole - size == copied->waiting && arrowflow_copier_end(copier).waiting == 0, "what waits is what can be taken");
    arrowflow_copier_close(copier);
    expect(blocks == 0, "nothing left of a copier");
    return whole;
}

static void starve_copier(size_t most) {
    const arrowflow_options options = {false, true};
    before = -1;
    arrowflow_text whole = arrowflow_copy(bytes, len, arrowflow_standard_limits(), options, expected, MOST);
    for (long number = 0;; number++) {
        arrowflow_copied copied;
        size_t size = copy_starved(number, most, &copied);
        expect(size <= whole.size && memcmp(found, expected, size) == 0, "the copy, or its front");
        if (copied.kind == ARROWFLOW_KIND_MEMORY) expect(before < 0 && size < MOST, "memory that was refused");
        else expect(copied.kind == whole.kind && copied.place == whole.place && size == whole.size, "the copy");
        if (before >= 0) return;
    }
}

/* Closes a copier after this number of bytes: before anything was taken, after some bytes were, and after its
 * end. */
static void close_copiers(void) {
    const arrowflow_options options = {true, false};
    before = -1;
    for (size_t most = 0; most <= len; most += len / 16 + 1)
        for (int how = 0; how < 3; how++) {
            arrowflow_copier *copier;
            expect(arrowflow_copier_open(arrowflow_standard_limits(), options, &copier) == ARROWFLOW_KIND_FINE, "opened");
            arrowflow_copier_put(copier, bytes, most);
            if (how > 0) arrowflow_copier_take(copier, found, 5);
            if (how > 1) arrowflow_copier_end(copier);
            arrowflow_copier_close(copier);
            expect(blocks == 0, "nothing left of a closed copier");
        }
}

/* ---- streams of arrays ---- */

enum { MOST_ARRAYS = 64 };

/* A sum over all contents of schemas and arrays. */
static uint64_t sum;

static void add(const void *from, size_t size) {
    const uint8_t *at = from;
    for (size_t k = 0; k < size; k++) sum = (sum ^ at[k]) * UINT64_C(1099511628211);
    sum = (sum ^ size) * UINT64_C(1099511628211);
}

static void add_schema(const struct ArrowSchema *schema) {
    add(schema->format, strlen(schema->format));
    add(schema->name, strlen(schema->name));
    add(&schema->flags, sizeof schema->flags);
    if (schema->metadata != NULL) add(schema->metadata, sizeof(int32_t));
    for (int64_t k = 0; k < schema->n_children; k++) add_schema(schema->children[k]);
    if (schema->dictionary != NULL) add_schema(schema->dictionary);
}

/* Bytes of a slot, for these formats. */
static size_t width_of(const char *format) {
    if (strncmp(format, "d:", 2) == 0) {
        const char *bits = strrchr(format, ',');
        return strchr(format, ',') == bits ? 16 : strtoul(bits + 1, NULL, 10) / 8;
    }
    if (strncmp(format, "w:", 2) == 0) return strtoul(format + 2, NULL, 10);
    if (strcmp(format, "tdD") == 0 || strcmp(format, "tts") == 0 || strcmp(format, "ttm") == 0 || strcmp(format, "tiM") == 0) return 4;
    if (strcmp(format, "tin") == 0) return 16;
    return strchr("cC", *format) ? 1 : strchr("sS", *format) ? 2 : strchr("iI", *format) ? 4 : 8;
}

/* The last of an array's offsets. */
static size_t last_offset(const struct ArrowArray *array, size_t width) {
    uint64_t last = 0;
    memcpy(&last, (const uint8_t *)array->buffers[1] + width * (size_t)array->length, width);
    return last;
}

static void add_array(const struct ArrowSchema *schema, const struct ArrowArray *array) {
    const char *format = schema->format;
    size_t slots = (size_t)array->length, bits = (slots + 7) / 8;
    bool has_offsets = strchr("zuZU", *format) != NULL || (*format == '+' && strchr("sw", format[1]) == NULL);
    size_t width = strchr("ZU", *format) || strcmp(format, "+L") == 0 ? 8 : 4;
    add(&array->length, sizeof array->length);
    add(&array->null_count, sizeof array->null_count);
    if (array->n_buffers > 0 && array->buffers[0] != NULL) add(array->buffers[0], bits);
    if (has_offsets) add(array->buffers[1], width * (slots + 1));
    else if (array->n_buffers == 2) add(array->buffers[1], *format == 'b' ? bits : width_of(format) * slots);
    if (array->n_buffers == 3) add(array->buffers[2], last_offset(array, width));
    for (int64_t k = 0; k < array->n_children; k++) add_array(schema->children[k], array->children[k]);
    if (array->dictionary != NULL) add_array(schema->dictionary, array->dictionary);
}

/* Returns the stream in pieces of 100 bytes. */
static ptrdiff_t give_piece(void *state, uint8_t *room, size_t most) {
    size_t *at = state, size = len - *at < 100 ? len - *at : 100;
    if (size > most) size = most;
    memcpy(room, bytes + *at, size);
    *at += size;
    return (ptrdiff_t)size;
}

static uint32_t open_arrays(bool in_pieces, size_t *at, struct ArrowArrayStream *stream) {
    *at = 0;
    return in_pieces ? arrowflow_stream_of(give_piece, at, arrowflow_standard_limits(), stream)
                     : arrowflow_stream_of_bytes(bytes, len, arrowflow_standard_limits(), stream);
}

/* How many calls of a stream returned ENOMEM, and succeeded when they were made again. */
static long again = 0;

/* Whether a call is made again. */
static bool is_starved(struct ArrowArrayStream *stream, int status, bool is_released) {
    if (status != ENOMEM) return false;
    expect(is_released && stream->get_last_error(stream) != NULL, "nothing given, and a text, without memory");
    again++;
    return true;
}

/* Reads the stream as arrays with one failing allocation, and sums up all their contents after the stream is
 * released. */
static uint64_t sum_starved(long number, bool in_pieces) {
    static struct ArrowArray arrays[MOST_ARRAYS];
    struct ArrowArrayStream stream;
    struct ArrowSchema schema;
    size_t at, count = 0;
    int status;
    before = number;
    sum = UINT64_C(14695981039346656037);
    if (open_arrays(in_pieces, &at, &stream) == ARROWFLOW_KIND_MEMORY)
        expect(stream.release == NULL && open_arrays(in_pieces, &at, &stream) == ARROWFLOW_KIND_FINE, "a stream opened again");
    while (is_starved(&stream, status = stream.get_schema(&stream, &schema), schema.release == NULL)) {}
    while (status == 0 && count < MOST_ARRAYS) {
        while (is_starved(&stream, status = stream.get_next(&stream, arrays + count), arrays[count].release == NULL)) {}
        if (arrays[count].release == NULL) break;
        count++;
    }
    add(&status, sizeof status);
    if (status != 0) add(stream.get_last_error(&stream), strlen(stream.get_last_error(&stream)));
    stream.release(&stream);
    if (schema.release != NULL) add_schema(&schema);
    for (size_t k = 0; k < count; k++) {
        add_array(&schema, arrays + k);
        arrays[k].release(arrays + k);
    }
    if (schema.release != NULL) schema.release(&schema);
    expect(blocks == 0, "nothing left of a stream and its arrays");
    return sum;
}

static void starve_arrays(bool in_pieces) {
    uint64_t whole = sum_starved(-1, in_pieces);
    again = 0;
    for (long number = 0;; number++) {
        expect(sum_starved(number, in_pieces) == whole, "the same arrays in the end");
        if (before >= 0) break;
    }
    expect(again > 0, "a call of a stream made again");
}

int main(int argc, char **argv) {
    FILE *file = argc == 2 ? fopen(argv[1], "rb") : NULL;
    if (file == NULL) {
        fprintf(stderr, "usage: starved FILE\n");
        return 2;
    }
    len = fread(bytes, 1, MOST, file);
    fclose(file);
    arrowflow_report whole = arrowflow_check(bytes, len, arrowflow_standard_limits());
    starve_check(whole);
    starve_fault();
    for (int call = 0; call < 4; call++) starve_text(call);
    starve_reader(whole, 100);
    starve_reader(whole, len);
    close_readers();
    open_none();
    starve_copier(100);
    starve_copier(len);
    close_copiers();
    starve_arrays(false);
    starve_arrays(true);
    expect(refused > 0, "an allocation was refused");
    expect(kept > 0 || whole.batches < 2, "an allocation was refused after a batch");
    return 0;
}
