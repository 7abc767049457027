/* usage: calls literals, calls kinds MOST, calls fault FILE, calls version
 *
 * Makes each call of arrowflow.h as a caller writes it: limits and options as literals in place, NULL pointers
 * for empty inputs and outputs, and no reader or copier. With `kinds` it prints the name and the text of each
 * number up to this one, tab-separated, after asking for the text with buffers of each size; with `fault` the
 * text of a stream's first fault, in the same way, and the number of the column at fault; with `version`, that
 * of the library. arrays.cc makes the same calls in C++ 17.
 */
#include "arrowflow.h"

#include <stdio.h>
#include <stdlib.h>
#include <string.h>

static int failed = 0;

#define EXPECT(fact)                                                        \
    do {                                                                    \
        if (!(fact)) {                                                      \
            fprintf(stderr, "%s:%d: not so: %s\n", __FILE__, __LINE__, #fact); \
            failed = 1;                                                     \
        }                                                                   \
    } while (0)

/* The calls on streams in memory. A literal of limits has commas, at which a macro would split its arguments. */
static void streams_in_memory(void) {
    const uint8_t junk[8] = {1, 2, 3, 4, 5, 6, 7, 8};
    uint8_t out[4];
    EXPECT(arrowflow_check(NULL, 0, (arrowflow_limits){1, 2, 3, 0}).kind == ARROWFLOW_KIND_NO_SCHEMA);
    EXPECT(arrowflow_check(junk, 8, (arrowflow_limits){1, 2, 3, ARROWFLOW_TYPES_ALL}).kind == ARROWFLOW_KIND_CONTINUATION);
    EXPECT(arrowflow_check(junk, 8, (arrowflow_limits){1, 2, UINT64_MAX, 0}).kind == ARROWFLOW_KIND_BAD_LIMITS);
    EXPECT(arrowflow_copy(NULL, 0, (arrowflow_limits){1, 2, 3, 0}, (arrowflow_options){false, true}, NULL, 0).kind
           == ARROWFLOW_KIND_NO_SCHEMA);
    EXPECT(arrowflow_copy(junk, 8, (arrowflow_limits){1, 2, 3, 0}, (arrowflow_options){true, false}, out, sizeof out).kind
           == ARROWFLOW_KIND_CONTINUATION);
    EXPECT(arrowflow_show(NULL, 0, (arrowflow_limits){1, 2, 3, 0}, NULL, 0).kind == ARROWFLOW_KIND_NO_SCHEMA);
    EXPECT(arrowflow_messages(NULL, 0, (arrowflow_limits){1, 2, 3, 0}, NULL, 0).kind == ARROWFLOW_KIND_NO_SCHEMA);
    EXPECT(arrowflow_schema(NULL, 0, (arrowflow_limits){1, 2, 3, 0}, NULL, 0).kind == ARROWFLOW_KIND_NO_SCHEMA);
    EXPECT(arrowflow_fault_column(NULL, 0, (arrowflow_limits){1, 2, 3, 0}).kind == ARROWFLOW_KIND_FINE);
    EXPECT(arrowflow_fault_column(junk, 8, (arrowflow_limits){1, 2, UINT64_MAX, 0}).kind == ARROWFLOW_KIND_BAD_LIMITS);
    EXPECT(arrowflow_fault_text(NULL, 0, (arrowflow_limits){1, 2, 3, 0}, NULL, 0) > 0);
}

/* What a call returns if there is no copier, and the calls of a copier that is passed no bytes. */
static void copiers(void) {
    const uint8_t junk[8] = {1, 2, 3, 4, 5, 6, 7, 8};
    arrowflow_copier *copier = NULL;
    arrowflow_copied put = arrowflow_copier_put(copier, junk, 8), end = arrowflow_copier_end(copier);
    EXPECT(put.kind == ARROWFLOW_KIND_NO_HANDLE && put.is_over && put.waiting == 0);
    EXPECT(end.kind == ARROWFLOW_KIND_NO_HANDLE && end.is_over && end.waiting == 0);
    EXPECT(arrowflow_copier_take(copier, NULL, 0) == 0);
    arrowflow_copier_close(copier);
    EXPECT(arrowflow_copier_open((arrowflow_limits){1, 2, 3, 2}, (arrowflow_options){false, false}, &copier)
           == ARROWFLOW_KIND_BAD_LIMITS);
    EXPECT(copier == NULL);
    EXPECT(arrowflow_copier_open((arrowflow_limits){1, 2, 3, 0}, (arrowflow_options){false, false}, &copier)
           == ARROWFLOW_KIND_FINE);
    put = arrowflow_copier_put(copier, NULL, 0);
    EXPECT(put.kind == ARROWFLOW_KIND_FINE && !put.is_over && put.waiting == 0);
    EXPECT(arrowflow_copier_take(copier, NULL, 0) == 0);
    end = arrowflow_copier_end(copier);
    EXPECT(end.kind == ARROWFLOW_KIND_NO_SCHEMA && end.is_over && end.place == 0);
    arrowflow_copier_close(copier);
}

/* The same for a reader. */
static void readers(void) {
    const uint8_t junk[8] = {1, 2, 3, 4, 5, 6, 7, 8};
    arrowflow_reader *reader = NULL;
    arrowflow_step step = arrowflow_reader_read(reader, junk, 8);
    arrowflow_fault end = arrowflow_reader_end(reader);
    EXPECT(step.kind == ARROWFLOW_KIND_NO_HANDLE && step.message == ARROWFLOW_MESSAGE_NONE && step.taken == 0);
    EXPECT(end.kind == ARROWFLOW_KIND_NO_HANDLE && end.place == 0);
    EXPECT(arrowflow_reader_cell(reader, 0, 0, NULL, 0).type == ARROWFLOW_CELL_NONE);
    EXPECT(arrowflow_reader_column(reader, NULL, 0).layout == ARROWFLOW_LAYOUT_NONE);
    EXPECT(arrowflow_reader_field(reader, NULL, 0, NULL, 0).found == ARROWFLOW_FOUND_NONE);
    arrowflow_reader_close(reader);
    EXPECT(arrowflow_reader_open((arrowflow_limits){1, 2, 3, 2}, &reader) == ARROWFLOW_KIND_BAD_LIMITS && reader == NULL);
    EXPECT(arrowflow_reader_open((arrowflow_limits){1, 2, 3, 0}, &reader) == ARROWFLOW_KIND_FINE && reader != NULL);
    EXPECT(arrowflow_reader_read(reader, NULL, 0).kind == ARROWFLOW_KIND_FINE);
    EXPECT(arrowflow_reader_cell(reader, 0, 0, NULL, 0).type == ARROWFLOW_CELL_NONE);
    EXPECT(arrowflow_reader_column(reader, NULL, 0).layout == ARROWFLOW_LAYOUT_NONE);
    EXPECT(arrowflow_reader_column(reader, (const size_t[]){0}, 1).layout == ARROWFLOW_LAYOUT_NONE);
    EXPECT(arrowflow_reader_field(reader, NULL, 0, NULL, 0).found == ARROWFLOW_FOUND_NONE);
    EXPECT(arrowflow_reader_end(reader).kind == ARROWFLOW_KIND_NO_SCHEMA);
    arrowflow_reader_close(reader);
}

/* A sentence about an error of a stream, or about a kind if the stream is NULL. */
struct asked {
    const uint8_t *bytes;
    size_t len;
    uint32_t kind;
};

static arrowflow_limits all_types(void) {
    arrowflow_limits limits = arrowflow_standard_limits();
    limits.types = ARROWFLOW_TYPES_ALL;
    return limits;
}

static size_t sentence(struct asked of, char *out, size_t room) {
    return of.bytes == NULL ? arrowflow_error_text(of.kind, UINT64_MAX, out, room) : arrowflow_fault_text(of.bytes, of.len, all_types(), out, room);
}

/* Checks a sentence in buffers of each size: as much as fits before a zero byte, and nothing after the buffer. */
static void check_rooms(struct asked of, const char *whole, size_t size) {
    for (size_t room = 0; room <= size + 2; room++) {
        char *out = malloc(room + 1);
        size_t fits = room == 0 ? 0 : room - 1 < size ? room - 1 : size;
        if (out == NULL) exit(4);
        memset(out, 7, room + 1);
        EXPECT(sentence(of, out, room) == size);
        EXPECT(memcmp(out, whole, fits) == 0 && out[room] == 7 && (room == 0 || out[fits] == 0));
        free(out);
    }
    EXPECT(sentence(of, NULL, 0) == size);
}

/* Prints the sentence, which is at most 255 bytes long. */
static void print_sentence(struct asked of) {
    char whole[256];
    size_t size = sentence(of, whole, sizeof whole);
    EXPECT(size < sizeof whole && strlen(whole) == size);
    check_rooms(of, whole, size);
    printf("%s\n", whole);
}

static void print_kinds(uint32_t most) {
    for (uint32_t kind = 0; kind <= most; kind++) {
        printf("%lu\t%s\t", (unsigned long)kind, arrowflow_kind_name(kind));
        print_sentence((struct asked){NULL, 0, kind});
    }
    EXPECT(strcmp(arrowflow_kind_name(UINT32_MAX), "Unknown") == 0);
}

static void print_fault(const char *name) {
    FILE *file = fopen(name, "rb");
    const size_t room = 1 << 24;
    uint8_t *bytes = malloc(room);
    if (file == NULL || bytes == NULL) exit(4);
    size_t len = fread(bytes, 1, room, file);
    fclose(file);
    arrowflow_culprit culprit = arrowflow_fault_column(bytes, len, all_types());
    EXPECT(culprit.kind == ARROWFLOW_KIND_FINE && (culprit.found || culprit.column == 0));
    printf("%d %llu\n", culprit.found, (unsigned long long)culprit.column);
    print_sentence((struct asked){bytes, len, ARROWFLOW_KIND_FINE});
    free(bytes);
}

int main(int argc, char **argv) {
    if (argc == 2 && strcmp(argv[1], "literals") == 0) {
        streams_in_memory();
        copiers();
        readers();
        return failed;
    }
    if (argc == 3 && strcmp(argv[1], "kinds") == 0) {
        print_kinds((uint32_t)strtoul(argv[2], NULL, 10));
        return failed;
    }
    if (argc == 3 && strcmp(argv[1], "fault") == 0) {
        print_fault(argv[2]);
        return failed;
    }
    if (argc == 2 && strcmp(argv[1], "version") == 0) {
        EXPECT(strcmp(arrowflow_version(), ARROWFLOW_VERSION) == 0);
        printf("%s\n", arrowflow_version());
        return failed;
    }
    fprintf(stderr, "usage: calls literals, calls kinds MOST, calls fault FILE, calls version\n");
    return 2;
}
