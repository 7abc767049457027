/* usage: pieces [--types core|all] IN OUT
 *
 * Copies a stream as `arrowflow copy` does, and exits with the same status, by a copier that is passed pieces
 * of 1, of 7 and of 65536 bytes. The bytes of the copy are taken as soon as they are waiting, into buffers of
 * 13 bytes and of all of them, and for a short stream of 1 byte too. Each copy must be what arrowflow_copy
 * returns with the same options, and the copier must report how many bytes are waiting. When it is over, each
 * further call must return the same.
 */
#include "arrowflow.h"

#include <stdio.h>
#include <stdlib.h>
#include <string.h>

#define EXPECT(fact)                                                            \
    do {                                                                        \
        if (!(fact)) {                                                          \
            fprintf(stderr, "%s:%d: not so: %s\n", __FILE__, __LINE__, #fact);  \
            exit(3);                                                            \
        }                                                                       \
    } while (0)

enum { SHORT = 2000 };

static arrowflow_limits limits;
static uint8_t *bytes;
static size_t len;

/* The bytes that were taken from a copier. */
static uint8_t *taken;
static size_t count, most;

static void read_file(const char *name) {
    FILE *file = fopen(name, "rb");
    if (file == NULL || fseek(file, 0, SEEK_END) != 0) {
        fprintf(stderr, "cannot read %s\n", name);
        exit(2);
    }
    len = (size_t)ftell(file);
    rewind(file);
    bytes = malloc(len + 1);
    EXPECT(bytes != NULL && fread(bytes, 1, len, file) == len);
    fclose(file);
}

/* Takes the waiting bytes into buffers of this size, or all at once: exactly as many as were reported. */
static void take(arrowflow_copier *copier, arrowflow_copied copied, size_t room) {
    const size_t before = count;
    EXPECT(arrowflow_copier_take(copier, NULL, 0) == 0);
    EXPECT(copied.waiting <= most - count);
    for (size_t left = (size_t)copied.waiting, got; left > 0; left -= got) {
        got = arrowflow_copier_take(copier, taken + count, room < left ? room : left);
        EXPECT(got == (room < left ? room : left));
        count += got;
    }
    EXPECT(count - before == copied.waiting && arrowflow_copier_take(copier, taken + count, most - count) == 0);
}

static bool is_same(arrowflow_copied a, arrowflow_copied b) {
    return a.kind == b.kind && a.is_over == b.is_over && a.place == b.place && a.waiting == b.waiting;
}

/* A copier that is over returns the same for each call, and accepts no more bytes. */
static void ask_again(arrowflow_copier *copier, arrowflow_copied copied) {
    EXPECT(copied.is_over);
    EXPECT(is_same(arrowflow_copier_end(copier), copied) && is_same(arrowflow_copier_put(copier, NULL, 0), copied));
    EXPECT(is_same(arrowflow_copier_put(copier, bytes, len), copied) && is_same(arrowflow_copier_end(copier), copied));
}

/* Copies the stream in pieces of this size, and takes the copy into buffers of this size. */
static arrowflow_copied copy(arrowflow_options options, size_t piece, size_t room) {
    arrowflow_copier *copier;
    arrowflow_copied copied = {ARROWFLOW_KIND_FINE, false, 0, 0};
    count = 0;
    EXPECT(arrowflow_copier_open(limits, options, &copier) == ARROWFLOW_KIND_FINE);
    for (size_t at = 0; at < len && !copied.is_over; at += piece) {
        copied = arrowflow_copier_put(copier, bytes + at, len - at < piece ? len - at : piece);
        EXPECT(copied.is_over || copied.kind == ARROWFLOW_KIND_FINE);
        take(copier, copied, room);
    }
    bool was_over = copied.is_over;
    arrowflow_copied end = arrowflow_copier_end(copier);
    EXPECT(!was_over || (end.kind == copied.kind && end.place == copied.place));
    ask_again(copier, end);
    take(copier, end, room);
    end.waiting = 0;
    ask_again(copier, end);
    arrowflow_copier_close(copier);
    return end;
}

/* Compares a copier with the call that has the complete stream. */
static arrowflow_copied compare(arrowflow_options options, const uint8_t *whole, arrowflow_text result) {
    const size_t pieces[] = {1, 7, 65536}, rooms[] = {SIZE_MAX, 13, 1};
    arrowflow_copied copied = {ARROWFLOW_KIND_FINE, false, 0, 0};
    for (size_t k = 0; k < sizeof pieces / sizeof *pieces; k++)
        for (size_t i = 0; i < (len < SHORT ? 3 : 2); i++) {
            copied = copy(options, pieces[k], rooms[i]);
            EXPECT(copied.kind == result.kind && copied.place == result.place);
            EXPECT(count == result.size && memcmp(taken, whole, count) == 0);
        }
    return copied;
}

/* The same with each combination of the options; the last ones, all false, are those of the program. */
static arrowflow_copied compare_all(void) {
    arrowflow_copied copied = {ARROWFLOW_KIND_FINE, false, 0, 0};
    for (int k = 3; k >= 0; k--) {
        const arrowflow_options options = {k & 1, k >> 1};
        arrowflow_text result = arrowflow_copy(bytes, len, limits, options, NULL, 0);
        most = (size_t)result.size + 1;
        uint8_t *whole = malloc(most);
        free(taken);
        taken = malloc(most);
        EXPECT(whole != NULL && taken != NULL);
        result = arrowflow_copy(bytes, len, limits, options, whole, most);
        copied = compare(options, whole, result);
        free(whole);
    }
    return copied;
}

/* Reports how the copy ended, as the program does, which prints no meaning after the kind. */
static int report_end(arrowflow_copied copied) {
    char text[256];
    if (copied.kind == ARROWFLOW_KIND_FINE) return 0;
    arrowflow_error_text(copied.kind, copied.place, text, sizeof text);
    EXPECT(strchr(text, ',') != NULL);
    fprintf(stderr, "%.*s\n", (int)(strchr(text, ',') - text), text);
    return 1;
}

int main(int argc, char **argv) {
    limits = arrowflow_standard_limits();
    if (argc == 5 && strcmp(argv[1], "--types") == 0) {
        limits.types = strcmp(argv[2], "all") == 0 ? ARROWFLOW_TYPES_ALL : ARROWFLOW_TYPES_CORE;
        argv += 2;
        argc -= 2;
    }
    if (argc != 3) {
        fprintf(stderr, "usage: pieces [--types core|all] IN OUT\n");
        return 2;
    }
    read_file(argv[1]);
    arrowflow_copied copied = compare_all();
    FILE *out = fopen(argv[2], "wb");
    EXPECT(out != NULL && fwrite(taken, 1, count, out) == count && fclose(out) == 0);
    free(taken);
    free(bytes);
    return report_end(copied);
}
