/* usage: stream [--types core|all] show bytes|fd|SIZE FILE, stream [--types core|all] threads FILE,
 *        stream each FILE, stream ends FILE, stream grows FILE, stream --bad FILE
 *
 * Prints what `arrowflow show` prints for a stream, from arrays of the Arrow C data interface, and exits with
 * the same status. Floating-point numbers have the digits of `show`, in another format. Each schema and each
 * array is checked against the text of the interface first, after the stream, the bytes and the reader were
 * freed. The stream comes from bytes, from a file descriptor or from a callback in pieces of this size. Then
 * two threads release the arrays, including children that were moved out. With `threads` each array is
 * requested on a thread of its own, and passed to another one while the stream is read further. With `each` an
 * array is printed and released before the next one is requested. With `ends` it prints how many arrays a
 * stream returns, and its error text then; with `grows`, how often the dictionary of its first column was
 * copied. With --bad the sources fail.
 */
#define _POSIX_C_SOURCE 200809L
#include "arrowflow_stream.h"

#include <errno.h>
#include <fcntl.h>
#include <math.h>
#include <pthread.h>
#include <signal.h>
#include <stdatomic.h>
#include <stdio.h>
#include <stdlib.h>
#include <string.h>
#include <sys/time.h>
#include <unistd.h>

#define EXPECT(fact)                                                            \
    do {                                                                        \
        if (!(fact)) {                                                          \
            fprintf(stderr, "%s:%d: not so: %s\n", __FILE__, __LINE__, #fact);  \
            exit(3);                                                            \
        }                                                                       \
    } while (0)

static arrowflow_limits limits;

/* ---- what formats say ---- */

static bool is_format(const struct ArrowSchema *schema, const char *format) { return strcmp(schema->format, format) == 0; }

static bool is_one_of(const struct ArrowSchema *schema, const char *letters) {
    return schema->format[1] == 0 && strchr(letters, *schema->format) != NULL;
}

/* Whether all lists have the same number of items, so that there are no offsets. */
static bool is_fixed_list(const struct ArrowSchema *schema) { return strncmp(schema->format, "+w:", 3) == 0; }

static bool is_list(const struct ArrowSchema *schema) {
    return is_format(schema, "+l") || is_format(schema, "+L") || is_format(schema, "+m") || is_fixed_list(schema);
}

/* How many items each of these lists has. */
static size_t list_size(const struct ArrowSchema *schema) { return strtoul(schema->format + 3, NULL, 10); }

/* Bytes of an offset, or 0 if there are none. */
static size_t offset_width(const struct ArrowSchema *schema) {
    if (is_one_of(schema, "zu") || is_format(schema, "+l") || is_format(schema, "+m")) return 4;
    return is_one_of(schema, "ZU") || is_format(schema, "+L") ? 8 : 0;
}

/* Bytes of a decimal, whose format has its bits after a second comma if they are not 128. */
static size_t decimal_width(const char *format) {
    const char *scale = strchr(format, ','), *bits = scale == NULL ? NULL : strchr(scale + 1, ',');
    EXPECT(scale != NULL && (bits == NULL || strcmp(bits, ",32") == 0 || strcmp(bits, ",64") == 0 || strcmp(bits, ",256") == 0));
    return bits == NULL ? 16 : strtoul(bits + 1, NULL, 10) / 8;
}

/* Bytes of a slot's value if it is a number, an interval, a decimal or a byte string of fixed size. */
static size_t value_width(const struct ArrowSchema *schema) {
    const char *format = schema->format;
    if (is_one_of(schema, "cC")) return 1;
    if (is_one_of(schema, "sSe")) return 2;
    if (is_one_of(schema, "iIf") || is_format(schema, "tdD") || is_format(schema, "tiM")) return 4;
    if (is_format(schema, "tts") || is_format(schema, "ttm")) return 4;
    if (is_format(schema, "tin")) return 16;
    if (strncmp(format, "d:", 2) == 0) return decimal_width(format);
    if (strncmp(format, "w:", 2) == 0) return strtoul(format + 2, NULL, 10);
    EXPECT(is_one_of(schema, "lLg") || is_format(schema, "tdm") || is_format(schema, "ttu") || is_format(schema, "ttn")
           || is_format(schema, "tiD")
           || (strncmp(format, "ts", 2) == 0 && format[2] != 0 && strchr("smun", format[2]) != NULL && format[3] == ':')
           || (strncmp(format, "tD", 2) == 0 && format[2] != 0 && strchr("smun", format[2]) != NULL && format[3] == 0));
    return 8;
}

static int64_t buffers_of(const struct ArrowSchema *schema) {
    if (is_format(schema, "n")) return 0;
    if (is_format(schema, "+s") || is_fixed_list(schema)) return 1;
    return is_one_of(schema, "zZuU") ? 3 : 2;
}

/* ---- checks of what the interface requires ---- */

/* Checks that metadata have as many pairs as the count at their start says: a sanitizer reports a byte that is
 * not there. */
static void check_metadata(const char *at) {
    int32_t pairs, len;
    unsigned sum = 0;
    memcpy(&pairs, at, sizeof pairs);
    EXPECT(pairs > 0);
    at += sizeof pairs;
    for (int64_t k = 0; k < 2 * (int64_t)pairs; k++) {
        memcpy(&len, at, sizeof len);
        EXPECT(len >= 0);
        at += sizeof len;
        for (int32_t i = 0; i < len; i++) sum += (unsigned char)*at++;
    }
    EXPECT(sum < UINT32_MAX);
}

static void check_schema(const struct ArrowSchema *schema) {
    EXPECT(schema->release != NULL && schema->format != NULL && schema->name != NULL);
    int64_t of_maps = is_format(schema, "+m") ? ARROW_FLAG_MAP_KEYS_SORTED : 0;
    EXPECT((schema->flags & ~(ARROW_FLAG_DICTIONARY_ORDERED | ARROW_FLAG_NULLABLE | of_maps)) == 0);
    EXPECT(is_format(schema, "+s") || schema->n_children == (is_list(schema) ? 1 : 0));
    if (schema->metadata != NULL) check_metadata(schema->metadata);
    for (int64_t k = 0; k < schema->n_children; k++) check_schema(schema->children[k]);
    if (schema->dictionary == NULL) {
        EXPECT((schema->flags & ARROW_FLAG_DICTIONARY_ORDERED) == 0);
        return;
    }
    EXPECT(is_one_of(schema, "cCsSiIlL"));
    check_schema(schema->dictionary);
    EXPECT(schema->dictionary->dictionary == NULL);
}

static uint64_t number_at(const void *bytes, size_t width) {
    const uint8_t *at = bytes;
    uint64_t number = 0;
    for (size_t k = width; k-- > 0;) number = number << 8 | at[k];
    return number;
}

static bool bit_at(const void *bits, size_t i) { return ((const uint8_t *)bits)[i / 8] >> i % 8 & 1; }

static bool has_value(const struct ArrowArray *array, size_t i) {
    if (array->n_buffers == 0) return false;
    return array->buffers[0] == NULL || bit_at(array->buffers[0], i);
}

static size_t offset_at(const struct ArrowSchema *schema, const struct ArrowArray *array, size_t i) {
    size_t width = offset_width(schema);
    return number_at((const uint8_t *)array->buffers[1] + width * i, width);
}

/* The length of the first character in these UTF-8 bytes, or 0 if they do not begin with one. */
static size_t letter(const uint8_t *at, size_t len) {
    size_t size = at[0] < 0x80 ? 1 : at[0] < 0xe0 ? 2 : at[0] < 0xf0 ? 3 : 4;
    if ((at[0] >= 0x80 && at[0] < 0xc2) || at[0] >= 0xf5 || size > len) return 0;
    for (size_t k = 1; k < size; k++)
        if (at[k] >> 6 != 2) return 0;
    if ((at[0] == 0xe0 && at[1] < 0xa0) || (at[0] == 0xed && at[1] >= 0xa0)) return 0;
    if ((at[0] == 0xf0 && at[1] < 0x90) || (at[0] == 0xf4 && at[1] >= 0x90)) return 0;
    return size;
}

static bool is_utf8(const uint8_t *at, size_t len) {
    for (size_t size; len > 0; at += size, len -= size)
        if ((size = letter(at, len)) == 0) return false;
    return true;
}

/* Whether a stream may be adding to a dictionary while its arrays are checked. */
static bool is_growing = false;

/* Checks a buffer of this many bytes: it is aligned, each byte is read, and zeros pad it to a multiple of 64
 * bytes. The padding of a dictionary's buffer may be anything, and is read if nothing is added at this time. */
static void check_buffer(const void *buffer, size_t size, bool is_shared) {
    const uint8_t *at = buffer;
    uint64_t sum = 0, rest = 0;
    EXPECT(at != NULL && (uintptr_t)at % 64 == 0);
    for (size_t k = 0; k < size; k++) sum += at[k];
    for (size_t k = size; k % 64 != 0 && !(is_shared && is_growing); k++) rest += at[k];
    EXPECT(sum <= 255 * size && rest <= (is_shared ? 64 * 255 : 0));
}

static void check_nulls(const struct ArrowArray *array, bool is_shared) {
    size_t length = (size_t)array->length;
    int64_t nulls = 0;
    for (size_t i = 0; i < length; i++) nulls += !has_value(array, i);
    EXPECT(array->null_count == -1 || array->null_count == nulls);
    if (array->n_buffers == 0) return;
    if (array->buffers[0] == NULL) EXPECT(array->null_count == 0);
    else check_buffer(array->buffers[0], (length + 7) / 8, is_shared);
}

/* Checks that offsets never decrease, and that texts are UTF-8. */
static void check_offsets(const struct ArrowSchema *schema, const struct ArrowArray *array, bool is_shared) {
    size_t length = (size_t)array->length, end = offset_at(schema, array, length);
    check_buffer(array->buffers[1], offset_width(schema) * (length + 1), is_shared);
    EXPECT(end <= INT64_MAX && (offset_width(schema) == 8 || end <= INT32_MAX));
    for (size_t i = 0; i < length; i++) EXPECT(offset_at(schema, array, i) <= offset_at(schema, array, i + 1));
    if (is_list(schema)) {
        EXPECT(end <= (size_t)array->children[0]->length);
        return;
    }
    check_buffer(array->buffers[2], end, is_shared);
    for (size_t i = 0; i < length && is_one_of(schema, "uU"); i++) {
        size_t start = offset_at(schema, array, i), len = offset_at(schema, array, i + 1) - start;
        if (has_value(array, i)) EXPECT(is_utf8((const uint8_t *)array->buffers[2] + start, len));
    }
}

/* The number of a slot, a negative one as two's complement of 64 bits. */
static uint64_t number_of(const struct ArrowSchema *schema, const struct ArrowArray *array, size_t i) {
    size_t width = value_width(schema);
    uint64_t number = number_at((const uint8_t *)array->buffers[1] + width * i, width);
    bool is_negative = !is_one_of(schema, "CSIL") && width < 8 && number >> (8 * width - 1);
    return is_negative ? number | UINT64_MAX << 8 * width : number;
}

/* Checks an array; `is_shared` if it is one of a dictionary's values, or below these. */
static void check_values(const struct ArrowSchema *schema, const struct ArrowArray *array, bool is_shared) {
    EXPECT(array->release != NULL && array->length >= 0 && array->offset == 0);
    EXPECT(array->n_buffers == buffers_of(schema) && array->n_children == schema->n_children);
    EXPECT((array->dictionary == NULL) == (schema->dictionary == NULL));
    size_t length = (size_t)array->length;
    check_nulls(array, is_shared);
    for (int64_t k = 0; k < array->n_children; k++) {
        check_values(schema->children[k], array->children[k], is_shared);
        if (is_format(schema, "+s")) EXPECT(array->children[k]->length == array->length);
        if (is_fixed_list(schema)) EXPECT((size_t)array->children[k]->length == list_size(schema) * length);
    }
    if (offset_width(schema) > 0) check_offsets(schema, array, is_shared);
    else if (is_format(schema, "b")) check_buffer(array->buffers[1], (length + 7) / 8, is_shared);
    else if (array->n_buffers == 2) check_buffer(array->buffers[1], value_width(schema) * length, is_shared);
    if (schema->dictionary == NULL) return;
    check_values(schema->dictionary, array->dictionary, true);
    for (size_t i = 0; i < length; i++)
        if (has_value(array, i)) EXPECT(number_of(schema, array, i) < (uint64_t)array->dictionary->length);
}

static void check_array(const struct ArrowSchema *schema, const struct ArrowArray *array) {
    check_values(schema, array, false);
}

/* ---- the text of a value, as `arrowflow show` prints it ---- */

/* A field's text. */
struct text {
    char *at;
    size_t len, room;
};

static void add(struct text *to, const void *bytes, size_t len) {
    if (to->room - to->len < len) {
        to->room = 2 * to->room + len;
        to->at = realloc(to->at, to->room);
        EXPECT(to->at != NULL);
    }
    if (len > 0) memcpy(to->at + to->len, bytes, len);
    to->len += len;
}

static void add_words(struct text *to, const char *words) { add(to, words, strlen(words)); }

static void add_hex(struct text *to, const uint8_t *at, size_t len) {
    char digits[3];
    for (size_t k = 0; k < len; k++) {
        snprintf(digits, sizeof digits, "%02x", at[k]);
        add_words(to, digits);
    }
}

/* The floating-point number of two bytes (IEEE 754, binary16). */
static float half_at(uint64_t bits) {
    int exponent = bits >> 10 & 31;
    float digits = (float)(bits & 1023);
    float size = ldexpf(exponent == 0 ? digits : digits + 1024, (exponent ? exponent : 1) - 25);
    if (exponent == 31) size = digits > 0 ? (float)NAN : (float)INFINITY;
    return bits >> 15 ? -size : size;
}

/* The fewest digits that are parsed as the same number. */
static void add_float(struct text *to, double real, bool is_single) {
    char digits[40];
    if (isnan(real)) add_words(to, "NaN");
    else if (isinf(real)) add_words(to, real < 0 ? "-inf" : "inf");
    else {
        for (int more = 0; more < 18; more++) {
            snprintf(digits, sizeof digits, "%.*e", more, real);
            if (is_single ? strtof(digits, NULL) == (float)real : strtod(digits, NULL) == real) break;
        }
        char *plus = strchr(digits, '+');
        if (plus != NULL) memmove(plus, plus + 1, strlen(plus));
        add_words(to, digits);
    }
}

static void add_number(struct text *to, const struct ArrowSchema *schema, const struct ArrowArray *array, size_t i) {
    uint64_t number = number_of(schema, array, i);
    uint32_t single_bits = (uint32_t)number;
    char digits[32];
    float single;
    double real;
    memcpy(&single, &single_bits, sizeof single);
    memcpy(&real, &number, sizeof real);
    if (is_one_of(schema, "e")) add_float(to, (double)half_at(number & 0xffff), true);
    else if (is_one_of(schema, "f")) add_float(to, (double)single, true);
    else if (is_one_of(schema, "g")) add_float(to, real, false);
    else {
        if (is_one_of(schema, "CSIL")) snprintf(digits, sizeof digits, "%llu", (unsigned long long)number);
        else snprintf(digits, sizeof digits, "%lld", (long long)number);
        add_words(to, digits);
    }
}

/* The signed number of 32 or 64 bits at an address, and the letters of its unit. */
static void add_units(struct text *to, const uint8_t *at, size_t width, const char *unit) {
    char digits[32];
    uint64_t number = number_at(at, width);
    if (width == 4 && number >> 31) number |= UINT64_MAX << 32;
    snprintf(digits, sizeof digits, "%lld%s", (long long)number, unit);
    add_words(to, digits);
}

/* An interval: months, or days and milliseconds, or months, days and nanoseconds, in the buffer in this order. */
static void add_interval(struct text *to, const struct ArrowSchema *schema, const struct ArrowArray *array, size_t i) {
    const uint8_t *at = (const uint8_t *)array->buffers[1] + value_width(schema) * i;
    if (is_format(schema, "tiD")) {
        add_units(to, at, 4, "d");
        add_units(to, at + 4, 4, "ms");
        return;
    }
    add_units(to, at, 4, "M");
    if (is_format(schema, "tin")) {
        add_units(to, at + 4, 4, "d");
        add_units(to, at + 8, 8, "ns");
    }
}

/* Divides an unsigned number by ten, and returns the remainder. */
static unsigned without_last_digit(uint8_t *number, size_t width) {
    unsigned rest = 0;
    for (size_t k = width; k-- > 0;) {
        rest = rest << 8 | number[k];
        number[k] = (uint8_t)(rest / 10);
        rest %= 10;
    }
    return rest;
}

/* A decimal: the digits of its unscaled integer, with a point before as many of the last ones as its scale
 * says. */
static void add_decimal(struct text *to, const struct ArrowSchema *schema, const struct ArrowArray *array, size_t i) {
    enum { MOST_DIGITS = 96 };
    size_t width = value_width(schema), at = MOST_DIGITS;
    long scale = strtol(strchr(schema->format, ',') + 1, NULL, 10);
    uint8_t number[32] = {0}, zero[32] = {0};
    char digits[MOST_DIGITS], power[24];
    memcpy(number, (const uint8_t *)array->buffers[1] + width * i, width);
    bool is_negative = number[width - 1] >> 7;
    for (size_t k = 0, carry = 1; k < width && is_negative; k++) {
        carry += (uint8_t)~number[k];
        number[k] = (uint8_t)carry;
        carry >>= 8;
    }
    do {
        digits[--at] = (char)('0' + without_last_digit(number, width));
        if (scale > 0 && MOST_DIGITS - at == (size_t)scale) digits[--at] = '.';
    } while (memcmp(number, zero, width) != 0 || digits[at] == '.' || (scale > 0 && MOST_DIGITS - at < (size_t)scale));
    if (is_negative) digits[--at] = '-';
    add(to, digits + at, MOST_DIGITS - at);
    snprintf(power, sizeof power, "e%ld", -scale);
    if (scale < 0) add_words(to, power);
}

static void add_value(struct text *to, const struct ArrowSchema *schema, const struct ArrowArray *array, size_t i,
                      const char *null);

static void add_list(struct text *to, const struct ArrowSchema *schema, const struct ArrowArray *array, size_t i) {
    bool is_fixed = is_fixed_list(schema);
    size_t size = is_fixed ? list_size(schema) : 0, start = is_fixed ? size * i : offset_at(schema, array, i);
    size_t end = is_fixed ? start + size : offset_at(schema, array, i + 1);
    add_words(to, "[");
    for (size_t k = start; k < end; k++) {
        if (k > start) add_words(to, ";");
        add_value(to, schema->children[0], array->children[0], k, "null");
    }
    add_words(to, "]");
}

static void add_struct(struct text *to, const struct ArrowSchema *schema, const struct ArrowArray *array, size_t i) {
    add_words(to, "{");
    for (int64_t k = 0; k < array->n_children; k++) {
        if (k > 0) add_words(to, ";");
        add_words(to, schema->children[k]->name);
        add_words(to, "=");
        add_value(to, schema->children[k], array->children[k], i, "null");
    }
    add_words(to, "}");
}

static void add_value(struct text *to, const struct ArrowSchema *schema, const struct ArrowArray *array, size_t i,
                      const char *null) {
    if (!has_value(array, i)) add_words(to, null);
    else if (schema->dictionary != NULL)
        add_value(to, schema->dictionary, array->dictionary, number_of(schema, array, i), null);
    else if (is_format(schema, "+s")) add_struct(to, schema, array, i);
    else if (is_list(schema)) add_list(to, schema, array, i);
    else if (is_format(schema, "b")) add_words(to, bit_at(array->buffers[1], i) ? "true" : "false");
    else if (is_one_of(schema, "zZuU")) {
        size_t start = offset_at(schema, array, i), len = offset_at(schema, array, i + 1) - start;
        const uint8_t *at = (const uint8_t *)array->buffers[2] + start;
        if (is_one_of(schema, "uU")) add(to, at, len);
        else add_hex(to, at, len);
    } else if (strncmp(schema->format, "w:", 2) == 0)
        add_hex(to, (const uint8_t *)array->buffers[1] + value_width(schema) * i, value_width(schema));
    else if (strncmp(schema->format, "ti", 2) == 0) add_interval(to, schema, array, i);
    else if (strncmp(schema->format, "d:", 2) == 0) add_decimal(to, schema, array, i);
    else add_number(to, schema, array, i);
}

/* Prints a field after a comma, in quotes if it needs them, and empties it. */
static void print(struct text *of) {
    bool is_quoted = false;
    for (size_t k = 0; k < of->len; k++) is_quoted |= of->at[k] != 0 && strchr(",\"\r\n", of->at[k]) != NULL;
    fputs(is_quoted ? ",\"" : ",", stdout);
    for (size_t k = 0; k < of->len; k++) {
        if (of->at[k] == '"') putchar('"');
        putchar(of->at[k]);
    }
    if (is_quoted) putchar('"');
    of->len = 0;
}

static void print_names(const struct ArrowSchema *schema) {
    struct text name = {NULL, 0, 0};
    fputs("batch", stdout);
    for (int64_t k = 0; k < schema->n_children; k++) {
        add_words(&name, schema->children[k]->name);
        print(&name);
    }
    putchar('\n');
    free(name.at);
}

static void print_rows(size_t number, const struct ArrowSchema *schema, const struct ArrowArray *array) {
    struct text field = {NULL, 0, 0};
    for (size_t i = 0; i < (size_t)array->length; i++) {
        printf("%zu", number);
        for (int64_t k = 0; k < array->n_children; k++) {
            add_value(&field, schema->children[k], array->children[k], i, "");
            print(&field);
        }
        putchar('\n');
    }
    free(field.at);
}

/* ---- sources ---- */

/* What a callback reads from: bytes in pieces, with a failure at one offset this many times. */
struct given {
    const uint8_t *bytes;
    size_t len, at, piece;
    size_t fails_at;
    int failure, times;
    bool has_ended;
};

static ptrdiff_t give(void *state, uint8_t *room, size_t len) {
    struct given *it = state;
    size_t left = it->len - it->at, size = left < it->piece ? left : it->piece;
    EXPECT(len > 0 && !it->has_ended);
    if (it->at >= it->fails_at && it->times > 0) {
        it->times--;
        return it->failure;
    }
    if (size > len) size = len;
    if (size > 0) memcpy(room, it->bytes + it->at, size);
    it->at += size;
    it->has_ended = size == 0;
    return (ptrdiff_t)size;
}

/* Returns the contents of a file, which the caller frees. */
static uint8_t *read_file(const char *name, size_t *len) {
    FILE *file = fopen(name, "rb");
    size_t room = 65536;
    uint8_t *bytes = malloc(room);
    if (file == NULL) {
        fprintf(stderr, "cannot read %s\n", name);
        exit(2);
    }
    for (*len = 0; (*len += fread(bytes + *len, 1, room - *len, file)) == room;) {
        bytes = realloc(bytes, room *= 2);
        EXPECT(bytes != NULL);
    }
    fclose(file);
    return bytes;
}

/* ---- a stream, and what it returned ---- */

enum { MOST_THREADS = 128 };

struct seen {
    struct ArrowSchema schema;
    struct ArrowArray *arrays;
    size_t count;
    int status;
    char error[256];
};

/* Asks for the next array once more at the end of a stream: the result is the same. */
static void ask_again(struct ArrowArrayStream *stream, const struct seen *seen) {
    struct ArrowArray array;
    EXPECT(stream->get_next(stream, &array) == seen->status && array.release == NULL);
    if (seen->status == 0) EXPECT(stream->get_last_error(stream) == NULL);
    else EXPECT(strcmp(stream->get_last_error(stream), seen->error) == 0);
}

static void note_error(struct ArrowArrayStream *stream, struct seen *seen) {
    const char *error = stream->get_last_error(stream);
    EXPECT((error == NULL) == (seen->status == 0));
    snprintf(seen->error, sizeof seen->error, "%s", error == NULL ? "" : error);
}

/* Reads a stream to its end or its fault. */
static void read_all(struct ArrowArrayStream *stream, struct seen *seen) {
    struct ArrowArray array;
    memset(seen, 0, sizeof *seen);
    seen->status = stream->get_schema(stream, &seen->schema);
    note_error(stream, seen);
    EXPECT((seen->schema.release != NULL) == (seen->status == 0));
    while (seen->status == 0) {
        seen->status = stream->get_next(stream, &array);
        note_error(stream, seen);
        if (array.release == NULL) break;
        seen->arrays = realloc(seen->arrays, (seen->count + 1) * sizeof array);
        EXPECT(seen->arrays != NULL && seen->status == 0);
        seen->arrays[seen->count++] = array; /* moved, as the interface allows */
    }
    ask_again(stream, seen);
    ask_again(stream, seen);
}

/* A schema that is requested again is the same. */
static void check_same(const struct ArrowSchema *a, const struct ArrowSchema *b) {
    EXPECT(strcmp(a->name, b->name) == 0 && strcmp(a->format, b->format) == 0 && a->flags == b->flags);
    EXPECT((a->metadata == NULL) == (b->metadata == NULL) && a->n_children == b->n_children);
    EXPECT((a->dictionary == NULL) == (b->dictionary == NULL));
    for (int64_t k = 0; k < a->n_children; k++) check_same(a->children[k], b->children[k]);
    if (a->dictionary != NULL) check_same(a->dictionary, b->dictionary);
}

/* Opens a stream of the file in the way that is named. */
static uint32_t open_as(const char *how, const char *name, struct given *given, int *fd, struct ArrowArrayStream *stream) {
    if (strcmp(how, "bytes") == 0) return arrowflow_stream_of_bytes(given->bytes, given->len, limits, stream);
    given->piece = strtoul(how, NULL, 10);
    if (strcmp(how, "fd") != 0) return arrowflow_stream_of(give, given, limits, stream);
    *fd = open(name, O_RDONLY);
    EXPECT(*fd >= 0);
    return arrowflow_stream_of_fd(*fd, limits, stream);
}

/* Reads a file as a stream. The stream and its bytes are freed when this returns. */
static void read_as(const char *how, const char *name, struct seen *seen) {
    struct ArrowArrayStream stream;
    struct ArrowSchema again;
    int fd = -1;
    struct given given = {NULL, 0, 0, 0, SIZE_MAX, 0, 0, false};
    uint8_t *bytes = read_file(name, &given.len);
    given.bytes = bytes;
    EXPECT(open_as(how, name, &given, &fd, &stream) == ARROWFLOW_KIND_FINE);
    EXPECT(stream.get_last_error(&stream) == NULL);
    read_all(&stream, seen);
    EXPECT((stream.get_schema(&stream, &again) == 0) == (seen->schema.release != NULL));
    if (again.release != NULL) {
        check_same(&seen->schema, &again);
        again.release(&again);
        EXPECT(again.release == NULL);
    }
    stream.release(&stream);
    EXPECT(stream.release == NULL);
    free(bytes);
    if (fd >= 0) EXPECT(close(fd) == 0);
}

/* Moves an array out of its parent. */
static struct ArrowArray moved(struct ArrowArray *from) {
    struct ArrowArray to = *from;
    from->release = NULL;
    return to;
}

static void release(struct ArrowArray *array) {
    array->release(array);
    EXPECT(array->release == NULL);
}

static void release_all(struct seen *seen) {
    for (size_t k = 0; k < seen->count; k++) release(seen->arrays + k);
    if (seen->schema.release != NULL) seen->schema.release(&seen->schema);
    free(seen->arrays);
}

/* Checks an array, moves its last child out, and the dictionary or first child of that, and releases each. */
static void take_apart(const struct ArrowSchema *schema, struct ArrowArray *array) {
    check_array(schema, array);
    if (array->n_children == 0) {
        release(array);
        return;
    }
    const struct ArrowSchema *of = schema->children[array->n_children - 1], *of_below;
    struct ArrowArray child = moved(array->children[array->n_children - 1]), below;
    release(array);
    check_array(of, &child);
    bool is_nested = child.dictionary != NULL || child.n_children > 0;
    if (is_nested) {
        of_below = of->dictionary != NULL ? of->dictionary : of->children[0];
        below = moved(child.dictionary != NULL ? child.dictionary : child.children[0]);
    }
    release(&child);
    if (is_nested) {
        check_values(of_below, &below, of->dictionary != NULL);
        release(&below);
    }
}

/* The arrays of a stream that one thread releases: every second one. */
struct share {
    const struct seen *seen;
    size_t first, step;
};

static void *take_share(void *state) {
    const struct share *it = state;
    for (size_t k = it->first; k < it->seen->count; k += it->step) take_apart(&it->seen->schema, it->seen->arrays + k);
    return NULL;
}

/* Releases all arrays, on two threads, and the schema. */
static void let_go(struct seen *seen) {
    struct share here = {seen, 0, 2}, there = {seen, 1, 2};
    pthread_t thread;
    EXPECT(pthread_create(&thread, NULL, take_share, &there) == 0);
    take_share(&here);
    EXPECT(pthread_join(thread, NULL) == 0);
    if (seen->schema.release != NULL) seen->schema.release(&seen->schema);
    EXPECT(seen->schema.release == NULL);
    free(seen->arrays);
}

/* Reports how a stream ended, as the program does. */
static int report_end(const struct seen *seen) {
    const char *meaning = strchr(seen->error, ',');
    if (seen->status == 0) return 0;
    EXPECT(seen->status == EINVAL && strncmp(seen->error, "fault at byte ", 14) == 0 && meaning != NULL);
    fflush(stdout);
    fprintf(stderr, "%.*s\n", (int)(meaning - seen->error), seen->error);
    return 1;
}

/* Whether two arrays of a dictionary use the same memory; Null values have none. */
static bool is_one_memory(const struct ArrowArray *a, const struct ArrowArray *b) {
    if (a->n_buffers > 1) return a->buffers[1] == b->buffers[1];
    return a->n_children > 0 && is_one_memory(a->children[0], b->children[0]);
}

static bool has_memory(const struct ArrowArray *of) {
    return of->n_buffers > 1 || (of->n_children > 0 && has_memory(of->children[0]));
}

/* Checks that a batch's dictionary-encoded column shares the dictionary with the batch before if no message of
 * it arrived in between. */
static void check_shared(const struct seen *seen, size_t batch, size_t column, bool is_new) {
    if (batch == 0) return;
    const struct ArrowArray *now = seen->arrays[batch].children[column]->dictionary;
    const struct ArrowArray *last = seen->arrays[batch - 1].children[column]->dictionary;
    if (has_memory(now) && !is_new) EXPECT(is_one_memory(now, last));
}

/* Whether a text is this one, up to its first zero byte. */
static bool is_text(const char *text, const uint8_t *at, size_t len) {
    const uint8_t *zero = len == 0 ? NULL : memchr(at, 0, len);
    size_t size = zero == NULL ? len : (size_t)(zero - at);
    return strlen(text) == size && memcmp(text, at, size) == 0;
}

/* Checks that a schema is what the reader returns for the field that the path leads to, and for those below it. */
static void check_field(arrowflow_reader *reader, size_t *path, size_t depth, const struct ArrowSchema *schema) {
    arrowflow_field field = arrowflow_reader_field(reader, path, depth, NULL, 0);
    uint8_t *texts = malloc(field.name_len + field.format_len + field.metadata_len + 1), *format, *metadata;
    arrowflow_reader_field(reader, path, depth, texts, field.name_len + field.format_len + field.metadata_len);
    format = texts + field.name_len;
    metadata = format + field.format_len;
    EXPECT(is_text(schema->name, texts, field.name_len) && is_text(schema->format, format, field.format_len));
    EXPECT((schema->metadata == NULL) == (field.metadata_len == 0));
    if (schema->metadata != NULL) EXPECT(memcmp(schema->metadata, metadata, field.metadata_len) == 0);
    EXPECT(schema->flags == field.flags && (uint64_t)schema->n_children == field.children);
    EXPECT((schema->dictionary != NULL) == field.is_encoded);
    free(texts);
    for (size_t k = 0; k < field.children; k++) {
        path[depth] = k;
        check_field(reader, path, depth + 1, schema->children[k]);
    }
    path[depth] = 0;
    if (field.is_encoded) check_field(reader, path, depth + 1, schema->dictionary);
}

/* Checks which columns of the reader's batch share their dictionaries with the batch before, if dictionaries of
 * these ids arrived in between. */
static void check_columns(arrowflow_reader *reader, const struct seen *seen, size_t batch, const int64_t *came, size_t ids) {
    for (size_t k = 0; k < (size_t)seen->schema.n_children; k++) {
        arrowflow_field field = arrowflow_reader_field(reader, &k, 1, NULL, 0);
        bool is_new = false;
        for (size_t i = 0; i < ids; i++) is_new |= came[i] == field.id;
        if (field.is_encoded) check_shared(seen, batch, k, is_new);
    }
}

/* Reads the stream once more, to compare the schema, and to find which dictionaries arrive between batches. */
static void check_beside_reader(const char *name, const struct seen *seen) {
    enum { MOST_IDS = 256, MOST_LEVELS = 64 };
    size_t len, at = 0, batch = 0, ids = 0, path[MOST_LEVELS];
    int64_t came[MOST_IDS];
    uint8_t *bytes = read_file(name, &len);
    arrowflow_reader *reader = NULL;
    arrowflow_step step = {0, 0, 0, 0, 0, 0, 0};
    EXPECT(arrowflow_reader_open(limits, &reader) == ARROWFLOW_KIND_FINE);
    while (batch < seen->count || step.message == ARROWFLOW_MESSAGE_NONE) {
        step = arrowflow_reader_read(reader, bytes + at, len - at);
        EXPECT(step.kind == ARROWFLOW_KIND_FINE && step.message != ARROWFLOW_MESSAGE_NONE && ids < MOST_IDS);
        at += step.taken;
        if (step.message == ARROWFLOW_MESSAGE_SCHEMA) check_field(reader, path, 0, &seen->schema);
        if (step.message == ARROWFLOW_MESSAGE_DICTIONARY) came[ids++] = step.id;
        if (step.message != ARROWFLOW_MESSAGE_BATCH) continue;
        check_columns(reader, seen, batch++, came, ids);
        ids = 0;
    }
    arrowflow_reader_close(reader);
    free(bytes);
}

static int show(const char *how, const char *name) {
    struct seen seen;
    read_as(how, name, &seen);
    if (seen.schema.release != NULL) {
        check_schema(&seen.schema);
        EXPECT(is_format(&seen.schema, "+s"));
        check_beside_reader(name, &seen);
        print_names(&seen.schema);
    }
    for (size_t k = 0; k < seen.count; k++) {
        check_array(&seen.schema, seen.arrays + k);
        EXPECT(seen.arrays[k].buffers[0] == NULL);
        print_rows(k, &seen.schema, seen.arrays + k);
    }
    int status = report_end(&seen);
    let_go(&seen);
    return status;
}

/* Prints the rows of each array, and releases it before the next one is requested. */
static int show_each(const char *name) {
    struct ArrowArrayStream stream;
    struct ArrowSchema schema;
    struct ArrowArray array;
    size_t len;
    uint8_t *bytes = read_file(name, &len);
    EXPECT(arrowflow_stream_of_bytes(bytes, len, limits, &stream) == ARROWFLOW_KIND_FINE);
    EXPECT(stream.get_schema(&stream, &schema) == 0);
    print_names(&schema);
    for (size_t k = 0; stream.get_next(&stream, &array) == 0 && array.release != NULL; k++) {
        check_array(&schema, &array);
        print_rows(k, &schema, &array);
        release(&array);
    }
    EXPECT(stream.get_last_error(&stream) == NULL);
    stream.release(&stream);
    schema.release(&schema);
    free(bytes);
    return 0;
}

/* Prints how many arrays a stream returns, without reading them, and the text at the end. */
static int print_ends(const char *name) {
    struct seen seen;
    read_as("bytes", name, &seen);
    bool is_long = strstr(seen.error, "too long") != NULL;
    EXPECT(is_long == (seen.status == EOVERFLOW));
    printf("%zu, %s\n", seen.count, seen.status == 0 ? "the end" : seen.error);
    release_all(&seen);
    return 0;
}

/* Prints how often a buffer of the first column's dictionary has another address than in the array before,
 * which is kept until the next one is read: all values were copied then, and otherwise only appended. */
static int print_growth(const char *name) {
    struct ArrowArrayStream stream;
    struct ArrowArray last = {0, 0, 0, 0, 0, NULL, NULL, NULL, NULL, NULL}, array;
    size_t len, count = 0, moves = 0;
    uint8_t *bytes = read_file(name, &len);
    EXPECT(arrowflow_stream_of_bytes(bytes, len, limits, &stream) == ARROWFLOW_KIND_FINE);
    for (; stream.get_next(&stream, &array) == 0 && array.release != NULL; last = array, count++) {
        const struct ArrowArray *values = array.children[0]->dictionary;
        for (int64_t k = 1; k < values->n_buffers && count > 0; k++)
            moves += values->buffers[k] != last.children[0]->dictionary->buffers[k];
        if (count > 0) release(&last);
    }
    EXPECT(stream.get_last_error(&stream) == NULL && count > 0);
    printf("%zu, of %lld values, %zu\n", count, (long long)last.children[0]->dictionary->length, moves);
    release(&last);
    stream.release(&stream);
    free(bytes);
    return 0;
}

/* A call of get_next, on a thread of its own. */
struct asked {
    struct ArrowArrayStream *stream;
    struct ArrowArray array;
    int status;
};

static void *ask(void *state) {
    struct asked *it = state;
    it->status = it->stream->get_next(it->stream, &it->array);
    return NULL;
}

static int ask_elsewhere(struct ArrowArrayStream *stream, struct ArrowArray *out) {
    struct asked asked = {stream, *out, 0};
    pthread_t thread;
    EXPECT(pthread_create(&thread, NULL, ask, &asked) == 0 && pthread_join(thread, NULL) == 0);
    *out = asked.array;
    return asked.status;
}

/* Requests each array on a thread, and passes it to another one as soon as it is there. */
static int in_threads(const char *name) {
    struct ArrowArrayStream stream;
    struct ArrowArray array = {0, 0, 0, 0, 0, NULL, NULL, NULL, NULL, NULL};
    pthread_t threads[MOST_THREADS];
    struct seen seen[MOST_THREADS];
    struct share all[MOST_THREADS];
    size_t len, count = 0;
    uint8_t *bytes = read_file(name, &len);
    int status = 0;
    is_growing = true;
    EXPECT(arrowflow_stream_of_bytes(bytes, len, limits, &stream) == ARROWFLOW_KIND_FINE);
    while (status == 0 && count < MOST_THREADS) {
        struct seen *it = seen + count;
        memset(it, 0, sizeof *it);
        status = stream.get_schema(&stream, &it->schema);
        if (status == 0) status = ask_elsewhere(&stream, &array);
        if (status != 0 || array.release == NULL) {
            if (it->schema.release != NULL) it->schema.release(&it->schema);
            break;
        }
        it->arrays = malloc(sizeof array);
        it->count = 1;
        it->arrays[0] = array;
        all[count] = (struct share){it, 0, 1};
        EXPECT(pthread_create(threads + count, NULL, take_share, all + count) == 0);
        count++;
    }
    stream.release(&stream);
    for (size_t k = 0; k < count; k++) {
        EXPECT(pthread_join(threads[k], NULL) == 0);
        seen[k].schema.release(&seen[k].schema);
        free(seen[k].arrays);
    }
    free(bytes);
    return status != 0;
}

/* ---- what fails ---- */

/* Invalid limits, and streams that are released before anything was read. */
static void bad_limits(void) {
    struct ArrowArrayStream stream;
    struct given given = {NULL, 0, 0, 1, SIZE_MAX, 0, 0, false};
    arrowflow_limits high = limits;
    high.max_rows = UINT64_MAX;
    EXPECT(arrowflow_stream_of_bytes(NULL, 0, high, &stream) == ARROWFLOW_KIND_BAD_LIMITS && stream.release == NULL);
    EXPECT(arrowflow_stream_of_fd(0, high, &stream) == ARROWFLOW_KIND_BAD_LIMITS && stream.release == NULL);
    EXPECT(arrowflow_stream_of(give, &given, high, &stream) == ARROWFLOW_KIND_BAD_LIMITS && stream.release == NULL);
    EXPECT(arrowflow_stream_of(give, &given, limits, &stream) == ARROWFLOW_KIND_FINE);
    stream.release(&stream);
    EXPECT(arrowflow_stream_of_bytes(NULL, 0, limits, &stream) == ARROWFLOW_KIND_FINE);
    struct seen seen;
    read_all(&stream, &seen);
    EXPECT(seen.status == EINVAL && strcmp(seen.error, "fault at byte 0: NoSchema, the stream ended before a schema") == 0);
    stream.release(&stream);
}

/* A stream that breaks at each offset: its arrays are the first ones, and the fault is returned again. */
static void bad_ends(const uint8_t *bytes, size_t len, size_t batches) {
    size_t arrays = 0;
    for (size_t cut = 0; cut < len; cut++) {
        struct ArrowArrayStream stream;
        struct seen seen;
        char wanted[160];
        uint8_t *front = malloc(cut + 1);
        memcpy(front, bytes, cut);
        arrowflow_report report = arrowflow_check(front, cut, limits);
        EXPECT(arrowflow_stream_of_bytes(front, cut, limits, &stream) == ARROWFLOW_KIND_FINE);
        read_all(&stream, &seen);
        stream.release(&stream);
        free(front);
        EXPECT(arrowflow_error_text(report.kind, report.place, wanted, sizeof wanted) < sizeof wanted);
        EXPECT(seen.status == (report.kind == ARROWFLOW_KIND_FINE ? 0 : EINVAL) && seen.count == report.batches);
        EXPECT(report.kind == ARROWFLOW_KIND_FINE || strcmp(seen.error, wanted) == 0);
        arrays += seen.count;
        for (size_t k = 0; k < seen.count; k++) check_array(&seen.schema, seen.arrays + k);
        release_all(&seen);
    }
    EXPECT(batches == 0 || arrays > 0);
}

/* Reads through a callback that fails at an offset this many times. */
static int read_failing(struct given given, struct seen *seen, struct ArrowArrayStream *stream) {
    struct given *kept = malloc(sizeof given);
    *kept = given;
    EXPECT(arrowflow_stream_of(give, kept, limits, stream) == ARROWFLOW_KIND_FINE);
    read_all(stream, seen);
    int left = kept->times;
    stream->release(stream);
    free(kept);
    return left;
}

/* Callbacks that fail: one failure is permanent, and the text says why. A count above the buffer's size is a
 * failure. */
static void bad_reads(const uint8_t *bytes, size_t len, size_t batches) {
    const int failures[] = {-EIO, -ECONNRESET, 65537, INT32_MIN};
    const int statuses[] = {EIO, ECONNRESET, EIO, EIO};
    for (size_t k = 0; k < sizeof failures / sizeof *failures; k++)
        for (size_t at = 0; at <= len; at += len / 7 + 1) {
            struct ArrowArrayStream stream;
            struct seen seen;
            struct given given = {bytes, len, 0, 13, at, failures[k], 3, false};
            int left = read_failing(given, &seen, &stream);
            EXPECT(left == 2 && seen.status == statuses[k]);
            EXPECT(strncmp(seen.error, "read failed: ", 13) == 0 && strcmp(seen.error + 13, strerror(statuses[k])) == 0);
            EXPECT(seen.count <= batches);
            release_all(&seen);
        }
}

/* Streams that are released after a schema, and after each number of arrays, which stay valid. */
static void released_between(const uint8_t *bytes, size_t len, size_t batches) {
    for (size_t most = 0; most <= batches; most++) {
        struct ArrowArrayStream stream;
        struct seen seen;
        memset(&seen, 0, sizeof seen);
        seen.arrays = calloc(batches, sizeof *seen.arrays);
        EXPECT(arrowflow_stream_of_bytes(bytes, len, limits, &stream) == ARROWFLOW_KIND_FINE);
        EXPECT(seen.arrays != NULL && stream.get_schema(&stream, &seen.schema) == 0);
        for (; seen.count < most; seen.count++) EXPECT(stream.get_next(&stream, seen.arrays + seen.count) == 0);
        stream.release(&stream);
        EXPECT(stream.release == NULL);
        for (size_t k = 0; k < seen.count; k++) check_array(&seen.schema, seen.arrays + k);
        release_all(&seen);
    }
}

/* A callback that is out of memory does not end the stream: it continues when it is called again. */
static void scarce_reads(const uint8_t *bytes, size_t len, size_t batches) {
    struct ArrowArrayStream stream;
    struct given given = {bytes, len, 0, 13, len / 2, -ENOMEM, 3, false};
    size_t count = 0, refused = 0;
    EXPECT(arrowflow_stream_of(give, &given, limits, &stream) == ARROWFLOW_KIND_FINE);
    for (;;) {
        struct ArrowArray array;
        int status = stream.get_next(&stream, &array);
        EXPECT((status == 0) == (stream.get_last_error(&stream) == NULL));
        if (status == ENOMEM) {
            EXPECT(array.release == NULL);
            refused++;
            continue;
        }
        EXPECT(status == 0);
        if (array.release == NULL) break;
        release(&array);
        count++;
    }
    EXPECT(count == batches && refused == 3);
    stream.release(&stream);
}

static atomic_int alarms = 0;

static void note_alarm(int number) { atomic_fetch_add(&alarms, number == SIGALRM); }

/* Bytes that are written to a pipe after reads of it were interrupted. */
struct late {
    const uint8_t *bytes;
    size_t len;
    int fd;
};

static void *write_late(void *state) {
    const struct late *it = state;
    const struct timespec pause = {0, 2000000};
    sigset_t alarm;
    sigemptyset(&alarm);
    sigaddset(&alarm, SIGALRM);
    pthread_sigmask(SIG_BLOCK, &alarm, NULL);
    while (atomic_load(&alarms) < 3) nanosleep(&pause, NULL);
    for (size_t at = 0; at < it->len;) {
        ssize_t put = write(it->fd, it->bytes + at, it->len - at < 1000 ? it->len - at : 1000);
        EXPECT(put > 0);
        at += (size_t)put;
    }
    EXPECT(close(it->fd) == 0);
    return NULL;
}

/* A read that a signal interrupts is made again; a closed file descriptor is a failure. */
static void interrupted_reads(const uint8_t *bytes, size_t len, size_t batches) {
    const struct itimerval often = {{0, 1000}, {0, 1000}}, never = {{0, 0}, {0, 0}};
    struct ArrowArrayStream stream;
    struct sigaction action;
    struct seen seen;
    pthread_t thread;
    int ends[2];
    EXPECT(pipe(ends) == 0);
    struct late late = {bytes, len, ends[1]};
    memset(&action, 0, sizeof action);
    action.sa_handler = note_alarm;
    EXPECT(sigaction(SIGALRM, &action, NULL) == 0);
    EXPECT(pthread_create(&thread, NULL, write_late, &late) == 0);
    EXPECT(setitimer(ITIMER_REAL, &often, NULL) == 0);
    EXPECT(arrowflow_stream_of_fd(ends[0], limits, &stream) == ARROWFLOW_KIND_FINE);
    read_all(&stream, &seen);
    EXPECT(setitimer(ITIMER_REAL, &never, NULL) == 0);
    EXPECT(seen.status == 0 && seen.count == batches && atomic_load(&alarms) >= 3);
    EXPECT(pthread_join(thread, NULL) == 0);
    stream.release(&stream);
    release_all(&seen);
    EXPECT(close(ends[0]) == 0);
    EXPECT(arrowflow_stream_of_fd(ends[0], limits, &stream) == ARROWFLOW_KIND_FINE);
    read_all(&stream, &seen);
    EXPECT(seen.status == EBADF && seen.schema.release == NULL);
    stream.release(&stream);
}

static int bad(const char *name) {
    size_t len;
    uint8_t *bytes = read_file(name, &len);
    arrowflow_report report = arrowflow_check(bytes, len, limits);
    EXPECT(report.kind == ARROWFLOW_KIND_FINE && report.batches > 0);
    bad_limits();
    bad_ends(bytes, len, report.batches);
    bad_reads(bytes, len, report.batches);
    released_between(bytes, len, report.batches);
    scarce_reads(bytes, len, report.batches);
    interrupted_reads(bytes, len, report.batches);
    free(bytes);
    return 0;
}

int main(int argc, char **argv) {
    limits = arrowflow_standard_limits();
    if (argc > 3 && strcmp(argv[1], "--types") == 0) {
        limits.types = strcmp(argv[2], "all") == 0 ? ARROWFLOW_TYPES_ALL : ARROWFLOW_TYPES_CORE;
        argv += 2;
        argc -= 2;
    }
    if (argc == 3 && strcmp(argv[1], "--bad") == 0) return bad(argv[2]);
    if (argc == 3 && strcmp(argv[1], "threads") == 0) return in_threads(argv[2]);
    if (argc == 3 && strcmp(argv[1], "each") == 0) return show_each(argv[2]);
    if (argc == 3 && strcmp(argv[1], "ends") == 0) return print_ends(argv[2]);
    if (argc == 3 && strcmp(argv[1], "grows") == 0) return print_growth(argv[2]);
    if (argc == 4 && strcmp(argv[1], "show") == 0) return show(argv[2], argv[3]);
    fprintf(stderr, "usage: stream [--types core|all] show bytes|fd|SIZE FILE, stream [--types core|all] threads FILE, "
                    "stream each FILE, stream ends FILE, stream grows FILE, stream --bad FILE\n");
    return 2;
}
