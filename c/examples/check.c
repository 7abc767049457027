/* usage: check [--types core|all] schema|check|show FILE, check --bad [FILE..]
 *
 * Prints what `arrowflow schema`, `check` and `show` print for a stream, and exits with the same status. Before
 * that it checks the stream, and reads it again in pieces, which must have the same result. Each value must be
 * in the buffers of its column, and the fields that a reader returns must make the text of the schema. With
 * --bad each call is passed invalid streams, and paths that lead to nothing.
 */
#include "arrowflow.h"

#include <math.h>
#include <stdio.h>
#include <stdlib.h>
#include <string.h>

/* The types that are accepted: enum arrowflow_types. */
static uint32_t types = ARROWFLOW_TYPES_CORE;

static arrowflow_limits wanted_limits(void) {
    arrowflow_limits limits = arrowflow_standard_limits();
    limits.types = types;
    return limits;
}

/* Returns the contents of a file, which the caller frees, or NULL. */
static uint8_t *read_file(const char *name, size_t *len) {
    FILE *file = fopen(name, "rb");
    size_t room = 65536;
    uint8_t *bytes = file == NULL ? NULL : malloc(room);
    *len = 0;
    while (bytes != NULL) {
        *len += fread(bytes + *len, 1, room - *len, file);
        if (*len < room) break;
        uint8_t *more = realloc(bytes, room *= 2);
        if (more == NULL) free(bytes);
        bytes = more;
    }
    if (file != NULL) fclose(file);
    return bytes;
}

/* The number in this many bytes, the least significant first. */
static uint64_t number_at(const uint8_t *at, size_t width) {
    uint64_t number = 0;
    for (size_t k = width; k-- > 0;) number = number << 8 | at[k];
    return number;
}

/* The same for slot i of numbers or indices; a negative one as two's complement of 64 bits. */
static uint64_t number_of(const arrowflow_column *of, size_t i) {
    uint64_t number = number_at(of->values + of->width * i, of->width);
    bool is_negative = of->has_sign && of->width < 8 && number >> (8 * of->width - 1);
    return is_negative ? number | UINT64_MAX << 8 * of->width : number;
}

/* The floating-point number of two bytes (IEEE 754, binary16). */
static double half_at(uint64_t bits) {
    int exponent = bits >> 10 & 31;
    double digits = (double)(bits & 1023), size = ldexp(exponent == 0 ? digits : digits + 1024, (exponent ? exponent : 1) - 25);
    if (exponent == 31) size = digits > 0 ? (double)NAN : (double)INFINITY;
    return bits >> 15 ? -size : size;
}

/* Whether a cell has the floating-point number of slot i, including a zero's sign; for a NaN, any NaN. */
static bool has_float(const arrowflow_column *of, size_t i, arrowflow_cell cell) {
    uint64_t bits = number_at(of->values + of->width * i, of->width);
    uint32_t single_bits = (uint32_t)bits;
    float single;
    double real;
    memcpy(&single, &single_bits, sizeof single);
    memcpy(&real, &bits, sizeof real);
    if (of->width < 8) real = of->width == 4 ? (double)single : half_at(bits);
    if (cell.type != ARROWFLOW_CELL_FLOAT || isnan(real)) return cell.type == ARROWFLOW_CELL_FLOAT && isnan(cell.real);
    return memcmp(&real, &cell.real, sizeof real) == 0;
}

/* Whether a cell has the number of slot i; a number of more than 64 bits is not in the cell. */
static bool has_number(const arrowflow_column *of, size_t i, arrowflow_cell cell) {
    uint64_t number = number_of(of, i), above = 0;
    if (of->width > 8) {
        above = number_at(of->values + of->width * i + 8, of->width - 8);
        if (above == (number >> 63 ? UINT64_MAX : 0)) return cell.type == ARROWFLOW_CELL_NUMBER && (uint64_t)cell.number == number;
        if (above != 0) return cell.type == ARROWFLOW_CELL_HUGE;
    }
    if (cell.type == ARROWFLOW_CELL_NUMBER) return (uint64_t)cell.number == number;
    return cell.type == ARROWFLOW_CELL_LARGE && cell.large == number;
}

static bool bit_at(const uint8_t *bits, size_t i) { return bits[i / 8] >> i % 8 & 1; }

/* Whether a cell has exactly these bytes, which the call wrote to the buffer. */
static bool has_bytes(arrowflow_cell cell, uint32_t what, const uint8_t *room, const uint8_t *from, size_t len) {
    return cell.type == what && cell.size == len && memcmp(room, from, len < 64 ? len : 64) == 0;
}

/* Whether the value of a cell is the one in slot i of the column that the path leads to. */
static bool is_in_column(arrowflow_reader *reader, size_t *path, size_t depth, size_t i, arrowflow_cell cell,
                         const uint8_t *room) {
    arrowflow_column of = arrowflow_reader_column(reader, path, depth), below;
    uint64_t start = 0, end = 0;
    if (of.layout == ARROWFLOW_LAYOUT_NONE || i >= of.slots) return false;
    if (of.layout == ARROWFLOW_LAYOUT_NULLS || (of.validity_len > 0 && !bit_at(of.validity, i)))
        return cell.type == ARROWFLOW_CELL_NULL;
    if (of.layout == ARROWFLOW_LAYOUT_BINARIES || of.layout == ARROWFLOW_LAYOUT_TEXTS || of.layout == ARROWFLOW_LAYOUT_LISTS) {
        start = number_at(of.offsets + of.width * i, of.width);
        end = number_at(of.offsets + of.width * (i + 1), of.width);
    }
    switch (of.layout) {
    case ARROWFLOW_LAYOUT_BITS: return cell.type == ARROWFLOW_CELL_BOOL && cell.truth == bit_at(of.values, i);
    case ARROWFLOW_LAYOUT_NUMBERS: return has_number(&of, i, cell);
    case ARROWFLOW_LAYOUT_FLOATS: return has_float(&of, i, cell);
    case ARROWFLOW_LAYOUT_BINARIES: return has_bytes(cell, ARROWFLOW_CELL_BYTES, room, of.values + start, end - start);
    case ARROWFLOW_LAYOUT_TEXTS: return has_bytes(cell, ARROWFLOW_CELL_TEXT, room, of.values + start, end - start);
    case ARROWFLOW_LAYOUT_FIXED_BYTES: return has_bytes(cell, ARROWFLOW_CELL_BYTES, room, of.values + of.width * i, of.width);
    case ARROWFLOW_LAYOUT_INDICES:
        path[depth] = number_of(&of, i);
        below = arrowflow_reader_column(reader, path, depth + 1);
        return path[depth] < of.entries && is_in_column(reader, path, depth + 1, below.slot, cell, room);
    default:
        path[depth] = 0;
        below = arrowflow_reader_column(reader, path, depth + 1);
        if (of.layout == ARROWFLOW_LAYOUT_FIXED_LISTS)
            return cell.type == ARROWFLOW_CELL_LIST && of.children == 1 && of.width * (i + 1) <= below.slots;
        if (of.layout == ARROWFLOW_LAYOUT_LISTS) return cell.type == ARROWFLOW_CELL_LIST && start <= end && end <= below.slots;
        return cell.type == ARROWFLOW_CELL_STRUCT && (of.children == 0 || i < below.slots);
    }
}

/* Whether each value of the last batch is in the buffers of its column. */
static bool are_in_columns(arrowflow_reader *reader, arrowflow_step step) {
    for (size_t column = 0; column < step.columns; column++)
        for (size_t row = 0; row < step.rows; row++) {
            uint8_t room[64];
            size_t path[8] = {column};
            arrowflow_cell cell = arrowflow_reader_cell(reader, column, row, room, sizeof room);
            if (!is_in_column(reader, path, 1, row, cell, room)) return false;
        }
    return true;
}

/* What a reader returns if the stream comes in pieces of this length. */
static arrowflow_report in_pieces(const uint8_t *bytes, size_t len, size_t piece) {
    arrowflow_reader *reader = NULL;
    arrowflow_report found = {0, false, 0, 0, 0};
    arrowflow_step step = {0, 0, 0, 0, 0, 0, 0};
    found.kind = arrowflow_reader_open(wanted_limits(), &reader);
    for (size_t at = 0; at < len && found.kind == ARROWFLOW_KIND_FINE && !found.ended; at += step.taken) {
        size_t given = len - at < piece ? len - at : piece;
        step = arrowflow_reader_read(reader, bytes + at, given);
        found.kind = step.kind;
        found.ended = step.message == ARROWFLOW_MESSAGE_END;
        if (step.message == ARROWFLOW_MESSAGE_BATCH && are_in_columns(reader, step)) {
            found.batches++;
            found.rows += step.rows;
        }
        found.place += step.taken;
    }
    arrowflow_fault end = arrowflow_reader_end(reader);
    arrowflow_reader_close(reader);
    found.kind = end.kind;
    if (end.kind != ARROWFLOW_KIND_FINE) found.place = end.place;
    return found;
}

static bool is_same(arrowflow_report a, arrowflow_report b) {
    return a.kind == b.kind && a.ended == b.ended && a.place == b.place && a.batches == b.batches
        && a.rows == b.rows;
}

/* ---- the fields of a schema ---- */

/* A text to which bytes are added. */
typedef struct {
    char *at;
    size_t len, room;
} text;

static void add(text *to, const char *bytes, size_t len) {
    if (to->len + len > to->room) {
        to->room = 2 * (to->len + len);
        to->at = realloc(to->at, to->room);
        if (to->at == NULL) exit(4);
    }
    memcpy(to->at + to->len, bytes, len);
    to->len += len;
}

static void add_word(text *to, const char *word) { add(to, word, strlen(word)); }

/* Adds a name as it is in the text of a schema. */
static void add_escaped(text *to, const char *name, size_t len) {
    for (size_t k = 0; k < len; k++) {
        unsigned char byte = (unsigned char)name[k];
        char number[8];
        snprintf(number, sizeof number, "\\x%02x", byte);
        if (byte < 32 || byte == 127 || byte == 92) add_word(to, number);
        else add(to, name + k, 1);
    }
}

/* The text of a schema for each format string that describes a type completely. */
static const char *const type_words[][2] = {
    {"n", "null"},         {"b", "bool"},          {"c", "int8"},          {"C", "uint8"},         {"s", "int16"},
    {"S", "uint16"},       {"i", "int32"},         {"I", "uint32"},        {"l", "int64"},         {"L", "uint64"},
    {"e", "halffloat"},    {"f", "float"},         {"g", "double"},        {"z", "binary"},        {"Z", "large_binary"},
    {"u", "utf8"},         {"U", "large_utf8"},    {"tdD", "date[day]"},   {"tdm", "date[ms]"},    {"tts", "time[s]"},
    {"ttm", "time[ms]"},   {"ttu", "time[us]"},    {"ttn", "time[ns]"},    {"tDs", "duration[s]"}, {"tDm", "duration[ms]"},
    {"tDu", "duration[us]"}, {"tDn", "duration[ns]"}, {"tiM", "month_interval"}, {"tiD", "day_time_interval"},
    {"tin", "month_day_nano_interval"}, {"+l", "list"}, {"+L", "large_list"}, {"+m", "map"}, {"+s", "struct"},
};

/* The text of a unit of timestamps, after "timestamp[". */
static const char *unit_word(char unit) {
    return unit == 's' ? "s" : unit == 'm' ? "ms" : unit == 'u' ? "us" : unit == 'n' ? "ns" : "?";
}

/* Adds the type of a decimal. The format is what follows "d:": digits, scale, and bits if they are not 128. */
static void add_decimal(text *to, const char *format, size_t len) {
    const char *end = format + len, *scale = memchr(format, ',', len);
    const char *bits = scale == NULL ? NULL : memchr(scale + 1, ',', (size_t)(end - scale - 1));
    if (scale == NULL) return;
    add_word(to, "decimal");
    if (bits == NULL) add_word(to, "128");
    else add(to, bits + 1, (size_t)(end - bits - 1));
    add_word(to, "(");
    add(to, format, (size_t)(scale - format));
    add_word(to, ", ");
    add(to, scale + 1, (size_t)((bits == NULL ? end : bits) - scale - 1));
    add_word(to, ")");
}

/* Adds the type that a format string describes. */
static void add_type(text *to, const char *format, size_t len) {
    if (len >= 2 && memcmp(format, "d:", 2) == 0) {
        add_decimal(to, format + 2, len - 2);
    } else if (len >= 2 && memcmp(format, "w:", 2) == 0) {
        add_word(to, "fixed_size_binary[");
        add(to, format + 2, len - 2);
        add_word(to, "]");
    } else if (len >= 3 && memcmp(format, "+w:", 3) == 0) {
        add_word(to, "fixed_size_list[");
        add(to, format + 3, len - 3);
        add_word(to, "]");
    } else if (len >= 4 && memcmp(format, "ts", 2) == 0 && format[3] == ':') {
        add_word(to, "timestamp[");
        add_word(to, unit_word(format[2]));
        if (len > 4) add_word(to, ", ");
        add_escaped(to, format + 4, len - 4);
        add_word(to, "]");
    } else {
        for (size_t k = 0; k < sizeof type_words / sizeof *type_words; k++)
            if (strlen(type_words[k][0]) == len && memcmp(type_words[k][0], format, len) == 0) add_word(to, type_words[k][1]);
    }
}

/* The field that a path leads to, with its texts, which the caller frees: a first call returns their size. */
static arrowflow_field field_at(arrowflow_reader *reader, const size_t *path, size_t depth, char **texts) {
    arrowflow_field of = arrowflow_reader_field(reader, path, depth, NULL, 0);
    size_t size = of.name_len + of.format_len + of.metadata_len;
    *texts = malloc(size + 1);
    if (*texts == NULL) exit(4);
    return arrowflow_reader_field(reader, path, depth, (uint8_t *)*texts, size);
}

/* Adds the line of a field, and those of the fields below it, as they are in the text of a schema. */
static void add_field(text *to, arrowflow_reader *reader, size_t *path, size_t depth, size_t level) {
    char *texts, *value_texts, id[64];
    arrowflow_field of = field_at(reader, path, depth, &texts), values = of;
    for (size_t k = 0; k < level; k++) add_word(to, "  ");
    add_escaped(to, texts, of.name_len);
    add_word(to, of.is_encoded ? ": dictionary<" : ": ");
    add_type(to, texts + of.name_len, of.format_len);
    if (of.flags & ARROWFLOW_FLAG_MAP_KEYS_SORTED) add_word(to, "[sorted]");
    if (of.is_encoded) {
        path[depth++] = 0;
        values = field_at(reader, path, depth, &value_texts);
        add_word(to, ", ");
        add_type(to, value_texts + values.name_len, values.format_len);
        if (values.flags & ARROWFLOW_FLAG_MAP_KEYS_SORTED) add_word(to, "[sorted]");
        snprintf(id, sizeof id, "> id %lld", (long long)of.id);
        add_word(to, id);
        if (of.flags & ARROWFLOW_FLAG_ORDERED) add_word(to, " ordered");
        free(value_texts);
    }
    add_word(to, of.flags & ARROWFLOW_FLAG_NULLABLE ? "\n" : " not null\n");
    for (path[depth] = 0; path[depth] < values.children; path[depth]++) {
        size_t child = path[depth];
        add_field(to, reader, path, depth + 1, level + 1);
        path[depth] = child;
    }
    free(texts);
}

/* How many bytes of a text say that a time zone is present and empty: a format string does not distinguish that
 * from no time zone. */
static size_t empty_zone(const char *at, size_t len) { return len > 2 && memcmp(at, ", ]", 3) == 0 ? 2 : 0; }

/* Whether two texts of a schema are equal except for that. */
static bool is_same_text(const char *a, size_t a_len, const char *b, size_t b_len) {
    size_t j = 0, k = 0;
    while (true) {
        j += empty_zone(a + j, a_len - j);
        k += empty_zone(b + k, b_len - k);
        if (j == a_len || k == b_len) return j == a_len && k == b_len;
        if (a[j++] != b[k++]) return false;
    }
}

/* Whether the fields that a reader returns for the stream's schema make its text. */
static bool has_fields(const uint8_t *bytes, size_t len, const char *expected, size_t size) {
    arrowflow_reader *reader = NULL;
    text result = {NULL, 0, 0};
    size_t path[72] = {0};
    bool same = arrowflow_reader_open(wanted_limits(), &reader) == ARROWFLOW_KIND_FINE
        && arrowflow_reader_read(reader, bytes, len).message == ARROWFLOW_MESSAGE_SCHEMA;
    arrowflow_field schema = arrowflow_reader_field(reader, NULL, 0, NULL, 0);
    for (size_t k = 0; k < schema.children; k++) {
        path[0] = k;
        add_field(&result, reader, path, 1, 0);
    }
    same = same && is_same_text(result.at == NULL ? "" : result.at, result.len, expected, size);
    arrowflow_reader_close(reader);
    free(result.at);
    return same;
}

/* ---- texts ---- */

typedef arrowflow_text (*call)(const uint8_t *, size_t, arrowflow_limits, uint8_t *, size_t);

/* The call for a command's name, or NULL. */
static call named(const char *command) {
    if (strcmp(command, "schema") == 0) return arrowflow_schema;
    if (strcmp(command, "check") == 0) return arrowflow_messages;
    if (strcmp(command, "show") == 0) return arrowflow_show;
    return NULL;
}

/* Prints the text that a call returns for the stream: the first call returns its size, the second one writes
 * it. The text of a schema must be that of the fields that a reader returns. */
static arrowflow_text print(call give, const uint8_t *bytes, size_t len, bool *same) {
    arrowflow_limits limits = wanted_limits();
    uint8_t none;
    arrowflow_text result = give(bytes, len, limits, &none, 0);
    uint8_t *out = malloc(result.size + 1);
    if (out != NULL) result = give(bytes, len, limits, out, result.size);
    if (out == NULL || fwrite(out, 1, result.size, stdout) != result.size || fflush(stdout) != 0)
        result.kind = ARROWFLOW_KIND_MEMORY;
    if (give == arrowflow_schema && result.kind == ARROWFLOW_KIND_FINE && !has_fields(bytes, len, (char *)out, result.size))
        *same = false;
    free(out);
    return result;
}

static int run_command(const char *command, const char *name) {
    size_t len;
    call give = named(command);
    uint8_t *bytes = give == NULL ? NULL : read_file(name, &len);
    if (bytes == NULL) {
        fprintf(stderr, "cannot read %s\n", name);
        return 2;
    }
    arrowflow_report report = arrowflow_check(bytes, len, wanted_limits());
    bool same = is_same(report, in_pieces(bytes, len, 7)) && is_same(report, in_pieces(bytes, len, len));
    arrowflow_text result = print(give, bytes, len, &same);
    free(bytes);
    /* the call for the schema reads only the first message */
    if (give != arrowflow_schema && result.kind != report.kind) same = false;
    if (!same) {
        fprintf(stderr, "two calls disagree\n");
        return 3;
    }
    if (result.kind == ARROWFLOW_KIND_FINE) return 0;
    fprintf(stderr, "fault at byte %llu: %s\n", (unsigned long long)result.place, arrowflow_kind_name(result.kind));
    return 1;
}

static int failed = 0;

#define EXPECT(fact)                                                        \
    do {                                                                    \
        if (!(fact)) {                                                      \
            fprintf(stderr, "%s:%d: not so: %s\n", __FILE__, __LINE__, #fact); \
            failed = 1;                                                     \
        }                                                                   \
    } while (0)

/* The calls on complete streams, with no bytes, bytes that are no stream, a buffer of no bytes and bad limits. */
static void bad_streams(void) {
    const call calls[] = {arrowflow_schema, arrowflow_messages, arrowflow_show};
    const uint8_t junk[8] = {1, 2, 3, 4, 5, 6, 7, 8};
    const arrowflow_options options = {false, false};
    arrowflow_limits fine = arrowflow_standard_limits(), high = fine;
    high.max_metadata = UINT64_MAX;
    arrowflow_limits other = fine;
    other.types = 2;
    uint8_t room[4] = {9, 9, 9, 9};
    EXPECT(arrowflow_check(NULL, 0, fine).kind == ARROWFLOW_KIND_NO_SCHEMA);
    EXPECT(arrowflow_check(junk, 0, fine).kind == ARROWFLOW_KIND_NO_SCHEMA);
    EXPECT(arrowflow_check(junk, 8, fine).kind == ARROWFLOW_KIND_CONTINUATION);
    EXPECT(arrowflow_check(junk, 8, high).kind == ARROWFLOW_KIND_BAD_LIMITS);
    EXPECT(arrowflow_check(junk, 8, other).kind == ARROWFLOW_KIND_BAD_LIMITS);
    EXPECT(arrowflow_copy(NULL, 0, fine, options, NULL, 0).kind == ARROWFLOW_KIND_NO_SCHEMA);
    EXPECT(arrowflow_copy(junk, 8, fine, options, room, 4).kind == ARROWFLOW_KIND_CONTINUATION);
    EXPECT(arrowflow_copy(junk, 8, high, options, room, 4).kind == ARROWFLOW_KIND_BAD_LIMITS);
    EXPECT(arrowflow_schema(NULL, 0, fine, NULL, 0).kind == ARROWFLOW_KIND_NO_SCHEMA);
    EXPECT(arrowflow_messages(NULL, 0, fine, NULL, 0).kind == ARROWFLOW_KIND_NO_SCHEMA);
    EXPECT(arrowflow_show(NULL, 0, fine, NULL, 0).kind == ARROWFLOW_KIND_NO_SCHEMA);
    for (size_t i = 0; i < sizeof calls / sizeof *calls; i++) {
        EXPECT(calls[i](junk, 8, fine, room, 4).kind == ARROWFLOW_KIND_CONTINUATION);
        EXPECT(calls[i](junk, 8, high, room, 4).kind == ARROWFLOW_KIND_BAD_LIMITS);
        EXPECT(calls[i](junk, 8, other, room, 4).kind == ARROWFLOW_KIND_BAD_LIMITS);
        EXPECT(calls[i](junk, 8, fine, room, 4).size == 0);
    }
    EXPECT(room[0] == 9 && room[3] == 9);
}

/* Whether a path leads to no column, for which nothing else is returned. */
static bool is_no_column(arrowflow_reader *reader, const size_t *path, size_t depth) {
    arrowflow_column none = arrowflow_reader_column(reader, path, depth);
    return none.layout == ARROWFLOW_LAYOUT_NONE && none.slots == 0 && none.children == 0 && none.entries == 0
        && none.validity_len == 0 && none.offsets_len == 0 && none.values_len == 0;
}

/* The calls of a reader: without a reader, without input, after a fault, and with bad limits. */
static void bad_readers(void) {
    const uint8_t junk[8] = {0};
    const size_t path[2] = {0, SIZE_MAX};
    arrowflow_limits fine = arrowflow_standard_limits(), high = fine;
    high.max_rows++;
    arrowflow_reader *reader = NULL;
    EXPECT(arrowflow_reader_read(reader, junk, 8).kind == ARROWFLOW_KIND_NO_HANDLE);
    EXPECT(arrowflow_reader_end(reader).kind == ARROWFLOW_KIND_NO_HANDLE);
    EXPECT(arrowflow_reader_cell(reader, 0, 0, NULL, 0).type == ARROWFLOW_CELL_NONE);
    EXPECT(is_no_column(reader, NULL, 0) && is_no_column(reader, path, 1) && is_no_column(reader, path, 2));
    arrowflow_reader_close(reader);
    EXPECT(arrowflow_reader_open(high, &reader) == ARROWFLOW_KIND_BAD_LIMITS && reader == NULL);
    EXPECT(arrowflow_reader_open(fine, &reader) == ARROWFLOW_KIND_FINE && reader != NULL);
    EXPECT(arrowflow_reader_read(reader, NULL, 0).message == ARROWFLOW_MESSAGE_NONE);
    EXPECT(arrowflow_reader_end(reader).kind == ARROWFLOW_KIND_NO_SCHEMA);
    EXPECT(is_no_column(reader, NULL, 0) && is_no_column(reader, path, 1));
    EXPECT(arrowflow_reader_read(reader, junk, 8).kind == ARROWFLOW_KIND_CONTINUATION);
    EXPECT(arrowflow_reader_read(reader, junk, 8).kind == ARROWFLOW_KIND_CONTINUATION);
    EXPECT(is_no_column(reader, path, 1));
    EXPECT(arrowflow_reader_read(reader, junk, 8).taken == 0);
    EXPECT(arrowflow_reader_end(reader).kind == ARROWFLOW_KIND_CONTINUATION);
    EXPECT(arrowflow_reader_cell(reader, SIZE_MAX, SIZE_MAX, NULL, 0).type == ARROWFLOW_CELL_NONE);
    arrowflow_reader_close(reader);
}

/* Paths that lead to nothing, starting at the columns of each batch of a stream. They do not change the reader. */
static void bad_paths(const uint8_t *bytes, size_t len) {
    arrowflow_reader *reader = NULL;
    arrowflow_step step = {0, 0, 0, 0, 0, 0, 0};
    EXPECT(arrowflow_reader_open(arrowflow_standard_limits(), &reader) == ARROWFLOW_KIND_FINE);
    for (size_t at = 0; at < len && step.kind == ARROWFLOW_KIND_FINE && step.message != ARROWFLOW_MESSAGE_END; at += step.taken) {
        step = arrowflow_reader_read(reader, bytes + at, len - at);
        arrowflow_fault end = arrowflow_reader_end(reader);
        for (size_t k = 0; k < step.columns; k++) {
            size_t path[2] = {k, 0}, none[2] = {k, SIZE_MAX}, past[1] = {step.columns};
            arrowflow_column of = arrowflow_reader_column(reader, path, 1);
            EXPECT(of.slots == step.rows && of.slot == 0);
            EXPECT(is_no_column(reader, path, 2) == (of.children == 0 && of.entries == 0));
            EXPECT(is_no_column(reader, none, 2) && is_no_column(reader, past, 1) && is_no_column(reader, path, 0));
            EXPECT(arrowflow_reader_end(reader).kind == end.kind && arrowflow_reader_end(reader).place == end.place);
        }
        if (step.message == ARROWFLOW_MESSAGE_NONE) break;
    }
    arrowflow_reader_close(reader);
}

/* A field of an example: its path, and its texts. */
typedef struct {
    size_t depth, path[3];
    uint32_t flags;
    bool is_encoded;
    int64_t id;
    uint64_t children;
    const char *name, *format, *metadata;
    size_t metadata_len;
} wanted_field;

#define BYTES(text) text, sizeof(text) - 1

static const wanted_field of_every_type[] = {
    {0, {0}, 0, false, 0, 44, "", "+s", BYTES("")},
    {1, {0}, 2, false, 0, 0, "c0", "n", BYTES("")},
    {1, {2}, 2, false, 0, 0, "c2", "c", BYTES("")},
    {1, {3}, 2, false, 0, 0, "c3", "C", BYTES("")},
    {1, {22}, 2, false, 0, 0, "in a zone", "tsu:Europe/Berlin", BYTES("")},
    {1, {23}, 0, false, 0, 0, "never null", "i", BYTES("")},
    {1, {24}, 2, false, 0, 0, "a\\b\tc", "u", BYTES("")},
    {1, {25}, 2, false, 0, 1, "list", "+l", BYTES("")},
    {2, {25, 0}, 2, false, 0, 0, "item", "l", BYTES("")},
    {1, {26}, 0, false, 0, 1, "lists of structs", "+l", BYTES("")},
    {2, {26, 0}, 2, false, 0, 2, "inner", "+s", BYTES("")},
    {3, {26, 0, 1}, 0, false, 0, 0, "y", "u", BYTES("")},
    {1, {27}, 2, true, 0, 0, "words", "i", BYTES("")},
    {2, {27, 0}, 2, false, 0, 0, "", "u", BYTES("")},
    {1, {28}, 1, true, -7, 0, "sizes", "C", BYTES("")},
    {1, {30}, 2, true, 3, 0, "listed", "l", BYTES("")},
    {2, {30, 0}, 2, false, 0, 1, "", "+l", BYTES("")},
    {3, {30, 0, 0}, 2, false, 0, 0, "item", "b", BYTES("")},
    {1, {33}, 2, false, 0, 0, "d2", "w:2147483647", BYTES("")},
    {1, {43}, 0, true, -1, 0, "large listed", "l", BYTES("")},
    {3, {43, 0, 0}, 2, false, 0, 0, "item", "tDm", BYTES("")},
};

static const wanted_field of_metadata[] = {
    {0, {0}, 0, false, 0, 5, "", "+s",
     BYTES("\3\0\0\0" "\6\0\0\0origin" "\4\0\0\0here" "\0\0\0\0" "\0\0\0\0" "\6\0\0\0origin" "\5\0\0\0there")},
    {1, {0}, 2, true, 0, 0, "k", "i", BYTES("\1\0\0\0" "\2\0\0\0\377\376" "\2\0\0\0\0\200")},
    {2, {0, 0}, 2, false, 0, 0, "", "u", BYTES("")},
    {1, {1}, 2, false, 0, 1, "l", "+l", BYTES("")},
    {2, {1, 0}, 2, false, 0, 0, "item", "i",
     BYTES("\3\0\0\0" "\4\0\0\0unit" "\1\0\0\0m" "\4\0\0\0unit" "\1\0\0\0s" "\4\0\0\0unit" "\1\0\0\0m")},
    {1, {2}, 2, false, 0, 1, "w", "+L", BYTES("\1\0\0\0" "\0\0\0\0" "\1\0\0\0w")},
    {1, {3}, 2, false, 0, 2, "s", "+s", BYTES("\1\0\0\0" "\1\0\0\0k" "\1\0\0\0v")},
    {3, {3, 1, 0}, 2, false, 0, 0, "item", "b", BYTES("\1\0\0\0" "\4\0\0\0deep" "\3\0\0\0est")},
    {1, {4}, 2, false, 0, 0, "t", "tsu:UTC", BYTES("")},
};

/* Whether the call returns this field, with each buffer size from no bytes to one byte more than needed. */
static bool is_returned(arrowflow_reader *reader, const wanted_field *expected_field) {
    uint8_t room[256], texts[256];
    size_t name = strlen(expected_field->name), format = strlen(expected_field->format), all = name + format + expected_field->metadata_len;
    memcpy(texts, expected_field->name, name);
    memcpy(texts + name, expected_field->format, format);
    memcpy(texts + name + format, expected_field->metadata, expected_field->metadata_len);
    for (size_t size = 0; size <= all + 1; size++) {
        size_t put = size < all ? size : all;
        memset(room, 170, sizeof room);
        arrowflow_field of = arrowflow_reader_field(reader, expected_field->path, expected_field->depth, room, size);
        if (of.found != (expected_field->depth == 0 ? ARROWFLOW_FOUND_SCHEMA : ARROWFLOW_FOUND_FIELD)) return false;
        if (of.flags != expected_field->flags || of.is_encoded != expected_field->is_encoded || of.id != expected_field->id) return false;
        if (of.children != expected_field->children || of.name_len != name || of.format_len != format) return false;
        if (of.metadata_len != expected_field->metadata_len || memcmp(room, texts, put) != 0 || room[put] != 170) return false;
    }
    return true;
}

/* Whether a path leads to no field: the struct is all zeros, and nothing is written to the buffer. */
static bool is_no_field(arrowflow_reader *reader, const size_t *path, size_t depth) {
    uint8_t room[2] = {9, 9};
    arrowflow_field of = arrowflow_reader_field(reader, path, depth, room, sizeof room);
    return of.found == ARROWFLOW_FOUND_NONE && of.flags == 0 && !of.is_encoded && of.id == 0 && of.children == 0
        && of.name_len == 0 && of.format_len == 0 && of.metadata_len == 0 && room[0] == 9 && room[1] == 9;
}

/* Checks the fields below the one that a path leads to, and paths that lead past all of them. */
static void fields_below(arrowflow_reader *reader, size_t *path, size_t depth) {
    arrowflow_field of = arrowflow_reader_field(reader, path, depth, NULL, 0);
    uint64_t below = of.is_encoded ? 1 : of.children;
    EXPECT(of.found == (depth == 0 ? ARROWFLOW_FOUND_SCHEMA : ARROWFLOW_FOUND_FIELD) && (!of.is_encoded || of.children == 0));
    path[depth] = below;
    EXPECT(is_no_field(reader, path, depth + 1));
    path[depth] = SIZE_MAX;
    EXPECT(is_no_field(reader, path, depth + 1) && is_no_field(reader, path, depth + 2));
    for (uint64_t k = 0; k < below; k++) {
        path[depth] = k;
        fields_below(reader, path, depth + 1);
    }
}

/* Checks the fields of a stream: the path of each, and the expected fields of two examples. */
static void fields_of(const char *name, const uint8_t *bytes, size_t len) {
    arrowflow_reader *reader = NULL;
    size_t path[72] = {0};
    const char *file = strrchr(name, '/') == NULL ? name : strrchr(name, '/') + 1;
    EXPECT(is_no_field(reader, NULL, 0));
    EXPECT(arrowflow_reader_open(wanted_limits(), &reader) == ARROWFLOW_KIND_FINE);
    EXPECT(is_no_field(reader, NULL, 0) && is_no_field(reader, path, 1));
    arrowflow_step step = arrowflow_reader_read(reader, bytes, len);
    if (step.message != ARROWFLOW_MESSAGE_SCHEMA) {
        EXPECT(is_no_field(reader, NULL, 0) && is_no_field(reader, path, 1));
    } else {
        fields_below(reader, path, 0);
        EXPECT(arrowflow_reader_read(reader, bytes + step.taken, len - step.taken).message != ARROWFLOW_MESSAGE_SCHEMA);
        fields_below(reader, path, 0);
    }
    for (size_t k = 0; strcmp(file, "every_type.arrows") == 0 && k < sizeof of_every_type / sizeof *of_every_type; k++)
        EXPECT(is_returned(reader, &of_every_type[k]));
    for (size_t k = 0; strcmp(file, "metadata.arrows") == 0 && k < sizeof of_metadata / sizeof *of_metadata; k++)
        EXPECT(is_returned(reader, &of_metadata[k]));
    arrowflow_reader_close(reader);
}

int main(int argc, char **argv) {
    size_t len;
    uint8_t *bytes;
    if (argc >= 2 && strcmp(argv[1], "--bad") == 0) {
        bad_streams();
        bad_readers();
        for (int k = 2; k < argc; k++) {
            EXPECT((bytes = read_file(argv[k], &len)) != NULL);
            bad_paths(bytes, len);
            fields_of(argv[k], bytes, len);
            free(bytes);
        }
        return failed;
    }
    if (argc == 5 && strcmp(argv[1], "--types") == 0) {
        types = strcmp(argv[2], "all") == 0 ? ARROWFLOW_TYPES_ALL : ARROWFLOW_TYPES_CORE;
        argv += 2;
        argc -= 2;
    }
    if (argc == 3) return run_command(argv[1], argv[2]);
    fprintf(stderr, "usage: check [--types core|all] schema|check|show FILE, check --bad [FILE..]\n");
    return 2;
}
