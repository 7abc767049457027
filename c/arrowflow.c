/* The calls of arrowflow.h over those that are proved: NULL is replaced by valid pointers, and a handle is kept
 * in memory that the caller has a pointer to. */
#include "proved.h"

#include <stdio.h>
#include <stdlib.h>

/* ---- NULL, which the data pointer of an empty vector may be ---- */

static const uint8_t *some(const uint8_t *bytes) {
    static const uint8_t none = 0;
    return bytes == NULL ? &none : bytes;
}

static uint8_t *some_room(uint8_t *room) {
    static uint8_t none = 0;
    return room == NULL ? &none : room;
}

static const size_t *some_path(const size_t *path) {
    static const size_t nowhere = 0;
    return path == NULL ? &nowhere : path;
}

/* ---- names of kinds, and sentences ---- */

const char *arrowflow_version(void) { return ARROWFLOW_VERSION; }

/* A kind with its name and its meaning. */
struct word {
    uint32_t kind;
    const char *name, *meaning;
};

static const struct word words[] = {
    {ARROWFLOW_KIND_FINE, "Fine", "no fault"},
    {ARROWFLOW_KIND_CONTINUATION, "Continuation", "a message does not begin with FF FF FF FF"},
    {ARROWFLOW_KIND_METADATA_SIZE, "MetadataSize", "the size of the metadata is below 0 or above the limit"},
    {ARROWFLOW_KIND_METADATA, "Metadata", "the metadata are not readable, or too deep or too large"},
    {ARROWFLOW_KIND_VERSION, "Version", "the metadata are of neither version V4 nor V5"},
    {ARROWFLOW_KIND_HEADER, "Header", "the message has no header that is read"},
    {ARROWFLOW_KIND_BODY_LENGTH, "BodyLength", "the length of the body is below 0 or above the limit"},
    {ARROWFLOW_KIND_ORDER, "Order", "a second schema, or a batch before the schema"},
    {ARROWFLOW_KIND_UNSUPPORTED, "Unsupported", "the data are big-endian, or of a type that is not read or not asked for"},
    {ARROWFLOW_KIND_SCHEMA, "Schema", "a type of the schema has a width, a unit, a precision, a scale or children that there are not"},
    {ARROWFLOW_KIND_COMPRESSED, "Compressed", "the body is compressed"},
    {ARROWFLOW_KIND_UNKNOWN_ID, "UnknownId", "no field has a dictionary of this id"},
    {ARROWFLOW_KIND_NO_BASE, "NoBase", "a delta of a dictionary that did not come"},
    {ARROWFLOW_KIND_ROWS, "Rows", "the number of rows or of values is below 0 or above the limit"},
    {ARROWFLOW_KIND_LAYOUT, "Layout", "the body contradicts its nodes and buffers"},
    {ARROWFLOW_KIND_TEXT, "Text", "a text is not UTF-8"},
    {ARROWFLOW_KIND_INDEX, "Index", "an index has no value in its dictionary"},
    {ARROWFLOW_KIND_NO_SCHEMA, "NoSchema", "the stream ended before a schema"},
    {ARROWFLOW_KIND_TRUNCATED, "Truncated", "the stream ended inside a message"},
    {ARROWFLOW_KIND_MEMORY, "Memory", "out of memory"},
    {ARROWFLOW_KIND_BAD_LIMITS, "BadLimits", "a limit is above its ceiling, or there is no such set of types"},
    {ARROWFLOW_KIND_NO_HANDLE, "NoHandle", "there is no reader or copier"},
    {ARROWFLOW_KIND_INPUT, "Input", "the input could not be read"},
    {ARROWFLOW_KIND_SCHEMA_TOO_LARGE, "SchemaTooLarge", "written again it would be past a limit"},
    {ARROWFLOW_KIND_BATCH_SCHEMA_DIFFERS, "BatchSchemaDiffers", "its schema is not that of the stream"},
    {ARROWFLOW_KIND_BATCH_TOO_LARGE, "BatchTooLarge", "written again it would be past a limit"},
    {ARROWFLOW_KIND_BATCH_DICTIONARIES_DIFFER, "BatchDictionariesDiffer", "two of its columns have different dictionaries of one id"},
    {ARROWFLOW_KIND_END_TOO_LARGE, "EndTooLarge", "it would end past the last place"},
};

static const struct word *word_of(uint32_t kind) {
    static const struct word unknown = {0, "Unknown", "no kind has this number"};
    for (size_t k = 0; k < sizeof words / sizeof *words; k++)
        if (words[k].kind == kind) return words + k;
    return &unknown;
}

const char *arrowflow_kind_name(uint32_t kind) { return word_of(kind)->name; }

size_t arrowflow_error_text(uint32_t kind, uint64_t place, char *out, size_t room) {
    const struct word *word = word_of(kind);
    unsigned long long at = place;
    char none;
    if (room == 0) out = &none;
    int size;
    switch (kind) {
    case ARROWFLOW_KIND_SCHEMA_TOO_LARGE: size = snprintf(out, room, "refused schema: TooLarge, %s", word->meaning); break;
    case ARROWFLOW_KIND_END_TOO_LARGE: size = snprintf(out, room, "refused end: TooLarge, %s", word->meaning); break;
    case ARROWFLOW_KIND_BATCH_SCHEMA_DIFFERS:
        size = snprintf(out, room, "refused batch %llu: SchemaDiffers, %s", at, word->meaning);
        break;
    case ARROWFLOW_KIND_BATCH_TOO_LARGE: size = snprintf(out, room, "refused batch %llu: TooLarge, %s", at, word->meaning); break;
    case ARROWFLOW_KIND_BATCH_DICTIONARIES_DIFFER:
        size = snprintf(out, room, "refused batch %llu: DictionariesDiffer, %s", at, word->meaning);
        break;
    default:
        if (kind >= ARROWFLOW_KIND_CONTINUATION && kind <= ARROWFLOW_KIND_TRUNCATED)
            size = snprintf(out, room, "fault at byte %llu: %s, %s", at, word->name, word->meaning);
        else size = snprintf(out, room, "%s: %s", word->name, word->meaning);
    }
    return size < 0 ? 0 : (size_t)size;
}

arrowflow_limits arrowflow_standard_limits(void) {
    return (arrowflow_limits){UINT64_C(1) << 26, UINT64_C(1) << 36, INT32_MAX, ARROWFLOW_TYPES_CORE};
}

/* ---- streams in memory ---- */

arrowflow_report arrowflow_check(const uint8_t *bytes, size_t len, arrowflow_limits limits) {
    return arrowflow_proved_check(some(bytes), len, limits);
}

arrowflow_culprit arrowflow_fault_column(const uint8_t *bytes, size_t len, arrowflow_limits limits) {
    return arrowflow_proved_fault_column(some(bytes), len, limits);
}

size_t arrowflow_shown_name(const arrowflow_reader *reader, const size_t *path, size_t depth, char name[NAME_ROOM]) {
    size_t size = arrowflow_reader_field(reader, path, depth, (uint8_t *)name, NAME_ROOM).name_len;
    if (size > NAME_ROOM) {
        size = NAME_ROOM;
        while (size > 0 && ((unsigned char)name[size - 1] & 0xc0) == 0x80) size--;
        if (size > 0 && (unsigned char)name[size - 1] >= 0xc0) size--;
    }
    for (size_t k = 0; k < size; k++)
        if ((unsigned char)name[k] < ' ' || name[k] == 127) name[k] = '?';
    return size;
}

/* Writes a column's name as it is in a sentence. Returns its length, or -1 if an allocation failed: the schema
 * is valid. */
static int name_of(const uint8_t *bytes, size_t len, arrowflow_limits limits, size_t column, char name[NAME_ROOM]) {
    arrowflow_reader *reader;
    arrowflow_reader_open(limits, &reader);
    bool is_read = arrowflow_reader_read(reader, bytes, len).message == ARROWFLOW_MESSAGE_SCHEMA;
    size_t size = arrowflow_shown_name(reader, &column, 1, name);
    arrowflow_reader_close(reader);
    return is_read ? (int)size : -1;
}

int arrowflow_column_text(const uint8_t *bytes, size_t len, arrowflow_limits limits, char *out, size_t room) {
    arrowflow_culprit culprit = arrowflow_fault_column(bytes, len, limits);
    char name[NAME_ROOM], none;
    if (!culprit.found) return culprit.kind == ARROWFLOW_KIND_MEMORY ? -1 : 0;
    int shown = name_of(bytes, len, limits, culprit.column, name);
    if (shown < 0) return -1;
    return snprintf(room > 0 ? out : &none, room, ", in column %llu, \"%.*s\"", (unsigned long long)culprit.column, shown, name);
}

size_t arrowflow_fault_text(const uint8_t *bytes, size_t len, arrowflow_limits limits, char *out, size_t room) {
    arrowflow_report report = arrowflow_check(bytes, len, limits);
    if (room > 0) *out = 0;
    if (report.kind == ARROWFLOW_KIND_FINE) return 0;
    size_t size = arrowflow_error_text(report.kind, report.place, out, room), left = size < room ? room - size : 0;
    int more = arrowflow_column_text(bytes, len, limits, left > 0 ? out + size : NULL, left);
    return more < 0 ? size : size + (size_t)more;
}

arrowflow_text arrowflow_copy(const uint8_t *bytes, size_t len, arrowflow_limits limits, arrowflow_options options,
                              uint8_t *out, size_t room) {
    return arrowflow_proved_copy(some(bytes), len, limits, options, some_room(out), room);
}

arrowflow_text arrowflow_show(const uint8_t *bytes, size_t len, arrowflow_limits limits, uint8_t *out, size_t room) {
    return arrowflow_proved_show(some(bytes), len, limits, some_room(out), room);
}

arrowflow_text arrowflow_messages(const uint8_t *bytes, size_t len, arrowflow_limits limits, uint8_t *out, size_t room) {
    return arrowflow_proved_messages(some(bytes), len, limits, some_room(out), room);
}

arrowflow_text arrowflow_schema(const uint8_t *bytes, size_t len, arrowflow_limits limits, uint8_t *out, size_t room) {
    return arrowflow_proved_schema(some(bytes), len, limits, some_room(out), room);
}

/* ---- handles ---- */

struct arrowflow_copier {
    arrowflow_handle handle;
};

struct arrowflow_reader {
    arrowflow_handle handle;
};

static const arrowflow_handle closed = {NULL, false};

/* ---- copies of streams that come in pieces ---- */

uint32_t arrowflow_copier_open(arrowflow_limits limits, arrowflow_options options, arrowflow_copier **copier) {
    arrowflow_copier *it = malloc(sizeof *it);
    uint32_t kind = ARROWFLOW_KIND_MEMORY;
    *copier = NULL;
    if (it != NULL) {
        it->handle = closed;
        kind = arrowflow_proved_copier_open(limits, options, &it->handle);
    }
    if (kind == ARROWFLOW_KIND_FINE) *copier = it;
    else free(it);
    return kind;
}

static const arrowflow_copied no_copier = {ARROWFLOW_KIND_NO_HANDLE, true, 0, 0};

arrowflow_copied arrowflow_copier_put(arrowflow_copier *copier, const uint8_t *piece, size_t len) {
    return copier == NULL ? no_copier : arrowflow_proved_copier_put(&copier->handle, some(piece), len);
}

arrowflow_copied arrowflow_copier_end(arrowflow_copier *copier) {
    return copier == NULL ? no_copier : arrowflow_proved_copier_end(&copier->handle);
}

size_t arrowflow_copier_take(arrowflow_copier *copier, uint8_t *out, size_t room) {
    return copier == NULL ? 0 : arrowflow_proved_copier_take(&copier->handle, some_room(out), room);
}

void arrowflow_copier_close(arrowflow_copier *copier) {
    if (copier != NULL) arrowflow_proved_copier_close(&copier->handle);
    free(copier);
}

/* ---- readers of streams that come in pieces ---- */

uint32_t arrowflow_reader_open(arrowflow_limits limits, arrowflow_reader **reader) {
    arrowflow_reader *it = malloc(sizeof *it);
    uint32_t kind = ARROWFLOW_KIND_MEMORY;
    *reader = NULL;
    if (it != NULL) {
        it->handle = closed;
        kind = arrowflow_proved_reader_open(limits, &it->handle);
    }
    if (kind == ARROWFLOW_KIND_FINE) *reader = it;
    else free(it);
    return kind;
}

arrowflow_step arrowflow_reader_read(arrowflow_reader *reader, const uint8_t *piece, size_t len) {
    static const arrowflow_step none = {ARROWFLOW_KIND_NO_HANDLE, ARROWFLOW_MESSAGE_NONE, 0, 0, 0, 0, 0};
    return reader == NULL ? none : arrowflow_proved_reader_read(&reader->handle, some(piece), len);
}

/* The handle of a reader that the call does not change, or of no reader. */
static arrowflow_handle handle_of(const arrowflow_reader *reader) { return reader == NULL ? closed : reader->handle; }

arrowflow_fault arrowflow_reader_end(const arrowflow_reader *reader) {
    arrowflow_handle handle = handle_of(reader);
    return arrowflow_proved_reader_end(&handle);
}

void arrowflow_reader_close(arrowflow_reader *reader) {
    if (reader != NULL) arrowflow_proved_reader_close(&reader->handle);
    free(reader);
}

arrowflow_cell arrowflow_reader_cell(const arrowflow_reader *reader, size_t column, size_t row, uint8_t *out, size_t room) {
    arrowflow_handle handle = handle_of(reader);
    return arrowflow_proved_reader_cell(&handle, column, row, some_room(out), room);
}

arrowflow_column arrowflow_reader_column(const arrowflow_reader *reader, const size_t *path, size_t depth) {
    arrowflow_handle handle = handle_of(reader);
    const uint8_t *none = some(NULL);
    arrowflow_column column = {ARROWFLOW_LAYOUT_NONE, false, 0, 0, 0, 0, 0, none, 0, none, 0, none, 0};
    arrowflow_proved_reader_column(&handle, some_path(path), depth, &column);
    return column;
}

arrowflow_field arrowflow_reader_field(const arrowflow_reader *reader, const size_t *path, size_t depth, uint8_t *out, size_t room) {
    arrowflow_handle handle = handle_of(reader);
    return arrowflow_proved_reader_field(&handle, some_path(path), depth, some_room(out), room);
}
