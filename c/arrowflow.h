/* arrowflow.h: checks, copies and prints Arrow IPC streams in memory; also a reader and a copier for streams
 * that arrive in pieces. arrowflow_stream.h passes a stream on to other Arrow tools.
 *
 * The result of each call is proved for all bytes, whatever an untrusted stream contains: the contracts are in
 * crates/arrowflow_c/src, and docs/PROMISES.md describes them in words. arrowflow.c, which is plain C and is
 * tested, passes each call on to a proved one: it replaces NULL by valid pointers, and keeps the handle of a
 * reader or a copier in memory that the caller has a pointer to. Each call returns, and accesses no memory
 * except what it was passed and what malloc returned.
 *
 * Ownership   Only a reader and a copier have to be freed: what _open makes, _close frees. A call keeps no
 *             pointer: input bytes and output buffers may be freed or changed as soon as it has returned. The
 *             pointers that arrowflow_reader_column returns belong to the reader: they are read-only, and valid
 *             only until the next call of arrowflow_reader_read or _close.
 * Errors      A call returns a kind (enum arrowflow_kind), or a struct that has one: ARROWFLOW_KIND_FINE, or
 *             why the call failed. arrowflow_kind_name returns its name, arrowflow_error_text a sentence. No
 *             call aborts or prints. errno is only set by malloc, when it returns NULL.
 * Memory      malloc, realloc and free are called. If malloc returns NULL the call ends with
 *             ARROWFLOW_KIND_MEMORY. arrowflow_show allocates as much as its text takes, which may be far more
 *             than the stream: a batch without columns has many rows in few bytes. `max_rows` limits the rows
 *             of a batch.
 * Threads     Calls share no state: any number of threads may make them at the same time. A reader and a copier
 *             are used only on the thread that opened them.
 *
 * What the caller must ensure, and what is not checked:
 *  - A pointer to bytes, to an output buffer or to a path may be NULL if its length is 0. A reader or a copier
 *    may be NULL, which means that there is none. No other pointer is ever NULL. A length is at most
 *    PTRDIFF_MAX.
 *  - Nothing changes the bytes until the call has returned, no other thread or process either: bytes in memory
 *    that an untrusted party can write to have to be copied first.
 *  - An output buffer does not overlap with anything else that is passed.
 *  - A bool is 0 or 1.
 *  - malloc, realloc and free belong to the same allocator, and align memory as the C standard requires.
 *  - No call is made from a signal handler, or in the forked child of a process with threads.
 */
#ifndef ARROWFLOW_H
#define ARROWFLOW_H

#include <stdbool.h>
#include <stddef.h>
#include <stdint.h>

#ifdef __cplusplus
extern "C" {
#endif

/* The version of this header. Versions with the same first number, which is also that of the library's soname,
 * do not change calls, structs and numbers, but may add some. */
#define ARROWFLOW_VERSION_MAJOR 0
#define ARROWFLOW_VERSION_MINOR 1
#define ARROWFLOW_VERSION_PATCH 0
#define ARROWFLOW_VERSION "0.1.0"

/* The version of the library, which is that of the header that it was built with. */
const char *arrowflow_version(void);

/* ---- how a call ended ---- */

/* The kinds 1 to 18 are faults of the stream. Their names are those that the program prints. */
enum arrowflow_kind {
    ARROWFLOW_KIND_FINE = 0,
    ARROWFLOW_KIND_CONTINUATION = 1,  /* a message does not begin with FF FF FF FF */
    ARROWFLOW_KIND_METADATA_SIZE = 2, /* the metadata's size is below 0 or above the limit */
    ARROWFLOW_KIND_METADATA = 3,      /* the metadata cannot be decoded, or are too deeply nested or too large */
    ARROWFLOW_KIND_VERSION = 4,       /* the metadata version is neither V4 nor V5 */
    ARROWFLOW_KIND_HEADER = 5,        /* no header, or one of a type that is not supported */
    ARROWFLOW_KIND_BODY_LENGTH = 6,   /* the body's length is below 0 or above the limit */
    ARROWFLOW_KIND_ORDER = 7,         /* a second schema, or a batch before the schema */
    ARROWFLOW_KIND_UNSUPPORTED = 8,   /* big-endian, or a type that is not supported or not enabled */
    ARROWFLOW_KIND_SCHEMA = 9,        /* an invalid width, unit, precision, scale or number of children */
    ARROWFLOW_KIND_COMPRESSED = 10,   /* the body is compressed */
    ARROWFLOW_KIND_UNKNOWN_ID = 11,   /* a dictionary id that no field has */
    ARROWFLOW_KIND_NO_BASE = 12,      /* a delta for an id that has no dictionary */
    ARROWFLOW_KIND_ROWS = 13,         /* a number of rows or values below 0 or above the limit */
    ARROWFLOW_KIND_LAYOUT = 14,       /* the body does not match its nodes and buffers */
    ARROWFLOW_KIND_TEXT = 15,         /* a text that is not null is not UTF-8 */
    ARROWFLOW_KIND_INDEX = 16,        /* an index that is not null has no value in the dictionary */
    ARROWFLOW_KIND_NO_SCHEMA = 17,    /* the stream ended before a schema */
    ARROWFLOW_KIND_TRUNCATED = 18,    /* the stream ended inside a message */
    ARROWFLOW_KIND_MEMORY = 19,       /* malloc returned NULL: this says nothing about the stream */
    ARROWFLOW_KIND_BAD_LIMITS = 20,   /* a limit is above its maximum, or `types` is not a valid set: nothing
                                       * was read */
    ARROWFLOW_KIND_NO_HANDLE = 21,    /* there is no reader or copier: it is NULL */
    ARROWFLOW_KIND_INPUT = 22,        /* an input could not be read: not returned for bytes in memory */
    /* Only for copies: the stream is valid, but cannot be written again. `place` is then not an offset: for a
     * batch it is the number of the batch, from 0. A stream that was read has one schema and one dictionary for
     * each id, so that 41 and 43 are never returned. */
    ARROWFLOW_KIND_SCHEMA_TOO_LARGE = 32, /* its message would exceed a limit */
    ARROWFLOW_KIND_BATCH_SCHEMA_DIFFERS = 41,
    ARROWFLOW_KIND_BATCH_TOO_LARGE = 42, /* its messages would exceed a limit, or end after offset 2^62 */
    ARROWFLOW_KIND_BATCH_DICTIONARIES_DIFFER = 43,
    ARROWFLOW_KIND_END_TOO_LARGE = 52 /* the end marker would end after offset 2^62 */
};

/* The name of a kind, which the program prints for a fault of a stream; "Unknown" for a number that is no kind.
 * Never NULL. */
const char *arrowflow_kind_name(uint32_t kind);

/* Writes a sentence about an error to the output buffer, as much of it as fits before a terminating zero byte,
 * and returns the length of the complete sentence without the zero byte. `place` is the one that was returned
 * with the kind. The sentence is the line that the program prints, followed by the meaning of the kind: "fault
 * at byte 976: Truncated, the stream ended inside a message". */
size_t arrowflow_error_text(uint32_t kind, uint64_t place, char *out, size_t room);

/* ---- limits ---- */

/* Which types are accepted. A stream with another type is ARROWFLOW_KIND_UNSUPPORTED. */
enum arrowflow_types {
    ARROWFLOW_TYPES_CORE = 0, /* Null, Bool, Int, Binary, Utf8 and their Large forms, FixedSizeBinary, Date,
                               * Time, Timestamp, Duration, List, LargeList, Struct: no version adds others */
    ARROWFLOW_TYPES_ALL = 1   /* also FloatingPoint, Decimal, Interval, FixedSizeList, Map, and the types that
                               * later versions of the library support */
};

/* How large the messages of an untrusted stream may be, and which types it may have. */
typedef struct {
    uint64_t max_metadata; /* bytes of a message's metadata, at most 2^30 */
    uint64_t max_body;     /* bytes of a message's body, at most 2^40 */
    uint64_t max_rows;     /* rows of a batch, values of a dictionary, at most 2^31 - 1 */
    uint32_t types;        /* enum arrowflow_types */
} arrowflow_limits;

/* The limits that the program uses by default: 64 MiB, 64 GiB, 2^31 - 1, the core types. */
arrowflow_limits arrowflow_standard_limits(void);

/* ---- streams in memory ---- */

/* The result of checking a stream. With ARROWFLOW_KIND_MEMORY and _BAD_LIMITS everything but the kind is 0. */
typedef struct {
    uint32_t kind;    /* FINE, a fault of the stream, MEMORY or BAD_LIMITS */
    bool ended;       /* the end marker was read; the bytes after it were not inspected */
    uint64_t place;   /* offset in bytes of the message at fault, or of the end of the stream */
    uint64_t batches; /* number of complete batches before it */
    uint64_t rows;    /* rows of these batches together */
} arrowflow_report;

/* Checks a complete stream. With ARROWFLOW_KIND_FINE it is a valid stream of that many batches and rows. */
arrowflow_report arrowflow_check(const uint8_t *bytes, size_t len, arrowflow_limits limits);

/* The column at fault. */
typedef struct {
    uint32_t kind; /* FINE, MEMORY or BAD_LIMITS */
    bool found;
    uint64_t column; /* its index, from 0 */
} arrowflow_culprit;

/* Finds the column at fault, in a stream that is rejected for the body of a record batch (LAYOUT, TEXT or
 * INDEX). It is the first column for which the body is rejected with the same kind if only the columns up to
 * and including this one are read, but not if only the columns before it are read. For any other fault,
 * including one in the body of a dictionary, no column is found. The call reads the complete stream. */
arrowflow_culprit arrowflow_fault_column(const uint8_t *bytes, size_t len, arrowflow_limits limits);

/* Writes a sentence about the first fault of a stream to the output buffer, as arrowflow_error_text does, with
 * the index and the name of the column at fault if there is one: "fault at byte 592: Text, a text is not UTF-8,
 * in column 1, \"city\"". For a stream without a fault the sentence is empty. ARROWFLOW_KIND_MEMORY and
 * _BAD_LIMITS have their own sentences. If there is not enough memory to find the column, it is left out. */
size_t arrowflow_fault_text(const uint8_t *bytes, size_t len, arrowflow_limits limits, char *out, size_t room);

/* The result of a call that writes a text or a copy of a stream. The output buffer has the first bytes of the
 * text, as many as fit, and the bytes of the buffer after them are unchanged. If `size` is at most `room` the
 * text is complete; so a call with a buffer of 0 bytes returns the size that is needed. If the stream has a
 * fault, the text covers what was complete before it: a line for each message, the rows of each batch, or, for
 * a copy, the schema and the batches, with the dictionaries that these refer to. With ARROWFLOW_KIND_MEMORY it
 * is a prefix of that, and for arrowflow_schema it is then empty. */
typedef struct {
    uint32_t kind;
    uint64_t place; /* offset in bytes of the message at fault; or the number of the batch that cannot be
                     * written */
    uint64_t size;  /* length of the text in bytes, whether it fits or not */
} arrowflow_text;

/* How a copy is written. If all are false, dictionaries that grew are sent as deltas, and metadata and buffers
 * are padded to 64 bytes. */
typedef struct {
    bool resend;   /* a dictionary that grew is sent in full */
    bool pad_to_8; /* metadata and buffers are padded to 8 bytes */
} arrowflow_options;

/* Copies a stream: with ARROWFLOW_KIND_FINE the bytes written are a valid stream with the same schema and
 * batches, including the end marker. Only values (including those in dictionaries that no index refers to),
 * names, and the custom metadata of the schema and of fields are copied. Padding, bytes under nulls and bytes
 * that no offset reaches are not copied. So streams that have the same schema and whose batches have the same
 * contents are copied to the same bytes. */
arrowflow_text arrowflow_copy(const uint8_t *bytes, size_t len, arrowflow_limits limits,
                              arrowflow_options options, uint8_t *out, size_t room);

/* The rows, as comma-separated values: the output of `arrowflow show`. */
arrowflow_text arrowflow_show(const uint8_t *bytes, size_t len, arrowflow_limits limits,
                              uint8_t *out, size_t room);

/* A line for each message: the output of `arrowflow check`. */
arrowflow_text arrowflow_messages(const uint8_t *bytes, size_t len, arrowflow_limits limits,
                                  uint8_t *out, size_t room);

/* The schema, a line for each field: the output of `arrowflow schema`. */
arrowflow_text arrowflow_schema(const uint8_t *bytes, size_t len, arrowflow_limits limits,
                                uint8_t *out, size_t room);

/* ---- copies of streams that come in pieces ---- */

/* A copier, which copies a stream while its pieces arrive: it does what arrowflow_copy does, for streams that
 * do not fit into memory. The memory of a copier is bounded by one message and by what is written for it. */
typedef struct arrowflow_copier arrowflow_copier;

/* The state of a copy. */
typedef struct {
    uint32_t kind;    /* FINE, a fault of the stream, MEMORY, NO_HANDLE, or why the writer rejected it */
    bool is_over;     /* it accepts no more bytes: after a fault, the end marker or arrowflow_copier_end */
    uint64_t place;   /* offset in bytes of the message at fault; or the number of the batch that cannot be
                       * written */
    uint64_t waiting; /* bytes that were written and not taken yet */
} arrowflow_copied;

/* Makes a copier in *copier and returns ARROWFLOW_KIND_FINE; or returns ARROWFLOW_KIND_MEMORY or _BAD_LIMITS,
 * and sets *copier to NULL. */
uint32_t arrowflow_copier_open(arrowflow_limits limits, arrowflow_options options, arrowflow_copier **copier);

/* Passes the next piece of the stream to the copier, which consumes all of it, and returns the state of the
 * copy. The bytes that are written for the messages completed by this piece wait until they are taken. Where a
 * stream is cut into pieces has no effect on the bytes that are written in total. Once the copy is over, each
 * call returns the same state and pieces are not read. This is permanent after a fault or
 * ARROWFLOW_KIND_MEMORY. The bytes written before the fault may still be taken: they have the batches before
 * the fault, and no end marker. */
arrowflow_copied arrowflow_copier_put(arrowflow_copier *copier, const uint8_t *piece, size_t len);

/* Ends the copier's stream: writes the end marker, or returns the stream's fault, if it ended inside a message
 * or before a schema. With ARROWFLOW_KIND_FINE the bytes taken so far, followed by those that are waiting, are
 * what arrowflow_copy would write for all pieces together. */
arrowflow_copied arrowflow_copier_end(arrowflow_copier *copier);

/* Moves the first waiting bytes to the output buffer, as many as fit, and returns their number. */
size_t arrowflow_copier_take(arrowflow_copier *copier, uint8_t *out, size_t room);

/* Frees the copier, and what was not taken. */
void arrowflow_copier_close(arrowflow_copier *copier);

/* ---- readers of streams that come in pieces ---- */

typedef struct arrowflow_reader arrowflow_reader;

/* The message that was completed. */
enum arrowflow_message {
    ARROWFLOW_MESSAGE_NONE = 0, /* none: all of the piece was consumed */
    ARROWFLOW_MESSAGE_SCHEMA = 1,
    ARROWFLOW_MESSAGE_DICTIONARY = 2,
    ARROWFLOW_MESSAGE_BATCH = 3,
    ARROWFLOW_MESSAGE_END = 4
};

/* What a reader returns for a piece. A field that does not apply to the message or to the fault is 0. */
typedef struct {
    uint32_t kind;    /* FINE, a fault of the stream, MEMORY or NO_HANDLE */
    uint32_t message; /* the message that was completed: enum arrowflow_message */
    uint64_t taken;   /* bytes of the piece that were consumed; the remaining ones are passed to the next call */
    uint64_t place;   /* offset in bytes of the message at fault, from the start of the stream */
    int64_t id;       /* of the dictionary */
    uint64_t columns; /* of the batch */
    uint64_t rows;    /* of the batch */
} arrowflow_step;

/* How a stream ends. */
typedef struct {
    uint32_t kind;
    uint64_t place;
} arrowflow_fault;

/* Makes a reader of a new stream in *reader and returns ARROWFLOW_KIND_FINE; or returns ARROWFLOW_KIND_MEMORY
 * or _BAD_LIMITS, and sets *reader to NULL. */
uint32_t arrowflow_reader_open(arrowflow_limits limits, arrowflow_reader **reader);

/* Passes a piece to the reader, which consumes the bytes up to the end of one message, or all of them if no
 * message is completed. Where a stream is cut into pieces has no effect. After a fault of the stream the reader
 * consumes nothing and returns the same fault again; after the end marker it consumes nothing. A batch stays
 * with the reader until the next call. After ARROWFLOW_KIND_MEMORY nothing has changed, as if the call had not
 * been made: it may be made again.
 *
 *     do {
 *         step = arrowflow_reader_read(reader, piece, len);
 *         piece += step.taken, len -= step.taken;
 *         if (step.message == ARROWFLOW_MESSAGE_BATCH) ..;
 *     } while (step.kind == ARROWFLOW_KIND_FINE && step.message != ARROWFLOW_MESSAGE_END && len > 0); */
arrowflow_step arrowflow_reader_read(arrowflow_reader *reader, const uint8_t *piece, size_t len);

/* How the stream ends if no more bytes come: ARROWFLOW_KIND_NO_SCHEMA, ARROWFLOW_KIND_TRUNCATED, the fault that
 * was found, or ARROWFLOW_KIND_FINE. The call changes nothing. */
arrowflow_fault arrowflow_reader_end(const arrowflow_reader *reader);

/* Frees the reader and everything that it holds. */
void arrowflow_reader_close(arrowflow_reader *reader);

/* ---- values of a reader's batch ---- */

/* The type of a cell's value. */
enum arrowflow_cell_type {
    ARROWFLOW_CELL_NULL = 0,
    ARROWFLOW_CELL_BOOL = 1,   /* `truth` */
    ARROWFLOW_CELL_NUMBER = 2, /* `number`: of a date, a time, a timestamp or a duration the number of its
                                * units, of an interval of months the months, of a decimal of up to 128 bits the
                                * unscaled integer */
    ARROWFLOW_CELL_BYTES = 3,  /* `size` bytes in the output buffer: of any other interval the bytes of its
                                * numbers, of a decimal of 256 bits those of its unscaled integer */
    ARROWFLOW_CELL_TEXT = 4,   /* `size` bytes in the output buffer, which are UTF-8 */
    ARROWFLOW_CELL_LIST = 5,   /* its items are read by arrowflow_reader_column */
    ARROWFLOW_CELL_STRUCT = 6, /* its fields are read by arrowflow_reader_column */
    ARROWFLOW_CELL_LARGE = 7,  /* `large`, a number above INT64_MAX */
    ARROWFLOW_CELL_NONE = 8,   /* no batch, or no such column or row */
    ARROWFLOW_CELL_HUGE = 9,   /* the integer of a decimal of 128 bits that takes more than 64 bits: its bytes
                                * are read by arrowflow_reader_column */
    ARROWFLOW_CELL_FLOAT = 10  /* `real`, a floating-point number */
};

/* A value of a batch. */
typedef struct {
    uint32_t type; /* enum arrowflow_cell_type */
    bool truth;
    int64_t number;
    uint64_t large;
    double real;   /* a number of 16 or 32 bits is converted exactly; a NaN is some NaN: its bits are in the
                    * column */
    uint64_t size; /* length of a byte string or a text, whether it fits or not */
} arrowflow_cell;

/* The value in a row and a column, both counted from 0, of the reader's batch. Indices are looked up in the
 * dictionaries as they were at that batch. The first bytes of a byte string or a text, as many as fit, are
 * written to the output buffer. */
arrowflow_cell arrowflow_reader_cell(const arrowflow_reader *reader, size_t column, size_t row,
                                     uint8_t *out, size_t room);

/* How the slots of a column are stored in its buffers: Arrow Columnar Format, "Physical Memory Layout". */
enum arrowflow_layout {
    ARROWFLOW_LAYOUT_NONE = 0,        /* no batch, or the path leads to nothing */
    ARROWFLOW_LAYOUT_NULLS = 1,       /* no buffers: no slot has a value */
    ARROWFLOW_LAYOUT_BITS = 2,        /* slot i is bit i of `values` */
    ARROWFLOW_LAYOUT_NUMBERS = 3,     /* slot i is the integer of `width` bytes at byte width * i; also for an
                                       * interval of months, and for the unscaled integer of a decimal of 4, 8
                                       * or 16 bytes, whose scale is in the format string */
    ARROWFLOW_LAYOUT_BINARIES = 4,    /* slot i is the bytes of `values` from offset i up to offset i + 1 */
    ARROWFLOW_LAYOUT_TEXTS = 5,       /* the same, and UTF-8 */
    ARROWFLOW_LAYOUT_FIXED_BYTES = 6, /* slot i is the `width` bytes at byte width * i: a byte string; the
                                       * numbers of an interval, of 8 bytes days and milliseconds (32 bits
                                       * each), of 16 bytes months, days (32) and nanoseconds (64); or the
                                       * unscaled integer of a decimal of 32 bytes, in two's complement */
    ARROWFLOW_LAYOUT_LISTS = 7,       /* slot i is the child's slots from offset i up to offset i + 1 */
    ARROWFLOW_LAYOUT_STRUCTS = 8,     /* slot i is slot i of each child */
    ARROWFLOW_LAYOUT_INDICES = 9,     /* slot i is the index of a value of the dictionary, stored as NUMBERS */
    ARROWFLOW_LAYOUT_FLOATS = 10,     /* slot i is the floating-point number (IEEE 754) of `width` bytes, 2, 4
                                       * or 8, at byte width * i, with the bits that it had in the stream */
    ARROWFLOW_LAYOUT_FIXED_LISTS = 11 /* slot i is the `width` slots of the child that begin at slot width * i */
};

/* A column with its buffers. Numbers and offsets are little-endian and may lie at any address: read them byte
 * by byte or by memcpy. If a length is 0 the pointer is not NULL and must not be dereferenced. A buffer has at
 * least the bytes that the slots take, and may have more. */
typedef struct {
    uint32_t layout;         /* enum arrowflow_layout */
    bool has_sign;           /* of numbers and indices: signed, in two's complement */
    uint64_t width;          /* bytes of a number, an index, a byte string of FIXED_BYTES or an offset; for
                              * FIXED_LISTS the items of each list */
    uint64_t slots;          /* number of slots: for a column of the batch the number of rows */
    uint64_t children;       /* number of children: for LISTS and FIXED_LISTS 1, for STRUCTS one for each field */
    uint64_t entries;        /* for INDICES, the number of values in the dictionary */
    uint64_t slot;           /* if the path ends with a value of a dictionary, the slot of this column that has
                              * the value */
    const uint8_t *validity; /* bit i is 1 if slot i has a value; if it has 0 bytes every slot has one */
    size_t validity_len;
    const uint8_t *offsets; /* slots + 1 offsets; if there are no slots it may have 0 bytes */
    size_t offsets_len;
    const uint8_t *values;
    size_t values_len;
} arrowflow_column;

/* Returns a column of the reader's batch, with its buffers. path[0] is the index of the column, and each
 * further number of the path leads one level down: below LISTS and FIXED_LISTS it is 0, below STRUCTS the index
 * of a field, below INDICES the index of a value of the dictionary, which leads to the array that contains this
 * value, at `slot`. The other slots of the array are the neighbouring values of the dictionary in order, so
 * that value n - slot + slots, where n is the index in the path, is the first of the next array. Each
 * dictionary message added one such array, even if it had no values; a message that replaces a dictionary
 * removes the arrays before it. Depth 0 leads to nothing. Everything was checked when the batch was read:
 * offsets never decrease, and end inside the child or the values, and in a slot that has a value an index is
 * below `entries` and a text is UTF-8. The bytes of a slot without a value have no meaning. */
arrowflow_column arrowflow_reader_column(const arrowflow_reader *reader, const size_t *path, size_t depth);

/* ---- the reader's schema ---- */

/* What a path leads to in the schema. */
enum arrowflow_found {
    ARROWFLOW_FOUND_NONE = 0, /* there is no schema yet, or the path leads to nothing: all other fields are 0 */
    ARROWFLOW_FOUND_SCHEMA = 1,
    ARROWFLOW_FOUND_FIELD = 2
};

/* The flags of a field: ARROW_FLAG_DICTIONARY_ORDERED, ARROW_FLAG_NULLABLE and
 * ARROW_FLAG_MAP_KEYS_SORTED of the Arrow C data interface. */
enum arrowflow_flag {
    ARROWFLOW_FLAG_ORDERED = 1,        /* the order of the dictionary's values has a meaning */
    ARROWFLOW_FLAG_NULLABLE = 2,       /* slots may be null: only recorded, and enforced nowhere */
    ARROWFLOW_FLAG_MAP_KEYS_SORTED = 4 /* the keys of each map are sorted: only recorded, and enforced nowhere */
};

/* A field, or the schema, as in an ArrowSchema of the Arrow C data interface. Its three texts, name, format and
 * metadata, follow each other in the output buffer, with nothing between or after them: as many of their first
 * bytes as fit are written, and the bytes of the buffer after these are unchanged. If name_len + format_len +
 * metadata_len is at most `room` all of them are there; so a call with a buffer of 0 bytes returns the size
 * that is needed. The texts are not terminated by zero bytes. */
typedef struct {
    uint32_t found;        /* enum arrowflow_found */
    uint32_t flags;        /* the sum of flags of enum arrowflow_flag; 0 for the schema */
    bool is_encoded;       /* slots hold indices into a dictionary: the format is that of the indices */
    int64_t id;            /* id of the dictionary, which fields may share; 0 if the field has none */
    uint64_t children;     /* number of fields one level below: for the schema its columns; for a
                            * dictionary-encoded field 0, because they are below the field of the dictionary's
                            * values */
    uint64_t name_len;     /* bytes of the name, UTF-8; 0 for the schema and for a dictionary's values */
    uint64_t format_len;   /* bytes of the format string; for the schema it is "+s" */
    uint64_t metadata_len; /* bytes of the custom metadata; 0 for a dictionary's values, and if there are no
                            * pairs. Otherwise the metadata are the number of pairs, and for each pair the
                            * length of the key, the key, the length of the value and the value; numbers and
                            * lengths are 32-bit and little-endian. Of a length that needs more bits only the
                            * lowest 32 are written */
} arrowflow_field;

/* Returns the reader's schema, at depth 0, or the field that a path leads to. path[0] is the index of the
 * column, and each further number of the path leads one level down, to the child field of this index, from 0.
 * Below a dictionary-encoded field only the number 0 leads to a field, the one of the dictionary's values: it
 * has no name and no metadata, is nullable, and has the format and the children of the values. Once the schema
 * was read the call returns the same for a path until the reader is closed, whatever other calls are made. It
 * changes nothing, and allocates no memory. */
arrowflow_field arrowflow_reader_field(const arrowflow_reader *reader, const size_t *path, size_t depth,
                                       uint8_t *out, size_t room);

#ifdef __cplusplus
}
#endif

#endif
