/* arrowflow_stream.h: any source of an Arrow IPC stream as an ArrowArrayStream, the Arrow C stream interface,
 * which pyarrow, polars, DuckDB, nanoarrow and others accept without conversion.
 *
 * Ownership   What a call writes to *out belongs to the caller, who calls its `release` once. A schema and an
 *             array own what they point to: each is released separately, in any order, before or after the
 *             stream, and lives until then. A child or a dictionary may be moved out, as the interface says:
 *             the struct is copied, and `release` of the original is set to NULL. Bytes, a file descriptor and
 *             a callback's state still belong to the caller. The stream uses them until it is released; its
 *             arrays do not use them.
 * Threads     Calls on one stream come one after another, as the interface requires, but from any threads: this
 *             is tested, while arrowflow.h promises a reader only to one thread. Schemas and arrays may be
 *             passed to any thread and released there, also while other calls run: arrays that share a
 *             dictionary count their owners atomically.
 * Errors      get_schema and get_next return 0 or a number of errno.h. get_last_error returns a sentence, which
 *             is valid until the next call, or NULL after success. A fault of the stream is EINVAL, with the
 *             sentence of arrowflow_error_text: its kind, the byte where its message begins and what it means;
 *             for a stream over bytes it is the sentence of arrowflow_fault_text, with the column at fault if
 *             there is one. A failed read is the number that it returned ("read failed: .."). A dictionary
 *             whose joined texts or lists are too long for its offsets of 32 bits is EOVERFLOW, with its id and
 *             the name of the column or field. If a call fails, *out is marked as released: its `release` is
 *             NULL. After a failure each further call returns the same, but a schema that was read is still
 *             returned. Only ENOMEM changes nothing: the call may be made again, and no row is lost.
 * Arrays      Buffers are aligned to 64 bytes, and may be read up to a multiple of 64 bytes. This padding is 0,
 *             except for a dictionary's buffers: there it may be anything, and changes when values are added.
 *             Each buffer is copied once from the reader, by one memcpy except for dictionaries that are
 *             joined. A column without a validity bitmap has none and a null_count of 0; otherwise null_count
 *             is -1 (not counted), except for the Null type. `offset` is 0. The bytes under nulls, and those
 *             that no offset reaches, are those of the stream.
 * Memory      malloc, calloc, realloc and free are called. The buffers of an untrusted stream may overlap in a
 *             body, so that the arrays of a batch may take the size of the body once for each buffer: their
 *             total size is only bounded by max_body, the number of fields and malloc. The stream keeps the
 *             values of each dictionary that a batch had, and up to the same amount of spare capacity for
 *             dictionaries that grew. It also keeps the last eight buffers of 64 KiB and more that it made:
 *             once they are released, they are used again for the next arrays. All of it is freed with the
 *             stream and its arrays.
 * Dictionary  The values of a dictionary are one array; if the stream sent them in several messages they are
 *             joined. Batches share the array as long as no message of the dictionary arrives. Values that a
 *             delta adds are appended to it, where earlier arrays do not read: of the values before, only
 *             bitmaps (of validity and of Bool values) are copied again; the other buffers are copied when they
 *             are full, which doubles their capacity. So n values that arrive in deltas take time that is
 *             linear in n, apart from the bitmaps, which have a bit for each value. All values are copied again
 *             if the dictionary was replaced, and if it has at most as many non-empty arrays as messages of it
 *             arrived since the last batch.
 * Names       The interface ends a name at its first zero byte; the part of a name after that is lost.
 *
 * The proofs end where arrowflow_reader_column and arrowflow_reader_field return. This part is plain C11 over
 * them and malloc: examples/stream.c tests it with sanitizers, and nothing more is proved of it.
 *
 * arrowflow.h says what the caller must ensure. In addition `out` does not overlap with anything else, what it
 * held before is not released, and a stream is not used in the forked child of a process with threads.
 */
#ifndef ARROWFLOW_STREAM_H
#define ARROWFLOW_STREAM_H

#include "arrowflow.h"

#ifdef __cplusplus
extern "C" {
#endif

/* The Arrow C data interface, word for word. */
#ifndef ARROW_C_DATA_INTERFACE
#define ARROW_C_DATA_INTERFACE

#define ARROW_FLAG_DICTIONARY_ORDERED 1
#define ARROW_FLAG_NULLABLE 2
#define ARROW_FLAG_MAP_KEYS_SORTED 4

struct ArrowSchema {
    const char *format;
    const char *name;
    const char *metadata;
    int64_t flags;
    int64_t n_children;
    struct ArrowSchema **children;
    struct ArrowSchema *dictionary;
    void (*release)(struct ArrowSchema *);
    void *private_data;
};

struct ArrowArray {
    int64_t length;
    int64_t null_count;
    int64_t offset;
    int64_t n_buffers;
    int64_t n_children;
    const void **buffers;
    struct ArrowArray **children;
    struct ArrowArray *dictionary;
    void (*release)(struct ArrowArray *);
    void *private_data;
};

#endif

/* The Arrow C stream interface, word for word. */
#ifndef ARROW_C_STREAM_INTERFACE
#define ARROW_C_STREAM_INTERFACE

struct ArrowArrayStream {
    int (*get_schema)(struct ArrowArrayStream *, struct ArrowSchema *out);
    int (*get_next)(struct ArrowArrayStream *, struct ArrowArray *out);
    const char *(*get_last_error)(struct ArrowArrayStream *);
    void (*release)(struct ArrowArrayStream *);
    void *private_data;
};

#endif

/* Writes 1 to `len` bytes to `room` and returns their number; or returns 0 if the source has ended, and is then
 * not called again; or returns the negative of a number of errno.h. After -ENOMEM it is called again if the
 * consumer asks again; any other failure is permanent for the stream. */
typedef ptrdiff_t (*arrowflow_source)(void *state, uint8_t *room, size_t len);

/* Each makes a stream and returns ARROWFLOW_KIND_FINE; or returns ARROWFLOW_KIND_MEMORY or
 * ARROWFLOW_KIND_BAD_LIMITS, and then there is no stream and out->release is NULL. Nothing is read before the
 * first call of get_schema, which reads up to the schema message, or of get_next, which reads up to the next
 * batch. At the end of the stream get_next sets *out to an array that is released: its `release` is NULL. The
 * bytes after the end marker are not inspected, though pieces of a source may contain some of them. */

/* Over bytes, which must not change until the stream is released. */
uint32_t arrowflow_stream_of_bytes(const uint8_t *bytes, size_t len, arrowflow_limits limits,
                                   struct ArrowArrayStream *out);

/* Over what read(2) returns for a file descriptor in blocking mode, in pieces of up to 64 KiB. The descriptor
 * is not closed. */
uint32_t arrowflow_stream_of_fd(int fd, arrowflow_limits limits, struct ArrowArrayStream *out);

/* Over what a callback returns, in pieces of up to 64 KiB. */
uint32_t arrowflow_stream_of(arrowflow_source read, void *state, arrowflow_limits limits,
                             struct ArrowArrayStream *out);

#ifdef __cplusplus
}
#endif

#endif
