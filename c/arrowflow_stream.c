/* The Arrow C stream interface over a reader: arrowflow_stream.h says what it promises. */
#define _POSIX_C_SOURCE 200809L
#include "arrowflow_stream.h"
#include "proved.h"

#include <errno.h>
#include <limits.h>
#include <stdatomic.h>
#include <stdio.h>
#include <stdlib.h>
#include <string.h>
#include <unistd.h>

_Static_assert(sizeof(size_t) >= 8, "counts of 64 bits are sizes here");
#if defined(__BYTE_ORDER__) && __BYTE_ORDER__ != __ORDER_LITTLE_ENDIAN__
#error "buffers are little-endian, and the interface asks for those of the machine"
#endif

enum { PIECE = 65536, ALIGNMENT = 64, ERROR_ROOM = 256, MOST_BUFFERS = 3, SPARES = 8, LARGE = 65536 };

/* ---- what the arrays and the schemas own ---- */

/* The bytes of a buffer. The arrays of one dictionary own it together: each of them sees a prefix of it, and
 * only the stream appends after the longest one. */
struct block {
    atomic_size_t owners;
    size_t room; /* a multiple of ALIGNMENT */
    uint8_t *at;
};

/* What an array owns besides its buffers: its children, then its dictionary, and then the table of pointers to
 * the children. */
struct node {
    struct block *blocks[MOST_BUFFERS]; /* for each buffer, or NULL */
    const void *buffers[MOST_BUFFERS];
    struct ArrowArray below[];
};

static void release_block(struct block *block) {
    if (block != NULL && atomic_fetch_sub_explicit(&block->owners, 1, memory_order_acq_rel) == 1) free(block);
}

/* Releases an array unless it was moved out or never made. */
static void drop(struct ArrowArray *array) {
    if (array->release != NULL) array->release(array);
}

static void release_array(struct ArrowArray *array) {
    struct node *node = array->private_data;
    for (int64_t k = 0; k < array->n_children; k++) drop(array->children[k]);
    if (array->dictionary != NULL) drop(array->dictionary);
    for (size_t k = 0; k < MOST_BUFFERS; k++) release_block(node->blocks[k]);
    free(node);
    array->release = NULL;
}

/* Makes an array without slots and buffers. Its children and its dictionary are marked as released. */
static bool new_array(struct ArrowArray *out, size_t children, bool has_dictionary) {
    size_t below = children + has_dictionary;
    struct node *node = calloc(1, sizeof *node + below * sizeof *out + children * sizeof(struct ArrowArray *));
    memset(out, 0, sizeof *out);
    if (node == NULL) return false;
    out->n_children = (int64_t)children;
    out->buffers = node->buffers;
    out->children = (struct ArrowArray **)(void *)(node->below + below);
    for (size_t k = 0; k < children; k++) out->children[k] = node->below + k;
    if (has_dictionary) out->dictionary = node->below + children;
    out->release = release_array;
    out->private_data = node;
    return true;
}

/* The size of a buffer with its padding: a multiple of ALIGNMENT, and not 0. */
static size_t padded(size_t size) {
    return size == 0 ? ALIGNMENT : (size + ALIGNMENT - 1) / ALIGNMENT * ALIGNMENT;
}

static struct block *new_block(size_t room) {
    struct block *block = malloc(sizeof *block + ALIGNMENT + room);
    if (block == NULL) return NULL;
    uint8_t *at = (uint8_t *)(block + 1);
    atomic_init(&block->owners, 1);
    block->room = room;
    block->at = at + (ALIGNMENT - (uintptr_t)at % ALIGNMENT) % ALIGNMENT;
    return block;
}

/* Makes another owner of an array's buffers, with its own children and without a dictionary. If an allocation
 * fails, the part that was made still has to be released. */
static bool share(const struct ArrowArray *from, struct ArrowArray *out) {
    const struct node *of = from->private_data;
    if (!new_array(out, (size_t)from->n_children, false)) return false;
    struct node *node = out->private_data;
    out->length = from->length;
    out->null_count = from->null_count;
    out->n_buffers = from->n_buffers;
    memcpy(node->buffers, of->buffers, sizeof node->buffers);
    memcpy(node->blocks, of->blocks, sizeof node->blocks);
    for (size_t k = 0; k < MOST_BUFFERS; k++)
        if (node->blocks[k] != NULL) atomic_fetch_add_explicit(&node->blocks[k]->owners, 1, memory_order_relaxed);
    for (int64_t k = 0; k < from->n_children; k++)
        if (!share(from->children[k], out->children[k])) return false;
    return true;
}

/* A schema owns one block: its children, its dictionary, the table of pointers to the children and its texts. */
static void release_schema(struct ArrowSchema *schema) {
    for (int64_t k = 0; k < schema->n_children; k++)
        if (schema->children[k]->release != NULL) schema->children[k]->release(schema->children[k]);
    if (schema->dictionary != NULL && schema->dictionary->release != NULL)
        schema->dictionary->release(schema->dictionary);
    free(schema->private_data);
    schema->release = NULL;
}

/* ---- the stream ---- */

/* The values of a dictionary, by its id, as they were at the last batch, and how many messages of the
 * dictionary arrived since. */
struct kept {
    int64_t id;
    size_t messages;
    struct ArrowArray values; /* released if there are none yet */
};

/* What a stream owns. */
struct source {
    arrowflow_reader *reader;
    arrowflow_source read; /* NULL for a stream over bytes */
    void *state;
    int fd;
    const uint8_t *piece; /* `at` of its bytes were consumed; for a stream over bytes it is all of them */
    size_t len, at;
    arrowflow_limits limits;
    bool has_schema, has_batch, has_ended;
    size_t columns, rows;   /* of the batch */
    int status;             /* the errno number of a stream that failed, or 0 */
    const char *last_error; /* what get_last_error returns */
    char error[ERROR_ROOM];
    struct kept *kept; /* in ascending order of ids */
    size_t kept_count, kept_room;
    size_t *path;
    size_t path_room;
    struct block *spares[SPARES]; /* the last large ones that were made, or NULL */
    size_t next_spare;
    uint8_t room[];
};

/* Puts a number into the path at this level. */
static bool set_path(struct source *it, size_t level, size_t number) {
    if (level >= it->path_room) {
        size_t room = level + 16, *path = realloc(it->path, room * sizeof *path);
        if (path == NULL) return false;
        it->path = path;
        it->path_room = room;
    }
    it->path[level] = number;
    return true;
}

/* Marks the stream as failed: each further call returns this status. */
static int fail(struct source *it, int status) { return it->status = status; }

static int fault(struct source *it, uint32_t kind, uint64_t place) {
    if (kind == ARROWFLOW_KIND_MEMORY) return ENOMEM;
    size_t size = arrowflow_error_text(kind, place, it->error, sizeof it->error);
    if (it->read == NULL && size < sizeof it->error
        && arrowflow_column_text(it->piece, it->len, it->limits, it->error + size, sizeof it->error - size) < 0)
        return ENOMEM;
    return fail(it, EINVAL);
}

static int failed_read(struct source *it, int number) {
    char why[ERROR_ROOM / 2] = "";
    if (number == ENOMEM) return ENOMEM;
    if (strerror_r(number, why, sizeof why) != 0) snprintf(why, sizeof why, "error %d", number);
    snprintf(it->error, sizeof it->error, "read failed: %s", why);
    return fail(it, number);
}

/* Reads the next piece. */
static int refill(struct source *it) {
    ptrdiff_t got = it->read(it->state, it->room, PIECE);
    if (got < 0) return failed_read(it, got < -INT_MAX ? EIO : (int)-got);
    if (got > PIECE) return failed_read(it, EIO);
    it->piece = it->room;
    it->len = (size_t)got;
    it->at = 0;
    return 0;
}

static int finish(struct source *it) {
    arrowflow_fault end = arrowflow_reader_end(it->reader);
    if (end.kind != ARROWFLOW_KIND_FINE) return fault(it, end.kind, end.place);
    it->has_ended = true;
    return 0;
}

/* The index of the first kept dictionary whose id is not below this one. */
static size_t place_of(const struct source *it, int64_t id) {
    size_t low = 0, high = it->kept_count;
    while (low < high) {
        size_t middle = low + (high - low) / 2;
        if (it->kept[middle].id < id) low = middle + 1;
        else high = middle;
    }
    return low;
}

/* A message of this dictionary arrived: the values that are kept of it are no longer complete. */
static void note_message(struct source *it, int64_t id) {
    size_t k = place_of(it, id);
    if (k < it->kept_count && it->kept[k].id == id) it->kept[k].messages++;
}

/* Passes the available bytes to the reader, up to the end of a message. */
static int advance(struct source *it) {
    if (it->at == it->len && it->read != NULL) {
        int status = refill(it);
        if (status != 0) return status;
    }
    if (it->at == it->len) return finish(it);
    arrowflow_step step = arrowflow_reader_read(it->reader, it->piece + it->at, it->len - it->at);
    if (step.kind != ARROWFLOW_KIND_FINE) return fault(it, step.kind, step.place);
    it->at += step.taken;
    if (step.message == ARROWFLOW_MESSAGE_SCHEMA) it->has_schema = true;
    if (step.message == ARROWFLOW_MESSAGE_DICTIONARY) note_message(it, step.id);
    if (step.message == ARROWFLOW_MESSAGE_BATCH) {
        it->has_batch = true;
        it->columns = step.columns;
        it->rows = step.rows;
    }
    return step.message == ARROWFLOW_MESSAGE_END ? finish(it) : 0;
}

/* ---- schemas ---- */

/* Allocates a field's children, dictionary and texts, with a zero byte after each of the first two texts. */
static char *new_schema(const arrowflow_field *field, struct ArrowSchema *out) {
    size_t children = field->children, below = children + field->is_encoded;
    size_t texts = field->name_len + field->format_len + field->metadata_len;
    struct ArrowSchema *block = calloc(1, below * sizeof *out + children * sizeof(struct ArrowSchema *) + texts + 2);
    memset(out, 0, sizeof *out);
    if (block == NULL) return NULL;
    out->flags = field->flags;
    out->n_children = (int64_t)children;
    out->children = (struct ArrowSchema **)(void *)(block + below);
    for (size_t k = 0; k < children; k++) out->children[k] = block + k;
    if (field->is_encoded) out->dictionary = block + children;
    out->release = release_schema;
    out->private_data = block;
    return (char *)(out->children + children);
}

/* Moves the three texts apart, so that the first two end with a zero byte. */
static void set_texts(const arrowflow_field *field, char *texts, struct ArrowSchema *out) {
    char *format = texts + field->name_len, *metadata = format + field->format_len;
    memmove(metadata + 2, metadata, field->metadata_len);
    memmove(format + 1, format, field->format_len);
    *format = metadata[1] = 0;
    out->name = texts;
    out->format = format + 1;
    out->metadata = field->metadata_len > 0 ? metadata + 2 : NULL;
}

/* Makes the schema of the field that the path leads to, or of the whole stream. */
static int export_field(struct source *it, size_t depth, struct ArrowSchema *out) {
    arrowflow_field field = arrowflow_reader_field(it->reader, it->path, depth, NULL, 0);
    char *texts = new_schema(&field, out);
    if (texts == NULL) return ENOMEM;
    size_t room = field.name_len + field.format_len + field.metadata_len;
    arrowflow_reader_field(it->reader, it->path, depth, (uint8_t *)texts, room);
    set_texts(&field, texts, out);
    int status = 0;
    for (size_t k = 0; k < field.children && status == 0; k++)
        status = set_path(it, depth, k) ? export_field(it, depth + 1, out->children[k]) : ENOMEM;
    if (field.is_encoded) status = set_path(it, depth, 0) ? export_field(it, depth + 1, out->dictionary) : ENOMEM;
    if (status != 0) out->release(out);
    return status;
}

/* ---- the buffers of an array ---- */

/* A block of at least this size. A large one may be a block that the stream made before and that all arrays
 * have released, if it is not much larger: malloc returns the memory of large blocks to the system, which takes
 * as long as a copy. */
static struct block *take_block(struct source *it, size_t room) {
    for (size_t k = 0; k < SPARES && room >= LARGE; k++) {
        struct block *spare = it->spares[k];
        if (spare == NULL || spare->room < room || spare->room / 2 > room) continue;
        if (atomic_load_explicit(&spare->owners, memory_order_acquire) > 1) continue;
        atomic_fetch_add_explicit(&spare->owners, 1, memory_order_relaxed);
        return spare;
    }
    struct block *block = new_block(room);
    if (block == NULL || room < LARGE) return block;
    struct block **oldest = it->spares + it->next_spare++ % SPARES;
    release_block(*oldest);
    *oldest = block;
    atomic_fetch_add_explicit(&block->owners, 1, memory_order_relaxed);
    return block;
}

/* How a buffer's size changes, in bytes. If it `grows` in place the earlier arrays see a prefix of it. */
struct change {
    size_t had, size;
    bool grows;
};

/* Gives buffer `k` of an array its new size, and zeros as padding. Its old contents stay at its start. A buffer
 * that grows stays where it is as long as it has capacity, and gets twice the size if it has not, so that in
 * total at most twice the final size is copied. Any other buffer is copied. */
static bool resize(struct source *it, struct ArrowArray *array, size_t k, struct change to) {
    struct node *node = array->private_data;
    struct block *block = node->blocks[k];
    if (block == NULL || !to.grows || block->room < to.size) {
        struct block *more = take_block(it, padded(block != NULL && to.grows ? 2 * to.size : to.size));
        if (more == NULL) return false;
        if (block != NULL) memcpy(more->at, block->at, to.had);
        release_block(block);
        node->blocks[k] = more;
    }
    node->buffers[k] = node->blocks[k]->at;
    memset(node->blocks[k]->at + to.size, 0, padded(to.size) - to.size);
    return true;
}

/* The bytes of a buffer, or NULL if there is none. */
static uint8_t *bytes_of(const struct ArrowArray *array, size_t k) {
    const struct node *node = array->private_data;
    return node->blocks[k] == NULL ? NULL : node->blocks[k]->at;
}

/* ---- arrays ---- */

/* Slots of a column, from `start` up to `end`. For a dictionary's values the column is the array that contains
 * the value `entry`, or a column below it. */
struct run {
    size_t entry, start, end;
};

/* Slots that are joined. The path leads to their columns. If they are values of a dictionary, the number at
 * `level` is the entry of the run. */
struct slots {
    size_t depth, level;
    const struct run *runs;
    size_t count;
};

/* The level if the slots do not belong to a dictionary. */
static const size_t NO_LEVEL = SIZE_MAX;

/* An array that is being filled: its buffers, how many slots it has so far, and how many items (bytes or slots
 * of the child) are inside these. */
struct target {
    uint8_t *validity, *offsets, *values;
    size_t slots, inside;
    bool is_prefix; /* offsets are copied unchanged: the array is new, and its slots are the first slots of one
                    * column */
};

static int build(struct source *it, const struct slots *from, struct ArrowArray *out);

static arrowflow_column column_of(struct source *it, const struct slots *from, size_t k) {
    if (from->level != NO_LEVEL) it->path[from->level] = from->runs[k].entry;
    return arrowflow_reader_column(it->reader, it->path, from->depth);
}

static size_t count_of(const struct run *runs, size_t count) {
    size_t slots = 0;
    for (size_t k = 0; k < count; k++) slots += runs[k].end - runs[k].start;
    return slots;
}

static bool has_offsets(uint32_t layout) {
    return layout == ARROWFLOW_LAYOUT_BINARIES || layout == ARROWFLOW_LAYOUT_TEXTS || layout == ARROWFLOW_LAYOUT_LISTS;
}

static size_t offset_at(const uint8_t *offsets, size_t width, size_t i) {
    uint32_t narrow;
    uint64_t wide;
    if (width == sizeof wide) {
        memcpy(&wide, offsets + sizeof wide * i, sizeof wide);
        return wide;
    }
    memcpy(&narrow, offsets + sizeof narrow * i, sizeof narrow);
    return narrow;
}

/* Where the items of slot i begin, which is where those of the slot before it end. */
static size_t place_inside(const arrowflow_column *of, size_t i) {
    return of->layout == ARROWFLOW_LAYOUT_FIXED_LISTS ? of->width * i : offset_at(of->offsets, of->width, i);
}

/* Finds the items inside of slots: bytes, or slots of the child. `like` is the first of the columns. */
static void find_inside(struct source *it, const struct slots *from, const arrowflow_column *like, bool is_prefix,
                        struct run *inside) {
    for (size_t k = 0; k < from->count; k++) {
        const struct run *run = from->runs + k;
        inside[k].entry = run->entry;
        inside[k].start = inside[k].end = 0;
        if (run->start == run->end) continue;
        arrowflow_column of = k == 0 ? *like : column_of(it, from, k);
        if (!is_prefix) inside[k].start = place_inside(&of, run->start);
        inside[k].end = place_inside(&of, run->end);
    }
}

/* Copies bits, or sets them if there are none to copy. All bits before bit `at` were copied; those after it up
 * to the end of its byte may have any value. */
static void copy_bits(uint8_t *to, size_t at, const uint8_t *bits, size_t bits_len, const struct run *run) {
    size_t count = run->end - run->start;
    if (bits_len > 0 && at % 8 == 0 && run->start % 8 == 0) {
        memcpy(to + at / 8, bits + run->start / 8, (count + 7) / 8);
        return;
    }
    for (size_t k = 0; k < count; k++) {
        size_t i = run->start + k, j = at + k;
        unsigned bit = bits_len == 0 || (bits[i / 8] >> i % 8 & 1) != 0;
        unsigned before = j % 8 == 0 ? 0u : to[j / 8] & ~(~0u << j % 8);
        to[j / 8] = (uint8_t)(before | bit << j % 8);
    }
}

/* Copies offsets, relative to the start of the run. */
static void copy_offsets(struct target *to, const arrowflow_column *of, const struct run *run, size_t start) {
    if (to->is_prefix) {
        memcpy(to->offsets, of->offsets, of->width * (run->end + 1));
        return;
    }
    for (size_t k = 1; k <= run->end - run->start; k++) {
        uint64_t offset = to->inside + offset_at(of->offsets, of->width, run->start + k) - start;
        memcpy(to->offsets + of->width * (to->slots + k), &offset, of->width);
    }
}

/* Copies the contents of one column's buffers for these slots. */
static void copy_run(struct target *to, const arrowflow_column *of, const struct run *run, const struct run *inside) {
    size_t slots = run->end - run->start;
    if (slots == 0) return;
    if (to->validity != NULL) copy_bits(to->validity, to->slots, of->validity, of->validity_len, run);
    if (of->layout == ARROWFLOW_LAYOUT_BITS) copy_bits(to->values, to->slots, of->values, of->values_len, run);
    else if (has_offsets(of->layout)) {
        copy_offsets(to, of, run, inside->start);
        if (of->layout != ARROWFLOW_LAYOUT_LISTS)
            memcpy(to->values + to->inside, of->values + inside->start, inside->end - inside->start);
        to->inside += inside->end - inside->start;
    } else if (to->values != NULL)
        memcpy(to->values + of->width * to->slots, of->values + of->width * run->start, of->width * slots);
    to->slots += slots;
}

/* Whether some slot may be null. */
static bool has_nulls(struct source *it, const struct slots *from, const arrowflow_column *like) {
    for (size_t k = 0; k < from->count; k++) {
        arrowflow_column of = k == 0 ? *like : column_of(it, from, k);
        if (from->runs[k].start < from->runs[k].end && of.validity_len > 0) return true;
    }
    return false;
}

/* The number of buffers of an array of this layout. */
static int64_t buffers_of(uint32_t layout) {
    switch (layout) {
    case ARROWFLOW_LAYOUT_NULLS: return 0;
    case ARROWFLOW_LAYOUT_FIXED_LISTS:
    case ARROWFLOW_LAYOUT_STRUCTS: return 1;
    case ARROWFLOW_LAYOUT_BINARIES:
    case ARROWFLOW_LAYOUT_TEXTS: return 3;
    default: return 2;
    }
}

/* Gives an array a validity bitmap for this number of slots. If it had none, all its slots so far have values.
 * Other threads could read the last byte while bits are added to it; therefore bitmaps do not grow in place. */
static bool take_validity(struct source *it, struct ArrowArray *out, size_t slots) {
    bool is_new = out->buffers[0] == NULL;
    struct run before = {0, 0, (size_t)out->length};
    if (!resize(it, out, 0, (struct change){(before.end + 7) / 8, (slots + 7) / 8, false})) return false;
    if (is_new) copy_bits(bytes_of(out, 0), 0, NULL, 0, &before);
    return true;
}

/* Gives an array offsets for this number of slots; the first offset is 0. */
static bool take_offsets(struct source *it, struct ArrowArray *out, size_t width, size_t slots) {
    bool is_new = out->buffers[1] == NULL;
    if (!resize(it, out, 1, (struct change){width * ((size_t)out->length + 1), width * (slots + 1), true})) return false;
    if (is_new) memset(bytes_of(out, 1), 0, width);
    return true;
}

/* Makes room in an array of this column's layout for this number of slots in total, and for the items inside
 * them. */
static bool take_room(struct source *it, struct ArrowArray *out, const arrowflow_column *like, size_t slots,
                      struct change inside) {
    size_t width = like->width, had = (size_t)out->length;
    switch (like->layout) {
    case ARROWFLOW_LAYOUT_NULLS:
    case ARROWFLOW_LAYOUT_FIXED_LISTS:
    case ARROWFLOW_LAYOUT_STRUCTS: return true;
    case ARROWFLOW_LAYOUT_BITS: return resize(it, out, 1, (struct change){(had + 7) / 8, (slots + 7) / 8, false});
    case ARROWFLOW_LAYOUT_LISTS: return take_offsets(it, out, width, slots);
    case ARROWFLOW_LAYOUT_BINARIES:
    case ARROWFLOW_LAYOUT_TEXTS: return take_offsets(it, out, width, slots) && resize(it, out, 2, inside);
    default: return resize(it, out, 1, (struct change){width * had, width * slots, true});
    }
}

/* Builds each child, for the same slots as those of the array. */
static int build_children(struct source *it, const struct slots *from, struct ArrowArray *out) {
    struct slots below = *from;
    below.depth++;
    for (size_t k = 0; k < (size_t)out->n_children; k++) {
        int status = set_path(it, from->depth, k) ? build(it, &below, out->children[k]) : ENOMEM;
        if (status != 0) return status;
    }
    return 0;
}

/* Builds an array without slots, of a schema's type. */
static int build_empty(struct source *it, const struct ArrowSchema *schema, struct ArrowArray *out) {
    const char *format = schema->format;
    if (!new_array(out, (size_t)schema->n_children, false)) return ENOMEM;
    bool is_bare = strcmp(format, "+s") == 0 || strncmp(format, "+w", 2) == 0;
    out->n_buffers = *format == 'n' ? 0 : is_bare ? 1 : strchr("zZuU", *format) != NULL ? 3 : 2;
    for (int64_t k = 1; k < out->n_buffers; k++)
        if (!resize(it, out, (size_t)k, (struct change){0, 0, false})) return ENOMEM;
    for (int64_t k = 0; k < schema->n_children; k++)
        if (build_empty(it, schema->children[k], out->children[k]) != 0) return ENOMEM;
    return 0;
}

/* Builds the values of a dictionary that has none. The path leads to the field. */
static int build_no_values(struct source *it, size_t depth, struct ArrowArray *out) {
    struct ArrowSchema values;
    int status = set_path(it, depth, 0) ? export_field(it, depth + 1, &values) : ENOMEM;
    if (status != 0) return status;
    status = build_empty(it, &values, out);
    values.release(&values);
    return status;
}

/* Returns how many of the reader's arrays hold the values of a dictionary from this entry on. If `runs` is not
 * NULL, the start of each one is written to it. */
static size_t find_runs(struct source *it, size_t depth, size_t entry, size_t entries, struct run *runs) {
    size_t count = 0;
    for (; entry < entries; count++) {
        it->path[depth] = entry;
        size_t slots = arrowflow_reader_column(it->reader, it->path, depth + 1).slots;
        if (runs != NULL) runs[count] = (struct run){entry, 0, slots};
        entry += slots;
    }
    return count;
}

/* Adds the values of a dictionary from this entry on, which is the first of one of the reader's arrays. The
 * path leads to a column of indices into it. */
static int add_values(struct source *it, size_t depth, size_t entry, size_t entries, struct ArrowArray *out) {
    size_t count = find_runs(it, depth, entry, entries, NULL);
    if (count == 0) return 0;
    struct run *runs = malloc(count * sizeof *runs);
    if (runs == NULL) return ENOMEM;
    find_runs(it, depth, entry, entries, runs);
    struct slots from = {depth + 1, depth, runs, count};
    int status = build(it, &from, out);
    free(runs);
    return status;
}

/* Whether a dictionary still begins with the values that it had before this number of messages. A message
 * brings one array, which is either appended to those that are there or replaces all of them; so if there are
 * more arrays than messages, one of them is from before, and none was replaced. Arrays without values are not
 * counted: the result may be false though the dictionary only grew. */
static bool has_grown(struct source *it, size_t depth, size_t entries, size_t messages) {
    size_t count = 0;
    for (size_t entry = 0; entry < entries && count <= messages; count++) {
        it->path[depth] = entry;
        entry += arrowflow_reader_column(it->reader, it->path, depth + 1).slots;
    }
    return count > messages;
}

/* Completes the values that are kept of a dictionary. The path leads to a column of indices into it. */
static int update(struct source *it, size_t depth, size_t entries, struct kept *kept) {
    if (!set_path(it, depth, 0)) return ENOMEM;
    if (kept->messages > 0 && !has_grown(it, depth, entries, kept->messages)) drop(&kept->values);
    bool is_new = kept->values.release == NULL;
    size_t entry = is_new ? 0 : (size_t)kept->values.length;
    int status = is_new && entries == 0 ? build_no_values(it, depth, &kept->values)
                                        : add_values(it, depth, entry, entries, &kept->values);
    if (status == 0) kept->messages = 0;
    else drop(&kept->values);
    return status;
}

/* Returns what is kept of this dictionary: no values if it is new. Returns NULL if an allocation fails. */
static struct kept *keep(struct source *it, int64_t id) {
    size_t k = place_of(it, id);
    if (k < it->kept_count && it->kept[k].id == id) return it->kept + k;
    if (it->kept_count == it->kept_room) {
        size_t room = it->kept_room * 2 + 4;
        struct kept *more = realloc(it->kept, room * sizeof *more);
        if (more == NULL) return NULL;
        it->kept = more;
        it->kept_room = room;
    }
    memmove(it->kept + k + 1, it->kept + k, (it->kept_count - k) * sizeof *it->kept);
    memset(it->kept + k, 0, sizeof *it->kept);
    it->kept[k].id = id;
    it->kept_count++;
    return it->kept + k;
}

/* Writes the error that the values of a dictionary are too long, with the name of the field that the path leads
 * to. */
static void report_overflow(struct source *it, size_t depth, int64_t id) {
    char name[NAME_ROOM];
    size_t len = arrowflow_shown_name(it->reader, it->path, depth, name);
    snprintf(it->error, sizeof it->error, "field \"%.*s\": the values of dictionary %lld are too long for offsets of 32 bits",
             (int)len, name, (long long)id);
}

/* Builds the dictionary of the column that the path leads to. */
static int build_dictionary(struct source *it, size_t depth, size_t entries, struct ArrowArray *out) {
    int64_t id = arrowflow_reader_field(it->reader, it->path, depth, NULL, 0).id;
    struct kept *kept = keep(it, id);
    if (kept == NULL) return ENOMEM;
    int status = kept->messages > 0 || kept->values.release == NULL ? update(it, depth, entries, kept) : 0;
    if (status == EOVERFLOW) report_overflow(it, depth, id);
    if (status != 0) return status;
    return share(&kept->values, out) ? 0 : ENOMEM;
}

/* Copies the contents of the buffers for these slots. */
static void copy_slots(struct source *it, const struct slots *from, const arrowflow_column *like, const struct run *inside,
                       struct target *to) {
    for (size_t k = 0; k < from->count; k++) {
        arrowflow_column of = k == 0 ? *like : column_of(it, from, k);
        copy_run(to, &of, from->runs + k, inside + k);
    }
}

/* Adds slots to the buffers of an array. `inside` receives the items inside each run of them. */
static int add(struct source *it, const struct slots *from, const arrowflow_column *like, struct run *inside,
               struct ArrowArray *out) {
    struct target to = {NULL, NULL, NULL, (size_t)out->length, 0, false};
    size_t slots = to.slots + count_of(from->runs, from->count), end = 0;
    if (has_offsets(like->layout)) {
        to.is_prefix = out->buffers[1] == NULL && from->count == 1 && from->runs[0].start == 0;
        if (to.slots > 0) to.inside = offset_at(bytes_of(out, 1), like->width, to.slots);
        find_inside(it, from, like, to.is_prefix, inside);
        end = to.inside + count_of(inside, from->count);
        if (like->width == sizeof(int32_t) && end > INT32_MAX) return EOVERFLOW;
    } else if (like->layout == ARROWFLOW_LAYOUT_FIXED_LISTS) find_inside(it, from, like, false, inside);
    bool has_validity = out->n_buffers > 0 && (out->buffers[0] != NULL || has_nulls(it, from, like));
    if (has_validity && !take_validity(it, out, slots)) return ENOMEM;
    if (!take_room(it, out, like, slots, (struct change){to.inside, end, true})) return ENOMEM;
    to.validity = bytes_of(out, 0);
    to.offsets = has_offsets(like->layout) ? bytes_of(out, 1) : NULL;
    to.values = bytes_of(out, to.offsets == NULL ? 1 : 2);
    copy_slots(it, from, like, inside, &to);
    out->length = (int64_t)slots;
    out->null_count = like->layout == ARROWFLOW_LAYOUT_NULLS ? out->length : has_validity ? -1 : 0;
    return 0;
}

/* Builds what is below an array of these slots, whose items are `inside`. */
static int build_below(struct source *it, const struct slots *from, const arrowflow_column *like, const struct run *inside,
                       struct ArrowArray *out) {
    struct slots within = {from->depth + 1, from->level, inside, from->count};
    switch (like->layout) {
    case ARROWFLOW_LAYOUT_STRUCTS: return build_children(it, from, out);
    case ARROWFLOW_LAYOUT_FIXED_LISTS:
    case ARROWFLOW_LAYOUT_LISTS: return set_path(it, from->depth, 0) ? build(it, &within, out->children[0]) : ENOMEM;
    case ARROWFLOW_LAYOUT_INDICES: return build_dictionary(it, from->depth, like->entries, out->dictionary);
    default: return 0;
    }
}

/* Makes an array of these slots, or adds them to an array that exists. If it does not return 0, the part of the
 * array that was made still has to be released. */
static int build(struct source *it, const struct slots *from, struct ArrowArray *out) {
    arrowflow_column like = column_of(it, from, 0);
    if (out->release == NULL && !new_array(out, like.children, like.layout == ARROWFLOW_LAYOUT_INDICES)) return ENOMEM;
    struct run one, *inside = from->count == 1 ? &one : malloc(from->count * sizeof *inside);
    if (inside == NULL) return ENOMEM;
    out->n_buffers = buffers_of(like.layout);
    int status = add(it, from, &like, inside, out);
    if (status == 0) status = build_below(it, from, &like, inside, out);
    if (inside != &one) free(inside);
    return status;
}

/* Builds the reader's batch as one array. */
static int build_batch(struct source *it, struct ArrowArray *out) {
    struct run rows = {0, 0, it->rows};
    struct slots from = {0, NO_LEVEL, &rows, 1};
    if (!new_array(out, it->columns, false)) return ENOMEM;
    out->length = (int64_t)it->rows;
    out->n_buffers = 1;
    int status = build_children(it, &from, out);
    if (status == 0) it->has_batch = false;
    else drop(out);
    return status == 0 || status == ENOMEM ? status : fail(it, status);
}

/* ---- the four calls of a stream ---- */

/* Returns the status of a call, and keeps its text. */
static int finish_call(struct source *it, int status) {
    it->last_error = status == 0 ? NULL : status == ENOMEM ? "Memory: out of memory, the call may be made again" : it->error;
    return status;
}

static int get_schema(struct ArrowArrayStream *stream, struct ArrowSchema *out) {
    struct source *it = stream->private_data;
    int status = it->has_schema ? 0 : it->status;
    out->release = NULL;
    while (status == 0 && !it->has_schema) status = advance(it);
    return finish_call(it, status == 0 ? export_field(it, 0, out) : status);
}

static int get_next(struct ArrowArrayStream *stream, struct ArrowArray *out) {
    struct source *it = stream->private_data;
    int status = it->status;
    out->release = NULL;
    while (status == 0 && !it->has_batch && !it->has_ended) status = advance(it);
    return finish_call(it, status == 0 && it->has_batch ? build_batch(it, out) : status);
}

static const char *get_last_error(struct ArrowArrayStream *stream) {
    const struct source *it = stream->private_data;
    return it->last_error;
}

static void release_stream(struct ArrowArrayStream *stream) {
    struct source *it = stream->private_data;
    arrowflow_reader_close(it->reader);
    for (size_t k = 0; k < it->kept_count; k++) drop(&it->kept[k].values);
    for (size_t k = 0; k < SPARES; k++) release_block(it->spares[k]);
    free(it->kept);
    free(it->path);
    free(it);
    stream->release = NULL;
}

/* Makes a stream that has read nothing yet, with a buffer for a piece. */
static uint32_t open_stream(arrowflow_limits limits, size_t room, struct ArrowArrayStream *out) {
    struct source *it = calloc(1, sizeof *it + room);
    memset(out, 0, sizeof *out);
    if (it == NULL) return ARROWFLOW_KIND_MEMORY;
    uint32_t kind = arrowflow_reader_open(limits, &it->reader);
    if (kind != ARROWFLOW_KIND_FINE) {
        free(it);
        return kind;
    }
    it->limits = limits;
    *out = (struct ArrowArrayStream){get_schema, get_next, get_last_error, release_stream, it};
    return ARROWFLOW_KIND_FINE;
}

uint32_t arrowflow_stream_of_bytes(const uint8_t *bytes, size_t len, arrowflow_limits limits, struct ArrowArrayStream *out) {
    uint32_t kind = open_stream(limits, 0, out);
    if (kind != ARROWFLOW_KIND_FINE) return kind;
    struct source *it = out->private_data;
    it->piece = len == 0 ? it->room : bytes;
    it->len = len;
    return kind;
}

uint32_t arrowflow_stream_of(arrowflow_source read, void *state, arrowflow_limits limits, struct ArrowArrayStream *out) {
    uint32_t kind = open_stream(limits, PIECE, out);
    if (kind != ARROWFLOW_KIND_FINE) return kind;
    struct source *it = out->private_data;
    it->read = read;
    it->state = state;
    it->piece = it->room;
    return kind;
}

static ptrdiff_t read_fd(void *state, uint8_t *room, size_t len) {
    const int *fd = state;
    ssize_t got;
    do got = read(*fd, room, len);
    while (got < 0 && errno == EINTR);
    return got < 0 ? -(ptrdiff_t)errno : got;
}

uint32_t arrowflow_stream_of_fd(int fd, arrowflow_limits limits, struct ArrowArrayStream *out) {
    uint32_t kind = arrowflow_stream_of(read_fd, NULL, limits, out);
    if (kind != ARROWFLOW_KIND_FINE) return kind;
    struct source *it = out->private_data;
    it->fd = fd;
    it->state = &it->fd;
    return kind;
}
