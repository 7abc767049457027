/* A target for libFuzzer: compares the results of the library for C with those of the plain peer, whose coverage
 * guides the fuzzer, for one stream. The first difference aborts, and libFuzzer saves the stream.
 *
 * 1. arrowflow_check: kind, place, batches, rows, the end marker; the texts of check, schema and show, each in a
 *    buffer that is exactly as long.
 * 2. arrowflow_copy: kind, place and all bytes, in one of the four ways to write, also if the writer rejects the
 *    stream. What was written is valid and has the same rows, and its copy is itself. A copier that gets pieces
 *    writes the same.
 * 3. A reader that gets two pieces, or pieces of one small length: kind, place, batches, rows. All columns of each
 *    batch are walked, and dictionaries: each byte is read, buffers are as long as their slots take, offsets and
 *    indices are in their bounds, and a digest made of the buffers is the one that the peer makes. Cells have the
 *    values of the buffers.
 *
 * The stream, each piece and each buffer end where a page begins that must not be accessed. A piece is overwritten
 * as soon as it was read. The set of types, the way to write and the pieces depend on the bytes of the stream alone:
 * of four streams three are read with all types, one with the core, and with all too if the core lacks a type. The
 * limits are small, so that streams reach them; GUIDED_METADATA, GUIDED_BODY, GUIDED_ROWS and GUIDED_TYPES (0 the core,
 * 1 all) in the environment set others. */
#include "guided.h"

#include "arrowflow.h"

#include <math.h>
#include <stdio.h>
#include <stdlib.h>
#include <string.h>
#include <sys/mman.h>

namespace {

/* A longer text is not compared, and no more words go into a digest. */
constexpr size_t MOST_TEXT = 1 << 16, MOST_WORDS = 1 << 16;
/* Of streams with more fields or pairs, which may take few bytes and much time, one in 64 is checked. */
constexpr uint32_t MOST_FIELDS = 400;

uint64_t limit_of(const char *name, uint64_t otherwise) {
    const char *given = getenv(name);
    return given ? strtoull(given, nullptr, 10) : otherwise;
}

/* The set of types is chosen for each stream. */
arrowflow_limits limits = {limit_of("GUIDED_METADATA", 1 << 14), limit_of("GUIDED_BODY", 1 << 14),
                           limit_of("GUIDED_ROWS", 1 << 12), ARROWFLOW_TYPES_CORE};

[[noreturn]] void differ(const char *what, int line) {
    fprintf(stderr, "DIFFERENCE in line %d of target.cc: %s\n", line, what);
    abort();
}

#define WANT(fact) ((fact) ? (void)0 : differ(#fact, __LINE__))

/* What the peer's coverage does not show, for libFuzzer: the kinds that calls returned, and which layouts had how
 * many slots, with and without nulls, and nulls after slot 64. */
__attribute__((section("__libfuzzer_extra_counters"))) uint8_t seen[2 * 64 + 12 * 5 * 3];

void see(const arrowflow_column &it) {
    size_t size = it.slots == 0 ? 0 : it.slots <= 8 ? 1 : it.slots <= 64 ? 2 : it.slots <= 128 ? 3 : 4;
    size_t nulls = it.validity_len == 0 ? 0 : it.slots > 64 && it.validity[8] != 0xff ? 2 : 1;
    seen[128 + (it.layout * 5 + size) * 3 + nulls] = 1;
}

/* Memory that ends where the next page must not be accessed, so that a byte too many is a signal. */
class Guarded {
    static constexpr size_t SIZE = 1 << 26;
    uint8_t *end;

public:
    Guarded() {
        void *at = mmap(nullptr, SIZE + 4096, PROT_READ | PROT_WRITE, MAP_PRIVATE | MAP_ANONYMOUS, -1, 0);
        if (at == MAP_FAILED) abort();
        end = static_cast<uint8_t *>(at) + SIZE;
        mprotect(end, 4096, PROT_NONE);
    }
    uint8_t *room(size_t len) {
        if (len > SIZE) abort();
        return end - len;
    }
    uint8_t *copy(const uint8_t *bytes, size_t len) {
        if (len > 0) memcpy(room(len), bytes, len);
        return room(len);
    }
};

Guarded stream_room, text_room, copy_room, piece_room;

/* A result of the peer, which is freed at the end. */
struct Peer : peer_answer {
    explicit Peer(peer_answer it) : peer_answer(it) {}
    Peer(const Peer &) = delete;
    ~Peer() { peer_free(*this); }
};

/* ---- the rows of columns, from their buffers ---- */

struct Digest {
    uint64_t sum = 0, left = MOST_WORDS;
    void word(uint64_t it) {
        if (left == 0) return;
        left--;
        sum = (sum ^ it) * UINT64_C(0x9e3779b97f4a7c15);
        sum = sum << 29 | sum >> 35;
    }
};

uint64_t number_at(const uint8_t *bytes, size_t len, uint64_t width, uint64_t slot, bool has_sign) {
    WANT(width <= 8 && (slot + 1) * width <= len);
    uint64_t number = 0;
    memcpy(&number, bytes + slot * width, width);
    bool is_negative = has_sign && width < 8 && number >> (8 * width - 1);
    return is_negative ? number | ~UINT64_C(0) << 8 * width : number;
}

/* A column and what is below it: its children, or the arrays of its dictionary, each with the number of its first
 * value. */
struct Column {
    arrowflow_column it;
    std::vector<Column> below;
    std::vector<uint64_t> from;

    Column(arrowflow_reader *reader, std::vector<size_t> &path) : it(arrowflow_reader_column(reader, path.data(), path.size())) {
        WANT(it.layout != ARROWFLOW_LAYOUT_NONE && path.size() <= 70);
        read_buffers();
        see(it);
        for (size_t k = 0; k < it.children; k++) add(reader, path, k);
        for (uint64_t value = 0; value < it.entries; value = from.back() + below.back().it.slots) {
            from.push_back(value);
            add(reader, path, value);
            WANT(below.back().it.slot == 0 && below.back().it.slots > 0);
        }
        if (it.layout == ARROWFLOW_LAYOUT_INDICES && it.entries > 0) compare_last(reader, path);
        if (it.layout == ARROWFLOW_LAYOUT_FIXED_LISTS) WANT(it.width * it.slots <= below[0].it.slots);
    }

    void add(arrowflow_reader *reader, std::vector<size_t> &path, size_t number) {
        path.push_back(number);
        below.emplace_back(reader, path);
        path.pop_back();
    }

    /* The last value of the dictionary is in the last array, and there is none after it. */
    void compare_last(arrowflow_reader *reader, std::vector<size_t> &path) {
        WANT(from.back() + below.back().it.slots == it.entries);
        path.push_back(it.entries - 1);
        arrowflow_column last = arrowflow_reader_column(reader, path.data(), path.size());
        path.back() = it.entries;
        WANT(last.slot == it.entries - 1 - from.back() && last.values == below.back().it.values);
        WANT(arrowflow_reader_column(reader, path.data(), path.size()).layout == ARROWFLOW_LAYOUT_NONE);
        path.pop_back();
    }

    bool has_offsets() const {
        return it.layout == ARROWFLOW_LAYOUT_BINARIES || it.layout == ARROWFLOW_LAYOUT_TEXTS || it.layout == ARROWFLOW_LAYOUT_LISTS;
    }

    /* The number of bits of values that the slots take. */
    uint64_t bits_of_values() const {
        if (it.layout == ARROWFLOW_LAYOUT_BITS) return it.slots;
        return has_offsets() || it.layout == ARROWFLOW_LAYOUT_FIXED_LISTS ? 0 : it.slots * it.width * 8;
    }

    bool has_items() const { return it.layout == ARROWFLOW_LAYOUT_LISTS || it.layout == ARROWFLOW_LAYOUT_FIXED_LISTS; }

    /* Reads each byte of the buffers, which have as many as the slots take. */
    void read_buffers() const {
        WANT(it.validity_len == 0 || it.slots <= 8 * it.validity_len);
        WANT(bits_of_values() <= 8 * it.values_len);
        WANT(!has_offsets() || it.slots + it.offsets_len == 0 || it.width * (it.slots + 1) <= it.offsets_len);
        WANT(has_items() ? it.children == 1 : it.layout == ARROWFLOW_LAYOUT_STRUCTS || it.children == 0);
        WANT(it.layout == ARROWFLOW_LAYOUT_INDICES || it.entries == 0);
        uint64_t sum = 0;
        for (size_t i = 0; i < it.validity_len; i++) sum += it.validity[i];
        for (size_t i = 0; i < it.offsets_len; i++) sum += it.offsets[i];
        for (size_t i = 0; i < it.values_len; i++) sum += it.values[i];
        WANT(sum <= 255 * (it.validity_len + it.offsets_len + it.values_len));
    }

    bool is_valid(uint64_t slot) const {
        return it.layout != ARROWFLOW_LAYOUT_NULLS && (it.validity_len == 0 || (it.validity[slot / 8] >> slot % 8 & 1));
    }

    /* The array of the dictionary that has a value. */
    size_t array_of(uint64_t index) const {
        WANT(index < it.entries);
        size_t array = from.size() - 1;
        while (from[array] > index) array--;
        return array;
    }

    uint64_t number(uint64_t slot) const { return number_at(it.values, it.values_len, it.width, slot, it.has_sign); }

    /* The lower and the upper 64 bits of a number, which may have 16 bytes. */
    uint64_t lower(uint64_t slot) const {
        return it.width == 16 ? number_at(it.values, it.values_len, 8, 2 * slot, false) : number(slot);
    }

    uint64_t upper(uint64_t slot) const {
        if (it.width == 16) return number_at(it.values, it.values_len, 8, 2 * slot + 1, false);
        return it.has_sign && number(slot) > INT64_MAX ? UINT64_MAX : 0;
    }

    /* The floating-point number with the bits that a slot has. */
    double real(uint64_t slot) const {
        uint64_t bits = number(slot), fraction = bits % 1024, exponent = bits / 1024 % 32;
        uint32_t of_single = bits;
        float single;
        double number;
        memcpy(&single, &of_single, 4);
        memcpy(&number, &bits, 8);
        if (it.width != 2) return it.width == 4 ? single : number;
        number = exponent == 31 ? (fraction > 0 ? NAN : INFINITY)
                                : ldexp(exponent > 0 ? 1024 + fraction : fraction, exponent > 0 ? (int)exponent - 25 : -24);
        return bits >> 15 ? -number : number;
    }

    uint64_t offset(uint64_t slot) const { return number_at(it.offsets, it.offsets_len, it.width, slot, false); }

    void add_bytes(Digest &digest, const uint8_t *at, uint64_t len) const {
        digest.word(it.layout == ARROWFLOW_LAYOUT_TEXTS ? 5 : 4);
        digest.word(len);
        for (uint64_t i = 0; i < len; i++) digest.word(at[i]);
    }

    void add_value(Digest &digest, uint64_t slot) const {
        if (digest.left == 0) return;
        WANT(slot < it.slots);
        if (!is_valid(slot)) return digest.word(0);
        uint64_t start = it.width * slot, end = start + it.width;
        if (has_offsets()) start = offset(slot), end = offset(slot + 1);
        if (has_offsets() || has_items()) WANT(start <= end && end <= (has_items() ? below[0].it.slots : it.values_len));
        switch (it.layout) {
        case ARROWFLOW_LAYOUT_BITS: return digest.word(1 + (it.values[slot / 8] >> slot % 8 & 1));
        case ARROWFLOW_LAYOUT_NUMBERS:
            digest.word(3);
            digest.word(lower(slot));
            return it.width == 16 ? digest.word(upper(slot)) : (void)0;
        case ARROWFLOW_LAYOUT_FLOATS: digest.word(10); return digest.word(number(slot));
        case ARROWFLOW_LAYOUT_BINARIES:
        case ARROWFLOW_LAYOUT_TEXTS: return add_bytes(digest, it.values + start, end - start);
        case ARROWFLOW_LAYOUT_FIXED_BYTES: return add_bytes(digest, it.values + start, it.width);
        case ARROWFLOW_LAYOUT_LISTS:
        case ARROWFLOW_LAYOUT_FIXED_LISTS:
            digest.word(it.layout);
            digest.word(end - start);
            for (; start < end && digest.left > 0; start++) below[0].add_value(digest, start);
            return;
        case ARROWFLOW_LAYOUT_STRUCTS:
            digest.word(8);
            for (const Column &child : below) child.add_value(digest, slot);
            return;
        default: {
            WANT(it.layout == ARROWFLOW_LAYOUT_INDICES);
            size_t array = array_of(number(slot));
            digest.word(9);
            digest.word(number(slot));
            below[array].add_value(digest, number(slot) - from[array]);
        }
        }
    }

    /* A cell has the number of these lower and upper 64 bits. */
    static void compare_number(const arrowflow_cell &cell, uint64_t lower, uint64_t upper) {
        if (upper == (lower > INT64_MAX ? UINT64_MAX : 0))
            return WANT(cell.type == ARROWFLOW_CELL_NUMBER && (uint64_t)cell.number == lower);
        WANT(cell.type == (upper == 0 ? ARROWFLOW_CELL_LARGE : ARROWFLOW_CELL_HUGE));
        return WANT(upper > 0 || cell.large == lower);
    }

    /* A cell has the value of the buffers; `text` has the first bytes of a byte string or a text. */
    void compare_cell(const arrowflow_cell &cell, const uint8_t *text, uint64_t slot) const {
        if (!is_valid(slot)) return WANT(cell.type == ARROWFLOW_CELL_NULL);
        switch (it.layout) {
        case ARROWFLOW_LAYOUT_BITS:
            return WANT(cell.type == ARROWFLOW_CELL_BOOL && cell.truth == (it.values[slot / 8] >> slot % 8 & 1));
        case ARROWFLOW_LAYOUT_LISTS:
        case ARROWFLOW_LAYOUT_FIXED_LISTS: return WANT(cell.type == ARROWFLOW_CELL_LIST);
        case ARROWFLOW_LAYOUT_STRUCTS: return WANT(cell.type == ARROWFLOW_CELL_STRUCT);
        case ARROWFLOW_LAYOUT_NUMBERS: return compare_number(cell, lower(slot), upper(slot));
        case ARROWFLOW_LAYOUT_FLOATS:
            WANT(cell.type == ARROWFLOW_CELL_FLOAT);
            if (isnan(real(slot))) return WANT(isnan(cell.real));
            return WANT(cell.real == real(slot) && signbit(cell.real) == signbit(real(slot)));
        case ARROWFLOW_LAYOUT_INDICES: {
            size_t array = array_of(number(slot));
            return below[array].compare_cell(cell, text, number(slot) - from[array]);
        }
        default: {
            WANT(cell.type == (it.layout == ARROWFLOW_LAYOUT_TEXTS ? ARROWFLOW_CELL_TEXT : ARROWFLOW_CELL_BYTES));
            uint64_t start = has_offsets() ? offset(slot) : it.width * slot;
            uint64_t size = has_offsets() ? offset(slot + 1) - start : it.width;
            WANT(cell.size == size && memcmp(text, it.values + start, size < 4 ? size : 4) == 0);
        }
        }
    }
};

/* ---- comparisons ---- */

void add_batch(Digest &digest, arrowflow_reader *reader, const arrowflow_step &step, uint64_t chosen) {
    std::vector<Column> columns;
    std::vector<size_t> path;
    for (size_t k = 0; k < step.columns; k++) {
        path = {k};
        columns.emplace_back(reader, path);
        WANT(columns[k].it.slots == step.rows);
    }
    path = {(size_t)step.columns};
    WANT(arrowflow_reader_column(reader, path.data(), 1).layout == ARROWFLOW_LAYOUT_NONE);
    digest.word(step.columns);
    digest.word(step.rows);
    for (uint64_t row = 0; step.columns > 0 && row < step.rows && digest.left > 0; row++)
        for (const Column &column : columns) column.add_value(digest, row);
    for (size_t k = 0; step.rows > 0 && k < step.columns && k < 16; k++) {
        uint64_t row = chosen % step.rows;
        uint8_t *text = text_room.room(4);
        columns[k].compare_cell(arrowflow_reader_cell(reader, k, row, text, 4), text, row);
        WANT(arrowflow_reader_cell(reader, k, step.rows, text, 4).type == ARROWFLOW_CELL_NONE);
    }
}

/* The end of the piece that begins at `at`: the stream is cut in two, or into small pieces of one length. */
size_t end_of_piece(size_t at, size_t len, uint64_t chosen) {
    size_t first = chosen / 4 % (len + 1), end = at + 1 + chosen / 4 % 24;
    return chosen % 4 > 0 ? (at < first ? first : len) : end < len ? end : len;
}

void compare_reader(const uint8_t *bytes, size_t len, uint64_t chosen, const peer_answer &peer, uint64_t sum) {
    arrowflow_reader *reader = nullptr;
    WANT(arrowflow_reader_open(limits, &reader) == ARROWFLOW_KIND_FINE);
    Digest digest;
    size_t at = 0, place = 0;
    uint64_t batches = 0, rows = 0;
    arrowflow_step step = {};
    while (at < len && step.kind == ARROWFLOW_KIND_FINE && step.message != ARROWFLOW_MESSAGE_END) {
        size_t size = end_of_piece(at, len, chosen) - at;
        uint8_t *piece = piece_room.copy(bytes + at, size);
        step = arrowflow_reader_read(reader, piece, size);
        memset(piece, 0xa5, size);
        WANT(step.taken <= size && (step.kind == ARROWFLOW_KIND_FINE || step.taken == 0));
        WANT(step.message != ARROWFLOW_MESSAGE_NONE || step.kind != ARROWFLOW_KIND_FINE || step.taken == size);
        at += step.taken;
        if (step.message != ARROWFLOW_MESSAGE_NONE) place = at;
        if (step.message == ARROWFLOW_MESSAGE_BATCH) {
            batches++;
            rows += step.rows;
            add_batch(digest, reader, step, chosen);
        }
    }
    bool ended = step.message == ARROWFLOW_MESSAGE_END;
    arrowflow_fault end = arrowflow_reader_end(reader);
    WANT(end.kind == peer.kind && (end.kind == ARROWFLOW_KIND_FINE ? place : end.place) == peer.place);
    WANT(step.kind == ARROWFLOW_KIND_FINE || (step.kind == end.kind && step.place == end.place));
    WANT(ended == peer.ended && batches == peer.batches && rows == peer.rows && digest.sum == sum);
    if (step.kind != ARROWFLOW_KIND_FINE || ended) {
        arrowflow_step again = arrowflow_reader_read(reader, bytes, len);
        WANT(again.taken == 0 && again.kind == step.kind && again.place == step.place && again.message == ARROWFLOW_MESSAGE_NONE);
    }
    arrowflow_reader_close(reader);
}

bool is_text(const arrowflow_text &its, const peer_answer &peer, const uint8_t *room) {
    return its.size == peer.len && (peer.len == 0 || memcmp(room, peer.text, peer.len) == 0) && its.kind == peer.kind &&
           (peer.kind == ARROWFLOW_KIND_FINE || its.place == peer.place);
}

/* A copier that gets pieces, and whose output is taken in pieces of 1 to 32 bytes, or all at once. */
void compare_copier(const uint8_t *bytes, size_t len, uint64_t chosen, arrowflow_options options, const peer_answer &peer) {
    arrowflow_copier *copier = nullptr;
    WANT(arrowflow_copier_open(limits, options, &copier) == ARROWFLOW_KIND_FINE);
    std::vector<uint8_t> out;
    arrowflow_copied state = {};
    for (size_t at = 0, end; at <= len && !state.is_over; at = end) {
        end = end_of_piece(at, len, chosen);
        uint8_t *piece = piece_room.copy(bytes + at, end - at);
        state = at < len ? arrowflow_copier_put(copier, piece, end - at) : arrowflow_copier_end(copier);
        memset(piece, 0xa5, end - at);
        for (size_t most = chosen % 8 > 0 ? 1 << 22 : 1 + chosen / 8 % 32, taken = 1; taken > 0;) {
            uint8_t *room = text_room.room(most);
            taken = arrowflow_copier_take(copier, room, most);
            WANT(taken <= most);
            out.insert(out.end(), room, room + taken);
        }
    }
    arrowflow_copied last = arrowflow_copier_end(copier);
    WANT(last.kind == state.kind && last.is_over && last.waiting == 0 && last.place == state.place);
    WANT(state.kind == peer.kind && (peer.kind == ARROWFLOW_KIND_FINE || state.place == peer.place));
    WANT(out.size() == peer.len && (peer.len == 0 || memcmp(out.data(), peer.text, peer.len) == 0));
    arrowflow_copier_close(copier);
}

void compare_copy(const uint8_t *bytes, size_t len, uint64_t chosen, const peer_answer &whole, uint64_t sum) {
    arrowflow_options options = {(chosen >> 40) % 2 > 0, (chosen >> 41) % 2 > 0};
    Peer peer(peer_copy(bytes, len, options.resend, options.pad_to_8));
    uint8_t *room = copy_room.room(peer.len);
    WANT(is_text(arrowflow_copy(bytes, len, limits, options, room, peer.len), peer, room));
    seen[64 + peer.kind] = 1;
    compare_copier(bytes, len, chosen, options, peer);
    if (peer.kind == ARROWFLOW_KIND_SCHEMA_TOO_LARGE) return;
    arrowflow_report read = arrowflow_check(room, peer.len, limits);
    WANT(read.kind == (peer.len > 0 ? ARROWFLOW_KIND_FINE : ARROWFLOW_KIND_NO_SCHEMA));
    WANT(read.place == peer.len && read.ended == (peer.kind == ARROWFLOW_KIND_FINE));
    if (peer.kind == ARROWFLOW_KIND_BATCH_TOO_LARGE) return WANT(read.batches == peer.place);
    WANT(peer.kind == whole.kind && read.batches == whole.batches && read.rows == whole.rows);
    WANT(peer_digest(room, peer.len, MOST_WORDS) == sum);
    uint8_t *again = text_room.room(peer.len);
    arrowflow_text second = arrowflow_copy(room, peer.len, limits, options, again, peer.len);
    WANT(second.kind == read.kind);
    size_t end_marker = peer.len > 0 && peer.kind != ARROWFLOW_KIND_FINE ? 8 : 0;
    WANT(second.size == peer.len + end_marker && (peer.len == 0 || memcmp(room, again, peer.len) == 0));
}

/* All comparisons with this set of types. Returns the kind of the stream's fault. */
uint32_t compare(const uint8_t *bytes, size_t len, uint64_t chosen, uint32_t types) {
    limits.types = types;
    peer_limits(limits.max_metadata, limits.max_body, limits.max_rows, types);
    if (peer_is_wide(bytes, len, MOST_FIELDS) && chosen % 64 > 0) return ARROWFLOW_KIND_FINE;

    Peer lines(peer_text(0, bytes, len, SIZE_MAX));
    arrowflow_report report = arrowflow_check(bytes, len, limits);
    WANT(report.kind == lines.kind && report.ended == lines.ended && report.place == lines.place);
    WANT(report.batches == lines.batches && report.rows == lines.rows);
    seen[report.kind] = 1;
    arrowflow_culprit culprit = arrowflow_fault_column(bytes, len, limits);
    WANT(culprit.kind == ARROWFLOW_KIND_FINE);
    WANT(!culprit.found || (report.kind >= ARROWFLOW_KIND_LAYOUT && report.kind <= ARROWFLOW_KIND_INDEX));
    uint8_t *room = text_room.room(lines.len);
    WANT(is_text(arrowflow_messages(bytes, len, limits, room, lines.len), lines, room));

    Peer schema(peer_text(2, bytes, len, SIZE_MAX));
    room = text_room.room(schema.len);
    WANT(is_text(arrowflow_schema(bytes, len, limits, room, schema.len), schema, room));
    Peer rows(peer_text(1, bytes, len, MOST_TEXT));
    if (!rows.is_long) {
        room = text_room.room(rows.len);
        WANT(is_text(arrowflow_show(bytes, len, limits, room, rows.len), rows, room));
    }
    uint64_t sum = peer_digest(bytes, len, MOST_WORDS);
    compare_copy(bytes, len, chosen, lines, sum);
    compare_reader(bytes, len, chosen, lines, sum);
    return lines.kind;
}

} // namespace

extern "C" int LLVMFuzzerTestOneInput(const uint8_t *data, size_t len) {
    const uint8_t *bytes = stream_room.copy(data, len);
    uint64_t chosen = UINT64_C(0xcbf29ce484222325);
    for (size_t i = 0; i < len; i++) chosen = (chosen ^ bytes[i]) * UINT64_C(0x100000001b3);
    chosen ^= chosen >> 29;
    uint32_t types = limit_of("GUIDED_TYPES", (chosen >> 42) % 4 > 0 ? ARROWFLOW_TYPES_ALL : ARROWFLOW_TYPES_CORE);
    uint32_t kind = compare(bytes, len, chosen, types);
    if (kind == ARROWFLOW_KIND_UNSUPPORTED && types == ARROWFLOW_TYPES_CORE) compare(bytes, len, chosen, ARROWFLOW_TYPES_ALL);
    return 0;
}
