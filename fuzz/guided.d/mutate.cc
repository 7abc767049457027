/* Changes of streams that know messages, the tables of their metadata and the buffers of their bodies; a quarter of
 * the changes are libFuzzer's own, which know bytes. A change may leave a stream valid or not. */
#include "guided.h"

#include <string.h>
#include <vector>

namespace {

using Bytes = std::vector<uint8_t>;

uint64_t state;

/* A random number below `most` (splitmix64). */
uint64_t below(uint64_t most) {
    uint64_t z = state += UINT64_C(0x9e3779b97f4a7c15);
    z = (z ^ z >> 30) * UINT64_C(0xbf58476d1ce4e5b9);
    z = (z ^ z >> 27) * UINT64_C(0x94d049bb133111eb);
    return (z ^ z >> 31) % most;
}

template <class T> const T &any(const std::vector<T> &of) { return of[below(of.size())]; }

uint64_t number(const Bytes &b, size_t at, size_t width) {
    uint64_t it = 0;
    if (at <= b.size() && width <= b.size() - at) memcpy(&it, &b[at], width);
    return it;
}

void put(Bytes &b, size_t at, size_t width, uint64_t it) {
    if (at <= b.size() && width <= b.size() - at) memcpy(&b[at], &it, width);
}

/* ---- the tables of metadata ---- */

/* What a number means: so one that another place of this meaning has can be put there. */
enum What {
    VERSION, HEADER, LENGTH, FLAG, TYPE, UNIT, BITS, ID, KIND, WIDTH, DIGITS, SCALE, ROWS, NULLS, START, SIZE, COUNT, OFFSET, ENTRY,
    VTABLE, CHARS
};

/* The fields of tables. If a field refers to tables, `of` is which; below 0 it depends on a code. */
enum Shape { NUMBER, TABLE, TABLES, TEXT, PAIRS, BODY };
enum Of { MESSAGE, SCHEMA, FIELD, ENCODING, INT, DATE, TIME, ZONED, FIXED, DECIMAL, MAP, KEYED, BATCH, DICTIONARY, OTHER };
struct Slot {
    Shape shape;
    int of;
    int width;
    What what;
};
constexpr Slot number_of(int width, What what) { return {NUMBER, 0, width, what}; }
constexpr Slot naming(Shape shape, int of) { return {shape, of, 4, OFFSET}; }

const std::vector<std::vector<Slot>> tables = {
    {number_of(2, VERSION), number_of(1, HEADER), naming(TABLE, -1), {BODY, 0, 8, LENGTH}, naming(TABLES, KEYED)},
    {number_of(2, FLAG), naming(TABLES, FIELD), naming(TABLES, KEYED)},
    {naming(TEXT, 0), number_of(1, FLAG), number_of(1, TYPE), naming(TABLE, -2), naming(TABLE, ENCODING), naming(TABLES, FIELD),
     naming(TABLES, KEYED)},
    {number_of(8, ID), naming(TABLE, INT), number_of(1, FLAG), number_of(2, KIND)},
    {number_of(4, BITS), number_of(1, FLAG)},
    {number_of(2, UNIT)},
    {number_of(2, UNIT), number_of(4, BITS)},
    {number_of(2, UNIT), naming(TEXT, 0)},
    {number_of(4, WIDTH)},
    {number_of(4, DIGITS), number_of(4, SCALE), number_of(4, BITS)},
    {number_of(1, FLAG)},
    {naming(TEXT, 0), naming(TEXT, 0)},
    {number_of(8, ROWS), naming(PAIRS, 0), naming(PAIRS, 1), naming(TABLE, OTHER)},
    {number_of(8, ID), naming(TABLE, BATCH), number_of(1, FLAG)},
    {},
};

/* The table that a code means: of a header, or of a type. A unit alone, a precision too, is as in the table of a date. */
int named(int of, uint64_t code) {
    if (of == -1) return code == 1 ? SCHEMA : code == 2 ? DICTIONARY : code == 3 ? BATCH : OTHER;
    switch (code) {
    case 2: return INT;
    case 3: case 8: case 11: case 18: return DATE;
    case 7: return DECIMAL;
    case 9: return TIME;
    case 10: return ZONED;
    case 15: case 16: return FIXED;
    case 17: return MAP;
    default: return OTHER;
    }
}

struct Spot {
    size_t at;
    int width;
    What what;
};
struct Named {
    size_t at, to; /* where an offset is, and where it leads */
    bool is_vtable;
    int of;
};
struct Vector {
    size_t at, count;
    int width;
};

/* A message of a stream, and what its metadata have, by places in the stream. */
struct Frame {
    size_t at, meta, body, end;
    std::vector<Spot> spots;
    std::vector<Named> names;
    std::vector<Vector> vectors, nodes, buffers;
    uint64_t length = 0;
    size_t length_at = 0, rows_at = 0;
    int header = 0;

    bool has(const Bytes &b, size_t from, size_t count) const { return from <= body && count <= body - from && body <= b.size(); }

    void name(const Bytes &b, size_t at, int of) {
        names.push_back({at, at + number(b, at, 4), false, of});
        spots.push_back({at, 4, OFFSET});
    }

    void table(const Bytes &b, size_t at, int of, int levels) {
        if (levels == 0 || spots.size() > 2000 || at < meta || !has(b, at, 4)) return;
        size_t vtable = at - (int32_t)number(b, at, 4);
        if (vtable < meta || !has(b, vtable, 4)) return;
        names.push_back({at, vtable, true, of});
        spots.push_back({vtable, 2, VTABLE});
        uint64_t size = number(b, vtable, 2), code = 0;
        for (size_t i = 0; i < tables[of].size() && 6 + 2 * i <= size && has(b, vtable + 4 + 2 * i, 2); i++) {
            const Slot &slot = tables[of][i];
            uint64_t entry = number(b, vtable + 4 + 2 * i, 2);
            spots.push_back({vtable + 4 + 2 * i, 2, ENTRY});
            size_t place = at + entry;
            if (entry == 0 || !has(b, place, slot.width)) continue;
            if (slot.what == HEADER || slot.what == TYPE) code = number(b, place, 1);
            if (slot.what == HEADER) header = code;
            if (slot.what == ROWS) rows_at = place;
            if (slot.shape == BODY) length_at = place, length = number(b, place, 8);
            if (slot.shape == NUMBER || slot.shape == BODY) {
                spots.push_back({place, slot.width, slot.what});
                continue;
            }
            int target = slot.of < 0 ? named(slot.of, code) : slot.of;
            name(b, place, target);
            size_t to = names.back().to;
            if (slot.shape == TABLE) table(b, to, target, levels - 1);
            else vector(b, to, slot, levels);
        }
    }

    void vector(const Bytes &b, size_t at, const Slot &slot, int levels) {
        if (!has(b, at, 4)) return;
        size_t count = number(b, at, 4), width = slot.shape == TABLES ? 4 : slot.shape == PAIRS ? 16 : 1;
        spots.push_back({at, 4, COUNT});
        if (count > 4000 || !has(b, at + 4, count * width)) return;
        vectors.push_back({at, count, (int)width});
        if (slot.shape == PAIRS) (slot.of ? buffers : nodes).push_back(vectors.back());
        for (size_t k = 0; k < count && spots.size() < 2000; k++) {
            size_t place = at + 4 + k * width;
            if (slot.shape == TEXT) {
                spots.push_back({place, 1, CHARS});
                k += below(8);
            } else if (slot.shape == PAIRS) {
                spots.push_back({place, 8, slot.of ? START : ROWS});
                spots.push_back({place + 8, 8, slot.of ? SIZE : NULLS});
            } else {
                name(b, place, slot.of);
                table(b, names.back().to, slot.of, levels - 1);
            }
        }
    }
};

/* The first messages of a stream, as far as they are complete. */
std::vector<Frame> frames_of(const Bytes &b) {
    std::vector<Frame> frames;
    for (size_t at = 0; at + 8 <= b.size() && frames.size() < 64;) {
        size_t size = number(b, at + 4, 4);
        if (number(b, at, 4) != 0xffffffff || size > b.size() - at - 8) break;
        Frame frame;
        frame.at = at, frame.meta = at + 8, frame.body = frame.end = at + 8 + size;
        if (size > 4) frame.table(b, frame.meta + number(b, frame.meta, 4), MESSAGE, 36);
        if (frame.length > b.size() - frame.body) break;
        frame.end += frame.length;
        at = frame.end;
        frames.push_back(frame);
    }
    return frames;
}

/* Streams that were seen, for parts of them. */
std::vector<Bytes> pool;

void remember(const Bytes &b) {
    if (b.empty() || b.size() > 16384) return;
    if (pool.size() < 400) pool.push_back(b);
    else pool[below(pool.size())] = b;
}

/* ---- changes ---- */

const std::vector<uint64_t> odd = {0, 1, 2, 3, 4, 5, 7, 8, 9, 15, 16, 17, 31, 32, 33, 63, 64, 65, 127, 128, 255, 256, 1023, 1024,
                                   4096, 65535, 65536, 1 << 20, (1 << 20) + 1, INT32_MAX, UINT64_C(1) << 31, UINT64_C(1) << 32,
                                   UINT64_C(1) << 40, 0x3555, 0x7c00, 0x3dcccccd, 0x7f800000, 0x3fb999999999999a,
                                   0x7ff0000000000000, INT64_MAX, UINT64_C(1) << 63, (uint64_t)-1, (uint64_t)-2, (uint64_t)-8};

uint64_t changed(const Bytes &b, const Frame &frame, const Spot &spot) {
    static const std::vector<std::vector<uint64_t>> choices = {
        {3, 4, 3, 4, 2, 5}, {1, 2, 3, 1, 2, 3, 0, 4}, {}, {0, 1, 0, 1, 2, 255},
        {1, 2, 3, 4, 5, 6, 7, 8, 9, 10, 11, 12, 13, 15, 16, 17, 18, 19, 20, 21, 14, 22},
        {0, 1, 2, 3, 0, 1, 2, 3, 4, 32}, {8, 16, 32, 64, 8, 16, 32, 64, 128, 256, 0}, {}, {0, 0, 1},
        {0, 1, 2, 3, 4, 5, 7, 8, 16, 33}, {1, 9, 10, 18, 19, 38, 39, 76, 77, 0}, {0, 1, 2, 5, 75, 76, 77, (uint64_t)-1, (uint64_t)-76, (uint64_t)-77}};
    uint64_t now = number(b, spot.at, spot.width);
    uint64_t turn = below(8);
    if (turn < 5 && spot.what < (int)choices.size() && !choices[spot.what].empty()) return any(choices[spot.what]);
    if (spot.what == NULLS && turn < 4) return turn < 3 ? -1 : 0;
    if (spot.what == ENTRY && turn < 3) return 0;
    if (spot.what == VTABLE && turn < 4) return 4 + 2 * below(8);
    if (turn == 7) return any(odd);
    if (turn >= 4) return now + below(turn == 4 ? 3 : 17) - (turn == 4 ? 1 : 8);
    /* what another place of this meaning has; for an offset, where such an offset leads */
    std::vector<uint64_t> others;
    if (spot.what == OFFSET) {
        int of = 0;
        for (const Named &it : frame.names)
            if (it.at == spot.at && !it.is_vtable) of = it.of;
        for (const Named &it : frame.names)
            if (!it.is_vtable && it.to > spot.at && (it.of == of || below(8) == 0)) others.push_back(it.to - spot.at);
    } else {
        for (const Spot &it : frame.spots)
            if (it.what == spot.what && it.width == spot.width) others.push_back(number(b, it.at, it.width));
    }
    return others.empty() ? now ^ UINT64_C(1) << below(8 * spot.width) : any(others);
}

/* Puts zero bytes into a message's metadata, and keeps each offset's target. */
void widen(Bytes &b, Frame &frame, size_t at, size_t count) {
    for (const Named &it : frame.names) {
        if (it.is_vtable && it.to < at && at <= it.at) put(b, it.at, 4, it.at - it.to + count);
        if (it.is_vtable && it.at < at && at <= it.to) put(b, it.at, 4, it.at - it.to - count);
        if (!it.is_vtable && it.at < at && at <= it.to) put(b, it.at, 4, it.to - it.at + count);
    }
    if (at > frame.meta && at <= frame.meta + number(b, frame.meta, 4)) put(b, frame.meta, 4, number(b, frame.meta, 4) + count);
    put(b, frame.at + 4, 4, frame.body - frame.meta + count);
    b.insert(b.begin() + at, count, 0);
}

/* The last element of a vector is there once more. */
void lengthen(Bytes &b, Frame &frame) {
    if (frame.vectors.empty()) return;
    Vector it = any(frame.vectors);
    size_t end = it.at + 4 + it.count * it.width;
    if (it.count == 0 && it.width == 4) return;
    put(b, it.at, 4, it.count + 1);
    widen(b, frame, end, it.width);
    if (it.count > 0) memcpy(&b[end], &b[end - it.width], it.width);
    if (it.width == 4) put(b, end, 4, number(b, end, 4) - 4);
}

/* An entry of a vtable leads to another field's place, or to one after the table. */
void alias(Bytes &b, Frame &frame) {
    std::vector<Spot> entries;
    for (const Spot &it : frame.spots)
        if (it.what == ENTRY) entries.push_back(it);
    if (entries.size() < 2) return;
    put(b, any(entries).at, 2, below(4) ? number(b, any(entries).at, 2) : 4 * below(10));
}

/* All numbers of slots in a batch that are the same are changed together. */
void resize_rows(Bytes &b, Frame &frame) {
    if (frame.rows_at == 0 || frame.nodes.empty()) return;
    uint64_t rows = number(b, frame.rows_at, 8), to = below(3) ? rows - 1 + 2 * below(2) : any(odd);
    if (below(4) == 0) to = rows > 0 ? below(rows) : 0;
    put(b, frame.rows_at, 8, to);
    for (size_t k = 0; k < frame.nodes[0].count; k++) {
        size_t at = frame.nodes[0].at + 4 + 16 * k;
        if (number(b, at, 8) == rows) put(b, at, 8, to);
        if (below(2)) put(b, at + 8, 8, -1);
    }
}

/* All null counts are taken back, so that bitmaps may be any. */
void forget_nulls(Bytes &b, Frame &frame) {
    for (const Vector &it : frame.nodes)
        for (size_t k = 0; k < it.count; k++) put(b, it.at + 12 + 16 * k, 8, -1);
}

/* Something in a buffer: a bit, an element, a letter, a run of bytes. */
void change_body(Bytes &b, Frame &frame) {
    static const std::vector<const char *> texts = {"\xc3\xa9", "\xe6\xbc\xa2", "\xf0\x9f\x98\x80", "\xed\xa0\x80", "\xc0\x80",
                                                   "\"", ",", "\n", "\r", "\xff", "\xf4\x90\x80\x80", "\xe0\x9f\xbf"};
    size_t from = frame.body, len = frame.end - frame.body;
    if (!frame.buffers.empty() && frame.buffers[0].count > 0 && below(8)) {
        size_t at = frame.buffers[0].at + 4 + 16 * below(frame.buffers[0].count);
        uint64_t start = number(b, at, 8), size = number(b, at + 8, 8);
        if (start <= len && size <= len - start && size > 0) from += start, len = size;
    }
    if (len == 0) return;
    size_t width = size_t(1) << below(4), at = from + below(len) / width * width;
    if (at + width > frame.end) return;
    uint64_t now = number(b, at, width);
    switch (below(7)) {
    case 0: return put(b, at, 1, number(b, at, 1) ^ 1 << below(8));
    case 1: return put(b, at, width, now + below(5) - 2);
    case 2: return put(b, at, width, any(odd));
    case 3: return put(b, at, width, number(b, from + below(len) / width * width, width));
    case 4: return (void)memset(&b[at], below(2) ? 0xff : 0, 1 + below(frame.end - at < 16 ? frame.end - at : 16));
    case 5: {
        const char *text = any(texts);
        for (size_t k = 0; text[k] && at + k < frame.end; k++) b[at + k] = text[k];
        return;
    }
    default: /* a step between offsets is larger or smaller, for all offsets after it */
        width = width < 4 ? 4 : width;
        at = from + below(len) / width * width;
        for (uint64_t by = below(7) - 3; at + width <= from + len; at += width) put(b, at, width, number(b, at, width) + by);
    }
}

/* Bytes are put into a body or taken out, and the lengths and places of buffers follow. */
void resize_body(Bytes &b, Frame &frame) {
    if (frame.length_at == 0) return;
    size_t count = (below(2) ? 8 : 1) * (1 + below(below(4) ? 8 : 64)), at = frame.body + below(frame.length + 1);
    bool is_more = below(2) || count > frame.end - at;
    uint64_t place = at - frame.body;
    if (frame.buffers.size() > 0)
        for (size_t k = 0; k < frame.buffers[0].count; k++) {
            size_t pair = frame.buffers[0].at + 4 + 16 * k;
            uint64_t start = number(b, pair, 8), size = number(b, pair + 8, 8);
            if (start > place) put(b, pair, 8, is_more ? start + count : start < place + count ? place : start - count);
            else if (start + size > place || (start + size == place && below(2)))
                put(b, pair + 8, 8, is_more ? size + count : size < place - start + count ? place - start : size - count);
        }
    put(b, frame.length_at, 8, is_more ? frame.length + count : frame.length - count);
    if (is_more) {
        b.insert(b.begin() + at, count, 0);
        if (at > frame.body && below(2)) /* more of the same */
            for (size_t k = 0; k < count; k++) b[at + k] = b[at + k - (at - frame.body < 8 ? at - frame.body : 8)];
    } else {
        b.erase(b.begin() + at, b.begin() + at + count);
    }
}

/* Messages are moved, doubled, left out, or taken from another stream. */
void change_frames(Bytes &b, const std::vector<Frame> &frames) {
    const Frame &one = any(frames), &two = any(frames);
    Bytes part(b.begin() + one.at, b.begin() + one.end);
    size_t to = below(2) ? two.at : two.end;
    switch (below(8)) {
    case 0: b.erase(b.begin() + one.at, b.begin() + one.end); return;
    case 1: b.insert(b.begin() + to, part.begin(), part.end()); return;
    case 2: /* a swap */
        if (one.at < two.at) {
            Bytes other(b.begin() + two.at, b.begin() + two.end);
            b.erase(b.begin() + two.at, b.begin() + two.end);
            b.insert(b.begin() + two.at, part.begin(), part.end());
            b.erase(b.begin() + one.at, b.begin() + one.end);
            b.insert(b.begin() + one.at, other.begin(), other.end());
        }
        return;
    case 3: b.resize(one.end); return;
    case 4: b.resize(below(2) ? one.at + below(one.end - one.at) : b.size() - below(9 < b.size() ? 9 : b.size())); return;
    case 5: {
        static const uint8_t end[8] = {255, 255, 255, 255, 0, 0, 0, 0};
        b.insert(b.begin() + to, end, end + 8);
        return;
    }
    default: {
        if (pool.empty()) return;
        const Bytes &other = any(pool);
        std::vector<Frame> theirs = frames_of(other);
        if (theirs.empty()) return;
        const Frame &first = any(theirs), &last = below(2) ? first : theirs.back();
        if (first.at > last.at) return;
        /* half of the time in place of one that has the same header */
        if (below(2) && first.header == one.header) {
            b.erase(b.begin() + one.at, b.begin() + one.end);
            to = one.at;
        }
        b.insert(b.begin() + to, other.begin() + first.at, other.begin() + last.end);
    }
    }
}

/* libFuzzer's own changes of a part, whose length stays. */
void change_part(Bytes &b, size_t from, size_t end) {
    if (from >= end || end > b.size()) return;
    Bytes part(b.begin() + from, b.begin() + end);
    LLVMFuzzerMutate(part.data(), part.size(), part.size());
    memcpy(&b[from], part.data(), part.size());
}

void change(Bytes &b) {
    std::vector<Frame> frames = frames_of(b);
    if (frames.empty()) return change_part(b, 0, b.size());
    Frame &frame = frames[below(frames.size())];
    switch (below(16)) {
    case 0: case 1: return change_frames(b, frames);
    case 2: return lengthen(b, frame);
    case 3: return resize_rows(b, frame);
    case 4: return forget_nulls(b, frame);
    case 5: case 6: return change_body(b, frame);
    case 7: return resize_body(b, frame);
    case 8: return change_part(b, frame.meta, frame.body);
    case 9: return change_part(b, frame.body, frame.end);
    case 10: return alias(b, frame);
    case 11: {
        size_t at = below(2) ? frame.body : frame.meta + below(frame.body - frame.meta + 1);
        return widen(b, frame, at, below(2) ? 8 : 1 + below(12));
    }
    default: {
        if (frame.spots.empty()) return;
        const Spot &spot = any(frame.spots);
        return put(b, spot.at, spot.width, changed(b, frame, spot));
    }
    }
}

} // namespace

extern "C" size_t LLVMFuzzerCustomMutator(uint8_t *bytes, size_t len, size_t most, unsigned seed) {
    state = seed;
    if (below(4) == 0) return LLVMFuzzerMutate(bytes, len, most);
    Bytes b(bytes, bytes + len);
    if (below(4) == 0) remember(b);
    for (uint64_t changes = 1 + below(4); changes > 0; changes--) {
        Bytes before = b;
        change(b);
        if (b.size() > most || b.empty()) b = before;
    }
    if (b.empty()) return LLVMFuzzerMutate(bytes, len, most);
    memcpy(bytes, b.data(), b.size());
    return b.size();
}
