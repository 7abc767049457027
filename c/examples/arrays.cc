// usage: arrays literals, arrays [--types core|all] FILE
//
// With `literals` each call is made as a caller in C++ writes it, by a class whose methods have the names of
// the calls, with limits in place. Otherwise a stream is read as an ArrowArrayStream by classes that release
// what they hold: the stream is released first, then children and dictionaries are moved out and outlive their
// parents, and all of them are released in another order. The contents of each array are the same before and
// after, and there are as many arrays as batches. Exits with the same status as `arrowflow check`, without its
// text.
#include "arrowflow_stream.h"

#include <cstring>
#include <fstream>
#include <iostream>
#include <iterator>
#include <string>
#include <utility>
#include <vector>

namespace {

int failed = 0;

void expect(bool fact, const char *what) {
    if (fact) return;
    std::cerr << "not so: " << what << "\n";
    failed = 1;
}

/// The calls of the header as methods of the same names: none of these names is a macro.
class Library {
public:
    explicit Library(arrowflow_limits limits) : limits_(limits) {}
    std::uint32_t arrowflow_check() const { return ::arrowflow_check(nullptr, 0, limits_).kind; }
    std::uint32_t arrowflow_show() const { return ::arrowflow_show(nullptr, 0, limits_, nullptr, 0).kind; }
    std::uint32_t arrowflow_schema() const { return ::arrowflow_schema(nullptr, 0, limits_, nullptr, 0).kind; }
    std::uint32_t arrowflow_messages() const { return ::arrowflow_messages(nullptr, 0, limits_, nullptr, 0).kind; }
    std::uint32_t arrowflow_copy() const {
        return ::arrowflow_copy(nullptr, 0, limits_, arrowflow_options{true, true}, nullptr, 0).kind;
    }
    arrowflow_column arrowflow_reader_column() const { return ::arrowflow_reader_column(nullptr, nullptr, 0); }
    std::string arrowflow_version() const { return ::arrowflow_version(); }

private:
    arrowflow_limits limits_;
};

void literals() {
    const std::vector<std::uint8_t> empty;
    const Library library(arrowflow_limits{1, 2, 3, 0});
    const std::uint32_t kinds[] = {
        library.arrowflow_check(), library.arrowflow_show(), library.arrowflow_schema(), library.arrowflow_messages(),
        library.arrowflow_copy(), arrowflow_check(empty.data(), empty.size(), arrowflow_limits{1, 2, 3, 0}).kind,
        arrowflow_copy(empty.data(), empty.size(), arrowflow_limits{1, 2, 3, 0}, arrowflow_options{false, false}, nullptr, 0).kind,
        arrowflow_show(empty.data(), empty.size(), arrowflow_limits{1, 2, 3, 0}, nullptr, 0).kind,
        arrowflow_messages(empty.data(), empty.size(), arrowflow_limits{1, 2, 3, 0}, nullptr, 0).kind,
        arrowflow_schema(empty.data(), empty.size(), arrowflow_limits{1, 2, 3, 0}, nullptr, 0).kind};
    for (std::uint32_t kind : kinds) expect(kind == ARROWFLOW_KIND_NO_SCHEMA, "no bytes are no stream");
    expect(library.arrowflow_reader_column().layout == ARROWFLOW_LAYOUT_NONE, "no reader has no column");
    expect(library.arrowflow_version() == ARROWFLOW_VERSION, "the library has the header's version");
    arrowflow_reader *reader = nullptr;
    arrowflow_copier *copier = nullptr;
    expect(arrowflow_reader_open(arrowflow_limits{1, 2, 3, 0}, &reader) == ARROWFLOW_KIND_FINE, "a reader with limits in place");
    expect(arrowflow_reader_read(reader, empty.data(), empty.size()).message == ARROWFLOW_MESSAGE_NONE, "it reads nothing");
    arrowflow_reader_close(reader);
    expect(arrowflow_copier_open(arrowflow_limits{1, 2, 3, 0}, arrowflow_options{false, false}, &copier) == ARROWFLOW_KIND_FINE,
           "a copier with limits in place");
    expect(!arrowflow_copier_put(copier, empty.data(), empty.size()).is_over, "it copies nothing");
    arrowflow_copier_close(copier);
    ArrowArrayStream stream;
    expect(arrowflow_stream_of_bytes(empty.data(), empty.size(), arrowflow_limits{1, 2, 3, 0}, &stream) == ARROWFLOW_KIND_FINE,
           "a stream with limits in place");
    stream.release(&stream);
}

/// A struct of the Arrow C interfaces, which is released once, and moved as the interface says.
template <typename Of> class Owned {
public:
    Owned() { std::memset(&it, 0, sizeof it); }
    explicit Owned(Of *from) : it(*from) { from->release = nullptr; }
    Owned(Owned &&from) noexcept : it(from.it) { from.it.release = nullptr; }
    Owned(const Owned &) = delete;
    Owned &operator=(const Owned &) = delete;
    Owned &operator=(Owned &&from) noexcept {
        std::swap(it, from.it);
        return *this;
    }
    ~Owned() { release(); }
    void release() {
        if (it.release == nullptr) return;
        it.release(&it);
        expect(it.release == nullptr, "a released struct says so");
    }
    Of it;
};

/// Bytes of a slot in the buffer of values, for formats that have one; 0 for bits.
std::size_t width_of(const std::string &format) {
    if (format.rfind("w:", 0) == 0) return std::stoul(format.substr(2));
    if (format.rfind("d:", 0) == 0) {
        const std::size_t bits = format.find(',', format.find(',') + 1);
        return bits == std::string::npos ? 16 : std::stoul(format.substr(bits + 1)) / 8;
    }
    if (format == "b") return 0;
    if (format == "tdD" || format == "tts" || format == "ttm" || format == "tiM") return 4;
    if (format == "tin") return 16;
    if (format.size() > 1) return 8;
    return std::string("cC").find(format) != std::string::npos ? 1
        : std::string("sSe").find(format) != std::string::npos ? 2
        : std::string("iIf").find(format) != std::string::npos ? 4 : 8;
}

void add(std::uint64_t &sum, const void *from, std::size_t size) {
    for (std::size_t k = 0; k < size; k++) sum = (sum ^ static_cast<const std::uint8_t *>(from)[k]) * 1099511628211u;
}

/// A sum over all slots of an array and of the arrays below it.
std::uint64_t sum_of(const ArrowSchema &schema, const ArrowArray &array) {
    const std::string format = schema.format;
    std::uint64_t sum = 14695981039346656037u;
    const std::size_t slots = static_cast<std::size_t>(array.length), bits = (slots + 7) / 8;
    add(sum, &array.length, sizeof array.length);
    if (array.n_buffers > 0 && array.buffers[0] != nullptr) add(sum, array.buffers[0], bits);
    if (format == "+l" || format == "+m" || format == "+L" || array.n_buffers == 3) {
        const std::size_t width = format == "+L" || format == "Z" || format == "U" ? 8 : 4;
        std::uint64_t end = 0;
        add(sum, array.buffers[1], width * (slots + 1));
        std::memcpy(&end, static_cast<const std::uint8_t *>(array.buffers[1]) + width * slots, width);
        if (array.n_buffers == 3) add(sum, array.buffers[2], end);
    } else if (array.n_buffers == 2) {
        add(sum, array.buffers[1], format == "b" ? bits : width_of(format) * slots);
    }
    for (std::int64_t k = 0; k < array.n_children; k++) sum = sum * 31 + sum_of(*schema.children[k], *array.children[k]);
    if (array.dictionary != nullptr) sum = sum * 31 + sum_of(*schema.dictionary, *array.dictionary);
    return sum;
}

/// An array that was moved out of another, its schema, and the sum that it had there.
struct Part {
    Owned<ArrowArray> array;
    const ArrowSchema *schema;
    std::uint64_t sum;
};

/// Moves an array out, and the arrays below it out of it, all of which stay valid separately.
void take_apart(std::vector<Part> &parts, const ArrowSchema &schema, ArrowArray *from) {
    const std::uint64_t sum = sum_of(schema, *from);
    Owned<ArrowArray> array(from);
    expect(from->release == nullptr && sum_of(schema, array.it) == sum, "an array that was moved out is the same");
    bool is_leaf = array.it.n_children == 0 && array.it.dictionary == nullptr;
    for (std::int64_t k = 0; k < array.it.n_children; k++) take_apart(parts, *schema.children[k], array.it.children[k]);
    if (array.it.dictionary != nullptr) take_apart(parts, *schema.dictionary, array.it.dictionary);
    if (is_leaf) parts.push_back(Part{std::move(array), &schema, sum});
}

/// Reads all arrays of a stream, which is released at the end; returns the status of its last call, which is
/// the same if the call is made again.
int read_all(const std::vector<std::uint8_t> &bytes, arrowflow_limits limits, Owned<ArrowSchema> &schema,
             std::vector<Owned<ArrowArray>> &arrays) {
    Owned<ArrowArrayStream> stream;
    expect(arrowflow_stream_of_bytes(bytes.data(), bytes.size(), limits, &stream.it) == ARROWFLOW_KIND_FINE, "a stream");
    int status = stream.it.get_schema(&stream.it, &schema.it);
    while (status == 0) {
        ArrowArray array;
        status = stream.it.get_next(&stream.it, &array);
        if (array.release == nullptr) break;
        arrays.emplace_back(&array);
    }
    const char *error = stream.it.get_last_error(&stream.it);
    const std::string first = error == nullptr ? "" : error;
    ArrowArray none;
    expect(stream.it.get_next(&stream.it, &none) == status && none.release == nullptr, "an end, or a fault, comes again");
    error = stream.it.get_last_error(&stream.it);
    expect(first == (error == nullptr ? "" : error) && first.empty() == (status == 0), "its text comes again");
    return status;
}

int read(const char *name, arrowflow_limits limits) {
    std::ifstream input(name, std::ios::binary);
    std::vector<std::uint8_t> bytes((std::istreambuf_iterator<char>(input)), std::istreambuf_iterator<char>());
    const arrowflow_report report = arrowflow_check(bytes.data(), bytes.size(), limits);
    Owned<ArrowSchema> schema;
    std::vector<Owned<ArrowArray>> arrays;
    const int status = read_all(bytes, limits, schema, arrays);
    expect((status == 0) == (report.kind == ARROWFLOW_KIND_FINE) && arrays.size() == report.batches, "what check says");
    bytes.assign(bytes.size(), 0);
    std::vector<Part> parts;
    while (!arrays.empty()) {
        take_apart(parts, schema.it, &arrays.back().it);
        arrays.pop_back();
    }
    for (std::size_t k = 0; k < parts.size(); k += 2) parts[k].array.release();
    for (std::size_t k = 1; k < parts.size(); k += 2)
        expect(sum_of(*parts[k].schema, parts[k].array.it) == parts[k].sum, "a child outlives all others");
    return status == 0 ? 0 : 1;
}

} // namespace

int main(int argc, char **argv) {
    arrowflow_limits limits = arrowflow_standard_limits();
    if (argc == 4 && std::strcmp(argv[1], "--types") == 0) {
        limits.types = std::strcmp(argv[2], "all") == 0 ? ARROWFLOW_TYPES_ALL : ARROWFLOW_TYPES_CORE;
        argv += 2;
        argc -= 2;
    }
    if (argc != 2) {
        std::cerr << "usage: arrays literals, arrays [--types core|all] FILE\n";
        return 2;
    }
    if (std::strcmp(argv[1], "literals") == 0) {
        literals();
        return failed;
    }
    int status = read(argv[1], limits);
    return failed ? 3 : status;
}
