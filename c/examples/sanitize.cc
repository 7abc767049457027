// usage: sanitize [--types core|all] IN OUT, sanitize --bad IN
//
// Copies a stream as `arrowflow copy` does, for use before another Arrow library reads it, and exits with the
// same status. With --bad the call is passed a truncated stream, a buffer of no bytes, or bad limits.
#include "arrowflow.h"

#include <cstring>
#include <fstream>
#include <iostream>
#include <iterator>
#include <vector>

namespace {

using Bytes = std::vector<std::uint8_t>;

/// A clean stream, or why there is none.
struct Clean {
    Bytes bytes;
    arrowflow_text result;
};

/// Copies a stream. The copy of a stream usually has about its length: one call is enough if the copy fits into
/// the size that was guessed, otherwise a second call gets a buffer of the size that the first one returned.
Clean sanitize(const Bytes &stream, std::uint32_t types = ARROWFLOW_TYPES_CORE) {
    const arrowflow_options options = {false, false};
    arrowflow_limits limits = arrowflow_standard_limits();
    limits.types = types;
    Clean clean{Bytes(stream.size() + stream.size() / 4), {}};
    while (true) {
        std::size_t room = clean.bytes.size();
        clean.result = arrowflow_copy(stream.data(), stream.size(), limits, options, clean.bytes.data(), room);
        clean.bytes.resize(clean.result.size);
        if (clean.result.size <= room) return clean;
    }
}

/// Reads a file. Returns false if it cannot be read.
bool read_file(const char *name, Bytes &bytes) {
    std::ifstream input(name, std::ios::binary);
    bytes.assign(std::istreambuf_iterator<char>(input), std::istreambuf_iterator<char>());
    return static_cast<bool>(input);
}

/* The program's line for a fault: its offset in the stream, or what cannot be written again. */
std::string line_of(arrowflow_text result) {
    switch (result.kind) {
    case ARROWFLOW_KIND_SCHEMA_TOO_LARGE: return "refused schema: TooLarge";
    case ARROWFLOW_KIND_BATCH_TOO_LARGE: return "refused batch " + std::to_string(result.place) + ": TooLarge";
    case ARROWFLOW_KIND_END_TOO_LARGE: return "refused end: TooLarge";
    default: return "fault at byte " + std::to_string(result.place) + ": " + arrowflow_kind_name(result.kind);
    }
}

int copy(const Bytes &stream, const char *out, std::uint32_t types) {
    Clean clean = sanitize(stream, types);
    std::ofstream output(out, std::ios::binary);
    output.write(reinterpret_cast<const char *>(clean.bytes.data()), static_cast<std::streamsize>(clean.bytes.size()));
    output.close();
    if (!output) {
        std::cerr << "cannot write " << out << "\n";
        return 2;
    }
    if (clean.result.kind == ARROWFLOW_KIND_FINE) return 0;
    std::cerr << line_of(clean.result) << "\n";
    return 1;
}

int failed = 0;

void expect(bool fact, const char *what) {
    if (fact) return;
    std::cerr << "not so: " << what << "\n";
    failed = 1;
}

/// The stream is `examples/one_column.arrows`, a schema of 152 bytes.
void bad(const Bytes &stream) {
    const arrowflow_options plain = {false, false}, narrow = {false, true};
    arrowflow_limits limits = arrowflow_standard_limits(), high = limits;
    high.max_body = UINT64_MAX;
    expect(sanitize(Bytes()).result.kind == ARROWFLOW_KIND_NO_SCHEMA, "an empty vector is no stream");
    expect(sanitize(Bytes(stream.begin(), stream.end() - 1)).result.kind == ARROWFLOW_KIND_NO_SCHEMA, "a front is none");
    Clean clean = sanitize(stream);
    expect(clean.result.kind == ARROWFLOW_KIND_FINE && clean.bytes != stream, "it is written with an end marker");
    expect(sanitize(clean.bytes).bytes == clean.bytes, "a clean stream stays as it is");
    Bytes small(5, 7);
    arrowflow_text result = arrowflow_copy(stream.data(), stream.size(), limits, narrow, small.data(), 4);
    expect(result.kind == ARROWFLOW_KIND_FINE && result.size == 160, "a small room tells how much there is");
    expect(small == Bytes({0xff, 0xff, 0xff, 0xff, 7}), "and holds its front alone");
    result = arrowflow_copy(stream.data(), stream.size(), high, plain, small.data(), 4);
    expect(result.kind == ARROWFLOW_KIND_BAD_LIMITS, "limits have ceilings");
    expect(sanitize(stream, 2).result.kind == ARROWFLOW_KIND_BAD_LIMITS, "there are two sets of types");
    arrowflow_reader *reader = NULL;
    const std::size_t path = 0;
    expect(arrowflow_reader_open(limits, &reader) == ARROWFLOW_KIND_FINE, "a reader is opened");
    expect(arrowflow_reader_read(reader, stream.data(), stream.size()).message == ARROWFLOW_MESSAGE_SCHEMA, "it reads a schema");
    expect(arrowflow_reader_column(reader, &path, 1).layout == ARROWFLOW_LAYOUT_NONE, "a schema is no batch");
    arrowflow_reader_close(reader);
    limits.max_metadata = 144;
    result = arrowflow_copy(stream.data(), stream.size(), limits, plain, small.data(), 4);
    expect(result.kind == ARROWFLOW_KIND_SCHEMA_TOO_LARGE, "a copy that is past a limit is refused");
}

} // namespace

int main(int argc, char **argv) {
    std::uint32_t types = ARROWFLOW_TYPES_CORE;
    if (argc == 5 && std::strcmp(argv[1], "--types") == 0) {
        types = std::strcmp(argv[2], "all") == 0 ? ARROWFLOW_TYPES_ALL : ARROWFLOW_TYPES_CORE;
        argv += 2;
        argc -= 2;
    }
    bool is_bad = argc == 3 && std::strcmp(argv[1], "--bad") == 0;
    Bytes stream;
    if (argc != 3) {
        std::cerr << "usage: sanitize [--types core|all] IN OUT, sanitize --bad IN\n";
        return 2;
    }
    if (!read_file(argv[is_bad ? 2 : 1], stream)) {
        std::cerr << "cannot read " << argv[is_bad ? 2 : 1] << "\n";
        return 2;
    }
    if (!is_bad) return copy(stream, argv[2], types);
    bad(stream);
    return failed;
}
