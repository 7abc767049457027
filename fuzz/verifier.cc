// Makes random metadata by the FlatBuffers library, and verifies others by it:
//   verifier make SEED COUNT FILE     writes COUNT metadata to FILE, each after its number of bytes in four bytes
//   verifier check READ WRITTEN       verifies each metadata of WRITTEN, with the alignment of its scalars, and compares
//                                     its contents with those of READ
//   verifier take FILE                verifies each metadata of FILE, with the alignment of its scalars
// metadata_generated.h is made by flatc from metadata.fbs.
#include <cstdint>
#include <cstring>
#include <fstream>
#include <iostream>
#include <iterator>
#include <limits>
#include <random>
#include <sstream>
#include <string>
#include <vector>
#include "metadata_generated.h"

using flatbuffers::FlatBufferBuilder;
using flatbuffers::Offset;
using flatbuffers::Vector;

namespace {

std::mt19937_64 chance;

uint64_t below(uint64_t n) { return chance() % n; }
bool coin() { return below(2) == 1; }

int64_t any_long() {
    switch (below(6)) {
        case 0: return 0;
        case 1: return std::numeric_limits<int64_t>::min();
        case 2: return std::numeric_limits<int64_t>::max();
        case 3: return -1;
        case 4: return static_cast<int64_t>(below(100000));
        default: return static_cast<int64_t>(chance());
    }
}

std::string any_text() {
    static const char *const parts[] = {"n", "column", "_", " ", "\t", "ä", "日本", "😀", "\\", ""};
    std::string text;
    for (uint64_t left = below(7); left > 0; left--) text += parts[below(10)];
    return text;
}

int32_t any_width() {
    switch (below(3)) {
        case 0: return 0;
        case 1: return std::numeric_limits<int32_t>::max();
        default: return static_cast<int32_t>(below(1000));
    }
}

// A separate id for each dictionary, so that no two fields with the same id differ in type.
struct Ids {
    int64_t next = -3;
    int64_t take() { return next++ * 1000003; }
};

Offset<Int> any_int(FlatBufferBuilder &builder) { return CreateInt(builder, 8 << below(4), coin()); }

Offset<Decimal> any_decimal(FlatBufferBuilder &builder) {
    static const int32_t digits[] = {9, 18, 38, 76};
    uint64_t which = below(4);
    int32_t scale = coin() ? 0 : static_cast<int32_t>(below(153)) - 76;
    return CreateDecimal(builder, 1 + static_cast<int32_t>(below(digits[which])), scale, 32 << which);
}

Offset<DictionaryEncoding> any_encoding(FlatBufferBuilder &builder, Ids &ids) {
    Offset<Int> index = coin() ? any_int(builder) : Offset<Int>(0);
    return CreateDictionaryEncoding(builder, ids.take(), index, coin());
}

// A key or a value: any bytes, or none at all. The verifier does not check the bytes of a string.
Offset<flatbuffers::String> any_bytes(FlatBufferBuilder &builder) {
    switch (below(4)) {
        case 0: return 0;
        case 1: return builder.CreateString("key");
        case 2: return builder.CreateString(any_text());
        default: {
            std::string bytes;
            for (uint64_t left = below(5); left > 0; left--) bytes += static_cast<char>(below(256));
            return builder.CreateString(bytes);
        }
    }
}

// Pairs of which some occur twice, no vector or an empty one.
Offset<Vector<Offset<KeyValue>>> any_pairs(FlatBufferBuilder &builder) {
    if (coin()) return 0;
    std::vector<Offset<KeyValue>> pairs;
    for (uint64_t left = below(4); left > 0; left--) {
        auto key = any_bytes(builder), value = any_bytes(builder);
        pairs.push_back(CreateKeyValue(builder, key, value));
        if (below(4) == 0) pairs.push_back(pairs[below(pairs.size())]);
    }
    return builder.CreateVector(pairs);
}

Offset<Field> any_field(FlatBufferBuilder &builder, Ids &ids, int levels, bool may_encode) {
    static const Type types[] = {Type_Null, Type_Int, Type_Binary, Type_Utf8, Type_Bool, Type_Date, Type_Time,
                                 Type_Timestamp, Type_FixedSizeBinary, Type_Duration, Type_LargeBinary, Type_LargeUtf8,
                                 Type_FloatingPoint, Type_Interval, Type_Decimal, Type_List, Type_LargeList,
                                 Type_FixedSizeList, Type_Struct_};
    Type type = types[below(levels > 1 ? 19 : 15)];
    Offset<DictionaryEncoding> encoding = 0;
    if (may_encode && below(4) == 0) {
        encoding = any_encoding(builder, ids);
        may_encode = false;
    }
    std::vector<Offset<Field>> children;
    if (type == Type_List || type == Type_LargeList || type == Type_FixedSizeList)
        children.push_back(any_field(builder, ids, levels - 1, may_encode));
    if (type == Type_Struct_)
        for (uint64_t left = below(4); left > 0; left--)
            children.push_back(any_field(builder, ids, levels - 1, may_encode));
    Offset<void> table;
    TimeUnit unit = static_cast<TimeUnit>(below(4));
    switch (type) {
        case Type_Int: table = any_int(builder).Union(); break;
        case Type_FloatingPoint: table = CreateFloatingPoint(builder, static_cast<Precision>(below(3))).Union(); break;
        case Type_Decimal: table = any_decimal(builder).Union(); break;
        case Type_Interval: table = CreateInterval(builder, static_cast<IntervalUnit>(below(3))).Union(); break;
        case Type_Date: table = CreateDate(builder, static_cast<DateUnit>(below(2))).Union(); break;
        case Type_Time: table = CreateTime(builder, unit, unit < TimeUnit_MICROSECOND ? 32 : 64).Union(); break;
        case Type_Timestamp: {
            Offset<flatbuffers::String> zone = 0;
            if (coin()) zone = builder.CreateString(coin() ? any_text() : "UTC");
            table = CreateTimestamp(builder, unit, zone).Union();
            break;
        }
        case Type_FixedSizeBinary: table = CreateFixedSizeBinary(builder, any_width()).Union(); break;
        case Type_FixedSizeList: table = CreateFixedSizeList(builder, any_width()).Union(); break;
        case Type_Duration: table = CreateDuration(builder, unit).Union(); break;
        default: table = CreateNull(builder).Union();
    }
    auto name = coin() ? builder.CreateString(any_text()) : builder.CreateString("c" + std::to_string(below(1000)));
    auto pairs = any_pairs(builder);
    return CreateField(builder, name, coin(), type, table, encoding, builder.CreateVector(children), pairs);
}

Offset<Schema> any_schema(FlatBufferBuilder &builder) {
    Ids ids;
    std::vector<Offset<Field>> fields;
    int levels = static_cast<int>(1 + below(6));
    for (uint64_t left = below(12); left > 0; left--) fields.push_back(any_field(builder, ids, levels, true));
    auto pairs = any_pairs(builder);
    return CreateSchema(builder, Endianness_Little, builder.CreateVector(fields), pairs);
}

Offset<RecordBatch> any_batch(FlatBufferBuilder &builder) {
    std::vector<FieldNode> nodes;
    std::vector<Buffer> buffers;
    for (uint64_t left = below(8); left > 0; left--) nodes.emplace_back(any_long(), any_long());
    for (uint64_t left = below(16); left > 0; left--) buffers.emplace_back(any_long(), any_long());
    return CreateRecordBatch(builder, any_long(), builder.CreateVectorOfStructs(nodes),
                             builder.CreateVectorOfStructs(buffers));
}

std::string any_message() {
    FlatBufferBuilder builder;
    MessageHeader code = static_cast<MessageHeader>(1 + below(3));
    Offset<void> header;
    switch (code) {
        case MessageHeader_Schema: header = any_schema(builder).Union(); break;
        case MessageHeader_DictionaryBatch: {
            auto data = any_batch(builder);
            header = CreateDictionaryBatch(builder, any_long(), data, coin()).Union();
            break;
        }
        default: header = any_batch(builder).Union();
    }
    int64_t body = coin() ? static_cast<int64_t>(below(uint64_t(1) << 36)) : 0;
    Version version = coin() ? Version_V4 : Version_V5;
    auto pairs = any_pairs(builder);  // those of a message are not read
    FinishMessageBuffer(builder, CreateMessage(builder, version, code, header, body, pairs));
    return std::string(reinterpret_cast<const char *>(builder.GetBufferPointer()), builder.GetSize());
}

// The contents of a message, except its version and its own pairs, as text.

void tell(std::ostream &out, const Int *type) {
    if (type) out << "int " << type->bitWidth() << type->is_signed();
    else out << "int 321";
}

void tell(std::ostream &out, const flatbuffers::String *text) {
    out << (text ? text->size() : 0) << ":" << (text ? text->str() : "");
}

void tell(std::ostream &out, const Vector<Offset<KeyValue>> *pairs) {
    if (!pairs) return;
    for (const KeyValue *pair : *pairs) {
        out << " key ";
        tell(out, pair->key());
        out << " value ";
        tell(out, pair->value());
    }
}

void tell(std::ostream &out, const Vector<Offset<Field>> *fields);

void tell(std::ostream &out, const Field *field) {
    out << "field ";
    tell(out, field->name());
    out << " " << field->nullable() << " type " << int(field->type_type()) << " ";
    if (auto type = field->type_as_Int()) tell(out, type);
    if (auto type = field->type_as_FloatingPoint()) out << "precision " << type->precision();
    if (auto type = field->type_as_Date()) out << "unit " << type->unit();
    if (auto type = field->type_as_Time()) out << "unit " << type->unit() << " of " << type->bitWidth();
    if (auto type = field->type_as_Timestamp()) {
        out << "unit " << type->unit();
        if (type->timezone()) {
            out << " zone ";
            tell(out, type->timezone());
        }
    }
    if (auto type = field->type_as_Interval()) out << "unit " << type->unit();
    if (auto type = field->type_as_Decimal())
        out << type->precision() << " digits of " << type->bitWidth() << ", scale " << type->scale();
    if (auto type = field->type_as_FixedSizeBinary()) out << "width " << type->byteWidth();
    if (auto type = field->type_as_FixedSizeList()) out << "size " << type->listSize();
    if (auto type = field->type_as_Map()) out << "sorted " << type->keysSorted();
    if (auto type = field->type_as_Duration()) out << "unit " << type->unit();
    if (auto by = field->dictionary()) {
        out << " by " << by->id() << " ";
        tell(out, by->indexType());
        out << " " << by->isOrdered() << by->dictionaryKind();
    }
    tell(out, field->children());
    tell(out, field->custom_metadata());
}

void tell(std::ostream &out, const Vector<Offset<Field>> *fields) {
    out << " [";
    if (fields)
        for (const Field *field : *fields) tell(out, field);
    out << "]";
}

void tell(std::ostream &out, const RecordBatch *batch) {
    out << "batch " << batch->length() << " nodes";
    if (batch->nodes())
        for (const FieldNode *node : *batch->nodes()) out << " " << node->length() << "/" << node->null_count();
    out << " buffers";
    if (batch->buffers())
        for (const Buffer *buffer : *batch->buffers()) out << " " << buffer->offset() << "+" << buffer->length();
    out << (batch->compression() ? " compressed" : "");
}

std::string told(const Message *message) {
    std::ostringstream out;
    out << message->bodyLength() << " " << int(message->header_type()) << " ";
    if (auto schema = message->header_as_Schema()) {
        out << schema->endianness();
        tell(out, schema->fields());
        tell(out, schema->custom_metadata());
    }
    if (auto dictionary = message->header_as_DictionaryBatch()) {
        out << "id " << dictionary->id() << " " << dictionary->isDelta() << " ";
        tell(out, dictionary->data());
    }
    if (auto batch = message->header_as_RecordBatch()) tell(out, batch);
    return out.str();
}

// Whether a message is in the form that this project writes: in V5, without pairs of its own, and without an
// empty vector of pairs.
bool has_pairs_or_none(const Vector<Offset<Field>> *fields) {
    if (fields)
        for (const Field *field : *fields)
            if ((field->custom_metadata() && field->custom_metadata()->size() == 0) || !has_pairs_or_none(field->children()))
                return false;
    return true;
}

bool is_as_written(const Message *message) {
    if (message->version() != Version_V5 || message->custom_metadata()) return false;
    auto schema = message->header_as_Schema();
    if (!schema) return true;
    return (!schema->custom_metadata() || schema->custom_metadata()->size() > 0) && has_pairs_or_none(schema->fields());
}

// The metadata of a file, each in a separate piece of memory that begins at a multiple of 8.
std::vector<std::vector<uint64_t>> metadata_in(const char *name, std::vector<size_t> &sizes) {
    std::ifstream file(name, std::ios::binary);
    std::string all((std::istreambuf_iterator<char>(file)), std::istreambuf_iterator<char>());
    std::vector<std::vector<uint64_t>> found;
    for (size_t place = 0; place + 4 <= all.size();) {
        uint32_t size;
        std::memcpy(&size, &all[place], 4);
        std::vector<uint64_t> words(size / 8 + 1);
        std::memcpy(words.data(), &all[place + 4], size);
        found.push_back(words);
        sizes.push_back(size);
        place += 4 + size;
    }
    return found;
}

int check(const char *read, const char *written) {
    std::vector<size_t> read_sizes, written_sizes;
    auto wanted = metadata_in(read, read_sizes);
    auto given = metadata_in(written, written_sizes);
    size_t wrong = wanted.size() == given.size() ? 0 : 1;
    for (size_t number = 0; number < wanted.size() && number < given.size(); number++) {
        auto bytes = reinterpret_cast<const uint8_t *>(given[number].data());
        flatbuffers::Verifier verifier(bytes, written_sizes[number], 128, 10000000, true);
        if (!VerifyMessageBuffer(verifier)) {
            std::cout << "metadata " << number << " is not taken\n";
            wrong++;
            continue;
        }
        if (!is_as_written(GetMessage(bytes))) {
            std::cout << "metadata " << number << " is of another version, or has metadata without pairs\n";
            wrong++;
        }
        std::string want = told(GetMessage(wanted[number].data())), have = told(GetMessage(bytes));
        if (want != have) {
            std::cout << "metadata " << number << "\n  read    " << want << "\n  written " << have << "\n";
            wrong++;
        }
    }
    std::cout << given.size() << " metadata verified, " << wrong << " wrong\n";
    return wrong == 0 ? 0 : 1;
}

int take(const char *name) {
    std::vector<size_t> sizes;
    auto given = metadata_in(name, sizes);
    size_t wrong = given.empty() ? 1 : 0;
    for (size_t number = 0; number < given.size(); number++) {
        flatbuffers::Verifier verifier(reinterpret_cast<const uint8_t *>(given[number].data()), sizes[number], 128, 10000000, true);
        if (VerifyMessageBuffer(verifier)) continue;
        std::cout << "metadata " << number << " is not taken\n";
        wrong++;
    }
    std::cout << given.size() << " metadata verified, " << wrong << " wrong\n";
    return wrong == 0 ? 0 : 1;
}

}  // namespace

int main(int count, char **words) {
    if (count == 5 && std::string(words[1]) == "make") {
        chance.seed(std::stoull(words[2]));
        std::ofstream file(words[4], std::ios::binary);
        for (uint64_t left = std::stoull(words[3]); left > 0; left--) {
            std::string metadata = any_message();
            uint32_t size = static_cast<uint32_t>(metadata.size());
            file.write(reinterpret_cast<const char *>(&size), 4);
            file << metadata;
        }
        return file.good() ? 0 : 1;
    }
    if (count == 4 && std::string(words[1]) == "check") return check(words[2], words[3]);
    if (count == 3 && std::string(words[1]) == "take") return take(words[2]);
    return 2;
}
