/* guided.h: the calls of peer/lib.rs, and what target.cc and mutate.cc have in common. */
#ifndef GUIDED_H
#define GUIDED_H

#include <stddef.h>
#include <stdint.h>
#include <vector>

extern "C" {
struct peer_answer {
    uint32_t kind;
    bool ended, is_long;
    uint64_t place, batches, rows;
    uint8_t *text;
    size_t len;
};
void peer_limits(uint64_t metadata, uint64_t body, uint64_t rows, uint32_t types);
peer_answer peer_text(uint32_t command, const uint8_t *bytes, size_t len, size_t most);
bool peer_is_wide(const uint8_t *bytes, size_t len, uint32_t most);
peer_answer peer_copy(const uint8_t *bytes, size_t len, bool resend, bool pad_to_8);
uint64_t peer_digest(const uint8_t *bytes, size_t len, uint64_t most);
void peer_free(peer_answer answer);

/* libFuzzer */
int LLVMFuzzerTestOneInput(const uint8_t *bytes, size_t len);
size_t LLVMFuzzerMutate(uint8_t *bytes, size_t len, size_t most);
size_t LLVMFuzzerCustomMutator(uint8_t *bytes, size_t len, size_t most, unsigned seed);
}

#endif
