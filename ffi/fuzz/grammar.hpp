/* Scripts and transactions from the bytes of a case, so that most bytes give something that runs for a while: pushes,
 * numbers about the limits, conditions, signatures, CHECKMULTISIG in its shape, locks. Any bytes give a case. */
#ifndef FUZZ_GRAMMAR_HPP
#define FUZZ_GRAMMAR_HPP

#include "reading/rules.hpp"

namespace fuzz {

using reading::Bytes;

/* The bytes of a case, one after the other; 0 behind the end. */
class Source {
  public:
    Source(const uint8_t *bytes, size_t length) : at(bytes), left(length) {}
    bool ended() const { return left == 0; }
    uint8_t take() { return left ? (left--, *at++) : 0; }
    uint32_t take_number(size_t bytes);
    Bytes take_bytes(size_t length);
    template <typename T, size_t N> T pick(const T (&choices)[N]) { return choices[take() % N]; }

  private:
    const uint8_t *at;
    size_t left;
};

/* What locks in a script are compared with. */
struct Locks {
    uint32_t lock_time, sequence;
};

/* One script, up to an item that ends it. */
Bytes script(Source &source, const Locks &locks);

/* A number's spelling, about the limits of RULES.md. */
Bytes number(Source &source);

/* An element of a stack: a number, some bytes, a signature, a key. */
Bytes element(Source &source);

/* Bytes in the shape of a signature with its hash type, and of a key. Both end with their mark. */
Bytes signature(Source &source, uint8_t mark);
Bytes key(Source &source, uint8_t mark);

/* 1 to 4 inputs and 0 to 3 outputs, with few bytes in their scripts. */
reading::Tx transaction(Source &source);

/* The height that a block has, and where its signature operations, sizes and faults are chosen from. */
reading::Block block(Source &source, uint32_t height);

/* Puts the Merkle root into a block's header, and a nonce that meets the target; each can be left out. */
void finish(reading::Block &block, bool rooted, bool mined);

} // namespace fuzz

#endif
