/* Scripts as opcodes, and numbers in them (RULES.md, "Scripts as opcodes"); signatures' encoding and digests
 * ("Signatures"). */
#ifndef READING_SCRIPT_HPP
#define READING_SCRIPT_HPP

#include "wire.hpp"

#include <optional>

namespace reading {

enum Opcode : uint8_t {
    OP_0 = 0x00, OP_PUSHDATA1 = 0x4c, OP_PUSHDATA2 = 0x4d, OP_PUSHDATA4 = 0x4e, OP_1NEGATE = 0x4f, OP_1 = 0x51,
    OP_16 = 0x60, OP_IF = 0x63, OP_NOTIF = 0x64, OP_ELSE = 0x67, OP_ENDIF = 0x68, OP_RETURN = 0x6a, OP_EQUAL = 0x87,
    OP_HASH160 = 0xa9, OP_CODESEPARATOR = 0xab, OP_CHECKSIG = 0xac, OP_CHECKSIGVERIFY = 0xad, OP_CHECKMULTISIG = 0xae,
    OP_CHECKMULTISIGVERIFY = 0xaf, OP_CLTV = 0xb1, OP_CSV = 0xb2,
};

constexpr size_t MAX_SCRIPT_SIZE = 10000;

/* An opcode of a script: its number, where it begins and ends, and where what it pushes begins. */
struct Op {
    uint8_t number;
    size_t begin, data, end;
};

/* The opcode at a place, which moves behind it; none at the script's end and at a push that is cut short. */
std::optional<Op> next_op(const Bytes &script, size_t &at);

/* The shortest push of some bytes, by their length alone. */
Bytes push_of(const Bytes &data);

bool is_push_only(const Bytes &script);
bool is_p2sh(const Bytes &script);
bool is_unspendable(const Bytes &script);
uint64_t sigops(const Bytes &script, bool accurately);
uint64_t p2sh_sigops(const Bytes &input, const Bytes &spent);

/* The number that at most 8 bytes spell, and the shortest spelling of a number. */
int64_t number_value(const Bytes &bytes);
Bytes number_bytes(int64_t value);

/* Strict DER (BIP 66) of a signature with its hash type, or no byte. */
bool is_strict(const Bytes &signature);

/* What a signature of an input signs. The code is hashed as it is given. */
Id digest_as_given(const Tx &tx, size_t input, const Bytes &code, uint32_t kind);
Bytes without(const Bytes &code, const Bytes &opcode);

} // namespace reading

#endif
