/* Running scripts (RULES.md, "Running scripts"). Names of failures, and which of two comes first, are Bitcoin Core's by
 * knowledge of its interface: RULES.md says whether a run fails, not by which name. */
#ifndef READING_RUN_HPP
#define READING_RUN_HPP

#include "script.hpp"

#include <functional>

namespace reading {

enum class Error : uint32_t {
    OK = 0, UNKNOWN_ERROR = 1, EVAL_FALSE = 2, OP_RETURN = 3, SCRIPT_SIZE = 4, PUSH_SIZE = 5, OP_COUNT = 6, STACK_SIZE = 7,
    SIG_COUNT = 8, PUBKEY_COUNT = 9, VERIFY = 10, EQUALVERIFY = 11, CHECKMULTISIGVERIFY = 12, CHECKSIGVERIFY = 13,
    NUMEQUALVERIFY = 14, BAD_OPCODE = 15, DISABLED_OPCODE = 16, INVALID_STACK_OPERATION = 17,
    INVALID_ALTSTACK_OPERATION = 18, UNBALANCED_CONDITIONAL = 19, NEGATIVE_LOCKTIME = 20, UNSATISFIED_LOCKTIME = 21,
    SIG_DER = 23, SIG_PUSHONLY = 25, SIG_NULLDUMMY = 27,
};

/* Whether a signature, without its hash type, is valid for a key and a digest. */
using Judge = std::function<bool(const Bytes &key, const Bytes &signature, const Id &digest)>;

struct Flags {
    bool p2sh, dersig, cltv, csv, nulldummy;
};

/* The input that spends, with the rules in force. */
struct Spending {
    const Tx &tx;
    size_t input;
    Flags flags;
    const Judge &judge;
};

using Stack = std::vector<Bytes>;

/* One script on a stack, which it changes. */
Error run(const Bytes &script, Stack &stack, const Spending &spending);

/* Both scripts of an input. */
Error verify(const Bytes &spent, const Spending &spending);

} // namespace reading

#endif
