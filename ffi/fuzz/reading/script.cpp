#include "script.hpp"

#include "cases.hpp"

#include <algorithm>

namespace reading {

std::optional<Op> next_op(const Bytes &script, size_t &at) {
    if (at >= script.size())
        return std::nullopt;
    Reader reader(script.data() + at, script.size() - at);
    const uint8_t number = uint8_t(reader.number(1));
    uint64_t pushed = number < OP_PUSHDATA1 ? number : 0;
    if (number >= OP_PUSHDATA1 && number <= OP_PUSHDATA4)
        pushed = reader.number(size_t(1) << (number - OP_PUSHDATA1));
    if (!reader.ok() || pushed > reader.left) {
        MET("script: a push that is cut short");
        return std::nullopt;
    }
    const size_t data = script.size() - reader.left;
    const Op op = {number, at, data, data + size_t(pushed)};
    at = op.end;
    return op;
}

Bytes push_of(const Bytes &data) {
    Bytes push;
    if (data.size() >= OP_PUSHDATA1)
        push.push_back(data.size() <= 0xff ? OP_PUSHDATA1 : data.size() <= 0xffff ? OP_PUSHDATA2 : OP_PUSHDATA4);
    const size_t width = data.size() < 0x100 ? 1 : data.size() < 0x10000 ? 2 : 4;
    write_number(push, data.size(), width);
    push.insert(push.end(), data.begin(), data.end());
    return push;
}

bool is_push_only(const Bytes &script) {
    size_t at = 0;
    while (const auto op = next_op(script, at))
        if (op->number > OP_16)
            return false;
    return at == script.size();
}

bool is_p2sh(const Bytes &script) {
    return script.size() == 23 && script[0] == OP_HASH160 && script[1] == 20 && script[22] == OP_EQUAL;
}

bool is_unspendable(const Bytes &script) {
    return (!script.empty() && script[0] == OP_RETURN) || script.size() > MAX_SCRIPT_SIZE;
}

/* CHECKMULTISIG counts 20, or accurately what OP_1 to OP_16 just before it names. */
uint64_t sigops(const Bytes &script, bool accurately) {
    uint64_t count = 0;
    size_t at = 0;
    uint8_t before = OP_0;
    while (const auto op = next_op(script, at)) {
        if (op->number == OP_CHECKSIG || op->number == OP_CHECKSIGVERIFY)
            count += 1;
        if (op->number == OP_CHECKMULTISIG || op->number == OP_CHECKMULTISIGVERIFY) {
            const bool named = accurately && before >= OP_1 && before <= OP_16;
            if (named)
                MET("sigops: CHECKMULTISIG with its number of keys");
            else
                MET("sigops: CHECKMULTISIG as 20");
            count += named ? before - OP_1 + 1 : planted(1) ? 16 : 20;
        }
        before = op->number;
    }
    return count;
}

uint64_t p2sh_sigops(const Bytes &input, const Bytes &spent) {
    if (!is_p2sh(spent))
        return 0;
    if (!is_push_only(input)) {
        MET("sigops: of a script hash, whose input script isn't push-only");
        return 0;
    }
    Bytes inner;
    size_t at = 0;
    while (const auto op = next_op(input, at))
        inner.assign(input.begin() + ptrdiff_t(op->data), input.begin() + ptrdiff_t(op->end));
    MET("sigops: of a script hash's inner script");
    return sigops(inner, true);
}

/* The highest bit of the last byte is the sign. */
int64_t number_value(const Bytes &bytes) {
    if (bytes.empty())
        return 0;
    uint64_t size = 0;
    for (size_t n = 0; n < bytes.size(); n++)
        size |= uint64_t(bytes[n]) << 8 * n;
    const uint64_t sign = uint64_t(0x80) << 8 * (bytes.size() - 1);
    return size & sign ? -int64_t(size & ~sign) : int64_t(size);
}

Bytes number_bytes(int64_t value) {
    Bytes bytes;
    for (uint64_t rest = value < 0 ? 0 - uint64_t(value) : uint64_t(value); rest; rest >>= 8)
        bytes.push_back(uint8_t(rest));
    if (!bytes.empty() && bytes.back() & 0x80)
        bytes.push_back(0);
    if (value < 0)
        bytes.back() |= 0x80;
    return bytes;
}

/* R or S: at least one byte, not negative, no needless zero in front. */
static bool is_strict_number(const Bytes &number) {
    if (number.empty()) {
        MET("strict: a number of no byte");
        return false;
    }
    if (number[0] & 0x80) {
        MET("strict: a negative number");
        return false;
    }
    if (number.size() > 1 && number[0] == 0 && !(number[1] & 0x80) && !planted(2)) {
        MET("strict: a needless zero in front");
        return false;
    }
    return true;
}

bool is_strict(const Bytes &signature) {
    if (signature.empty())
        return true;
    Reader reader(signature.data(), signature.size());
    const uint64_t compound = reader.number(1), length = reader.number(1);
    if (signature.size() > 73 || compound != 0x30 || length + 3 != signature.size()) {
        MET("strict: not 30 and the length of what follows except for the hash type");
        return false;
    }
    for (int n = 0; n < 2; n++) {
        const bool is_integer = reader.number(1) == 2;
        const Bytes number = reader.bytes(reader.number(1));
        if (!reader.ok() || !is_integer) {
            MET("strict: no 02, or cut short");
            return false;
        }
        if (!is_strict_number(number))
            return false;
    }
    if (reader.left != 1) {
        MET("strict: not one byte behind S");
        return false;
    }
    MET("strict: a signature that passes");
    return true;
}

Bytes without(const Bytes &code, const Bytes &opcode) {
    Bytes kept;
    size_t at = 0, rest = 0;
    while (const auto op = next_op(code, at)) {
        const auto begin = code.begin() + ptrdiff_t(op->begin), end = code.begin() + ptrdiff_t(op->end);
        if (!std::equal(begin, end, opcode.begin(), opcode.end()))
            kept.insert(kept.end(), begin, end);
        else if (opcode.size() == 1 && opcode[0] == OP_CODESEPARATOR)
            MET("code: a CODESEPARATOR is removed");
        else
            MET("code: a signature is removed");
        rest = at;
    }
    kept.insert(kept.end(), code.begin() + ptrdiff_t(rest), code.end());
    return kept;
}

constexpr uint32_t NONE = 2, SINGLE = 3, ANYONECANPAY = 0x80;

/* With NONE there are no outputs; with SINGLE those up to this input's number, the earlier ones emptied. */
static void cut_outputs(Tx &tx, size_t input, uint32_t base) {
    if (base == NONE) {
        MET("digest: NONE");
        tx.outputs.clear();
    } else if (base == SINGLE) {
        MET("digest: SINGLE");
        tx.outputs.resize(input + 1);
        for (size_t n = 0; n < input; n++)
            tx.outputs[n] = {-1, {}};
    } else
        MET("digest: all outputs");
}

Id digest_as_given(const Tx &tx, size_t input, const Bytes &code, uint32_t kind) {
    const uint32_t base = kind & 0x1f;
    if (base == SINGLE && input >= tx.outputs.size()) {
        MET("digest: SINGLE without an output, the number 1");
        return Id{1};
    }
    Tx copy = tx;
    for (size_t n = 0; n < copy.inputs.size(); n++) {
        copy.inputs[n].script = n == input ? code : Bytes();
        if (n != input && (base == NONE || (base == SINGLE && !planted(3))))
            copy.inputs[n].sequence = 0;
    }
    cut_outputs(copy, input, base);
    if (kind & ANYONECANPAY) {
        MET("digest: ANYONECANPAY");
        copy.inputs = {Input(copy.inputs[input])};
    }
    Bytes bytes = write(copy);
    write_number(bytes, kind, 4);
    return double_sha(bytes);
}

} // namespace reading
