#include "run.hpp"

#include "cases.hpp"

#include <algorithm>
#include <cstring>

namespace reading {

namespace {

constexpr size_t MAX_ELEMENT = 520, MAX_STACK = 1000;
constexpr int64_t MAX_OPS = 201, MAX_KEYS = 20;
constexpr int64_t LOCK_TIME_THRESHOLD = 500000000;
constexpr int64_t SEQUENCE_DISABLED = int64_t(1) << 31, SEQUENCE_IS_TIME = int64_t(1) << 22, SEQUENCE_LOW = 0xffff;
constexpr uint32_t SEQUENCE_FINAL = 0xffffffff;

bool is_true(const Bytes &element) {
    for (size_t n = 0; n < element.size(); n++)
        if (element[n] != 0) {
            const bool is_negative_zero = n + 1 == element.size() && element[n] == 0x80;
            if (is_negative_zero)
                MET("element: a negative zero is false");
            return !is_negative_zero;
        }
    return false;
}

const Bytes T = {1}, F = {};

/* ---- The table of opcodes, as RULES.md writes it. */

/* Letters name elements, from the lowest to the top. */
struct Move {
    uint8_t number;
    const char *effect;
};
const Move MOVES[] = {
    {0x6d, "a b ->"},
    {0x6e, "a b -> a b a b"},
    {0x6f, "a b c -> a b c a b c"},
    {0x70, "a b c d -> a b c d a b"},
    {0x71, "a b c d e f -> c d e f a b"},
    {0x72, "a b c d -> c d a b"},
    {0x75, "a ->"},
    {0x76, "a -> a a"},
    {0x77, "a b -> b"},
    {0x78, "a b -> a b a"},
    {0x7b, "a b c -> b c a"},
    {0x7c, "a b -> b a"},
    {0x7d, "a b -> b a b"},
};

struct Unary {
    uint8_t number;
    int64_t (*result)(int64_t);
};
const Unary UNARIES[] = {
    {0x8b, [](int64_t a) { return a + 1; }},
    {0x8c, [](int64_t a) { return a - 1; }},
    {0x8f, [](int64_t a) { return -a; }},
    {0x90, [](int64_t a) { return a < 0 ? -a : a; }},
    {0x91, [](int64_t a) { return int64_t(a == 0); }},
    {0x92, [](int64_t a) { return int64_t(a != 0); }},
};

struct Binary {
    uint8_t number;
    int64_t (*result)(int64_t, int64_t);
};
const Binary BINARIES[] = {
    {0x93, [](int64_t a, int64_t b) { return a + b; }},
    {0x94, [](int64_t a, int64_t b) { return planted(4) ? b - a : a - b; }},
    {0x9a, [](int64_t a, int64_t b) { return int64_t(a != 0 && b != 0); }},
    {0x9b, [](int64_t a, int64_t b) { return int64_t(a != 0 || b != 0); }},
    {0x9c, [](int64_t a, int64_t b) { return int64_t(a == b); }},
    {0x9d, [](int64_t a, int64_t b) { return int64_t(a == b); }},
    {0x9e, [](int64_t a, int64_t b) { return int64_t(a != b); }},
    {0x9f, [](int64_t a, int64_t b) { return int64_t(a < b); }},
    {0xa0, [](int64_t a, int64_t b) { return int64_t(a > b); }},
    {0xa1, [](int64_t a, int64_t b) { return int64_t(a <= b); }},
    {0xa2, [](int64_t a, int64_t b) { return int64_t(a >= b); }},
    {0xa3, [](int64_t a, int64_t b) { return a < b ? a : b; }},
    {0xa4, [](int64_t a, int64_t b) { return a > b ? a : b; }},
};

struct Hash {
    uint8_t number;
    Bytes (*result)(const Bytes &);
};
const Hash HASHES[] = {
    {0xa6, ripemd160},
    {0xa7, sha1},
    {0xa8, sha256},
    {0xa9, hash160},
    {0xaa, [](const Bytes &bytes) { return sha256(sha256(bytes)); }},
};

template <typename Row, size_t N> const Row *row_of(const Row (&rows)[N], uint8_t number) {
    const Row *row = std::find_if(rows, rows + N, [number](const Row &row) { return row.number == number; });
    return row == rows + N ? nullptr : row;
}

/* These fail in a branch that isn't taken too: the four groups by the first name, VERIF and VERNOTIF by the other. */
bool is_disabled(uint8_t op) {
    return (op >= 0x7e && op <= 0x81) || (op >= 0x83 && op <= 0x86) || op == 0x8d || op == 0x8e || (op >= 0x95 && op <= 0x99);
}

bool is_nop(uint8_t op) { return op == 0x61 || op == 0xb0 || (op >= 0xb3 && op <= 0xb9); }

class Run {
  public:
    Run(const Bytes &script, Stack &stack, const Spending &spending) : script(script), stack(stack), spending(spending) {}

    /* Whether the opcode was executed. */
    bool step(const Op &op);
    bool has_open_condition() const { return !conditions.empty(); }

  private:
    void act(const Op &op);
    void act_on_top(uint8_t op);
    void act_on_conditions(uint8_t op, bool taken);
    bool act_by_table(uint8_t op);
    void move(const char *effect);
    void pick_or_roll(bool rolls);
    void within();
    void check_locktime();
    void check_sequence();
    Bytes signed_code(const Stack &signatures) const;
    bool is_valid(const Bytes &key, const Bytes &signature, const Bytes &code) const;
    bool check_sig();
    bool check_multisig();

    void need(size_t elements) const {
        if (stack.size() < elements)
            throw Error::INVALID_STACK_OPERATION;
    }
    /* The element n below the top. */
    const Bytes &top(size_t n = 0) const { return stack[stack.size() - 1 - n]; }
    Bytes pop() {
        Bytes element = std::move(stack.back());
        stack.pop_back();
        return element;
    }
    void push(Bytes element) { stack.push_back(std::move(element)); }
    void verify(Error error) {
        if (!is_true(pop()))
            throw error;
    }
    static int64_t number(const Bytes &element, size_t most = 4) {
        if (element.size() > most)
            throw Error::UNKNOWN_ERROR;
        return number_value(element);
    }

    const Bytes &script;
    Stack &stack;
    const Spending &spending;
    Stack alternative;
    std::vector<bool> conditions;
    int64_t count = 0;
    size_t code_begin = 0;
};

bool Run::step(const Op &op) {
    const bool taken = std::all_of(conditions.begin(), conditions.end(), [](bool holds) { return holds; });
    if (op.end - op.data > MAX_ELEMENT) {
        if (!taken)
            MET("limit: a long push in a branch that isn't taken");
        throw Error::PUSH_SIZE;
    }
    if (op.number > OP_16 && ++count > MAX_OPS + planted(5)) {
        if (!taken)
            MET("limit: more than 201 opcodes in a branch that isn't taken");
        throw Error::OP_COUNT;
    }
    if (is_disabled(op.number))
        throw Error::DISABLED_OPCODE;
    if (op.number >= OP_IF && op.number <= OP_ENDIF)
        act_on_conditions(op.number, taken);
    else if (taken)
        act(op);
    if (stack.size() + alternative.size() > MAX_STACK)
        throw Error::STACK_SIZE;
    return taken;
}

/* IF, NOTIF, VERIF, VERNOTIF, ELSE and ENDIF act in a branch that isn't taken too. */
void Run::act_on_conditions(uint8_t op, bool taken) {
    if (op == OP_IF || op == OP_NOTIF) {
        bool holds = false;
        if (taken) {
            if (stack.empty())
                throw Error::UNBALANCED_CONDITIONAL;
            holds = is_true(pop()) == (op == OP_IF);
        }
        conditions.push_back(holds);
    } else if (op == OP_ELSE || op == OP_ENDIF) {
        if (conditions.empty())
            throw Error::UNBALANCED_CONDITIONAL;
        if (op == OP_ELSE)
            conditions.back() = !conditions.back();
        else
            conditions.pop_back();
    } else
        throw Error::BAD_OPCODE;
}

void Run::act(const Op &op) {
    if (op.number <= OP_PUSHDATA4)
        push(Bytes(script.begin() + ptrdiff_t(op.data), script.begin() + ptrdiff_t(op.end)));
    else if (op.number == OP_1NEGATE || (op.number >= OP_1 && op.number <= OP_16))
        push(number_bytes(int64_t(op.number) - 0x50));
    else if (op.number == OP_CODESEPARATOR)
        code_begin = op.end;
    else if (!is_nop(op.number) && !act_by_table(op.number))
        act_on_top(op.number);
}

/* Whether a table above has the opcode, which has acted then. */
bool Run::act_by_table(uint8_t op) {
    if (const Move *row = row_of(MOVES, op)) {
        move(row->effect);
    } else if (const Unary *row = row_of(UNARIES, op)) {
        need(1);
        const int64_t a = number(top());
        pop(), push(number_bytes(row->result(a)));
    } else if (const Binary *row = row_of(BINARIES, op)) {
        need(2);
        const int64_t a = number(top(1)), b = number(top());
        pop(), pop(), push(number_bytes(row->result(a, b)));
        if (op == 0x9d)
            verify(Error::NUMEQUALVERIFY);
    } else if (const Hash *row = row_of(HASHES, op)) {
        need(1);
        push(row->result(pop()));
    } else
        return false;
    return true;
}

void Run::move(const char *effect) {
    const char *arrow = std::strstr(effect, "->");
    const size_t taken = size_t(std::count_if(effect, arrow, [](char c) { return c != ' '; }));
    need(taken);
    const Stack elements(stack.end() - ptrdiff_t(taken), stack.end());
    stack.resize(stack.size() - taken);
    for (const char *at = arrow + 2; *at; at++)
        if (*at != ' ')
            push(elements[size_t(*at - 'a')]);
}

void Run::act_on_top(uint8_t op) {
    switch (op) {
    case 0x69: need(1); return verify(Error::VERIFY);
    case 0x6b: need(1); return alternative.push_back(pop());
    case 0x6c:
        if (alternative.empty())
            throw Error::INVALID_ALTSTACK_OPERATION;
        push(alternative.back());
        return alternative.pop_back();
    case 0x73:
        need(1);
        return is_true(top()) ? push(Bytes(top())) : void();
    case 0x74: return push(number_bytes(int64_t(stack.size()) + planted(6)));
    case 0x79: case 0x7a: return pick_or_roll(op == 0x7a);
    case 0x82: need(1); return push(number_bytes(int64_t(top().size())));
    case 0x87: case 0x88:
        need(2);
        push(pop() == pop() ? T : F);
        return op == 0x88 ? verify(Error::EQUALVERIFY) : void();
    case 0xa5: return within();
    case OP_CHECKSIG: case OP_CHECKSIGVERIFY:
        push(check_sig() ? T : F);
        return op == OP_CHECKSIGVERIFY ? verify(Error::CHECKSIGVERIFY) : void();
    case OP_CHECKMULTISIG: case OP_CHECKMULTISIGVERIFY:
        push(check_multisig() ? T : F);
        return op == OP_CHECKMULTISIGVERIFY ? verify(Error::CHECKMULTISIGVERIFY) : void();
    case OP_CLTV: return check_locktime();
    case OP_CSV: return check_sequence();
    case OP_RETURN: throw Error::OP_RETURN;
    default: throw Error::BAD_OPCODE;
    }
}

/* The number is of the elements below it. */
void Run::pick_or_roll(bool rolls) {
    need(2);
    const int64_t n = number(top());
    pop();
    if (n < 0 || n >= int64_t(stack.size()))
        throw Error::INVALID_STACK_OPERATION;
    const Bytes found = top(size_t(n));
    if (rolls)
        stack.erase(stack.end() - 1 - ptrdiff_t(n));
    push(found);
}

void Run::within() {
    need(3);
    const int64_t x = number(top(2)), least = number(top(1)), above = number(top());
    pop(), pop(), pop(), push(least <= x && x < above ? T : F);
}

/* BIP 65 */
void Run::check_locktime() {
    if (!spending.flags.cltv) {
        MET("CHECKLOCKTIMEVERIFY: not in force");
        return;
    }
    need(1);
    const int64_t lock = number(top(), 5), own = spending.tx.lock_time;
    if (lock < 0)
        throw Error::NEGATIVE_LOCKTIME;
    if ((lock < LOCK_TIME_THRESHOLD) != (own < LOCK_TIME_THRESHOLD)) {
        MET("CHECKLOCKTIMEVERIFY: a height and a time");
        throw Error::UNSATISFIED_LOCKTIME;
    }
    if (lock > own) {
        MET("CHECKLOCKTIMEVERIFY: above the lock time");
        throw Error::UNSATISFIED_LOCKTIME;
    }
    if (spending.tx.inputs[spending.input].sequence == SEQUENCE_FINAL && !planted(7)) {
        MET("CHECKLOCKTIMEVERIFY: a final input");
        throw Error::UNSATISFIED_LOCKTIME;
    }
    MET("CHECKLOCKTIMEVERIFY: met");
}

/* BIP 112 */
void Run::check_sequence() {
    if (!spending.flags.csv) {
        MET("CHECKSEQUENCEVERIFY: not in force");
        return;
    }
    need(1);
    const int64_t lock = number(top(), 5), own = spending.tx.inputs[spending.input].sequence;
    if (lock < 0)
        throw Error::NEGATIVE_LOCKTIME;
    if (lock & SEQUENCE_DISABLED) {
        MET("CHECKSEQUENCEVERIFY: bit 31 is set");
        return;
    }
    if (uint32_t(spending.tx.version) < 2) {
        MET("CHECKSEQUENCEVERIFY: a version below 2");
        throw Error::UNSATISFIED_LOCKTIME;
    }
    if (own & SEQUENCE_DISABLED) {
        MET("CHECKSEQUENCEVERIFY: bit 31 of the sequence is set");
        throw Error::UNSATISFIED_LOCKTIME;
    }
    if ((lock & SEQUENCE_IS_TIME) != (own & SEQUENCE_IS_TIME)) {
        MET("CHECKSEQUENCEVERIFY: blocks and time");
        throw Error::UNSATISFIED_LOCKTIME;
    }
    if ((lock & SEQUENCE_LOW) > (own & SEQUENCE_LOW)) {
        MET("CHECKSEQUENCEVERIFY: above the sequence");
        throw Error::UNSATISFIED_LOCKTIME;
    }
    MET("CHECKSEQUENCEVERIFY: met");
}

Bytes Run::signed_code(const Stack &signatures) const {
    Bytes code(script.begin() + ptrdiff_t(code_begin), script.end());
    for (const Bytes &signature : signatures)
        code = without(code, push_of(signature));
    return without(code, {OP_CODESEPARATOR});
}

bool Run::is_valid(const Bytes &key, const Bytes &signature, const Bytes &code) const {
    if (spending.flags.dersig && !is_strict(signature))
        throw Error::SIG_DER;
    if (signature.empty()) {
        MET("signature: an empty one isn't valid");
        return false;
    }
    const Bytes typeless(signature.begin(), signature.end() - 1);
    const bool valid = spending.judge(key, typeless, digest_as_given(spending.tx, spending.input, code, signature.back()));
    if (valid)
        MET("signature: valid");
    else
        MET("signature: not valid");
    return valid;
}

bool Run::check_sig() {
    need(2);
    const Bytes key = pop(), signature = pop();
    return is_valid(key, signature, signed_code({signature}));
}

/* From the top: the number of keys, the keys, the number of signatures, the signatures, one element more. */
bool Run::check_multisig() {
    need(1);
    const int64_t keys = number(top());
    if (keys < 0 || keys > MAX_KEYS)
        throw Error::PUBKEY_COUNT;
    if ((count += keys) > MAX_OPS) {
        MET("limit: more than 201 opcodes with CHECKMULTISIG's keys");
        throw Error::OP_COUNT;
    }
    need(size_t(keys) + 2);
    const int64_t signatures = number(top(size_t(keys) + 1));
    if (signatures < 0 || signatures > keys)
        throw Error::SIG_COUNT;
    const size_t all = size_t(keys + signatures) + 3;
    need(all);
    const Stack taken(stack.rbegin(), stack.rbegin() + ptrdiff_t(all)); /* the top first */
    stack.resize(stack.size() - all);
    const auto key = taken.begin() + 1, signature = key + keys + 1;
    const Bytes code = signed_code(Stack(signature, signature + signatures));
    int64_t used = 0, right = 0;
    while (right < signatures && signatures - right <= keys - used) {
        if (is_valid(key[used], signature[right], code))
            right++;
        else
            MET("CHECKMULTISIG: a pair that isn't valid uses up the key");
        used++;
    }
    if (right < signatures)
        MET("CHECKMULTISIG: more signatures than keys are left");
    else
        MET("CHECKMULTISIG: no signature is left");
    if (spending.flags.nulldummy && !taken.back().empty())
        throw Error::SIG_NULLDUMMY;
    return right == signatures;
}

} // namespace

Error run(const Bytes &script, Stack &stack, const Spending &spending) {
    if (script.size() > MAX_SCRIPT_SIZE) {
        MET("run: a script of more than 10,000 bytes");
        return Error::SCRIPT_SIZE;
    }
    Run run(script, stack, spending);
    size_t at = 0;
    while (const auto op = next_op(script, at)) {
        try {
            const bool executed = run.step(*op);
            met_opcode(op->number, executed ? 0 : SKIPPED);
        } catch (Error error) {
            met_opcode(op->number, uint32_t(error));
            return error;
        }
    }
    if (at < script.size()) {
        MET("run: a push that is cut short");
        return Error::BAD_OPCODE;
    }
    if (run.has_open_condition()) {
        MET("run: a condition is open at the end");
        return Error::UNBALANCED_CONDITIONAL;
    }
    MET("run: ends well");
    return Error::OK;
}

static Error run_to_true(const Bytes &script, Stack &stack, const Spending &spending) {
    const Error error = run(script, stack, spending);
    if (error != Error::OK)
        return error;
    if (stack.empty()) {
        MET("scripts: no top at the end");
        return Error::EVAL_FALSE;
    }
    if (!is_true(stack.back())) {
        MET("scripts: no true top at the end");
        return Error::EVAL_FALSE;
    }
    return Error::OK;
}

Error verify(const Bytes &spent, const Spending &spending) {
    const Bytes &own = spending.tx.inputs[spending.input].script;
    Stack stack;
    Error error = run(own, stack, spending);
    Stack left = stack;
    if (error == Error::OK)
        error = run_to_true(spent, stack, spending);
    if (error != Error::OK || !is_p2sh(spent))
        return error;
    if (!spending.flags.p2sh) {
        MET("script hash: not in force");
        return error;
    }
    if (!is_push_only(own)) {
        MET("script hash: an input script that isn't push-only");
        return Error::SIG_PUSHONLY;
    }
    const Bytes inner = left.back();
    left.pop_back();
    error = run_to_true(inner, left, spending);
    if (error == Error::OK)
        MET("script hash: its inner script accepts");
    else
        MET("script hash: its inner script refuses");
    return error;
}

} // namespace reading
