// Scripts, run on a stack of byte vectors, as Bitcoin Core does it; the opcodes that the workloads need.
#pragma once
#include "blocks.h"

// The signatures that are valid, in order.
struct Triple {
    Bytes key, signature;
    Hash digest;
    bool operator<(const Triple& o) const {
        if (key != o.key) return key < o.key;
        if (signature != o.signature) return signature < o.signature;
        return digest < o.digest;
    }
};
struct Table {
    std::vector<Triple> triples;
    void add(Triple triple) {
        triples.insert(std::lower_bound(triples.begin(), triples.end(), triple), triple);
    }
    bool has(const Bytes& key, const uint8_t* signature, size_t size, const Hash& digest) const {
        auto less = [&](const Triple& t, int) {
            if (t.key != key) return t.key < key;
            int order = std::memcmp(t.signature.data(), signature, std::min(t.signature.size(), size));
            if (order != 0 || t.signature.size() != size) return order != 0 ? order < 0 : t.signature.size() < size;
            return t.digest < digest;
        };
        auto at = std::lower_bound(triples.begin(), triples.end(), 0, less);
        return at != triples.end() && at->key == key && at->digest == digest && at->signature.size() == size &&
               std::memcmp(at->signature.data(), signature, size) == 0;
    }
};

// What a signature signs, for the hash type ALL (Bitcoin Core's SignatureHash).
inline Hash signature_hash(const Tx& tx, size_t input, const Script& code) {
    Writer writer;
    put(writer, tx.version);
    put_compact(writer, tx.inputs.size());
    for (size_t i = 0; i < tx.inputs.size(); i++) {
        put_outpoint(writer, tx.inputs[i].prev);
        if (i == input) put_script(writer, code);
        else put_compact(writer, 0);
        put(writer, tx.inputs[i].sequence);
    }
    put_compact(writer, tx.outputs.size());
    for (const TxOut& output : tx.outputs) put_output(writer, output);
    put(writer, tx.lock_time);
    put(writer, uint32_t(1));
    return writer.finish();
}

// The signature's strict encoding, with a hash type behind it (BIP 66).
inline bool is_strict(const Bytes& s) {
    if (s.size() < 9 || s.size() > 73 || s[0] != 0x30 || s[1] != s.size() - 3) return false;
    size_t r = s[3];
    if (5 + r >= s.size()) return false;
    size_t t = s[5 + r];
    if (r + t + 7 != s.size() || s[2] != 2 || r == 0 || (s[4] & 0x80)) return false;
    if (r > 1 && s[4] == 0 && !(s[5] & 0x80)) return false;
    if (s[r + 4] != 2 || t == 0 || (s[r + 6] & 0x80)) return false;
    return !(t > 1 && s[r + 6] == 0 && !(s[r + 7] & 0x80));
}

// Takes the pushes of a signature out of a script (Bitcoin Core's FindAndDelete).
inline void find_and_delete(Script& script, const Bytes& signature) {
    Script push(1, uint8_t(signature.size()));
    push.append(signature.data(), signature.size());
    Script result;
    const uint8_t *at = script.begin(), *end = script.end(), *kept = at, *data;
    size_t size, found = 0;
    uint8_t op;
    do {
        result.append(kept, size_t(at - kept));
        while (size_t(end - at) >= push.size() && std::equal(push.begin(), push.end(), at)) {
            at += push.size();
            found++;
        }
        kept = at;
    } while (at < end && next_op(at, end, op, data, size));
    if (found == 0) return;
    result.append(kept, size_t(end - kept));
    script = std::move(result);
}

inline bool truth(const Bytes& element) {
    for (size_t i = 0; i < element.size(); i++)
        if (element[i] != 0) return !(i == element.size() - 1 && element[i] == 0x80);
    return false;
}

// The open conditions, by their number and the place of the first that is false (Bitcoin Core's ConditionStack).
struct Conditions {
    size_t size = 0, first_false = SIZE_MAX;
    bool executes() const { return first_false == SIZE_MAX; }
    void open(bool value) {
        if (executes() && !value) first_false = size;
        size++;
    }
    bool close() {
        if (size == 0) return false;
        size--;
        if (first_false == size) first_false = SIZE_MAX;
        return true;
    }
};

struct Job {
    const Tx* tx;
    size_t input;
    const Script* spent;
};

inline bool check_signature(const Bytes& signature, const Bytes& key, const Script& code, const Job& job, const Table& table) {
    if (signature.empty()) return false;
    Hash digest = signature_hash(*job.tx, job.input, code);
    return table.has(key, signature.data(), signature.size() - 1, digest);
}

// Bitcoin Core's EvalScript.
inline bool run(std::vector<Bytes>& stack, const Script& script, const Job& job, const Table& table) {
    if (script.size() > 10000) return false;
    Conditions conditions;
    const uint8_t *at = script.begin(), *const end = script.end(), *data;
    size_t size;
    int counted = 0;
    uint8_t op;
    auto top = [&](int i) -> Bytes& { return stack[stack.size() + i]; };
    while (at < end) {
        bool executes = conditions.executes();
        if (!next_op(at, end, op, data, size) || size > 520) return false;
        if (op > 0x60 && ++counted > 201) return false;
        if (executes && op <= 0x4e) {
            stack.emplace_back(data, data + size);
        } else if (executes || (op >= 0x63 && op <= 0x68)) switch (op) {
            case 0x51: case 0x52: case 0x53:
                stack.push_back(Bytes(1, op - 0x50));
                break;
            case 0x63: {
                bool value = false;
                if (executes) {
                    if (stack.empty()) return false;
                    value = truth(top(-1));
                    stack.pop_back();
                }
                conditions.open(value);
                break;
            }
            case 0x68:
                if (!conditions.close()) return false;
                break;
            case 0x6e: {
                if (stack.size() < 2) return false;
                Bytes first = top(-2), second = top(-1);
                stack.push_back(first);
                stack.push_back(second);
                break;
            }
            case 0x75:
                if (stack.empty()) return false;
                stack.pop_back();
                break;
            case 0x76: {
                if (stack.empty()) return false;
                Bytes copy = top(-1);
                stack.push_back(copy);
                break;
            }
            case 0x7c:
                if (stack.size() < 2) return false;
                std::swap(top(-2), top(-1));
                break;
            case 0x87: case 0x88: {
                if (stack.size() < 2) return false;
                bool equal = top(-2) == top(-1);
                stack.pop_back();
                stack.pop_back();
                if (op == 0x87) stack.push_back(equal ? Bytes(1, 1) : Bytes());
                else if (!equal) return false;
                break;
            }
            case 0xa9: {
                if (stack.empty()) return false;
                ShortHash hash = hash160(top(-1).data(), top(-1).size());
                stack.pop_back();
                stack.emplace_back(hash.begin(), hash.end());
                break;
            }
            case 0xaa: {
                if (stack.empty()) return false;
                Hash hash = double_sha(top(-1).data(), top(-1).size());
                stack.pop_back();
                stack.emplace_back(hash.begin(), hash.end());
                break;
            }
            case 0xac: {
                if (stack.size() < 2) return false;
                Script code(script);
                find_and_delete(code, top(-2));
                if (!top(-2).empty() && !is_strict(top(-2))) return false;
                bool valid = check_signature(top(-2), top(-1), code, job, table);
                stack.pop_back();
                stack.pop_back();
                stack.push_back(valid ? Bytes(1, 1) : Bytes());
                break;
            }
            case 0xae: {
                if (stack.empty() || top(-1).size() != 1) return false;
                int keys = top(-1)[0], at_key = 2;
                if (keys > 20 || (counted += keys) > 201 || int(stack.size()) < keys + 3) return false;
                int signatures = top(-(keys + 2))[0], at_signature = keys + 3;
                if (signatures > keys || int(stack.size()) < keys + signatures + 3) return false;
                Script code(script);
                for (int i = 0; i < signatures; i++) find_and_delete(code, top(-(at_signature + i)));
                int used = keys + signatures + 3;
                bool valid = true;
                while (valid && signatures > 0) {
                    const Bytes& signature = top(-at_signature);
                    if (!signature.empty() && !is_strict(signature)) return false;
                    if (check_signature(signature, top(-at_key), code, job, table)) at_signature++, signatures--;
                    at_key++, keys--;
                    valid = signatures <= keys;
                }
                while (used-- > 0) stack.pop_back();
                stack.push_back(valid ? Bytes(1, 1) : Bytes());
                break;
            }
            default:
                return false;
        }
        if (stack.size() > 1000) return false;
    }
    return conditions.size == 0;
}

inline bool is_p2sh(const Script& script) {
    return script.size() == 23 && script[0] == 0xa9 && script[1] == 20 && script[22] == 0x87;
}
inline bool is_push_only(const Script& script) {
    const uint8_t *at = script.begin(), *const end = script.end(), *data;
    size_t size;
    uint8_t op;
    while (at < end)
        if (!next_op(at, end, op, data, size) || op > 0x60) return false;
    return true;
}

// Those of the script whose hash is paid to, which the input pushes last (GetP2SHSigOpCount).
inline unsigned p2sh_sigops(const Script& input, const Script& spent) {
    if (!is_p2sh(spent) || !is_push_only(input)) return 0;
    const uint8_t *at = input.begin(), *end = input.end(), *data = nullptr;
    size_t size = 0;
    uint8_t op, last = 0xff;
    while (at < end) next_op(at, end, op, data, size);
    unsigned count = 0;
    for (at = data, end = data + size; at < end && next_op(at, end, op, data, size); last = op) {
        if (op == 0xac || op == 0xad) count++;
        if (op == 0xae || op == 0xaf) count += last >= 0x51 && last <= 0x60 ? last - 0x50 : 20;
    }
    return count;
}

// Bitcoin Core's VerifyScript.
inline bool verify(const Job& job, const Table& table) {
    const Script& input = job.tx->inputs[job.input].script;
    const bool pays_to_hash = is_p2sh(*job.spent);
    std::vector<Bytes> stack, pushed;
    if (!run(stack, input, job, table)) return false;
    if (pays_to_hash) pushed = stack;
    if (!run(stack, *job.spent, job, table)) return false;
    if (stack.empty() || !truth(stack.back())) return false;
    if (!pays_to_hash) return true;
    if (!is_push_only(input) || pushed.empty()) return false;
    Script inner(pushed.back().data(), pushed.back().data() + pushed.back().size());
    pushed.pop_back();
    return run(pushed, inner, job, table) && !pushed.empty() && truth(pushed.back());
}
