/* A target: blocks, transactions, scripts and numbers as bytes, by themselves and by their place. Each field of each
 * answer is compared with the reading's. */
#include "grammar.hpp"
#include "library.hpp"

#include <algorithm>

extern "C" int LLVMFuzzerTestOneInput(const uint8_t *bytes, size_t length);

using namespace fuzz;
using reading::Block;
using reading::Fault;
using reading::Id;
using reading::Tx;
using reading::hex;

namespace {

const uint8_t *data(const Bytes &bytes) { return bytes.empty() ? nullptr : bytes.data(); }
Text asked(const Bytes &bytes, const std::string &more = "") {
    return [&bytes, more] { return reading::hex(bytes) + " " + more; };
}

wakotehu_code code_of(Fault fault) {
    switch (fault) {
    case Fault::cut_short: return WAKOTEHU_SHORT;
    case Fault::long_form: return WAKOTEHU_LONG_FORM;
    case Fault::too_large: return WAKOTEHU_TOO_LARGE;
    case Fault::extra: return WAKOTEHU_EXTRA;
    default: return WAKOTEHU_OK;
    }
}

/* ---- Blocks */

void compare_shown(const Bytes &bytes, const Block &block, const wakotehu_block_shown &shown) {
    const Text text = asked(bytes);
    std::vector<Id> ids;
    for (const Tx &tx : block.txs)
        ids.push_back(id_of(tx));
    const reading::Merkle tree = reading::merkle(ids);
    const Id id = id_of(block.header);
    compare("block id", shown.id, id, text);
    compare("parent", shown.parent, block.header.parent, text);
    compare("root", shown.root, block.header.root, text);
    compare("merkle", shown.merkle, tree.root, text);
    compare("twin", shown.twin, tree.has_twin, text);
    compare("size", shown.size, bytes.size(), text);
    compare("transactions", shown.transactions, ids.size(), text);
    compare("version", uint32_t(shown.version), uint32_t(block.header.version), text);
    compare("time", shown.time, block.header.time, text);
    compare("bits", shown.bits, block.header.bits, text);
    compare("nonce", shown.nonce, block.header.nonce, text);
    compare("target", shown.target, reading::meets_target(id), text);
    compare("block's fault", wakotehu_reason_text(shown.reason), fault_alone(block, bytes.size()), text);
}

void compare_made(const Bytes &bytes, const Block &block) {
    const Text text = asked(bytes);
    std::vector<wakotehu_made> rows(block.txs.size() + 1);
    uint64_t count = 0;
    const wakotehu_code code = wakotehu_block_transactions(bytes.data(), bytes.size(), rows.data(), rows.size(), &count);
    compare("wakotehu_block_transactions", code, WAKOTEHU_OK, text);
    compare("count of transactions", count, block.txs.size(), text);
    for (size_t n = 0; n < block.txs.size(); n++) {
        compare("transaction's id", rows[n].id, id_of(block.txs[n]), text);
        compare("outputs", rows[n].outputs, block.txs[n].outputs.size(), text);
    }
}

void compare_place(const Bytes &bytes, const Block &block, Source &source, uint32_t height) {
    static const uint32_t changes[] = {0, 1, 0xffffffff, 7200, 7199, 7201, 1u << 31};
    const uint32_t median = block.header.time - 1 + source.pick(changes);
    const uint64_t now = source.take() % 8 ? block.header.time : uint64_t(block.header.time) - 7200 + source.take() % 3 - 1;
    const uint8_t forks = source.take();
    const auto from = [&](int bit) { return forks >> bit & 1 ? height + 1 : height - (height && forks & 16); };
    const reading::Heights own = {from(0), from(1), from(2), from(3)};
    const wakotehu_heights heights = {own.bip34, own.bip65, own.bip66, own.csv};
    uint32_t reason = 99;
    const Text text = asked(bytes, "height " + std::to_string(height) + " median " + std::to_string(median) + " now " +
                                       std::to_string(now) + " forks " + std::to_string(forks));
    const wakotehu_code code = wakotehu_block_place(bytes.data(), bytes.size(), height, median, now, &heights, &reason);
    compare("wakotehu_block_place", code, WAKOTEHU_OK, text);
    compare("fault by place", wakotehu_reason_text(reason), fault_by_place(block, height, median, now, own), text);
}

void compare_block(const Bytes &bytes, Source &source, uint32_t height) {
    const Text text = asked(bytes);
    Block block;
    const Fault fault = read_block(bytes, block);
    wakotehu_block_shown shown;
    uint64_t size = 0;
    compare("wakotehu_read_block", wakotehu_read_block(data(bytes), bytes.size(), &shown), code_of(fault), text);
    reading::Reader front(bytes.data(), bytes.size());
    front.block();
    compare("wakotehu_block_size", wakotehu_block_size(data(bytes), bytes.size(), &size), code_of(front.fault), text);
    if (front.ok())
        compare("size of the block", size, bytes.size() - front.left, text);
    if (fault != Fault::none)
        return;
    compare_shown(bytes, block, shown);
    compare_made(bytes, block);
    compare_place(bytes, block, source, height);
}

/* ---- Transactions */

void compare_parts(const Bytes &bytes, const Tx &tx, const wakotehu_transaction &shown) {
    const Text text = asked(bytes);
    std::vector<wakotehu_input> inputs(tx.inputs.size() + 1);
    std::vector<wakotehu_output> outputs(tx.outputs.size() + 1);
    Bytes scripts(shown.size), own;
    const wakotehu_code code = wakotehu_transaction_parts(bytes.data(), bytes.size(), inputs.data(), inputs.size(),
                                                          outputs.data(), outputs.size(), scripts.data(), scripts.size());
    compare("wakotehu_transaction_parts", code, WAKOTEHU_OK, text);
    for (size_t n = 0; n < tx.inputs.size(); n++) {
        const reading::Input &input = tx.inputs[n];
        compare("outpoint's id", inputs[n].id, input.spent.id, text);
        compare("outpoint's index", inputs[n].index, input.spent.index, text);
        compare("sequence", inputs[n].sequence, input.sequence, text);
        compare("input script's length", inputs[n].script, input.script.size(), text);
        own.insert(own.end(), input.script.begin(), input.script.end());
    }
    for (size_t n = 0; n < tx.outputs.size(); n++) {
        compare("value", uint64_t(outputs[n].value), uint64_t(tx.outputs[n].value), text);
        compare("output script's length", outputs[n].script, tx.outputs[n].script.size(), text);
        own.insert(own.end(), tx.outputs[n].script.begin(), tx.outputs[n].script.end());
    }
    scripts.resize(own.size());
    compare("scripts", scripts, own, text);
}

void compare_locks(const Bytes &bytes, const Tx &tx, Source &source) {
    static const uint32_t heights[] = {0, 1, 2, 17, 18, 100, 101, 65535, 65536, 499999999, 0xffffffff};
    static const uint32_t times[] = {0, 1, 512 * 5, 499999999, 500000000, 500000001, 500000002, 0xffffffff, 512 * 65535};
    const uint32_t height = source.pick(heights), cutoff = source.pick(times);
    const Text text = asked(bytes, "height " + std::to_string(height) + " cutoff " + std::to_string(cutoff));
    uint32_t yes = 99;
    compare("wakotehu_is_final", wakotehu_is_final(bytes.data(), bytes.size(), height, cutoff, &yes), WAKOTEHU_OK, text);
    compare("final", yes, is_final(tx, height, cutoff), text);
    std::vector<reading::Start> own;
    std::vector<wakotehu_start> starts;
    for (size_t n = tx.inputs.size() + (source.take() == 255); n > 0; n--) {
        own.push_back({source.pick(heights), source.pick(times)});
        starts.push_back({own.back().height, own.back().median});
    }
    const wakotehu_code code = wakotehu_locks_met(bytes.data(), bytes.size(), starts.data(), starts.size(), height, cutoff, &yes);
    const bool fits = own.size() == tx.inputs.size();
    compare("wakotehu_locks_met", code, fits ? WAKOTEHU_OK : WAKOTEHU_MISMATCH, text);
    if (fits)
        compare("relative locks", yes, locks_met(tx, own, height, cutoff), text);
}

void compare_digest(const Bytes &bytes, const Tx &tx, Source &source) {
    static const uint32_t kinds[] = {0, 1, 2, 3, 0x81, 0x82, 0x83, 0x101, 0x80000003, 0x1f, 0x22, 0x43, 0xffffffff};
    const uint32_t kind = source.pick(kinds);
    const uint64_t input = source.take() % (tx.inputs.size() + 1);
    const Bytes code = script(source, {0, 0}), cleaned = reading::without(code, {reading::OP_CODESEPARATOR});
    const Text text = asked(bytes, "input " + std::to_string(input) + " kind " + std::to_string(kind) + " code " + hex(code));
    const wakotehu_code wanted = input < tx.inputs.size() ? WAKOTEHU_OK : WAKOTEHU_NO_INPUT;
    Id digest{};
    compare("wakotehu_signature_digest",
            wakotehu_signature_digest(bytes.data(), bytes.size(), input, data(code), code.size(), kind, digest.data()), wanted,
            text);
    if (wanted == WAKOTEHU_OK)
        compare("digest", digest.data(), digest_as_given(tx, input, cleaned, kind), text);
    compare("wakotehu_signature_digest_as_given",
            wakotehu_signature_digest_as_given(bytes.data(), bytes.size(), input, data(code), code.size(), kind, digest.data()),
            wanted, text);
    if (wanted == WAKOTEHU_OK)
        compare("digest as given", digest.data(), digest_as_given(tx, input, code, kind), text);
}

void compare_transaction(const Bytes &bytes, Source &source) {
    const Text text = asked(bytes);
    reading::Reader reader(bytes.data(), bytes.size());
    const Tx tx = reader.tx();
    wakotehu_transaction shown;
    compare("wakotehu_read_transaction", wakotehu_read_transaction(data(bytes), bytes.size(), &shown), code_of(reader.fault), text);
    if (!reader.ok())
        return;
    compare("transaction's id", shown.id, id_of(tx), text);
    compare("transaction's size", shown.size, bytes.size() - reader.left, text);
    compare("count of inputs", shown.inputs, tx.inputs.size(), text);
    compare("count of outputs", shown.outputs, tx.outputs.size(), text);
    compare("signature operations", shown.sigops, plain_sigops(tx), text);
    compare("transaction's version", uint32_t(shown.version), uint32_t(tx.version), text);
    compare("lock time", shown.lock_time, tx.lock_time, text);
    compare("coinbase", shown.coinbase, tx.is_coinbase(), text);
    compare("transaction's fault", wakotehu_reason_text(shown.reason), fault_alone(tx), text);
    compare_parts(bytes, tx, shown);
    compare_locks(bytes, tx, source);
    compare_digest(bytes, tx, source);
}

/* ---- Scripts, numbers, hashes and files */

void compare_script(const Bytes &bytes, const Bytes &input) {
    const Text text = asked(bytes);
    wakotehu_script_shown shown;
    compare("wakotehu_script", wakotehu_script(data(bytes), bytes.size(), &shown), WAKOTEHU_OK, text);
    compare("plain", shown.plain, reading::sigops(bytes, false), text);
    compare("accurate", shown.accurate, reading::sigops(bytes, true), text);
    compare("push-only", shown.push_only, reading::is_push_only(bytes), text);
    compare("p2sh", shown.p2sh, reading::is_p2sh(bytes), text);
    compare("unspendable", shown.unspendable, reading::is_unspendable(bytes), text);
    wakotehu_opcode opcode;
    size_t at = 0;
    for (size_t from = 0; const auto op = reading::next_op(bytes, at); from = at) {
        compare("wakotehu_next_opcode", wakotehu_next_opcode(&bytes[from], bytes.size() - from, &opcode), WAKOTEHU_OK, text);
        compare("opcode", opcode.number, op->number, text);
        compare("opcode's length", opcode.length, op->end - op->begin, text);
        compare("pushed", opcode.pushed, op->end - op->data, text);
    }
    compare("rest", wakotehu_next_opcode(bytes.data() + at, bytes.size() - at, &opcode), WAKOTEHU_NONE, text);
    Bytes spent = {reading::OP_HASH160, 20};
    spent.resize(22), spent.push_back(reading::OP_EQUAL);
    for (const Bytes &script : {spent, bytes}) {
        uint64_t count = 0;
        const Text both = [&] { return reading::hex(input) + " " + reading::hex(script); };
        compare("wakotehu_p2sh_sigops", wakotehu_p2sh_sigops(data(input), input.size(), data(script), script.size(), &count),
                WAKOTEHU_OK, both);
        compare("inner operations", count, reading::p2sh_sigops(input, script), both);
    }
}

void compare_number(const Bytes &bytes, uint64_t most) {
    const Text text = asked(bytes, "most " + std::to_string(most));
    int64_t value = 0;
    const wakotehu_code code = wakotehu_read_number(data(bytes), bytes.size(), most, &value);
    const bool fits = bytes.size() <= std::min<uint64_t>(most, 8);
    compare("wakotehu_read_number", code, fits ? WAKOTEHU_OK : WAKOTEHU_NONE, text);
    if (!fits)
        return;
    compare("number", std::to_string(value), std::to_string(reading::number_value(bytes)), text);
    Bytes spelled(9);
    uint64_t count = 0;
    compare("wakotehu_number_bytes", wakotehu_number_bytes(value, spelled.data(), 9, &count), WAKOTEHU_OK, text);
    spelled.resize(count);
    compare("spelling", spelled, reading::number_bytes(value), text);
}

void compare_hashes(const Bytes &bytes) {
    const Text text = asked(bytes);
    Bytes digest(20);
    Id id{};
    wakotehu_ripemd160(data(bytes), bytes.size(), digest.data());
    compare("wakotehu_ripemd160", digest, reading::ripemd160(bytes), text);
    wakotehu_hash160(data(bytes), bytes.size(), digest.data());
    compare("wakotehu_hash160", digest, reading::hash160(bytes), text);
    wakotehu_double_sha(data(bytes), bytes.size(), id.data());
    compare("wakotehu_double_sha", id.data(), reading::double_sha(bytes), text);
    uint32_t yes = 99;
    wakotehu_strict_signature(data(bytes), bytes.size(), &yes);
    compare("wakotehu_strict_signature", yes, reading::is_strict(bytes), text);
    std::string digits(64, ' ');
    wakotehu_show_id(id.data(), digits.data());
    std::reverse(id.begin(), id.end());
    compare("wakotehu_show_id", digits, hex(id), text);
}

void compare_small(Source &source) {
    const uint32_t height = source.take_number(4) >> source.take() % 32;
    compare("wakotehu_subsidy", uint64_t(wakotehu_subsidy(height)), uint64_t(reading::subsidy(height)),
            [=] { return std::to_string(height); });
    std::vector<uint32_t> times;
    for (uint8_t n = source.take() % 13; n > 0; n--)
        times.push_back(source.take_number(n % 2 ? 1 : 4));
    uint32_t median = 0, yes = 99;
    const bool fits = !times.empty() && times.size() <= reading::MEDIAN_TIMES;
    const Text text = [&] { return std::to_string(times.size()) + " times"; };
    compare("wakotehu_median", wakotehu_median(times.data(), times.size(), &median), fits ? WAKOTEHU_OK : WAKOTEHU_MISMATCH, text);
    if (fits)
        compare("median", median, reading::median(times), text);
    static const uint8_t high[] = {0x7f, 0xff, 0xff, 0x80, 0x7e, 0};
    Id id{};
    for (size_t n = 29; n < 32; n++)
        id[n] = source.pick(high);
    id[source.take() % 32] |= source.take() % 2;
    wakotehu_meets_target(id.data(), &yes);
    compare("wakotehu_meets_target", yes, reading::meets_target(id), [&] { return hex(id); });
}

void compare_record(const Bytes &bytes) {
    static const wakotehu_code codes[] = {WAKOTEHU_OK, WAKOTEHU_NONE, WAKOTEHU_FOREIGN, WAKOTEHU_TOO_LONG, WAKOTEHU_CUT};
    uint64_t found = 0, own = 0;
    const reading::Record record = reading::read_record(bytes, own);
    compare("wakotehu_record", wakotehu_record(data(bytes), bytes.size(), &found), codes[size_t(record)], asked(bytes));
    if (record == reading::Record::block)
        compare("record's length", found, own, asked(bytes));
}

/* ---- What the bytes of a case become */

/* A part of a record, or one with another length or magic. */
Bytes record(Source &source) {
    const uint8_t shape = source.take();
    Bytes made = shape & 1 ? Bytes{0xfa, 0xbf, 0xb5, 0xda} : source.take_bytes(shape / 64 * 2);
    const Bytes inside = source.take_bytes(source.take() % 12);
    reading::write_number(made, shape & 2 ? inside.size() : reading::MAX_SIZE + shape / 4 % 4 - 1, 4);
    made.insert(made.end(), inside.begin(), inside.end());
    if (shape & 4)
        made.resize(made.size() - std::min<size_t>(made.size(), source.take() % 12));
    return made;
}

/* Another spelling of the count at a place, a cut, or bytes behind. */
void damage(Bytes &bytes, size_t count_at, Source &source) {
    const uint8_t shape = source.take();
    const Bytes cut(bytes.begin(), bytes.end() - ptrdiff_t(std::min<size_t>(bytes.size(), source.take())));
    if (shape < 160)
        return;
    if (shape < 190)
        bytes = cut;
    else if (shape < 200)
        bytes.push_back(source.take());
    else if (shape < 220)
        bytes[source.take_number(2) % bytes.size()] ^= source.take();
    else if (count_at < bytes.size()) {
        const size_t width = shape < 230 ? 2 : shape < 240 ? 4 : 8;
        Bytes count = {uint8_t(width == 2 ? 0xfd : width == 4 ? 0xfe : 0xff)};
        static const uint64_t values[] = {0, 252, 253, 65535, 65536, reading::MAX_SIZE, reading::MAX_SIZE + 1, 0xffffffff,
                                          0x100000000, UINT64_MAX};
        reading::write_number(count, shape & 1 ? bytes[count_at] : source.pick(values), width);
        bytes.erase(bytes.begin() + ptrdiff_t(count_at));
        bytes.insert(bytes.begin() + ptrdiff_t(count_at), count.begin(), count.end());
    }
}

} // namespace

int LLVMFuzzerTestOneInput(const uint8_t *bytes, size_t length) {
    static const uint32_t heights[] = {1, 2, 15, 16, 17, 18, 127, 128, 255, 256, 32767, 32768, 65536, 1u << 23, 1u << 31, 0};
    Source source(bytes, length);
    const uint8_t mode = source.take();
    if (mode < 16) { /* the bytes as they are */
        const Bytes raw(bytes + (length > 0), bytes + length);
        compare_block(raw, source, 1);
        compare_transaction(raw, source);
        compare_script(raw, raw);
        compare_hashes(raw);
        compare_record(raw);
    } else if (mode < 128) {
        const uint32_t height = source.pick(heights);
        Bytes made = write(block(source, height));
        damage(made, 80, source);
        compare_block(made, source, height);
    } else if (mode < 192) {
        const uint32_t height = source.pick(heights);
        const Block found = block(source, height);
        Bytes made = write(found.txs.empty() ? Tx{} : found.txs.back());
        damage(made, 4, source);
        compare_transaction(made, source);
    } else if (mode < 224) {
        const Bytes spent = script(source, {0, 0}), input = script(source, {0, 0});
        compare_script(spent, mode & 1 ? reading::push_of(input) : input);
        compare_number(number(source), source.take() % 10);
    } else if (mode < 240) {
        compare_hashes(element(source));
        compare_record(record(source));
    } else
        compare_small(source);
    return 0;
}
