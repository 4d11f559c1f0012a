#include "rules.hpp"

#include "cases.hpp"

#include <algorithm>

#define REFUSE(reason)                                                                                                 \
    do {                                                                                                               \
        MET("reason: " reason);                                                                                        \
        return reason;                                                                                                 \
    } while (0)

namespace reading {

/* A pair of equal ids is a twin only where the last of an odd level isn't repeated. */
Merkle merkle(std::vector<Id> ids) {
    if (ids.empty())
        return {Id{}, false};
    bool has_twin = false;
    while (ids.size() > 1) {
        for (size_t n = 0; n + 1 < ids.size(); n += 2)
            has_twin |= ids[n] == ids[n + 1] && !planted(10);
        if (ids.size() % 2) {
            MET("merkle: an odd level repeats its last");
            ids.push_back(ids.back());
        }
        std::vector<Id> above;
        for (size_t n = 0; n < ids.size(); n += 2) {
            Bytes pair(ids[n].begin(), ids[n].end());
            pair.insert(pair.end(), ids[n + 1].begin(), ids[n + 1].end());
            above.push_back(double_sha(pair));
        }
        ids = above;
    }
    return {ids[0], has_twin};
}

/* At most 7fffff and 29 zero bytes; the id's last byte is the highest. */
bool meets_target(const Id &id) {
    const uint32_t high = uint32_t(id[31]) << 16 | uint32_t(id[30]) << 8 | id[29];
    return high < 0x7fffff || (high == 0x7fffff && std::all_of(id.begin(), id.begin() + 29, [](uint8_t b) { return b == 0; }));
}

int64_t subsidy(uint32_t height) {
    const uint32_t halvings = height / 150;
    if (halvings > 0)
        MET("subsidy: halved");
    return halvings < 64 ? 50 * COIN >> halvings : 0;
}

uint32_t median(std::vector<uint32_t> times) {
    std::sort(times.begin(), times.end());
    return times[times.size() / 2];
}

Bytes height_push(uint32_t height) {
    if (height == 0)
        return {OP_0};
    if (height <= 16)
        return {uint8_t(OP_1 + height - 1)};
    return push_of(number_bytes(height));
}

uint64_t plain_sigops(const Tx &tx) {
    uint64_t count = 0;
    for (const Input &input : tx.inputs)
        count += sigops(input.script, false);
    for (const Output &output : tx.outputs)
        count += sigops(output.script, false);
    return count;
}

bool is_final(const Tx &tx, uint32_t height, uint32_t cutoff) {
    if (tx.lock_time == 0)
        return true;
    const bool is_height = tx.lock_time < 500000000;
    if (is_height ? tx.lock_time < height + planted(8) : tx.lock_time < cutoff) {
        if (is_height)
            MET("final: its height has passed");
        else
            MET("final: its time has passed");
        return true;
    }
    const bool all_final =
        std::all_of(tx.inputs.begin(), tx.inputs.end(), [](const Input &input) { return input.sequence == 0xffffffff; });
    if (all_final)
        MET("final: by the sequences of all inputs");
    else
        MET("final: not");
    return all_final;
}

/* BIP 68, of one input */
static bool lock_met(uint32_t sequence, const Start &start, uint32_t height, uint32_t cutoff) {
    const uint64_t low = sequence & 0xffff;
    if (sequence & uint32_t(1) << 31) {
        MET("relative lock: none, bit 31 is set");
        return true;
    }
    const bool is_time = sequence & 1 << 22;
    const bool met = is_time ? start.median + low * 512 <= cutoff : start.height + low <= height;
    if (is_time && met)
        MET("relative lock: of time, met");
    else if (is_time)
        MET("relative lock: of time, not met");
    else if (met)
        MET("relative lock: of blocks, met");
    else
        MET("relative lock: of blocks, not met");
    return met;
}

bool locks_met(const Tx &tx, const std::vector<Start> &starts, uint32_t height, uint32_t cutoff) {
    if (uint32_t(tx.version) < 2) {
        MET("relative lock: none, a version below 2");
        return true;
    }
    bool all = true;
    for (size_t n = 0; n < tx.inputs.size(); n++)
        all &= lock_met(tx.inputs[n].sequence, starts[n], height, cutoff);
    return all;
}

/* Output by output. */
static Reason fault_of_outputs(const Tx &tx) {
    int64_t sum = 0;
    for (const Output &output : tx.outputs) {
        if (output.value < 0)
            REFUSE("bad-txns-vout-negative");
        if (output.value > MAX_MONEY)
            REFUSE("bad-txns-vout-toolarge");
        sum += output.value;
        if (sum > MAX_MONEY)
            REFUSE("bad-txns-txouttotal-toolarge");
    }
    return "";
}

Reason fault_alone(const Tx &tx) {
    if (tx.inputs.empty())
        REFUSE("bad-txns-vin-empty");
    if (tx.outputs.empty())
        REFUSE("bad-txns-vout-empty");
    if (const Reason reason = fault_of_outputs(tx); *reason)
        return reason;
    std::vector<OutPoint> spent;
    for (const Input &input : tx.inputs)
        spent.push_back(input.spent);
    std::sort(spent.begin(), spent.end());
    if (std::adjacent_find(spent.begin(), spent.end()) != spent.end())
        REFUSE("bad-txns-inputs-duplicate");
    if (tx.is_coinbase()) {
        const size_t length = tx.inputs[0].script.size();
        if (length < 2 || length > 100)
            REFUSE("bad-cb-length");
    } else if (std::any_of(spent.begin(), spent.end(), [](const OutPoint &outpoint) { return outpoint.is_null(); }))
        REFUSE("bad-txns-prevout-null");
    return "";
}

Reason fault_alone(const Block &block, uint64_t size) {
    std::vector<Id> ids;
    for (const Tx &tx : block.txs)
        ids.push_back(id_of(tx));
    const Merkle tree = merkle(ids);
    if (!meets_target(id_of(block.header)))
        REFUSE("high-hash");
    if (tree.root != block.header.root)
        REFUSE("bad-txnmrklroot");
    if (tree.has_twin)
        REFUSE("bad-txns-duplicate");
    if (block.txs.empty() || size > MAX_BLOCK_SIZE)
        REFUSE("bad-blk-length");
    if (!block.txs[0].is_coinbase())
        REFUSE("bad-cb-missing");
    for (size_t n = 1; n < block.txs.size(); n++)
        if (block.txs[n].is_coinbase())
            REFUSE("bad-cb-multiple");
    for (const Tx &tx : block.txs)
        if (const Reason reason = fault_alone(tx); *reason)
            return reason;
    uint64_t count = 0;
    for (const Tx &tx : block.txs)
        count += plain_sigops(tx);
    if (count > MAX_BLOCK_SIGOPS)
        REFUSE("bad-blk-sigops");
    return "";
}

static Reason fault_of_header(const Header &header, uint32_t height, uint32_t median, uint64_t now, const Heights &heights) {
    if (header.bits != REGTEST_BITS)
        REFUSE("bad-diffbits");
    if (header.time <= median)
        REFUSE("time-too-old");
    if (header.time > 7200 && header.time - 7200 > now)
        REFUSE("time-too-new");
    if (header.version < 2 && height >= heights.bip34)
        REFUSE("bad-version");
    if (header.version < 3 && height >= heights.bip66)
        REFUSE("bad-version");
    if (header.version < 4 && height >= heights.bip65)
        REFUSE("bad-version");
    return "";
}

Reason fault_by_place(const Block &block, uint32_t height, uint32_t median, uint64_t now, const Heights &heights) {
    if (const Reason reason = fault_of_header(block.header, height, median, now, heights); *reason)
        return reason;
    const bool by_median = height >= heights.csv;
    if (!by_median)
        MET("final: before BIP 113, by the block's own time");
    for (const Tx &tx : block.txs)
        if (!is_final(tx, height, by_median ? median : block.header.time))
            REFUSE("bad-txns-nonfinal");
    if (height < heights.bip34) {
        MET("height's push: not in force");
        return "";
    }
    const Bytes push = height_push(height);
    const Bytes own = block.txs.empty() || block.txs[0].inputs.empty() ? Bytes() : block.txs[0].inputs[0].script;
    if (own.size() < push.size() || !std::equal(push.begin(), push.end(), own.begin()))
        REFUSE("bad-cb-height");
    return "";
}

} // namespace reading
