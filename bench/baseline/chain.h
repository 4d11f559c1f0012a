// Blocks connected to coins, and a tree of blocks with undo, as Bitcoin Core does it (ConnectBlock, CBlockIndex, CBlockUndo).
#pragma once
#include <memory>

#include "checks.h"
#include "coins.h"

using Undo = std::vector<std::vector<Coin>>;

constexpr uint32_t GENESIS_TIME = 1296688602;
// regtest's genesis block, in the order in which ids are hashed.
constexpr Hash GENESIS_ID{0x06, 0x22, 0x6e, 0x46, 0x11, 0x1a, 0x0b, 0x59, 0xca, 0xaf, 0x12, 0x60, 0x43, 0xeb, 0x5b, 0xbf,
                          0x28, 0xc3, 0x4f, 0x3a, 0x5e, 0x33, 0x2a, 0x1f, 0xc7, 0xb2, 0xb7, 0x3c, 0xf1, 0x88, 0x91, 0x0f};

inline int64_t subsidy(uint32_t height) { return height / 150 < 64 ? 5000000000 >> (height / 150) : 0; }

// The push of a height that a coinbase begins with (BIP 34).
inline Script height_push(uint32_t height) {
    if (height <= 16) return {uint8_t(height ? 0x50 + height : 0)};
    Bytes number;
    for (uint32_t rest = height; rest; rest >>= 8) number.push_back(uint8_t(rest));
    if (number.back() & 0x80) number.push_back(0);
    Script push(1, uint8_t(number.size()));
    push.append(number.data(), number.size());
    return push;
}

inline bool is_unspendable(const Script& script) { return (!script.empty() && script[0] == 0x6a) || script.size() > 10000; }

// So many checks are handed on at once while the block goes on: to wake a thread for each takes longer than the checks of
// the workloads, which look signatures up.
constexpr size_t GATHERED = 128;

// Bitcoin Core's ConnectBlock on a view that is given up where it refuses: the coins that each transaction but the
// first spent.
inline std::optional<Undo> connect(
    Cache& view, const Block& block, const std::vector<Hash>& ids, uint32_t height, const Table& table, Checks& checks) {
    for (size_t t = 0; t < block.txs.size(); t++)
        for (uint32_t i = 0; i < block.txs[t].outputs.size(); i++)
            if (view.get(OutPoint{ids[t], i})) return std::nullopt;
    Undo undo;
    Round round(checks, table);
    std::vector<Job> jobs;
    int64_t fees = 0;
    unsigned counted = 0;
    for (size_t t = 0; t < block.txs.size(); t++) {
        const Tx& tx = block.txs[t];
        for (const TxIn& input : tx.inputs) counted += sigops(input.script);
        for (const TxOut& output : tx.outputs) counted += sigops(output.script);
        if (counted > 20000) return std::nullopt;
        int64_t worth = 0, paid = 0;
        for (const TxOut& output : tx.outputs) paid += output.value;
        if (t > 0) {
            for (const TxIn& input : tx.inputs) {
                const Coin* coin = view.get(input.prev);
                if (!coin || (coin->coinbase && height < coin->height + 100)) return std::nullopt;
                worth += coin->value;
            }
            if (worth < paid) return std::nullopt;
            fees += worth - paid;
            std::vector<Coin>& spent = undo.emplace_back();
            for (const TxIn& input : tx.inputs) spent.push_back(std::move(*view.spend(input.prev)));
            for (size_t i = 0; i < spent.size(); i++) counted += p2sh_sigops(tx.inputs[i].script, spent[i].script);
            if (counted > 20000) return std::nullopt;
            for (size_t i = 0; i < spent.size(); i++) jobs.push_back(Job{&tx, i, &spent[i].script});
            if (jobs.size() >= GATHERED) round.add(std::exchange(jobs, {}));
        }
        for (uint32_t i = 0; i < tx.outputs.size(); i++)
            if (!is_unspendable(tx.outputs[i].script)) view.add(OutPoint{ids[t], i}, Coin{tx.outputs[i].value, tx.outputs[i].script, height, t == 0});
    }
    if (block.txs[0].outputs[0].value > subsidy(height) + fees) return std::nullopt;
    round.add(jobs);
    if (!round.finish()) return std::nullopt;
    return undo;
}

// DisconnectBlock: the outputs go, and what was spent comes back.
inline void disconnect(Cache& view, const Block& block, const std::vector<Hash>& ids, Undo& undo) {
    for (size_t t = block.txs.size(); t-- > 0;) {
        const Tx& tx = block.txs[t];
        for (uint32_t i = 0; i < tx.outputs.size(); i++)
            if (!is_unspendable(tx.outputs[i].script)) view.spend(OutPoint{ids[t], i});
        for (size_t i = 0; t > 0 && i < tx.inputs.size(); i++)
            view.add(tx.inputs[i].prev, std::move(undo[t - 1][i]));
    }
}

// The tree of all blocks, whose bytes are kept and read again where they are needed, the coins of the active branch,
// and what each of its blocks spent. No block of the workloads breaks a rule, so a branch that does isn't left again.
class Chain {
    struct Index {
        Hash id;
        size_t parent;
        uint32_t height;
        Header header;
        std::shared_ptr<const Bytes> bytes;
    };
    struct IdHasher {
        size_t operator()(const Hash& id) const { return SaltedHasher()(OutPoint{id, 0}); }
    };
    std::vector<Index> nodes{Index{GENESIS_ID, 0, 0, Header{1, {}, {}, GENESIS_TIME, 0x207fffff, 2}, nullptr}};
    std::unordered_map<Hash, size_t, IdHasher> places{{GENESIS_ID, 0}};
    std::vector<size_t> branch{0};
    std::vector<Undo> undo{{}};
    CoinMap coins;
    Table table;
    Checks checks;

    // The median of the times of a block and the ten before it (GetMedianTimePast).
    uint32_t median(size_t place) const {
        std::array<uint32_t, 11> times;
        size_t count = 0;
        for (; count < 11; place = nodes[place].parent) {
            times[count++] = nodes[place].header.time;
            if (place == 0) break;
        }
        std::sort(times.begin(), times.begin() + count);
        return times[count / 2];
    }
    // ContextualCheckBlockHeader and ContextualCheckBlock, with all soft forks in force.
    bool context_holds(const Block& block, size_t parent, uint64_t now) const {
        uint32_t height = nodes[parent].height + 1, cutoff = median(parent);
        const Header& header = block.header;
        if (header.bits != 0x207fffff || header.time <= cutoff || header.time > now + 7200 || header.version < 4) return false;
        for (const Tx& tx : block.txs) {
            if (tx.lock_time == 0 || tx.lock_time < (tx.lock_time < 500000000 ? height : cutoff)) continue;
            for (const TxIn& input : tx.inputs)
                if (input.sequence != 0xffffffff) return false;
        }
        Script push = height_push(height);
        const Script& script = block.txs[0].inputs[0].script;
        return script.size() >= push.size() && std::equal(push.begin(), push.end(), script.begin());
    }
    // What lies between the active branch and this one: up to the fork down, and then up.
    bool activate(size_t place, const Block* tip, const std::vector<Hash>* tip_ids) {
        std::vector<size_t> up;
        for (; nodes[place].height >= branch.size() || branch[nodes[place].height] != place; place = nodes[place].parent) up.push_back(place);
        size_t fork = nodes[place].height;
        Cache view(coins);
        for (size_t height = branch.size() - 1; height > fork; height--) {
            Block block = read_block(*nodes[branch[height]].bytes);
            disconnect(view, block, ids_of(block.txs), undo[height]);
        }
        branch.resize(fork + 1);
        undo.resize(fork + 1);
        for (size_t i = up.size(); i-- > 0;) {
            Block block;
            std::vector<Hash> ids;
            if (i > 0) block = read_block(*nodes[up[i]].bytes), ids = ids_of(block.txs);
            auto spent = connect(view, i > 0 ? block : *tip, i > 0 ? ids : *tip_ids, nodes[up[i]].height, table, checks);
            if (!spent) return false;
            branch.push_back(up[i]);
            undo.push_back(std::move(*spent));
        }
        view.write(coins);
        return true;
    }

public:
    explicit Chain(size_t workers = 1) : checks(workers) {}
    size_t height() const { return branch.size() - 1; }
    const Hash& best() const { return nodes[branch.back()].id; }
    const Coin* coin(const OutPoint& at) const {
        auto found = coins.find(at);
        return found == coins.end() ? nullptr : &found->second;
    }
    // A block that was read, and judged by itself.
    struct Read {
        std::shared_ptr<const Bytes> bytes;
        Block block;
        Hash id;
        std::vector<Hash> ids;
        bool holds;
    };
    static Read read(std::shared_ptr<const Bytes> bytes) {
        Block block = read_block(*bytes);
        Hash id = id_of(block.header);
        std::vector<Hash> ids = ids_of(block.txs);
        bool holds = block_alone(block, ids);
        return Read{std::move(bytes), std::move(block), id, std::move(ids), holds};
    }
    bool submit(std::shared_ptr<const Bytes> bytes, uint64_t now) { return submit(read(std::move(bytes)), now); }
    bool submit(Read read, uint64_t now) {
        auto parent = places.find(read.block.header.prev);
        if (places.count(read.id) || parent == places.end()) return false;
        if (!read.holds || !context_holds(read.block, parent->second, now)) return false;
        size_t place = nodes.size();
        nodes.push_back(Index{read.id, parent->second, nodes[parent->second].height + 1, read.block.header, std::move(read.bytes)});
        places.emplace(read.id, place);
        if (nodes[place].height <= height()) return true;
        return activate(place, &read.block, &read.ids);
    }
};
