// The workloads of a node: threads that read and submit.
#pragma once

constexpr size_t UNRIPE = 100, FAN = 20000, SPREAD = 3000;
constexpr int64_t WORTH = 100000;
constexpr uint64_t SUBMITTED = 0xffffffff;
using Places = std::vector<OutPoint>;
using BlockList = std::vector<Bytes>;

static std::vector<Tx> payments_of(Filling& filling, const OutPoint* coins, size_t count, size_t outputs, int64_t worth, const Script& script) {
    std::vector<Tx> payments;
    for (size_t i = 0; i < count; i++)
        payments.push_back(spending(coins[i], signed_input(filling), std::vector<TxOut>(outputs, TxOut{worth, script})));
    return payments;
}
// What pays to the hash of a script that accepts, and what spends it (BIP 16).
static Script to_true_hash() {
    const uint8_t accepts = 0x51;
    ShortHash hash = hash160(&accepts, 1);
    Script script{0xa9, 20};
    script.append(hash.data(), hash.size());
    script.push_back(0x87);
    return script;
}
static const Script SPENDS_TRUE_HASH{1, 0x51};
static void put_made(Places& made, const std::vector<Tx>& payments) {
    for (const Tx& tx : payments) {
        Hash id = id_of(tx);
        for (uint32_t i = 0; i < tx.outputs.size(); i++) made.push_back(OutPoint{id, i});
    }
}
// A chain from genesis on, and the coins that it leaves.
struct Start {
    Branch branch{1};
    Filling filling{16};
    BlockList blocks;
    Places coins, spread, unripe;

    Start() {
        for (size_t i = 0; i < UNRIPE; i++) {
            blocks.push_back(branch.next());
            unripe.push_back(OutPoint{branch.coinbase, 0});
        }
    }
    void fan(size_t count, const Script& script) {
        for (size_t done = 0, at = 0; done < count; at++) {
            size_t outputs = std::min(FAN, count - done);
            std::vector<Tx> payments = payments_of(filling, &unripe[at], 1, outputs, WORTH, script);
            put_made(coins, payments);
            blocks.push_back(branch.next(std::move(payments)));
            done += outputs;
        }
    }
    void spread_to(size_t count) {
        size_t keep = coins.size() - count / 10;
        while (coins.size() > keep) {
            size_t from = std::max(keep, coins.size() > SPREAD ? coins.size() - SPREAD : 0);
            std::vector<Tx> payments = payments_of(filling, &coins[from], coins.size() - from, 10, WORTH / 10, {0x51});
            coins.resize(from);
            put_made(spread, payments);
            blocks.push_back(branch.next(std::move(payments)));
        }
    }
};
static Start started(size_t payments, size_t coins) {
    Start start;
    start.fan(payments + coins / 10, {0x51});
    start.spread_to(coins);
    Filling order{15};
    for (size_t i = 0; i < start.spread.size(); i++) std::swap(start.spread[i], start.spread[order.next() % start.spread.size()]);
    return start;
}
static BlockList paying(Branch branch, Places coins, size_t count) {
    Filling filling{branch.number + 20};
    BlockList blocks;
    for (size_t i = 0; i < count; i++) {
        std::vector<Tx> payments = payments_of(filling, coins.data(), coins.size(), 1, WORTH, {0x51});
        coins.clear();
        put_made(coins, payments);
        blocks.push_back(branch.next(std::move(payments)));
    }
    return blocks;
}
static BlockList paying_to_hashes(Branch branch, Places coins, size_t count) {
    Script script = to_true_hash();
    BlockList blocks;
    for (size_t i = 0; i < count; i++) {
        std::vector<Tx> payments;
        for (const OutPoint& at : coins) payments.push_back(spending(at, SPENDS_TRUE_HASH, {TxOut{WORTH, script}}));
        coins.clear();
        put_made(coins, payments);
        blocks.push_back(branch.next(std::move(payments)));
    }
    return blocks;
}
static uint64_t submit_blocks(Node& node, const BlockList& blocks) {
    uint64_t kept = 0;
    for (const Bytes& bytes : blocks) kept += node.submit(bytes, SUBMITTED);
    return kept;
}
static std::string in_turn(const BlockList& below, const BlockList& timed, size_t workers) {
    Node node(workers);
    submit_blocks(node, below);
    start();
    uint64_t kept = submit_blocks(node, timed);
    stop();
    return std::to_string(kept);
}

static std::string read_map(size_t size) {
    Start base = started(0, size);
    CoinMap map;
    for (const OutPoint& at : base.spread) map.emplace(at, Coin{WORTH / 10, {0x51}, 7, false});
    uint64_t sum = 0;
    start();
    for (const OutPoint& at : base.spread) {
        auto found = map.find(at);
        if (found != map.end()) sum += found->second.value;
    }
    stop();
    return std::to_string(sum);
}
static uint64_t read_places(const Node& node, const Places& places, bool best) {
    uint64_t sum = 0;
    for (const OutPoint& at : places) {
        if (best) {
            sum += node.getbestblockhash()[31] < 0x80;
        } else if (auto coin = node.gettxout(at)) {
            sum += coin->value;
        }
    }
    return sum;
}
static uint64_t read_by(const Node& node, const Places& places, size_t readers, bool best) {
    std::atomic<uint64_t> sum{0};
    std::vector<std::thread> threads;
    start();
    for (size_t i = 0; i < readers; i++) threads.emplace_back([&] { sum += read_places(node, places, best); });
    for (std::thread& thread : threads) thread.join();
    stop();
    return sum;
}
static std::string read_alone(size_t size, size_t readers, bool best) {
    Start base = started(0, size);
    Node node;
    submit_blocks(node, base.blocks);
    return std::to_string(read_by(node, base.spread, readers, best));
}
// What is done while another thread submits blocks.
template <class Work>
static void beside(Node& node, const BlockList& blocks, const Work& work) {
    std::atomic<bool> is_over{false};
    std::thread writer([&] {
        for (const Bytes& bytes : blocks)
            if (!is_over) node.submit(bytes, SUBMITTED);
    });
    work();
    is_over = true;
    writer.join();
}
static std::string read_beside(size_t size, size_t readers) {
    Start base = started(2000, size);
    BlockList blocks = paying(base.branch, base.coins, std::clamp<size_t>(size / 1000, 2, 60));
    Node node;
    submit_blocks(node, base.blocks);
    uint64_t sum = 0;
    beside(node, blocks, [&] { sum = read_by(node, base.spread, readers, false); });
    return std::to_string(sum);
}
static std::string slowest(size_t size) {
    Start base = started(size, std::min<size_t>(size * 20, 10000));
    BlockList blocks = paying(base.branch, base.coins, std::min<size_t>(120000 / size, 240));
    Node node;
    submit_blocks(node, base.blocks);
    uint64_t sum = 0;
    double most = 0;
    beside(node, blocks, [&] {
        for (int round = 0; round < 100; round++)
            for (const OutPoint& at : base.spread) {
                start();
                if (auto coin = node.gettxout(at)) sum += coin->value;
                stop();
                most = std::max(most, spent_seconds);
            }
    });
    spent_seconds = most;
    return std::to_string(sum);
}
static std::string published(size_t coins, size_t payments) {
    Start base = started(std::min(payments, coins), coins);
    // A node with two copies brings the second up to date in the first step behind another, and frees what was kept for
    // that; in those behind it the allocator sorts what was freed.
    for (size_t i = 0; i < 10; i++) base.blocks.push_back(base.branch.next());
    return in_turn(base.blocks, paying(base.branch, base.coins, 10), 1);
}
// The lock knows no seats, so one branch takes as long by one thread as in turn.
static std::string turns(size_t size) {
    Start base = started(1000, 0);
    return in_turn(base.blocks, paying(base.branch, base.coins, size), 1);
}
static std::string submitted(size_t size) {
    Start base;
    base.fan(2000, to_true_hash());
    return in_turn(base.blocks, paying_to_hashes(base.branch, base.coins, size), 1);
}
static std::string branches(size_t size, size_t seats) {
    Start base = started(1000, 0);
    std::vector<BlockList> lists;
    for (uint32_t i = 0; i < 4; i++) {
        Branch branch = base.branch;
        branch.number = i + 2;
        lists.push_back(paying(branch, base.coins, size));
    }
    for (size_t i = 0; i <= size; i++) base.blocks.push_back(base.branch.next());
    Node node;
    submit_blocks(node, base.blocks);
    std::atomic<uint64_t> kept{0};
    std::vector<std::thread> threads;
    start();
    for (size_t seat = 0; seat < seats; seat++)
        threads.emplace_back([&, seat] {
            for (size_t i = seat; i < lists.size(); i += seats) kept += submit_blocks(node, lists[i]);
        });
    for (std::thread& thread : threads) thread.join();
    stop();
    return std::to_string(kept);
}
static std::string worked(size_t size, size_t workers) {
    Start base;
    base.fan(size, long_script_alone());
    return in_turn(base.blocks, paying(base.branch, base.coins, 1), workers);
}
static std::string keep(Branch branch, size_t size) {
    Node node;
    start();
    for (size_t i = 0; i < size; i++) node.submit(branch.next(), SUBMITTED);
    stop();
    return std::to_string(node.steps_taken());
}
static std::string keep_coins(size_t size) {
    BlockList blocks = started(0, size).blocks;
    Node node;
    submit_blocks(node, blocks);
    BlockList().swap(blocks);
    return "0";
}
static std::string hold_coins(size_t size) {
    Filling filling{14};
    CoinMap map;
    uint64_t sum = 0;
    start();
    for (size_t i = 0; i < size; i++) {
        auto [at, coin] = next_coin(filling);
        sum += coin.value;
        map.emplace(at, std::move(coin));
    }
    stop();
    return std::to_string(sum);
}
