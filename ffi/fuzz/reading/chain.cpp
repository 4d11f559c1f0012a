#include "chain.hpp"

#include "cases.hpp"

#include <algorithm>

/* The words behind the reason tell its cases apart. */
#define REFUSE(reason, ...)                                                                                            \
    do {                                                                                                               \
        MET("connect: " reason __VA_ARGS__);                                                                           \
        return {reason};                                                                                               \
    } while (0)
#define ANSWER(word)                                                                                                   \
    do {                                                                                                               \
        MET("reply: " word);                                                                                           \
        return {word, {}};                                                                                             \
    } while (0)

namespace reading {

Chain::Chain(const Heights &heights, const Bytes &genesis) : heights(heights) {
    auto block = std::make_shared<Block>();
    read_block(genesis, *block);
    kept.push_back({id_of(block->header), NOWHERE, 0, block, std::make_shared<Coins>(), std::make_shared<Refusal>(),
                    true});
}

size_t Chain::find(const Id &id) const {
    for (size_t n = 0; n < kept.size(); n++)
        if (kept[n].id == id)
            return n;
    return NOWHERE;
}

/* From genesis up to the block. */
std::vector<size_t> Chain::branch(size_t block) const {
    std::vector<size_t> found;
    for (; block != NOWHERE; block = kept[block].parent)
        found.push_back(block);
    std::reverse(found.begin(), found.end());
    return found;
}

size_t Chain::ancestor(size_t block, uint32_t height) const {
    while (kept[block].height > height)
        block = kept[block].parent;
    return block;
}

/* A parent came before its children, so below the first marked block there is no mark. */
bool Chain::is_usable(size_t block) const {
    for (; !marked.empty() && block != NOWHERE && block >= *marked.begin(); block = kept[block].parent)
        if (marked.count(block))
            return false;
    return true;
}

/* The higher; of equal height the one that was called precious later; else the one that came earlier. */
bool Chain::beats(size_t one, size_t other) const {
    if (kept[one].height != kept[other].height)
        return kept[one].height > kept[other].height;
    for (size_t n = preferred.size(); n > 0; n--)
        if (preferred[n - 1] == one || preferred[n - 1] == other)
            return preferred[n - 1] == one && one != other;
    return planted(12) ? one > other : one < other;
}

uint32_t Chain::median_time_past(size_t block) const {
    std::vector<uint32_t> times;
    for (; block != NOWHERE && times.size() < MEDIAN_TIMES; block = kept[block].parent)
        times.push_back(kept[block].block->header.time);
    return median(times);
}

std::shared_ptr<const Coins> Chain::coins_after(size_t block) {
    Kept &own = kept[block];
    if (own.refusal)
        return own.coins;
    const auto below = coins_after(own.parent);
    if (!below)
        return nullptr;
    auto coins = std::make_shared<Coins>(*below);
    own.refusal = std::make_shared<Refusal>(connect(*own.block, own.parent, own.height, *coins));
    if (own.refusal->reason.empty())
        own.coins = coins;
    return own.coins;
}

/* Later blocks are looked at first, since most often one of them is it. */
size_t Chain::active() {
    size_t best = 0;
    for (size_t n = kept.size() - 1; n > 0; n--)
        if (beats(n, best) && is_usable(n) && coins_after(n))
            best = n;
    return best;
}

/* In the branch of every usable block that is the active one or better, the blocks before the first that doesn't connect
 * become seen, and that one is marked. */
void Chain::settle() {
    const size_t best = active();
    std::vector<size_t> tried;
    for (size_t n = 0; n < kept.size(); n++)
        if ((n == best || beats(n, best)) && is_usable(n))
            tried.push_back(n);
    for (const size_t block : tried)
        for (const size_t part : branch(block)) {
            if (!coins_after(part)) {
                MET("settle: a block that doesn't connect is marked");
                marked.insert(part);
                break;
            }
            kept[part].seen = true;
        }
}

Refusal Chain::fault_before_coins(const Block &block, uint64_t size, uint64_t now) const {
    if (const Reason reason = fault_alone(block, size); *reason)
        return {reason};
    const size_t parent = find(block.header.parent);
    if (parent == NOWHERE)
        REFUSE("prev-blk-not-found");
    if (!is_usable(parent))
        REFUSE("bad-prevblk");
    return {fault_by_place(block, kept[parent].height + 1, median_time_past(parent), now, heights)};
}

Reply Chain::submit(const Bytes &bytes, uint64_t now) {
    auto block = std::make_shared<Block>();
    if (read_block(bytes, *block) != Fault::none)
        ANSWER("decode-failed");
    const Id id = id_of(block->header);
    if (const size_t known = find(id); known != NOWHERE) {
        if (!is_usable(known))
            ANSWER("duplicate-invalid");
        if (kept[known].seen)
            ANSWER("duplicate");
        ANSWER("duplicate-inconclusive");
    }
    if (const Refusal refusal = fault_before_coins(*block, bytes.size(), now); !refusal.reason.empty())
        return {"rejected", refusal};
    const size_t parent = find(block->header.parent), own = kept.size();
    kept.push_back({id, parent, kept[parent].height + 1, block, nullptr, nullptr, false});
    settle();
    if (marked.count(own))
        return {"rejected", *kept[own].refusal};
    if (active() == own)
        ANSWER("accepted");
    ANSWER("inconclusive");
}

Reply Chain::invalidate(const Id &id) {
    const size_t block = find(id);
    if (block == NOWHERE)
        ANSWER("not-found");
    if (block == 0)
        ANSWER("genesis");
    marked.insert(block);
    settle();
    ANSWER("done");
}

/* Unmarks the block, its ancestors and its descendants. */
Reply Chain::reconsider(const Id &id) {
    const size_t block = find(id);
    if (block == NOWHERE)
        ANSWER("not-found");
    for (const size_t part : branch(block))
        marked.erase(part);
    for (size_t n = 0; n < kept.size(); n++)
        if (kept[n].height >= kept[block].height && ancestor(n, kept[block].height) == block)
            marked.erase(n);
    settle();
    ANSWER("done");
}

Reply Chain::precious(const Id &id) {
    const size_t block = find(id);
    if (block == NOWHERE)
        ANSWER("not-found");
    if (kept[block].height >= kept[active()].height)
        preferred.push_back(block);
    else
        MET("precious: a block that is lower than the active one");
    settle();
    ANSWER("done");
}

std::string Chain::status(size_t block) {
    return block == active() ? "active" : !is_usable(block) ? "invalid" : kept[block].seen ? "valid-fork" : "valid-headers";
}

/* ---- Connecting */

Start Chain::start_of(const Coin &coin, size_t parent) const {
    const uint32_t before = coin.height ? coin.height - 1 : 0;
    return {coin.height, median_time_past(ancestor(parent, before))};
}

static void add_outputs(const Tx &tx, const Id &id, uint32_t height, Coins &coins) {
    for (uint32_t n = 0; n < tx.outputs.size(); n++)
        if (!is_unspendable(tx.outputs[n].script))
            coins[{id, n}] = {tx.outputs[n].value, tx.outputs[n].script, height, tx.is_coinbase()};
        else
            MET("coins: an output that never becomes one");
}

static bool has_coin(const Tx &tx, const Coins &coins) {
    const Id id = id_of(tx);
    for (uint32_t n = 0; n < tx.outputs.size(); n++)
        if (coins.count({id, n}))
            return true;
    return false;
}

/* One transaction after the coinbase, over the coins that those before it leave. It takes its inputs and adds its fee.
 * The outpoint of an output can't be a coin by now if it wasn't before the block: its inputs would be spent. */
Refusal Chain::connect_tx(const Tx &tx, size_t parent, uint32_t height, Coins &coins, uint64_t &count, int64_t &fees) const {
    if ((count += plain_sigops(tx)) > MAX_BLOCK_SIGOPS)
        REFUSE("bad-blk-sigops", ", plainly, with those of inner scripts before");
    for (const Input &input : tx.inputs)
        if (!coins.count(input.spent))
            REFUSE("bad-txns-inputs-missingorspent");
    int64_t worth = 0, paid = 0;
    std::vector<Start> starts;
    uint64_t inner = 0;
    for (const Input &input : tx.inputs) {
        const Coin &coin = coins.at(input.spent);
        if (coin.is_coinbase && height - coin.height < COINBASE_MATURITY - planted(9))
            REFUSE("bad-txns-premature-spend-of-coinbase");
        worth += coin.value;
        starts.push_back(start_of(coin, parent));
        inner += p2sh_sigops(input.script, coin.script);
    }
    for (const Output &output : tx.outputs)
        paid += output.value;
    if (worth < paid)
        REFUSE("bad-txns-in-belowout");
    if (height >= heights.csv && !locks_met(tx, starts, height, median_time_past(parent)))
        REFUSE("bad-txns-nonfinal");
    if ((count += inner) > MAX_BLOCK_SIGOPS)
        REFUSE("bad-blk-sigops", ", of inner scripts");
    fees += worth - paid;
    return {};
}

/* The scripts come last: each input's transaction, number and spent script. */
struct Job {
    size_t tx, input;
    Bytes spent;
};

Refusal Chain::connect(const Block &block, size_t parent, uint32_t height, Coins &coins) const {
    for (const Tx &tx : block.txs)
        if (has_coin(tx, coins))
            REFUSE("bad-txns-BIP30");
    uint64_t count = plain_sigops(block.txs[0]);
    int64_t fees = 0;
    std::vector<Job> jobs;
    add_outputs(block.txs[0], id_of(block.txs[0]), height, coins);
    for (size_t n = 1; n < block.txs.size(); n++) {
        const Tx &tx = block.txs[n];
        const Refusal refusal = connect_tx(tx, parent, height, coins, count, fees);
        if (!refusal.reason.empty())
            return refusal;
        for (size_t input = 0; input < tx.inputs.size(); input++) {
            jobs.push_back({n, input, coins.at(tx.inputs[input].spent).script});
            coins.erase(tx.inputs[input].spent);
        }
        add_outputs(tx, id_of(tx), height, coins);
    }
    int64_t paid = 0;
    for (const Output &output : block.txs[0].outputs)
        paid += output.value;
    if (paid > subsidy(height) + fees + planted(11))
        REFUSE("bad-cb-amount");
    const Flags flags = {true, height >= heights.bip66, height >= heights.bip65, height >= heights.csv, false};
    for (const Job &job : jobs)
        if (verify(job.spent, {block.txs[job.tx], job.input, flags, judge}) != Error::OK) {
            MET("connect: blk-bad-inputs");
            return {"blk-bad-inputs", job.tx, job.input};
        }
    MET("connect: a block that connects");
    return {};
}

Refusal Chain::connected(const Block &block, uint64_t size, size_t parent, Coins &coins) const {
    if (const Reason reason = fault_alone(block, size); *reason)
        return {reason};
    return connect(block, parent, kept[parent].height + 1, coins);
}

Reason inputs_fault(const Tx &tx, uint32_t height, const Coins &coins, int64_t &fee) {
    if (const Reason reason = fault_alone(tx); *reason)
        return reason;
    fee = 0;
    if (!tx.is_coinbase()) {
        for (const Input &input : tx.inputs)
            if (!coins.count(input.spent))
                return "bad-txns-inputs-missingorspent";
        for (const Input &input : tx.inputs) {
            const Coin &coin = coins.at(input.spent);
            if (coin.is_coinbase && height - coin.height < COINBASE_MATURITY)
                return "bad-txns-premature-spend-of-coinbase";
            fee += coin.value;
        }
    }
    for (const Output &output : tx.outputs)
        fee -= output.value;
    return !tx.is_coinbase() && fee < 0 ? "bad-txns-in-belowout" : "";
}

} // namespace reading
