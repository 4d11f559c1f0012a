/* Connecting blocks over coins, and the chainstate (RULES.md, "Coins" to "A block's place on regtest"; CHAINSTATE.md). The
 * limit of 1,000,000 blocks isn't in it. */
#ifndef READING_CHAIN_HPP
#define READING_CHAIN_HPP

#include "rules.hpp"
#include "run.hpp"

#include <map>
#include <memory>
#include <set>

namespace reading {

struct Coin {
    int64_t value;
    Bytes script;
    uint32_t height;
    bool is_coinbase;
};

using Coins = std::map<OutPoint, Coin>;

/* The first broken rule, "" for none. With blk-bad-inputs the input whose script isn't accepted. */
struct Refusal {
    std::string reason;
    uint64_t tx = 0, input = 0;
};

struct Reply {
    std::string word;
    Refusal refusal;
};

constexpr size_t NOWHERE = SIZE_MAX;

/* What a transaction breaks by itself, or by the coins that it spends in a block of this height; else its fee. */
Reason inputs_fault(const Tx &tx, uint32_t height, const Coins &coins, int64_t &fee);

class Chain {
  public:
    Chain(const Heights &heights, const Bytes &genesis);

    Reply submit(const Bytes &bytes, uint64_t now);
    Reply invalidate(const Id &id);
    Reply reconsider(const Id &id);
    Reply precious(const Id &id);

    /* Each kept block, in order of arrival; genesis is the first. */
    struct Kept {
        Id id;
        size_t parent;
        uint32_t height;
        std::shared_ptr<const Block> block;
        /* What connecting it came to, once it was tried. */
        std::shared_ptr<const Coins> coins;
        std::shared_ptr<const Refusal> refusal;
        /* It was part of the active branch, or of one that was tried. */
        bool seen;
    };
    std::vector<Kept> kept;
    Judge judge;

    size_t active();
    /* The coins after a block; none where it or one below doesn't connect. */
    std::shared_ptr<const Coins> coins_after(size_t block);
    uint32_t median_time_past(size_t block) const;
    std::string status(size_t block);
    /* The place of a kept block, or NOWHERE, and of the block at a height of its branch. */
    size_t find(const Id &id) const;
    size_t ancestor(size_t block, uint32_t height) const;
    /* What a block breaks by itself, or over the coins of a kept one, which become those after it. Its place isn't asked. */
    Refusal connected(const Block &block, uint64_t size, size_t parent, Coins &coins) const;

  private:
    bool is_usable(size_t block) const;
    bool beats(size_t one, size_t other) const;
    std::vector<size_t> branch(size_t block) const;
    void settle();
    Refusal fault_before_coins(const Block &block, uint64_t size, uint64_t now) const;
    Start start_of(const Coin &coin, size_t parent) const;
    Refusal connect(const Block &block, size_t parent, uint32_t height, Coins &coins) const;
    Refusal connect_tx(const Tx &tx, size_t parent, uint32_t height, Coins &coins, uint64_t &sigops, int64_t &fees) const;

    Heights heights;
    std::set<size_t> marked;
    std::vector<size_t> preferred;
};

} // namespace reading

#endif
