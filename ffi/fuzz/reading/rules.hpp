/* Transactions and blocks by themselves and by their place (RULES.md, "Merkle roots" to "Rules by height"). */
#ifndef READING_RULES_HPP
#define READING_RULES_HPP

#include "script.hpp"

namespace reading {

constexpr int64_t COIN = 100000000, MAX_MONEY = 2100000000000000;
constexpr uint64_t MAX_BLOCK_SIZE = 1000000, MAX_BLOCK_SIGOPS = 20000;
constexpr uint32_t REGTEST_BITS = 0x207fffff, COINBASE_MATURITY = 100;
constexpr size_t MEDIAN_TIMES = 11;

/* The word of the first broken rule, or "". */
using Reason = const char *;

/* From which height on soft forks are in force. */
struct Heights {
    uint32_t bip34, bip65, bip66, csv;
};

/* From where a relative lock counts: the coin's height, and the median time past of the block before. */
struct Start {
    uint32_t height, median;
};

struct Merkle {
    Id root;
    bool has_twin;
};

Merkle merkle(std::vector<Id> ids);
bool meets_target(const Id &id);
int64_t subsidy(uint32_t height);
uint32_t median(std::vector<uint32_t> times);
Bytes height_push(uint32_t height);
uint64_t plain_sigops(const Tx &tx);

bool is_final(const Tx &tx, uint32_t height, uint32_t cutoff);
bool locks_met(const Tx &tx, const std::vector<Start> &starts, uint32_t height, uint32_t cutoff);

Reason fault_alone(const Tx &tx);
Reason fault_alone(const Block &block, uint64_t size);
Reason fault_by_place(const Block &block, uint32_t height, uint32_t median, uint64_t now, const Heights &heights);

} // namespace reading

#endif
