// A chainstate that many threads share: a mutex round what is submitted, and a lock for readers and the writer round
// what is read. What a block is by itself is found before both. The history is a list of what was submitted.
#pragma once
#include <mutex>
#include <shared_mutex>

#include "chain.h"

class Node {
    struct Entry {
        std::shared_ptr<const Bytes> bytes;
        uint64_t now;
        bool kept;
    };
    std::mutex steps;
    mutable std::shared_mutex lock;
    Chain chain;
    std::vector<Entry> history;

public:
    explicit Node(size_t workers = 1) : chain(workers) {}
    bool submit(const Bytes& bytes, uint64_t now) {
        auto own = std::make_shared<const Bytes>(bytes);
        Chain::Read read = Chain::read(own);
        std::lock_guard step(steps);
        std::unique_lock write(lock);
        bool kept = chain.submit(std::move(read), now);
        history.push_back(Entry{std::move(own), now, kept});
        return kept;
    }
    std::optional<Coin> gettxout(const OutPoint& at) const {
        std::shared_lock read(lock);
        const Coin* coin = chain.coin(at);
        return coin ? std::optional<Coin>(*coin) : std::nullopt;
    }
    Hash getbestblockhash() const {
        std::shared_lock read(lock);
        return chain.best();
    }
    size_t steps_taken() const { return history.size(); }
};
