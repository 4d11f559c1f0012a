// Coins by outpoint, and a layer over them with flags, as Bitcoin Core does it (CCoinsMap, CCoinsViewCache).
#pragma once
#include "blocks.h"
#include "pool.h"

struct Coin {
    int64_t value = 0;
    Script script;
    uint32_t height = 0;
    bool coinbase = false;
};

// SipHash's state; the calls are inlined by force, since the compiler leaves some of fourteen rounds out of line.
struct Sip {
    uint64_t v0, v1, v2, v3;
    static uint64_t turn(uint64_t x, int b) { return (x << b) | (x >> (64 - b)); }
    [[gnu::always_inline]] void round() {
        v0 += v1, v1 = turn(v1, 13), v1 ^= v0, v0 = turn(v0, 32);
        v2 += v3, v3 = turn(v3, 16), v3 ^= v2;
        v0 += v3, v3 = turn(v3, 21), v3 ^= v0;
        v2 += v1, v1 = turn(v1, 17), v1 ^= v2, v2 = turn(v2, 32);
    }
    [[gnu::always_inline]] void word(uint64_t m) { v3 ^= m, round(), round(), v0 ^= m; }
};
// SipHash-2-4 of an id and an index, with a key by chance, so that strangers can't choose places in the map.
struct SaltedHasher {
    uint64_t k0 = 0x0706050403020100, k1 = 0x0f0e0d0c0b0a0908;
    size_t operator()(const OutPoint& at) const {
        Sip sip{0x736f6d6570736575 ^ k0, 0x646f72616e646f6d ^ k1, 0x6c7967656e657261 ^ k0, 0x7465646279746573 ^ k1};
        for (int i = 0; i < 4; i++) {
            uint64_t m;
            std::memcpy(&m, at.id.data() + 8 * i, 8);
            sip.word(m);
        }
        sip.word((uint64_t(36) << 56) | at.index);
        sip.v2 ^= 0xff;
        for (int i = 0; i < 4; i++) sip.round();
        return sip.v0 ^ sip.v1 ^ sip.v2 ^ sip.v3;
    }
};

using CoinMap = PooledMap<OutPoint, Coin, SaltedHasher>;

class Cache {
public:
    struct Entry {
        std::optional<Coin> coin;
        bool dirty = false, fresh = false;
    };
    using Entries = PooledMap<OutPoint, Entry, SaltedHasher>;

private:
    const CoinMap& base;
    Entries entries;

public:
    explicit Cache(const CoinMap& base) : base(base) {}
    // Moves what it changes into the entries of the cache below it (BatchWrite).
    void flush(Entries& below) {
        for (auto& [at, entry] : entries)
            if (entry.dirty) below[at] = std::move(entry);
        entries.clear();
    }
    // Moves what it changes into the coins that it stands on.
    void write(CoinMap& coins) {
        for (auto& [at, entry] : entries) {
            if (!entry.dirty) continue;
            if (entry.coin) coins[at] = std::move(*entry.coin);
            else coins.erase(at);
        }
        entries.clear();
    }
    const Coin* get(const OutPoint& at) const {
        auto own = entries.find(at);
        if (own != entries.end()) return own->second.coin ? &*own->second.coin : nullptr;
        auto below = base.find(at);
        return below == base.end() ? nullptr : &below->second;
    }
    void add(const OutPoint& at, Coin coin) {
        auto [own, is_new] = entries.try_emplace(at);
        Entry& entry = own->second;
        if (is_new) entry.fresh = base.find(at) == base.end();
        entry.coin = std::move(coin);
        entry.dirty = true;
    }
    std::optional<Coin> spend(const OutPoint& at) {
        auto own = entries.find(at);
        if (own == entries.end()) {
            auto below = base.find(at);
            if (below == base.end()) return std::nullopt;
            own = entries.emplace(at, Entry{below->second, false, false}).first;
        }
        std::optional<Coin> coin = std::move(own->second.coin);
        if (own->second.fresh) {
            entries.erase(own);
        } else {
            own->second.dirty = true;
            own->second.coin.reset();
        }
        return coin;
    }
};
