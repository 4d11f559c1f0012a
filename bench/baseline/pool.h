// Memory for the nodes of maps of coins: small pieces of large chunks, with a list of free ones for each size, as in
// Bitcoin Core's PoolResource. A map of coins has its pool to itself, so nothing is locked.
#pragma once
#include <array>
#include <memory>
#include <new>
#include <unordered_map>
#include <vector>

class Pool {
    static constexpr size_t STEP = 8, MOST = 256, FIRST = 4096, LARGEST = 262144;
    struct Free {
        Free* next;
    };
    std::array<Free*, MOST / STEP + 1> free{};
    std::vector<std::unique_ptr<std::byte[]>> chunks;
    std::byte *at = nullptr, *end = nullptr;
    // A view of one block shouldn't touch as much as a chain's coins, so chunks begin small.
    size_t next = FIRST;

    static size_t list_of(size_t bytes) { return (bytes + STEP - 1) / STEP; }
    void add_chunk() {
        chunks.emplace_back(new std::byte[next]);
        at = chunks.back().get();
        end = at + next;
        next = std::min(2 * next, LARGEST);
    }

public:
    Pool() = default;
    Pool(const Pool&) = delete;
    void* take(size_t bytes) {
        if (bytes > MOST) return ::operator new(bytes);
        Free*& first = free[list_of(bytes)];
        if (first) return std::exchange(first, first->next);
        size_t size = list_of(bytes) * STEP;
        if (size_t(end - at) < size) add_chunk();
        return std::exchange(at, at + size);
    }
    void give(void* piece, size_t bytes) {
        if (bytes > MOST) return ::operator delete(piece);
        Free*& first = free[list_of(bytes)];
        first = new (piece) Free{first};
    }
};

template <class T>
struct PoolAllocator {
    using value_type = T;
    Pool* pool;
    explicit PoolAllocator(Pool& pool) : pool(&pool) {}
    template <class Other>
    PoolAllocator(const PoolAllocator<Other>& other) : pool(other.pool) {}
    T* allocate(size_t count) { return static_cast<T*>(pool->take(count * sizeof(T))); }
    void deallocate(T* piece, size_t count) { pool->give(piece, count * sizeof(T)); }
    template <class Other>
    bool operator==(const PoolAllocator<Other>& other) const { return pool == other.pool; }
    template <class Other>
    bool operator!=(const PoolAllocator<Other>& other) const { return pool != other.pool; }
};

// The pool is a base, so that it is there before the map's nodes and goes after them.
struct Pooled {
    std::unique_ptr<Pool> pool = std::make_unique<Pool>();
};
template <class Key, class Value, class Hasher>
struct PooledMap : private Pooled,
                   public std::unordered_map<Key, Value, Hasher, std::equal_to<Key>, PoolAllocator<std::pair<const Key, Value>>> {
    using Map = std::unordered_map<Key, Value, Hasher, std::equal_to<Key>, PoolAllocator<std::pair<const Key, Value>>>;
    PooledMap() : Map(0, Hasher(), std::equal_to<Key>(), PoolAllocator<std::pair<const Key, Value>>(*pool)) {}
    PooledMap(PooledMap&&) = default;
    PooledMap& operator=(PooledMap&&) = delete;
};
