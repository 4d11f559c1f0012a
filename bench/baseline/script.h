// A script's bytes. Up to 28 stand in place, as in Bitcoin Core's prevector, so that the usual scripts allocate nothing.
#pragma once
#include <algorithm>
#include <cstdint>
#include <cstdlib>
#include <cstring>
#include <initializer_list>
#include <new>
#include <utility>

class alignas(8) Script {
    static constexpr uint32_t PLACE = 28;
    // Packed, so that the length stands right behind the 28 bytes and a script takes 32.
    struct __attribute__((packed)) Far {
        uint8_t* bytes;
        uint32_t room;
    };
    union {
        uint8_t near[PLACE];
        Far far;
    };
    // Those above 28 are in memory of their own.
    uint32_t count = 0;

    static uint8_t* allocated(uint32_t room) {
        void* made = std::malloc(room);
        if (!made) throw std::bad_alloc();
        return static_cast<uint8_t*>(made);
    }
    void take(Script& other) {
        std::memcpy(static_cast<void*>(this), &other, sizeof *this);
        other.count = 0;
    }
    void release() {
        if (count > PLACE) std::free(far.bytes);
        count = 0;
    }
    void move_out(uint32_t room) {
        uint8_t* bytes = allocated(room);
        std::memcpy(bytes, near, count);
        far = Far{bytes, room};
    }
    void grow(uint32_t room) {
        void* bytes = std::realloc(far.bytes, room);
        if (!bytes) throw std::bad_alloc();
        far = Far{static_cast<uint8_t*>(bytes), room};
    }

public:
    Script() {}
    Script(size_t size, uint8_t byte) { std::memset(make(size), byte, size); }
    Script(std::initializer_list<uint8_t> bytes) : Script(bytes.begin(), bytes.end()) {}
    Script(const uint8_t* from, const uint8_t* to) { std::memcpy(make(size_t(to - from)), from, size_t(to - from)); }
    Script(const Script& other) { std::memcpy(make(other.count), other.data(), other.count); }
    Script(Script&& other) noexcept { take(other); }
    Script& operator=(const Script& other) {
        if (this != &other) std::memcpy(make(other.count), other.data(), other.count);
        return *this;
    }
    Script& operator=(Script&& other) noexcept {
        if (this == &other) return *this;
        release();
        take(other);
        return *this;
    }
    ~Script() { release(); }

    // So many bytes in place of those that were there, for the caller to fill.
    uint8_t* make(size_t size) {
        release();
        if (size > PLACE) far = Far{allocated(uint32_t(size)), uint32_t(size)};
        count = uint32_t(size);
        return data();
    }
    void append(const uint8_t* bytes, size_t size) {
        uint32_t all = count + uint32_t(size);
        if (all > PLACE && count <= PLACE) move_out(all + all / 2);
        else if (all > PLACE && all > far.room) grow(all + all / 2);
        std::memcpy((all > PLACE ? far.bytes : near) + count, bytes, size);
        count = all;
    }
    void push_back(uint8_t byte) { append(&byte, 1); }

    size_t size() const { return count; }
    bool empty() const { return count == 0; }
    uint8_t* data() { return count > PLACE ? far.bytes : near; }
    const uint8_t* data() const { return count > PLACE ? far.bytes : near; }
    uint8_t operator[](size_t at) const { return data()[at]; }
    const uint8_t* begin() const { return data(); }
    const uint8_t* end() const { return data() + count; }
};
static_assert(sizeof(Script) == 32);
