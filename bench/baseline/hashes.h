// Hashes by OpenSSL, with contexts that are used again, and bytes by chance.
#pragma once
#include <openssl/ripemd.h>
#include <openssl/sha.h>

#include <array>
#include <cstdint>
#include <cstring>
#include <vector>

using Bytes = std::vector<uint8_t>;
using Hash = std::array<uint8_t, 32>;
using ShortHash = std::array<uint8_t, 20>;

// splitmix64, as in the program that is measured.
struct Filling {
    uint64_t state;
    uint64_t next() {
        state += 0x9e3779b97f4a7c15;
        uint64_t z = state;
        z = (z ^ (z >> 30)) * 0xbf58476d1ce4e5b9;
        z = (z ^ (z >> 27)) * 0x94d049bb133111eb;
        return z ^ (z >> 31);
    }
    void fill(uint8_t* bytes, size_t count) {
        for (size_t i = 0; i < count; i++) bytes[i] = uint8_t(next());
    }
    template <size_t N>
    std::array<uint8_t, N> bytes() {
        std::array<uint8_t, N> out;
        fill(out.data(), N);
        return out;
    }
};

// Double SHA-256 of what is written to it (Bitcoin Core's HashWriter).
class Writer {
    SHA256_CTX context;

public:
    Writer() { SHA256_Init(&context); }
    void write(const void* bytes, size_t count) { SHA256_Update(&context, bytes, count); }
    Hash finish() {
        Hash hash;
        SHA256_Final(hash.data(), &context);
        SHA256_Init(&context);
        SHA256_Update(&context, hash.data(), hash.size());
        SHA256_Final(hash.data(), &context);
        return hash;
    }
};

inline Hash double_sha(const uint8_t* bytes, size_t count) {
    Writer writer;
    writer.write(bytes, count);
    return writer.finish();
}

inline ShortHash ripemd(const uint8_t* bytes, size_t count) {
    RIPEMD160_CTX context;
    ShortHash hash;
    RIPEMD160_Init(&context);
    RIPEMD160_Update(&context, bytes, count);
    RIPEMD160_Final(hash.data(), &context);
    return hash;
}

inline ShortHash hash160(const uint8_t* bytes, size_t count) {
    SHA256_CTX context;
    Hash hash;
    SHA256_Init(&context);
    SHA256_Update(&context, bytes, count);
    SHA256_Final(hash.data(), &context);
    return ripemd(hash.data(), hash.size());
}
