// Double SHA-256 of eight Merkle nodes at once, in the lanes of AVX2, where the processor has it (Bitcoin Core's
// SHA256D64). A node is the 64 bytes of two hashes.
#pragma once
#include <immintrin.h>

#include "hashes.h"

namespace lanes {
constexpr size_t COUNT = 8;
constexpr uint32_t K[64] = {
    0x428a2f98, 0x71374491, 0xb5c0fbcf, 0xe9b5dba5, 0x3956c25b, 0x59f111f1, 0x923f82a4, 0xab1c5ed5, 0xd807aa98, 0x12835b01, 0x243185be,
    0x550c7dc3, 0x72be5d74, 0x80deb1fe, 0x9bdc06a7, 0xc19bf174, 0xe49b69c1, 0xefbe4786, 0x0fc19dc6, 0x240ca1cc, 0x2de92c6f, 0x4a7484aa,
    0x5cb0a9dc, 0x76f988da, 0x983e5152, 0xa831c66d, 0xb00327c8, 0xbf597fc7, 0xc6e00bf3, 0xd5a79147, 0x06ca6351, 0x14292967, 0x27b70a85,
    0x2e1b2138, 0x4d2c6dfc, 0x53380d13, 0x650a7354, 0x766a0abb, 0x81c2c92e, 0x92722c85, 0xa2bfe8a1, 0xa81a664b, 0xc24b8b70, 0xc76c51a3,
    0xd192e819, 0xd6990624, 0xf40e3585, 0x106aa070, 0x19a4c116, 0x1e376c08, 0x2748774c, 0x34b0bcb5, 0x391c0cb3, 0x4ed8aa4a, 0x5b9cca4f,
    0x682e6ff3, 0x748f82ee, 0x78a5636f, 0x84c87814, 0x8cc70208, 0x90befffa, 0xa4506ceb, 0xbef9a3f7, 0xc67178f2};
constexpr uint32_t BEGIN[8] = {0x6a09e667, 0xbb67ae85, 0x3c6ef372, 0xa54ff53a, 0x510e527f, 0x9b05688c, 0x1f83d9ab, 0x5be0cd19};

// The words that the rounds of a node's second block add: it is padding alone, so they are known.
struct Padding {
    uint32_t added[64]{};
    static constexpr uint32_t turn(uint32_t x, int by) { return (x >> by) | (x << (32 - by)); }
    constexpr Padding() {
        uint32_t words[64]{0x80000000};
        words[15] = 512;
        for (int i = 16; i < 64; i++) {
            uint32_t x = words[i - 15], y = words[i - 2];
            words[i] = words[i - 16] + (turn(x, 7) ^ turn(x, 18) ^ (x >> 3)) + words[i - 7] + (turn(y, 17) ^ turn(y, 19) ^ (y >> 10));
        }
        for (int i = 0; i < 64; i++) added[i] = words[i] + K[i];
    }
};
constexpr Padding PADDING;

inline bool are_there() {
    static const bool found = __builtin_cpu_supports("avx2");
    return found;
}

#pragma GCC push_options
#pragma GCC target("avx2")
using Lanes = uint32_t __attribute__((vector_size(32)));

[[gnu::always_inline]] inline Lanes turn(const Lanes& x, int by) { return (x >> by) | (x << (32 - by)); }
[[gnu::always_inline]] inline Lanes all(uint32_t word) { return Lanes{} + word; }

// One round; the caller names the state's words in turn.
[[gnu::always_inline]] inline void round(
    const Lanes& a, const Lanes& b, const Lanes& c, Lanes& d, const Lanes& e, const Lanes& f, const Lanes& g, Lanes& h, const Lanes& added) {
    Lanes one = h + (turn(e, 6) ^ turn(e, 11) ^ turn(e, 25)) + (g ^ (e & (f ^ g))) + added;
    d += one;
    h = one + (turn(a, 2) ^ turn(a, 13) ^ turn(a, 22)) + ((a & b) | (c & (a | b)));
}
// Eight rounds, after which each word is back at its place.
[[gnu::always_inline]] inline void rounds(Lanes (&s)[8], const Lanes* added) {
    round(s[0], s[1], s[2], s[3], s[4], s[5], s[6], s[7], added[0]);
    round(s[7], s[0], s[1], s[2], s[3], s[4], s[5], s[6], added[1]);
    round(s[6], s[7], s[0], s[1], s[2], s[3], s[4], s[5], added[2]);
    round(s[5], s[6], s[7], s[0], s[1], s[2], s[3], s[4], added[3]);
    round(s[4], s[5], s[6], s[7], s[0], s[1], s[2], s[3], added[4]);
    round(s[3], s[4], s[5], s[6], s[7], s[0], s[1], s[2], added[5]);
    round(s[2], s[3], s[4], s[5], s[6], s[7], s[0], s[1], added[6]);
    round(s[1], s[2], s[3], s[4], s[5], s[6], s[7], s[0], added[7]);
}
// A block of sixteen words; those of later rounds are made in their place.
inline void compress(Lanes (&state)[8], Lanes (&words)[16]) {
    Lanes s[8], added[16];
    for (int i = 0; i < 8; i++) s[i] = state[i];
    for (int from = 0; from < 64; from += 16) {
        for (int i = 0; i < 16; i++) {
            const Lanes &x = words[(i + 1) % 16], &y = words[(i + 14) % 16];
            if (from > 0) words[i] += (turn(x, 7) ^ turn(x, 18) ^ (x >> 3)) + words[(i + 9) % 16] + (turn(y, 17) ^ turn(y, 19) ^ (y >> 10));
            added[i] = words[i] + K[from + i];
        }
        rounds(s, added);
        rounds(s, added + 8);
    }
    for (int i = 0; i < 8; i++) state[i] += s[i];
}
inline void compress_padding(Lanes (&state)[8]) {
    Lanes s[8], added[8];
    for (int i = 0; i < 8; i++) s[i] = state[i];
    for (int from = 0; from < 64; from += 8) {
        for (int i = 0; i < 8; i++) added[i] = all(PADDING.added[from + i]);
        rounds(s, added);
    }
    for (int i = 0; i < 8; i++) state[i] += s[i];
}
[[gnu::always_inline]] inline Lanes swapped(const Lanes& words) {
    const __m256i order = _mm256_set_epi8(
        12, 13, 14, 15, 8, 9, 10, 11, 4, 5, 6, 7, 0, 1, 2, 3, 12, 13, 14, 15, 8, 9, 10, 11, 4, 5, 6, 7, 0, 1, 2, 3);
    return Lanes(_mm256_shuffle_epi8(__m256i(words), order));
}
inline uint32_t word_at(const uint8_t* bytes) {
    uint32_t word;
    std::memcpy(&word, bytes, 4);
    return word;
}
// Eight nodes of 64 bytes become eight hashes; they may begin at the same place.
inline void hash_nodes(uint8_t* out, const uint8_t* in) {
    Lanes words[16], state[8], begin[8];
    for (int i = 0; i < 8; i++) begin[i] = state[i] = all(BEGIN[i]);
    for (int i = 0; i < 16; i++)
        for (size_t lane = 0; lane < COUNT; lane++) words[i][lane] = word_at(in + 64 * lane + 4 * i);
    for (Lanes& word : words) word = swapped(word);
    compress(state, words);
    compress_padding(state);
    for (int i = 0; i < 8; i++) words[i] = state[i];
    words[8] = all(0x80000000);
    for (int i = 9; i < 15; i++) words[i] = all(0);
    words[15] = all(256);
    compress(begin, words);
    for (int i = 0; i < 8; i++) {
        Lanes hashes = swapped(begin[i]);
        for (size_t lane = 0; lane < COUNT; lane++) {
            uint32_t word = hashes[lane];
            std::memcpy(out + 32 * lane + 4 * i, &word, 4);
        }
    }
}
#pragma GCC pop_options
}  // namespace lanes

// A level of so many nodes becomes the one above it, in place. The last three to seven go together too, next to lanes that
// nobody reads: that takes less than one by one.
inline void hash_level(Hash* level, size_t nodes) {
    size_t done = 0;
    if (lanes::are_there()) {
        for (; nodes - done >= lanes::COUNT; done += lanes::COUNT) lanes::hash_nodes(level[done].data(), level[2 * done].data());
        if (size_t left = nodes - done; left >= 3) {
            Hash in[2 * lanes::COUNT]{}, out[lanes::COUNT];
            std::copy_n(level + 2 * done, 2 * left, in);
            lanes::hash_nodes(out[0].data(), in[0].data());
            std::copy_n(out, left, level + done);
            done = nodes;
        }
    }
    for (; done < nodes; done++) level[done] = double_sha(level[2 * done].data(), 64);
}
