#include "bytes.hpp"

#define OPENSSL_SUPPRESS_DEPRECATED
#include <openssl/ripemd.h>
#include <openssl/sha.h>

#include <algorithm>

namespace reading {

Bytes sha1(const Bytes &bytes) {
    Bytes digest(20);
    SHA_CTX state;
    SHA1_Init(&state), SHA1_Update(&state, bytes.data(), bytes.size()), SHA1_Final(digest.data(), &state);
    return digest;
}

Bytes sha256(const Bytes &bytes) {
    Bytes digest(32);
    SHA256_CTX state;
    SHA256_Init(&state), SHA256_Update(&state, bytes.data(), bytes.size()), SHA256_Final(digest.data(), &state);
    return digest;
}

Bytes ripemd160(const Bytes &bytes) {
    Bytes digest(20);
    RIPEMD160_CTX state;
    RIPEMD160_Init(&state), RIPEMD160_Update(&state, bytes.data(), bytes.size());
    RIPEMD160_Final(digest.data(), &state);
    return digest;
}

Bytes hash160(const Bytes &bytes) { return ripemd160(sha256(bytes)); }

Id double_sha(const Bytes &bytes) {
    Id id;
    const Bytes twice = sha256(sha256(bytes));
    std::copy(twice.begin(), twice.end(), id.begin());
    return id;
}

std::string hex(const uint8_t *bytes, size_t length) {
    static const char digits[] = "0123456789abcdef";
    std::string text;
    for (size_t n = 0; n < length; n++)
        text += {digits[bytes[n] >> 4], digits[bytes[n] & 15]};
    return text;
}

} // namespace reading
