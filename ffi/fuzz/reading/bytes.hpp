/* Bytes, and the hashes of RULES.md, "Ids and hashes". The hash functions themselves are OpenSSL's. */
#ifndef READING_BYTES_HPP
#define READING_BYTES_HPP

#include <array>
#include <cstddef>
#include <cstdint>
#include <string>
#include <vector>

namespace reading {

using Bytes = std::vector<uint8_t>;
using Id = std::array<uint8_t, 32>;

Bytes sha1(const Bytes &bytes);
Bytes sha256(const Bytes &bytes);
Bytes ripemd160(const Bytes &bytes);
Bytes hash160(const Bytes &bytes);
Id double_sha(const Bytes &bytes);

/* Lower-case hexadecimal, in the order of the bytes. */
std::string hex(const uint8_t *bytes, size_t length);
inline std::string hex(const Bytes &bytes) { return hex(bytes.data(), bytes.size()); }
inline std::string hex(const Id &id) { return hex(id.data(), id.size()); }

} // namespace reading

#endif
