#include "library.hpp"

#include "reading/cases.hpp"

#include <algorithm>
#include <cstdlib>

/* libFuzzer's main never returns: what was met is printed at the process's exit. */
static const int at_exit = std::atexit(reading::print_cases);

namespace fuzz {

void compare(const char *call, const std::string &library, const std::string &reading, const Text &asked) {
    if (library == reading)
        return;
    std::fprintf(stderr, "difference of %s\nlibrary: %s\nreading: %s\nasked: %s\n", call, library.c_str(), reading.c_str(),
                 asked().c_str());
    reading::print_cases();
    std::abort();
}

void compare(const char *call, uint64_t library, uint64_t reading, const Text &asked) {
    if (library != reading)
        compare(call, std::to_string(library), std::to_string(reading), asked);
}

void compare(const char *call, const Bytes &library, const Bytes &reading, const Text &asked) {
    if (library != reading)
        compare(call, reading::hex(library), reading::hex(reading), asked);
}

void compare(const char *call, const uint8_t *library, const reading::Id &reading, const Text &asked) {
    if (!std::equal(reading.begin(), reading.end(), library))
        compare(call, reading::hex(library, reading.size()), reading::hex(reading), asked);
}

/* 0 none, 1 all, 2 by the marks of key and signature, 3 at random. */
bool is_valid(uint8_t policy, const Bytes &key, const Bytes &signature, const reading::Id &digest) {
    if ((policy & 3) < 2)
        return policy & 1;
    if ((policy & 3) == 2)
        return !key.empty() && !signature.empty() && key.back() == signature.back();
    uint32_t hash = 2166136261u;
    for (const uint8_t *at : {key.data(), signature.data(), digest.data()}) {
        const size_t length = at == key.data() ? key.size() : at == digest.data() ? digest.size() : signature.size();
        for (size_t n = 0; n < length; n++)
            hash = (hash ^ at[n]) * 16777619u;
    }
    return hash >> 16 & 1;
}

/* A table spells no byte as "-". */
static std::string digits(const Bytes &bytes) { return bytes.empty() ? "-" : reading::hex(bytes); }

reading::Judge keeping(uint8_t policy, std::vector<Asked> &asked) {
    return [policy, &asked](const Bytes &key, const Bytes &signature, const reading::Id &digest) {
        const std::string line = "\n" + digits(key) + " " + digits(signature) + " " + reading::hex(digest);
        const auto same = [&line](const Asked &other) { return other.line == line; };
        const auto known = std::find_if(asked.begin(), asked.end(), same);
        if (known != asked.end())
            return known->valid;
        asked.push_back({line, is_valid(policy, key, signature, digest)});
        return asked.back().valid;
    };
}

wakotehu_code by_need(const std::vector<Asked> &all, size_t told, const Call &call, const Text &question) {
    std::string tables[2];
    size_t known = 0;
    for (int asks = 0;; asks++) {
        for (; known < std::min(asks < 8 ? told : all.size(), all.size()); known++)
            tables[all[known].valid] += all[known].line;
        char line[1 << 15]; /* elements of a given stack may be longer than those that a script pushes */
        uint64_t length = 0;
        const wakotehu_code code = call(tables[true], tables[false], line, sizeof line, &length);
        if (code != WAKOTEHU_UNKNOWN)
            return code;
        compare("signature asked for", std::string(line, length), known < all.size() ? all[known].line : "none", question);
        told = known + 1;
    }
}

uint32_t bits_of(const reading::Flags &flags) {
    return (flags.p2sh ? WAKOTEHU_VERIFY_P2SH : 0u) | (flags.dersig ? WAKOTEHU_VERIFY_DERSIG : 0u) |
           (flags.nulldummy ? WAKOTEHU_VERIFY_NULLDUMMY : 0u) |
           (flags.cltv ? WAKOTEHU_VERIFY_CHECKLOCKTIMEVERIFY : 0u) | (flags.csv ? WAKOTEHU_VERIFY_CHECKSEQUENCEVERIFY : 0u);
}

} // namespace fuzz
