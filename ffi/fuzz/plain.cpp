/* Runs a target on random bytes, without libFuzzer: PROGRAM --cases=N [--seconds=N] [--seed=N] [--keep=FOLDER] [FOLDER]
 *
 * First come the files of the folder. Then three of four cases are random bytes, the others these files with some
 * bytes changed. A case that differs is written to the file crash-SEED-NUMBER in the folder that WAKOTEHU_CRASHES names. With
 * --keep a case that meets a case of the rules for the first time becomes a file of that folder. */
#include "reading/cases.hpp"

#include <algorithm>
#include <cstdint>
#include <cstdio>
#include <cstdlib>
#include <cstring>
#include <ctime>
#include <csignal>
#include <filesystem>
#include <fstream>
#include <iterator>
#include <string>
#include <vector>

extern "C" int LLVMFuzzerTestOneInput(const uint8_t *bytes, size_t length);

using Bytes = std::vector<uint8_t>;

static Bytes current;
static uint64_t seed = 1, number = 0;

/* xorshift64*, by Sebastiano Vigna */
static uint64_t state;
static uint64_t draw() {
    state ^= state >> 12, state ^= state << 25, state ^= state >> 27;
    return state * 2685821657736338717u;
}

static Bytes random_bytes() {
    Bytes made(8 + draw() % (draw() % 4 ? 40 : 160));
    for (uint8_t &byte : made)
        byte = uint8_t(draw() >> 32);
    return made;
}

static Bytes changed(Bytes bytes) {
    for (uint64_t changes = 1 + draw() % 4; changes > 0 && !bytes.empty(); changes--) {
        const size_t at = draw() % bytes.size();
        const auto place = bytes.begin() + std::ptrdiff_t(at);
        switch (draw() % 4) {
        case 0: bytes.erase(place); break;
        case 1: bytes.insert(place, uint8_t(draw() >> 32)); break;
        default: *place = uint8_t(draw() >> 32);
        }
    }
    return bytes;
}

static void write_file(const std::string &name, const Bytes &bytes) {
    std::ofstream(name, std::ios::binary).write(reinterpret_cast<const char *>(bytes.data()), std::streamsize(bytes.size()));
}

static void print_count() {
    std::fprintf(stderr, "ran %llu cases, seed %llu\n", static_cast<unsigned long long>(number),
                 static_cast<unsigned long long>(seed));
}

static void save_case(int) {
    const char *folder = std::getenv("WAKOTEHU_CRASHES");
    const std::string name = std::string(folder ? folder : ".") + "/crash-" + std::to_string(seed) + "-" + std::to_string(number);
    write_file(name, current);
    std::fprintf(stderr, "the case is in %s\n", name.c_str());
    print_count();
    std::_Exit(77);
}

static void run(const Bytes &bytes, const std::string &keep) {
    static uint64_t kept = 0;
    current = bytes;
    const uint64_t before = reading::first_met;
    LLVMFuzzerTestOneInput(current.data(), current.size());
    if (!keep.empty() && reading::first_met > before)
        write_file(keep + "/" + std::to_string(seed) + "-" + std::to_string(kept++), current);
}

static std::vector<Bytes> files(const char *folder) {
    std::vector<Bytes> found;
    for (const auto &entry : std::filesystem::directory_iterator(folder)) {
        std::ifstream file(entry.path(), std::ios::binary);
        found.emplace_back(std::istreambuf_iterator<char>(file), std::istreambuf_iterator<char>());
    }
    std::sort(found.begin(), found.end());
    return found;
}

int main(int count, char **words) {
    uint64_t cases = 1000000, seconds = UINT64_MAX;
    std::vector<Bytes> kept;
    std::string keep;
    for (int n = 1; n < count; n++)
        if (!std::strncmp(words[n], "--cases=", 8))
            cases = std::strtoull(words[n] + 8, nullptr, 10);
        else if (!std::strncmp(words[n], "--seconds=", 10))
            seconds = std::strtoull(words[n] + 10, nullptr, 10);
        else if (!std::strncmp(words[n], "--seed=", 7))
            seed = std::strtoull(words[n] + 7, nullptr, 10);
        else if (!std::strncmp(words[n], "--keep=", 7))
            keep = words[n] + 7;
        else
            kept = files(words[n]);
    state = seed * 0x9e3779b97f4a7c15u | 1;
    std::signal(SIGABRT, save_case), std::signal(SIGSEGV, save_case);
    for (const Bytes &bytes : kept)
        run(bytes, keep);
    const std::time_t begun = std::time(nullptr);
    for (; number < cases && (number % 256 || uint64_t(std::time(nullptr) - begun) < seconds); number++)
        run(kept.empty() || draw() % 4 ? random_bytes() : changed(kept[draw() % kept.size()]), keep);
    print_count();
    return 0;
}
