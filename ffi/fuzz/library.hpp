/* What the targets share: a difference ends the process, and signatures are handed to the library as it asks for them. */
#ifndef FUZZ_LIBRARY_HPP
#define FUZZ_LIBRARY_HPP

#include "reading/run.hpp"

#include <wakotehu.h>

#include <functional>

namespace fuzz {

using reading::Bytes;

/* What was asked, as a text. It is made where answers differ alone. */
using Text = std::function<std::string()>;

/* Compares two answers. Where they differ, prints both, what was asked and the cases met, and aborts. */
void compare(const char *call, const std::string &library, const std::string &reading, const Text &asked);
void compare(const char *call, uint64_t library, uint64_t reading, const Text &asked);
void compare(const char *call, const Bytes &library, const Bytes &reading, const Text &asked);
void compare(const char *call, const uint8_t *library, const reading::Id &reading, const Text &asked);

/* A rule of the harness itself for which signatures are valid: by a number from 0 to 3. */
bool is_valid(uint8_t policy, const Bytes &key, const Bytes &signature, const reading::Id &digest);

/* A signature that the reading asked for: its line of a table, and whether it is valid. */
struct Asked {
    std::string line;
    bool valid;
};

/* A judge by a policy that keeps what it was asked, each once, in order. */
reading::Judge keeping(uint8_t policy, std::vector<Asked> &asked);

/* A call of the library with what is known: both tables, and room for the line that it asks for. */
using Call = std::function<wakotehu_code(const std::string &valid, const std::string &invalid, char *asked, size_t room,
                                         uint64_t *needed)>;

/* Makes a call until nothing is unknown. The first `told` signatures are known from the start. The library has to ask for
 * the others in the reading's order. */
wakotehu_code by_need(const std::vector<Asked> &all, size_t told, const Call &call, const Text &question);

uint32_t bits_of(const reading::Flags &flags);

} // namespace fuzz

#endif
