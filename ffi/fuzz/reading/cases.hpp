/* The cases of the rules, and how often each was met. MET("..") at a branch of the reading names a case; it is counted
 * each time. Opcodes and names of failures have a table of their own (cases.cpp). */
#ifndef READING_CASES_HPP
#define READING_CASES_HPP

#include <cstdint>
#include <cstdio>

namespace reading {

struct Case {
    const char *name;
    uint64_t met;
};

/* How many cases were met so far. */
extern uint64_t first_met;

/* The linker puts the addresses of all cases into one section, so that those that were never met are known too. */
#define MET(text)                                                                                                      \
    do {                                                                                                               \
        static ::reading::Case here = {text, 0};                                                                       \
        static ::reading::Case *const listed __attribute__((section("reading_cases"), used)) = &here;                  \
        ::reading::first_met += here.met++ == 0;                                                                       \
        (void)listed;                                                                                                  \
    } while (0)

/* What an opcode comes to: it goes on (0), fails by a number of Bitcoin Core's, or is in a branch that isn't taken. */
constexpr uint32_t SKIPPED = 28, OUTCOMES = 29;
const char *outcome_name(uint32_t outcome);

/* Each pair that the table of opcodes allows is a case. */
void met_opcode(uint8_t number, uint32_t outcome);

/* Prints "met N of M cases", with those that weren't, and writes a line "COUNT<tab>NAME" for each to the file that
 * WAKOTEHU_CASES names. */
void print_cases();

/* Wrong rules, to test that the targets find them: with -DPLANTS this is true of the number in WAKOTEHU_PLANT. */
#ifdef PLANTS
bool planted(int number);
#else
constexpr bool planted(int) { return false; }
#endif

} // namespace reading

#endif
