#include "cases.hpp"

#include "run.hpp"

#include <algorithm>
#include <cstdlib>
#include <cstring>
#include <string>
#include <vector>

/* The section's ends, which the linker knows. */
extern "C" reading::Case *const __start_reading_cases[], *const __stop_reading_cases[];

/* What libFuzzer counts as new besides branches: an opcode with its outcome. */
__attribute__((section("__libfuzzer_extra_counters"))) static uint8_t seen[256][reading::OUTCOMES];

namespace reading {

static const char *const OUTCOME_NAMES[OUTCOMES] = {
    "goes on", "UNKNOWN_ERROR", "EVAL_FALSE", "OP_RETURN", "SCRIPT_SIZE", "PUSH_SIZE", "OP_COUNT", "STACK_SIZE",
    "SIG_COUNT", "PUBKEY_COUNT", "VERIFY", "EQUALVERIFY", "CHECKMULTISIGVERIFY", "CHECKSIGVERIFY", "NUMEQUALVERIFY",
    "BAD_OPCODE", "DISABLED_OPCODE", "INVALID_STACK_OPERATION", "INVALID_ALTSTACK_OPERATION", "UNBALANCED_CONDITIONAL",
    "NEGATIVE_LOCKTIME", "UNSATISFIED_LOCKTIME", "?", "SIG_DER", "?", "SIG_PUSHONLY", "?",
    "SIG_NULLDUMMY", "is skipped",
};

uint64_t first_met = 0;

static uint64_t outcomes[256][OUTCOMES];

const char *outcome_name(uint32_t outcome) { return OUTCOME_NAMES[outcome]; }

/* The table of opcodes: which outcomes each one can have, apart from the limits on a run. A row names how it fails, up to a
 * 0. Of numbers without a row none fails. */
struct Outcomes {
    uint8_t first, last;
    uint32_t failures[8];
};

constexpr uint32_t NUMBER = 1, RETURNS = 3, BAD = 15, DISABLED = 16, STACK = 17, ALTERNATIVE = 18, CONDITION = 19;
constexpr uint32_t SIG_COUNT = 8, PUBKEY_COUNT = 9, SIG_DER = 23, NULL_DUMMY = 27, NEGATIVE = 20, UNSATISFIED = 21;

static const Outcomes ROWS[] = {
    {0x50, 0x50, {BAD}},
    {0x62, 0x62, {BAD}},
    {0x63, 0x64, {CONDITION}},
    {0x65, 0x66, {BAD}},
    {0x67, 0x68, {CONDITION}},
    {0x69, 0x69, {STACK, 10}},
    {0x6a, 0x6a, {RETURNS}},
    {0x6b, 0x6b, {STACK}},
    {0x6c, 0x6c, {ALTERNATIVE}},
    {0x6d, 0x73, {STACK}},
    {0x75, 0x78, {STACK}},
    {0x79, 0x7a, {STACK, NUMBER}},
    {0x7b, 0x7d, {STACK}},
    {0x7e, 0x81, {DISABLED}},
    {0x82, 0x82, {STACK}},
    {0x83, 0x86, {DISABLED}},
    {0x87, 0x87, {STACK}},
    {0x88, 0x88, {STACK, 11}},
    {0x89, 0x8a, {BAD}},
    {0x8b, 0x8c, {STACK, NUMBER}},
    {0x8d, 0x8e, {DISABLED}},
    {0x8f, 0x94, {STACK, NUMBER}},
    {0x95, 0x99, {DISABLED}},
    {0x9a, 0x9c, {STACK, NUMBER}},
    {0x9d, 0x9d, {STACK, NUMBER, 14}},
    {0x9e, 0xa5, {STACK, NUMBER}},
    {0xa6, 0xaa, {STACK}},
    {0xac, 0xac, {STACK, SIG_DER}},
    {0xad, 0xad, {STACK, SIG_DER, 13}},
    {0xae, 0xae, {STACK, NUMBER, SIG_COUNT, PUBKEY_COUNT, SIG_DER, NULL_DUMMY}},
    {0xaf, 0xaf, {STACK, NUMBER, SIG_COUNT, PUBKEY_COUNT, SIG_DER, NULL_DUMMY, 12}},
    {0xb1, 0xb2, {STACK, NUMBER, NEGATIVE, UNSATISFIED}},
    {0xba, 0xff, {BAD}},
};

static const Outcomes *row_of(uint32_t number) {
    for (const Outcomes &row : ROWS)
        if (number >= row.first && number <= row.last)
            return &row;
    return nullptr;
}

/* The pairs of the table. Disabled opcodes, VERIF and VERNOTIF fail wherever they are. */
static bool is_case(uint32_t number, uint32_t outcome) {
    const Outcomes *row = row_of(number);
    const uint32_t first = row ? row->failures[0] : 0;
    const bool fails_anywhere = first == DISABLED || number == 0x65 || number == 0x66;
    if (outcome == SKIPPED)
        return !fails_anywhere;
    if (outcome == 0)
        return first != BAD && first != RETURNS && !fails_anywhere;
    return row && std::count(row->failures, row->failures + 8, outcome) > 0;
}

static void met_limit(uint32_t error) {
    if (error == 5)
        MET("limit: a push of more than 520 bytes");
    else if (error == 6)
        MET("limit: more than 201 opcodes");
    else if (error == 7)
        MET("limit: more than 1,000 elements");
    else {
        std::fprintf(stderr, "the reading contradicts its table of opcodes\n");
        std::abort();
    }
}

void met_opcode(uint8_t number, uint32_t outcome) {
    seen[number][outcome] = 1;
    first_met += outcomes[number][outcome]++ == 0;
    if (outcome != 0 && outcome != SKIPPED && !is_case(number, outcome))
        met_limit(outcome);
}

/* All cases, with how often each was met. The same text at two places is one case. */
static std::vector<Case> all_cases(std::vector<std::string> &names) {
    std::vector<Case> found;
    for (Case *const *at = __start_reading_cases; at < __stop_reading_cases; at++) {
        const auto same = [at](const Case &other) { return !std::strcmp(other.name, (*at)->name); };
        const auto twin = std::find_if(found.begin(), found.end(), same);
        if (twin == found.end())
            found.push_back(**at);
        else
            twin->met += (*at)->met;
    }
    names.reserve(256 * OUTCOMES);
    for (uint32_t number = 0; number < 256; number++)
        for (uint32_t outcome = 0; outcome < OUTCOMES; outcome++)
            if (is_case(number, outcome)) {
                const uint8_t byte = uint8_t(number);
                names.push_back("opcode " + hex(&byte, 1) + ": " + OUTCOME_NAMES[outcome]);
                found.push_back({names.back().c_str(), outcomes[number][outcome]});
            }
    return found;
}

void print_cases() {
    std::vector<std::string> names;
    const std::vector<Case> all = all_cases(names);
    const char *path = std::getenv("WAKOTEHU_CASES");
    std::FILE *file = path ? std::fopen(path, "w") : nullptr;
    std::string lacks;
    size_t met = 0, shown = 0;
    for (const Case &one : all) {
        met += one.met > 0;
        if (!one.met && ++shown <= 20)
            lacks += std::string(lacks.empty() ? "; not met: " : ", ") + one.name;
        if (file)
            std::fprintf(file, "%llu\t%s\n", static_cast<unsigned long long>(one.met), one.name);
    }
    if (shown > 20)
        lacks += " and " + std::to_string(shown - 20) + " more";
    std::fprintf(stderr, "met %zu of %zu cases%s\n", met, all.size(), lacks.c_str());
    if (file)
        std::fclose(file);
}

#ifdef PLANTS
bool planted(int number) {
    static const char *const text = std::getenv("WAKOTEHU_PLANT");
    static const int chosen = text ? std::atoi(text) : 0;
    return number == chosen;
}
#endif

} // namespace reading
