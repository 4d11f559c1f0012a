/* A target: scripts. wakotehu_eval_script runs one script on a stack; wakotehu_verify_script and
 * wakotehu_tx_verify_input judge an input. Each answer, and each signature that is asked for, is compared with the
 * reading's. */
#include "grammar.hpp"
#include "library.hpp"

#include "reading/cases.hpp"

extern "C" int LLVMFuzzerTestOneInput(const uint8_t *bytes, size_t length);

using namespace fuzz;
using reading::Error;

namespace {

/* What is asked: the input of a transaction, the rules in force, and which signatures are valid. */
struct Question {
    reading::Tx tx;
    Bytes bytes;
    uint64_t input;
    reading::Flags flags;
    uint8_t policy;
    size_t told;
};

const uint8_t *data(const Bytes &bytes) { return bytes.empty() ? nullptr : bytes.data(); }

std::string shown(const reading::Stack &stack) {
    std::string text;
    for (const Bytes &element : stack)
        text += " [" + reading::hex(element) + "]";
    return text;
}

std::string shown(const Question &question) {
    return "transaction " + reading::hex(question.bytes) + " input " + std::to_string(question.input) + " flags " +
           std::to_string(bits_of(question.flags)) + " policy " + std::to_string(question.policy & 3);
}

std::string shown(Error error) { return reading::outcome_name(uint32_t(error)); }

/* The names are the library's words for the numbers. */
void compare_errors(const char *call, uint32_t library, Error reading, const Text &text) {
    if (library != uint32_t(reading))
        compare(call, wakotehu_script_error_name(library), shown(reading), text);
}

/* What a script leaves on a stack. */
void compare_eval(const Question &question, const Bytes &script, const reading::Stack &before) {
    static uint64_t left_sizes[4096];
    static uint8_t left[1 << 23];
    std::vector<Asked> asked;
    const reading::Judge judge = keeping(question.policy, asked);
    reading::Stack stack = before;
    const Error error = reading::run(script, stack, {question.tx, question.input, question.flags, judge});
    std::vector<uint64_t> sizes;
    Bytes elements;
    for (const Bytes &element : before) {
        sizes.push_back(element.size());
        elements.insert(elements.end(), element.begin(), element.end());
    }
    wakotehu_evaluated found = {};
    const auto call = [&](const std::string &valid, const std::string &invalid, char *line, size_t room, uint64_t *needed) {
        return wakotehu_eval_script(question.bytes.data(), question.bytes.size(), question.input, data(script), script.size(),
                                    bits_of(question.flags), sizes.data(), sizes.size(), data(elements), elements.size(),
                                    valid.data(), valid.size(), invalid.data(), invalid.size(), nullptr, &found, left_sizes,
                                    4096, left, sizeof left, line, room, needed);
    };
    const Text text = [&] { return shown(question) + " script " + reading::hex(script) + " on" + shown(before); };
    compare("wakotehu_eval_script's code", by_need(asked, question.told, call, text), WAKOTEHU_OK, text);
    compare_errors("wakotehu_eval_script", found.error, error, text);
    reading::Stack after;
    size_t at = 0;
    for (uint64_t n = 0; n < found.elements; at += left_sizes[n++])
        after.emplace_back(left + at, left + at + left_sizes[n]);
    if (error == Error::OK ? after != stack : !after.empty())
        compare("wakotehu_eval_script's stack", shown(after), shown(stack), text);
}

/* Whether the input may spend a script. */
void compare_verify(const Question &question, const Bytes &spent) {
    std::vector<Asked> asked;
    const reading::Judge judge = keeping(question.policy, asked);
    const Error error = reading::verify(spent, {question.tx, question.input, question.flags, judge});
    uint32_t found = 99;
    const auto call = [&](const std::string &valid, const std::string &invalid, char *line, size_t room, uint64_t *needed) {
        return wakotehu_verify_script(question.bytes.data(), question.bytes.size(), question.input, data(spent), spent.size(),
                                      bits_of(question.flags), valid.data(), valid.size(), invalid.data(), invalid.size(),
                                      nullptr, &found, line, room, needed);
    };
    const Text text = [&] { return shown(question) + " spent " + reading::hex(spent); };
    compare("wakotehu_verify_script's code", by_need(asked, question.told, call, text), WAKOTEHU_OK, text);
    compare_errors("wakotehu_verify_script", found, error, text);
    if (question.policy & 64)
        return;
    wakotehu_tx tx;
    found = 99;
    compare("wakotehu_tx_read", wakotehu_tx_read(question.bytes.data(), question.bytes.size(), nullptr, &tx), WAKOTEHU_OK, text);
    const auto again = [&](const std::string &valid, const std::string &invalid, char *line, size_t room, uint64_t *needed) {
        return wakotehu_tx_verify_input(tx, question.input, data(spent), spent.size(), bits_of(question.flags), valid.data(),
                                        valid.size(), invalid.data(), invalid.size(), nullptr, &found, line, room, needed);
    };
    compare("wakotehu_tx_verify_input's code", by_need(asked, question.told, again, text), WAKOTEHU_OK, text);
    compare_errors("wakotehu_tx_verify_input", found, error, text);
    wakotehu_tx_free(tx);
}

Question question_of(Source &source) {
    Question question;
    const uint8_t flags = source.take();
    question.policy = source.take();
    question.tx = transaction(source);
    question.input = source.take() % question.tx.inputs.size();
    question.flags = {(flags & 1) == 0, (flags & 2) == 0, (flags & 4) == 0, (flags & 8) == 0, (flags & 32) != 0};
    question.told = flags & 16 ? 0 : 1000;
    return question;
}

/* The scripts of an input and of what it spends, or of that and a script hash's inner script. */
void judge_input(Question &question, Source &source, const Locks &locks, bool is_hash) {
    Bytes own = script(source, locks), spent = script(source, locks);
    if (is_hash) {
        const Bytes push = reading::push_of(spent), hash = reading::hash160(spent);
        own.insert(own.end(), push.begin(), push.end());
        spent = {reading::OP_HASH160, 20};
        spent.insert(spent.end(), hash.begin(), hash.end());
        spent.push_back(reading::OP_EQUAL);
    }
    question.tx.inputs[question.input].script = own;
    question.bytes = reading::write(question.tx);
    compare_verify(question, spent);
}

} // namespace

int LLVMFuzzerTestOneInput(const uint8_t *bytes, size_t length) {
    Source source(bytes, length);
    const uint8_t mode = source.take();
    Question question = question_of(source);
    const reading::Input &input = question.tx.inputs[question.input];
    const Locks locks = {question.tx.lock_time, input.sequence};
    if (mode >= 96) {
        judge_input(question, source, locks, mode >= 192);
        return 0;
    }
    reading::Stack stack;
    for (uint8_t n = 0; n < mode % 8; n++)
        stack.push_back(element(source));
    if (mode >= 92)
        stack.resize(996u + source.take() % 8, Bytes(1, 1));
    question.bytes = reading::write(question.tx);
    compare_eval(question, script(source, locks), stack);
    return 0;
}
