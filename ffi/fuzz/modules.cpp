/* A target: modules in bitcoinfuzz's shape, beside one another, as that program runs them. One is the library's
 * (bitcoinfuzz/wakotehu.hpp), the other the reading's. Of each entry point all answers that there are have to be the same.
 * The shape is from knowledge of bitcoinfuzz's interface (bitcoinfuzz/basemodule.h). */
#include "grammar.hpp"
#include "library.hpp"

#include "bitcoinfuzz/wakotehu.hpp"

#include <algorithm>
#include <memory>

extern "C" int LLVMFuzzerTestOneInput(const uint8_t *bytes, size_t length);

namespace {

using fuzz::Bytes;
using fuzz::Source;

/* As programs print ids. */
std::string shown(reading::Id id) {
    std::reverse(id.begin(), id.end());
    return reading::hex(id);
}

class Reading : public bitcoinfuzz::BaseModule {
  public:
    Reading() : BaseModule("Reading") {}

    /* No signature is valid and no lock is met: the version is 1 and the input final. */
    std::optional<bool> script_eval(const Bytes &script, unsigned flags, size_t version) const override {
        if (version != 0 || (flags & ~0x605u) != 0)
            return std::nullopt;
        const reading::Tx tx = {1, {{{}, {}, 0xffffffff}}, {}, 0};
        const reading::Judge none = [](const Bytes &, const Bytes &, const reading::Id &) { return false; };
        reading::Stack stack;
        const reading::Flags forced = {(flags & 1) != 0, (flags & 4) != 0, (flags & 0x200) != 0, (flags & 0x400) != 0, false};
        return reading::run(script, stack, {tx, 0, forced, none}) == reading::Error::OK;
    }

    std::optional<std::string> deserialize_block(const Bytes &bytes) const override {
        reading::Block block;
        if (read_block(bytes, block) != reading::Fault::none)
            return std::nullopt;
        return shown(id_of(block.header)) + " " + std::to_string(block.txs.size());
    }

    std::optional<std::string> deserialize_transaction(const Bytes &bytes) const override {
        reading::Reader reader(bytes.data(), bytes.size());
        const reading::Tx tx = reader.tx();
        if (!reader.ok() || tx.inputs.empty())
            return std::nullopt;
        return shown(id_of(tx));
    }
};

std::string text(const std::optional<bool> &answer) { return !answer ? "none" : *answer ? "true" : "false"; }
std::string text(const std::optional<std::string> &answer) { return answer ? *answer : "none"; }

/* Asks each module the same, and compares each answer with the first. */
template <typename Ask> void compare_modules(const char *entry, const Bytes &bytes, const Ask &ask) {
    static const auto *const modules = new std::vector<std::unique_ptr<bitcoinfuzz::BaseModule>>([] {
        std::vector<std::unique_ptr<bitcoinfuzz::BaseModule>> found;
        found.push_back(std::make_unique<Wakotehu>());
        found.push_back(std::make_unique<Reading>());
        return found;
    }());
    const std::string first = text(ask(*modules->front()));
    for (const auto &module : *modules)
        fuzz::compare(entry, first, text(ask(*module)), [&] { return module->name + " on " + reading::hex(bytes); });
}

} // namespace

int LLVMFuzzerTestOneInput(const uint8_t *bytes, size_t length) {
    static const unsigned flags[] = {0x605, 0, 0x604, 0x601, 0x205, 0x405, 0x203, 0x40};
    Source source(bytes, length);
    const uint8_t mode = source.take();
    if (mode < 192) {
        const unsigned chosen = source.pick(flags);
        const size_t version = source.take() >= 250;
        const Bytes made = mode < 64 ? Bytes(bytes + std::min<size_t>(length, 3), bytes + length)
                                     : fuzz::script(source, {0, 0xffffffff});
        compare_modules("script_eval", made, [&](const auto &module) { return module.script_eval(made, chosen, version); });
        return 0;
    }
    const reading::Block block = fuzz::block(source, 1);
    Bytes made = mode % 2 || block.txs.empty() ? write(block) : write(block.txs.back());
    if (const uint8_t cut = source.take(); cut >= 192)
        made.resize(made.size() - std::min<size_t>(made.size(), cut - 191u));
    compare_modules("deserialize_block", made, [&](const auto &module) { return module.deserialize_block(made); });
    compare_modules("deserialize_transaction", made, [&](const auto &module) { return module.deserialize_transaction(made); });
    return 0;
}
