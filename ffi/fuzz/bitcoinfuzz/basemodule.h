/* The part of bitcoinfuzz's BaseModule (github.com/brunoerg/bitcoinfuzz) that our modules use, so that they can be built and
 * compared here: ffi/fuzz/modules.cpp. It was written from knowledge of that interface, not from its text. An answer of
 * none means that a module doesn't judge such an input. */
#ifndef WAKOTEHU_BITCOINFUZZ_BASEMODULE_H
#define WAKOTEHU_BITCOINFUZZ_BASEMODULE_H

#include <cstddef>
#include <cstdint>
#include <optional>
#include <string>
#include <utility>
#include <vector>

namespace bitcoinfuzz {

class BaseModule {
  public:
    const std::string name;
    explicit BaseModule(std::string name) : name(std::move(name)) {}
    virtual ~BaseModule() = default;

    virtual std::optional<bool> script_eval(const std::vector<uint8_t> &, unsigned, size_t) const { return std::nullopt; }
    virtual std::optional<std::string> deserialize_block(const std::vector<uint8_t> &) const { return std::nullopt; }
    virtual std::optional<std::string> deserialize_transaction(const std::vector<uint8_t> &) const { return std::nullopt; }
};

} // namespace bitcoinfuzz

#endif
