/* The module in bitcoinfuzz's shape, by itself. Prints nothing where all is well. */
#include "../fuzz/bitcoinfuzz/wakotehu.hpp"

#include <cstdio>

extern "C" {
#include "../examples/blocks.h"
}

#define EXPECT(holds)                                                                                                  \
    do {                                                                                                               \
        if (!(holds)) {                                                                                                \
            std::fprintf(stderr, "%s:%d: %s\n", __FILE__, __LINE__, #holds);                                           \
            return 1;                                                                                                  \
        }                                                                                                              \
    } while (0)

using Bytes = std::vector<uint8_t>;

static Bytes times(size_t count, const Bytes &part, const Bytes &behind = {}) {
    Bytes made;
    for (size_t n = 0; n < count; n++)
        made.insert(made.end(), part.begin(), part.end());
    made.insert(made.end(), behind.begin(), behind.end());
    return made;
}

int main() {
    Wakotehu module;
    constexpr unsigned all = 1u << 0 | 1u << 2 | 1u << 9 | 1u << 10;
    /* Bitcoin Core's limits: 1,000 elements with those of the other stack, 201 opcodes above OP_16, 10,000 bytes. */
    Bytes full = times(1000, {0x51}), push = times(520, {0x61});
    push.insert(push.begin(), {0x4d, 0x08, 0x02});
    EXPECT(module.script_eval(times(999, {0x51}), all, 0) == true);
    EXPECT(module.script_eval(full, all, 0) == true);
    EXPECT(module.script_eval(times(1000, {0x00}), all, 0) == true);
    EXPECT(module.script_eval(times(1001, {0x51}), all, 0) == false);
    EXPECT(module.script_eval(times(1, full, times(201, {0x61})), all, 0) == true);
    EXPECT(module.script_eval(times(1, full, times(202, {0x61})), all, 0) == false);
    EXPECT(module.script_eval(times(1, full, times(201, {0x6b})), all, 0) == true);
    EXPECT(module.script_eval(times(1, full, {0x6b, 0x51}), all, 0) == false);
    EXPECT(module.script_eval({0x51, 0x6b}, all, 0) == true);
    EXPECT(module.script_eval({0x6c}, all, 0) == false);
    EXPECT(module.script_eval(times(19, push, times(63, {0x61})), all, 0) == true);
    EXPECT(module.script_eval(times(19, push, times(64, {0x61})), all, 0) == false);
    EXPECT(module.script_eval(times(252, {0x51}), all, 0) == true);
    EXPECT(module.script_eval(times(253, {0x51}), all, 0) == true);
    /* Nothing; a false element; an addition; an open condition; OP_RETURN; a push that is cut short; a signature. */
    EXPECT(module.script_eval({}, all, 0) == true);
    EXPECT(module.script_eval({0x00}, all, 0) == true);
    EXPECT(module.script_eval({0x51, 0x52, 0x93}, all, 0) == true);
    EXPECT(module.script_eval({0x51, 0x63}, all, 0) == false);
    EXPECT(module.script_eval({0x6a}, all, 0) == false);
    EXPECT(module.script_eval({0x01}, all, 0) == false);
    EXPECT(module.script_eval({0x00, 0x00, 0xad}, 0, 0) == false);
    /* A lock of BIP 65, and the same where that isn't a rule; a flag of policy; another version. */
    EXPECT(module.script_eval({0x51, 0xb1}, all, 0) == false);
    EXPECT(module.script_eval({0x51, 0xb1}, 1u << 0, 0) == true);
    EXPECT(!module.script_eval({0x51}, 1u << 6, 0));
    EXPECT(!module.script_eval({0x51}, all, 1));
    const std::vector<uint8_t> block(b1, b1 + sizeof b1), coinbase(b1 + 81, b1 + sizeof b1);
    EXPECT(module.deserialize_block(block) && module.deserialize_block(block)->substr(64) == " 1");
    EXPECT(!module.deserialize_block(coinbase));
    EXPECT(module.deserialize_transaction(coinbase) && module.deserialize_transaction(coinbase)->size() == 64);
    EXPECT(!module.deserialize_transaction({1, 0, 0, 0, 0}));
    return 0;
}
