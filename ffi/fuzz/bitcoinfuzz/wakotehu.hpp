/* A module in the shape that bitcoinfuzz asks of one (github.com/brunoerg/bitcoinfuzz): a class over its BaseModule, each
 * of whose entry points gives an answer that is compared with those of the other modules, or none.
 *
 * It was written by knowledge of that interface, and wasn't tried there: names and types of the entry points may have to
 * follow the version that is used. ffi/check compiles it by itself, without a BaseModule, and makes some calls
 * (ffi/tests/module.cpp), and compares it with another module over the BaseModule of this folder (ffi/fuzz/modules.cpp).
 *
 * What each gives:
 *   script_eval             whether a script by itself ends well on an empty stack, without a signature that is valid
 *                           (Bitcoin Core's EvalScript with a BaseSignatureChecker)
 *   deserialize_block       the block's id, and the number of its transactions
 *   deserialize_transaction the transaction's id
 * None is an answer of "not by these rules": bytes or flags of segregated witness, of taproot, or of policy. */
#ifndef WAKOTEHU_BITCOINFUZZ_HPP
#define WAKOTEHU_BITCOINFUZZ_HPP

#include <wakotehu.h>

#include <cstdint>
#include <optional>
#include <string>
#include <vector>

#if __has_include(<bitcoinfuzz/basemodule.h>)
#include <bitcoinfuzz/basemodule.h>
#define WAKOTEHU_BASE : public bitcoinfuzz::BaseModule
#define WAKOTEHU_NAMED : BaseModule("Wakotehu")
#else
#define WAKOTEHU_BASE
#define WAKOTEHU_NAMED
#endif

class Wakotehu WAKOTEHU_BASE {
  public:
    Wakotehu() WAKOTEHU_NAMED {}

    /* Bitcoin Core's numbers of the flags that are rules here: P2SH (which says nothing of a script alone), DERSIG, CLTV
     * and CSV. With another flag, or another version of signatures than the first, there is no answer. */
    std::optional<bool> script_eval(const std::vector<uint8_t> &script, unsigned flags, size_t version) const {
        constexpr unsigned p2sh = 1u << 0, dersig = 1u << 2, cltv = 1u << 9, csv = 1u << 10;
        if (version != 0 || (flags & ~(p2sh | dersig | cltv | csv)) != 0)
            return std::nullopt;
        if (script.size() > 10000)
            return false;
        wakotehu_flags forced = {(flags & dersig) != 0, (flags & cltv) != 0, (flags & csv) != 0};
        /* verify wants a true element on top in the end, and EvalScript doesn't. So the script is the input's, and the one
         * that it spends goes on with what it left: it puts a true element there, or in the place of the top one, since
         * at most 1,000 may be there, and none need be. */
        const std::vector<uint8_t> spends = spender(script);
        for (const std::vector<uint8_t> &spent : {std::vector<uint8_t>{0x51}, std::vector<uint8_t>{0x75, 0x51}}) {
            uint32_t accepted = 0;
            if (wakotehu_verify(spends.data(), spends.size(), 0, spent.data(), spent.size(), &forced, nullptr, 0, nullptr,
                                &accepted) != WAKOTEHU_OK)
                return std::nullopt;
            if (accepted)
                return true;
        }
        return false;
    }

    std::optional<std::string> deserialize_block(const std::vector<uint8_t> &bytes) const {
        wakotehu_block_shown block;
        if (wakotehu_read_block(bytes.data(), bytes.size(), &block) != WAKOTEHU_OK)
            return std::nullopt;
        return shown(block.id) + " " + std::to_string(block.transactions);
    }

    /* A count of 0 inputs is read as such here, and as the mark of segregated witness elsewhere. */
    std::optional<std::string> deserialize_transaction(const std::vector<uint8_t> &bytes) const {
        wakotehu_transaction transaction;
        if (wakotehu_read_transaction(bytes.data(), bytes.size(), &transaction) != WAKOTEHU_OK || !transaction.inputs)
            return std::nullopt;
        return shown(transaction.id);
    }

  private:
    /* A transaction whose one input has this script, of at most 65,535 bytes. Its version is 1, and its input is final: no
     * lock of BIP 65 or 112 is met, as by a BaseSignatureChecker. */
    static std::vector<uint8_t> spender(const std::vector<uint8_t> &script) {
        std::vector<uint8_t> made{1, 0, 0, 0, 1};
        made.insert(made.end(), 32, 7);
        made.insert(made.end(), 4, 0);
        if (script.size() < 253)
            made.push_back(static_cast<uint8_t>(script.size()));
        else
            made.insert(made.end(), {253, static_cast<uint8_t>(script.size()), static_cast<uint8_t>(script.size() >> 8)});
        made.insert(made.end(), script.begin(), script.end());
        made.insert(made.end(), 4, 255);
        made.insert(made.end(), {1, 1, 0, 0, 0, 0, 0, 0, 0, 0});
        made.insert(made.end(), 4, 0);
        return made;
    }

    static std::string shown(const uint8_t *id) {
        char digits[64];
        wakotehu_show_id(id, digits);
        return std::string(digits, sizeof digits);
    }
};

#endif
