/* A target: a chainstate. Blocks are made over mined ones, with coins of many scripts, and submitted, marked and submitted
 * again. After each command the reply and the active block are compared with the reading's, at the end tips and coins. Of
 * some cases the last block is connected once more, to coins that are given. */
#include "grammar.hpp"
#include "library.hpp"

#include "reading/chain.hpp"

#include <algorithm>

extern "C" int LLVMFuzzerTestOneInput(const uint8_t *bytes, size_t length);

using namespace fuzz;
using reading::Block;
using reading::Chain;
using reading::Coins;
using reading::Id;
using reading::Input;
using reading::Tx;
using reading::hex;

namespace {

constexpr uint32_t GENESIS_TIME = 1296688602, SPACING = 300;

/* Regtest's genesis block, as RULES.md names it by its id. */
Bytes genesis() {
    const std::string words = "The Times 03/Jan/2009 Chancellor on brink of second bailout for banks";
    Bytes own = {4, 0xff, 0xff, 0, 0x1d, 1, 4, uint8_t(words.size())};
    own.insert(own.end(), words.begin(), words.end());
    Bytes paid = {0x41};
    const std::string key = "04678afdb0fe5548271967f1a67130b7105cd6a828e03909a67962e0ea1f61deb6"
                            "49f6bc3f4cef38c4f35504e51ec112de5c384df7ba0b8d578a4c702b6bf11d5f";
    for (size_t n = 0; n < key.size(); n += 2)
        paid.push_back(uint8_t(std::stoul(key.substr(n, 2), nullptr, 16)));
    paid.push_back(reading::OP_CHECKSIG);
    const Tx tx = {1, {{{Id{}, 0xffffffff}, own, 0xffffffff}}, {{50 * reading::COIN, paid}}, 0};
    return write(Block{{1, Id{}, id_of(tx), GENESIS_TIME, reading::REGTEST_BITS, 2}, {tx}});
}

/* ---- Both chainstates */

struct Pair {
    wakotehu_handle library;
    Chain reading;
    uint8_t policy;
    std::vector<Bytes> made;
    std::string story;
};

Text told(const Pair &pair) {
    return [&pair] { return pair.story; };
}

Bytes of_digits(const std::string &digits) {
    Bytes bytes;
    for (size_t n = 0; n + 1 < digits.size(); n += 2)
        bytes.push_back(uint8_t(std::stoul(digits.substr(n, 2), nullptr, 16)));
    return bytes;
}

/* A handle that asks for signatures: of a chainstate, or of a set of coins. */
struct Door {
    uint64_t handle;
    wakotehu_code (*wants)(uint64_t, wakotehu_want_call, void *);
    wakotehu_code (*learn)(uint64_t, const uint8_t *, size_t, const uint8_t *, size_t, const uint8_t *, int);
};

/* Finds out whether a signature of a table's line is valid, and hands that in. The line begins with a newline. */
void learn(const Pair &pair, const Door &door, const std::string &table) {
    const std::string line = table.substr(1);
    const size_t first = line.find(' '), second = line.find(' ', first + 1);
    const Bytes key = of_digits(line.substr(0, first)), digits = of_digits(line.substr(second + 1));
    const Bytes signature = of_digits(line.substr(first + 1, second - first - 1));
    Id digest{};
    compare("a signature's line", table[0] == '\n' && digits.size() == digest.size(), true, told(pair));
    std::copy(digits.begin(), digits.end(), digest.begin());
    const bool valid = is_valid(pair.policy, key, signature, digest);
    compare("wakotehu_learn",
            door.learn(door.handle, key.data(), key.size(), signature.data(), signature.size(), digest.data(), valid),
            WAKOTEHU_OK, told(pair));
}

/* Makes a call again until no signature is unknown. */
wakotehu_code until_known(const Pair &pair, const Door &door, const std::function<wakotehu_code()> &call) {
    wakotehu_code code;
    while ((code = call()) == WAKOTEHU_WANTS) {
        std::vector<std::string> lines;
        const auto keep = [](void *context, const char *line, size_t length) {
            static_cast<std::vector<std::string> *>(context)->emplace_back(line, length);
            return 0;
        };
        compare("the wants", door.wants(door.handle, keep, &lines), WAKOTEHU_OK, told(pair));
        compare("signatures are wanted", !lines.empty(), true, told(pair));
        for (const std::string &line : lines)
            learn(pair, door, line);
    }
    return code;
}

using Command = std::function<wakotehu_code(wakotehu_answer *)>;

wakotehu_answer answered(const Pair &pair, const Command &command) {
    const Door door = {pair.library, wakotehu_wants, wakotehu_learn};
    wakotehu_answer answer = {};
    const wakotehu_code code = until_known(pair, door, [&] { return command(&answer); });
    compare("the command's code", code, WAKOTEHU_OK, told(pair));
    return answer;
}

std::string shown(const std::string &word, const std::string &reason, uint64_t tx, uint64_t input) {
    return word + " " + reason + " " + std::to_string(tx) + ":" + std::to_string(input);
}

void compare_reply(Pair &pair, const wakotehu_answer &answer, const reading::Reply &reply) {
    const std::string own = shown(reply.word, reply.refusal.reason, reply.refusal.tx, reply.refusal.input);
    const char *word = wakotehu_reply_text(answer.reply), *reason = wakotehu_reason_text(answer.reason);
    pair.story += "\n  -> " + own;
    compare("the reply", shown(word, reason, answer.transaction, answer.input), own, told(pair));
}

void compare_best(Pair &pair) {
    Id id{};
    uint64_t height = 0;
    const Chain::Kept &best = pair.reading.kept[pair.reading.active()];
    wakotehu_best(pair.library, id.data()), wakotehu_height(pair.library, &height);
    compare("the active block", id.data(), best.id, told(pair));
    compare("the height", height, best.height, told(pair));
}

void submit(Pair &pair, const Bytes &bytes, uint64_t now, bool judged_first) {
    if (bytes.size() < 5000)
        pair.story += "\nsubmit " + hex(bytes) + " at " + std::to_string(now);
    else
        pair.story += "\nsubmit " + std::to_string(bytes.size()) + " bytes";
    const auto call = judged_first ? wakotehu_judge : wakotehu_submit;
    const Command command = [&](wakotehu_answer *answer) { return call(pair.library, bytes.data(), bytes.size(), now, answer); };
    if (!judged_first)
        return compare_reply(pair, answered(pair, command), pair.reading.submit(bytes, now));
    Chain copy = pair.reading;
    compare_reply(pair, answered(pair, command), copy.submit(bytes, now));
    compare_best(pair);
    submit(pair, bytes, now, false);
}

using Mark = wakotehu_code (*)(wakotehu_handle, const uint8_t *, wakotehu_answer *);

void mark(Pair &pair, Mark call, reading::Reply (Chain::*own)(const Id &), const char *word, const Id &id) {
    pair.story += std::string("\n") + word + " " + hex(id);
    const Command command = [&](wakotehu_answer *answer) { return call(pair.library, id.data(), answer); };
    compare_reply(pair, answered(pair, command), (pair.reading.*own)(id));
}

/* ---- Tips and coins */

/* The active block and the blocks without a child, by height downwards, then by arrival. */
std::vector<size_t> tips(Chain &chain) {
    std::vector<bool> has_child(chain.kept.size());
    for (size_t n = 1; n < chain.kept.size(); n++)
        has_child[chain.kept[n].parent] = true;
    std::vector<size_t> found;
    const size_t active = chain.active();
    for (size_t n = 0; n < chain.kept.size(); n++)
        if (!has_child[n] || n == active)
            found.push_back(n);
    const auto higher = [&](size_t one, size_t other) { return chain.kept[one].height > chain.kept[other].height; };
    std::stable_sort(found.begin(), found.end(), higher);
    return found;
}

void compare_tips(Pair &pair) {
    static const char *const words[] = {"", "active", "invalid", "valid-fork", "valid-headers"};
    std::string library, own;
    wakotehu_tip tip;
    for (size_t n = 0; wakotehu_tip_at(pair.library, n, &tip) == WAKOTEHU_OK; n++)
        library += hex(tip.id, 32) + " " + std::to_string(tip.height) + " " + words[tip.status] + "\n";
    for (const size_t n : tips(pair.reading)) {
        const Chain::Kept &block = pair.reading.kept[n];
        own += hex(block.id) + " " + std::to_string(block.height) + " " + pair.reading.status(n) + "\n";
    }
    compare("tips", library, own, told(pair));
}

using Walk = wakotehu_code (*)(uint64_t, wakotehu_coin_call, void *);

/* Where a walk over the library's coins stands in the reading's. */
struct Walked {
    const Pair &pair;
    Coins::const_iterator next, end;
};

std::string shown_coin(const Walked &walked) {
    if (walked.next == walked.end)
        return "none";
    const auto &[outpoint, coin] = *walked.next;
    return hex(outpoint.id) + " " + std::to_string(outpoint.index) + " " + std::to_string(coin.value) + " " +
           std::to_string(coin.height) + " " + std::to_string(coin.is_coinbase) + " " + hex(coin.script);
}

/* The coin that is met is the reading's next. */
int meet_coin(void *context, const uint8_t *id, uint32_t index, const wakotehu_coin *coin, const uint8_t *script) {
    Walked &walked = *static_cast<Walked *>(context);
    const auto is_next = [&] {
        const auto &[outpoint, own] = *walked.next;
        return std::equal(outpoint.id.begin(), outpoint.id.end(), id) && outpoint.index == index && own.value == coin->value &&
               own.height == coin->height && own.is_coinbase == (coin->coinbase != 0) && own.script.size() == coin->script &&
               std::equal(own.script.begin(), own.script.end(), script);
    };
    if (walked.next == walked.end || !is_next()) {
        Coins met;
        Id copy{};
        std::copy(id, id + copy.size(), copy.begin());
        met[{copy, index}] = {coin->value, Bytes(script, script + coin->script), coin->height, coin->coinbase != 0};
        compare("a coin", shown_coin({walked.pair, met.begin(), met.end()}), shown_coin(walked), told(walked.pair));
    }
    walked.next++;
    return 0;
}

void compare_coins(const Pair &pair, uint64_t handle, Walk walk, const Coins &own) {
    Walked walked = {pair, own.begin(), own.end()};
    compare("the walk over coins", walk(handle, meet_coin, &walked), WAKOTEHU_OK, told(pair));
    compare("the coins behind the last", "none", shown_coin(walked), told(pair));
}

/* ---- The same block over given coins */

wakotehu_utxo given(const Pair &pair, const Coins &coins) {
    wakotehu_utxo set = 0;
    compare("wakotehu_utxo_open", wakotehu_utxo_open(&set), WAKOTEHU_OK, told(pair));
    for (const auto &[outpoint, coin] : coins) {
        const wakotehu_coin row = {coin.value, coin.script.size(), coin.height, coin.is_coinbase};
        compare("wakotehu_utxo_put", wakotehu_utxo_put(set, outpoint.id.data(), outpoint.index, &row, coin.script.data()),
                WAKOTEHU_OK, told(pair));
    }
    return set;
}

void compare_inputs(const Pair &pair, wakotehu_utxo set, const Tx &tx, uint32_t height, const Coins &coins) {
    const Bytes bytes = write(tx);
    uint32_t reason = 0;
    int64_t fee = 0, own_fee = 0;
    const wakotehu_code code = wakotehu_check_tx_inputs(set, bytes.data(), bytes.size(), height, &reason, &fee);
    const std::string own = reading::inputs_fault(tx, height, coins, own_fee);
    compare("wakotehu_check_tx_inputs", code, WAKOTEHU_OK, told(pair));
    compare("the fault of inputs", wakotehu_reason_text(reason), own, told(pair));
    if (own.empty())
        compare("the fee", uint64_t(fee), uint64_t(own_fee), told(pair));
}

/* There and back, where a kept block with coins is its parent. */
void connect_given(Pair &pair, const Bytes &bytes, const reading::Heights &heights) {
    Block block;
    if (reading::read_block(bytes, block) != reading::Fault::none)
        return;
    const size_t parent = pair.reading.find(block.header.parent);
    const auto before = parent == reading::NOWHERE ? nullptr : pair.reading.coins_after(parent);
    if (!before)
        return;
    Coins after = *before;
    const uint32_t height = pair.reading.kept[parent].height + 1;
    const reading::Refusal own = pair.reading.connected(block, bytes.size(), parent, after);
    std::vector<uint32_t> medians;
    for (uint32_t at = 0; at < height; at++)
        medians.push_back(pair.reading.median_time_past(pair.reading.ancestor(parent, at)));
    /* The parent's may be left out. */
    const wakotehu_setting setting = {medians.data(), medians.size() - height % 2,
                                      {heights.bip34, heights.bip65, heights.bip66, heights.csv}, height, medians.back()};
    pair.story += "\nconnected once more: " + hex(bytes);
    const wakotehu_utxo set = given(pair, *before);
    for (const Tx &tx : block.txs)
        compare_inputs(pair, set, tx, height, *before);
    wakotehu_fault fault = {};
    const Door door = {set, wakotehu_utxo_wants, wakotehu_utxo_learn};
    const wakotehu_code code =
        until_known(pair, door, [&] { return wakotehu_connect(set, bytes.data(), bytes.size(), &setting, &fault); });
    compare("wakotehu_connect", code, WAKOTEHU_OK, told(pair));
    compare("the fault", shown("", wakotehu_reason_text(fault.reason), fault.transaction, fault.input),
            shown("", own.reason, own.tx, own.input), told(pair));
    const bool connects = own.reason.empty();
    compare_coins(pair, set, wakotehu_utxo_coins, connects ? after : *before);
    compare("wakotehu_disconnect", wakotehu_disconnect(set), connects ? WAKOTEHU_OK : WAKOTEHU_NONE, told(pair));
    compare_coins(pair, set, wakotehu_utxo_coins, *before);
    compare("wakotehu_utxo_close", wakotehu_utxo_close(set), WAKOTEHU_OK, told(pair));
}

/* ---- Scripts of coins, and what spends them */

const Bytes TRUE_SCRIPT = {0x51};

Bytes to_hash(const Bytes &inner) {
    const Bytes hash = reading::hash160(inner);
    Bytes made = {reading::OP_HASH160, 20};
    made.insert(made.end(), hash.begin(), hash.end());
    made.push_back(reading::OP_EQUAL);
    return made;
}

Bytes to_key(uint8_t mark) { return {2, 2, mark, reading::OP_CHECKSIG}; }

/* The inner scripts of script hashes. */
const std::vector<Bytes> &inner_scripts() {
    static const std::vector<Bytes> *const scripts = new std::vector<Bytes>{
        TRUE_SCRIPT, to_key(1), {0x00}, Bytes(520, reading::OP_CHECKMULTISIG), Bytes(480, reading::OP_CHECKMULTISIG),
        {0x51, 0x02, 0x02, 0x01, 0x51, reading::OP_CHECKMULTISIG}};
    return *scripts;
}

/* A number and a lock, which leave a true element. */
Bytes locking(uint8_t opcode, int64_t lock) {
    Bytes made = reading::push_of(reading::number_bytes(lock));
    made.insert(made.end(), {opcode, 0x75, 0x51});
    return made;
}

Bytes coin_script(Source &source) {
    const uint8_t kind = source.take(), choice = source.take();
    switch (kind % 12) {
    case 0: case 1: case 2: return TRUE_SCRIPT;
    case 3: case 4: return to_hash(inner_scripts()[choice % inner_scripts().size()]);
    case 5: return to_key(choice & 1);
    case 6: return locking(reading::OP_CLTV, 98 + choice % 16);
    case 7: return locking(reading::OP_CSV, choice & 1 ? choice / 32 : 1 << 22 | choice / 32);
    case 8: return Bytes{reading::OP_RETURN, choice};
    case 9: return choice < 8 ? Bytes(9999u + choice % 4, 0x51) : choice < 24 ? Bytes(900u + choice, 0xae) : Bytes();
    case 10: return script(source, {0, 0});
    default: return Bytes{0x00};
    }
}

/* An input script that spends a script of the list above, most often. */
Bytes unlocking(const Bytes &spent, Source &source) {
    const uint8_t choice = source.take();
    if (choice >= 248)
        return script(source, {0, 0});
    const Bytes *inner = nullptr;
    for (const Bytes &one : inner_scripts())
        if (reading::is_p2sh(spent) && to_hash(one) == spent)
            inner = &one;
    const Bytes &runs = inner ? *inner : spent;
    Bytes made;
    if (runs.size() < 8 && !runs.empty() && runs.back() >= reading::OP_CHECKSIG && runs.back() <= reading::OP_CHECKMULTISIGVERIFY)
        made = reading::push_of(signature(source, choice & 1));
    if (runs.size() < 8 && !runs.empty() && runs.back() == reading::OP_CHECKMULTISIG)
        made.insert(made.begin(), 0);
    if (inner) {
        const Bytes push = reading::push_of(*inner);
        made.insert(made.end(), push.begin(), push.end());
        if (choice == 247)
            made.push_back(0x61);
    }
    return made;
}

/* ---- Blocks over coins */

/* A coin by a number: coins of no coinbase come twice. */
std::optional<Coins::value_type> choose(const Coins &coins, Source &source) {
    const uint32_t number = source.take_number(2);
    std::vector<Coins::const_iterator> lists[2];
    for (auto at = coins.begin(); at != coins.end(); at++)
        lists[at->second.is_coinbase].push_back(at);
    auto &list = lists[lists[0].empty() || number % 4 == 0];
    if (list.empty())
        return std::nullopt;
    /* Old coins of coinbases come first, since only they are mature. */
    const auto older = [](auto one, auto other) { return one->second.height < other->second.height; };
    std::stable_sort(list.begin(), list.end(), older);
    return *list[number / 4 % (number < 0xc000 ? std::min<size_t>(list.size(), 24) : list.size())];
}

/* A transaction that spends coins, which it takes from the list, and its fee. */
Tx spender(Coins &coins, uint32_t height, Source &source, int64_t &fee) {
    static const int32_t versions[] = {1, 2, 2, -1};
    static const uint32_t sequences[] = {0xffffffff, 0, 1, 2, 3, 0xfffffffe, 1 << 22, 1 << 22 | 1, 1 << 22 | 2, 1u << 31};
    const uint8_t shape = source.take();
    Tx tx = {source.pick(versions), {}, {}, 0};
    if (shape & 0x80)
        tx.lock_time = shape & 4 ? height + source.take() % 3 - 1 : GENESIS_TIME + height * SPACING - source.take() * 32u;
    for (uint8_t n = 0; n <= (shape & 3); n++) {
        const auto coin = choose(coins, source);
        if (!coin)
            break;
        tx.inputs.push_back({coin->first, unlocking(coin->second.script, source), source.pick(sequences)});
        fee += coin->second.value;
        if (source.take() < 250) /* else it is spent twice */
            coins.erase(coin->first);
    }
    if (shape >= 252 && !tx.inputs.empty())
        tx.inputs[0].spent.index += 1000;
    const int64_t left = fee;
    for (uint8_t n = 0; n <= (shape >> 3 & 3); n++) {
        const int64_t value = source.take() < 16 ? left + 1 : left / 4;
        tx.outputs.push_back({value, coin_script(source)});
        fee -= value;
    }
    return tx;
}

/* What each transaction adds can be spent by the next ones. */
void add_made(const Tx &tx, uint32_t height, Coins &coins) {
    for (uint32_t n = 0; n < tx.outputs.size(); n++)
        coins[{id_of(tx), n}] = {tx.outputs[n].value, tx.outputs[n].script, height, false};
}

Tx coinbase(uint32_t height, bool by_height, int64_t value, Source &source) {
    const uint8_t shape = source.take();
    Bytes own = by_height ? reading::height_push(shape == 255 ? height + 1 : height) : Bytes{1, 7};
    if (shape & 1)
        own.push_back(shape);
    own.resize(std::max<size_t>(own.size(), 2), 0x51);
    Tx tx = {1, {{{Id{}, 0xffffffff}, own, 0xffffffff}}, {{value, coin_script(source)}}, 0};
    if (shape >= 250)
        tx.outputs[0].value += 1;
    for (uint8_t n = 0; n < (shape >> 1 & 3); n++)
        tx.outputs.push_back({0, coin_script(source)});
    return tx;
}

/* Faults of a block by itself and by its place. The moment follows the header's time. */
void add_fault(Block &block, Source &source, uint32_t median, uint64_t &now) {
    const uint8_t fault = source.take();
    switch (fault) {
    case 1: block.header.bits = 0x1d00ffff; break;
    case 2: block.header.time = median; break;
    case 3: now = block.header.time - 7201; break;
    case 4: now = block.header.time - 7200; break;
    case 5: block.header.version = source.take() % 5; break;
    case 6: block.header.version = -1; break;
    case 7: block.header.parent[5] ^= 1; break;
    case 8: block.txs.erase(block.txs.begin()); break;
    case 9: block.txs.push_back(Tx(block.txs[0])); break;
    case 10: block.txs.push_back(Tx(block.txs.back())), block.txs.push_back(Tx(block.txs.back())); break;
    case 11: block.txs.back().outputs.clear(); break;
    case 12: block.txs.back().outputs[0].script = Bytes(1001, reading::OP_CHECKMULTISIG); break;
    case 13: block.txs.back().inputs.clear(); break;
    case 14:
        if (!block.txs.back().inputs.empty())
            block.txs.back().inputs.push_back(Input(block.txs.back().inputs[0]));
        break;
    case 15: block.txs.back().outputs[0].value = -1; break;
    case 16: block.txs.back().outputs[0].value = reading::MAX_MONEY + 1; break;
    case 17: block.txs[0].inputs[0].script.resize(101); break;
    case 18: block.txs.back().inputs.push_back({{Id{}, 0xffffffff}, {}, 0}); break;
    case 19: block.txs.back().outputs.resize(3, {reading::MAX_MONEY, {}}); break;
    default: break;
    }
    finish(block, fault != 20, fault != 21);
    if (fault == 21)
        while (reading::meets_target(id_of(block.header)))
            block.header.nonce++;
}

/* Where a block of this number among those that were made is, or any kept one. */
size_t chosen_parent(Pair &pair, Source &source) {
    const uint8_t choice = source.take();
    const size_t last = pair.reading.kept.size() - 1;
    return choice < 160 ? pair.reading.active() : choice < 255 ? last - choice % 4 : last - 5;
}

/* A block on a kept one: its bytes, and the moment of its submission. */
Bytes next_block(Pair &pair, Source &source, bool by_height, uint64_t &now) {
    const size_t parent = chosen_parent(pair, source);
    const uint32_t height = pair.reading.kept[parent].height + 1, median = pair.reading.median_time_past(parent);
    const auto before = pair.reading.coins_after(parent);
    Coins coins = before ? *before : Coins();
    const uint8_t shape = source.take();
    Block block{{4, pair.reading.kept[parent].id, Id{}, median + 1, reading::REGTEST_BITS, 0}, {Tx()}};
    if (shape & 4)
        block.header.time = std::max(median + 1, GENESIS_TIME + height * SPACING);
    now = block.header.time;
    int64_t fees = 0;
    for (uint8_t n = 0; n < (shape & 3); n++) {
        int64_t fee = 0;
        block.txs.push_back(spender(coins, height, source, fee));
        fees += fee;
        if (source.take() < 192)
            add_made(block.txs.back(), height, coins);
    }
    block.txs[0] = coinbase(height, by_height, reading::subsidy(height) + fees, source);
    if (shape >= 248) /* one that is there already, whose outputs may be coins */
        block.txs.push_back(Tx(pair.reading.kept[2].block->txs[shape % pair.reading.kept[2].block->txs.size()]));
    if (shape == 247)
        block.txs[0] = pair.reading.kept[pair.reading.kept.size() / 2].block->txs[0];
    if (shape >= 244 && shape < 247)
        block.txs.push_back(pair.reading.kept[pair.reading.kept.size() > 102 ? 102 : 1].block->txs.back());
    add_fault(block, source, median, now);
    return write(block);
}

/* ---- The chains that all cases begin with */

struct Base {
    reading::Heights heights;
    uint32_t length;
    bool by_height;
    std::unique_ptr<Pair> pair;
};

/* The first coinbases have an output of each kind, and a block spends one of them into many kinds. */
std::vector<reading::Output> outputs_of_all_kinds(int64_t each) {
    std::vector<reading::Output> outputs;
    for (const Bytes &inner : inner_scripts())
        outputs.push_back({each, to_hash(inner)});
    for (const int64_t lock : {100, 104, 105})
        outputs.push_back({each, locking(reading::OP_CLTV, lock)});
    for (const int64_t lock : {0, 2, 1 << 22})
        outputs.push_back({each, locking(reading::OP_CSV, lock)});
    for (const Bytes &plain : {TRUE_SCRIPT, to_key(0), to_key(1)})
        outputs.push_back({each, plain});
    return outputs;
}

void grow(Base &base) {
    Pair &pair = *base.pair;
    for (uint32_t height = 1; height <= base.length; height++) {
        Tx first = {1, {{{Id{}, 0xffffffff}, reading::height_push(height), 0xffffffff}}, {{reading::subsidy(height), {0x51}}}, 0};
        first.inputs[0].script.resize(4, 0x51);
        if (height < 4)
            first.outputs = outputs_of_all_kinds(reading::COIN);
        const Chain::Kept &parent = pair.reading.kept.back();
        Block block{{4, parent.id, Id{}, GENESIS_TIME + height * SPACING, reading::REGTEST_BITS, 0}, {first}};
        if (height == 102) {
            const Tx &spent = pair.reading.kept[1].block->txs[0];
            const uint32_t last = uint32_t(spent.outputs.size() - 3);
            Tx tx = {1, {{{id_of(spent), last}, {}, 0xffffffff}}, outputs_of_all_kinds(reading::COIN / 64), 0};
            block.txs.push_back(tx);
        }
        finish(block, true, true);
        submit(pair, write(block), block.header.time, false);
    }
    pair.story = "(base of " + std::to_string(base.length) + " blocks)";
}

std::vector<Base> &bases() {
    static std::vector<Base> *found = nullptr;
    if (found)
        return *found;
    found = new std::vector<Base>;
    found->push_back({{1, 1, 1, 1}, 103, true, nullptr});
    found->push_back({{105, 107, 106, 106}, 103, false, nullptr});
    found->push_back({{1, 1, 1, 1}, 148, true, nullptr});
    for (Base &base : *found) {
        const wakotehu_heights heights = {base.heights.bip34, base.heights.bip65, base.heights.bip66, base.heights.csv};
        base.pair.reset(new Pair{0, Chain(base.heights, genesis()), 0, {}, ""});
        compare("wakotehu_open_by_need", wakotehu_open_by_need(&base.pair->library, &heights), WAKOTEHU_OK, told(*base.pair));
        grow(base);
    }
    return *found;
}

Id chosen_id(const Pair &pair, Source &source) {
    const uint8_t choice = source.take();
    const auto &kept = pair.reading.kept;
    if (choice >= 250)
        return choice == 250 ? kept[0].id : Id{choice};
    return kept[kept.size() - 1 - std::min<size_t>(choice % (choice < 240 ? 6 : 128), kept.size() - 1)].id;
}

void step(Pair &pair, const Base &base, Source &source) {
    const uint8_t kind = source.take();
    uint64_t now = GENESIS_TIME + 1000 * SPACING;
    if (kind < 176) {
        pair.made.push_back(next_block(pair, source, base.by_height || kind & 1, now));
        submit(pair, pair.made.back(), now, kind >= 160);
    } else if (kind < 190 && !pair.made.empty())
        submit(pair, pair.made[source.take() % pair.made.size()], now, false);
    else if (kind < 208)
        mark(pair, wakotehu_invalidate, &Chain::invalidate, "invalidate", chosen_id(pair, source));
    else if (kind < 224)
        mark(pair, wakotehu_reconsider, &Chain::reconsider, "reconsider", chosen_id(pair, source));
    else if (kind < 240)
        mark(pair, wakotehu_precious, &Chain::precious, "precious", chosen_id(pair, source));
    else if (kind < 248)
        submit(pair, source.take_bytes(source.take()), now, false);
    else
        submit(pair, genesis(), now, false);
    compare_best(pair);
}

} // namespace

int LLVMFuzzerTestOneInput(const uint8_t *bytes, size_t length) {
    Source source(bytes, length);
    const Base &base = bases()[source.take() % bases().size()];
    Pair pair{0, base.pair->reading, source.take(), {}, base.pair->story};
    const uint8_t policy = pair.policy;
    pair.reading.judge = [policy](const Bytes &key, const Bytes &signature, const Id &digest) {
        return is_valid(policy, key, signature, digest);
    };
    compare("wakotehu_copy", wakotehu_copy(base.pair->library, &pair.library), WAKOTEHU_OK, told(pair));
    for (int steps = 0; steps < 8 && !source.ended(); steps++)
        step(pair, base, source);
    compare_tips(pair);
    compare_coins(pair, pair.library, wakotehu_coins, *pair.reading.coins_after(pair.reading.active()));
    if (pair.made.size() % 2)
        connect_given(pair, pair.made.back(), base.heights);
    wakotehu_close(pair.library);
    return 0;
}
