// The workloads of crates/bench, in plain C++: prints name, size, seconds and check of one of them.
#include <atomic>
#include <chrono>
#include <cstdio>
#include <cstdlib>
#include <functional>
#include <map>
#include <string>

#include "node.h"

using Clock = std::chrono::steady_clock;

static Clock::time_point begun;
static double spent_seconds;
static void start() { begun = Clock::now(); }
static void stop() { spent_seconds = std::chrono::duration<double>(Clock::now() - begun).count(); }

template <class Digest>
static std::string hex(const Digest& digest) {
    std::string text;
    char digits[3];
    for (uint8_t byte : digest) std::snprintf(digits, 3, "%02x", byte), text += digits;
    return text;
}
static std::string shown(Hash id) {
    std::reverse(id.begin(), id.end());
    return hex(id);
}

static std::string hash_again(size_t size) {
    auto message = Filling{1}.bytes<80>();
    Hash digest{};
    for (size_t i = 0; i < size; i++) {
        digest = double_sha(message.data(), message.size());
        std::copy(digest.begin(), digest.end(), message.begin());
    }
    return hex(digest);
}
static std::string double_sha_chain(size_t size) {
    start();
    std::string last = hash_again(size);
    stop();
    return last;
}
// The same by each of so many threads, to see how much more the machine's cores do than one.
static std::string by_threads(size_t size, size_t count) {
    std::vector<std::string> last(count);
    std::vector<std::thread> threads;
    start();
    for (size_t i = 0; i < count; i++) threads.emplace_back([&, i] { last[i] = hash_again(size); });
    for (std::thread& thread : threads) thread.join();
    stop();
    return last[0];
}
// The longest of so many hashes, each timed by itself, beside a thread that hashes too: what the machine takes away
// from a thread that waits for nothing.
static std::string pauses(size_t size) {
    std::atomic<bool> is_over{false};
    std::thread other([&] {
        while (!is_over) hash_again(100);
    });
    double most = 0;
    for (size_t i = 0; i < size; i++) {
        start();
        hash_again(1);
        stop();
        most = std::max(most, spent_seconds);
    }
    is_over = true;
    other.join();
    spent_seconds = most;
    return "0";
}
static std::string ripemd_chain(size_t size) {
    auto message = Filling{2}.bytes<32>();
    ShortHash digest{};
    start();
    for (size_t i = 0; i < size; i++) {
        digest = ripemd(message.data(), message.size());
        std::copy(digest.begin(), digest.end(), message.begin());
    }
    stop();
    return hex(digest);
}
static std::string ripemd_long(size_t size) {
    Bytes message(size);
    Filling{3}.fill(message.data(), size);
    start();
    ShortHash digest = ripemd(message.data(), size);
    stop();
    return hex(digest);
}
static std::string merkle_root(size_t size) {
    Filling filling{4};
    std::vector<Hash> ids;
    for (size_t i = 0; i < size; i++) ids.push_back(filling.bytes<32>());
    start();
    Hash root = merkle(ids).first;
    stop();
    return shown(root);
}

static Script to_key_hash(const ShortHash& hash) {
    Script script{0x76, 0xa9, 20};
    script.append(hash.data(), hash.size());
    script.push_back(0x88);
    script.push_back(0xac);
    return script;
}
static Tx spending(OutPoint prev, Script script, std::vector<TxOut> outputs) {
    return Tx{1, {TxIn{prev, std::move(script), 0xffffffff}}, std::move(outputs), 0};
}
// An input script of the usual length: the push of a signature and of a key.
static Script signed_input(Filling& filling) {
    auto input = filling.bytes<106>();
    input[0] = 71, input[72] = 33;
    return Script(input.data(), input.data() + input.size());
}
static Tx payment(Filling& filling) {
    OutPoint prev{filling.bytes<32>(), 0};
    Script input = signed_input(filling);
    std::vector<TxOut> outputs;
    for (int64_t value : {1000, 2000}) outputs.push_back(TxOut{value, to_key_hash(filling.bytes<20>())});
    return spending(prev, std::move(input), outputs);
}
static void mine(Header& header) {
    while (!meets_target(id_of(header))) header.nonce++;
}
static Block block_with(std::vector<Tx> payments) {
    Block block;
    block.txs.push_back(spending(OutPoint{Hash{}, 0xffffffff}, {0x51, 0x51}, {TxOut{5000000000, {0x51}}}));
    for (Tx& tx : payments) block.txs.push_back(std::move(tx));
    block.header = Header{1, Hash{}, merkle(ids_of(block.txs)).first, GENESIS_TIME, 0x207fffff, 0};
    mine(block.header);
    return block;
}
static Block block_of(size_t size) {
    Filling filling{5};
    std::vector<Tx> payments;
    for (size_t i = 0; i < size; i++) payments.push_back(payment(filling));
    return block_with(std::move(payments));
}
static Bytes spelled(const Block& block) {
    Bytes bytes;
    VectorSink sink{bytes};
    put_block(sink, block);
    return bytes;
}
static std::string decode(size_t size) {
    Bytes bytes = spelled(block_of(size));
    start();
    Block block = read_block(bytes);
    stop();
    return shown(id_of(block.txs.back()));
}
static std::string write(size_t size) {
    Block block = block_of(size);
    start();
    Bytes bytes = spelled(block);
    stop();
    return hex(double_sha(bytes.data(), bytes.size()));
}
static std::string payment_ids(size_t size) {
    Block block = block_of(size);
    start();
    std::vector<Hash> ids = ids_of(block.txs);
    stop();
    return shown(ids.back());
}
static std::string alone(size_t size) {
    Block block = block_of(size);
    start();
    bool holds = block_alone(block, ids_of(block.txs));
    stop();
    return holds ? shown(block.header.root) : "refused";
}
static std::string records(size_t size) {
    Bytes genesis = spelled(block_of(0));
    genesis.resize(285);
    Bytes file;
    VectorSink sink{file};
    for (size_t i = 0; i < size; i++) {
        put(sink, uint32_t(0xdab5bffa));
        put(sink, uint32_t(genesis.size()));
        sink.write(genesis.data(), genesis.size());
    }
    start();
    Reader from{file.data(), file.data() + file.size()};
    uint64_t total = 0;
    while (from.at != from.end) {
        if (from.number<uint32_t>() != 0xdab5bffa) break;
        Bytes record(from.number<uint32_t>());
        from.read(record.data(), record.size());
        total += record.size();
    }
    stop();
    return std::to_string(total);
}

struct Spends {
    std::vector<std::pair<Tx, Script>> list;
    Table table;
    std::vector<Job> jobs() const {
        std::vector<Job> jobs;
        for (const auto& [tx, spent] : list) jobs.push_back(Job{&tx, 0, &spent});
        return jobs;
    }
};
static Bytes new_key(Filling& filling, uint64_t number) {
    auto key = filling.bytes<33>();
    key[0] = 2;
    for (int i = 0; i < 8; i++) key[1 + i] = uint8_t(number >> (56 - 8 * i));
    return Bytes(key.begin(), key.end());
}
static Bytes new_signature(Filling& filling) {
    auto bytes = filling.bytes<70>();
    bytes[0] = 0x30, bytes[1] = 68;
    for (int at : {2, 36}) bytes[at] = 2, bytes[at + 1] = 32, bytes[at + 2] = bytes[at + 2] % 127 + 1;
    Bytes signature(bytes.begin(), bytes.end());
    signature.push_back(1);
    return signature;
}
static void put_push(Script& script, const Bytes& bytes) {
    script.push_back(uint8_t(bytes.size()));
    script.append(bytes.data(), bytes.size());
}
static Tx spender(Filling& filling, const Script& input) {
    OutPoint prev{filling.bytes<32>(), 0};
    return spending(prev, input, {TxOut{1000, to_key_hash(filling.bytes<20>())}});
}
static void add(Table& table, const Bytes& key, const Bytes& signature, const Hash& digest) {
    table.add(Triple{key, Bytes(signature.begin(), signature.end() - 1), digest});
}
static Spends to_keys(size_t size) {
    Filling filling{6};
    Spends spends;
    for (size_t number = 0; number < size; number++) {
        Bytes key = new_key(filling, number), signature = new_signature(filling);
        Script input;
        put_push(input, signature);
        put_push(input, key);
        Tx tx = spender(filling, input);
        Script spent = to_key_hash(hash160(key.data(), key.size()));
        add(spends.table, key, signature, signature_hash(tx, 0, spent));
        spends.list.emplace_back(std::move(tx), std::move(spent));
    }
    return spends;
}
static Spends to_two_of_three(size_t size) {
    Filling filling{7};
    Spends spends;
    for (size_t number = 0; number < size; number++) {
        Bytes keys[3], signatures[2];
        Script input{0}, spent{0x52};
        for (int i = 0; i < 3; i++) keys[i] = new_key(filling, 3 * number + i);
        for (Bytes& signature : signatures) signature = new_signature(filling), put_push(input, signature);
        Tx tx = spender(filling, input);
        for (const Bytes& key : keys) put_push(spent, key);
        spent.push_back(0x53);
        spent.push_back(0xae);
        Hash digest = signature_hash(tx, 0, spent);
        for (int i = 0; i < 2; i++) add(spends.table, keys[i], signatures[i], digest);
        spends.list.emplace_back(std::move(tx), std::move(spent));
    }
    return spends;
}
static Spends one(const Script& input, Script spent) {
    Filling filling{8};
    Spends spends;
    spends.list.emplace_back(spender(filling, input), std::move(spent));
    return spends;
}
static Spends swaps() {
    Filling filling{9};
    Script input;
    for (int i = 0; i < 2; i++) {
        auto element = filling.bytes<520>();
        for (uint8_t byte : {0x4d, 8, 2}) input.push_back(byte);
        input.append(element.data(), element.size());
    }
    return one(input, Script(201, 0x7c));
}
static Spends hashes() {
    auto element = Filling{10}.bytes<32>();
    Script input;
    put_push(input, Bytes(element.begin(), element.end()));
    return one(input, Script(200, 0xaa));
}
// 66 CHECKSIG of the two elements that the input leaves, in a script of 9,600 opcodes.
static Script long_script() {
    Bytes ones(9399, 0x51);
    Script script{0, 0x63};
    script.append(ones.data(), ones.size());
    script.push_back(0x68);
    for (int i = 0; i < 66; i++)
        for (uint8_t op : {0x6e, 0xac, 0x75}) script.push_back(op);
    return script;
}
// The same of a signature and a key that it pushes itself.
static Script long_script_alone() {
    Filling filling{17};
    Bytes key = new_key(filling, 0);
    Script script, rest = long_script();
    put_push(script, new_signature(filling));
    put_push(script, key);
    script.append(rest.data(), rest.size());
    return script;
}
static Spends long_code() {
    Filling filling{11};
    Bytes key = new_key(filling, 0), signature = new_signature(filling);
    Script input, spent = long_script();
    put_push(input, signature);
    put_push(input, key);
    Spends spends = one(input, spent);
    add(spends.table, key, signature, signature_hash(spends.list[0].first, 0, spent));
    return spends;
}
static Spends conditions() {
    Bytes spent(101, 0x63);
    spent[0] = 0;
    spent.resize(9801, 0x51);
    spent.resize(9901, 0x68);
    spent.push_back(0x51);
    return one({}, Script(spent.data(), spent.data() + spent.size()));
}
static std::string verify_each(const Spends& spends, size_t times = 1) {
    std::vector<Job> jobs = spends.jobs();
    uint64_t count = 0;
    start();
    for (size_t i = 0; i < times; i++)
        for (const Job& job : jobs) count += verify(job, spends.table);
    stop();
    return std::to_string(count);
}

static Tx many_inputs(size_t size, const Script& script) {
    Filling filling{12};
    Tx tx;
    for (size_t i = 0; i < size; i++) tx.inputs.push_back(TxIn{OutPoint{filling.bytes<32>(), 0}, script, 0});
    return tx;
}
static std::string digests(size_t size) {
    Tx tx = many_inputs(1000, {});
    Script code(25, 0xac);
    Hash last{};
    start();
    for (size_t i = 0; i < size; i++) last = signature_hash(tx, i % 1000, code);
    stop();
    return hex(last);
}
static std::string each_input(size_t size) {
    Filling filling{13};
    Bytes key = new_key(filling, 0), signature = new_signature(filling);
    Script input, spent;
    put_push(input, signature);
    put_push(spent, key);
    spent.push_back(0xac);
    Tx tx = many_inputs(size, input);
    Table table;
    for (size_t i = 0; i < size; i++) add(table, key, signature, signature_hash(tx, i, spent));
    uint64_t count = 0;
    start();
    for (size_t i = 0; i < size; i++) count += verify(Job{&tx, i, &spent}, table);
    stop();
    return std::to_string(count);
}

static std::string queue(size_t size, size_t workers, size_t times) {
    Spends spends = to_keys(size);
    std::vector<Job> jobs = spends.jobs();
    Checks checks(workers);
    uint64_t count = 0;
    start();
    for (size_t i = 0; i < times; i++) {
        Round round(checks, spends.table);
        round.add(jobs);
        count += round.finish();
    }
    stop();
    return std::to_string(count);
}

static std::pair<OutPoint, Coin> next_coin(Filling& filling) {
    OutPoint at{filling.bytes<32>(), 0};
    at.index = filling.next() % 4;
    Script script = to_key_hash(filling.bytes<20>());
    return {at, Coin{int64_t(filling.next() % 5000000000), script, 7, false}};
}
static std::string coins_insert(size_t size) {
    Filling filling{14};
    std::vector<std::pair<OutPoint, Coin>> coins;
    for (size_t i = 0; i < size; i++) coins.push_back(next_coin(filling));
    CoinMap map;
    uint64_t sum = 0;
    start();
    for (auto& [at, coin] : coins) {
        sum += coin.value;
        map.emplace(at, std::move(coin));
    }
    stop();
    return std::to_string(sum);
}
static std::pair<CoinMap, std::vector<OutPoint>> filled(size_t size) {
    Filling filling{14}, order{15};
    CoinMap map;
    std::vector<OutPoint> places;
    for (size_t i = 0; i < size; i++) {
        auto [at, coin] = next_coin(filling);
        map.emplace(at, std::move(coin));
        places.push_back(at);
    }
    for (size_t i = 0; i < size; i++) std::swap(places[i], places[order.next() % size]);
    return {std::move(map), std::move(places)};
}
static std::string coins_look_up(size_t size) {
    auto [map, places] = filled(size);
    Cache layer(map);
    uint64_t sum = 0;
    start();
    for (const OutPoint& at : places)
        if (const Coin* coin = layer.get(at)) sum += coin->value;
    stop();
    return std::to_string(sum);
}
static std::string coins_spend(size_t size) {
    auto [map, places] = filled(size);
    Cache layer(map);
    uint64_t sum = 0;
    start();
    for (const OutPoint& at : places)
        if (layer.get(at)) sum += layer.spend(at)->value;
    stop();
    return std::to_string(sum);
}

static std::string connected(size_t size, size_t workers) {
    CoinMap map = filled(size).first;
    Spends spends = to_keys(2000);
    std::vector<Tx> payments;
    for (auto& [tx, spent] : spends.list) {
        map.emplace(tx.inputs[0].prev, Coin{5000, spent, 7, false});
        payments.push_back(tx);
    }
    Block block = block_with(std::move(payments));
    std::vector<Hash> ids = ids_of(block.txs);
    if (!block_alone(block, ids)) return "refused";
    Checks checks(workers);
    start();
    Cache view(map);
    auto undo = connect(view, block, ids, 101, spends.table, checks);
    Cache::Entries below;
    view.flush(below);
    stop();
    return undo ? std::to_string(undo->size()) : "refused";
}

// A branch of blocks without payments on genesis. Its number stands in each coinbase behind the height.
using Blocks = std::vector<std::shared_ptr<const Bytes>>;
struct Branch {
    uint32_t number;
    size_t data = 0;
    uint32_t height = 0;
    Hash last = GENESIS_ID, coinbase{};
    Bytes next(std::vector<Tx> payments = {}) {
        height++;
        Script input = height_push(height);
        input.push_back(4);
        for (int i = 0; i < 4; i++) input.push_back(uint8_t(number >> (8 * i)));
        Block block;
        block.txs.push_back(spending(OutPoint{Hash{}, 0xffffffff}, input, {TxOut{subsidy(height), {0x51}}}));
        if (data > 0) block.txs[0].outputs.push_back(TxOut{0, Script(data, uint8_t(0x6a))});
        coinbase = id_of(block.txs[0]);
        for (Tx& tx : payments) block.txs.push_back(std::move(tx));
        block.header = Header{4, last, merkle(ids_of(block.txs)).first, GENESIS_TIME + height, 0x207fffff, 0};
        mine(block.header);
        last = id_of(block.header);
        return spelled(block);
    }
    Blocks grown(size_t count) {
        Blocks blocks;
        for (size_t i = 0; i < count; i++) blocks.push_back(std::make_shared<const Bytes>(next()));
        return blocks;
    }
};
static void submit_each(Chain& chain, const Blocks& blocks) {
    for (const auto& block : blocks) chain.submit(block, 0xffffffff);
}
static std::string above(Branch branch, size_t height, size_t count) {
    Blocks below = branch.grown(height), timed = branch.grown(count);
    Chain chain;
    submit_each(chain, below);
    start();
    submit_each(chain, timed);
    stop();
    return std::to_string(chain.height());
}
static Blocks beside(uint32_t count) {
    Blocks blocks;
    for (uint32_t i = 0; i < count; i++) blocks.push_back(Branch{i + 10}.grown(1).at(0));
    return blocks;
}
static std::string kept_beside(size_t count) {
    Blocks blocks = beside(uint32_t(count));
    Chain chain;
    start();
    submit_each(chain, blocks);
    stop();
    return std::to_string(chain.height());
}
static std::string reorganised(size_t depth) {
    Branch one{1}, other{2};
    Blocks first = one.grown(depth), second = other.grown(depth), last = other.grown(1);
    Chain chain;
    submit_each(chain, first);
    submit_each(chain, beside(10000));
    submit_each(chain, second);
    start();
    submit_each(chain, last);
    stop();
    return std::to_string(chain.height());
}

#include "seats.h"

int main(int count, char** words) {
    using Workload = std::function<std::string(size_t)>;
    const std::map<std::string, Workload> workloads{
        {"double-sha", double_sha_chain},
        {"threads-1", [](size_t n) { return by_threads(n, 1); }},
        {"threads-4", [](size_t n) { return by_threads(n, 4); }},
        {"pauses", pauses},
        {"ripemd", ripemd_chain},
        {"ripemd-long", ripemd_long},
        {"merkle", merkle_root},
        {"decode", decode},
        {"write", write},
        {"ids", payment_ids},
        {"alone", alone},
        {"records", records},
        {"key-hash", [](size_t n) { return verify_each(to_keys(n)); }},
        {"two-of-three", [](size_t n) { return verify_each(to_two_of_three(n)); }},
        {"swaps", [](size_t n) { return verify_each(swaps(), n); }},
        {"hashes", [](size_t n) { return verify_each(hashes(), n); }},
        {"long-code", [](size_t n) { return verify_each(long_code(), n); }},
        {"conditions", [](size_t n) { return verify_each(conditions(), n); }},
        {"digests", digests},
        {"each-input", each_input},
        {"queue-1", [](size_t n) { return queue(n, 1, 1); }},
        {"queue-2", [](size_t n) { return queue(n, 2, 1); }},
        {"queue-4", [](size_t n) { return queue(n, 4, 1); }},
        {"queue-8", [](size_t n) { return queue(n, 8, 1); }},
        {"queue-start", [](size_t n) { return queue(4, 4, n); }},
        {"coins-insert", coins_insert},
        {"coins-look-up", coins_look_up},
        {"coins-spend", coins_spend},
        {"connect-1", [](size_t n) { return connected(n, 1); }},
        {"connect-4", [](size_t n) { return connected(n, 4); }},
        {"chain", [](size_t n) { return above(Branch{1}, 0, n); }},
        {"chain-heavy", [](size_t n) { return above(Branch{1, 999000}, 0, n); }},
        {"chain-beside", kept_beside},
        {"blocks-above", [](size_t n) { return above(Branch{1}, n, 100); }},
        {"reorganise", reorganised},
        {"read-map", read_map},
        {"read-coin-1", [](size_t n) { return read_alone(n, 1, false); }},
        {"read-coin-2", [](size_t n) { return read_alone(n, 2, false); }},
        {"read-coin-4", [](size_t n) { return read_alone(n, 4, false); }},
        {"read-coin-8", [](size_t n) { return read_alone(n, 8, false); }},
        {"read-best-1", [](size_t n) { return read_alone(n, 1, true); }},
        {"read-best-2", [](size_t n) { return read_alone(n, 2, true); }},
        {"read-best-4", [](size_t n) { return read_alone(n, 4, true); }},
        {"read-best-8", [](size_t n) { return read_alone(n, 8, true); }},
        {"read-beside-1", [](size_t n) { return read_beside(n, 1); }},
        {"read-beside-2", [](size_t n) { return read_beside(n, 2); }},
        {"read-beside-4", [](size_t n) { return read_beside(n, 4); }},
        {"read-beside-8", [](size_t n) { return read_beside(n, 8); }},
        {"slowest", slowest},
        {"publish-1", [](size_t n) { return published(n, 0); }},
        {"publish-100", [](size_t n) { return published(n, 50); }},
        {"publish-10000", [](size_t n) { return published(n, 5000); }},
        {"seats-1", [](size_t n) { return branches(n, 1); }},
        {"seats-2", [](size_t n) { return branches(n, 2); }},
        {"seats-4", [](size_t n) { return branches(n, 4); }},
        {"turns-1", turns},
        {"turns-4", turns},
        {"submit", submitted},
        {"workers-1", [](size_t n) { return worked(n, 1); }},
        {"workers-4", [](size_t n) { return worked(n, 4); }},
        {"keep", [](size_t n) { return keep(Branch{1}, n); }},
        {"keep-heavy", [](size_t n) { return keep(Branch{1, 999000}, n); }},
        {"keep-coins", keep_coins},
        {"hold-coins", hold_coins},
    };
    auto workload = count == 3 ? workloads.find(words[1]) : workloads.end();
    if (workload == workloads.end()) {
        std::fprintf(stderr, "baseline: usage: baseline WORKLOAD SIZE\n");
        return 1;
    }
    size_t size = std::strtoull(words[2], nullptr, 10);
    std::string check = workload->second(size);
    std::printf("%s %zu %.9f %s\n", words[1], size, spent_seconds, check.c_str());
}
