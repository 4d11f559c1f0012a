// Transactions and blocks: spelled, read, hashed and judged by themselves, as Bitcoin Core does it.
#pragma once
#include <algorithm>
#include <optional>
#include <set>
#include <stdexcept>

#include "lanes.h"
#include "script.h"

struct OutPoint {
    Hash id{};
    uint32_t index = 0;
    bool operator==(const OutPoint& o) const { return id == o.id && index == o.index; }
    bool operator<(const OutPoint& o) const { return id != o.id ? id < o.id : index < o.index; }
    bool is_null() const { return index == 0xffffffff && id == Hash{}; }
};
struct TxIn {
    OutPoint prev;
    Script script;
    uint32_t sequence;
};
struct TxOut {
    int64_t value;
    Script script;
};
struct Tx {
    int32_t version = 1;
    std::vector<TxIn> inputs;
    std::vector<TxOut> outputs;
    uint32_t lock_time = 0;
    bool is_coinbase() const { return inputs.size() == 1 && inputs[0].prev.is_null(); }
};
struct Header {
    int32_t version;
    Hash prev, root;
    uint32_t time, bits, nonce;
};
struct Block {
    Header header;
    std::vector<Tx> txs;
};

// Sinks of spelled bytes: a hasher, a vector, a length.
struct VectorSink {
    Bytes& out;
    void write(const void* bytes, size_t count) {
        const uint8_t* from = static_cast<const uint8_t*>(bytes);
        out.insert(out.end(), from, from + count);
    }
};
struct SizeSink {
    size_t size = 0;
    void write(const void*, size_t count) { size += count; }
};

template <class Sink, class Number>
void put(Sink& sink, Number number) { sink.write(&number, sizeof number); }

template <class Sink>
void put_compact(Sink& sink, uint64_t n) {
    if (n < 0xfd) put(sink, uint8_t(n));
    else if (n <= 0xffff) put(sink, uint8_t(0xfd)), put(sink, uint16_t(n));
    else if (n <= 0xffffffff) put(sink, uint8_t(0xfe)), put(sink, uint32_t(n));
    else put(sink, uint8_t(0xff)), put(sink, n);
}
template <class Sink>
void put_script(Sink& sink, const Script& script) {
    put_compact(sink, script.size());
    sink.write(script.data(), script.size());
}
template <class Sink>
void put_outpoint(Sink& sink, const OutPoint& prev) {
    sink.write(prev.id.data(), 32);
    put(sink, prev.index);
}
template <class Sink>
void put_output(Sink& sink, const TxOut& output) {
    put(sink, output.value);
    put_script(sink, output.script);
}
template <class Sink>
void put_tx(Sink& sink, const Tx& tx) {
    put(sink, tx.version);
    put_compact(sink, tx.inputs.size());
    for (const TxIn& input : tx.inputs) {
        put_outpoint(sink, input.prev);
        put_script(sink, input.script);
        put(sink, input.sequence);
    }
    put_compact(sink, tx.outputs.size());
    for (const TxOut& output : tx.outputs) put_output(sink, output);
    put(sink, tx.lock_time);
}
template <class Sink>
void put_header(Sink& sink, const Header& h) {
    put(sink, h.version);
    sink.write(h.prev.data(), 32);
    sink.write(h.root.data(), 32);
    put(sink, h.time);
    put(sink, h.bits);
    put(sink, h.nonce);
}
template <class Sink>
void put_block(Sink& sink, const Block& block) {
    put_header(sink, block.header);
    put_compact(sink, block.txs.size());
    for (const Tx& tx : block.txs) put_tx(sink, tx);
}
inline Hash id_of(const Tx& tx) {
    Writer writer;
    put_tx(writer, tx);
    return writer.finish();
}
inline Hash id_of(const Header& header) {
    Writer writer;
    put_header(writer, header);
    return writer.finish();
}
inline std::vector<Hash> ids_of(const std::vector<Tx>& txs) {
    std::vector<Hash> ids;
    ids.reserve(txs.size());
    for (const Tx& tx : txs) ids.push_back(id_of(tx));
    return ids;
}

struct Reader {
    const uint8_t* at;
    const uint8_t* end;
    void read(void* bytes, size_t count) {
        if (size_t(end - at) < count) throw std::runtime_error("short");
        std::memcpy(bytes, at, count);
        at += count;
    }
    template <class Number>
    Number number() {
        Number n;
        read(&n, sizeof n);
        return n;
    }
    uint64_t compact() {
        uint8_t first = number<uint8_t>();
        uint64_t n = first, least = 0;
        if (first == 0xfd) n = number<uint16_t>(), least = 0xfd;
        if (first == 0xfe) n = number<uint32_t>(), least = 0x10000;
        if (first == 0xff) n = number<uint64_t>(), least = 0x100000000;
        if (n < least || n > 0x02000000) throw std::runtime_error("count");
        return n;
    }
    void script(Script& script) {
        size_t size = compact();
        if (size_t(end - at) < size) throw std::runtime_error("short");
        read(script.make(size), size);
    }
};
inline Tx read_tx(Reader& from) {
    Tx tx;
    tx.version = from.number<int32_t>();
    tx.inputs.resize(std::min<size_t>(from.compact(), (from.end - from.at) / 41));
    for (TxIn& input : tx.inputs) {
        from.read(input.prev.id.data(), 32);
        input.prev.index = from.number<uint32_t>();
        from.script(input.script);
        input.sequence = from.number<uint32_t>();
    }
    tx.outputs.resize(std::min<size_t>(from.compact(), (from.end - from.at) / 9));
    for (TxOut& output : tx.outputs) {
        output.value = from.number<int64_t>();
        from.script(output.script);
    }
    tx.lock_time = from.number<uint32_t>();
    return tx;
}
inline Block read_block(const Bytes& bytes) {
    Reader from{bytes.data(), bytes.data() + bytes.size()};
    Block block;
    Header& h = block.header;
    h.version = from.number<int32_t>();
    from.read(h.prev.data(), 32);
    from.read(h.root.data(), 32);
    h.time = from.number<uint32_t>();
    h.bits = from.number<uint32_t>();
    h.nonce = from.number<uint32_t>();
    uint64_t count = from.compact();
    block.txs.reserve(std::min<size_t>(count, (from.end - from.at) / 10));
    for (uint64_t i = 0; i < count; i++) block.txs.push_back(read_tx(from));
    return block;
}

// The root, and whether two equal ids stand side by side on a level (Bitcoin Core's ComputeMerkleRoot).
inline std::pair<Hash, bool> merkle(std::vector<Hash> level) {
    bool twin = false;
    if (level.empty()) return {Hash{}, false};
    while (level.size() > 1) {
        for (size_t i = 0; i + 1 < level.size(); i += 2) twin |= level[i] == level[i + 1];
        if (level.size() & 1) level.push_back(level.back());
        hash_level(level.data(), level.size() / 2);
        level.resize(level.size() / 2);
    }
    return {level[0], twin};
}

// regtest's target: 7fffff at the top, then zeros.
inline bool meets_target(const Hash& id) {
    if (id[31] != 0x7f) return id[31] < 0x7f;
    if (id[30] != 0xff || id[29] != 0xff) return true;
    return std::all_of(id.begin(), id.begin() + 29, [](uint8_t byte) { return byte == 0; });
}

// The next opcode, and where what it pushes stands.
inline bool next_op(const uint8_t*& at, const uint8_t* end, uint8_t& op, const uint8_t*& data, size_t& size) {
    op = *at++;
    data = nullptr, size = 0;
    if (op > 0x4e) return true;
    size_t width = op < 0x4c ? 0 : op == 0x4c ? 1 : op == 0x4d ? 2 : 4;
    if (size_t(end - at) < width) return false;
    if (width == 0) size = op;
    for (size_t i = 0; i < width; i++) size |= size_t(at[i]) << (8 * i);
    at += width;
    if (size_t(end - at) < size) return false;
    data = at;
    at += size;
    return true;
}
inline unsigned sigops(const Script& script) {
    unsigned count = 0;
    uint8_t op;
    const uint8_t *at = script.begin(), *end = script.end(), *data;
    size_t size;
    while (at < end && next_op(at, end, op, data, size)) {
        if (op == 0xac || op == 0xad) count++;
        if (op == 0xae || op == 0xaf) count += 20;
    }
    return count;
}
inline bool check_tx(const Tx& tx) {
    const int64_t max_money = 2100000000000000;
    SizeSink sink;
    put_tx(sink, tx);
    if (tx.inputs.empty() || tx.outputs.empty() || sink.size > 1000000) return false;
    int64_t sum = 0;
    for (const TxOut& output : tx.outputs) {
        if (output.value < 0 || output.value > max_money) return false;
        if ((sum += output.value) > max_money) return false;
    }
    std::set<OutPoint> seen;
    for (const TxIn& input : tx.inputs)
        if (!seen.insert(input.prev).second) return false;
    if (tx.is_coinbase()) return tx.inputs[0].script.size() >= 2 && tx.inputs[0].script.size() <= 100;
    for (const TxIn& input : tx.inputs)
        if (input.prev.is_null()) return false;
    return true;
}
// Bitcoin Core's CheckBlock, with the transactions' ids.
inline bool block_alone(const Block& block, const std::vector<Hash>& ids) {
    if (!meets_target(id_of(block.header))) return false;
    auto [root, twin] = merkle(ids);
    if (root != block.header.root || twin) return false;
    SizeSink sink;
    put_block(sink, block);
    if (block.txs.empty() || sink.size > 1000000) return false;
    if (!block.txs[0].is_coinbase()) return false;
    for (size_t i = 1; i < block.txs.size(); i++)
        if (block.txs[i].is_coinbase()) return false;
    unsigned count = 0;
    for (const Tx& tx : block.txs) {
        if (!check_tx(tx)) return false;
        for (const TxIn& input : tx.inputs) count += sigops(input.script);
        for (const TxOut& output : tx.outputs) count += sigops(output.script);
    }
    return count <= 20000;
}
