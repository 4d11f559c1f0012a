#include "wire.hpp"

#include "cases.hpp"

#include <algorithm>
#include <cstddef>

namespace reading {

const uint8_t *Reader::take(uint64_t length) {
    if (length > left)
        refuse(Fault::cut_short);
    if (!ok())
        return nullptr;
    const uint8_t *taken = at;
    at += length, left -= length;
    return taken;
}

/* The lowest byte comes first. */
uint64_t Reader::number(size_t bytes) {
    const uint8_t *taken = take(bytes);
    uint64_t value = 0;
    for (size_t n = 0; taken && n < bytes; n++)
        value |= uint64_t(taken[n]) << 8 * n;
    return value;
}

uint64_t Reader::count() {
    const uint64_t first = number(1);
    if (first < 0xfd)
        return first;
    const size_t width = first == 0xfd ? 2 : first == 0xfe ? 4 : 8;
    const uint64_t least = first == 0xfd ? 253 : first == 0xfe ? 0x10000 : 0x100000000;
    const uint64_t value = number(width);
    if (!ok())
        return 0;
    if (value < least) {
        MET("count: not in the shortest form");
        refuse(Fault::long_form);
    } else if (value > MAX_SIZE) {
        MET("count: too large");
        refuse(Fault::too_large);
    } else if (width == 2)
        MET("count: of two bytes");
    else
        MET("count: of four bytes");
    return ok() ? value : 0;
}

Bytes Reader::bytes(uint64_t length) {
    const uint8_t *taken = take(length);
    return taken ? Bytes(taken, taken + length) : Bytes();
}

Id Reader::id() {
    Id id{};
    if (const uint8_t *taken = take(32))
        std::copy(taken, taken + 32, id.begin());
    return id;
}

Tx Reader::tx() {
    Tx tx;
    tx.version = int32_t(number(4));
    for (uint64_t n = count(); n > 0 && ok(); n--) {
        Input input;
        input.spent.id = id();
        input.spent.index = uint32_t(number(4));
        input.script = bytes(count());
        input.sequence = uint32_t(number(4));
        tx.inputs.push_back(input);
    }
    for (uint64_t n = count(); n > 0 && ok(); n--) {
        Output output;
        output.value = int64_t(number(8));
        output.script = bytes(count());
        tx.outputs.push_back(output);
    }
    tx.lock_time = uint32_t(number(4));
    if (!ok())
        MET("transaction: its bytes are refused");
    return tx;
}

Block Reader::block() {
    Block block;
    block.header.version = int32_t(number(4));
    block.header.parent = id();
    block.header.root = id();
    block.header.time = uint32_t(number(4));
    block.header.bits = uint32_t(number(4));
    block.header.nonce = uint32_t(number(4));
    for (uint64_t n = count(); n > 0 && ok(); n--)
        block.txs.push_back(tx());
    return block;
}

Fault read_block(const Bytes &bytes, Block &block) {
    Reader reader(bytes.data(), bytes.size());
    block = reader.block();
    if (reader.ok() && reader.left) {
        MET("block: bytes behind it");
        return Fault::extra;
    }
    return reader.fault;
}

void write_number(Bytes &to, uint64_t value, size_t bytes) {
    for (size_t n = 0; n < bytes; n++)
        to.push_back(uint8_t(value >> 8 * n));
}

void write_count(Bytes &to, uint64_t value) {
    const size_t width = value < 0xfd ? 1 : value < 0x10000 ? 2 : value < 0x100000000 ? 4 : 8;
    if (width > 1)
        to.push_back(width == 2 ? 0xfd : width == 4 ? 0xfe : 0xff);
    write_number(to, value, width);
}

static void write_bytes(Bytes &to, const Bytes &bytes) {
    write_count(to, bytes.size());
    to.insert(to.end(), bytes.begin(), bytes.end());
}

Bytes write(const Tx &tx) {
    Bytes to;
    write_number(to, uint32_t(tx.version), 4);
    write_count(to, tx.inputs.size());
    for (const Input &input : tx.inputs) {
        to.insert(to.end(), input.spent.id.begin(), input.spent.id.end());
        write_number(to, input.spent.index, 4);
        write_bytes(to, input.script);
        write_number(to, input.sequence, 4);
    }
    write_count(to, tx.outputs.size());
    for (const Output &output : tx.outputs) {
        write_number(to, uint64_t(output.value), 8);
        write_bytes(to, output.script);
    }
    write_number(to, tx.lock_time, 4);
    return to;
}

Bytes write(const Header &header) {
    Bytes to;
    write_number(to, uint32_t(header.version), 4);
    to.insert(to.end(), header.parent.begin(), header.parent.end());
    to.insert(to.end(), header.root.begin(), header.root.end());
    write_number(to, header.time, 4);
    write_number(to, header.bits, 4);
    write_number(to, header.nonce, 4);
    return to;
}

Bytes write(const Block &block) {
    Bytes to = write(block.header);
    write_count(to, block.txs.size());
    for (const Tx &tx : block.txs) {
        const Bytes bytes = write(tx);
        to.insert(to.end(), bytes.begin(), bytes.end());
    }
    return to;
}

Id id_of(const Tx &tx) { return double_sha(write(tx)); }
Id id_of(const Header &header) { return double_sha(write(header)); }

/* Too long comes before cut, whatever follows the length. */
Record read_record(const Bytes &bytes, uint64_t &length) {
    static const Bytes magic = {0xfa, 0xbf, 0xb5, 0xda};
    if (std::all_of(bytes.begin(), bytes.end(), [](uint8_t byte) { return byte == 0; })) {
        MET("record: the end, zero bytes alone");
        return Record::end;
    }
    if (bytes.size() < 4 || !std::equal(magic.begin(), magic.end(), bytes.begin())) {
        MET("record: foreign");
        return Record::foreign;
    }
    Reader reader(bytes.data() + 4, bytes.size() - 4);
    length = reader.number(4);
    if (reader.ok() && length > MAX_SIZE) {
        MET("record: too long");
        return Record::too_long;
    }
    if (!reader.ok() || length > reader.left) {
        MET("record: cut");
        return Record::cut;
    }
    MET("record: a block");
    return Record::block;
}

} // namespace reading
