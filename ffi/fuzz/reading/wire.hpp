/* Transactions and blocks as bytes (RULES.md, "Numbers and counts" to "Blk files"). */
#ifndef READING_WIRE_HPP
#define READING_WIRE_HPP

#include "bytes.hpp"

namespace reading {

enum class Fault { none, cut_short, long_form, too_large, extra };

constexpr uint64_t MAX_SIZE = 33554432;

struct OutPoint {
    Id id;
    uint32_t index;
    bool is_null() const { return id == Id{} && index == 0xffffffff; }
    bool operator<(const OutPoint &other) const { return id != other.id ? id < other.id : index < other.index; }
    bool operator==(const OutPoint &other) const { return id == other.id && index == other.index; }
};

struct Input {
    OutPoint spent;
    Bytes script;
    uint32_t sequence;
};

struct Output {
    int64_t value;
    Bytes script;
};

struct Tx {
    int32_t version;
    std::vector<Input> inputs;
    std::vector<Output> outputs;
    uint32_t lock_time;
    bool is_coinbase() const { return inputs.size() == 1 && inputs[0].spent.is_null(); }
};

struct Header {
    int32_t version;
    Id parent, root;
    uint32_t time, bits, nonce;
};

struct Block {
    Header header;
    std::vector<Tx> txs;
};

/* Reads from left to right. After the first fault every part is 0 or empty, and the fault stays. */
class Reader {
  public:
    Reader(const uint8_t *bytes, size_t length) : at(bytes), left(length) {}
    uint64_t number(size_t bytes);
    uint64_t count();
    Bytes bytes(uint64_t length);
    Id id();
    Tx tx();
    Block block();
    bool ok() const { return fault == Fault::none; }

    const uint8_t *at;
    size_t left;
    Fault fault = Fault::none;

  private:
    const uint8_t *take(uint64_t length);
    void refuse(Fault found) {
        if (ok())
            fault = found;
    }
};

/* Bytes behind a block are refused. */
Fault read_block(const Bytes &bytes, Block &block);

void write_number(Bytes &to, uint64_t value, size_t bytes);
void write_count(Bytes &to, uint64_t value);
Bytes write(const Tx &tx);
Bytes write(const Header &header);
Bytes write(const Block &block);

Id id_of(const Tx &tx);
Id id_of(const Header &header);

/* A record of a blk file: its block's length; or how the file ends there. */
enum class Record { block, end, foreign, too_long, cut };
Record read_record(const Bytes &bytes, uint64_t &length);

} // namespace reading

#endif
