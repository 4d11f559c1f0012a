#include "grammar.hpp"

#include "reading/script.hpp"

namespace fuzz {

using namespace reading;

uint32_t Source::take_number(size_t bytes) {
    uint32_t value = 0;
    for (size_t n = 0; n < bytes; n++)
        value |= uint32_t(take()) << 8 * n;
    return value;
}

Bytes Source::take_bytes(size_t length) {
    Bytes taken;
    while (taken.size() < length)
        taken.push_back(take());
    return taken;
}

static void add(Bytes &to, const Bytes &bytes) { to.insert(to.end(), bytes.begin(), bytes.end()); }
static void add_push(Bytes &to, const Bytes &data) { add(to, push_of(data)); }

/* The opcode of a number where there is one, else a push. */
static void add_number(Bytes &to, int64_t value) {
    if (value == 0)
        to.push_back(OP_0);
    else if (value >= -1 && value <= 16)
        to.push_back(uint8_t(0x50 + value));
    else
        add_push(to, number_bytes(value));
}

Bytes number(Source &source) {
    static const int64_t values[] = {
        -1, 0, 1, 2, 3, 4, 16, 17, 19, 20, 21, 75, 76, 127, 128, -127, -128, 200, 201, 255, 256, 519, 520, 521, 32767, 32768,
        65535, 65536, (1 << 22) - 1, 1 << 22, 1 << 22 | 5, 1 << 22 | 65535, 499999999, 500000000, 500000001, 2147483647,
        -2147483647, 2147483648, -2147483648, 2147483653, 4294967295, 4294967296, 549755813887, -549755813887, 549755813888,
        -1, 0, 1, 2, 3, -2, 5, 6, 7, 8,
    };
    const uint8_t kind = source.take();
    Bytes spelled = number_bytes(source.pick(values));
    if (kind >= 250 && !spelled.empty()) {
        /* The same number with a needless byte. */
        const uint8_t sign = spelled.back() & 0x80;
        spelled.back() &= 0x7f;
        spelled.push_back(sign);
    } else if (kind >= 244)
        spelled = kind >= 247 ? Bytes{0x80} : Bytes{0, 0, 0x80};
    return spelled;
}

/* DER of a few bytes, sometimes with one fault, and a hash type behind it. Its last byte before that is its mark. */
Bytes signature(Source &source, uint8_t mark) {
    static const Bytes numbers[] = {{1}, {1}, {0x7f}, {0, 0x80}, {0, 0xff, 1}, {5, 6}, {0}, {0x80}, {0, 1}, {}};
    static const uint8_t kinds[] = {1, 1, 2, 3, 0x81, 0x82, 0x83, 0, 4, 0x41, 0x43, 0xff};
    const uint8_t choice = source.take();
    const Bytes r = source.pick(numbers);
    Bytes s = choice & 64 ? Bytes{uint8_t(choice & 1), mark} : Bytes{mark};
    if (choice >= 252)
        s = Bytes(size_t(66 + (choice & 3)), 1);
    Bytes made = {0x30, uint8_t(4 + r.size() + s.size()), 2, uint8_t(r.size())};
    add(made, r);
    made.push_back(2), made.push_back(uint8_t(s.size()));
    add(made, s);
    const uint8_t kind = source.pick(kinds);
    if ((choice & 0x38) == 0x38)
        made[source.take() % made.size()] ^= source.take();
    made.push_back(kind);
    if ((choice & 0x3f) == 0x0f) /* the length of S */
        made[5 + r.size()] += uint8_t(choice & 64 ? 1 : 0xff);
    if ((choice & 0x3f) == 0x07)
        made.resize(source.take() % made.size());
    return made;
}

/* Not always the length of a real key; its last byte is its mark. */
Bytes key(Source &source, uint8_t mark) {
    static const size_t lengths[] = {1, 2, 33, 0};
    Bytes made(source.pick(lengths), 2);
    if (!made.empty())
        made.back() = mark;
    return made;
}

Bytes element(Source &source) {
    const uint8_t kind = source.take();
    if (kind < 140)
        return number(source);
    if (kind < 180)
        return source.take_bytes(kind % 24);
    if (kind < 210)
        return signature(source, kind & 3);
    if (kind < 240)
        return key(source, kind & 3);
    return Bytes(kind < 248 ? 32u << (kind & 7) : 520u, source.take());
}

static void add_opcode(Bytes &to, Source &source) {
    const uint8_t number = source.take();
    if (number == 0 || number > OP_PUSHDATA4) {
        to.push_back(number);
        return;
    }
    /* A push: its bytes are all the same. */
    const uint8_t fill = source.take();
    const size_t length = number < OP_PUSHDATA1 ? number : fill;
    to.push_back(number);
    if (number >= OP_PUSHDATA1)
        write_number(to, length, size_t(1) << (number - OP_PUSHDATA1));
    to.insert(to.end(), length, fill);
}

/* An opcode behind as many numbers as it takes. */
static void add_operation(Bytes &to, Source &source) {
    static const uint8_t operations[] = {
        0x63, 0x64, 0x69, 0x6b, 0x6c, 0x6d, 0x6e, 0x6f, 0x70, 0x71, 0x72, 0x73, 0x74, 0x75, 0x76, 0x77, 0x78, 0x79, 0x7a,
        0x7b, 0x7c, 0x7d, 0x82, 0x87, 0x88, 0x8b, 0x8c, 0x8f, 0x90, 0x91, 0x92, 0x93, 0x94, 0x9a, 0x9b, 0x9c, 0x9d, 0x9e,
        0x9f, 0xa0, 0xa1, 0xa2, 0xa3, 0xa4, 0xa5, 0xa6, 0xa7, 0xa8, 0xa9, 0xaa, 0xac, 0xad, 0xae, 0xaf, 0xb1, 0xb2,
    };
    const uint8_t shape = source.take();
    for (uint8_t n = 0; n < (shape & 3) + (shape >= 240 ? 3 : 0); n++)
        if (shape & 4)
            add_number(to, source.take() % 8 - 2);
        else
            add_push(to, number(source));
    to.push_back(source.pick(operations));
}

static void add_checksig(Bytes &to, Source &source) {
    const uint8_t shape = source.take();
    add_push(to, signature(source, shape & 3));
    add_push(to, key(source, shape >> 2 & 3));
    if (shape & 64)
        to.push_back(OP_CODESEPARATOR);
    to.push_back(shape & 128 ? OP_CHECKSIGVERIFY : OP_CHECKSIG);
}

/* The signatures' marks and the keys' both rise, so that some of them match. */
static void add_multisig(Bytes &to, Source &source) {
    const uint8_t shape = source.take();
    const size_t keys = shape < 240 ? shape % 4 : shape % 22, signatures = source.take() % (keys + 2);
    if (shape & 64)
        to.push_back(OP_0);
    for (size_t n = 0; n < signatures; n++)
        add_push(to, signature(source, uint8_t(n + (shape >> 4 & 1))));
    add_number(to, int64_t(signatures));
    for (size_t n = 0; n < keys; n++)
        add_push(to, key(source, uint8_t(n)));
    add_number(to, int64_t(keys));
    to.push_back(shape & 128 ? OP_CHECKMULTISIGVERIFY : OP_CHECKMULTISIG);
}

/* A lock that is met, or nearly. */
static void add_lock(Bytes &to, Source &source, const Locks &locks) {
    static const int64_t changes[] = {0, 0, 1, -1, 1 << 22, 1 << 16, int64_t(1) << 31, 500000000, -500000000};
    const uint8_t shape = source.take();
    const int64_t base = shape & 1 ? locks.lock_time : locks.sequence;
    add_number(to, shape & 2 ? number_value(number(source)) : base + source.pick(changes));
    to.push_back(shape & 1 ? OP_CLTV : OP_CSV);
    if (shape & 4)
        to.push_back(0x75);
}

static void add_condition(Bytes &to, uint8_t choice) {
    static const Bytes parts[] = {{0x51, OP_IF}, {0x00, OP_IF}, {OP_ELSE}, {OP_ENDIF}, {0x51, OP_NOTIF}, {0x00, OP_NOTIF},
                                  {OP_ENDIF}, {0x00, OP_IF}};
    add(to, parts[choice & 7]);
}

/* Data and its hash, which are equal or nearly. */
static void add_hash(Bytes &to, Source &source) {
    const uint8_t shape = source.take();
    const Bytes data = source.take_bytes(shape & 7);
    Bytes hash = hash160(data);
    hash[0] ^= uint8_t(shape >= 224);
    add_push(to, data);
    to.push_back(OP_HASH160);
    add_push(to, hash);
    to.push_back(shape & 8 ? OP_EQUAL : 0x88);
}

/* What few bytes spell and limits are about: a full stack, 201 opcodes, long pushes, a long script, a cut push. */
static void add_large(Bytes &to, Source &source) {
    const uint8_t kind = source.take(), size = source.take();
    switch (kind % 8) {
    case 0:
        to.insert(to.end(), 398u + size % 5, 0x51);
        return to.insert(to.end(), 200u + (size >> 6), 0x6f), void();
    case 1: return to.insert(to.end(), 195u + size % 8, uint8_t(size < 128 ? 0x61 : 0x76)), void();
    case 2: {
        const size_t length = 517u + size % 6;
        to.push_back(size < 128 ? OP_PUSHDATA2 : OP_PUSHDATA4);
        write_number(to, length, size < 128 ? 2 : 4);
        return to.insert(to.end(), length, kind), void();
    }
    case 3: {
        const size_t length = 9900u + size;
        while (to.size() + 523 < length)
            add_push(to, Bytes(520, 1));
        return to.insert(to.end(), length > to.size() ? length - to.size() : 0, 0x61), void();
    }
    case 4: return to.insert(to.end(), size, source.take()), void();
    case 5: return to.push_back(uint8_t(kind < 128 ? OP_PUSHDATA1 + size % 3 : size));
    case 6: {
        to.push_back(uint8_t(OP_PUSHDATA1 + kind / 8 % 3));
        return add(to, source.take_bytes(size & 3));
    }
    default: return to.insert(to.end(), 190u + size % 16, 0xac), void();
    }
}

/* One item; false where it ends the script. */
static bool add_item(Bytes &to, Source &source, const Locks &locks) {
    const uint8_t kind = source.take();
    if (kind < 40)
        add_opcode(to, source);
    else if (kind < 64)
        add_number(to, kind % 18 - 1);
    else if (kind < 88)
        add_push(to, number(source));
    else if (kind < 140)
        add_operation(to, source);
    else if (kind < 150)
        add_push(to, element(source));
    else if (kind < 166)
        add_checksig(to, source);
    else if (kind < 182)
        add_multisig(to, source);
    else if (kind < 200)
        add_lock(to, source, locks);
    else if (kind < 224)
        add_condition(to, kind);
    else if (kind < 232)
        add_hash(to, source);
    else if (kind < 236)
        add_large(to, source);
    else if (kind < 240)
        to.push_back(OP_CODESEPARATOR);
    else if (kind < 244)
        add_opcode(to, source);
    else
        return false;
    return true;
}

Bytes script(Source &source, const Locks &locks) {
    Bytes made;
    while (!source.ended() && made.size() < 12000 && add_item(made, source, locks))
        ;
    return made;
}

Tx transaction(Source &source) {
    static const int32_t versions[] = {1, 2, 3, 0, -1, INT32_MIN, INT32_MAX, 2};
    static const uint32_t lock_times[] = {0, 1, 17, 100, 499999999, 500000000, 500000001, 0xffffffff};
    static const uint32_t sequences[] = {0, 1, 5, 65535, 0xffffffff, 0xfffffffe, 1u << 22 | 5, 1u << 31, 1u << 31 | 5, 1u << 22};
    const uint8_t shape = source.take();
    Tx tx;
    tx.version = source.pick(versions);
    tx.lock_time = source.pick(lock_times);
    for (uint8_t n = 0; n < (shape & 3) + 1; n++) {
        Id id{};
        id[0] = uint8_t(n + 7);
        tx.inputs.push_back({{id, n}, Bytes(n, 0x51), source.pick(sequences)});
    }
    for (uint8_t n = 0; n < (shape >> 2 & 3); n++)
        tx.outputs.push_back({n + 1, Bytes(n, 0x52)});
    return tx;
}

static const int64_t VALUES[] = {0, 1, COIN, 50 * COIN, MAX_MONEY - 1, MAX_MONEY, MAX_MONEY + 1, -1, INT64_MIN, INT64_MAX, 3};

/* Scripts that matter for limits of a block. A block of a million bytes takes as long as a thousand others, so few are made. */
static Bytes counted_script(Source &source) {
    const uint8_t kind = source.take(), size = source.take();
    switch (kind % 16) {
    case 0: return Bytes(250u + size % 8, kind);
    case 1: return Bytes(size, kind < 128 ? OP_CHECKSIG : OP_CHECKMULTISIG);
    case 2: return Bytes(996u + size % 8, OP_CHECKMULTISIG);
    case 3: return Bytes{OP_RETURN, size};
    case 4: return kind < 32 ? Bytes(65533u + size % 6, 0x61) : Bytes(size % 104, 1);
    case 5: return kind == 5 && source.take() >= 248 ? Bytes(999700u + size * 2u, 0x61) : Bytes(9998u + size % 4, 0x51);
    default: return script(source, {0, 0});
    }
}

static Tx coinbase(Source &source, uint32_t height) {
    static const size_t lengths[] = {8, 8, 8, 8, 0, 1, 2, 3, 99, 100, 101, 102};
    const uint8_t shape = source.take();
    Tx tx = transaction(source);
    tx.inputs.resize(1);
    tx.inputs[0].spent = {Id{}, shape >= 250 ? 0 : 0xffffffff};
    if (shape < 200)
        tx.lock_time = 0;
    Bytes own = height_push(shape & 32 ? height + source.take() % 3 - 1 : height);
    if (shape & 16 || height > 16)
        own.resize(source.pick(lengths), 1);
    if (shape & 8 && height <= 16)
        own = {1, uint8_t(height)};
    tx.inputs[0].script = own;
    if (tx.outputs.empty() && shape < 240)
        tx.outputs.push_back({0, {}});
    return tx;
}

static Tx spender(Source &source) {
    Tx tx = transaction(source);
    const uint8_t shape = source.take();
    if (shape < 200)
        tx.lock_time = 0;
    if (shape == 255)
        tx.inputs.clear();
    if (shape >= 245 && !tx.inputs.empty())
        tx.inputs.back().spent = shape < 250 ? OutPoint{Id{}, 0xffffffff} : tx.inputs[0].spent;
    if (tx.outputs.empty() && shape < 240)
        tx.outputs.push_back({1, {}});
    if (shape & 1)
        for (Output &output : tx.outputs)
            output = {source.pick(VALUES), counted_script(source)};
    if (shape & 2 && !tx.inputs.empty())
        tx.inputs[0].script = counted_script(source);
    return tx;
}

Block block(Source &source, uint32_t height) {
    static const int32_t versions[] = {4, 4, 4, 3, 2, 1, 0, -1, INT32_MIN, 0x20000000, 5};
    static const uint32_t times[] = {1296688602, 1296688603, 1296695802, 1296695803, 0, 1, 7200, 7201, 0xffffffff, 500000001};
    const uint8_t shape = source.take();
    Block block{{source.pick(versions), Id{}, Id{}, source.pick(times), REGTEST_BITS, 0}, {}};
    block.header.parent[0] = source.take();
    if (shape >= 240)
        block.header.bits ^= uint32_t(1) << shape % 32;
    if (shape % 32 != 31)
        block.txs.push_back(coinbase(source, height));
    for (uint8_t n = 0; n < (shape & 3); n++)
        block.txs.push_back(shape / 4 % 16 == 1 && n == 1 ? coinbase(source, height) : spender(source));
    if (shape / 4 % 8 == 2 && !block.txs.empty()) /* twins, one or two */
        for (size_t twins = 1 + block.txs.size() / 4; twins > 0; twins--)
            block.txs.push_back(Tx(block.txs[block.txs.size() - 1 - block.txs.size() / 4]));
    finish(block, shape / 8 % 8 != 3, shape / 8 % 8 != 4);
    return block;
}

void finish(Block &block, bool rooted, bool mined) {
    std::vector<Id> ids;
    for (const Tx &tx : block.txs)
        ids.push_back(id_of(tx));
    if (rooted)
        block.header.root = merkle(ids).root;
    while (mined && !meets_target(id_of(block.header)))
        block.header.nonce++;
}

} // namespace fuzz
