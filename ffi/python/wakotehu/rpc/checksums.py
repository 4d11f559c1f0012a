"""The checksum of a descriptor (BIP 380), in a time that is linear: a text may have as many characters as a request's body."""

_CHARSET = b"0123456789()[],'/*abcdefgh@:$%{}IJKLMNOPQRSTUVWXYZ&+-.;<=>?!^_|~ijklmnopqrstuvwxyzABCDEFGH`#\"\\ "
_CHECKSUM = "qpzry9x8gf2tvdw0s3jn54khce6mua7l"
#: The checksum's generator: x^8 is this polynomial of degree 7 over the field of 32 elements, five bits each.
_GENERATOR = 0xF5DEE51989
#: x^5 in that field: x^3 + 1.
_FIELD = 0b101001
#: So many symbols or signs are few.
_FEW = 300


def _product(one: int, other: int) -> int:
    """The product of two elements."""
    found = 0
    for bit in range(4, -1, -1):
        found <<= 1
        found ^= (_FIELD if found & 32 else 0) ^ (one if other >> bit & 1 else 0)
    return found


#: Products by each element, of a symbol or of eight symbols as a number.
_TIMES = [bytes(_product(factor, symbol & 31) for symbol in range(256)) for factor in range(32)]
_ADDED = [
    sum(_TIMES[factor][_GENERATOR >> 5 * place & 31] << 5 * place for place in range(8)) for factor in range(32)
]
#: The low five bits of a sign, its high ones, and these by where it stands among three.
_LOW = bytes.maketrans(_CHARSET, bytes(place & 31 for place in range(len(_CHARSET))))
_HIGH = bytes.maketrans(_CHARSET, bytes(place >> 5 for place in range(len(_CHARSET))))
_HIGHS = [bytes(each * high & 31 for high in range(256)) for each in (9, 3, 1)]
_PAIRS = [one + other for one in _CHECKSUM for other in _CHECKSUM]


def is_spelled(descriptor: str) -> bool:
    """Whether all characters have a place in descriptors."""
    return descriptor.isascii() and not descriptor.encode().translate(None, _CHARSET)


def checksum(descriptor: str) -> str:
    """The checksum of a descriptor; empty where a character has no place in one."""
    if not is_spelled(descriptor):
        return ""
    signs = descriptor.encode()
    if len(signs) > _FEW:
        symbols = b"\1" + _symbols(signs) + bytes(8)
        while len(symbols) > _FEW:
            symbols = _folded(symbols)
        state = _rest(symbols) ^ 1
    else:
        state = _rest_of_few(signs) ^ 1
    return _PAIRS[state >> 30] + _PAIRS[state >> 20 & 1023] + _PAIRS[state >> 10 & 1023] + _PAIRS[state & 1023]


def _symbols(signs: bytes) -> bytes:
    """The low five bits of each sign, and behind three signs, or the last, their high ones."""
    whole = len(signs) // 3 * 3 if len(signs) > _FEW else 0
    found = bytearray(_of_threes(signs[:whole]) if whole else b"")
    for begin in range(whole, len(signs), 3):
        group, high = signs[begin : begin + 3], 0
        for own in group.translate(_HIGH):
            high = 3 * high + own
        found += group.translate(_LOW)
        found.append(high)
    return bytes(found)


def _of_threes(signs: bytes) -> bytes:
    """The same of many threes, all at once: no sum of high bits is above 26, so that they are added as one number."""
    count, high = len(signs) // 3, signs.translate(_HIGH)
    found, sums = bytearray(4 * count), 0
    for place in range(3):
        found[place::4] = signs[place::3].translate(_LOW)
        sums += int.from_bytes(high[place::3].translate(_HIGHS[place]), "big")
    found[3::4] = sums.to_bytes(count, "big")
    return bytes(found)


def _rest(symbols: bytes, state: int = 0) -> int:
    """The rest of a polynomial by the generator, as a number of eight symbols, behind what has the rest `state`."""
    for symbol in symbols:
        state = (state & 0x7FFFFFFFF) << 5 ^ symbol ^ _ADDED[state >> 35]
    return state


#: The four symbols of three signs as a sum, by each sign; and what is added for the symbols that leave the state then.
_THREE = [[(_LOW[sign] << shift) + _HIGHS[place][_HIGH[sign]] for sign in range(256)] for place, shift in enumerate((15, 10, 5))]
_FAR, _NEAR = ([_rest(bytes(4), pair << shift) for pair in range(1024)] for shift in (30, 20))


def _rest_of_few(signs: bytes) -> int:
    """The same of a few signs, three at once, and of eight zeros."""
    (one, two, three), state = _THREE, 1
    for first, second, third in zip(signs[::3], signs[1::3], signs[2::3]):
        state = (state & 0xFFFFF) << 20 ^ one[first] + two[second] + three[third] ^ _FAR[state >> 30] ^ _NEAR[state >> 20 & 1023]
    if len(signs) % 3:
        state = _rest(_symbols(signs[len(signs) // 3 * 3 :]), state)
    for _ in range(2):
        state = (state & 0xFFFFF) << 20 ^ _FAR[state >> 30] ^ _NEAR[state >> 20 & 1023]
    return state


def _powers() -> "list[bytes]":
    """The rests of x^8, x^16, x^32, and so on, the highest symbol first."""
    found = [_GENERATOR]
    for _ in range(30):
        # A square has the squares of the symbols at the even powers.
        squares = [_TIMES[symbol][symbol] for symbol in _spelled(found[-1])]
        found.append(_rest(b"\0".join(map(_one, squares))))
    return [bytes(_spelled(power)) for power in found]


def _spelled(state: int) -> "list[int]":
    return [state >> 5 * place & 31 for place in range(7, -1, -1)]


def _one(symbol: int) -> bytes:
    return bytes([symbol])


_POWERS = _powers()


def _folded(symbols: bytes) -> bytes:
    """Fewer symbols with the same rest: those above a power of x are multiplied by that power's rest."""
    power = (len(symbols) - 1).bit_length() - 1
    upper, lower = symbols[: -(1 << power)], symbols[-(1 << power) :]
    found = int.from_bytes(lower, "big")
    for place, factor in enumerate(reversed(_POWERS[power - 3])):
        found ^= int.from_bytes(upper.translate(_TIMES[factor]), "big") << 8 * place
    return found.to_bytes(max(len(lower), len(upper) + 7), "big")
