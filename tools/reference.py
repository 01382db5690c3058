"""A second implementation of what the library seals with, written from the standards for comparison: short, slow, and no part of
the product. Blocks and texts are `bytes`."""

BLOCK = 16


def xor(a, b):
    return bytes(x ^ y for x, y in zip(a, b))


# ---- AES-128 (FIPS 197), by its own steps

def gmul(a, b):
    r = 0
    while b:
        if b & 1:
            r ^= a
        a <<= 1
        if a & 0x100:
            a ^= 0x11B
        b >>= 1
    return r


def make_sbox():
    box = []
    for b in range(256):
        inverse = next((c for c in range(256) if gmul(b, c) == 1), 0)
        s = 0x63
        for i in range(5):
            s ^= (inverse << i | inverse >> (8 - i)) & 0xFF
        box.append(s)
    return box


SBOX = make_sbox()
INV_SBOX = [SBOX.index(b) for b in range(256)]


def expand(key):
    words = [list(key[4 * i:4 * i + 4]) for i in range(4)]
    rcon = 1
    for i in range(4, 44):
        t = list(words[i - 1])
        if i % 4 == 0:
            t = [SBOX[b] for b in t[1:] + t[:1]]
            t[0] ^= rcon
            rcon = gmul(rcon, 2)
        words.append([a ^ b for a, b in zip(words[i - 4], t)])
    return [sum(words[4 * r:4 * r + 4], []) for r in range(11)]


def shift(state, sign):
    return [state[(c + sign * r) % 4 * 4 + r] for c in range(4) for r in range(4)]


def mix(state, row):
    out = []
    for c in range(4):
        col = state[4 * c:4 * c + 4]
        for r in range(4):
            v = 0
            for j in range(4):
                v ^= gmul(row[(j - r) % 4], col[j])
            out.append(v)
    return out


class Aes128:
    def __init__(self, key):
        self.keys = expand(key)

    def seal(self, block):
        s = [a ^ b for a, b in zip(block, self.keys[0])]
        for r in range(1, 11):
            s = shift([SBOX[b] for b in s], 1)
            if r < 10:
                s = mix(s, (2, 3, 1, 1))
            s = [a ^ b for a, b in zip(s, self.keys[r])]
        return bytes(s)

    def open(self, block):
        s = [a ^ b for a, b in zip(block, self.keys[10])]
        for r in range(9, -1, -1):
            s = [INV_SBOX[b] for b in shift(s, -1)]
            s = [a ^ b for a, b in zip(s, self.keys[r])]
            if r > 0:
                s = mix(s, (14, 11, 13, 9))
        return bytes(s)


# ---- Speck128/128

MASK = 2 ** 64 - 1


def ror(x, n):
    return (x >> n | x << (64 - n)) & MASK


def speck_round(x, y, k):
    x = (ror(x, 8) + y & MASK) ^ k
    return x, ror(y, 61) ^ x


def speck_unround(x, y, k):
    y = ror(y ^ x, 3)
    return ror((x ^ k) - y & MASK, 56), y


def words(block):
    return int.from_bytes(block[8:], 'little'), int.from_bytes(block[:8], 'little')


class Speck128:
    def __init__(self, key):
        left, right = words(key)
        self.keys = []
        for i in range(32):
            self.keys.append(right)
            left, right = speck_round(left, right, i)

    def seal(self, block):
        x, y = words(block)
        for k in self.keys:
            x, y = speck_round(x, y, k)
        return y.to_bytes(8, 'little') + x.to_bytes(8, 'little')

    def open(self, block):
        x, y = words(block)
        for k in reversed(self.keys):
            x, y = speck_unround(x, y, k)
        return y.to_bytes(8, 'little') + x.to_bytes(8, 'little')


# ---- the product and the hash of SP 800-38D, by the steps of its section 6.3

def product(x, y):
    x, v = int.from_bytes(x, 'big'), int.from_bytes(y, 'big')
    z = 0
    for i in range(127, -1, -1):
        if x >> i & 1:
            z ^= v
        v = v >> 1 ^ (0xE1 << 120 if v & 1 else 0)
    return z.to_bytes(16, 'big')


def blocks(text):
    return [text[i:i + BLOCK] for i in range(0, len(text), BLOCK)]


def hash_blocks(h, text):
    y = bytes(16)
    for b in blocks(text):
        y = product(xor(y, b), h)
    return y


# ---- the modes

class Refused(Exception):
    pass


def check(text):
    if len(text) % 16 or not 32 <= len(text) <= 4096:
        raise Refused(1)


def double(t):
    n = int.from_bytes(t, 'little') << 1
    if n >> 128:
        n = n & (1 << 128) - 1 ^ 0x87
    return n.to_bytes(16, 'little')


class Xts:
    def __init__(self, cipher, first, second):
        self.first, self.second = cipher(first), cipher(second)

    def turn(self, function, tweak, text):
        check(text)
        t, out = self.second.seal(tweak), b''
        for b in blocks(text):
            out += xor(function(xor(b, t)), t)
            t = double(t)
        return out

    def seal(self, tweak, text):
        return self.turn(self.first.seal, tweak, text)

    def open(self, tweak, text):
        return self.turn(self.first.open, tweak, text)


def num(i):
    return i.to_bytes(16, 'big')


class Xcb:
    def __init__(self, cipher, key):
        k = cipher(key)
        self.h = k.seal(num(0))
        self.e, self.d, self.c = (cipher(k.seal(num(i))) for i in (1, 3, 5))

    def stream(self, z, text):
        return b''.join(xor(b, self.c.seal(xor(z, num(j)))) for j, b in enumerate(blocks(text)))

    def plain_hash(self, tweak, left):
        return hash_blocks(self.h, bytes(16) + tweak + left + bytes(16))

    def sealed_hash(self, tweak, left):
        lengths = (256).to_bytes(8, 'big') + (8 * len(left)).to_bytes(8, 'big')
        return hash_blocks(self.h, tweak + bytes(16) + left + lengths)

    def seal(self, tweak, text):
        check(text)
        left, right = text[:-16], text[-16:]
        z = xor(self.e.seal(right), self.plain_hash(tweak, left))
        left = self.stream(z, left)
        return left + self.d.open(xor(z, self.sealed_hash(tweak, left)))

    def open(self, tweak, text):
        check(text)
        left, right = text[:-16], text[-16:]
        z = xor(self.d.seal(right), self.sealed_hash(tweak, left))
        left = self.stream(z, left)
        return left + self.e.open(xor(z, self.plain_hash(tweak, left)))


# ---- cards

def cards(first, second):
    if len(first) != 16 or len(second) != 16:
        raise Refused(5)
    if first == second:
        raise Refused(6)
    return xor(first, second)


# ---- the lines of `kat`

CIPHERS = {'aes128': Aes128, 'speck': Speck128}
MODES = {'xts': (Xts, 2), 'xcb': (Xcb, 1)}  # and how many keys each has


def unhex(word, length=None):
    if word == '-':
        value = b''
    else:
        if not word or len(word) % 2 or any(c not in '0123456789abcdefABCDEF' for c in word):
            raise ValueError
        value = bytes.fromhex(word)
    if length is not None and len(value) != length:
        raise ValueError
    return value


def turn(thing, parts, way):
    if way not in ([], ['open']):
        raise ValueError
    return (thing.open if way else thing.seal)(*parts)


def carry_out(line):
    command, *args = line.split(' ')
    if command in CIPHERS:
        key, block, *way = args
        if way not in ([], ['open']):
            raise ValueError
        key, block = unhex(key, 16), unhex(block, 16)
        return turn(CIPHERS[command](key), (block,), way)
    mode, _, cipher = command.partition('-')
    if mode in MODES and cipher in CIPHERS:
        make, keys = MODES[mode]
        if not keys + 2 <= len(args) <= keys + 3:
            raise ValueError
        *keys_given, tweak = [unhex(word, 16) for word in args[:keys + 1]]
        text, way = unhex(args[keys + 1]), args[keys + 2:]
        return turn(make(CIPHERS[cipher], *keys_given), (tweak, text), way)
    if command == 'product':
        x, y = args
        return product(unhex(x, 16), unhex(y, 16))
    if command == 'hash':
        h, text = args
        h, text = unhex(h, 16), unhex(text)
        if len(text) % 16:
            raise ValueError
        return hash_blocks(h, text)
    if command == 'double':
        t, = args
        return double(unhex(t, 16))
    if command == 'cards':
        first, second = args
        return cards(unhex(first), unhex(second))
    raise ValueError


def answer(line):
    try:
        return carry_out(line).hex()
    except Refused as refusal:
        return f'refused {refusal.args[0]}'
    except ValueError:
        return 'malformed'
