"""docs/SPECIFICATION.md in schoolbook form, for the tools that make expected results: words, the code, blocks, BLAKE3, trees and levels.

Independent of the code and of the Rust: the product by shifts, P(z) as the sum over v of word v times entry v of z's equality table,
blocks after SP 800-38D, BLAKE3 after its specification, messages put together as SPECIFICATION 5.2, 5.3 and 6.1 have them."""
import functools
import hashlib
import struct

# ---- words, and the code


def mul(a, b):
    """The polynomials' product, and x^128 replaced by x^7 + x^2 + x + 1 until none is left."""
    p = 0
    while b:
        bit = b & -b
        p ^= a * bit
        b ^= bit
    while p >> 128:
        high = p >> 128
        p = p & (1 << 128) - 1 ^ high ^ high << 1 ^ high << 2 ^ high << 7
    return p


def equality_table(z):
    """Entry v is the product over j of coordinate j of z where bit j of v is 1, else of 1 plus it."""
    entries = [1]
    for c in z:
        entries = [mul(entry, 1 ^ c) for entry in entries] + [mul(entry, c) for entry in entries]
    return entries


def extension(table, z):
    total = 0
    for word, entry in zip(table, equality_table(z)):
        total ^= mul(word, entry)
    return total


def shift(n, k, gammas, eps):
    """L(eps)."""
    point = [0] * n
    for j in range(k):
        if eps >> j & 1:
            point = [c ^ gammas[j * n + i] for i, c in enumerate(point)]
    return point


def encode(n, k, table, gammas):
    codeword = []
    for eps in range(1 << k):
        d = shift(n, k, gammas, eps)
        codeword += [extension(table, [(v >> i & 1) ^ d[i] for i in range(n)]) for v in range(1 << n)]
    return codeword


def fold(level, r):
    """The fold at variable 0."""
    return [a ^ mul(r, a ^ b) for a, b in zip(level[0::2], level[1::2])]


def some_words(label, count):
    """Words that look random, the same in every run."""
    digest = lambda i: hashlib.sha256(b"%s %d" % (label.encode(), i)).digest()
    return [int.from_bytes(digest(i)[:16], "little") for i in range(count)]


# ---- the blocks of SP 800-38D: 128 bits, the leftmost first. As a number a block is its bits read from left to right.

R = 0b11100001 << 120


def bits_of_block(block):
    return format(int.from_bytes(block, "big"), "0128b")


def block_product(x, y):
    """Algorithm 1 (SP 800-38D, 6.3): X • Y."""
    z, v = 0, int.from_bytes(y, "big")
    for bit in bits_of_block(x):
        z = z ^ v if bit == "1" else z
        v = v >> 1 ^ R if v & 1 else v >> 1
    return z.to_bytes(16, "big")


def ghash(key, blocks):
    """Algorithm 2 (SP 800-38D, 6.4), of whole blocks."""
    y = bytes(16)
    for i in range(0, len(blocks), 16):
        y = block_product(bytes(a ^ b for a, b in zip(y, blocks[i : i + 16])), key)
    return y


def imported(block):
    """The word whose bit i is bit i of the block."""
    return sum(int(bit) << i for i, bit in enumerate(bits_of_block(block)))


def exported(word):
    """The block whose bit i is bit i of the word."""
    return int("".join(str(word >> i & 1) for i in range(128)), 2).to_bytes(16, "big")


# ---- BLAKE3

IV = (0x6A09E667, 0xBB67AE85, 0x3C6EF372, 0xA54FF53A, 0x510E527F, 0x9B05688C, 0x1F83D9AB, 0x5BE0CD19)
PERMUTATION = [2, 6, 3, 10, 7, 0, 4, 13, 1, 11, 12, 5, 9, 14, 15, 8]
QUARTERS = [(0, 4, 8, 12), (1, 5, 9, 13), (2, 6, 10, 14), (3, 7, 11, 15), (0, 5, 10, 15), (1, 6, 11, 12), (2, 7, 8, 13), (3, 4, 9, 14)]
CHUNK_START, CHUNK_END, PARENT, ROOT_NODE = 1, 2, 4, 8
KEYED, CONTEXT, MATERIAL = 16, 32, 64


def mix(s, a, b, c, d, x, y):
    """The mixing of four of the 16 words of a state with two message words."""
    low = 0xFFFFFFFF
    p, q, r, t = s[a], s[b], s[c], s[d]
    p = (p + q + x) & low
    t ^= p
    t = (t >> 16 | t << 16) & low
    r = (r + t) & low
    q ^= r
    q = (q >> 12 | q << 20) & low
    p = (p + q + y) & low
    t ^= p
    t = (t >> 8 | t << 24) & low
    r = (r + t) & low
    q ^= r
    q = (q >> 7 | q << 25) & low
    s[a], s[b], s[c], s[d] = p, q, r, t


@functools.lru_cache(maxsize=1 << 16)
def compress(h, block, counter, length, flags):
    s = [*h, *IV[:4], counter & 0xFFFFFFFF, counter >> 32, length, flags]
    m = struct.unpack("<16I", block)
    for _ in range(7):
        for k, (a, b, c, d) in enumerate(QUARTERS):
            mix(s, a, b, c, d, m[2 * k], m[2 * k + 1])
        m = [m[i] for i in PERMUTATION]
    return tuple(s[i] ^ s[i + 8] for i in range(8))


def chunk_node(mode, chunk, counter):
    """The last compression of a chunk, as its arguments."""
    h, flags = mode
    blocks = [chunk[i : i + 64] for i in range(0, len(chunk), 64)] or [b""]
    for i, block in enumerate(blocks):
        ends = (CHUNK_START if i == 0 else 0) | (CHUNK_END if i == len(blocks) - 1 else 0)
        node = (h, block.ljust(64, b"\0"), counter, len(block), flags | ends)
        if i < len(blocks) - 1:
            h = compress(*node)
    return node


def parent_node(mode, left, right):
    key, flags = mode
    return (key, struct.pack("<16I", *compress(*left), *compress(*right)), 0, 64, flags | PARENT)


def digest_in(mode, message):
    """The digest in a mode: key words, and the flags that every compression has."""
    starts = range(0, max(len(message), 1), 1024)
    nodes = [chunk_node(mode, message[i : i + 1024], i // 1024) for i in starts]
    while len(nodes) > 1:
        pairs = [parent_node(mode, *nodes[i : i + 2]) for i in range(0, len(nodes) - 1, 2)]
        nodes = pairs + nodes[2 * len(pairs) :]
    h, block, counter, length, flags = nodes[0]
    return struct.pack("<8I", *compress(h, block, counter, length, flags | ROOT_NODE))


def key_words(key):
    return struct.unpack("<8I", key)


def blake3(message, key=None):
    """The digest in keyed mode, or, without a key, in hash mode."""
    return digest_in((IV, 0) if key is None else (key_words(key), KEYED), message)


def derive_key(context, material):
    """The key that key derivation mode gives for a context and key material."""
    return digest_in((key_words(digest_in((IV, CONTEXT), context)), MATERIAL), material)


# ---- messages


def number(x):
    return x.to_bytes(8, "little")


def part(data):
    return number(len(data)) + data


def word_bytes(w):
    return w.to_bytes(16, "little")


def gamma_message(base, n, k, j, i):
    parts = [b"magnetar/pcs/gamma/v1", base, number(n), number(k), number(j), number(i)]
    return number(len(parts)) + b"".join(map(part, parts))


def leaf_message(domain, count, width, group, values):
    named = number(5) + part(b"magnetar/leafN/v1") + part(domain) + part(number(count)) + part(number(width))
    return named + number(width) + number(group) + number(16 * width) + b"".join(map(word_bytes, values))


def node_message(domain, level, left, right):
    return number(5) + part(b"magnetar/node/v1") + part(domain) + part(number(level)) + part(left) + part(right)


def derive(base, n, k):
    """The gammas of a base domain, j outer: in hash mode, under every key."""
    return [int.from_bytes(blake3(gamma_message(base, n, k, j, i))[:16], "little") for j in range(k) for i in range(n)]


# ---- parameters

# SPECIFICATION 6.9: k, how many queries, and the base domain.
PROFILES = {
    "default": (2, 40, b"magnetar/pcs/default"),
    "fastchunk": (1, 40, b"magnetar/pcs/fastchunk"),
    "balanced": (2, 40, b"magnetar/pcs/balanced"),
    "compactwrap": (3, 20, b"magnetar/pcs/compactwrap"),
    "deepwrap": (4, 14, b"magnetar/pcs/deepwrap"),
    "firstdefault": (1, 40, b"magnetar/pcs/default"),
}


def seal_parameters(named, older):
    """SPECIFICATION 6.10: of a seal that names this profile, or none."""
    return PROFILES[named or ("firstdefault" if older else "default")]


# ---- trees, and levels


# The sets of widths by number: the present one, and the wide one. Of each, from which length on its groups are wide, and how wide.
PRESENT, WIDE = 0, 1
WIDTHS = ((16, 8), (64, 32))


def fold_tree_width(widths, length):
    threshold, width = WIDTHS[widths]
    return width if length >= threshold else 2 if length >= 2 else 1


def level_domain(base, l):
    return base + b"/level/" + str(l).encode()


def leaf_digest(domain, count, width, group, values, key=None):
    return blake3(leaf_message(domain, count, width, group, values), key)


def node_digest(domain, level, left, right, key=None):
    return blake3(node_message(domain, level, left, right), key)


def tree(domain, width, values, key=None):
    """The digests of a tree over groups of values, leaves first, under a key or none."""
    count = len(values)
    level = [leaf_digest(domain, count, width, g, values[width * g : width * (g + 1)], key) for g in range(count // width)]
    digests, height = list(level), 0
    while len(level) > 1:
        level = [node_digest(domain, height, *level[i : i + 2], key) for i in range(0, len(level), 2)]
        digests, height = digests + level, height + 1
    return digests


def level_trees(base, widths, levels, key=None):
    """The trees of all levels of a deposit."""
    return [tree(level_domain(base, l), fold_tree_width(widths, len(values)), values, key) for l, values in enumerate(levels)]


def path(digests, group):
    """The siblings on a group's way to the root, off the digests of a tree."""
    siblings, start, groups = [], 0, (len(digests) + 1) // 2
    while groups > 1:
        siblings.append(digests[start + (group ^ 1)])
        start, groups, group = start + groups, groups // 2, group // 2
    return siblings


def root_of_path(domain, count, width, place, values, siblings, key=None):
    """Where the group of a place, with these values, and a path lead to."""
    group = place // width
    digest = leaf_digest(domain, count, width, group, values, key)
    for height, sibling in enumerate(siblings):
        pair = (digest, sibling) if group % 2 == 0 else (sibling, digest)
        digest, group = node_digest(domain, height, *pair, key), group // 2
    return digest
