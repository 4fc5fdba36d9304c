"""The model's answer to a request line: the questions of SPECIFICATION 8.4 and definitions by model.py and records.py, apart from the code and the Rust.

An operation gets its arguments, words as their bytes, and how long its outputs are, in halves of words or in bytes; one that hashes trees the key that
lines before it set, too. It answers the numbers, and what the outputs hold, a list that it is lent for writing first; None for one that holds what it held."""
import collections
import struct

import records
from lines import FILL, listed, shown
from model import CHUNK_END, CHUNK_START, PARENT, PROFILES, ROOT_NODE, blake3, compress, derive_key as derived_key, digest_in
from model import derive, encode, equality_table, extension, fold_tree_width, gamma_message, leaf_message, level_domain, mul, path
from model import exported, fold as fold_first, ghash, imported, number as number_bytes, part, seal_parameters as parameters_of_seal, shift
from model import leaf_digest as leaf_of, level_trees, node_digest as node_of, root_of_path, tree
from records import Deposit, first_no, query, query_bytes, tail_bytes

# how many bytes a message of a comparison is given
MESSAGE_BUFFER = 1024

OPERATIONS, UNDER_KEY = {}, set()


def operation(f):
    OPERATIONS[f.__name__] = f
    return f


def of_trees(f):
    """An operation that hashes trees: under a key, or none."""
    UNDER_KEY.add(f)
    return operation(f)


def answer(reader, letters, line):
    """The answer to a line whose operation has these letters."""
    name, *texts = line.split()
    arguments, lists, outputs, texts = [], [], [], iter(texts)
    for letter in letters:
        if letter in "opcd":
            outputs.append((letter != "d", {"o": 16, "p": 32, "c": 2048, "d": 32}[letter]))
            continue
        text = next(texts)
        if letter in "WB":
            outputs.append((letter == "W", int(text) * (8 if letter == "W" else 1)))
        elif letter == "n":
            arguments.append(int(text))
        elif letter in "lL":
            arguments.append(reader.numbers(text))
            lists += [arguments[-1]] if letter == "L" else []
        else:
            arguments.append(reader.bytes(text, letter == "w"))
    assert next(texts, None) is None, line
    lengths = [size // 8 if words else size for words, size in outputs]
    asked = OPERATIONS[name]
    numbers, held = asked(*arguments, *lengths, **({"key": reader.key} if asked in UNDER_KEY else {}))
    before = lists + [FILL * size for _, size in outputs]
    held = list(held) + [None] * (len(before) - len(held))
    after = [x if y is None else y for x, y in zip(before, held)]
    assert [len(x) for x in after] == [len(x) for x in before], line
    parts = [listed(x) for x in after[: len(lists)]] + [shown(words, x) for x, (words, _) in zip(after[len(lists) :], outputs)]
    return " ".join([*map(str, numbers), *parts])


def ints(data):
    return [int.from_bytes(data[i : i + 16], "little") for i in range(0, len(data), 16)]


def packed(words):
    return b"".join(w.to_bytes(16, "little") for w in words)


def no(*questions):
    """The first number whose question is answered with no."""
    return next((number for number, yes in questions if not yes), 0)


def done(number, *held):
    """The number, and the outputs where it is 0."""
    return [number], held if number == 0 else []


def halves(data):
    return len(data) // 8


# ---- words


def polynomials(a, b):
    """Schoolbook: the product of two polynomials over two values."""
    product = 0
    for i in range(b.bit_length()):
        if b >> i & 1:
            product ^= a << i
    return product


def inverse(a):
    """By Euclid's extended algorithm."""
    r, s, u, v = 1 << 128 | 0x87, a, 0, 1
    while s:
        q, rest = 0, r
        while rest.bit_length() >= s.bit_length():
            shift = rest.bit_length() - s.bit_length()
            q ^= 1 << shift
            rest ^= s << shift
        r, s, u, v = s, rest, v, u ^ polynomials(q, v)
    return u


def phi(w, coefficients):
    total = 0
    for b, c in enumerate(coefficients):
        if w >> b & 1:
            total ^= c
    return total


@operation
def add(a, b, _):
    return done(0, packed([ints(a)[0] ^ ints(b)[0]]))


@operation
def mul_(a, b, _):
    return done(0, packed([mul(ints(a)[0], ints(b)[0])]))


OPERATIONS["mul"] = OPERATIONS.pop("mul_")


@operation
def square(a, _):
    return done(0, packed([mul(ints(a)[0], ints(a)[0])]))


OPERATIONS["square_by_table"] = square


@operation
def inv(a, _):
    (a,) = ints(a)
    return [0 if a else 1], [packed([inverse(a) if a else 0])]


@operation
def phi_c(a, c, _):
    return done(0, packed([phi(ints(a)[0], ints(c))]))


OPERATIONS["phi_tab"] = phi_c


@operation
def eq_coefficients(r, _):
    return done(0, packed(equality_table(ints(r))))


@operation
def pack_table(data, out):
    number = no((2, len(data) % 128 == 0), (3, all(b < 2 for b in data)), (5, out == 2 * (len(data) // 128)))
    groups = [data[i : i + 128] for i in range(0, len(data), 128)]
    return done(number, packed([sum((b & 1) << i for i, b in enumerate(group)) for group in groups]))


@operation
def eq_table(n, point, out):
    number = no((4, n <= 20), (5, halves(point) == 2 * n and out == 2 << n if n <= 20 else False))
    return done(number, *([packed(equality_table(ints(point)))] if number == 0 else []))


@operation
def mul_run(run, r, _):
    return done(0, packed([mul(w, ints(r)[0]) for w in ints(run)]))


@operation
def axpy_run(y, x, r, _):
    return done(0, packed([a ^ mul(b, ints(r)[0]) for a, b in zip(ints(y), ints(x))]))


# ---- blocks


def sixteens(data):
    return [data[i : i + 16] for i in range(0, len(data), 16)]


@operation
def import_block(block, _):
    return done(0, packed([imported(block)]))


@operation
def export_block(word, _):
    return done(0, exported(*ints(word)))


@operation
def import_run(blocks, out):
    number = no((5, len(blocks) % 16 == 0 and out == len(blocks) // 8))
    return done(number, *([packed(map(imported, sixteens(blocks)))] if number == 0 else []))


@operation
def export_run(words, out):
    number = no((5, halves(words) % 2 == 0 and out == len(words)))
    return done(number, *([b"".join(map(exported, ints(words)))] if number == 0 else []))


@operation
def ghash_(key, blocks, _):
    return ([5], [bytes(16)]) if len(blocks) % 16 else ([0], [ghash(key, blocks)])


OPERATIONS["ghash"] = OPERATIONS.pop("ghash_")


# ---- ring switching


def evals_of(n, words, eq):
    return [sum_of(e for w, e in zip(words, eq) if w >> b & 1) for b in range(128)]


def sum_of(words):
    total = 0
    for w in words:
        total ^= w
    return total


def sum_of_products(words, entries):
    return sum_of(mul(w, e) for w, e in zip(words, entries))


def folded(s, rb):
    rows = [sum((s[j] >> i & 1) << j for j in range(128)) for i in range(128)]
    return sum_of_products(rb, rows)


@operation
def partial_evals(n, words, eq, out):
    number = no((4, n <= 20), (5, n <= 20 and halves(words) == halves(eq) == 2 << n and out == 256))
    return done(number, *([packed(evals_of(n, ints(words), ints(eq)))] if number == 0 else []))


@operation
def fold_partials(s, rb, _):
    if halves(s) != 256:
        return [5], [bytes(16)]
    return [0], [packed([folded(ints(s), ints(rb))])]


@operation
def materialize(n, z, rb, out):
    number = no((4, n <= 20), (5, n <= 20 and halves(z) == 2 * n and out == 2 << n))
    return done(number, *([packed([phi(entry, ints(rb)) for entry in equality_table(ints(z))])] if number == 0 else []))


@operation
def eval_at(n, z, rb, point, _):
    number = no((4, n <= 20), (5, halves(z) == halves(point) == 2 * n))
    if number:
        return [number], [bytes(16)]
    table = [phi(entry, ints(rb)) for entry in equality_table(ints(z))]
    return [0], [packed([extension(table, ints(point))])]


def sides(n, words, point, out, answered):
    """What both identities refuse alike; else the room, and the two sides."""
    number = no((4, n <= 20), (5, n <= 20 and halves(words) == out == 2 << n and halves(point) == 2 * n))
    if number:
        return [number], [None, bytes(32)]
    table, left, right = answered(ints(words), ints(point))
    return [0], [packed(table), packed([left, right])]


@operation
def extension_sides(n, words, point, row, out, _):
    def answered(words, point):
        eq, coefficients = equality_table(point), equality_table(ints(row))
        bits = [w >> b & 1 for w in words for b in range(128)]
        return eq, sum_of_products(evals_of(n, words, eq), coefficients), extension(bits, ints(row) + point)

    return sides(n, words, point, out, answered)


@operation
def fold_sides(n, words, point, rb, out, _):
    def answered(words, point):
        eq = equality_table(point)
        table = [phi(entry, ints(rb)) for entry in eq]
        return table, folded(evals_of(n, words, eq), ints(rb)), sum_of_products(words, table)

    return sides(n, words, point, out, answered)


# ---- the code


def in_range(n, k):
    return n <= 20 and k <= 4


@operation
def derive_(n, k, base, out):
    number = no((4, in_range(n, k)), (5, out == 2 * n * k), (7, len(base) <= 200))
    return done(number, *([packed(derive(base, n, k))] if number == 0 else []))


def rising(n, original, coordinates):
    """n strictly rising numbers below the original n?"""
    return len(coordinates) == n and all(a < b for a, b in zip(coordinates, [*coordinates[1:], original]))


@operation
def l_of(n, k, original, eps, coordinates, gammas, out):
    """The entries of L(eps) at the coordinates that are still unfolded."""
    sized = halves(gammas) == 2 * k * original and out == 2 * n
    number = no((4, in_range(n, k)), (4, original <= 20), (5, sized), (36, rising(n, original, coordinates)))
    if number:
        return [number], []
    whole = shift(original, k, ints(gammas), eps)
    return [0], [packed([whole[c] for c in coordinates])]


@operation
def earlier_reading(n, k, original, coordinates):
    number = no((4, in_range(n, k)), (4, original <= 20), (36, rising(n, original, coordinates)))
    return done(number, list(range(len(coordinates))))


@operation
def encode_(n, k, table, gammas, out):
    number = no((4, in_range(n, k)), (5, in_range(n, k) and halves(table) == 2 << n and halves(gammas) == 2 * n * k and out == 2 << n + k))
    return done(number, *([packed(encode(n, k, ints(table), ints(gammas)))] if number == 0 else []))


for name in ("derive", "encode"):
    OPERATIONS[name] = OPERATIONS.pop(name + "_")


def fold_at(level, var, r):
    """a + r × (a + b) for each pair of places that differ in bit var."""
    lower = [v for v in range(len(level)) if not v >> var & 1]
    return [level[v] ^ mul(r, level[v] ^ level[v | 1 << var]) for v in lower]


def fold_number(n, k, original, var, coordinates, values, room):
    """The number of a fold of so many halves into a room of so many."""
    if not in_range(n, k) or original > 20:
        return 4
    if values != 2 << n + k or room != (1 << n + k) // 2 * 2:
        return 5
    return no((36, rising(n, original, coordinates)), (6, var < n))


def without(coordinates, var):
    return coordinates[:var] + coordinates[var + 1 :]


@operation
def fold(n, k, original, var, r, coordinates, values, out):
    number = fold_number(n, k, original, var, coordinates, halves(values), out)
    if number:
        return [number, 0], []
    return [0, n - 1], [without(coordinates, var) + [0], packed(fold_at(ints(values), var, ints(r)[0]))]


@operation
def codeword_block(n, k, eps, table, gammas, out):
    sized = in_range(n, k) and halves(table) == 2 << n and halves(gammas) == 2 * n * k and out == 2 << n
    number = no((4, in_range(n, k)), (5, sized), (11, in_range(n, k) and eps < 1 << k))
    if number:
        return [number], []
    return [0], [packed(encode(n, k, ints(table), ints(gammas))[eps << n : eps + 1 << n])]


@operation
def codeword_half(n, k, half, table, gammas, out):
    ranged = n > 0 and in_range(n, k)
    sized = ranged and halves(table) == 2 << n and halves(gammas) == 2 * n * k and out == 1 << n
    number = no((4, ranged), (5, sized), (11, ranged and half < 2 << k))
    if number:
        return [number], []
    return [0], [packed(encode(n, k, ints(table), ints(gammas))[half << n - 1 : half + 1 << n - 1])]


@operation
def fold_part(n, k, var, r, first, values, out):
    sized = in_range(n, k) and halves(values) == 2 << n + k and out % 2 == 0
    number = no((4, in_range(n, k)), (5, sized), (6, var < n), (11, in_range(n, k) and first + out // 2 <= (1 << n + k) // 2))
    if number:
        return [number], []
    return [0], [packed(fold_at(ints(values), var, ints(r)[0])[first : first + out // 2])]


@operation
def gamma_message_(n, k, base, j, i):
    return [0, len(gamma_message(base, n, k, j, i))], []


OPERATIONS["gamma_message"] = OPERATIONS.pop("gamma_message_")


# ---- the hash


@operation
def blake3_(message, _):
    return [0], [blake3(message)]


OPERATIONS["blake3"] = OPERATIONS.pop("blake3_")


@operation
def serialize_parts(data, lengths, out):
    number = no((5, sum(lengths) == len(data) and out == 8 + 8 * len(lengths) + len(data)))
    parts, at = [], 0
    for size in lengths:
        parts.append(data[at : at + size])
        at += size
    return done(number, number_bytes(len(parts)) + b"".join(map(part, parts)))


@operation
def pieces(message, first, step, _):
    return [0], [blake3(message)]


def key_number(key):
    return no((5, len(key) == 32))


@operation
def keyed_blake3(key, message, _):
    number = key_number(key)
    return refused_digest(number) if number else ([0], [blake3(message, key)])


@operation
def derive_key(context, material, _):
    return [0], [derived_key(context, material)]


@operation
def keyed_pieces(key, message, first, step, _):
    """By a hasher that is started with a key; one that is not started is a state of zeros."""
    number = key_number(key)
    return [number], [digest_in(((0,) * 8, 0), message) if number else blake3(message, key)]


@operation
def derived_pieces(context, material, first, step, _):
    return [0], [derived_key(context, material)]


@operation
def fed(message, times, last, _):
    """The message so many times, then a last piece: the number that this gets, and the digest of what was taken."""
    length = len(message) * times
    number = no((13, length + len(last) <= 1 << 24))
    if length > 1 << 20:
        assert length == 1 << 24 and not any(message) and not last.strip(b"\0"), "no digest of this is at hand"
        return [number], [bytes.fromhex(ZEROS_2_24)]
    return [number], [blake3(message * times + (b"" if number else last))]


# the digest of 2^24 zeros, by the Rust's BLAKE3 (oracle: `fed 00x65536 256 -`)
ZEROS_2_24 = "b4834959bc889fed1abf3c45d5da0e384134386a4b2786cc5dbb9fe8fa853bbb"


# what a state holds beside its counters in `state`: key words, chaining value, block, stack
KEY, CHAINED, BLOCK, STACK = (1,) * 8, (2,) * 8, bytes([3]) * 64, (4,) * 112


def finished(blocks, fill, chunks, depth):
    """The digest that such a state with these counters finalizes to."""
    flags = (CHUNK_START if blocks == 0 else 0) | CHUNK_END
    node = (CHAINED, BLOCK[:fill].ljust(64, b"\0"), chunks, fill, flags)
    for i in reversed(range(depth)):
        node = (KEY, struct.pack("<16I", *STACK[8 * i : 8 * i + 8], *compress(*node)), 0, 64, PARENT)
    h, block, counter, length, flags = node
    return struct.pack("<8I", *compress(h, block, counter, length, flags | ROOT_NODE))


@operation
def state(counters, message, out):
    """update's number and finalize's, by SPECIFICATION 8.5; finalize's digest, and the state that update hands back."""
    blocks, fill, chunks, depth, length = counters
    agree = [blocks <= 15, fill <= 64, length == 1024 * chunks + 64 * blocks + fill, min(1, length) <= fill, depth == chunks.bit_count()]
    updated, finalized = (no((13, length + size <= 1 << 24), *((13, yes) for yes in agree)) for size in (len(message), 0))
    assert updated or not message, "no state after an update is at hand"
    digest = bytes(32) if finalized else finished(blocks, fill, chunks, depth)
    arrays = b"".join(map(number_bytes, KEY + CHAINED + STACK)) + BLOCK
    held = digest + arrays + b"".join(map(number_bytes, [0, blocks, fill, chunks, depth, length]))
    return [updated, finalized], [held]


# ---- trees


def is_power(x, most):
    return 0 < x <= most and x & x - 1 == 0


def shaped(count, width):
    return (8, is_power(count, 1 << 24)), (9, is_power(width, 512)), (10, bool(width) and count % width == 0)


def refused_digest(number):
    return [number], [bytes(32)]


@of_trees
def leaf_digest(domain, count, width, place, values, _, key):
    number = no((7, len(domain) <= 255), *shaped(count, width), (11, place < count), (5, halves(values) == 2 * width))
    if number:
        return refused_digest(number)
    return [0], [leaf_of(domain, count, width, place // width, ints(values), key)]


@operation
def leaf_message_(domain, count, width, group, values):
    return [0, len(leaf_message(domain, count, width, group, ints(values)))], []


OPERATIONS["leaf_message"] = OPERATIONS.pop("leaf_message_")


@of_trees
def node_digest(domain, level, left, right, _, key):
    number = no((5, len(left) == 32), (5, len(right) == 32), (7, len(domain) <= 255))
    return refused_digest(number) if number else ([0], [node_of(domain, level, left, right, key)])


@of_trees
def build(domain, count, width, values, out, key):
    questions = [(7, len(domain) <= 255), *shaped(count, width)]
    number = no(*questions) or no((5, halves(values) == 2 * count and out == 32 * (2 * (count // width) - 1)))
    return done(number, *([b"".join(tree(domain, width, ints(values), key))] if number == 0 else []))


@of_trees
def leaves(domain, count, width, first, values, out, key):
    questions = [(7, len(domain) <= 255), *shaped(count, width)]
    number = no(*questions) or no((11, first + out // 32 <= count // width), (5, halves(values) == 2 * count), (5, out % 32 == 0))
    if number:
        return [number], []
    return [0], [b"".join(tree(domain, width, ints(values), key))[32 * first : 32 * first + out]]


@of_trees
def parents(domain, level, children, out, key):
    number = no((5, len(children) % 64 == 0), (5, out == len(children) // 2), (7, len(domain) <= 255))
    pairs = [children[i : i + 64] for i in range(0, len(children), 64)]
    return done(number, *([b"".join(node_of(domain, level, pair[:32], pair[32:], key) for pair in pairs)] if number == 0 else []))


@operation
def open_(count, width, place, digests, out):
    number = no(*shaped(count, width), (11, place < count))
    if number == 0:
        groups = count // width
        number = no((5, len(digests) == 32 * (2 * groups - 1) and out == 32 * (groups.bit_length() - 1)))
    if number:
        return [number], []
    all_digests = [digests[i : i + 32] for i in range(0, len(digests), 32)]
    return [0], [b"".join(path(all_digests, place // width))]


OPERATIONS["open"] = OPERATIONS.pop("open_")


@of_trees
def root_of_path_(domain, count, width, place, values, siblings, _, key):
    number = no((7, len(domain) <= 255), *shaped(count, width), (11, place < count))
    if number == 0:
        depth = (count // width).bit_length() - 1
        number = no((12, len(siblings) == 32 * depth), (5, halves(values) == 2 * width))
    if number:
        return refused_digest(number)
    digests = [siblings[i : i + 32] for i in range(0, len(siblings), 32)]
    return [0], [root_of_path(domain, count, width, place, ints(values), digests, key)]


OPERATIONS["root_of_path"] = OPERATIONS.pop("root_of_path_")


# ---- levels, committing and records


@operation
def fold_tree_width_(widths, length):
    return [fold_tree_width(widths, length)], []


OPERATIONS["fold_tree_width"] = OPERATIONS.pop("fold_tree_width_")


@operation
def level_domain_(base, level, out):
    return [len(level_domain(base, level))], [level_domain(base, level)]


OPERATIONS["level_domain"] = OPERATIONS.pop("level_domain_")


@of_trees
def commit(widths, n, k, base, table, coordinates, gammas, codeword, out, key):
    number = no((4, in_range(n, k)))
    if number == 0:
        count, width, _ = records.shape(widths, n, k, 0)
        lent = halves(table), gammas, codeword, len(coordinates), out
        fixed = 2 << n, 2 * n * k, 2 << n + k, n, 32 * (2 * (count // width) - 1)
        number = no((5, lent == fixed), (7, len(base) <= 200))
    if number:
        return [number], []
    made = derive(base, n, k)
    words = encode(n, k, ints(table), made)
    return [0], [list(range(n)), packed(made), packed(words), b"".join(tree(level_domain(base, 0), width, words, key))]


@operation
def domain_length(base, level):
    number = no((4, level <= 20), (7, len(base) <= 200))
    return [number, 0 if number else len(level_domain(base, level))], []


@operation
def domain_into(base, level, out):
    domain = level_domain(base, level)
    return done(no((4, level <= 20), (5, out == len(domain)), (7, len(base) <= 200)), domain)


def has_level(n, k, l):
    return 1 <= n and in_range(n, k) and l <= n


def level_sizes(widths, n, k, l):
    """Halves of the level's words, and bytes of its tree."""
    count, width, _ = records.shape(widths, n, k, l)
    return 2 * count, 32 * (2 * (count // width) - 1)


@of_trees
def level_tree(widths, n, k, l, base, values, out, key):
    number = no((4, has_level(n, k, l)))
    if number == 0:
        number = no((5, (halves(values), out) == level_sizes(widths, n, k, l)), (7, len(base) <= 200))
    if number:
        return [number], []
    return [0], [b"".join(tree(level_domain(base, l), fold_tree_width(widths, len(values) // 16), ints(values), key))]


@operation
def next_part(n, k, l, r, first, values, out):
    number = no((4, has_level(n, k, l + 1)))
    if number == 0:
        count = 1 << (n + k - l)
        number = no((5, halves(values) == 2 * count and out % 2 == 0), (11, first + out // 2 <= count // 2))
    return done(number, *([packed(fold_first(ints(values), ints(r)[0])[first : first + out // 2])] if number == 0 else []))


@of_trees
def level_leaves(widths, n, k, l, base, first, values, out, key):
    number = no((4, has_level(n, k, l)))
    if number == 0:
        count, width, _ = records.shape(widths, n, k, l)
        number = no((5, halves(values) == 2 * count and out % 32 == 0), (7, len(base) <= 200), (11, first + out // 32 <= count // width))
    if number:
        return [number], []
    return [0], [b"".join(tree(level_domain(base, l), width, ints(values), key))[32 * first : 32 * first + out]]


@of_trees
def level_parents(n, k, l, base, height, children, out, key):
    number = no((4, has_level(n, k, l)), (5, len(children) % 64 == 0 and out == len(children) // 2), (7, len(base) <= 200))
    return [number], [] if number else parents(level_domain(base, l), height, children, out, key)[1]


@of_trees
def fold_levels(widths, n, k, base, challenges, codeword, levels, half, trees, roots, key):
    before = (codeword + FILL * (8 * levels))[: 8 * levels]
    number = no((4, 1 <= n and in_range(n, k)))
    if number == 0:
        sizes = [level_sizes(widths, n, k, l) for l in range(n + 1)]
        lent = (halves(challenges), levels, half, trees, roots)
        fixed = (2 * n, sum(w for w, _ in sizes), sizes[1][0], sum(b for _, b in sizes), 32 * (n + 1))
        number = no((5, lent == fixed), (7, len(base) <= 200))
    if number:
        return [number], [before]
    made = [ints(before)[: 1 << n + k]]
    for r in ints(challenges):
        made.append(fold_first(made[-1], r))
    built = level_trees(base, widths, made, key)
    every = b"".join(digest for digests in built for digest in digests)
    return [0], [packed([w for level in made for w in level]), bytes(8 * half), every, b"".join(digests[-1] for digests in built)]


@operation
def sizes(widths, n, k):
    """Bytes of all trees, of a query record and of a tail record."""
    return ([0, *records.sizes(widths, n, k)] if 1 <= n <= 20 and k <= 4 else [4]), []


class Lent(Deposit):
    """Levels and trees that are lent, end to end."""

    def __init__(self, widths, n, k, words, digests):
        self.widths, self.n, self.k, self.levels, self.trees = widths, n, k, [], []
        for l in range(n + 1):
            count, width, _ = records.shape(widths, n, k, l)
            size = 32 * (2 * (count // width) - 1)
            self.levels.append(ints(words[: 16 * count]))
            self.trees.append([digests[i : i + 32] for i in range(0, size, 32)])
            words, digests = words[16 * count :], digests[size:]


@operation
def build_query(widths, n, k, position, words, digests, out):
    number, _ = first_no(records.build_query(widths, n, k, position, len(words), len(digests), out))
    return done(number, *([query_bytes(query(Lent(widths, n, k, words, digests), position))] if number == 0 else []))


@operation
def build_tail(widths, n, k, words, digests, out):
    number, _ = first_no(records.build_tail(widths, n, k, len(words), len(digests), out))
    if number:
        return [number], []
    count, width, _ = records.shape(widths, n, k, n)
    lent = [digests[i : i + 32] for i in range(0, len(digests), 32)]
    values = ints(words)
    groups = [records.Group(values[width * g : width * (g + 1)], path(lent, g)) for g in range(count // width)]
    return [0], [tail_bytes(groups)]


@of_trees
def check_query(base, widths, n, k, position, challenges, roots, record, key):
    return first_no(records.check_query(base, widths, n, k, position, challenges, roots, record, key)), []


@of_trees
def check_tail(base, widths, n, k, root, claim, record, key):
    return [first_no(records.check_tail(base, widths, n, k, claim, root, record, key))[0]], []


def tally(numbers):
    """How many are refused, of how many; then each number but 0 with how often it is the answer."""
    seen = collections.Counter(numbers)
    times = [x for number in sorted(seen) if number for x in (number, seen[number])]
    return [len(numbers) - seen[0], len(numbers), *times], []


def damaged(step, record):
    """Every byte of a record changed by 1, and from there on in steps of this size."""
    for i, x in enumerate(record):
        for mask in range(1, 256, step):
            yield record[:i] + bytes([x ^ mask]) + record[i + 1 :]


def prefixes(record):
    return (record[:i] for i in range(len(record)))


@of_trees
def damaged_query(step, *given, key):
    *given, record = given
    return tally([check_query(*given, wrong, key)[0][0] for wrong in damaged(step, record)])


@of_trees
def prefixes_query(*given, key):
    *given, record = given
    return tally([check_query(*given, wrong, key)[0][0] for wrong in prefixes(record)])


@of_trees
def damaged_tail(step, *given, key):
    *given, record = given
    return tally([check_tail(*given, wrong, key)[0][0] for wrong in damaged(step, record)])


@of_trees
def prefixes_tail(*given, key):
    *given, record = given
    return tally([check_tail(*given, wrong, key)[0][0] for wrong in prefixes(record)])


@of_trees
def compare(base, widths, n, k, position, challenges, roots, first, second, room, other, key):
    def questions():
        yield 4, 0, 1 <= n <= 20 and k <= 4
        yield 5, 0, len(challenges) == 16 * n
        yield 5, 0, len(roots) == 32 * (n + 1)
        yield 5, 0, room == MESSAGE_BUFFER
        yield 5, 0, other == MESSAGE_BUFFER
        yield 7, 0, len(base) <= 200
        yield 11, 0, position < 1 << (n + k)
        for record in (first, second):
            yield 32, 0, first_no(records.check_query(base, widths, n, k, position, challenges, roots, record, key)) == (0, 0)
        yield 33, 0, first != second

    number, _ = first_no(questions())
    assert number, "two different records are accepted"
    return [number, 0, 0], []


@operation
def walk(leaf, node, depth, first, second, room, other):
    """The last place at which two chains differ, whose messages have these lengths."""
    ends = [leaf + node * i for i in range(depth + 1)]
    pairs = [(first[start:end], second[start:end]) for start, end in zip([0] + ends, ends)]
    differing = [(x, y) for x, y in pairs if x != y]
    if not differing:
        return [0, 0, 0], []
    x, y = differing[-1]
    return [0, len(x), len(y)], [x.ljust(MESSAGE_BUFFER, b"\0"), y.ljust(MESSAGE_BUFFER, b"\0")]


# ---- tail-list, and the whole run


def last_level(n, k, table, gammas, challenges):
    """By folds and by P(r + L(eps)), which must agree."""
    level = encode(n, k, table, gammas)
    for r in challenges:
        level = fold_at(level, 0, r)
    for eps in range(1 << k):
        d = shift(n, k, gammas, eps)
        assert level[eps] == extension(table, [r ^ c for r, c in zip(challenges, d)])
    return level


@operation
def tails(data, out):
    def refused(number):
        return [number, 0, 0], [bytes(256)]

    if len(data) < 2:
        return refused(5)
    n, k = data[0], data[1]
    if n > 20 or k > 4 or n + k > 8:
        return refused(4)
    if len(data) != 2 + 16 * ((1 << n) + k * n + n):
        return refused(5)
    words = ints(data[2:])
    table, gammas, challenges = words[: 1 << n], words[1 << n : (1 << n) + k * n], words[(1 << n) + k * n :]
    return [0, n, k], [packed(last_level(n, k, table, gammas, challenges)).ljust(256, b"\0")]


# how long the program's own buffers are for what a run leaves: roots, both records, both messages
RUN_ROOMS = (160, 1640, 160, MESSAGE_BUFFER + 8, MESSAGE_BUFFER + 8)


class Run(Deposit):
    """A table committed, and a list of fold calls until n are done, each on what the last done one left; the levels behind stay zeros."""

    def __init__(self, widths, n, k, base, table, calls, key=None):
        self.widths, self.n, self.k, self.base, self.key, self.challenges = widths, n, k, base, key, []
        self.levels, self.coordinates = [encode(n, k, table, derive(base, n, k))], list(range(n))
        for call_n, call_k, original, var, room, r in calls:
            lent = self.coordinates, 2 * len(self.levels[-1]), room
            if len(self.challenges) < n and fold_number(call_n, call_k, original, var, *lent) == 0:
                self.levels.append(fold_at(self.levels[-1], var, r))
                self.coordinates = without(self.coordinates, var)
                self.challenges.append(r)
        self.levels += [[0] * (1 << (n + k - l)) for l in range(len(self.levels), n + 1)]
        self.trees = level_trees(base, widths, self.levels, key)
        self.roots = [digests[-1] for digests in self.trees]


# how many numbers a call has: n, k, the original n, the variable and the room
CALL = 5


def run_questions(widths, n, k, position, base, table, calls, challenges, lengths, coordinates, kept):
    """`lengths` are of the gammas, levels, half, trees, roots, query and tail record and the two messages."""
    yield 4, 0, 1 <= n <= 20 and k <= 4
    yield 5, 0, len(table) == 16 << n
    yield 5, 0, len(calls) % CALL == 0 and len(challenges) == 16 * (len(calls) // CALL)
    trees, record, tail = records.sizes(widths, n, k)
    yield 5, 0, len(coordinates) == n and kept == 2 * n
    yield 5, 0, lengths == [
        2 * k * n,
        2 * ((2 << n) - 1 << k),
        1 << (n + k),
        trees,
        32 * (n + 1),
        record,
        tail,
        MESSAGE_BUFFER,
        MESSAGE_BUFFER,
    ]
    yield 7, 0, len(base) <= 200
    yield 11, 0, position < 1 << (n + k)


@of_trees
def run(widths, n, k, position, base, table, calls, challenges, claim, first, second, lengths, coordinates, kept, out, counts, key):
    refusal, _ = first_no(run_questions(widths, n, k, position, base, table, calls, challenges, lengths, coordinates, kept))
    if refusal:
        return [refusal, 0, 0, 0], [None, None, None, bytes(32)]
    made = Run(widths, n, k, base, ints(table), zip(*(calls[i::CALL] for i in range(CALL)), ints(challenges)), key)
    held, roots = packed(made.challenges).ljust(16 * n, FILL), b"".join(made.roots)
    record, tail = query_bytes(query(made, position)), tail_bytes(made.tail())
    number, level = first_no(records.check_query(base, widths, n, k, position, held, roots, record, key))
    number_of_tail, _ = first_no(records.check_tail(base, widths, n, k, claim, made.roots[n], tail, key))
    (compared, one, two), _ = compare(base, widths, n, k, position, held, roots, first, second, MESSAGE_BUFFER, MESSAGE_BUFFER, key)
    left = b"".join(part.ljust(size, FILL) for part, size in zip((roots, record, tail, b"", b""), RUN_ROOMS))
    done = b"".join(x.to_bytes(8, "little") for x in (len(made.challenges), level, one, two))
    unfolded = made.coordinates + [0] * (n - len(made.coordinates))
    return [0, number, number_of_tail, compared], [unfolded, held, left, done]


# By number: the Rust's default is the first default; 5 names none.
NUMBERED = ["firstdefault", "fastchunk", "balanced", "compactwrap", "deepwrap", None]


def parameters(given, out):
    k, queries, domain = given
    return [k, queries, len(domain)], [domain.ljust(out, b"\0")]


@operation
def profile(which, out):
    return parameters(PROFILES[NUMBERED[which]], out)


@operation
def seal_parameters(which, older, out):
    return parameters(parameters_of_seal(NUMBERED[which], older), out)


@operation
def writer_parameters(which, out):
    return parameters(PROFILES[NUMBERED[which] or "default"], out)
