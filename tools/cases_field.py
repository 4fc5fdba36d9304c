"""Lines for test_field: words, tables of words, ring switching and the code. The numbers are the bounds, every single bit, and words from a
seeded generator; each question's no is asked for alone and with others, to show the order."""
import random

from lines import hex_word, hex_words, hexed, listed

ONES = (1 << 128) - 1
BOUNDS = [0, 1, 2, 3, 0x87, 1 << 63, 1 << 64, 1 << 127, (1 << 64) - 1, ONES ^ (1 << 64) - 1, ONES]
MODEL = "# Answers: docs/SPECIFICATION.md, by schoolbook arithmetic (tools/answers.py).\n"


def text(lines):
    return MODEL + "".join(line + "\n" for line in lines)


def front(words, halves):
    """The first halves of words, as an argument."""
    whole = [hex_word(w) for w in words[: halves // 2]]
    odd = ["h%x" % (words[halves // 2] & (1 << 64) - 1)] if halves % 2 else []
    return ",".join(whole + odd) or "-"


def unfolded(line):
    """A line of `fold` or `l_of` with n, k and the rest, on a codeword of which nothing is folded: the original n is n, the list 0 to n - 1."""
    name, n, k, *rest = line.split()
    before = 2 if name == "fold" else 1
    return " ".join([name, n, k, n, *rest[:before], listed(range(int(n))), *rest[before:]])


def room(n):
    """A list of n numbers, lent for writing."""
    return "7x%d" % n if n else "-"


def small():
    """The small values of SPECIFICATION 12 that the field, ring switching and the code have."""
    top = hex_word(1 << 127)
    yield from ["mul %s 2" % top, "mul 3 3", "square %s" % top, "inv 2", "inv 0", "add 5 9"]
    yield from ["eq_table 0 - 2", "eq_table 1 2 4", "eq_table 2 2,4 8"]
    yield from ["eval_at 1 2 1,4,0x126 2", "materialize 1 2 1,4,0x126 4", "eval_at 0 - 9,0x127 -"]
    yield "partial_evals 0 5 1 256"
    yield from ["encode 1 1 5,9 7 8", unfolded("fold 1 1 0 2 5,9,21,2d 4")]
    yield "# the length of a gamma's message: a domain of 1 byte, and the longest"
    yield from ["gamma_message 1 1 61 0 0", "gamma_message 20 4 61x200 3 19"]
    yield "square_by_table %s" % top


def each_byte():
    """Words that have every byte at every place."""
    return [int.from_bytes(bytes((v + 17 * place) % 256 for place in range(16)), "little") for v in range(256)]


def words(some):
    bits = [1 << i for i in range(128)]
    pairs = [(a, b) for a in BOUNDS for b in BOUNDS] + list(zip(bits, some(128))) + list(zip(bits, reversed(bits))) + list(zip(some(64), some(64)))
    singles = BOUNDS + bits + some(64)
    yield from ("mul %x %x" % pair for pair in pairs)
    yield from ("square %x" % a for a in singles)
    yield from ("inv %x" % a for a in singles)
    for i, a in enumerate(singles):
        yield "phi_c %x ~w%dx128" % (a, 1000 + i)
        yield "phi_tab %x ~w%dx128" % (a, 2000 + i)
    points = [some(7) for _ in range(8)] + [[0] * 7, [1] * 7, [ONES] * 7, [2, 4, 8, 16, 32, 64, 128]]
    yield from ("eq_coefficients " + hex_words(r) for r in points)
    yield from ("square_by_table %x" % a for a in singles + each_byte())


def packings(bits):
    """No group, one and two; single bits; then 2, 3 and 5."""

    def packing(given, length):
        return "pack_table %s %d" % (hexed(bytes(given)), length)

    above = lambda given, i, b: given[:i] + [b] + given[i + 1 :]
    yield packing([], 0)
    yield from ["pack_table 00x128 2", "pack_table 01x256 4"]
    for i in (0, 1, 7, 8, 63, 64, 127):
        yield packing([int(j == i) for j in range(128)], 2)
        yield packing([int(j == 128 + i) for j in range(256)], 4)
    for _ in range(40):
        yield packing(bits(128), 2)
        yield packing(bits(256), 4)
    yield "# 2"
    for n in (1, 64, 127, 129, 255, 257):
        yield packing(bits(n), 2 * (n // 128))
    yield "# 3"
    for i in (0, 5, 127, 128, 255):
        yield packing(above(bits(256), i, 2), 4)
        yield packing(above(bits(256), i, 15), 4)
    yield "# 5"
    for length in (0, 1, 2, 3, 5, 6):
        yield packing(bits(256), length)
    yield from [packing([], 1), packing([], 2)]
    yield "# 2 and 3, 2 and 5, 3 and 5, all"
    yield from [packing(above(bits(129), 128, 2), 2), packing(above(bits(127), 0, 2), 0), packing(bits(127), 2), packing(bits(257), 6)]
    yield from [packing(above(bits(128), 127, 2), 4), packing(above(bits(256), 0, 3), 3), packing(above(bits(255), 9, 2), 3)]


def tables(some):
    """Points of no coordinate to four; then 5 for the point, 5 for the table, and both. A table of 21 coordinates with its lengths right does
    not fit a program's buffers: 4 is shown where 5 says no too."""
    for n in range(5):
        for point in [some(5) for _ in range(6)] + [[0] * 5, [1] * 5, [ONES] * 5, [2, 4, 8, 16, 32]]:
            yield "eq_table %d %s %d" % (n, front(point, 2 * n), 2 << n)
    for n, point, length in [
        *((0, 2, 2), (1, 0, 4), (1, 1, 4), (2, 5, 8), (2, 3, 8), (4, 10, 32)),
        *((0, 0, 0), (0, 0, 1), (0, 0, 3), (2, 4, 7), (2, 4, 9), (2, 4, 16), (4, 8, 34)),
        *((1, 4, 8), (20, 8, 32), (21, 8, 32), (21, 10, 34), (64, 0, 2), (4095, 8, 32)),
    ]:
        yield "eq_table %d %s %d" % (n, front(some(5), point), length)


def ring(some):
    """4 and 5 of each entry, alone and together; n 20 passes 4."""
    for n, words, eq, out in [(1, 4, 4, 255), (1, 4, 4, 257), (1, 3, 4, 256), (1, 4, 2, 256), (1, 6, 4, 256), (21, 4, 4, 256), (20, 4, 4, 256), (21, 4, 4, 0)]:
        yield "partial_evals %d %s %s %d" % (n, front(some(4), words), front(some(4), eq), out)
    for count in (0, 2, 254, 255, 257, 258):
        yield "fold_partials %s ~w5x128" % front(some(130), count)
    for n, z, out in [(1, 2, 3), (1, 2, 5), (1, 1, 4), (1, 4, 4), (0, 2, 2), (21, 2, 4), (20, 2, 4)]:
        yield "materialize %d %s ~w6x128 %d" % (n, front(some(3), z), out)
    for n, z, point in [(1, 2, 0), (1, 0, 2), (1, 3, 2), (1, 2, 3), (0, 2, 0), (0, 0, 2), (21, 42, 42), (21, 0, 0), (20, 40, 39)]:
        yield "eval_at %d %s ~w7x128 %s" % (n, front(some(22), z), front(some(22), point))
    yield from identities()


def identities():
    """Both sides of both identities: every n up to 8, words and points on which bits and places show, then 4 and 5 of each length, alone and together."""
    for name, rows in [("extension_sides", 7), ("fold_sides", 128)]:
        for n in range(9):
            point = "~w%dx%d" % (20 + n, n) if n else "-"
            yield "%s %d ~w%dx%d %s ~w%dx%d %d" % (name, n, 40 + n, 1 << n, point, 60 + n, rows, 2 << n)
        for words, point in [("0x8", "~w1x3"), ("%xx8" % ONES, "~w2x3"), ("1,2,4,8,10,20,40,80", "0,1,0"), ("~w3x8", "1,1,1"), ("~w4x8", "0,0,0")]:
            yield "%s 3 %s %s ~w8x%d 16" % (name, words, point, rows)
        for row in ("1x%d" % rows, "0x%d" % rows, "%xx%d" % (ONES, rows)):
            yield "%s 1 ~w5x2 ~w6x1 %s 4" % (name, row)
        for n, words, point, table in [
            *((1, 2, 2, 4), (1, 3, 2, 4), (1, 5, 2, 4), (1, 4, 0, 4), (1, 4, 1, 4), (1, 4, 4, 4), (1, 4, 2, 3), (1, 4, 2, 5), (1, 4, 2, 0)),
            *((0, 0, 0, 2), (0, 2, 2, 2), (0, 2, 0, 4), (0, 4, 0, 2), (20, 4, 2, 4), (21, 4, 2, 4), (21, 0, 0, 0), (64, 2, 0, 2)),
        ]:
            yield "%s %d %s %s ~w9x%d %d" % (name, n, front([5, 9, 17], words), front([2, 3], point), rows, table)


def code(some):
    yield "derive 2 2 61 8"
    yield from map(unfolded, ["l_of 2 2 1 1,2,4,8 4", "l_of 2 2 7 1,2,4,8 4"])
    yield "# n and k at their largest and past it"
    yield from map(unfolded, ["l_of 20 4 15 0x80 40", "l_of 21 4 15 0x80 40", "l_of 1 5 15 0x80 40"])
    yield from ["derive 20 4 61 160", "derive 21 4 61 160", "derive 1 5 61 160", "encode 21 0 0x80 0x80 160", "encode 1 5 0x80 0x80 160"]
    yield from map(unfolded, ["fold 21 0 0 2 0x80 160", "fold 1 5 0 2 0x80 160"])
    yield "# lengths that are not those that n and k fix"
    yield from map(unfolded, ["l_of 1 1 1 3 3", "l_of 1 1 1 3,4 2", "l_of 1 1 1 h3 2"])
    yield from ["derive 1 1 61 3", "derive 1 1 61 1", "encode 1 1 5,9 3 3", "encode 1 1 5 3 8"]
    yield from ["encode 1 1 5,9 3,4 8", "encode 1 1 5,9 - 8", "encode 1 1 5,h9 3 8"]
    yield from map(unfolded, ["fold 1 0 0 2 5,9 3", "fold 1 0 0 2 5 2", "fold 1 0 0 2 5,h9 2"])
    yield "# a variable that is none"
    yield from map(unfolded, ["fold 1 0 1 2 5,9 2", "fold 0 0 0 2 3 0", "fold 2 1 2 2 ~w9x8 8", "fold 2 1 1 2 ~w9x8 8"])
    yield "# a base domain that is too long, and the longest"
    yield from ["derive 1 1 61x201 2", "derive 1 1 61x200 2"]
    yield "# 4 and 5, 4 and 7, 5 and 7, 4 and 6, 5 and 6"
    yield from ["derive 21 1 61 3", "derive 21 1 61x201 42", "derive 1 1 61x201 3"]
    yield from map(unfolded, ["fold 21 0 21 2 5,9 2", "fold 1 0 1 2 5,9 3"])
    for n, k in [(0, 0), (0, 4), (3, 2), (4, 1)]:
        yield "encode %d %d %s %s %d" % (n, k, hex_words(some(1 << n)), hex_words(some(n * k)), 2 << n + k)
    yield from ["# n and k at their largest, of lengths that are not theirs", "encode 20 4 0x80 0x80 160", unfolded("fold 20 4 0 2 0x80 160")]
    yield "# the parts of a codeword and of folds, and the questions put to them in order"
    table, gammas = hex_words(some(8)), hex_words(some(6))
    yield from ["codeword_block 3 2 %d %s %s 16" % (eps, table, gammas) for eps in range(5)]
    yield from ["codeword_block 0 0 0 7 - 2", "codeword_block 0 0 1 7 - 2", "codeword_block 21 0 0 7 - 2", "codeword_block 1 5 0 5,9 3 4"]
    yield from ["codeword_block 1 1 1 5,9 7 4", "codeword_block 1 1 2 5,9 7 3", "codeword_block 1 1 2 5,h9 7 4", "codeword_block 1 1 2 5,9 - 4"]
    yield from ["codeword_block 21 5 40 5 7 4", "codeword_block 20 4 16 0x80 0x80 160"]
    yield from ["codeword_half 3 2 %d %s %s 8" % (half, table, gammas) for half in range(9)]
    yield from ["codeword_half 1 0 %d 5,9 - 2" % half for half in range(3)] + ["codeword_half 1 1 %d 5,9 7 2" % half for half in range(5)]
    yield from ["codeword_half 0 0 0 7 - 1", "codeword_half 0 5 9 7 - 2", "codeword_half 21 0 0 7 - 2", "codeword_half 1 5 0 5,9 3 2"]
    yield from ["codeword_half 1 1 4 5,9 7 3", "codeword_half 1 1 4 5,9 7 4", "codeword_half 1 1 4 5,h9 7 2", "codeword_half 1 1 4 5,9 - 2"]
    yield from ["codeword_half 21 5 40 5 7 4", "codeword_half 20 4 32 0x80 0x80 160"]
    for var, first, entries in [(0, 0, 8), (0, 3, 2), (1, 0, 3), (1, 3, 5), (2, 1, 6), (2, 7, 1), (2, 8, 0), (0, 8, 0)]:
        yield "fold_part 3 1 %d 2 %d ~w9x16 %d" % (var, first, 2 * entries)
    yield from ["fold_part 3 1 0 2 8 ~w9x16 2", "fold_part 3 1 0 2 9 ~w9x16 0", "fold_part 3 1 0 2 0 ~w9x16 18", "fold_part 3 1 0 2 18446744073709551615 ~w9x16 2"]
    yield from ["fold_part 3 1 3 2 0 ~w9x16 2", "fold_part 3 1 3 2 9 ~w9x16 2", "fold_part 3 1 3 2 9 ~w9x16 3", "fold_part 3 1 3 2 9 ~w9x15 2"]
    yield from ["fold_part 21 1 3 2 9 ~w9x16 2", "fold_part 3 5 3 2 9 ~w9x16 2", "fold_part 0 0 0 2 0 3 0", "fold_part 1 0 0 2 0 5,9 2"]


def differences():
    """The inputs of docs/DIFFERENCES.md that have an answer here, with the entry's number there."""
    yield from ["# 1", "mul %x 2" % (1 << 127), "# 2", "inv 0", "# 3", "pack_table 01 0", "pack_table 01x129 2"]
    yield from ["# 4", "pack_table 02,00x127 2", "pack_table ff,00x127 2", "pack_table 00x127,02 2", "# 5", "encode 1 1 5,9 7 8"]
    yield from ["# 7", *map(unfolded, ["fold 0 1 0 1 1,2 2", "fold 1 1 1 1 1,2,4,8 4", "fold 0 0 0 1 1 0", "fold 1 0 1 1 1,2 2"])]
    yield from ["# 8", "eval_at 0 - 9,0x127 -", "# 11", "eq_table 1 2 4", "eq_table 0 - 2"]
    yield from ["# 14", "eval_at 1 2 9,0x127 -", "# 15", "fold_partials 0x129 9,0x127", "# 16", "partial_evals 1 1,1 1 256"]
    yield from ["# 19: L(1) of a codeword folded at 0, whose gammas are 7, 11; then as the Rust reads it", "l_of 1 1 2 1 1 7,b 2"]
    yield from ["earlier_reading 1 1 2 1", "l_of 1 1 2 1 0 7,b 2"]
    yield from ["# 26", "encode 1 0 1 - 4", "encode 1 0 1,1,1,1 - 4", "# 27", "derive 21 5 - 210"]


def files():
    random.seed(128)
    some = lambda n: [random.getrandbits(128) for _ in range(n)]
    bits = lambda n: [random.getrandbits(1) for _ in range(n)]
    return [
        ("small.txt", text(small())),
        ("words.txt", text(words(some))),
        ("packings.txt", text(packings(bits))),
        ("tables.txt", text(tables(some))),
        ("ring.txt", text(ring(some))),
        ("code.txt", text(code(some))),
        ("differences.txt", text(differences())),
    ]
