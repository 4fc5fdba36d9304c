"""Lines for test_field on the blocks of SP 800-38D: words taken from blocks and back, one by one and in runs, and GHASH; and the GHASH parts of NIST's
examples of GCM, whose values tools/gcm.txt has."""
import pathlib
import random

from cases_field import front, text
from lines import hex_word, hexed
from model import ghash

EXAMPLES = pathlib.Path(__file__).resolve().parent / "gcm.txt"
SOURCE = (
    "# Answers: NIST's examples of GCM, in tools/gcm.txt. Every value here is derived: of a test case's data it is the example's tag plus the tag of the\n"
    "# empty message under the same key and initialization vector, of its vector the block that AES encrypts to that tag. The model agrees (tools/answers.py).\n"
)
ONE, ZERO, ONES = bytes([0x80]) + bytes(15), bytes(16), b"\xff" * 16


def single(some):
    """Every single bit, the bounds, and any blocks: imported, and exported."""
    bits = [1 << i for i in range(128)]
    blocks = [ZERO, ONES] + [b.to_bytes(16, "big") for b in bits] + [some(16) for _ in range(32)]
    yield from ("import_block " + hexed(block) for block in blocks)
    words = [0, (1 << 128) - 1] + bits + [int.from_bytes(some(16), "little") for _ in range(32)]
    yield from ("export_block %s 16" % hex_word(word) for word in words)


def runs(some):
    """No block, one, two and many; then 5 for what is lent, for the output, and for both."""
    for blocks, length in [(0, 0), (1, 2), (2, 4), (3, 6), (40, 80), (400, 800)]:
        yield "import_run ~b%dx%d %d" % (100 + blocks, 16 * blocks, length) if blocks else "import_run - 0"
    for size, length in [(1, 0), (1, 2), (15, 0), (15, 2), (17, 2), (17, 4), (31, 2), (33, 4), (6399, 798), (6401, 800)]:
        yield "import_run ~b200x%d %d" % (size, length)
    for size, length in [(0, 1), (0, 2), (16, 0), (16, 1), (16, 3), (16, 4), (32, 3), (32, 5), (6400, 799), (6400, 801)]:
        yield "import_run %s %d" % ("~b201x%d" % size if size else "-", length)
    for halves, length in [(0, 0), (2, 16), (4, 32), (6, 48), (80, 640), (800, 6400)]:
        yield "export_run %s %d" % ("~w%dx%d" % (300 + halves, halves // 2) if halves else "-", length)
    words = [int.from_bytes(some(16), "little") for _ in range(3)]
    for halves, length in [(1, 0), (1, 8), (1, 16), (3, 16), (3, 24), (3, 32), (5, 40)]:
        yield "export_run %s %d" % (front(words, halves), length)
    for halves, length in [(0, 1), (0, 16), (2, 0), (2, 15), (2, 17), (2, 32), (4, 31), (4, 33)]:
        yield "export_run %s %d" % (front(words, halves), length)


def hashes(some):
    """Runs of no block, one, two and some hundred, to either side of where another kernel takes over, by any key, by the standard's 1 and by 0; then 5."""
    for key in [some(16), ONE, ZERO, ONES]:
        yield "ghash %s - 16" % hexed(key)
        for blocks in [1, 2, 3, 383, 384, 385, 400]:
            yield "ghash %s ~b%dx%d 16" % (hexed(key), 400 + blocks, 16 * blocks)
        for size in [1, 15, 17, 6143, 6145, 6399]:
            yield "ghash %s ~b500x%d 16" % (hexed(key), size)
    yield "# the product of two blocks: 1 by a block, and every bit by itself times the last"
    yield "ghash %s %s 16" % (hexed(some(16)), hexed(ONE))
    yield from ("ghash 00x15,01 %s 16" % hexed((1 << i).to_bytes(16, "big")) for i in range(128))


def padded(data):
    """Filled with zeros to whole blocks."""
    return data + bytes(-len(data) % 16)


def bits_of(data):
    """How many bits it has, as 64 bits."""
    return (8 * len(data)).to_bytes(8, "big")


def examples():
    """The parts of GCM's examples, each held to its value in the table."""
    for line in EXAMPLES.read_text().splitlines():
        if line[0] == "#":
            continue
        what, case, *given = line.split()
        key, *given = [bytes.fromhex(x.strip("-")) for x in given]
        if what == "data":
            additional, ciphertext, empty, tag = given
            blocks = padded(additional) + padded(ciphertext) + bits_of(additional) + bits_of(ciphertext)
            value = bytes(x ^ y for x, y in zip(empty, tag))
        else:
            vector, value = given
            blocks = padded(vector) + bytes(8) + bits_of(vector)
        assert ghash(key, blocks) == value, "the model differs on the %s of test case %s" % (what, case)
        yield "# %s of test case %s: %s" % (what, case, value.hex())
        yield "ghash %s %s 16" % (hexed(key), hexed(blocks))


def files():
    random.seed(38)
    some = lambda n: bytes(random.getrandbits(8) for _ in range(n))
    return [
        ("blocks.txt", text([*single(some), *runs(some), *hashes(some)])),
        ("gcm.txt", SOURCE + "".join(line + "\n" for line in examples())),
    ]
