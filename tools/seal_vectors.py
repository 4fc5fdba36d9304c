#!/usr/bin/env python3
"""seal_vectors.py [--check]: what the program `seal` must make of some files, as docs/SPECIFICATION.md and cli/README.md have it.

Files become tables and seeds become challenges here, and the rest is model.py's and records.py's, independent of the library. A line of
cli/tests/model.txt: the file's size, the profile, the set of widths, the root, the terminal claim, the BLAKE3 digests of the tail record and
of the query record at each position. With --check the file is compared and not written."""
import pathlib
import sys

from model import PRESENT, PROFILES, WIDE, blake3, derive, encode, fold, fold_tree_width, level_domain, tree
from records import Deposit, query, query_bytes, tail_bytes

STORED = pathlib.Path(__file__).resolve().parent.parent / "cli" / "tests" / "model.txt"
FILES = [(0, "default"), (0, "firstdefault"), (1, "balanced"), (16, "compactwrap"), (17, "deepwrap"), (48, "balanced"), (49, "fastchunk")]
FILES += [(49, "default"), (49, "firstdefault"), (600, "balanced")]
SETS = {PRESENT: "present", WIDE: "wide"}
SEED = "dice"


def table_of(data):
    """16 bytes a word, zeros after the file, its length as the last word; at least 2 words."""
    words = [int.from_bytes(data[i : i + 16], "little") for i in range(0, len(data), 16)]
    count = 2
    while count < len(words) + 1:
        count *= 2
    return words + [0] * (count - 1 - len(words)) + [len(data)]


def challenge(l):
    return int.from_bytes(blake3(("seal/seed/challenge/%d/%s" % (l, SEED)).encode())[:16], "little")


class Sealed(Deposit):
    """The deposit that a file becomes, folded by the seed's challenges."""

    def __init__(self, data, profile, widths):
        table = table_of(data)
        n, (k, _, base) = len(table).bit_length() - 1, PROFILES[profile]
        self.widths, self.n, self.k, self.base, self.challenges = widths, n, k, base, [challenge(l) for l in range(n)]
        self.levels = [encode(n, k, table, derive(base, n, k))]
        for r in self.challenges:
            self.levels.append(fold(self.levels[-1], r))
        self.trees = [tree(level_domain(base, l), fold_tree_width(widths, len(v)), v) for l, v in enumerate(self.levels)]


def line(size, profile, widths):
    sealed = Sealed(bytes((7 * i + 3) % 256 for i in range(size)), profile, widths)
    last = (1 << (sealed.n + sealed.k)) - 1
    records = ["%d:%s" % (p, blake3(query_bytes(query(sealed, p))).hex()) for p in sorted({0, 1, last // 2, last})]
    claim = "%032x" % sealed.levels[-1][0]
    return " ".join([str(size), profile, SETS[widths], sealed.trees[0][-1].hex(), claim, blake3(tail_bytes(sealed.tail())).hex()] + records)


text = "".join(line(*f, widths) + "\n" for widths in SETS for f in FILES)
if sys.argv[1:] == ["--check"]:
    sys.exit(0 if STORED.read_text() == text else "cli/tests/model.txt is not what the model gives")
STORED.write_text(text)
