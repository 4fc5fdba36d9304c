"""Lines for test_record, data/tree: the hash and trees."""
import itertools
import pathlib

from cases_field import text
from lines import drawn_bytes
from model import blake3, derive_key

# How many bytes an update takes, in `pieces`.
SIZES = 8

TOOLS = pathlib.Path(__file__).resolve().parent

# what the vectors that are published with BLAKE3 have for keyed mode and for key derivation mode
KEY, CONTEXT = b"whats the Elvish word for friend", b"BLAKE3 2019-12-27 16:29:52 test vectors context"


def witnessed(name, digest=blake3):
    """The lengths in a list of what b3sum says, with which the model must agree."""
    lengths = []
    for line in (TOOLS / name).read_text().splitlines():
        said, length = line.split()
        assert digest(bytes(i % 251 for i in range(int(length)))).hex() == said, "b3sum differs on %s bytes: %s" % (length, name)
        lengths.append(int(length))
    return lengths


def vectors():
    """The published vectors' lengths, in one call, and fed to a hasher by each size and by all sizes in turn."""
    lengths = witnessed("b3sum.txt")
    for length in lengths:
        yield "blake3 %%%d" % length
    for length in lengths:
        yield from ("pieces %%%d %d 0" % (length, first) for first in range(SIZES))
        yield "pieces %%%d 0 1" % length


def vectors_of(mode, given, lengths):
    """A mode with a key or a context, in one call and by a hasher: the published lengths by one size each and by all sizes in turn."""
    entry, pieces = mode
    yield "= " + given.hex()
    for length in lengths:
        yield "%s @0+%d %%%d" % (entry, len(given), length)
    for i, length in enumerate(witnessed("b3sum.txt")):
        yield from ("%s @0+%d %%%d %d %d" % (pieces, len(given), length, *sizes) for sizes in ((i % SIZES, 0), (0, 1)))


def keyed_vectors():
    lengths = witnessed("b3sum_keyed.txt", lambda message: blake3(message, KEY))
    yield from vectors_of(("keyed_blake3", "keyed_pieces"), KEY, lengths)


def derived_vectors():
    """Key material of these lengths with one context; then contexts of some lengths, with material as long as they are."""
    lengths = witnessed("b3sum_derive_key.txt", lambda material: derive_key(CONTEXT, material))
    yield from vectors_of(("derive_key", "derived_pieces"), CONTEXT, lengths)
    for length in witnessed("b3sum_context.txt", lambda material: derive_key(drawn_bytes("t", 1, len(material)), material)):
        yield "derive_key ~t1x%d %%%d" % (length, length)
        yield "derived_pieces ~t1x%d %%%d 0 1" % (length, length)


def parts():
    for lengths in ["-", "0", "3", "0,0", "1,2,3", "3,2,1,0"]:
        total = sum(int(x) for x in lengths.split(",") if x != "-")
        count = 0 if lengths == "-" else lengths.count(",") + 1
        yield "serialize_parts %%%d %s %d" % (total, lengths, 8 + 8 * count + total)
    yield from ["serialize_parts %3 1,1 27", "serialize_parts %3 2,2 27", "serialize_parts %3 1,2 26", "serialize_parts %3 1,2 28", "serialize_parts %0 - 7"]
    yield "serialize_parts %%3 %d,4 27" % ((1 << 64) - 1)


DOMAINS = {0: "-", 1: "61", 88: "@0+88", 89: "@0+89", 255: "@0+255"}
SHAPES = [(1, 1), (2, 1), (2, 2), (16, 1), (16, 2), (16, 8)]
LARGE = [(1024, 1), (1024, 2), (1024, 8), (1024, 32), (1024, 512)]


def letters(count):
    return bytes(97 + i % 26 for i in range(count))


def pairs(entry, right, wrong):
    """An entry's questions answered with no, one alone and two at a time: which arguments, by question."""
    for i, j in itertools.combinations_with_replacement(range(len(wrong)), 2):
        given = list(right)
        # of two values for one argument that of the earlier question stays, and answers both with no
        for question in (j, i):
            for place, value in wrong[question]:
                given[place] = value
        yield "%s %s" % (entry, " ".join(map(str, given)))


def refusals():
    """Each entry's questions, in the order of SPECIFICATION 8.4."""
    long = (0, "61x256")
    shape = [[(1, 3)], [(2, 3)], [(2, 32)]]
    yield from pairs("leaf_digest", ["61", 16, 8, 5, "~w1x8"], [[long], *shape, [(3, 1000)], [(4, "~w1x3,h7")]])
    yield from pairs("node_digest", ["61", 0, "%32", "%32"], [[long], [(2, "%31")], [(3, "%33")]])
    yield from pairs("build", ["61", 16, 8, "~w1x16", 96], [[long], *shape, [(3, "~w1x15,h7")], [(4, 95)]])
    yield from pairs("leaves", ["61", 16, 2, 3, "~w1x16", 96], [[long], *shape, [(3, 1000)], [(4, "~w1x15,h7")], [(5, 95)]])
    yield from pairs("parents", ["61", 0, "%128", 64], [[long], [(2, "%127")], [(3, 63)]])
    shape = [[(0, 3)], [(1, 3)], [(1, 32)]]
    yield from pairs("open", [16, 8, 5, "%96", 32], [*shape, [(2, 1000)], [(3, "%97")], [(4, 64)]])
    shape = [[(1, 3)], [(2, 3)], [(2, 32)]]
    yield from pairs("root_of_path", ["61", 16, 8, 5, "~w1x8", "%32"], [[long], *shape, [(3, 1000)], [(5, "-")], [(4, "~w1x3,h7")]])
    yield "# a path that is no whole number of digests, counts and widths at their largest and past it"
    yield "root_of_path 61 16 8 0 ~w1x8 %33"
    yield from ["leaf_digest 61 %d 1 0 1" % count for count in (0, 1 << 24, 1 << 25, (1 << 32) + 1)]
    yield from ["leaf_digest 61 1024 %d 0 ~w1x%d" % (width, width) for width in (0, 512, 1024)]
    yield from ["leaf_digest 61x255 1 1 0 1", "node_digest 61x255 0 %32 %32", "node_digest 61 24 %32 %32"]
    yield "# the length of a leaf's message: width 8, a domain of 1 byte"
    yield "leaf_message 64 16 8 0 1x8"


def states():
    """A hasher's states whose counters disagree with the byte count, each counter alone and both ways, and those at 2^24 bytes and past it, put to
    update and to finalize: blocks, fill, chunks, depth, byte count."""
    size = 32 + 8 * (8 + 8 + 112 + 6) + 64
    last = 1 << 24

    def lines(counters, messages=("-", "00")):
        yield from ("state %s %s %d" % (",".join(map(str, counters)), message, size) for message in messages)

    yield "# counters that agree: none, one byte, a full block, a full chunk, more chunks, 2^24 bytes"
    agreeing = [(0, 0, 0, 0, 0), (0, 1, 0, 0, 1), (0, 64, 0, 0, 64), (15, 64, 0, 0, 1024), (3, 5, 6, 2, 6341), (15, 64, 16383, 14, last)]
    for counters in agreeing:
        yield from lines(counters, ["-"])
    yield "# one counter alone, one more and one less"
    for counters in agreeing:
        for i in range(5):
            for step in (1, -1):
                wrong = [x + step * (j == i) for j, x in enumerate(counters)]
                if min(wrong) >= 0:
                    yield from lines(wrong)
    yield "# a block and a chunk that are finished before a byte follows, blocks and fill past their most, the largest numbers"
    for counters in [(1, 0, 0, 0, 64), (0, 0, 1, 1, 1024), (16, 0, 0, 0, 1024), (16, 1, 0, 0, 1025), (0, 65, 0, 0, 65), (14, 128, 0, 0, 1024)]:
        yield from lines(counters)
    for i in range(5):
        yield from lines([(1 << 64) - 1 if j == i else x for j, x in enumerate((3, 5, 6, 2, 6341))])
    yield "# the byte count at 2^24 and one past it, with counters that agree; calls whose bytes go past it"
    yield from lines((15, 64, 16383, 14, last), ["00", "00x1024"])
    yield from lines((0, 1, 16384, 1, last + 1))
    yield from lines((15, 63, 16383, 14, last - 1), ["-", "0000"])


def trees():
    """Every shape under every domain; large trees under those whose trees the Rust does not build."""
    yield "= " + letters(255).hex()
    for d, domain in DOMAINS.items():
        for count, width in SHAPES + (LARGE if d > 88 else []):
            groups = count // width
            yield "build %s %d %d ~w%dx%d %d" % (domain, count, width, count, count, 32 * (2 * groups - 1))
    yield "# leaves of some groups, and parents of some pairs"
    for count, width, first, groups in [(16, 2, 0, 8), (16, 2, 3, 5), (64, 8, 1, 6), (64, 1, 5, 59), (1024, 512, 1, 1), (16, 1, 16, 0), (1, 1, 0, 1)]:
        yield "leaves 61 %d %d %d ~w%dx%d %d" % (count, width, first, count, count, 32 * groups)
    for level, pairs in enumerate((0, 1, 3, 4, 5, 64, 65, 130)):
        yield "parents %s %d %%%d %d" % (DOMAINS[255 if pairs == 5 else 1], level, 64 * pairs, 32 * pairs)


def openings(domains=DOMAINS, shapes=SHAPES, key=None):
    """Places of small trees that are built here: leaf digest, path, and the root of both."""
    from answers import packed
    from lines import Store
    from model import path, tree

    store, said = Store(), []
    for d, (count, width) in itertools.product(domains, shapes):
        domain = letters(d)
        values = drawn_bytes("w", count, count)
        words = [int.from_bytes(values[i : i + 16], "little") for i in range(0, len(values), 16)]
        digests = tree(domain, width, words, key)
        for place in sorted({0, 2 * count // 3, count - 1}):
            group = place // width
            lent, siblings = b"".join(digests), b"".join(path(digests, group))
            part = store.words(packed(words[width * group : width * (group + 1)]))
            said.append("leaf_digest %s %d %d %d %s" % (store.named(domain), count, width, place, part))
            said.append("open %d %d %d %s %d" % (count, width, place, store.named(lent), len(siblings)))
            said.append("root_of_path %s %d %d %d %s %s" % (store.named(domain), count, width, place, part, store.named(siblings)))
        yield from store.new
        yield from said
        store.new, said = [], []


def differences():
    yield from ["# 6: domains past 88 bytes", "node_digest 64x89 0 00x32 00x32", "build 64x255 2 1 0,0 96", "root_of_path 64x89 2 1 0 0 00x32"]
    yield from ["# 12", "leaf_digest - 1 1 0 3", "leaf_digest - 8 8 0 3x8", "# 17", "leaf_digest - 2 2 0 0"]
    yield from ["# 24", "build - 3 1 0x4 96", "build - 4 3 0x4 96", "build - 2 0 0x4 96", "build - 2 4 0x4 96", "build - 0 1 0x4 96", "leaf_digest - 1 0 0 -"]
    yield from ["open 2 1 2 00x96 32", "# 25", "leaf_digest - 3 1 0 0", "leaf_digest - 1 1 1 0"]
    yield from ["# 27", "leaf_digest 64x256 1 1 0 0", "leaf_digest - 33554432 1 0 0", "leaf_digest - 1024 1024 0 0x1024"]
    yield from ["# 27: a byte after 2^24 bytes, and none", "fed 00x65536 256 00", "fed 00x65536 256 -"]


def by_b3sum(what, lines):
    return "# Answers: Debian's b3sum %s; the model agrees (tools/answers.py).\n" % what + "".join(line + "\n" for line in lines)


def files():
    return [
        ("vectors.txt", by_b3sum("1.2.0, whose digests tools/b3sum.txt has", vectors())),
        ("parts.txt", text(parts())),
        ("trees.txt", text(trees())),
        ("openings.txt", text(openings())),
        ("refusals.txt", text(refusals())),
        ("states.txt", text(states())),
        ("differences.txt", text(differences())),
        ("keyed_vectors.txt", by_b3sum("1.2.0 with --keyed, whose digests tools/b3sum_keyed.txt has", keyed_vectors())),
        ("derived_vectors.txt", by_b3sum("1.2.0 with --derive-key, whose digests tools/b3sum_derive_key.txt and b3sum_context.txt have", derived_vectors())),
    ]
