"""Lines of the fixed list: the published Rust answers them (oracle/README.md), and the programs replay them without it. Inputs are drawn from a
case's number, as 16 times it and the input's own number from 0 to 15. The Rust has the present set of widths."""
from cases_field import room, unfolded
from lines import drawn, drawn_word, listed
from model import PRESENT, fold_tree_width

RUST = "# Answers: the published Rust (oracle/README.md).\n"
GOLDEN = 0x9E3779B97F4A7C15


def text(lines):
    return RUST + "".join(line + "\n" for line in lines)


def at(case, number):
    return 16 * case + number


def words(case, number, count):
    return "~w%dx%d" % (at(case, number), count) if count else "-"


def chars(case, number, count):
    return "~t%dx%d" % (at(case, number), count) if count else "-"


def some_bytes(case, number, count):
    return "~b%dx%d" % (at(case, number), count) if count else "-"


def second(case, number):
    """Word 1 of an input: that of a stream three numbers on."""
    return "~w%dx1" % ((at(case, number) + 3 * GOLDEN) % (1 << 64))


# ---- words and tables


def run_lengths():
    """Every length up to 80, then those around powers of two, where a run may change its method."""
    return [*range(81), *(power + i for power in (128, 256, 512, 1024, 2048) for i in range(-3, 4))]


def field():
    for case in range(300):
        yield "mul %s %s" % (words(case, 0, 1), second(case, 0))
    yield from ("square " + words(case, 0, 1) for case in range(200))
    for case in range(200):
        yield "inv " + (words(case, 0, 1) if drawn_word(at(case, 0), 0) else "1")
    for case in range(96):
        groups = case % 9
        yield "pack_table %s %d" % ("~i%dx%d" % (at(case, 0), 128 * groups) if groups else "-", 2 * groups)
    for name in ("phi_c", "phi_tab"):
        yield from ("%s %s %s" % (name, words(case, 0, 1), words(case, 1, 128)) for case in range(150))
    yield from ("eq_coefficients " + words(case, 0, 7) for case in range(100))
    yield from ("eq_table %d %s %d" % (case % 9, words(case, 0, case % 9), 2 << case % 9) for case in range(90))
    yield from ("square_by_table " + words(case, 0, 1) for case in range(200))


def runs():
    for case, count in enumerate(run_lengths()):
        yield "mul_run %s %s %d" % (words(case, 1, count), words(case, 0, 1), 2 * count)
    for case, count in enumerate(run_lengths()):
        yield "axpy_run %s %s %s %d" % (words(case, 2, count), words(case, 1, count), words(case, 0, 1), 2 * count)


def ring():
    for case in range(80):
        n = case % 8
        yield "partial_evals %d %s %s 256" % (n, words(case, 0, 1 << n), words(case, 1, 1 << n))
    yield from ("fold_partials %s %s" % (words(case, 0, 128), words(case, 1, 128)) for case in range(100))
    for case in range(80):
        n = case % 8
        yield "materialize %d %s %s %d" % (n, words(case, 0, n), words(case, 1, 128), 2 << n)
    for case in range(126):
        n = case % 21
        yield "eval_at %d %s %s %s" % (n, words(case, 0, n), words(case, 1, 128), words(case, 2, n))
    for name, rows in [("extension_sides", 7), ("fold_sides", 128)]:
        for case in range(45):
            n = case % 9
            yield "%s %d %s %s %s %d" % (name, n, words(case, 0, 1 << n), words(case, 1, n), words(case, 2, rows), 2 << n)


def sizes(greatest, most=24):
    return [(n, k) for n in range(greatest + 1) for k in range(5) if n + k <= most]


def code():
    domains = [0, 1, 2, 20, 63, 64, 128, 199, 200]
    for case, (n, k) in enumerate(sizes(20)):
        yield "derive %d %d %s %d" % (n, k, chars(case, 0, domains[case % 9]), 2 * n * k)
    cases = [(n, k, eps) for n, k in sizes(20) for eps in ((1 << k) - 1, (1 << k) // 2)]
    for case, (n, k, eps) in enumerate(cases):
        yield unfolded("l_of %d %d %d %s %d" % (n, k, eps, words(case, 0, n * k), 2 * n))
    for case, (n, k) in enumerate(sizes(8, 9)):
        yield "encode %d %d %s %s %d" % (n, k, words(case, 1, 1 << n), words(case, 0, n * k), 2 << n + k)
    for case, (n, k, var) in enumerate((n, k, var) for n, k in sizes(8, 9) for var in range(n)):
        yield unfolded("fold %d %d %d %s %s %d" % (n, k, var, words(case, 0, 1), words(case, 1, 1 << n + k), 1 << n + k))
    yield from half_folded()


def left(case, n, original):
    """n coordinates that are still unfolded of the original ones, drawn."""
    kept = list(range(original))
    for i in range(original - n):
        kept.pop(drawn(at(case, 2), i) % len(kept))
    return kept


def half_folded():
    """L as the Rust reads it, of codewords folded part way; and their folds at every variable, by what is left of the coordinates."""
    parts = [(n, original) for original in range(21) for n in range(original)]
    for case, (n, original) in enumerate(parts):
        k, eps = case % 5, drawn(at(case, 1), 0) % (1 << case % 5)
        yield "l_of %d %d %d %d %s %s %d" % (n, k, original, eps, listed(range(n)), words(case, 0, k * original), 2 * n)
    for case, (n, k, var) in enumerate((n, k, var) for n, k in sizes(6, 8) for var in range(n)):
        original = n + 1 + case % (20 - n)
        given = n, k, original, var, words(case, 0, 1), listed(left(case, n, original)), words(case, 1, 1 << n + k), 1 << n + k
        yield "fold %d %d %d %d %s %s %s %d" % given


# ---- the hash and trees


def byte_counts():
    """Every length up to 130, then those around blocks and chunks."""
    around = (192, 512, 960, 1024, 1088, 2048, 3072, 4096, 5120, 7168, 8190)
    return [*range(131), *(length + i for length in around for i in range(-2, 3))]


def hashes():
    yield from ("blake3 " + some_bytes(case, 0, count) for case, count in enumerate(byte_counts()))
    for case in range(72):
        lengths = [drawn(at(case, 1), i) % 41 for i in range(case % 9)]
        listed = ",".join(map(str, lengths)) or "-"
        yield "serialize_parts %s %s %d" % (some_bytes(case, 0, sum(lengths)), listed, 8 + 8 * len(lengths) + sum(lengths))


DOMAINS = [0, 1, 2, 20, 63, 64, 87, 88]


def shapes(deepest):
    """A domain's length, a width and a number of groups, each pair of widths and groups once; and a place."""
    pairs = [(e, d) for e in range(10) for d in range(deepest + 1)]
    return [(case, DOMAINS[case % 8], 1 << e, 1 << d) for case, (e, d) in enumerate(pairs)]


def place(case, count):
    return drawn(at(case, 3), 0) % count


def trees():
    for case, d, width, groups in shapes(14):
        count = width * groups
        yield "leaf_digest %s %d %d %d %s" % (chars(case, 0, d), count, width, place(case, count), words(case, 1, width))
    for case, (d, level) in enumerate((d, level) for d in DOMAINS for level in range(25)):
        right = "~b%dx32" % ((at(case, 1) + 32 * GOLDEN) % (1 << 64))
        yield "node_digest %s %d %s %s" % (chars(case, 0, d), level, some_bytes(case, 1, 32), right)
    small = [x for x in shapes(6) if x[2] * x[3] <= 512]
    for case, (_, d, width, groups) in enumerate(small):
        count = width * groups
        yield "build %s %d %d %s %d" % (chars(case, 0, d), count, width, words(case, 1, count), 32 * (2 * groups - 1))
    for case, d, width, groups in shapes(7):
        count, depth = width * groups, groups.bit_length() - 1
        yield "open %d %d %d %s %d" % (count, width, place(case, count), some_bytes(case, 2, 32 * (2 * groups - 1)), 32 * depth)
    for case, d, width, groups in shapes(14):
        count, depth = width * groups, groups.bit_length() - 1
        given = chars(case, 0, d), count, width, place(case, count), words(case, 1, width), some_bytes(case, 2, 32 * depth)
        yield "root_of_path %s %d %d %d %s %s" % given
    yield "# large trees"
    for d in (0, 1, 88):
        for width in (1, 2, 8, 32, 512):
            yield "build %s 1024 %d ~w7x1024 %d" % (chars(d, 0, d), width, 32 * (2 * (1024 // width) - 1))


# ---- levels, committing and building


def tree_bytes(count):
    return 32 * (2 * (count // fold_tree_width(PRESENT, count)) - 1)


def opening_bytes(count):
    width = fold_tree_width(PRESENT, count)
    return 8 + 16 * width + 32 * ((count // width).bit_length() - 1)


def levels():
    yield from ("fold_tree_width %d %d" % (PRESENT, length) for length in [*range(41), 64, 1024, 65536])
    for case, (length, level) in enumerate((length, level) for length in (0, 1, 20, 200) for level in range(21)):
        yield "level_domain %s %d %d" % (chars(case, 0, length), level, length + 7 + len(str(level)))
    yield from ("profile %d 24" % which for which in range(5))
    domains = [0, 1, 20, 63, 64, 80]
    for case, (n, k) in enumerate(sizes(6, 8)):
        given = n, k, chars(case, 0, domains[case % 6]), words(case, 1, 1 << n), 2 * n * k, 2 << n + k, room(n), tree_bytes(1 << n + k)
        yield "commit 0 %d %d %s %s %d %d %s %d" % given
    cases = [(n, k, p) for n, k in sizes(6, 8) if n for last in [(1 << n + k) - 1] for p in (0, last // 3, last)]
    for case, (n, k, position) in enumerate(cases):
        counts = [1 << n + k - l for l in range(n + 1)]
        opened = [opening_bytes(count) for count in counts]
        size = 4 + sum(48 + a + c for a, c in zip(opened, opened[1:]))
        given = n, k, position, words(case, 0, sum(counts)), some_bytes(case, 1, sum(map(tree_bytes, counts))), size
        yield "build_query 0 %d %d %d %s %s %d" % given


def field_files():
    return [("rust_field.txt", text(field())), ("rust_runs.txt", text(runs())), ("rust_ring.txt", text(ring())), ("rust_code.txt", text(code()))]


def tree_files():
    return [("rust_hash.txt", text(hashes())), ("rust_trees.txt", text(trees()))]


def record_files(records):
    """The lines on records that the Rust built are the oracle's own (`oracle records`)."""
    return [("rust_levels.txt", text(levels())), ("rust_records.txt", records)]
