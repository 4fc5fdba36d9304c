"""Query and tail records, for the tools that make expected results: their bytes (SPECIFICATION 7), the checks and
builds (SPECIFICATION 8.6 to 8.8), and deposits to make them of. Rests on model.py, and on nothing of the code or of the Rust."""
import dataclasses

from model import derive, encode, fold, fold_tree_width, level_domain, level_trees, mul, path, root_of_path, some_words, tree, word_bytes

# ---- bytes


@dataclasses.dataclass
class Level:
    a: int
    b: int
    c: int
    a_group: list
    c_group: list
    a_path: list
    c_path: list


@dataclasses.dataclass
class Group:
    values: list
    path: list


def count_bytes(x):
    return x.to_bytes(4, "little")


def run_bytes(items):
    return count_bytes(len(items)) + b"".join(items)


def words_bytes(words):
    return b"".join(map(word_bytes, words))


def level_bytes(x):
    groups = [run_bytes(list(map(word_bytes, group))) for group in (x.a_group, x.c_group)]
    return words_bytes([x.a, x.b, x.c]) + b"".join(groups) + run_bytes(x.a_path) + run_bytes(x.c_path)


def group_bytes(x):
    return run_bytes(list(map(word_bytes, x.values))) + run_bytes(x.path)


def query_bytes(levels):
    return run_bytes(list(map(level_bytes, levels)))


def tail_bytes(groups):
    return run_bytes(list(map(group_bytes, groups)))


class Short(Exception):
    """The record ends before what is read."""


class Reader:
    """A record read from front to back, and where its counts stand, with the size of what they count."""

    def __init__(self, data):
        self.data, self.at, self.counts = data, 0, []

    def take(self, size):
        if len(self.data) - self.at < size:
            raise Short
        self.at += size
        return self.data[self.at - size : self.at]

    def count(self, size=None):
        self.counts.append((self.at, size))
        return int.from_bytes(self.take(4), "little")

    def word(self):
        return int.from_bytes(self.take(16), "little")

    def words(self):
        return [self.word() for _ in range(self.count(16))]

    def digests(self):
        return [self.take(32) for _ in range(self.count(32))]

    def level(self):
        return Level(self.word(), self.word(), self.word(), self.words(), self.words(), self.digests(), self.digests())

    def group(self):
        return Group(self.words(), self.digests())

    def items(self, item):
        return [item(self) for _ in range(self.count())]


def read(record, item):
    """The items of a record that reads whole with nothing after it, else None."""
    reader = Reader(record)
    try:
        items = reader.items(item)
    except Short:
        return None
    return items if reader.at == len(record) else None


# ---- questions: each with its level and whether its answer is yes, as far as they are put


def first_no(questions):
    """The number and the level of the first question that is answered with no; 0 and 0 where none is."""
    return next(((number, level) for number, level, yes in questions if not yes), (0, 0))


def shape(widths, n, k, l):
    """Count, width and path length of level l."""
    count = 1 << (n + k - l)
    width = fold_tree_width(widths, count)
    return count, width, (count // width).bit_length() - 1


def sizes(widths, n, k):
    """Bytes of all trees, of a query record and of a tail record."""
    shapes = [shape(widths, n, k, l) for l in range(n + 1)]
    groups = [count // width for count, width, depth in shapes]
    opened = [8 + 16 * width + 32 * depth for count, width, depth in shapes]
    return sum(32 * (2 * g - 1) for g in groups), 4 + sum(48 + a + c for a, c in zip(opened, opened[1:])), 4 + groups[n] * opened[n]


def check_query(base, widths, n, k, position, challenges, roots, record, key=None):
    yield 4, 0, 1 <= n <= 20 and k <= 4
    yield 5, 0, len(challenges) == 16 * n
    yield 5, 0, len(roots) == 32 * (n + 1)
    yield 7, 0, len(base) <= 200
    yield 11, 0, position < 1 << (n + k)
    levels = read(record, Reader.level)
    yield 14, 0, levels is not None
    yield 15, 0, len(levels) == n
    for l, x in enumerate(levels):
        q = position // 2 ** (l + 1)
        r = int.from_bytes(challenges[16 * l : 16 * (l + 1)], "little")
        count, width, depth = shape(widths, n, k, l)
        yield 16, l, len(x.a_group) == width
        yield 17, l, len(x.a_path) == depth
        root = root_of_path(level_domain(base, l), count, width, 2 * q, x.a_group, x.a_path, key)
        yield 18, l, root == roots[32 * l : 32 * (l + 1)]
        yield 19, l, x.a_group[2 * q % width] == x.a
        yield 21, l, x.a_group[(2 * q + 1) % width] == x.b
        count, width, depth = shape(widths, n, k, l + 1)
        yield 22, l, len(x.c_group) == width
        yield 23, l, len(x.c_path) == depth
        root = root_of_path(level_domain(base, l + 1), count, width, q, x.c_group, x.c_path, key)
        yield 24, l, root == roots[32 * (l + 1) : 32 * (l + 2)]
        yield 25, l, x.c_group[q % width] == x.c
        yield 26, l, x.a ^ mul(r, x.a ^ x.b) == x.c


def check_tail(base, widths, n, k, claim, root, record, key=None):
    yield 4, 0, 1 <= n <= 20 and k <= 4
    yield 5, 0, len(root) == 32
    yield 7, 0, len(base) <= 200
    groups = read(record, Reader.group)
    yield 14, 0, groups is not None
    count, width, depth = shape(widths, n, k, n)
    yield 27, 0, len(groups) == count // width
    for g, x in enumerate(groups):
        yield 28, 0, len(x.values) == width
        yield 29, 0, len(x.path) == depth
        yield 30, 0, root_of_path(level_domain(base, n), count, width, width * g, x.values, x.path, key) == root
    yield 31, 0, word_bytes(groups[0].values[0]) == claim


def build_query(widths, n, k, position, levels, trees, out):
    """What is lent here and below are lengths in bytes."""
    yield 4, 0, 1 <= n <= 20 and k <= 4
    all_trees, size, _ = sizes(widths, n, k)
    yield 5, 0, levels == 16 * ((2 << n) - 1 << k)
    yield 5, 0, trees == all_trees
    yield 5, 0, out == size
    yield 11, 0, position < 1 << (n + k)


def build_tail(widths, n, k, level, tree, out):
    yield 4, 0, 1 <= n <= 20 and k <= 4
    count, width, depth = shape(widths, n, k, n)
    yield 5, 0, level == 16 * count
    yield 5, 0, tree == 32 * (2 * (count // width) - 1)
    yield 5, 0, out == sizes(widths, n, k)[2]


# ---- deposits


class Deposit:
    """A table committed under a base domain, with a set of widths and a key or none, and folded n times. The table and the challenges are the same under
    either set and under every key."""

    def __init__(self, widths, n, k, base, key=None):
        words = some_words("deposit %d %d %s" % (n, k, base.hex()), (1 << n) + n)
        self.widths, self.n, self.k, self.base, self.key, self.challenges = widths, n, k, base, key, words[1 << n :]
        self.levels = [encode(n, k, words[: 1 << n], derive(base, n, k))]
        for r in self.challenges:
            self.levels.append(fold(self.levels[-1], r))
        self.trees = level_trees(base, widths, self.levels, key)
        self.roots = [digests[-1] for digests in self.trees]

    def opening(self, l, place):
        """The values of the group that has a place of level l, and its path."""
        width = fold_tree_width(self.widths, len(self.levels[l]))
        group = place // width
        return self.levels[l][width * group : width * (group + 1)], path(self.trees[l], group)

    def tail(self):
        """The groups of its tail record."""
        width = fold_tree_width(self.widths, 1 << self.k)
        return [Group(*self.opening(self.n, place)) for place in range(0, 1 << self.k, width)]


class OpenedDeposit:
    """A deposit that is too long to make: of each level the one group that a query at a position opens. Its other values and the digests on
    its path are any, and the root is what they lead to."""

    def __init__(self, widths, n, k, base, position, key=None):
        self.widths, self.n, self.k, self.base, self.position, self.key = widths, n, k, base, position, key
        self.challenges = self.words("challenges", n)
        self.openings, self.roots, folded = [], [], None
        for l in range(n + 1):
            count, width, depth = shape(widths, n, k, l)
            values = self.words("values %d" % l, width)
            halves = self.words("path %d" % l, 2 * depth)
            siblings = [words_bytes(halves[2 * i : 2 * i + 2]) for i in range(depth)]
            place = position >> l
            if l > 0:
                values[place % width] = folded
            if l < n:
                even = place - place % 2
                (folded,) = fold([values[even % width], values[(even + 1) % width]], self.challenges[l])
            self.openings.append((values, siblings))
            self.roots.append(root_of_path(level_domain(base, l), count, width, place, values, siblings, key))

    def words(self, what, count):
        return some_words("opened %d %d %d %s" % (self.n, self.k, self.position, what), count)

    def opening(self, l, place):
        return self.openings[l]


class LastLevel(Deposit):
    """A deposit that is too long to make: its last level alone, of any values."""

    def __init__(self, widths, n, k, base, key=None):
        values = some_words("last level %d %d" % (n, k), 1 << k)
        self.widths, self.n, self.k, self.base, self.key, self.levels = widths, n, k, base, key, [[]] * n + [values]
        self.trees = [[]] * n + [tree(level_domain(base, n), fold_tree_width(widths, 1 << k), values, key)]
        self.roots = [self.trees[n][-1]]


def query(deposit, position):
    """The levels of a deposit's query record."""
    levels = []
    for l in range(deposit.n):
        q = position // 2 ** (l + 1)
        (a_group, a_path), (c_group, c_path) = deposit.opening(l, 2 * q), deposit.opening(l + 1, q)
        a, b, c = a_group[2 * q % len(a_group)], a_group[(2 * q + 1) % len(a_group)], c_group[q % len(c_group)]
        levels.append(Level(a, b, c, list(a_group), list(c_group), list(a_path), list(c_path)))
    return levels
