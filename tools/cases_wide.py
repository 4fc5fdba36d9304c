"""Lines for test_record, data/record: the wide set of widths, at every n and k with n + k up to 10, and at large ones.

Levels, trees and records are drawn (lines.py), so that lines name them in few characters: the values and digests of a record are parts of streams but
for the one value of a group that is folded from the level before. As in cases_record.py, the number of each case on records is also known
by the way it is made, and the model must agree."""
import dataclasses

import damages
import records
from cases_field import room, text
from cases_record import alone, case_line, check_query, check_tail, compare, heads_of_compare, in_pairs, right
from cases_rust import GOLDEN
from damages import Damage, edited
from lines import Reader, Store, drawn, drawn_bytes
from model import PRESENT, WIDE, word_bytes
from records import LastLevel, OpenedDeposit, query, query_bytes, words_bytes

BASE = b"d"


def sizes_up_to(most):
    return [(n, k) for k in range(5) for n in range(1, most - k + 1)]


def differ(n, k):
    """Have the two sets different widths at some level? Then at level 0."""
    return n + k >= 4


# ---- records of what is drawn


def stream(number, first, count):
    """So many bytes of a stream from one on, as an argument."""
    return "~b%dx%d" % ((number + first * GOLDEN) % (1 << 64), count)


def joined(pieces):
    """Pieces of an argument, those in digits put together."""
    said = []
    for piece in filter(None, pieces):
        if said and piece[0] not in "~@" and said[-1][0] not in "~@":
            said[-1] += piece
        else:
            said.append(piece)
    return ",".join(said)


class Drawn(OpenedDeposit):
    """An opened deposit whose values, paths and challenges are drawn."""

    def __init__(self, widths, n, k, base, position, key=None):
        self.streams, self.first = {}, 4096 * (8 * n + k)
        super().__init__(widths, n, k, base, position, key)

    def words(self, what, count):
        self.streams[what] = self.first + len(self.streams)
        data = drawn_bytes("b", self.streams[what], 16 * count)
        return [int.from_bytes(data[i : i + 16], "little") for i in range(0, len(data), 16)]

    def group(self, l):
        """The pieces of a level's group: one value is folded, but at level 0."""
        number, (values, _) = self.streams["values %d" % l], self.openings[l]
        if l == 0:
            return [stream(number, 0, 16 * len(values))]
        i = (self.position >> l) % len(values)
        before, after = 16 * i, 16 * (len(values) - i - 1)
        return [before and stream(number, 0, before), word_bytes(values[i]).hex(), after and stream(number, 16 * (i + 1), after)]

    def path(self, l):
        depth = len(self.openings[l][1])
        return [depth and stream(self.streams["path %d" % l], 0, 32 * depth)]

    def record(self):
        """The pieces of its query record."""
        pieces = [records.count_bytes(self.n).hex()]
        for l, x in enumerate(query(self, self.position)):
            counted = [(x.a_group, self.group(l)), (x.c_group, self.group(l + 1)), (x.a_path, self.path(l)), (x.c_path, self.path(l + 1))]
            pieces.append(words_bytes([x.a, x.b, x.c]).hex())
            for items, said in counted:
                pieces += [records.count_bytes(len(items)).hex(), *said]
        return pieces

    def keep(self, store):
        """Keeps its challenges, roots and query record."""
        data = words_bytes(self.challenges) + b"".join(self.roots) + query_bytes(query(self, self.position))
        said = joined([stream(self.streams["challenges"], 0, 16 * self.n), b"".join(self.roots).hex(), *self.record()])
        assert Reader().bytes(said) == data
        store.new.append("= " + said)
        store.data += data


class Kept(Store):
    """Does not keep a record anew whose first bytes alone are others."""

    def named(self, field, least=12):
        if self.longest(field)[1] < least and self.longest(field[least:])[1] >= 4 * least:
            return field[:least].hex() + "," + super().named(field[least:], least)
        return super().named(field, least)


# ---- cases


def levels_of(n, k):
    """The widest level, and the last one whose groups are wide, or else the last."""
    return sorted({0, n + k - 6 if 0 < n + k - 6 < n else n - 1})


def of_reading():
    """14 and 15."""
    return [Damage("14", 14, 0, edited(lambda record: record + b"\0")), Damage("15", 15, 0, damages.change("items", damages.longer))]


def query_cases(deposit):
    n, k, position = deposit.n, deposit.k, deposit.position
    given, title = check_query(deposit, position), "n %d k %d" % (n, k)
    yield right(title, given)
    yield right(title + ", under the present set", dataclasses.replace(given, widths=PRESENT), 16 if differ(n, k) else 0)
    yield from alone(title, given, of_reading() + [x for l in levels_of(n, k) for x in damages.of_any_level(given, l)])
    both = compare(deposit, position)
    yield right(title + ", a record with itself", both, 33)
    yield right(title + ", under the present set", dataclasses.replace(both, widths=PRESENT), 32 if differ(n, k) else 33)
    yield from alone(title, both, [Damage("32 second", 32, 0, damages.change("second", damages.other_byte(len(both.second) - 1)))])


def tail_cases(n, k):
    given, title = check_tail(LastLevel(WIDE, n, k, BASE)), "n %d k %d, tail" % (n, k)
    yield right(title, given)
    yield right(title + ", under the present set", dataclasses.replace(given, widths=PRESENT), 27 if k == 4 else 0)
    yield from alone(title, given, damages.of_any_tail(given))


def record_lines(store, sizes):
    for n, k in sizes:
        deposit = Drawn(WIDE, n, k, BASE, drawn(8 * n + k, 0) % (1 << (n + k)))
        deposit.keep(store)
        for case in (*query_cases(deposit), *tail_cases(n, k)):
            yield from case_line(store, *case)


def refused_records(store):
    """What is refused before a record is read."""
    deposit = Drawn(WIDE, 3, 3, b"refused", 37)
    deposit.keep(store)
    for title, given, ways in [
        ("query", check_query(deposit, 37), damages.heads_of_query(3, 3)),
        ("tail", check_tail(LastLevel(WIDE, 3, 3, BASE)), damages.heads_of_tail()),
        ("compare", compare(deposit, 37), heads_of_compare(3, 3)),
    ]:
        for case in alone(title, given, ways):
            yield from case_line(store, *case)


# ---- levels, and building: lines alone


def words(case, number, count):
    return "~w%dx%d" % (16 * case + number, count)


def tree_size(widths, n, k, l):
    count, width, _ = records.shape(widths, n, k, l)
    return 32 * (2 * (count // width) - 1)


def built_lines(case, n, k):
    """Records of any levels and trees; with a buffer, and trees, that the present set would have."""
    count = (2 << n) - 1 << k
    (trees, size, tail), (other_trees, other_size, other_tail) = (records.sizes(widths, n, k) for widths in (WIDE, PRESENT))
    position = drawn(case, 1) % (1 << (n + k))
    given = WIDE, n, k, position, words(case, 0, count)
    for some, out in dict.fromkeys([(trees, size), (trees, other_size), (other_trees, size)]):
        yield "build_query %d %d %d %d %s ~b%dx%d %d" % (*given, 16 * case + 1, some, out)
    for out in dict.fromkeys([tail, other_tail]):
        yield "build_tail %d %d %d %s ~b%dx%d %d" % (WIDE, n, k, words(case, 2, 1 << k), 16 * case + 3, tree_size(WIDE, n, k, n), out)


def level_lines(case, n, k):
    """All levels of a codeword with their trees and roots; of level 0 the tree, and its last leaves."""
    count, width, _ = records.shape(WIDE, n, k, 0)
    trees, _, _ = records.sizes(WIDE, n, k)
    codeword, groups, base, tree = words(case, 4, count), count // width, BASE.hex(), tree_size(WIDE, n, k, 0)
    rooms = 2 * ((2 << n) - 1 << k), count, trees, 32 * (n + 1)
    yield "fold_levels %d %d %d %s %s %s %d %d %d %d" % (WIDE, n, k, base, words(case, 5, n), codeword, *rooms)
    yield "level_tree %d %d %d 0 %s %s %d" % (WIDE, n, k, base, codeword, tree)
    yield "level_leaves %d %d %d 0 %s %d %s %d" % (WIDE, n, k, base, groups - groups // 3 - 1, codeword, 32 * (groups // 3 + 1))
    if differ(n, k):
        yield "level_tree %d %d %d 0 %s %s %d" % (WIDE, n, k, base, codeword, tree_size(PRESENT, n, k, 0))
    # the model encodes as the definition reads, which takes long where the table is long
    if 2 * n + k <= 12:
        yield "commit %d %d %d %s %s %d %d %s %d" % (WIDE, n, k, base, words(case, 6, 1 << n), 2 * n * k, 2 * count, room(n), tree)


def refused_lines():
    """4, 5, 7 and 11, alone and in pairs, at n 3 and k 3."""
    (trees, size, tail), tree, past = records.sizes(WIDE, 3, 3), tree_size(WIDE, 3, 3, 0), (1 << 64) - 1
    ranges, long = [(1, 0), (1, 21), (2, 5)], "61x201"
    given = [WIDE, 3, 3, 37, "~w1x120", "~b2x%d" % trees, size]
    yield from in_pairs("build_query", given, [*ranges, (4, "~w1x119"), (5, "~b2x%d" % (trees - 1)), (6, size + 1), (3, 64)])
    given = [WIDE, 3, 3, "~w1x8", "~b2x%d" % tree_size(WIDE, 3, 3, 3), tail]
    yield from in_pairs("build_tail", given, [*ranges, (3, "~w1x7"), (4, "~b2x1"), (5, tail + 1)])
    given = [WIDE, 3, 3, "61", "~w1x3", "~w2x64", 240, 64, trees, 128]
    yield from in_pairs("fold_levels", given, [*ranges, (4, "~w1x2"), (6, 239), (7, 65), (8, trees - 32), (9, 127), (3, long)])
    given = [WIDE, 3, 3, 0, "61", "~w1x64", tree]
    yield from in_pairs("level_tree", given, [*ranges, (3, 4), (5, "~w1x63"), (6, tree + 32), (4, long)])
    given = [WIDE, 3, 3, 0, "61", 1, "~w1x64", 32]
    yield from in_pairs("level_leaves", given, [*ranges, (3, 4), (6, "~w1x63"), (7, 33), (4, long), (5, 2), (5, past)])
    given = [WIDE, 3, 3, "61", "~w1x8", 18, 128, room(3), tree]
    yield from in_pairs("commit", given, [*ranges[1:], (4, "~w1x7"), (5, 17), (6, 127), (7, room(4)), (8, tree + 32), (3, long)])


def plain_lines():
    yield from ("fold_tree_width %d %d" % (WIDE, length) for length in [*range(5), 15, 16, 31, 32, 63, 64, 65, 128, 1024, 1 << 24])
    yield "# bytes of all trees, of a query and of a tail record"
    for widths in (PRESENT, WIDE):
        yield from ("sizes %d %d %d" % (widths, n, k) for n in range(22) for k in range(6))
    for case, (n, k) in enumerate(sizes_up_to(10)):
        yield "# n %d k %d" % (n, k)
        yield from built_lines(case, n, k)
        yield from level_lines(case, n, k)
    yield "# n 10 k 1"
    yield from built_lines(40, 10, 1)
    yield from level_lines(40, 10, 1)
    yield "# refused"
    yield from refused_lines()


def files():
    small = [(n, k) for n, k in sizes_up_to(10) if n + k <= 8]
    large = [(n, k) for n, k in sizes_up_to(10) if n + k > 8]
    store = Kept()
    return [
        ("wide_levels.txt", text(plain_lines())),
        ("wide.txt", text([*record_lines(store, small), *refused_records(store)])),
        ("wide_large.txt", text(record_lines(Kept(), large))),
        ("wide_most.txt", text(record_lines(Kept(), [(16, 2), (20, 4)]))),
    ]
