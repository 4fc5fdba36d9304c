"""Lines for test_record under keys: in data/tree keyed mode, key derivation and trees, in data/record levels, records, comparisons and the whole run.

A line `key ..` sets the key of the lines after it (lines.py). What is made under one key is asked under it, under another and under none. As in
cases_record.py, the number of each case on records is also known by the way it is made, and the model must agree."""
import copy
import dataclasses
import struct

import answers
import damages
import records
from cases_field import room, text
from cases_record import alone, build_query, build_tail, case_line, check_query, check_tail, compare, heads_of_compare, of_records, right
from cases_record import run_cases, run_lines, wide_run_cases
from cases_tree import DOMAINS, KEY, SHAPES, letters, openings
from cases_wide import BASE, Drawn, Kept, of_reading, tree_size
from lines import Reader, Store, tables
from model import IV, PRESENT, WIDE
from records import Deposit, LastLevel

# one that differs in a bit of its last byte; zeros; and the words that hash mode starts from, so that the flag alone tells the two apart
OTHER, ZEROS, OF_HASH_MODE = KEY[:-1] + bytes([KEY[-1] ^ 1]), bytes(32), struct.pack("<8I", *IV)

# what is made under one of them is asked under all
THREE = KEY, OTHER, None


def under(key):
    """The line that sets a key, or none."""
    return "key " + (key.hex() if key else "-")


def named(key):
    return {KEY: "the key", OTHER: "another key", None: "no key"}[key]


# ---- the hash


def hash_lines():
    """Keys that are not of 32 bytes, and keys, contexts and key material at their least."""
    for size in (0, 1, 31, 33, 64):
        for length in (0, 1025):
            yield from ["keyed_blake3 %%%d %%%d" % (size, length), "keyed_pieces %%%d %%%d 0 1" % (size, length)]
    for key in (OTHER, ZEROS, OF_HASH_MODE):
        for length in (0, 64, 1025):
            yield from ["keyed_blake3 %s %%%d" % (key.hex(), length), "keyed_pieces %s %%%d 0 1" % (key.hex(), length)]
    for context in ("-", "61"):
        for material in ("-", "61", "%32"):
            yield from ["derive_key %s %s" % (context, material), "derived_pieces %s %s 0 0" % (context, material)]


# ---- trees


DEEP = [(256, 1), (256, 2), (512, 8), (1024, 32), (1024, 512)]


def build(domain, count, width):
    return "build %s %d %d ~w%dx%d %d" % (domain, count, width, count, count, 32 * (2 * (count // width) - 1))


def refused_lines():
    """One question of each entry at a time, in the order of SPECIFICATION 8.4: a key has none of its own."""
    for entry, right_ones, wrong in [
        ("leaf_digest", ["61", 16, 8, 5, "~w1x8"], [(0, "61x256"), (1, 3), (2, 3), (2, 32), (3, 16), (4, "~w1x7")]),
        ("node_digest", ["61", 0, "%32", "%32"], [(2, "%31"), (3, "%33"), (0, "61x256")]),
        ("build", ["61", 16, 8, "~w1x16", 96], [(0, "61x256"), (1, 3), (2, 3), (2, 32), (3, "~w1x15"), (4, 95)]),
        ("leaves", ["61", 16, 2, 3, "~w1x16", 96], [(0, "61x256"), (1, 3), (2, 3), (2, 32), (3, 6), (4, "~w1x15"), (5, 95)]),
        ("parents", ["61", 0, "%128", 64], [(2, "%127"), (3, 63), (0, "61x256")]),
        ("root_of_path", ["61", 16, 8, 5, "~w1x8", "%32"], [(0, "61x256"), (1, 3), (2, 3), (2, 32), (3, 16), (5, "-"), (4, "~w1x7")]),
    ]:
        for place, value in wrong:
            given = list(right_ones)
            given[place] = value
            yield " ".join([entry, *map(str, given)])


def part_lines():
    for count, width, first, groups in [(16, 2, 3, 5), (64, 8, 1, 6), (64, 1, 5, 59), (1024, 512, 1, 1), (1, 1, 0, 1)]:
        yield "leaves 61 %d %d %d ~w%dx%d %d" % (count, width, first, count, count, 32 * groups)
    for level, pairs in enumerate((0, 1, 3, 4, 5, 65)):
        yield "parents %s %d %%%d %d" % (DOMAINS[255 if pairs == 5 else 1], level, 64 * pairs, 32 * pairs)


def tree_lines():
    """Under each key, at last under none: a leaf, a node and small trees. Under two: deep trees and wide ones, and parts of trees."""
    yield "= " + letters(255).hex()
    for key in (KEY, OTHER, ZEROS, OF_HASH_MODE, None):
        yield under(key)
        for domain in ("61", DOMAINS[255]):
            yield from ["leaf_digest %s 16 8 5 ~w1x8" % domain, "leaf_digest %s 1024 512 5 ~w1x512" % domain, "node_digest %s 3 %%32 ~b1x32" % domain]
            yield from (build(domain, count, width) for count, width in SHAPES)
    for key in (KEY, OTHER):
        yield under(key)
        yield from (build("61", count, width) for count, width in DEEP)
        yield from part_lines()
    yield "# refused"
    yield from refused_lines()


def opening_lines():
    """Leaves, paths and roots of trees under the key; where the same leaves and paths lead under another and under none."""
    said = list(openings([1, 255], [*SHAPES, (64, 8), (64, 32)], KEY))
    yield under(KEY)
    yield from said
    for key in (OTHER, None):
        yield under(key)
        yield from (line for line in said if line.startswith(("leaf_digest", "root_of_path")))


# ---- levels


SIZES = [(PRESENT, 1, 1), (PRESENT, 4, 2), (WIDE, 4, 2), (PRESENT, 3, 4), (WIDE, 3, 4), (WIDE, 2, 1)]

# the deposit of two words
TWO_WORDS = "fold_levels 0 1 1 64 2 5,9,72a5b62a3a651c362d5365c5cf8b9a48,72a5b62a3a651c362d5365c5cf8b9a44 12 4 128 64"


def commit(case, widths, n, k):
    rooms = 2 * n * k, 2 << n + k, room(n), tree_size(widths, n, k, 0)
    return "commit %d %d %d %s ~w%dx%d %d %d %s %d" % (widths, n, k, BASE.hex(), 16 * case + 9000, 1 << n, *rooms)


def hold_to_law(line):
    """What `commit` leaves under three keys: the list, the gammas and the codeword are the same, and the trees differ."""
    letters, reader, said = tables()["test_record"]["commit"], Reader(), []
    for key in THREE:
        reader.key = key
        said.append(answers.answer(reader, letters, line).rsplit(" ", 1))
    assert len({left for left, _ in said}) == 1 and len({tree for _, tree in said}) == 3, line


def level_lines(case, widths, n, k):
    """All levels of a codeword with their trees and roots; of its first and last level the tree, its last leaves, and parents."""
    trees, _, _ = records.sizes(widths, n, k)
    scheme, base = "%d %d %d" % (widths, n, k), BASE.hex()
    rooms = 2 * ((2 << n) - 1 << k), 1 << n + k, trees, 32 * (n + 1)
    yield "fold_levels %s %s ~w%dx%d ~w%dx%d %d %d %d %d" % (scheme, base, 16 * case + 9001, n, 16 * case + 9002, 1 << n + k, *rooms)
    for l in (0, n):
        count, width, _ = records.shape(widths, n, k, l)
        values, groups = "~w%dx%d" % (16 * case + 9003 + l, count), count // width
        yield "level_tree %s %d %s %s %d" % (scheme, l, base, values, tree_size(widths, n, k, l))
        yield "level_leaves %s %d %s %d %s %d" % (scheme, l, base, groups - groups // 3 - 1, values, 32 * (groups // 3 + 1))
        yield "level_parents %d %d %d %s %d ~b%dx384 192" % (n, k, l, base, l, case)


def refused_level_lines():
    yield from ["commit 1 21 1 61 5,9 2 8 7 96", "commit 1 1 1 61 5,9 2 8 7 95", "commit 1 1 1 61x201 5,9 2 8 7 96"]
    yield from ["level_tree 0 1 1 2 61 1,2,3,4 96", "level_tree 0 1 1 0 61 1,2,3,4 95", "level_tree 0 1 1 0 61x201 1,2,3,4 96"]
    yield from ["fold_levels 0 0 1 61 2 5,9,33,45 12 4 128 64", "fold_levels 0 1 1 61 2 5,9,33,45 12 4 128 63"]
    yield from ["fold_levels 0 1 1 61x201 2 5,9,33,45 12 4 128 64", "level_leaves 0 1 5 0 61 0 1,2 32", "level_leaves 0 1 1 1 61 0 1,2 33"]
    yield from ["level_leaves 0 1 1 1 61x201 0 1,2 32", "level_leaves 0 1 1 1 61 1 1,2 32", "level_parents 0 1 0 61 0 ~b1x64 32"]
    yield from ["level_parents 1 1 1 61 0 ~b1x64 33", "level_parents 1 1 1 61x201 0 ~b1x64 32"]


def levels():
    for case, size in enumerate(SIZES):
        hold_to_law(commit(case, *size))
    yield "# SPECIFICATION 12.10"
    yield from (line for key in (KEY, None) for line in (under(key), TWO_WORDS))
    for key in THREE:
        yield "# " + named(key)
        yield under(key)
        for case, size in enumerate(SIZES):
            yield commit(case, *size)
            yield from level_lines(case, *size)
    yield under(KEY)
    yield "# refused"
    yield from refused_level_lines()


# ---- records


def asked_under(title, given, key, number, level=0):
    """A case asked under a key."""
    return right("%s, asked under %s" % (title, named(key)), dataclasses.replace(given, key=key), number, level)


def under_each(title, deposits, position):
    """The records of deposits that differ in their key alone, asked under every key."""
    for key in THREE:
        for made, deposit in deposits.items():
            remark = "%s, made under %s" % (title, named(made))
            for given, own, others in [(check_query, 0, 18), (compare, 33, 32)]:
                yield asked_under(remark, given(deposit, position), key, own if key == made else others)
            yield asked_under(remark, check_tail(deposit), key, 0 if key == made else 30)
    both = compare(deposits[KEY], position)
    for made in (OTHER, None):
        second = compare(deposits[made], position).second
        # a record without a path is the same under every key
        number = 33 if second == both.first else 32
        yield asked_under("%s, the second made under %s" % (title, named(made)), dataclasses.replace(both, second=second), KEY, number)


def mixed(deposit, other, l):
    """A deposit with the trees of another from a level on."""
    both = copy.copy(deposit)
    both.trees, both.roots = deposit.trees[:l] + other.trees[l:], deposit.roots[:l] + other.roots[l:]
    return both


def mixed_cases(title, deposits, position):
    """The trees from a level on are under another key: c's opening of the level before is refused, and under that key a's of the first level."""
    for first, second in [(KEY, OTHER), (KEY, None), (None, KEY)]:
        for l in range(1, deposits[first].n + 1):
            given = check_query(mixed(deposits[first], deposits[second], l), position)
            remark = "%s, from level %d on under %s" % (title, l, named(second))
            yield asked_under(remark, given, first, 24, l - 1)
            yield asked_under(remark, given, second, 18)
        last = mixed(deposits[first], deposits[second], deposits[first].n)
        yield asked_under(title + ", the tail of such", check_tail(last), first, 30)
        yield asked_under(title + ", the tail of such", check_tail(last), second, 0)


def small_cases():
    for widths, n, k, base, position in [(PRESENT, 1, 0, b"", 1), (PRESENT, 3, 2, b"a", 21), (PRESENT, 4, 3, b"d" * 200, 77), (WIDE, 4, 3, b"d" * 200, 77)]:
        deposits = {key: Deposit(widths, n, k, base, key) for key in THREE}
        title = "set %d n %d k %d" % (widths, n, k)
        yield from under_each(title, deposits, position)
        yield from mixed_cases(title, deposits, position)


def damaged_cases():
    """Every number under the key."""
    deposit, wide = Deposit(PRESENT, 3, 2, b"a", KEY), Deposit(WIDE, 4, 3, b"d" * 200, KEY)
    given = check_query(deposit, 21)
    yield from alone("query", given, damages.heads_of_query(3, 2) + damages.of_level(0) + damages.of_level(2))
    yield from alone("query", given, damages.of_roots(given))
    yield from alone("wide query", check_query(wide, 77), of_reading() + damages.of_any_level(check_query(wide, 77), 1))
    tail = check_tail(Deposit(PRESENT, 1, 3, b"a", KEY))
    yield from alone("tail", tail, damages.heads_of_tail() + damages.of_group(0) + damages.of_group(3) + damages.of_claim())
    yield from alone("wide tail", check_tail(wide), damages.of_any_tail(check_tail(wide)))
    both = compare(deposit, 21)
    yield from alone("compare", both, heads_of_compare(3, 2) + list(of_records(both)))


def many_cases():
    for widths in (PRESENT, WIDE):
        smallest, small = Deposit(widths, 1, 1, b"a", KEY), Deposit(widths, 2, 2, b"deposit", KEY)
        yield "every byte changed by 1, 128 and 255", "damaged_query 127", check_query(smallest, 3)
        yield "every byte changed by 1, 128 and 255", "damaged_tail 127", check_tail(small)
        yield "every proper prefix", "prefixes_query", check_query(small, 9)
        yield "every proper prefix", "prefixes_tail", check_tail(small)
        yield "the same without the key", "prefixes_query", dataclasses.replace(check_query(small, 9), key=None)
        yield "the same without the key", "damaged_tail 127", dataclasses.replace(check_tail(smallest), key=None)


def large_cases(deposit):
    n, k, position = deposit.n, deposit.k, deposit.position
    title, last = "set %d n %d k %d" % (deposit.widths, n, k), LastLevel(deposit.widths, n, k, BASE, KEY)
    for key in THREE:
        own = key == KEY
        yield asked_under(title, check_query(deposit, position), key, 0 if own else 18)
        yield asked_under(title, compare(deposit, position), key, 33 if own else 32)
        yield asked_under(title + ", tail", check_tail(last), key, 0 if own else 30)


class Keyed(Kept):
    """Has the key that lines set, too, and keeps records anew of which only parts are kept: the values under one key are those under another."""

    key = None

    def named(self, field, least=12):
        said = super().named(field, least)
        if len(said) > max(256, len(field) // 2):
            self.new.append("= " + field.hex())
            self.data += field
        return super().named(field, least)

    def lines(self, cases):
        """The lines of cases, with one that sets the key wherever it is another."""
        for remark, name, given in cases:
            if given.key != self.key:
                self.key = given.key
                yield under(given.key)
            yield from case_line(self, remark, name, given)


def large_lines():
    store = Keyed()
    for widths, n, k in [(PRESENT, 20, 4), (WIDE, 12, 3)]:
        deposit = Drawn(widths, n, k, BASE, (1 << (n + k)) // 3, KEY)
        deposit.keep(store)
        yield from store.lines(large_cases(deposit))


def built_lines():
    """What hashes nothing is the same under every key: records built of a keyed deposit, paths, and messages picked of two chains."""
    store, deposit = Store(), Deposit(PRESENT, 1, 3, b"a", KEY)
    said = [" ".join([given.name, given.line(store)]) for given in (build_query(deposit, 10), build_tail(deposit))]
    said += ["open 16 8 5 ~b1x96 32", "walk 3 2 1 0102030405 0102040405 1024 1024"]
    yield from store.new
    for key in THREE:
        yield under(key)
        yield from said


def whole_run_lines():
    """Runs under the key; then runs under another key and under none, that compare records made under it."""
    store, cases = Keyed(), [*run_cases(KEY), *wide_run_cases(KEY)]
    yield under(KEY)
    yield from run_lines(store, cases)
    wide = [case for case in cases if case[1].widths == WIDE]
    for key in (OTHER, None):
        yield under(key)
        yield from run_lines(store, [cases[0], wide[0]])


# ---- files


def tree_files():
    return [
        ("keyed.txt", text([*hash_lines(), *tree_lines()])),
        ("keyed_openings.txt", text(opening_lines())),
    ]


def record_files():
    return [
        ("keyed_levels.txt", text(levels())),
        ("keyed.txt", text(Keyed().lines([*small_cases(), *damaged_cases(), *many_cases()]))),
        ("keyed_large.txt", text(large_lines())),
        ("keyed_build.txt", text(built_lines())),
        ("keyed_run.txt", text(whole_run_lines())),
    ]
