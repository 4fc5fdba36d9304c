"""Lines for test_record, data/record: levels, committing, records built, checked and compared, `tail-list` and the whole run. Deposits and records are those of
records.py. Of each case on records its number is also known by the way it is made, and the model must agree."""
import copy
import dataclasses
import itertools
import typing

import answers
import damages
import records
from cases_field import room, text
from damages import Damage, change, of_lengths, of_numbers, other_byte
from lines import Store, hex_words, listed
from model import PRESENT, WIDE, leaf_message, node_message, some_words, word_bytes
from records import Deposit, LastLevel, OpenedDeposit, Reader, first_no, query, query_bytes, tail_bytes, words_bytes

# ---- what an entry is given


@dataclasses.dataclass
class Check:
    """The items of a record, the edit of its bytes, the scheme, and the key that it is asked under; a kind of record adds what its check is lent besides, by
    how it stands in a line."""

    base: bytes
    widths: int
    n: int
    k: int
    items: list
    edit: typing.Callable = dataclasses.field(default=bytes, kw_only=True)
    key: typing.Optional[bytes] = dataclasses.field(default=None, kw_only=True)

    @property
    def name(self):
        return "check_" + self.kind

    def record(self):
        return self.edit(self.bytes_of(self.items))

    def line(self, store):
        lent = (stands(store, getattr(self, field)) for field, stands in self.lent.items())
        return " ".join(map(str, [store.named(self.base), self.widths, self.n, self.k, *lent, store.named(self.record())]))

    def answer(self):
        lent = {field: getattr(self, field) for field in self.lent}
        return first_no(self.questions(self.base, self.widths, self.n, self.k, record=self.record(), key=self.key, **lent))


def number(store, value):
    return value


@dataclasses.dataclass
class CheckQuery(Check):
    position: int
    challenges: bytes
    roots: bytes

    kind, lent = "query", {"position": number, "challenges": Store.words, "roots": Store.named}
    bytes_of, questions = staticmethod(query_bytes), staticmethod(records.check_query)


@dataclasses.dataclass
class CheckTail(Check):
    root: bytes
    claim: bytes

    kind, lent = "tail", {"root": Store.named, "claim": Store.words}
    bytes_of, questions = staticmethod(tail_bytes), staticmethod(records.check_tail)


@dataclasses.dataclass
class Build:
    """The words and trees that are lent, and how long the record's buffer is."""

    kind: str
    widths: int
    n: int
    k: int
    position: int
    words: bytes
    trees: bytes
    out: bytes

    @property
    def name(self):
        return "build_" + self.kind

    def line(self, store):
        numbers = [self.widths, self.n, self.k] + ([self.position] if self.kind == "query" else [])
        return " ".join(map(str, [*numbers, store.words(self.words), store.named(self.trees), len(self.out)]))

    def answer(self):
        lengths = len(self.words), len(self.trees), len(self.out)
        if self.kind == "query":
            return first_no(records.build_query(self.widths, self.n, self.k, self.position, *lengths))
        return first_no(records.build_tail(self.widths, self.n, self.k, *lengths))


@dataclasses.dataclass
class Compare:
    base: bytes
    widths: int
    n: int
    k: int
    position: int
    challenges: bytes
    roots: bytes
    first: bytes
    second: bytes
    first_message: bytes = bytes(answers.MESSAGE_BUFFER)
    second_message: bytes = bytes(answers.MESSAGE_BUFFER)
    key: typing.Optional[bytes] = None

    kind, name = "query", "compare"

    def line(self, store):
        numbers = [store.named(self.base), self.widths, self.n, self.k, self.position, store.words(self.challenges), store.named(self.roots)]
        rest = [store.named(self.first), store.named(self.second), len(self.first_message), len(self.second_message)]
        return " ".join(map(str, numbers + rest))

    def answer(self):
        given = self.base, self.widths, self.n, self.k, self.position, self.challenges, self.roots, self.first, self.second
        return answers.compare(*given, len(self.first_message), len(self.second_message), self.key)[0][0], 0


def check_query(deposit, position):
    roots = b"".join(deposit.roots)
    lent = position, words_bytes(deposit.challenges), roots
    return CheckQuery(deposit.base, deposit.widths, deposit.n, deposit.k, query(deposit, position), *lent, key=deposit.key)


def check_tail(deposit):
    claim = word_bytes(deposit.levels[-1][0])
    return CheckTail(deposit.base, deposit.widths, deposit.n, deposit.k, deposit.tail(), deposit.roots[-1], claim, key=deposit.key)


def build_query(deposit, position):
    size = len(query_bytes(query(deposit, position)))
    words, trees = b"".join(map(words_bytes, deposit.levels)), b"".join(map(b"".join, deposit.trees))
    return Build("query", deposit.widths, deposit.n, deposit.k, position, words, trees, bytes(size))


def build_tail(deposit):
    size = len(tail_bytes(deposit.tail()))
    return Build("tail", deposit.widths, deposit.n, deposit.k, 0, words_bytes(deposit.levels[-1]), b"".join(deposit.trees[-1]), bytes(size))


def compare(deposit, position):
    """A deposit's query record with itself."""
    record = query_bytes(query(deposit, position))
    lent = position, words_bytes(deposit.challenges), b"".join(deposit.roots)
    return Compare(deposit.base, deposit.widths, deposit.n, deposit.k, *lent, record, record, key=deposit.key)


# ---- cases: a remark, an operation, and what it is given


def right(remark, given, number=0, level=0):
    """A case whose answer is this number and level."""
    got = given.answer()
    assert got == (number, level), "%s: the model answers %d at level %d" % (remark, *got)
    return remark, given.name, given


def damaged(given, *done):
    wrong = copy.deepcopy(given)
    for damage in done:
        damage.do(wrong)
    return wrong


def alone(title, given, ways):
    for x in ways:
        yield right("%s, %s" % (title, x.name), damaged(given, x), x.number, x.level)


def alone_and_in_pairs(title, given, ways):
    """Of two questions that are answered with no, the first gives the number."""
    for x, y in itertools.combinations_with_replacement(ways, 2):
        if x is y:
            yield from alone(title, given, [x])
        else:
            yield right("%s, %s and %s" % (title, x.name, y.name), damaged(given, x, y), x.number, x.level)


NOT_TEXT = bytes(range(256 - 81, 256))


def accepted():
    for n, k, base, positions in [
        (1, 0, b"", [0, 1]),
        (1, 1, b"a", [0, 3]),
        (1, 3, b"a", [10]),
        (1, 4, b"deposit", [0, 17, 31]),
        (2, 1, b"a" * 200, [0, 3, 7]),
        (2, 2, NOT_TEXT, [0, 9, 15]),
        (3, 0, b"deposit", [0, 5, 7]),
        (3, 2, b"a", [21]),
        (5, 2, b"", [0, 77, 127]),
    ]:
        deposit = Deposit(PRESENT, n, k, base)
        title = "n %d k %d, a domain of %d bytes" % (n, k, len(base))
        for position in positions:
            yield right(title, check_query(deposit, position))
            yield right(title, build_query(deposit, position))
        yield right(title, check_tail(deposit))
        yield right(title, build_tail(deposit))
    for n, k, base, position in [(20, 4, b"deposit", (1 << 24) - 1), (12, 3, b"a" * 200, 12345)]:
        yield right("n %d k %d" % (n, k), check_query(OpenedDeposit(PRESENT, n, k, base, position), position))
    last = LastLevel(PRESENT, 20, 4, b"deposit")
    yield from (right("n 20 k 4: the last level", given) for given in (check_tail(last), build_tail(last)))


def query_cases():
    given, levels = check_query(Deposit(PRESENT, 3, 2, b"a"), 21), range(3)
    yield from alone_and_in_pairs("query", given, damages.heads_of_query(3, 2) + [x for l in levels for x in damages.of_level(l)])
    for ways in [
        *(damages.of_level_otherwise(given, l) for l in levels),
        damages.of_roots(given),
        damages.of_numbers(given),
        damages.of_lengths([("challenges", 16), ("roots", 32)]),
        damages.of_record_ends(given),
        damages.of_counts(given, Reader.level),
    ]:
        yield from alone("query", given, ways)
    # both positions of the pair are right; another pair of its group is not, and another group is not
    for position, number in [(20, 0), (22, 19), (17, 19), (5, 18), (29, 18)]:
        yield right("query, position %d for 21" % position, dataclasses.replace(given, position=position), number)
    smallest, small = check_query(Deposit(PRESENT, 1, 1, b"a"), 3), check_query(Deposit(PRESENT, 2, 2, NOT_TEXT), 9)
    yield "every other value of every byte", "damaged_query 1", smallest
    yield "every byte changed by 1, 128 and 255", "damaged_query 127", small
    yield "every proper prefix", "prefixes_query", small


def tail_cases():
    given, groups = check_tail(Deposit(PRESENT, 1, 3, b"a")), (0, 2, 3)
    yield from alone_and_in_pairs("tail", given, damages.heads_of_tail() + [x for g in groups for x in damages.of_group(g)] + damages.of_claim())
    for ways in [
        damages.of_tail_otherwise(groups),
        damages.of_numbers(given),
        damages.of_lengths([("root", 32)]),
        damages.of_record_ends(given),
        damages.of_counts(given, Reader.group),
    ]:
        yield from alone("tail", given, ways)
    yield "every other value of every byte", "damaged_tail 1", check_tail(Deposit(PRESENT, 1, 1, b"a"))
    yield "every byte changed by 1, 128 and 255", "damaged_tail 127", given
    yield "every proper prefix", "prefixes_tail", given


def build_cases():
    given_query, given_tail = build_query(Deposit(PRESENT, 2, 2, NOT_TEXT), 9), build_tail(Deposit(PRESENT, 1, 3, b"a"))
    for title, given in [("build query", given_query), ("build tail", given_tail)]:
        yield from alone_and_in_pairs(title, given, damages.heads_of_build(given.kind, given.n, given.k))
        yield from alone(title, given, damages.of_numbers(given))
        yield from alone(title, given, damages.of_lengths([("words", 16), ("trees", 32), ("out", 1)]))
    yield from (right("n 20 k 4", dataclasses.replace(given, n=20, k=4), 5) for given in (given_query, given_tail))


# ---- comparing


def heads_of_compare(n, k):
    return [
        Damage("4", 4, 0, change("k", lambda k: 5)),
        Damage("5 challenges", 5, 0, change("challenges", lambda c: c[:-8])),
        Damage("5 roots", 5, 0, change("roots", lambda r: r + b"\0")),
        Damage("5 first buffer", 5, 0, change("first_message", lambda m: m[:-1])),
        Damage("5 second buffer", 5, 0, change("second_message", lambda m: m + b"\0")),
        Damage("7", 7, 0, change("base", lambda b: b"a" * 201)),
        Damage("11", 11, 0, change("position", lambda p: p + (1 << (n + k)))),
        Damage("32 first", 32, 0, change("first", other_byte(4))),
        Damage("32 second", 32, 0, change("second", other_byte(5))),
    ]


def of_records(given):
    """Records that are refused, by 14, 15 and each way through the levels."""
    for name, f in [
        ("no bytes", lambda record: b""),
        ("a byte less", lambda record: record[:-1]),
        ("a byte more", lambda record: record + b"\0"),
        ("a level less", lambda record: query_bytes(records.read(record, records.Reader.level)[:-1])),
        ("first byte of a level", other_byte(4)),
        ("last byte", other_byte(len(given.first) - 1)),
    ]:
        for side in ("first", "second"):
            yield Damage("%s %s" % (side, name), 32, 0, change(side, f))
        yield Damage("both %s" % name, 32, 0, lambda given, f=f: (change("first", f)(given), change("second", f)(given)))


def compared():
    for n, k, base, positions in [(1, 0, b"", [0, 1]), (1, 4, b"deposit", [17]), (2, 1, b"a" * 200, [0, 7]), (3, 2, NOT_TEXT, [21]), (5, 2, b"", [77])]:
        deposit = Deposit(PRESENT, n, k, base)
        for position in positions:
            yield right("a record with itself, n %d k %d" % (n, k), compare(deposit, position), 33)
    yield right("n 12 k 3", compare(OpenedDeposit(PRESENT, 12, 3, b"a" * 200, 12345), 12345), 33)
    given = compare(Deposit(PRESENT, 3, 2, b"a"), 21)
    yield from alone_and_in_pairs("compare", given, heads_of_compare(3, 2))
    lengths = [("challenges", 16), ("roots", 32), ("first_message", 1), ("second_message", 1)]
    for ways in [of_numbers(given), of_lengths(lengths), of_records(given)]:
        yield from alone("compare", given, ways)
    position = (1 << 24) - 1
    yield right("n 20 k 4", compare(OpenedDeposit(PRESENT, 20, 4, b"deposit", position), position), 33)


# ---- chains of messages under a stand-in digest: two accepted records that differ would be a collision of BLAKE3


def stand_in(message):
    """A digest with four values: the sum of the message's bytes, modulo 4."""
    return bytes([sum(message) % 4]) * 32


def chain(domain, count, width, place, values, siblings):
    """The messages from the group of a place to the root, under the stand-in digest."""
    group, messages = place // width, []
    messages.append(leaf_message(domain, count, width, group, values))
    for height, sibling in enumerate(siblings):
        digest = stand_in(messages[-1])
        pair = (digest, sibling) if group % 2 == 0 else (sibling, digest)
        messages.append(node_message(domain, height, *pair))
        group //= 2
    return messages


def tries(width, depth):
    """Openings of one place: another byte of a value, and of each sibling, or none."""
    values, digits = some_words("stand-in", width), some_words("siblings", 2 * depth)
    siblings = [words_bytes(digits[2 * i : 2 * i + 2]) for i in range(depth)]
    for flips in itertools.product(range(5), repeat=depth + 1):
        others = [bytes([sibling[0] ^ flip]) + sibling[1:] for flip, sibling in zip(flips[1:], siblings)]
        yield [values[0] ^ flips[0]] + values[1:], others


def walks(store):
    """For each set of places at which two chains with one root can differ, two such chains."""
    for domain, count, width, place, depth in [(b"", 1, 1, 0, 0), (b"a", 8, 1, 5, 3), (b"d" * 209, 64, 8, 37, 3), (b"d" * 209, 64, 32, 37, 1)]:
        openings = [chain(domain, count, width, place, *opening) for opening in tries(width, depth)]
        first, seen = openings[0], set()
        for second in openings:
            places = tuple(i for i in range(depth + 1) if first[i] != second[i])
            if places in seen or stand_in(first[-1]) != stand_in(second[-1]):
                continue
            if places:
                assert stand_in(first[places[-1]]) == stand_in(second[places[-1]])
            seen.add(places)
            sizes = len(first[0]), len(first[-1]) if depth else 1, depth
            yield "# chains that differ at %s of %d" % (", ".join(map(str, places)) or "no place", depth + 1)
            lent = store.named(b"".join(first)), store.named(b"".join(second))
            yield from kept(store)
            yield "walk %d %d %d %s %s %d %d" % (*sizes, *lent, answers.MESSAGE_BUFFER, answers.MESSAGE_BUFFER)
        assert len(seen) == 2 ** (depth + 1), sorted(seen)


# ---- tail-list, the whole run, levels, differences


def tail_list():
    def packed(n, k, words):
        return bytes([n, k]) + words_bytes(words)

    # every size
    for k in range(5):
        for n in range(9 - k):
            yield packed(n, k, some_words("size %d %d" % (n, k), (1 << n) + k * n + n))
    # the gammas, or the challenges, zero or one
    for gamma, challenge in [(0, 3), (1, 3), (7, 0), (7, 1)]:
        yield packed(2, 2, some_words("special", 4) + [gamma] * 4 + [challenge] * 2)
    # 0 and 1 byte
    yield from [b"", b"\x00", b"\x15", b"\xff"]
    # sizes out of range, alone and with a long input
    for n, k in [(21, 0), (255, 255), (20, 0), (9, 0), (8, 1), (5, 4), (4, 5), (0, 5)]:
        yield bytes([n, k])
    yield from [b"\x15\x00" + bytes(4225), b"\x08\x01" + bytes(5000)]
    # too short and too long, by a byte and by a word
    for n, k in [(0, 0), (1, 1), (0, 4), (4, 4), (8, 0)]:
        whole = packed(n, k, some_words("cut", (1 << n) + k * n + n))
        yield from [whole[:-1], whole[:-16], whole[:2], whole + b"\x00", whole + bytes(16), whole + bytes(2000)]


def example():
    """The specification's example of `tail-list`: what export_tail_list reads, and the lines that it prints."""
    data = bytes([1, 1]) + words_bytes([5, 9, 7, 2])
    numbers, (entries,) = answers.tails(data, 32)
    tails = ["tail %d %032x\n" % (eps, word) for eps, word in enumerate(answers.ints(entries)[:2])]
    return {"stdin": data, "stdout": "".join(["n %d k %d\n" % tuple(numbers[1:]), *tails]).encode()}


def tail_lines(store):
    # docs/SPECIFICATION.md's example
    yield "tails 0101,@0+64 32"
    for data in tail_list():
        line = "tails %s 32" % store.named(data)
        yield from kept(store)
        yield line


# what a run is lent for writing beside the kept challenges
LENT = ["gammas", "levels", "half", "trees", "roots", "query record", "tail record", "first message", "second message"]


@dataclasses.dataclass
class WholeRun:
    """A table, at first 5, 9, 3, 7, committed with k 1 under the domain `deposit`, calls of n, k, original n, variable, room and challenge, and two records
    to compare."""

    calls: list
    position: int = 5
    claim: int = 0
    first: bytes = b""
    second: bytes = b""
    widths: int = PRESENT
    n: int = 2
    k: int = 1
    base: str = b"deposit".hex()
    table: str = "5,9,3,7"
    numbers: typing.Optional[list] = None
    challenges: typing.Optional[list] = None
    lengths: tuple = (4, 28, 8, 352, 96, 388, 44, 1024, 1024)
    coordinates: str = room(2)
    kept: int = 4

    def line(self, store):
        numbers = [x for *call, _ in self.calls for x in call] if self.numbers is None else self.numbers
        challenges = [r for *_, r in self.calls] if self.challenges is None else self.challenges
        scheme = self.widths, self.n, self.k, self.position, self.base
        lent = " ".join(map(str, [*scheme, self.table, listed(numbers), hex_words(challenges), "%x" % self.claim]))
        rooms = listed(self.lengths), self.coordinates, self.kept, sum(answers.RUN_ROOMS)
        return "run %s %s %s %s %s %d %d 32" % (lent, store.named(self.first), store.named(self.second), *rooms)


def first_call_number(call):
    """The number that a call gets as the first of a run of n 2 and k 1."""
    n, k, original, var, room, _ = call
    return answers.fold_number(n, k, original, var, [0, 1], 16, room)


def run_cases(key=None):
    from model import extension

    table, folds = [5, 9, 3, 7], [(2, 1, 2, 0, 8, 2), (1, 1, 2, 0, 4, 4)]
    made = answers.Run(PRESENT, 2, 1, b"deposit", table, folds, key)
    records_at = [query_bytes(query(made, position)) for position in range(8)]
    claim = extension(table, [2, 4])
    right = WholeRun(folds, 5, claim, records_at[5], records_at[5])
    replace = dataclasses.replace
    yield "folds at variable 0; equal records", right
    refused = [(21, 1, 2, 0, 8, 1), (2, 5, 2, 0, 8, 1), (3, 1, 2, 0, 16, 1), (2, 1, 2, 0, 6, 1), (2, 1, 2, 0, 1 << 40, 1), (2, 1, 2, 2, 8, 1)]
    for call in refused:
        yield "a call refused with %d before them" % first_call_number(call), replace(right, calls=[call, *folds])
    yield "refused calls among them", replace(right, calls=[refused[5], folds[0], refused[0], folds[0], folds[1], refused[3]], position=0, first=b"", second=b"")
    yield "a call that would be done after n are", replace(right, calls=[*folds, (1, 0, 2, 0, 2, 9)])
    yield "a call with another n and k, for which the list is too long", replace(right, calls=[(1, 2, 2, 0, 8, 2), folds[1]])
    yield "one call", replace(right, calls=folds[:1])
    yield "no call", replace(right, calls=[])
    yield "another claim", replace(right, claim=claim ^ 1, position=7, first=records_at[7], second=records_at[7])
    yield "a fold at variable 1", replace(right, calls=[(2, 1, 2, 1, 8, 2), folds[1]], position=3, claim=extension(table, [4, 2]))
    damaged = records_at[5][:20] + bytes([records_at[5][20] ^ 1]) + records_at[5][21:]
    yield "a damaged record first", replace(right, first=damaged)
    yield "a damaged record second", replace(right, second=damaged)
    yield "a record for another position", replace(right, second=records_at[2])
    wrong = [
        ("n 0", 4, dict(n=0)),
        ("n 21", 4, dict(n=21)),
        ("k 5", 4, dict(k=5)),
        ("a table of three words", 5, dict(table="5,9,3")),
        ("four numbers of a call", 5, dict(numbers=[2, 1, 2, 0])),
        ("a challenge too few", 5, dict(challenges=[2])),
        *((what, 5, dict(lengths=(*right.lengths[:i], right.lengths[i] - 1, *right.lengths[i + 1 :]))) for i, what in enumerate(LENT)),
        ("coordinates", 5, dict(coordinates=room(1))),
        ("kept challenges", 5, dict(kept=3)),
        ("a base domain of 201 bytes", 7, dict(base="61x201")),
        ("a position past the end", 11, dict(position=8)),
    ]
    for remark, number, changes in wrong:
        yield "%d: %s" % (number, remark), replace(right, **changes)
    for (_, number, one), (_, later, two) in itertools.combinations([wrong[1], wrong[3], wrong[-2], wrong[-1]], 2):
        yield "%d before %d" % (number, later), replace(right, **one, **two)


# the lengths of what a run of n 4 and k 2 is lent under either set: its level 0 has one wide group of the wide set for four of the present one
LENGTHS = {
    PRESENT: (16, 248, 64, 1120, 160, 1444, 148, 1024, 1024),
    WIDE: (16, 248, 64, 1888, 160, 1636, 148, 1024, 1024),
}


def wide_run_cases(key=None):
    """One table under both sets: each has its own roots and records, and takes no length and no record of the other."""
    from model import extension

    table, challenges = some_words("table of a run", 16), some_words("challenges of a run", 4)
    folds = [(4 - l, 2, 4, 0, 64 >> l, r) for l, r in enumerate(challenges)]
    given = dict(n=4, k=2, table=hex_words(table), coordinates=room(4), kept=8, claim=extension(table, challenges), position=37)
    made = {widths: answers.Run(widths, 4, 2, b"deposit", table, folds, key) for widths in LENGTHS}
    shown = {widths: query_bytes(query(run, 37)) for widths, run in made.items()}
    runs = {widths: WholeRun(folds, first=x, second=x, widths=widths, lengths=LENGTHS[widths], **given) for widths, x in shown.items()}
    assert made[PRESENT].roots[0] != made[WIDE].roots[0] and made[PRESENT].roots[4] == made[WIDE].roots[4]
    for widths, other in ((PRESENT, WIDE), (WIDE, PRESENT)):
        title = "n 4 k 2 under set %d" % widths
        yield title, runs[widths]
        yield title + ", a record of the other set", dataclasses.replace(runs[widths], second=shown[other])
        yield title + ", lengths of the other set", dataclasses.replace(runs[widths], lengths=LENGTHS[other])
    wide = runs[WIDE]
    yield "another claim under the wide set", dataclasses.replace(wide, claim=wide.claim ^ 1)
    yield "three calls under the wide set", dataclasses.replace(wide, calls=folds[:3])
    yield "a fold at variable 1 under the wide set", dataclasses.replace(wide, calls=[(4, 2, 4, 1, 64, challenges[0]), *folds[1:]])
    yield "a position past the end under the wide set", dataclasses.replace(wide, position=64)


def resumed_run_cases():
    """Calls at any variables, each on the list that the last done one left; originals above n, and too small for the list; what is lent for the list."""
    right = WholeRun([], 5, 0, n=2, k=1)
    replace = dataclasses.replace
    for first, second in itertools.product((0, 1, 2), (0, 1)):
        for originals in ((2, 2), (3, 20)):
            calls = [(2, 1, originals[0], first, 8, 2), (1, 1, originals[1], second, 4, 4)]
            yield "folds at %d and %d, originals %d and %d" % (first, second, *originals), replace(right, calls=calls)
    for call in [(2, 1, 0, 0, 8, 1), (2, 1, 1, 0, 8, 1), (2, 1, 21, 0, 8, 1), (2, 1, 1, 2, 8, 1), (2, 1, 1, 0, 6, 1), (1, 2, 2, 0, 8, 1)]:
        remark = "a call with original %d at variable %d, refused with %d" % (call[2], call[3], first_call_number(call))
        yield remark, replace(right, calls=[call, (2, 1, 2, 1, 8, 2), (1, 1, 1, 0, 4, 4)])
    # a fold at 0 leaves the list 1, which takes an original n of 2; a fold at 1 leaves 0
    for first in (0, 1):
        calls = [(2, 1, 2, first, 8, 2), (1, 1, 1, 0, 4, 4), (1, 1, 2, 0, 4, 6)]
        yield "a fold at %d, then originals 1 and 2" % first, replace(right, calls=calls)
        yield "a fold at %d, then original 1" % first, replace(right, calls=calls[:2])
    yield "a list of other numbers lent", replace(right, calls=[(2, 1, 2, 1, 8, 2)], coordinates="18446744073709551615,0")
    for coordinates in ("-", "0,1,2"):
        yield "5: coordinates %s" % coordinates, replace(right, coordinates=coordinates)
        for what, changes in [("4", dict(k=5)), ("7", dict(base="61x201")), ("11", dict(position=8))]:
            yield "coordinates %s, and %s" % (coordinates, what), replace(right, coordinates=coordinates, **changes)
    table, challenges = some_words("table of a resumed run", 16), some_words("challenges of a resumed run", 4)
    whole = [(2, (3, 0, 1, 0)), (1, (1, 2, 0, 0)), (0, (0, 2, 1, 0)), (2, (0, 0, 0, 0))]
    for k, variables in whole + [(2, (0,)), (1, (3,)), (2, (2, 1)), (1, (1, 1)), (0, (2, 0, 1)), (2, (0, 1, 0))]:
        calls = [(4 - l, k, 4, var, 16 << k >> l, r) for l, (var, r) in enumerate(zip(variables, challenges))]
        given = dict(n=4, k=k, table=hex_words(table), coordinates=room(4), kept=8, lengths=run_lengths(4, k), position=0)
        yield "n 4 k %d, folds at %s" % (k, listed(variables)), WholeRun(calls, **given)


def run_lengths(n, k):
    """What a run of the present set is lent, as LENT says."""
    trees, record, tail = records.sizes(PRESENT, n, k)
    return 2 * k * n, 2 * ((2 << n) - 1 << k), 1 << (n + k), trees, 32 * (n + 1), record, tail, answers.MESSAGE_BUFFER, answers.MESSAGE_BUFFER


def run_lines(store, cases):
    for remark, case in cases:
        line = case.line(store)
        yield from kept(store)
        yield "# " + remark
        yield line


def level_lines():
    yield from ("fold_tree_width %d %d" % (PRESENT, length) for length in (1, 2, 8, 16))
    yield from ("level_domain 61 %d %d" % (level, 8 + len(str(level))) for level in (0, 9, 10, 20))
    yield from ("profile %d 24" % which for which in range(5))
    yield "# named or not, older than the change of the default or not"
    yield from ("seal_parameters %d %d 24" % (which, older) for which in range(6) for older in (0, 1))
    yield from ("writer_parameters %d 24" % which for which in range(6))


def commit_lines():
    """4, 5 and 7, alone and in pairs."""
    right_sizes = [PRESENT, 1, 1, "61", "5,9", 2, 8, room(1), 96]
    wrong = [(1, 21), (2, 5), (4, "5"), (5, 3), (6, 7), (7, room(0)), (7, room(2)), (8, 95), (3, "61x201")]
    yield from ["commit 0 2 1 61x200 5,9,3,7 4 16 %s 224" % room(2), "commit 0 0 0 - 5 0 2 - 32", "commit 0 0 0 - 5 0 2 0 32"]
    yield from in_pairs("commit", right_sizes, wrong)
    yield from ["# n and k at their largest", "commit 0 20 4 61 5,9 2 8 %s 96" % room(20)]


def in_pairs(name, right, wrong):
    """A line with what is right, and lines with one or two arguments wrong."""
    yield " ".join([name, *map(str, right)])
    for (i, x), (j, y) in itertools.combinations_with_replacement(wrong, 2):
        given = list(right)
        given[i], given[j] = x, y
        yield " ".join([name, *map(str, given)])


def all_levels_lines():
    """The entries on levels: what they answer, and 4, 5 and 7, alone and in pairs."""
    yield from ("domain_length %s %d" % (base, level) for base in ("-", "61", "61x200", "61x201") for level in (0, 9, 10, 20, 21, 99, 100))
    for level in (0, 9, 10, 20):
        yield from in_pairs("domain_into", ["61", level, 8 + len(str(level))], [(1, 21), (1, 100), (2, 8), (2, 11), (0, "61x201")])
    yield from ["domain_into 61x200 20 209", "domain_into 61x201 20 210", "domain_into 61x201 21 210", "domain_into - 0 8"]
    for l, words, size in ((0, 8, 224), (1, 4, 96), (2, 2, 32)):
        values = ",".join(str(3 * i + 1) for i in range(words))
        wrong = [(1, 0), (1, 21), (2, 5), (3, 3), (5, "5"), (6, size - 1), (6, size + 1), (4, "61x201")]
        yield from in_pairs("level_tree", [PRESENT, 2, 1, l, "61", values, size], wrong)
    yield "level_tree 0 4 4 0 61x200 7x256 %d" % (32 * 63)
    yield from in_pairs(
        "fold_levels",
        [PRESENT, 2, 1, "61", "2,4", "5,9,3,7,33,45,1,2", 28, 8, 352, 96],
        [(1, 0), (1, 21), (2, 5), (4, "2"), (4, "2,4,6"), (6, 27), (7, 7), (7, 9), (8, 351), (9, 95), (3, "61x201")],
    )
    yield from ["fold_levels 0 1 0 - 2 5,9 6 2 64 64", "fold_levels 0 1 1 61x200 2 5,9,33,45 12 4 128 64"]
    yield "fold_levels 0 5 2 61 1,2,3,4,5 9x128 %d 128 %d 192" % (2 * (128 + 64 + 32 + 16 + 8 + 4), 32 * (31 + 15 + 7 + 3 + 7 + 3))


def level_part_lines():
    """Parts of a level of eight words and of its tree: the first, one between, the last, all and none; then 4, 5, 7 and 11, alone and in pairs."""
    values, past = ",".join(str(3 * i + 1) for i in range(8)), (1 << 64) - 1
    for first, count in [(0, 1), (1, 2), (3, 1), (0, 4), (4, 0)]:
        yield "next_part 2 1 0 9 %d %s %d" % (first, values, 2 * count)
        yield "level_leaves 0 2 1 0 61 %d %s %d" % (first, values, 32 * count)
        yield "level_parents 2 1 0 61 %d ~b1x%d %d" % (first, 64 * count, 32 * count)
    yield from in_pairs("next_part", [2, 1, 1, 9, 1, "5,9,3,7", 2], [(2, 2), (6, 3), (4, past)])
    yield from ["next_part 0 1 0 9 0 5,9 0", "next_part 2 5 1 9 1 5,9,3,7 2", "next_part 2 1 1 9 1 5,9,3 2", "next_part 2 1 1 9 1 5,9,3,7 4"]
    yield from in_pairs("level_leaves", [PRESENT, 3, 1, 3, "61x200", 0, "5,9", 32], [(3, 4), (7, 33), (4, "61x201"), (5, past)])
    yield from ("level_leaves 0 " + given for given in ("21 1 3 61 0 5,9 32", "3 5 3 61 0 5,9 32", "3 1 3 61 0 5,9,3 32", "3 1 3 61 1 5,9 32"))
    yield from in_pairs("level_parents", [1, 1, 1, "61x200", 0, "~b1x128", 64], [(2, 2), (6, 63), (3, "61x201")])
    yield from ["level_parents 0 1 0 61 0 ~b1x64 32", "level_parents 1 5 1 61 0 ~b1x64 32", "level_parents 1 1 1 61 0 ~b1x96 48"]


def difference_lines():
    yield from ["# 6: base domains of 81 and 200 bytes", "commit 0 2 0 64x81 0x4 0 8 7x2 32", "commit 0 2 0 64x200 0x4 0 8 7x2 32"]
    yield from ["# 8: n = 0", "build_query 0 0 0 0 5 00x32 4", "check_query - 0 0 0 0 - 00x32 00x4"]
    yield from ["build_tail 0 0 0 5 00x32 28", "check_tail - 0 0 0 00x32 5 00x4"]
    yield from ["# 9: the Rust's default, and ours", "profile 0 24", "seal_parameters 5 0 24", "writer_parameters 5 24"]


# ---- files


def kept(store):
    new, store.new = store.new, []
    return new


def case_line(store, remark, name, given):
    line = " ".join([name, given.line(store)])
    yield from kept(store)
    yield "# " + remark
    yield line


def case_lines(cases):
    store = Store()
    for case in cases:
        yield from case_line(store, *case)


def files():
    store = Store()
    store.data = words_bytes([5, 9, 7, 2])
    first = "= " + store.data.hex()
    compare_store = Store()
    return [
        ("levels.txt", text([*level_lines(), *commit_lines()])),
        ("all_levels.txt", text([*all_levels_lines(), *level_part_lines()])),
        ("accepted.txt", text(case_lines(accepted()))),
        ("query.txt", text(case_lines(query_cases()))),
        ("tail.txt", text(case_lines(tail_cases()))),
        ("build.txt", text(case_lines(build_cases()))),
        ("compare.txt", text(case_lines(compared()))),
        ("walks.txt", text(walks(compare_store))),
        ("tail_list.txt", text([first, *tail_lines(store)])),
        ("run.txt", text(run_lines(Store(), [*run_cases(), *wide_run_cases(), *resumed_run_cases()]))),
        ("differences.txt", text(difference_lines())),
    ]
