"""Damages to what the entries on records are given, for cases_record.py: each has a name, the number and the level that it gives by the
way it is made, and what is done. Rests on records.py."""
import dataclasses
import typing

from model import word_bytes
from records import Reader, count_bytes, shape


@dataclasses.dataclass
class Damage:
    name: str
    number: int
    level: int
    do: typing.Callable


def change(field, f):
    return lambda given: setattr(given, field, f(getattr(given, field)))


def in_item(i, field, f):
    """A change of a field of level or group i."""
    return lambda given: change(field, f)(given.items[i])


def also(f, g):
    return lambda given: (f(given), g(given))


def edited(f):
    """A change of the record's bytes."""
    return change("edit", lambda edit: lambda record: f(edit(record)))


def longer(items):
    return items + items[-1:]


def shorter(items):
    return items[:-1]


def none(items):
    return items[:0]


def one_more(digests):
    return digests + [bytes(32)]


def other(word):
    return word ^ 1


def other_byte(i):
    return lambda data: data[:i] + bytes([data[i] ^ 1]) + data[i + 1 :]


def other_word(i):
    return lambda words: words[:i] + [other(words[i])] + words[i + 1 :]


def other_digest(i):
    return lambda digests: digests[:i] + [other_byte(0)(digests[i])] + digests[i + 1 :]


def count_as(at, count):
    return edited(lambda record: record[:at] + count_bytes(count) + record[at + 4 :])


def heads_of_query(n, k):
    return [
        Damage("4", 4, 0, change("k", lambda k: 5)),
        Damage("5 challenges", 5, 0, change("challenges", lambda c: c[:-8])),
        Damage("5 roots", 5, 0, change("roots", lambda r: r + b"\0")),
        Damage("7", 7, 0, change("base", lambda b: b"a" * 201)),
        Damage("11", 11, 0, change("position", lambda p: p + (1 << (n + k)))),
        Damage("14", 14, 0, edited(lambda record: record + b"\0")),
        Damage("15", 15, 0, change("items", longer)),
    ]


def of_level(l):
    """16 to 26; 20 is retired."""
    ways = [
        (16, in_item(l, "a_group", longer)),
        (17, in_item(l, "a_path", longer)),
        (18, in_item(l, "a_path", other_digest(0))),
        (19, in_item(l, "a", other)),
        (21, in_item(l, "b", other)),
        (22, in_item(l, "c_group", longer)),
        (23, in_item(l, "c_path", longer)),
        (24, in_item(l, "c_path", other_digest(0))),
        (25, in_item(l, "c", other)),
        (26, change("challenges", other_byte(16 * l))),
    ]
    return [Damage("%d at level %d" % (number, l), number, l, do) for number, do in ways]


def of_level_otherwise(given, l):
    """Other ways to these numbers."""
    q = given.position // 2 ** (l + 1)
    width, next_width = (shape(given.widths, given.n, given.k, level)[1] for level in (l, l + 1))
    a, b, c = 2 * q % width, (2 * q + 1) % width, q % next_width
    ways = [
        ("a group short", 16, in_item(l, "a_group", shorter)),
        ("a group empty", 16, in_item(l, "a_group", none)),
        ("a path short", 17, in_item(l, "a_path", shorter)),
        ("a path empty", 17, in_item(l, "a_path", none)),
        ("a other in its group", 18, in_item(l, "a_group", other_word(a))),
        ("a other in its group and as a word", 18, also(in_item(l, "a_group", other_word(a)), in_item(l, "a", other))),
        ("b other in its group", 18, in_item(l, "a_group", other_word(b))),
        ("another value of a's group other", 18, in_item(l, "a_group", other_word((b + 1) % width))),
        ("a and b both b", 19, lambda given: setattr(given.items[l], "a", given.items[l].b)),
        ("a and b both a", 21, lambda given: setattr(given.items[l], "b", given.items[l].a)),
        ("c group short", 22, in_item(l, "c_group", shorter)),
        ("c group empty", 22, in_item(l, "c_group", none)),
        ("c path short", 23, in_item(l, "c_path", shorter)),
        ("c path empty", 23, in_item(l, "c_path", none)),
        ("c other in its group", 24, in_item(l, "c_group", other_word(c))),
        ("c other in its group and as a word", 24, also(in_item(l, "c_group", other_word(c)), in_item(l, "c", other))),
        ("another value of c's group other", 24, in_item(l, "c_group", other_word((c + 1) % next_width))),
    ]
    yield from (Damage("%s at level %d" % (name, l), number, l, do) for name, number, do in ways)


def of_any_level(given, l):
    """The same numbers, and by values and digests that lie last, at a level that may have no path."""
    (_, width, depth), (_, next_width, next_depth) = (shape(given.widths, given.n, given.k, level) for level in (l, l + 1))
    ways = [
        (16, in_item(l, "a_group", longer)),
        (17, in_item(l, "a_path", one_more)),
        (18, in_item(l, "a_group", other_word(width - 1))),
        *([(18, in_item(l, "a_path", other_digest(depth - 1)))] if depth else []),
        (19, in_item(l, "a", other)),
        (21, in_item(l, "b", other)),
        (22, in_item(l, "c_group", longer)),
        (23, in_item(l, "c_path", one_more)),
        (24, in_item(l, "c_group", other_word(next_width - 1))),
        *([(24, in_item(l, "c_path", other_digest(next_depth - 1)))] if next_depth else []),
        (25, in_item(l, "c", other)),
        (26, change("challenges", other_byte(16 * l))),
    ]
    return [Damage("%d at level %d" % (number, l), number, l, do) for number, do in ways]


def of_roots(given):
    """Level l's root is that of c before it is that of a."""
    for l in range(given.n + 1):
        number, level = (18, 0) if l == 0 else (24, l - 1)
        yield Damage("root %d other" % l, number, level, change("roots", other_byte(32 * l)))


def heads_of_tail():
    return [
        Damage("4", 4, 0, change("k", lambda k: 5)),
        Damage("5", 5, 0, change("root", shorter)),
        Damage("7", 7, 0, change("base", lambda b: b"a" * 201)),
        Damage("14", 14, 0, edited(lambda record: record + b"\0")),
        Damage("27", 27, 0, change("items", longer)),
    ]


def of_group(g):
    """28 to 30."""
    ways = [(28, in_item(g, "values", longer)), (29, in_item(g, "path", longer)), (30, in_item(g, "path", other_digest(0)))]
    return [Damage("%d in group %d" % (number, g), number, 0, do) for number, do in ways]


def of_claim():
    return [Damage("31", 31, 0, change("claim", other_byte(0)))]


def of_any_tail(given):
    """27 to 31, of a last level whose groups may have no path, and by values that lie last."""
    _, width, _ = shape(given.widths, given.n, given.k, given.n)
    last = len(given.items) - 1
    ways = [
        (27, change("items", longer)),
        (28, in_item(last, "values", longer)),
        (29, in_item(last, "path", one_more)),
        (30, in_item(last, "values", other_word(width - 1))),
        (30, change("root", other_byte(31))),
        (31, change("claim", other_byte(0))),
    ]
    return [Damage(str(number), number, 0, do) for number, do in ways]


def of_tail_otherwise(groups):
    for g in groups:
        ways = [
            ("values short", 28, in_item(g, "values", shorter)),
            ("values none", 28, in_item(g, "values", none)),
            ("path short", 29, in_item(g, "path", shorter)),
            ("path empty", 29, in_item(g, "path", none)),
            ("first value other", 30, in_item(g, "values", other_word(0))),
            ("second value other", 30, in_item(g, "values", other_word(1))),
            ("second digest other", 30, in_item(g, "path", other_digest(1))),
        ]
        yield from (Damage("%s in group %d" % (name, g), number, 0, do) for name, number, do in ways)
    yield Damage("groups in falling order", 30, 0, change("items", lambda groups: groups[::-1]))
    yield Damage("root other", 30, 0, change("root", other_byte(0)))
    yield Damage("claim the second value", 31, 0, lambda given: setattr(given, "claim", word_bytes(given.items[0].values[1])))


def heads_of_build(kind, n, k):
    damages = [
        Damage("4", 4, 0, change("k", lambda k: 5)),
        Damage("5 words", 5, 0, change("words", lambda w: w[:-8])),
        Damage("5 trees", 5, 0, change("trees", lambda t: t + b"\0")),
        Damage("5 record", 5, 0, change("out", shorter)),
    ]
    if kind == "query":
        damages.append(Damage("11", 11, 0, change("position", lambda p: p + (1 << (n + k)))))
    return damages


def of_numbers(given):
    """Numbers past the ends of their ranges; the last of each is right modulo 2^32."""
    for n in (0, 21, (1 << 32) + given.n):
        yield Damage("n %d" % n, 4, 0, change("n", lambda _, n=n: n))
    for k in (5, (1 << 32) + given.k):
        yield Damage("k %d" % k, 4, 0, change("k", lambda _, k=k: k))
    if given.kind == "query":
        for position in (1 << (given.n + given.k), (1 << 32) + given.position):
            yield Damage("position %d" % position, 11, 0, change("position", lambda _, position=position: position))


def of_lengths(fields):
    """Lengths beside the right ones: fields and the bytes of what they hold."""
    for field, size in fields:
        for name, f in [
            ("%d bytes less" % size, lambda data, size=size: data[:-size]),
            ("%d bytes more" % size, lambda data, size=size: data + bytes(size)),
            ("8 bytes more", lambda data: data + bytes(8)),
            ("twice", lambda data: data + data),
            ("empty", none),
        ]:
            yield Damage("%s %s" % (field, name), 5, 0, change(field, f))


def of_record_ends(given):
    """Records that are cut off or go on."""
    ways = [
        ("a byte less", shorter),
        ("4 zeros more", lambda record: record + bytes(4)),
        ("64 zeros more", lambda record: record + bytes(64)),
        ("itself once more", lambda record: record + record),
        ("no bytes", none),
        ("3 bytes", lambda record: record[:3]),
        ("its count alone", lambda record: record[:4]),
        ("the count 2^32 - 1 alone", lambda record: count_bytes(2**32 - 1)),
    ]
    yield from (Damage(name, 14, 0, edited(f)) for name, f in ways)
    few = 15 if given.kind == "query" else 27
    yield Damage("the count 0 alone", few, 0, edited(lambda record: bytes(4)))
    yield Damage("its last part less", few, 0, change("items", shorter))


def of_counts(given, item):
    """Each count 2^32 - 1; and greater by as much as makes no difference to its bytes modulo 2^32."""
    reader = Reader(given.record())
    reader.items(item)
    for at, size in reader.counts:
        yield Damage("count at byte %d 2^32 - 1" % at, 14, 0, count_as(at, 2**32 - 1))
        if size:
            count = int.from_bytes(reader.data[at : at + 4], "little")
            yield Damage("count at byte %d 2^32 / %d more" % (at, size), 14, 0, count_as(at, count + 2**32 // size))
