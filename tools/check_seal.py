#!/usr/bin/env python3
"""Checks an opening of a deposit seal by docs/SPECIFICATION.md alone: neither the proved library nor the program is needed, only Python 3.6 or later.

    tools/check_seal.py OPENING --seal FOLDER [--older] [--key-file FILE] --challenges FILE --at P,P,.. [--roots FILE] [--claim WORD]
    tools/check_seal.py --try

Challenges, positions and --roots, roots that were kept, are the checker's own; --claim is a value that is expected. --older says that a seal which names
neither k nor a base domain was made before version 0.4.0 (SPECIFICATION 6.10). The set of widths is the seal's, the present one where it names none. --key-file has the key of a keyed
seal, and only of one (SPECIFICATION 15.10): 32 bytes, or 64 hexadecimal digits and perhaps a line end. A line for each position and one for
the tail: `yes`, or `no` with the number of the first question that was answered with no (SPECIFICATION 8.2), its level where it has one, and the question.
The last line is the verdict on all of it. Without --roots a record is answered with `yes on level 0` and the tail with `not accepted`: who knew challenges and positions
beforehand can invent the rest (SPECIFICATION 15.6). --try tries this file on the values of SPECIFICATION 12. Exit status: 0 yes, 1 no, 2 nothing could be
checked, 3 yes on level 0 alone.
"""
import argparse
import collections
import functools
import os
import re
import struct
import sys
from pathlib import Path

# SPECIFICATION 8.2: the questions that a check puts. 20 is retired.
QUESTIONS = {
    4: "Is n at least 1 and at most 20, and k at most 4?",
    5: "Is there a challenge for each level, and a root more?",
    7: "Has the base domain at most 200 bytes?",
    11: "Is the position below 2^(n+k)?",
    14: "Does the record read whole, with nothing after it?",
    15: "Has the query record n levels?",
    16: "Has the a group this level's width?",
    17: "Has the a path this level's depth?",
    18: "Do the a group and the a path lead to this level's root?",
    19: "Does the a group hold a?",
    21: "Does the a group hold b?",
    22: "Has the c group the next level's width?",
    23: "Has the c path the next level's depth?",
    24: "Do the c group and the c path lead to the next level's root?",
    25: "Does the c group hold c?",
    26: "Is a + r × (a + b) = c, r being this level's challenge?",
    27: "Has the tail record as many groups as the last level?",
    28: "Has the group the last level's width?",
    29: "Has its path the last level's depth?",
    30: "Do group and path lead to the last level's root?",
    31: "Is the first value of the first group the terminal claim?",
}


class No(Exception):
    """A question that was answered with no: its number, its level where it has one, and the question."""


class CannotCheck(Exception):
    """What keeps this file from checking anything, which says nothing of the holder."""


def ask(number, yes, level=None):
    if not yes:
        at_level = "" if level is None else f" at level {level}"
        raise No(f"{number}{at_level}: {QUESTIONS[number]}")


# 2. The field. A word is held as its 16 bytes, lowest first.

def folded(a, b, r):
    """SPECIFICATION 6.4: a + r × (a + b), the product being that of 2.2: the sum of r × x^i over the set bits i of a + b."""
    a, b, r = (int.from_bytes(word, "little") for word in (a, b, r))
    total = a
    for i in range(128):
        if (a ^ b) >> i & 1:
            total ^= r
        r <<= 1
        if r >> 128:
            r ^= 1 << 128 | 0x87
    return total.to_bytes(16, "little")


# 4. The hash.

IV = (0x6A09E667, 0xBB67AE85, 0x3C6EF372, 0xA54FF53A, 0x510E527F, 0x9B05688C, 0x1F83D9AB, 0x5BE0CD19)
CHUNK_START, CHUNK_END, PARENT, ROOT, KEYED, CONTEXT, MATERIAL = 1, 2, 4, 8, 16, 32, 64
MIXED = ((0, 4, 8, 12), (1, 5, 9, 13), (2, 6, 10, 14), (3, 7, 11, 15), (0, 5, 10, 15), (1, 6, 11, 12), (2, 7, 8, 13), (3, 4, 9, 14))
PERMUTED = (2, 6, 3, 10, 7, 0, 4, 13, 1, 11, 12, 5, 9, 14, 15, 8)
LOW = 0xFFFFFFFF


def mix(v, a, b, c, d, x, y):
    """G of SPECIFICATION 4.1."""
    for given, right_d, right_b in ((x, 16, 12), (y, 8, 7)):
        v[a] = v[a] + v[b] + given & LOW
        moved = v[d] ^ v[a]
        v[d] = (moved >> right_d | moved << 32 - right_d) & LOW
        v[c] = v[c] + v[d] & LOW
        moved = v[b] ^ v[c]
        v[b] = (moved >> right_b | moved << 32 - right_b) & LOW


def compress(h, m, t, length, flags):
    v = [*h, *IV[:4], t & LOW, t >> 32, length, flags]
    for _ in range(7):
        for i, (a, b, c, d) in enumerate(MIXED):
            mix(v, a, b, c, d, m[2 * i], m[2 * i + 1])
        m = [m[i] for i in PERMUTED]
    return [v[i] ^ v[i + 8] for i in range(8)]


# 4.4. A mode: the key words that chunks and parents start from, and the flag that every compression has.
Mode = collections.namedtuple("Mode", "words flag")
HASH = Mode(IV, 0)


def keyed(key):
    return Mode(struct.unpack("<8I", key), KEYED)


def derived(context, material):
    """SPECIFICATION 4.4: the key that a context and key material give."""
    of_context = digest(context, Mode(IV, CONTEXT))
    return digest(material, Mode(struct.unpack("<8I", of_context), MATERIAL))


def chunk(mode, data, number, root):
    h = mode.words
    starts = range(0, max(1, len(data)), 64)
    for start in starts:
        block = data[start : start + 64]
        flags = (CHUNK_START if start == 0 else 0) | (CHUNK_END | root if start == starts[-1] else 0) | mode.flag
        h = compress(h, struct.unpack("<16I", block.ljust(64, b"\0")), number, len(block), flags)
    return h


def chunks(mode, data, first, root):
    """The chaining value of a run of chunks, of which the first has this number."""
    count = max(1, (len(data) + 1023) // 1024)
    if count == 1:
        return chunk(mode, data, first, root)
    left = 1 << (count - 1).bit_length() - 1
    children = chunks(mode, data[: 1024 * left], first, 0) + chunks(mode, data[1024 * left :], first + left, 0)
    return compress(mode.words, children, 0, 64, PARENT | root | mode.flag)


@functools.lru_cache(maxsize=None)
def digest(message, mode=HASH):
    return struct.pack("<8I", *chunks(mode, message, 0, ROOT))


# 5. Trees.


def u64(value):
    return value.to_bytes(8, "little")


def part(message):
    return u64(len(message)) + message


def leaf_message(domain, count, width, group, values):
    """SPECIFICATION 5.2, with its count of 5 for six fields and the width before the group's number."""
    fields = [u64(5), part(b"magnetar/leafN/v1"), part(domain), part(u64(count)), part(u64(width))]
    return b"".join(fields + [u64(width), u64(group), u64(16 * width)] + values)


def node_message(domain, level, left, right):
    return u64(5) + b"".join(map(part, (b"magnetar/node/v1", domain, u64(level), left, right)))


# 6.7. The sets of widths: from which length on, and how wide.
WIDTHS = {"present": (16, 8), "wide": (64, 32)}


class Level:
    """Level l of a deposit and the shape of its tree (SPECIFICATION 6.7), whose digests are made in a mode (5.6)."""

    def __init__(self, mode, base, widths, n, k, l):
        self.mode = mode
        self.count = 2 ** (n + k - l)
        threshold, width = WIDTHS[widths]
        self.width = width if self.count >= threshold else 2 if self.count >= 2 else 1
        self.groups = self.count // self.width
        self.depth = self.groups.bit_length() - 1
        self.domain = base + b"/level/" + str(l).encode()

    def root(self, group, values, path):
        """SPECIFICATION 5.5: the digest to which a group and its path lead."""
        at = digest(leaf_message(self.domain, self.count, self.width, group, values), self.mode)
        for i, sibling in enumerate(path):
            left, right = (at, sibling) if (group >> i) % 2 == 0 else (sibling, at)
            at = digest(node_message(self.domain, i, left, right), self.mode)
        return at


# 6.9. The default, and FirstDefault, which has the same base domain.

DEFAULT_DOMAIN, DEFAULT_K, FIRST_DEFAULT_K = b"magnetar/pcs/default", 2, 1


# 7. Records.


class Reader:
    """A record, read from front to back; what is not there is question 14's no."""

    def __init__(self, record):
        self.record, self.at = record, 0

    def take(self, size):
        ask(14, size <= len(self.record) - self.at)
        self.at += size
        return self.record[self.at - size : self.at]

    def count(self):
        return int.from_bytes(self.take(4), "little")

    def run(self, size):
        items = self.take(size * self.count())
        return [items[i : i + size] for i in range(0, len(items), size)]

    def whole(self, item):
        """As many items as the count at the front says, and not one byte after them."""
        items = [item() for _ in range(self.count())]
        ask(14, self.at == len(self.record))
        return items

    def query(self):
        """SPECIFICATION 7.2: of each level a, b, c, the a group, the c group, the a path and the c path."""
        return self.whole(lambda: (self.take(16), self.take(16), self.take(16), self.run(16), self.run(16), self.run(32), self.run(32)))

    def tail(self):
        """SPECIFICATION 7.4: of each group its values and its path."""
        return self.whole(lambda: (self.run(16), self.run(32)))


def record_bytes(widths, n, k):
    """SPECIFICATION 7.6: the sizes of a query record and of a tail record."""
    levels = [Level(HASH, b"", widths, n, k, l) for l in range(n + 1)]
    opened = [8 + 16 * level.width + 32 * level.depth for level in levels]
    return 4 + sum(48 + opened[l] + opened[l + 1] for l in range(n)), 4 + levels[n].groups * opened[n]


# 8. Questions.


def check_query(mode, base, widths, n, k, position, challenges, roots, record):
    """SPECIFICATION 8.6."""
    ask(4, 1 <= n <= 20 and k <= 4)
    ask(5, len(challenges) == n and len(roots) == n + 1)
    ask(7, len(base) <= 200)
    ask(11, position < 2 ** (n + k))
    levels = Reader(record).query()
    ask(15, len(levels) == n)
    for l, (a, b, c, a_group, c_group, a_path, c_path) in enumerate(levels):
        q = position // 2 ** (l + 1)
        this, following = Level(mode, base, widths, n, k, l), Level(mode, base, widths, n, k, l + 1)
        w, w_next = this.width, following.width
        ask(16, len(a_group) == w, l)
        ask(17, len(a_path) == this.depth, l)
        ask(18, this.root(2 * q // w, a_group, a_path) == roots[l], l)
        ask(19, a_group[2 * q % w] == a, l)
        ask(21, a_group[(2 * q + 1) % w] == b, l)
        ask(22, len(c_group) == w_next, l)
        ask(23, len(c_path) == following.depth, l)
        ask(24, following.root(q // w_next, c_group, c_path) == roots[l + 1], l)
        ask(25, c_group[q % w_next] == c, l)
        ask(26, folded(a, b, challenges[l]) == c, l)


def check_length(n, position, length, record):
    """SPECIFICATION 16.5: an accepted record of a part of a project shows no other length than the manifest says, if it shows one."""
    group = Reader(record).query()[0][3]
    last = 2 ** n - 1 - position // len(group) * len(group)
    if 0 <= last < len(group) and int.from_bytes(group[last], "little") != length:
        raise No(f"it shows a length of {int.from_bytes(group[last], 'little')} bytes, and the manifest says {length}")


def check_record_of(length, *given):
    """A record by 8.6 and, where a manifest says how many bytes were sealed, by that."""
    check_query(*given)
    _, _, _, n, _, position, _, _, record = given
    if length is not None:
        check_length(n, position, length, record)


def check_tail(mode, base, widths, n, k, root, claim, record):
    """SPECIFICATION 8.7."""
    ask(4, 1 <= n <= 20 and k <= 4)
    ask(5, len(root) == 32)
    ask(7, len(base) <= 200)
    groups = Reader(record).tail()
    last = Level(mode, base, widths, n, k, n)
    ask(27, len(groups) == last.groups)
    for g, (values, path) in enumerate(groups):
        ask(28, len(values) == last.width)
        ask(29, len(path) == last.depth)
        ask(30, last.root(g, values, path) == root)
    ask(31, groups[0][0][0] == claim)


# 15. The files of a seal and of an opening.

# The blanks of 15.2, as Unicode has them.
BLANKS = "\t\n\v\f\r \x85\xa0\u1680\u2000\u2001\u2002\u2003\u2004\u2005\u2006\u2007\u2008\u2009\u200a\u2028\u2029\u202f\u205f\u3000"


def content(path, most=2 ** 20, linked=False):
    """A file's first bytes, one more than `most` at the most. A file of a folder is no link; one that the command line names may be."""
    if not Path(path).is_file() or Path(path).is_symlink() and not linked:
        raise CannotCheck(f"there is no file {path}" if not Path(path).is_symlink() else f"{path} is a link, not a file")
    with open(path, "rb") as file:
        return file.read(most + 1)


def written(path, most=2 ** 20, linked=False):
    """The lines of a text of so many bytes at the most, as they were written, without the blanks and empty lines that SPECIFICATION 15.2 passes over."""
    text = content(path, most, linked)
    if len(text) > most:
        raise CannotCheck(f"{path} has more than the {most} bytes that such a file can have")
    try:
        text = text.decode().rstrip(BLANKS)
    except UnicodeDecodeError:
        raise CannotCheck(f"{path} is not text")
    return [line.rstrip(BLANKS) for line in text.split("\n")] if text else []


def lines(path, most=2 ** 20, linked=False):
    """The lines of a text behind its format."""
    found = written(path, most, linked)
    if found[:1] != ["format 1"] and "".join(found[:1]).startswith("format "):
        raise CannotCheck(f"{path} is of {found[0]}, and this file knows format 1 alone")
    return found[found[:1] == ["format 1"] :]


def most_bytes(count, digits):
    """The most bytes of a text of so many lines, with room for blanks and line ends."""
    return count * (digits + 16) + 64


def hexadecimal(path, text, size):
    if not re.fullmatch("[0-9a-fA-F]{%d}" % (2 * size), text):
        raise CannotCheck(f"{path}: `{text}` is not {2 * size} hexadecimal digits")
    return bytes.fromhex(text)


def word(path, text):
    """A word as text has its highest digit first."""
    return hexadecimal(path, text, 16)[::-1]


def digests(path, count, linked=False):
    """The digests of a text that has so many at the most."""
    return [hexadecimal(path, line, 32) for line in lines(path, most_bytes(count, 64), linked)]


def one(path, values):
    """The one value of a text."""
    if len(values) != 1:
        raise CannotCheck(f"{path} has {len(values)} values, and it must have one")
    return values[0]


def parameters(path, older):
    """The key's check value, the base domain, the set of widths, n and k. Where n is named without k and the base domain, these two are those of SPECIFICATION
    6.10; a set that is not named is the present one, and without a check value there is no key (15.3)."""
    form = r"n (0|[1-9][0-9]?)(?:\nk ([0-9])\n(?:domain ([!-~]+)|domain-hex(?: ((?:[0-9a-f]{2})+))?))?(?:\nwidths (.+))?(?:\nkey ([0-9a-f]{32}))?"
    found = re.fullmatch(form, "\n".join(lines(path, 1024)))
    if not found:
        raise CannotCheck(f"{path} does not have its lines n, k, domain, widths and perhaps key, nor those without k and domain")
    n, k, text, digits, widths, value = found.groups("")
    if widths and widths not in WIDTHS:
        raise CannotCheck(f"{path} names the set of widths `{widths}`, and this file knows `present` and `wide` alone")
    if not k:
        base, k = DEFAULT_DOMAIN, FIRST_DEFAULT_K if older else DEFAULT_K
    else:
        base = text.encode() if text else bytes.fromhex(digits)
        if not text and re.fullmatch(rb"[!-~]+", base):
            raise CannotCheck(f"{path} has digits for the base domain `{base.decode()}`, which is written as it is, behind `domain`")
    return bytes.fromhex(value), base, widths or "present", int(n), int(k)


# 15.10. The key of a keyed seal.

CHECK_CONTEXT = b"dequmlo 2026-11-17 key check value"


def read_key(path):
    """32 bytes, or 64 hexadecimal digits and perhaps a line end."""
    data = content(path, 66, linked=True)
    if len(data) == 32:
        return data
    found = re.fullmatch(rb"([0-9a-fA-F]{64})(?:\r?\n)?", data)
    if not found:
        raise CannotCheck(f"{path} has no key: a key is 32 bytes, or 64 hexadecimal digits and perhaps a line end")
    return bytes.fromhex(found.group(1).decode())


def mode_of(value, key_file):
    """The mode of a seal's trees: that of the key in the file, whose check value must be the seal's; hash mode where there is neither."""
    if not value and key_file is None:
        return HASH
    if not value:
        raise CannotCheck("the seal is not keyed, and --key-file is given")
    if key_file is None:
        raise CannotCheck(f"the seal is keyed, under the key with the check value {value.hex()}, and no --key-file is given")
    key = read_key(key_file)
    own = derived(CHECK_CONTEXT, key)[:16]
    if own != value:
        raise CannotCheck(f"the key in {key_file} is not the seal's: its check value is {own.hex()}, and the seal's is {value.hex()}")
    return keyed(key)


def answered(name, check, *given, yes="yes"):
    """Prints what a check answers, a yes in these words. Whether it is yes."""
    try:
        check(*given)
    except No as no:
        print(f"{name}: no, {no}")
        return False
    print(f"{name}: {yes}")
    return True


# More files than a seal has: the manifest of a project may be in parts.
MOST_FILES = 10_000


def read_seal(folder, older, key_file):
    """The mode, the base domain, the set of widths, n, k and the root, of a seal that is said to be older or not, with the file of its key or none. One whose
    check lines are not its files' is damaged (SPECIFICATION 15.5)."""
    if not folder.is_dir():
        raise CannotCheck(f"there is no seal {folder}")
    check = folder / "check.txt"
    listed = [re.fullmatch("([0-9a-fA-F]{64})  (.*)", line) for line in written(check, 128 * MOST_FILES)] if os.path.lexists(check) else None
    if listed is not None and not all(listed):
        raise CannotCheck(f"the seal is damaged: {check} is not a list of digests")
    then = None if listed is None else {line.group(2): line.group(1).lower() for line in listed}
    for name in ("parameters.txt", "root.txt"):
        # The line of an empty base domain is written with its blank.
        text = "".join(line + (" \n" if line == "domain-hex" else "\n") for line in written(folder / name))
        if then is not None and digest((text.lower() if name == "root.txt" else text).encode()).hex() != then.get(name):
            raise CannotCheck(f"the seal is damaged: {name} and its line in check.txt do not agree")
    value, *shape = parameters(folder / "parameters.txt", older)
    return (mode_of(value, key_file), *shape, one(folder / "root.txt", digests(folder / "root.txt", 1)))


# 15.6: the exit status, and what it says of all that was checked.
YES, NO, ON_LEVEL_0 = 0, 1, 3
VERDICTS = {YES: "yes", NO: "no", ON_LEVEL_0: "yes on level 0 alone: no roots were kept, so neither the tail nor the claim is accepted"}


def leads_through(path, folder):
    """Whether a path leads into a folder, or through it by a name that stands there, as a link in it does that leads out again."""
    path, folder = Path(path), Path(os.path.realpath(folder))
    places = [Path(os.path.realpath(step.parent)) / step.name for step in (path, *path.parents) if step.name not in ("", "..")]
    target = Path(os.path.realpath(path))
    return target == folder or any(folder in place.parents for place in (target, *places))


def checkers_own(asked):
    """Refuses a file or folder of the opening in the place of one of the checker's."""
    for path in (asked.seal, asked.challenges, asked.roots, asked.key_file):
        if path is not None and leads_through(path, asked.OPENING):
            raise CannotCheck(f"{path} lies in the opening, so it is the holder's")


def brought(asked, n, k, root):
    """The challenges that the checker brings, and the roots, where it kept them."""
    challenges = [word(asked.challenges, line) for line in lines(asked.challenges, most_bytes(max(n, 20), 32), linked=True)]
    kept = digests(asked.roots, n + 1, linked=True) if asked.roots is not None else None
    try:
        ask(4, 1 <= n <= 20 and k <= 4)
        ask(5, len(challenges) == n and (kept is None or len(kept) == n + 1 and kept[0] == root))
        ask(11, all(position < 2 ** (n + k) for position in asked.at))
    except No as no:
        raise CannotCheck(no)
    return challenges, kept


# The files of an opening that are no records, and how many others it may have.
OTHER_FILES = 8 + 100


def roots_of(opening, asked, n, kept):
    """The roots that an opening is checked under, if the opening is one at all: not too many files, and no text of another format."""
    if sum(1 for _ in opening.iterdir()) > OTHER_FILES + max(40, len(asked.at)) + getattr(asked, "more_files", 0):
        raise CannotCheck("it holds more files than an opening has")
    for name in ("parameters.txt", "challenges.txt"):
        try:
            first = content(opening / name, 64).decode("utf-8", "replace").split("\n")[0]
        except CannotCheck:
            continue
        if first.startswith("format ") and first[7:].rstrip(BLANKS) != "1":
            raise CannotCheck(f"{opening / name} is of another format, and this file knows format 1 alone")
    return kept if kept is not None else digests(opening / "roots.txt", n + 1)


def check_record(asked, opening, position, size, length, given):
    """Prints the answer for a position. Whether it is yes."""
    path = opening / f"query-{position}.record"
    if not os.path.lexists(path):
        print(f"position {position}: no: the opening has no record at this position")
        return False
    try:
        record = content(path, size)
    except CannotCheck as why:
        print(f"position {position}: no: {why}")
        return False
    mode, base, widths, n, k, challenges, roots = given
    given = (mode, base, widths, n, k, position, challenges, roots, record)
    return answered(f"position {position}", check_record_of, length, *given, yes="yes" if asked.roots is not None else "yes on level 0")


def check_opening(asked, mode, base, widths, n, k, root, length=None):
    """Prints an answer for each position and one for the tail. The exit status. Level 0's root is the office's, whatever the opening says; the other roots count
    where the checker kept them. What the opening lacks is the holder's, and a no. A manifest says how many bytes were sealed under the root."""
    opening = Path(asked.OPENING)
    if not opening.is_dir():
        raise CannotCheck(f"there is no opening {opening}")
    challenges, kept = brought(asked, n, k, root)
    expected = word("the claim", asked.claim) if asked.claim is not None else None
    try:
        roots = roots_of(opening, asked, n, kept)
    except CannotCheck as why:
        print(f"opening: no: {why}")
        return NO
    roots[:1] = [root]
    query_bytes, tail_bytes = record_bytes(widths, n, k)
    meant = [re.fullmatch(r"query-\+?0*([0-9]+)\.record", path.name) for path in opening.iterdir()]
    files = collections.Counter(int(found.group(1)) for found in meant if found and len(found.group(1)) < 20)
    doubles = sorted(position for position in files if files[position] > 1)
    for position in doubles:
        print(f"position {position}: no: the opening has {files[position]} files for it")
    yes = not doubles
    for position in asked.at:
        yes &= check_record(asked, opening, position, query_bytes, length, (mode, base, widths, n, k, challenges, roots))
    try:
        shown = opening / "claim.txt"
        claim = expected if expected is not None else word(shown, one(shown, lines(shown, most_bytes(1, 32))))
        tail = content(opening / "tail.record", tail_bytes)
    except CannotCheck as why:
        print(f"tail: no: {why}")
        return NO
    given = (mode, base, widths, n, k, b"".join(roots[n : n + 1]), claim, tail)
    yes &= answered("tail", check_tail, *given, yes="yes" if kept is not None else "not accepted: it fits the opening's own roots, which nobody kept")
    return NO if not yes else YES if kept is not None else ON_LEVEL_0


# 12. Values on which this file can be tried.

OF_3073 = "7124b49501012f81cc7f11ca069ec9226cecb8a2c850cfe644e327d22d3e1cd3"
ROOT_0 = "0669330e9f8271b8709da61c36482c788924e6026d5792c2f7e4fa50d61a51f3"
ROOT_1 = "da293e0d68ec957f29e0f182a5808a566e7b12a855c63c2ab68aec541043a7f5"
A, B, C = "489a8bcfc565532d361c653a2ab6a572", "449a8bcfc565532d361c653a2ab6a572", "509a8bcfc565532d361c653a2ab6a572"
LAST = "02000000 1d000000000000000000000000000000" + C
PATH = "6623d25b5b1154c90c456a3387fc71b22ddd13ed2e66c679bdbdd170b6b4143d"
KEY, KEYED_OF_3073 = b"whats the Elvish word for friend", "68dede9bef00ba89e43f31a6825f4cf433389fedae75c04ee9f0cf16a427c95a"
KEYED_ROOT_0 = "a02b21a951bed19be553ca2e340cd8ee18bfdeb209e4a25a5cd6977b9c9fbaba"
KEYED_ROOT_1 = "7b56a8eb10b7568da1b18527c839aa732fa0f08a6755835884e6635eaa532956"
KEYED_PATH = "2f22ab09026d0c89495da598eda8f03a35ac51d345590a0bfa36eb9c4eae0441"
CHECK_VALUE = "d46dee072981d581712fa78bfecb9c0d"
DEPOSITS = (("12.4", HASH, ROOT_0, ROOT_1, PATH), ("12.10", keyed(KEY), KEYED_ROOT_0, KEYED_ROOT_1, KEYED_PATH))


def try_this_file():
    """Whether SPECIFICATION 12.1, 12.3, 12.4, 12.9 and 12.10 come out as they stand there, as far as a check needs them."""
    message = bytes(i % 251 for i in range(3073))
    yes = digest(message).hex() == OF_3073 and folded(bytes(16), bytes(15) + b"\x80", b"\2" + bytes(15))[0] == 0x87
    yes &= digest(message, keyed(KEY)).hex() == KEYED_OF_3073 and derived(CHECK_CONTEXT, KEY)[:16].hex() == CHECK_VALUE
    tail = bytes.fromhex("01000000" + LAST + "00000000")
    for section, mode, *root_texts, path in DEPOSITS:
        roots = [bytes.fromhex(root) for root in root_texts]
        query = bytes.fromhex("01000000" + A + B + C + "02000000" + A + B + LAST + "01000000" + path + "00000000")
        for widths in WIDTHS:  # Under either set: no level has 16 words.
            yes &= answered(f"{section}, the query record, {widths} widths", check_query, mode, b"d", widths, 1, 1, 2, [b"\2" + bytes(15)], roots, query)
            yes &= answered(f"{section}, the tail record, {widths} widths", check_tail, mode, b"d", widths, 1, 1, roots[1], b"\x1d" + bytes(15), tail)
    return yes


def numbers(text):
    """The numbers of a list with commas, each below 2^64."""
    found = [re.fullmatch(r"\+?0*([0-9]{1,20})", number) for number in text.split(",")]
    if not all(found) or any(int(number.group(1)) >= 2 ** 64 for number in found):
        raise argparse.ArgumentTypeError(f"`{text}` is no list of numbers")
    return [int(number.group(1)) for number in found]


class Once(argparse.Action):
    """The value of an option that is given once at the most."""

    def __call__(self, parser, asked, value, option=None):
        if getattr(asked, self.dest) is not None:
            parser.error(f"{option} is given twice")
        if value == "":
            parser.error(f"{option} needs a value")
        setattr(asked, self.dest, value)


def key_s_file(text):
    """The name of a key's file; a key in its place is not said again, since what is printed may be kept."""
    if re.fullmatch("[0-9a-fA-F]{64}", text) and not os.path.lexists(text):
        raise argparse.ArgumentTypeError("the value is no file's name; a key is never given on the command line")
    return text


def command_line(about):
    """A reader of a command line, with the options of both files: each whole and once, as the program has them."""
    parser = argparse.ArgumentParser(description=about, formatter_class=argparse.RawDescriptionHelpFormatter, allow_abbrev=False)
    parser.add_argument("OPENING")
    parser.add_argument("--older", action="store_true")
    for name in ("--seal", "--challenges"):
        parser.add_argument(name, required=True, action=Once)
    parser.add_argument("--key-file", action=Once, type=key_s_file)
    for name in ("--roots", "--claim"):
        parser.add_argument(name, action=Once)
    return parser


def main():
    parser = command_line(__doc__)
    parser.add_argument("--at", required=True, action=Once, type=lambda text: sorted(set(numbers(",".join(text.replace(",", " ").split())))))
    try:
        if sys.argv[1:] == ["--try"]:
            status = YES if try_this_file() else NO
        else:
            asked = parser.parse_args()
            checkers_own(asked)
            seal = Path(asked.seal)
            if os.path.lexists(seal / "manifest.txt"):
                raise CannotCheck(f"{seal} is a project's: check_project.py checks a file of it")
            status = check_opening(asked, *read_seal(seal, asked.older, asked.key_file))
    except (CannotCheck, OSError) as why:
        print(f"nothing was checked: {why}", file=sys.stderr)
        return 2
    print(VERDICTS[status])
    return status


if __name__ == "__main__":
    sys.exit(main())
