"""Request lines, as oracle/README.md describes them: read for the model (answers.py), and written for the programs of crates/."""
import pathlib
import re

from model import blake3

CRATES = pathlib.Path(__file__).resolve().parent.parent / "crates"

# what an output holds before it is lent
FILL = b"\xa5"

LOW = (1 << 64) - 1


def drawn(stream, i):
    """Number i that splitmix64 gives, started from a stream's number."""
    z = stream + (i + 1) * 0x9E3779B97F4A7C15 & LOW
    z = (z ^ z >> 30) * 0xBF58476D1CE4E5B9 & LOW
    z = (z ^ z >> 27) * 0x94D049BB133111EB & LOW
    return z ^ z >> 31


def drawn_word(stream, i):
    """Word i of a stream: mostly any, sometimes one on which halves or single bits show."""
    lo, hi, kind = (drawn(stream, 3 * i + j) for j in range(3))
    special = {0: (0, 0), 1: (1, 0), 2: (LOW, LOW), 3: (lo, 0), 4: (0, hi), 5: (1 << lo % 64, 0), 6: (0, 1 << hi % 64)}
    lo, hi = special.get(kind % 16, (lo, hi))
    return hi << 64 | lo


def drawn_bytes(kind, stream, count):
    if kind == "w":
        return b"".join(drawn_word(stream, i).to_bytes(16, "little") for i in range(count))
    of = {"b": lambda x: x % 256, "i": lambda x: x % 2, "t": lambda x: 32 + x % 95}[kind]
    return bytes(of(drawn(stream, i)) for i in range(count))


class Reader:
    """The lines of a file: what an argument stands for, the bytes that lines keep, and the key of trees that they set."""

    def __init__(self):
        self.store, self.key = b"", None

    def piece(self, text, words):
        if text[0] == "~":
            stream, count = text[2:].split("x")
            return drawn_bytes(text[1], int(stream), int(count))
        if text[0] == "@":
            start, size = map(int, text[1:].split("+"))
            return self.store[start : start + size]
        if text[0] == "%":
            return bytes(i % 251 for i in range(int(text[1:])))
        digits, _, times = text.partition("x")
        return self.digits(digits, words) * int(times or 1)

    def digits(self, text, words):
        if not words:
            return bytes.fromhex(text)
        if text[0] == "h":
            return int(text[1:], 16).to_bytes(8, "little")
        return int(text, 16).to_bytes(16, "little")

    def bytes(self, text, words=False):
        return b"" if text == "-" else b"".join(self.piece(piece, words) for piece in text.split(","))

    def numbers(self, text):
        """A list of numbers: each once, or so many times."""
        pieces = [piece.partition("x") for piece in text.split(",") if piece != "-"]
        return [int(number) for number, _, times in pieces for _ in range(int(times or 1))]

    def takes(self, line):
        """Is a line for those after it? Then it keeps bytes, or sets the key."""
        name, _, text = line.partition(" ")
        if name == "=":
            self.store += self.bytes(text)
        elif name == "key":
            self.key = self.bytes(text) or None
        return name in ("=", "key")


def tables():
    """The letters of every operation, by program: the programs' own tables."""
    found = {}
    for program in ("test_field", "test_record"):
        source = (CRATES / program / "src" / "main.rt").read_text()
        found[program] = dict(re.findall(r'name: "(\w+)",\s+letters: "(\w+)"', source))
    return found


def shown(words, data):
    """An output as an answer has it."""
    if not data:
        return "-"
    if len(data) > 64:
        return "#" + blake3(data)[:16].hex()
    if not words:
        return data.hex()
    halves = [data[i : i + 16] for i in range(0, len(data), 16)]
    return ",".join(("h" if len(x) == 8 else "") + x[::-1].hex() for x in halves)


def listed(numbers):
    """A list of numbers, in a line and in an answer."""
    return ",".join(map(str, numbers)) or "-"


# ---- written


def hexed(data):
    return data.hex() or "-"


def hex_word(word):
    return "%x" % word


def hex_words(words):
    return ",".join(map(hex_word, words)) or "-"


class Store:
    """The bytes that the lines of a file keep: an argument names parts of them."""

    def __init__(self):
        self.data, self.new = b"", []

    def longest(self, wanted):
        """The longest beginning of the wanted bytes that is kept: its place and its length."""
        low, high = 0, len(wanted)
        while low < high:
            middle = (low + high + 1) // 2
            if wanted[:middle] in self.data:
                low = middle
            else:
                high = middle - 1
        return self.data.find(wanted[:low]), low

    def named(self, field, least=12):
        """An argument that gives these bytes: parts of what is kept, or digits where less than so many bytes are. What is new is kept first."""
        pieces, at = [], 0
        while at < len(field):
            run = len(field[at:]) - len(field[at:].lstrip(field[at : at + 1]))
            if run >= least:
                pieces.append("%02xx%d" % (field[at], run))
                at += run
                continue
            start, size = self.longest(field[at:])
            if size >= least:
                pieces.append("@%d+%d" % (start, size))
            elif not pieces and len(field) >= 2 * least:
                self.new.append("= " + field.hex())
                self.data += field
                continue
            else:
                size = min(least, len(field) - at)
                pieces.append(field[at : at + size].hex())
            at += size
        return ",".join(pieces) or "-"

    def words(self, data):
        """The same for words; short lists in digits."""
        if len(data) % 8 == 0 and len(data) <= 64:
            items = [data[i : i + 16] for i in range(0, len(data), 16)]
            return ",".join(("h" if len(x) == 8 else "") + "%x" % int.from_bytes(x, "little") for x in items) or "-"
        text = self.named(data)
        # digits in a list of words are words: parts that are not kept are kept first
        if any(piece[0] not in "@" for piece in text.split(",")) and text != "-":
            self.new.append("= " + data.hex())
            start = len(self.data)
            self.data += data
            return "@%d+%d" % (start, len(data))
        return text
