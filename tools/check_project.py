#!/usr/bin/env python3
"""Checks an opening of a file of a project by docs/SPECIFICATION.md alone. It needs Python 3.6 or later and check_seal.py beside it.

    tools/check_project.py OPENING --seal FOLDER [--older] [--key-file FILE] [--file PATH] --offset B,B,.. --challenges FILE [--roots FILE] [--claim WORD]

It commits the manifest that the opening shows, compares its root with the project's (SPECIFICATION 16.5), and then checks the records under the part's root as
check_seal.py does. A project of one file needs no --file. `manifest: no` or a later `no` says which of the two failed. Committing takes some minutes where the manifest has megabytes.
Exit status: 0 yes, 1 no, 2 nothing could be checked, 3 yes on level 0 alone, as no roots were kept.
"""
import os
import re
import struct
import sys
from pathlib import Path

from check_seal import HASH, NO, VERDICTS, CannotCheck, Level, Once, check_opening, checkers_own, command_line, content
from check_seal import derived, digest, keyed, leaf_message, node_message, numbers, part, read_seal, u64

PART = 16_777_200


# 6. The code. Here a word is a number.


def times(factor):
    """The product with a word, as sums of what each byte of the other word gives (SPECIFICATION 2.2)."""
    tables, power = [], factor
    for _ in range(16):
        table = [0]
        for _ in range(8):
            table += [power ^ entry for entry in table]
            power <<= 1
            if power >> 128:
                power ^= 1 << 128 | 0x87
        tables.append(table)

    def product(word):
        total = 0
        for table, byte in zip(tables, word.to_bytes(16, "little")):
            total ^= table[byte]
        return total

    return product


def gamma(base, n, k, j, i):
    """SPECIFICATION 6.1."""
    message = u64(6) + b"".join(map(part, (b"magnetar/pcs/gamma/v1", base, u64(n), u64(k), u64(j), u64(i))))
    return int.from_bytes(digest(message)[:16], "little")


def shifted(table, n, shift):
    """P(v + L) for every v: coordinate by coordinate, a and b become a + l × (a + b) and b + l × (a + b) (SPECIFICATION 6.3)."""
    values = list(table)
    for i in range(n):
        product = times(shift[i])
        for v in range(len(values)):
            if not v >> i & 1:
                a, b = values[v], values[v | 1 << i]
                step = product(a ^ b)
                values[v], values[v | 1 << i] = a ^ step, b ^ step
    return values


def codeword(base, n, k, table):
    words = []
    for eps in range(2 ** k):
        shift = [0] * n
        for j in range(k):
            if eps >> j & 1:
                shift = [l ^ gamma(base, n, k, j, i) for i, l in enumerate(shift)]
        words += shifted(table, n, shift) if eps else table
    return [word.to_bytes(16, "little") for word in words]


def variables(size):
    """n of a file of so many bytes (SPECIFICATION 15.1)."""
    return max(1, ((size + 15) // 16).bit_length())


def root_of(mode, base, widths, n, k, data):
    """The root of level 0 of these bytes as a file of this n (SPECIFICATION 15.1, 5.4)."""
    table = [int.from_bytes(data[at : at + 16], "little") for at in range(0, 2 ** n * 16, 16)]
    table[-1] = len(data)
    level, words = Level(mode, base, widths, n, k, 0), codeword(base, n, k, table)
    groups = [words[at : at + level.width] for at in range(0, level.count, level.width)]
    fresh = digest.__wrapped__
    digests = [fresh(leaf_message(level.domain, level.count, level.width, g, values), mode) for g, values in enumerate(groups)]
    for height in range(level.depth):
        digests = [fresh(node_message(level.domain, height, left, right), mode) for left, right in zip(digests[::2], digests[1::2])]
    return digests[0]


# 16. Projects.


def escaped(path):
    """A path as SPECIFICATION 16.2 writes it; surrogates stand for the bytes that are not part of a character in UTF-8."""
    text = path.decode("utf-8", "surrogateescape")
    shown = re.sub(r"[\0-\x1f\x7f\\\udc80-\udcff]| \Z", lambda found: "\\%02x" % (ord(found.group()) & 0xFF), text)
    return shown.encode()


def unescaped(text):
    return re.sub(rb"\\([0-9a-f]{2})", lambda found: bytes([int(found.group(1), 16)]), text)


def manifest(text):
    """Each path with its length and its parts' roots; nothing where the text is no manifest, to the letter."""
    first = text.split(b"\n")[0]
    if first not in (b"format 1", b"format 2"):
        return None
    has_digests = first == b"format 2"
    line = rb"part [0-9a-f]{64} [0-9a-f]{64}\n" if has_digests else rb"part [0-9a-f]{64}\n"
    items = []
    for size, path, parts, folder in re.findall(rb"file ([0-9]{1,20}) ([^\n]*)\n((?:" + line + rb")*)|folder ([^\n]*)\n", text):
        items.append((unescaped(path), int(size), parts) if size else (unescaped(folder), None, b""))
    written = first + b"\n" + b"".join(
        b"folder %s\n" % escaped(path) if size is None else b"file %d %s\n%s" % (size, escaped(path), parts) for path, size, parts in items
    )
    paths = [path for path, _, _ in items]
    named = all(b"\0" not in path and not {b"", b".", b".."} & set(path.split(b"/")) for path in paths)
    counted = all(parts.count(b"\n") == max(1, -(-size // PART)) for _, size, parts in items if size is not None)
    empty = {path for path, size, _ in items if size is None}
    filled = {path[: found.start()] for path in paths for found in re.finditer(b"/", path)}
    if written != text or paths != sorted(set(paths)) or not named or not counted or empty & filled or empty and not has_digests:
        return None
    return {path: (size, [bytes.fromhex(found.decode()) for found in re.findall(rb"part ([0-9a-f]{64})", parts)]) for path, size, parts in items if size is not None}


# 16.3. A manifest that no deposit holds, in parts.

DIGEST_CONTEXT = b"dequmlo 2026-11-18 part digest"


def whole_manifest(mode, opening, text):
    """The manifest that a text is, or, where the text lists the digests of the manifest's parts, the parts that the opening shows, with how many files that are;
    nothing where one of them is missing or another."""
    form = rb"format 2\nmanifest ([1-9][0-9]{7,19})\n((?:part [0-9a-f]{64}\n)+)"
    found = re.fullmatch(form, text)
    size = int(found.group(1)) if found else 0
    listed = re.findall(rb"[0-9a-f]{64}", found.group(2)) if found else []
    if not PART < size < 2 ** 64 or len(listed) != -(-size // PART):
        return text, 1
    # A keyed mode has its key's words, and digests have a key of their own.
    own = mode if mode == HASH else keyed(derived(DIGEST_CONTEXT, struct.pack("<8I", *mode.words)))
    parts = []
    for i, expected in enumerate(listed):
        path, length = opening / f"manifest-{i + 1}.part", min(PART, size - PART * i)
        shown = content(path, length) if path.is_file() and not path.is_symlink() else b""
        if len(shown) != length or digest.__wrapped__(shown, own).hex().encode() != expected:
            return b"", 0
        parts.append(shown)
    return b"".join(parts), 1 + len(parts)


def named(files, text):
    """The length and the roots of the file that a text names: as the program shows its path, with digits for some bytes, or else by the path itself."""
    try:
        shown = text.decode() and not re.search(rb"\\(?![0-9a-f]{2})", text)
    except UnicodeDecodeError:
        shown = False
    none = (0, None)
    return files.get(unescaped(text) if shown else text, files.get(text, none))


def is_of_one_file(text):
    """Whether a manifest has one file and nothing else."""
    return len(manifest(text) or ()) == 1 and b"\nfolder " not in text


def asked_file(asked, text):
    """The length and the roots of the file that is asked about: the one that is named, or the only one."""
    files = manifest(text)
    if asked.file is not None:
        return named(files, os.fsencode(asked.file))
    return next(iter(files.values())) if is_of_one_file(text) else (0, None)


def needs_a_name(seal):
    """Whether a file must be named: the office's own manifest says whether the project has more than one, and nothing else does."""
    own = seal / "manifest.txt"
    return not own.is_file() or own.is_symlink() or not is_of_one_file(content(own, PART))


def check_file(asked):
    """Prints the answer for the manifest, and then those for the records. The exit status."""
    checkers_own(asked)
    mode, base, widths, n, k, root = read_seal(Path(asked.seal), asked.older, asked.key_file)
    if asked.file is None and needs_a_name(Path(asked.seal)):
        raise CannotCheck("--file PATH says which file of the project is asked about")
    shown = Path(asked.OPENING) / "manifest.txt"
    if not Path(asked.OPENING).is_dir():
        raise CannotCheck(f"there is no opening {asked.OPENING}")
    text = content(shown, PART) if shown.is_file() and not shown.is_symlink() else b""
    # A text of another size is not committed: how long that takes would be the holder's to choose.
    fits = len(text) <= PART and variables(len(text)) == n and root_of(mode, base, widths, n, k, text) == root
    text, asked.more_files = whole_manifest(mode, Path(asked.OPENING), text) if fits else (b"", 0)
    if manifest(text) is None:
        print("manifest: no: what the opening shows is not the project's manifest")
        return NO
    print("manifest: yes")
    size, roots = asked_file(asked, text)
    if roots is None or not all(0 <= offset < size for offset in asked.offset) or len({offset // PART for offset in asked.offset}) != 1:
        raise CannotCheck("the project has no such file, or the offsets are not in one part of it")
    index = asked.offset[0] // PART
    in_part = min(PART, size - PART * index)
    asked.at = sorted({offset % PART // 16 for offset in asked.offset})
    return check_opening(asked, mode, base, widths, variables(in_part), k, roots[index], in_part)


def main():
    parser = command_line(__doc__)
    parser.add_argument("--file", action=Once)
    parser.add_argument("--offset", required=True, action=Once, type=numbers)
    try:
        status = check_file(parser.parse_args())
    except (CannotCheck, OSError) as why:
        print(f"nothing was checked: {why}", file=sys.stderr)
        return 2
    print(VERDICTS[status])
    return status


if __name__ == "__main__":
    sys.exit(main())
