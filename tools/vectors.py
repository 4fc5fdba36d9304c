#!/usr/bin/env python3
"""vectors.py [--check] [--oracle PROGRAM]: the request lines of the programs test_field and test_record, and what they must print; and what
export_tail_list reads and prints.

The lines come from cases_*.py; a file's first line says where its answers come from. Those by docs/SPECIFICATION.md are the model's (answers.py). Those
of the Rust are kept as they are stored, and asked anew with --oracle, of the program that oracle/build makes; those of the model that the Rust has too,
on records and on codewords folded part way, are then held to it. Writes data/ and stdout of each program; with --check it compares them instead."""
import subprocess
import sys

import answers
import cases_blocks
import cases_field
import cases_half_folded
import cases_keyed
import cases_record
import cases_rust
import cases_tree
import cases_wide
import lines
from model import PRESENT

# a file's room in the programs
ROOM = 262144


def records(oracle):
    """The lines on records that the Rust built: as they are stored, or anew."""
    if oracle:
        run = subprocess.run([oracle, "records"], capture_output=True, text=True, check=True)
        return cases_rust.RUST + run.stdout
    stored = lines.CRATES / "test_record" / "data" / "record" / "rust_records.txt"
    return stored.read_text() if stored.exists() else cases_rust.RUST


def below(folder, named):
    return [(folder + "/" + name, text) for name, text in named]


def files(oracle):
    """The files of each program, in the order in which it reads them: name and lines."""
    return {
        "test_field": [*cases_field.files(), *cases_blocks.files(), *cases_half_folded.files(), *cases_rust.field_files()],
        "test_record": [
            *below("tree", [*cases_tree.files(), *cases_keyed.tree_files(), *cases_rust.tree_files()]),
            *below("record", [*cases_record.files(), *cases_wide.files(), *cases_keyed.record_files(), *cases_rust.record_files(records(oracle))]),
        ],
    }


def requests(text):
    """The requests of a file, with their lines' numbers."""
    return [(i, line) for i, line in enumerate(text.splitlines(), 1) if line and line[0] not in "#="]


def by_model(letters, text):
    reader, said = lines.Reader(), []
    for i, line in enumerate(text.splitlines(), 1):
        if not reader.takes(line) and line and line[0] != "#":
            said.append("%d %s\n" % (i, answers.answer(reader, letters[line.split()[0]], line)))
    return "".join(said)


def by_rust(oracle, text):
    run = subprocess.run([oracle], input=text, capture_output=True, text=True, check=True)
    said = run.stdout.splitlines()
    asked = requests(text)
    assert len(said) == len(asked), "the oracle answers %d of %d lines" % (len(said), len(asked))
    return "".join("%d %s\n" % (i, line) for (i, _), line in zip(asked, said))


def rust_has(reader, line, number):
    """Whether the Rust answers a request. On a fold or on L: it is done, and L is in the earlier reading. On a record: it is under no key, its set of widths
    is the present one, no question before 14 has a no, and the domain is text of at most 79 bytes."""
    name, *given = line.split()
    if name == "fold":
        return number == 0
    if name == "l_of":
        return number == 0 and reader.numbers(given[4]) == list(range(int(given[0])))
    if name not in ("check_query", "check_tail", "build_query") or reader.key or 0 < number < 14:
        return False
    base, widths = (b"", given[0]) if name == "build_query" else (reader.bytes(given[0]), given[1])
    if int(widths) != PRESENT:
        return False
    return len(base) <= 79 and base.isascii()


def hold_to_rust(oracle, text, said):
    """Of a file that the model answers, the requests that the Rust answers too: both must agree."""
    reader, asked, wanted = lines.Reader(), [], []
    answered = dict(line.split(" ", 1) for line in said.splitlines())
    for i, line in enumerate(text.splitlines(), 1):
        if reader.takes(line):
            asked += [line] if line[0] == "=" else []
        elif str(i) in answered and rust_has(reader, line, int(answered[str(i)].split()[0])):
            asked.append(line)
            wanted.append("%d %s\n" % (len(asked), answered[str(i)]))
    assert by_rust(oracle, "\n".join(asked)) == "".join(wanted), "the Rust and the model differ"


def stored_sections(stdout):
    """What a program prints of each file."""
    sections, name = {}, None
    for line in stdout.splitlines(keepends=True):
        if line[0].isdigit():
            sections[name] += line
        else:
            name = line.strip()
            sections[name] = ""
    return sections


def main():
    checking = "--check" in sys.argv
    oracle = sys.argv[sys.argv.index("--oracle") + 1] if "--oracle" in sys.argv else None
    wrong, tables = [], lines.tables()
    for program, all_files in files(oracle).items():
        crate = lines.CRATES / program
        stdout = crate / "stdout"
        kept = stored_sections(stdout.read_text()) if stdout.exists() else {}
        printed, wanted = "", {}
        for name, text in all_files:
            assert len(text) <= ROOM, "%s/%s has no room" % (program, name)
            wanted["data/" + name] = text
            if not text.startswith("# Answers: the published Rust"):
                said = by_model(tables[program], text)
                if oracle:
                    hold_to_rust(oracle, text, said)
            elif oracle:
                said = by_rust(oracle, text)
            else:
                said = kept.get(name, "")
            printed += name + "\n" + said
        wanted["stdout"] = printed
        for name, text in wanted.items():
            place = crate / name
            if not checking:
                place.parent.mkdir(parents=True, exist_ok=True)
                place.write_text(text)
            elif not place.exists() or place.read_text() != text:
                wrong.append("%s/%s is not what it should be" % (program, name))
        extra = {str(p.relative_to(crate)) for p in (crate / "data").rglob("*") if p.is_file()} - set(wanted)
        wrong += ["%s/%s is of no list" % (program, name) for name in sorted(extra)]
    for name, data in cases_record.example().items():
        place = lines.CRATES / "export_tail_list" / name
        if not checking:
            place.write_bytes(data)
        elif place.read_bytes() != data:
            wrong.append("export_tail_list/%s is not what it should be" % name)
    if wrong:
        sys.exit("\n".join(wrong))


if __name__ == "__main__":
    main()
