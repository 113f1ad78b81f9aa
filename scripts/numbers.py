#!/usr/bin/env python3
"""numbers.py [check]: puts the numbers of README.md and docs/speed.md that come from elsewhere to what they are in this commit; with `check`
it changes nothing and says which are others.

- the toolchain: that of scripts/proof-times.txt
- the greatest unit and picture: those of the crates that refuse more
- the size of the program, where it is built
- the table of times: docs/times.txt, where it is there, which is what `bench/time.sh` told of this commit or one before (its first line)"""
import glob
import os
import re
import sys

sys.dont_write_bytecode = True
sys.path.insert(0, os.path.dirname(os.path.realpath(__file__)))
import prove  # noqa: E402

TOP = prove.TOP


def read(name):
    with open(f"{TOP}/{name}", encoding="utf-8") as file:
        return file.read()


def constant(name):
    """A number of the crates, as README writes it."""
    for file in sorted(glob.glob(f"{TOP}/crates/*/src/*.rt")):
        found = re.search(rf"\bconst {name}: \w+ = ([0-9_]+);", read(os.path.relpath(file, TOP)))
        if found:
            return f"{int(found[1].replace('_', '')):,}"
    raise LookupError(f"no crate has a constant {name}")


def size_of_program():
    program = f"{TOP}/crates/avc_cli/out/avc_cli"
    return f"{10_000 * round(os.path.getsize(program) / 10_000):,}" if os.path.exists(program) else None


def facts():
    """Of each number the document, the words around it, and what it is."""
    return [
        ("README.md", r"(`rt\s+version`\s+)rattle-kit-\w+\s+logic\s+\w+(\))", prove.Kit().proved_with[0]),
        ("README.md", r"(a\s+picture\s+at\s+most\s+)[\d,]+(\s+macroblocks)", constant("MAX_MACROBLOCKS")),
        ("README.md", r"(a\s+unit\s+at\s+most\s+)[\d,]+(\s+bytes)", constant("MAX_UNIT")),
        ("docs/speed.md", r"(The program has )[\d,]+( bytes)", size_of_program()),
    ]


def times():
    """For each stream of docs/times.txt, by command: milliseconds, and the ratio to the better of the peers."""
    found, stream = {}, ""
    for line in read("docs/times.txt").splitlines():
        row = re.match(r"    (\S.*?) +([0-9.]+) ms +([0-9.]+)", line)
        if row:
            found.setdefault(row[1], {})[stream] = (f"{float(row[2]):.1f}", row[3])
        else:
            stream = line.strip()
    return found


# a row of README's table: its title, what bench/time.sh calls its commands, and whether the ratio stands behind
ROWS = [
    ("`avcdec decode`", ["program"], True),
    ("the C example", ["C example"], True),
    ("libavcodec 5.1, openh264 2.3, with their assembly", ["peer libavcodec", "peer openh264"], False),
    ("libavcodec 5.1, plain C", ["libavcodec, plain C"], False),
]
STREAMS = ["still", "call", "cif", "720p", "1080i"]


def rows():
    """The rows of the table, by their titles: those that were measured."""
    took = times()
    for title, commands, has_ratio in ROWS:
        if any(it not in took for it in commands):
            continue
        cells = []
        for stream in STREAMS:
            values = [took[it][stream] for it in commands]
            cells.append(", ".join(it[0] for it in values) + (f" ({values[0][1]})" if has_ratio else ""))
        yield title, f"| {title} | " + " | ".join(cells) + " |"


def corrected(document, text, lacking):
    """The text with its numbers as they are; says which words were not found, and puts them on a list."""
    for name, words, value in facts():
        if name != document or value is None:
            continue
        if not re.search(words, text):
            print(f"{name}: no words like {words}", file=sys.stderr)
            lacking.append(words)
            continue
        text = re.sub(words, lambda found, value=value: found[1] + value + found[2], text)
    if document == "README.md" and os.path.exists(f"{TOP}/docs/times.txt"):
        for title, row in rows():
            # the row of numbers: another table may have a row of this title
            text = re.sub(rf"^\| {re.escape(title)} \| \d.*$", lambda _, row=row: row, text, flags=re.MULTILINE)
    return text


def main(words):
    status = 0
    lacking = []
    for document in ("README.md", "docs/speed.md"):
        text = read(document)
        new = corrected(document, text, lacking)
        if new == text:
            continue
        if words == ["check"]:
            for old_line, new_line in zip(text.splitlines(), new.splitlines()):
                if old_line != new_line:
                    print(f"{document}: '{old_line}' is now '{new_line}': scripts/numbers.py", file=sys.stderr)
            status = 1
        else:
            with open(f"{TOP}/{document}", "w", encoding="utf-8") as file:
                file.write(new)
    return 1 if lacking else status


if __name__ == "__main__":
    sys.exit(main(sys.argv[1:]))
