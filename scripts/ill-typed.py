#!/usr/bin/env python3
"""ill-typed.py [CRATE..]: tries the wrong bodies of crates/*/ill-typed/, which must not compile, since they make up what a type lets nobody make. A
file there is written as one of must-fail/, with a line `error:` before its pairs: what the compiler must say.

It works in a copy of the repository, with what is proved there, and ends with a line for each; its status is 0 where all were refused so."""
import glob
import os
import shutil
import subprocess
import sys
import tempfile

TOP = os.path.dirname(os.path.dirname(os.path.realpath(__file__)))


def read(path):
    with open(path, encoding="utf-8") as file:
        return file.read()


def write(path, text):
    with open(path, "w", encoding="utf-8") as file:
        file.write(text)


def edit(folder, path):
    """What the compiler must say, and the texts of the files that the edit changes, after and before it."""
    error, at, old, after, before = None, None, None, {}, {}
    for line in read(path).splitlines():
        key, text = line.split(":", 1)
        text = text.strip()
        if key == "error":
            error = text
        elif key == "file":
            at = f"{folder}/{text}"
            before.setdefault(at, read(at))
            after.setdefault(at, before[at])
        elif key == "old":
            old = text
        else:
            if after[at].count(old) != 1:
                sys.exit(f"{path}: `{old}` does not stand once in {at}")
            after[at] = after[at].replace(old, text)
    return error, after, before


def refused(folder, path):
    """Whether the crate with this edit does not compile, for the reason that it says."""
    error, after, before = edit(folder, path)
    for at, text in after.items():
        write(at, text)
    tried = subprocess.run(["rt", "check"], cwd=folder, capture_output=True, text=True, check=False)
    for at, text in before.items():
        write(at, text)
    said = tried.stdout + tried.stderr
    if tried.returncode != 0 and error in said:
        return True
    print(said, file=sys.stderr)
    return False


def main():
    named = sys.argv[1:]
    with tempfile.TemporaryDirectory() as room:
        copy = f"{room}/repository"
        shutil.copytree(TOP, copy, symlinks=True)
        status = 0
        for path in sorted(glob.glob(f"{copy}/crates/*/ill-typed/*.edit")):
            crate = path.split("/")[-3]
            if named and crate not in named:
                continue
            well = refused(f"{copy}/crates/{crate}", path)
            status = status if well else 1
            print(f"{crate}: {os.path.basename(path)[:-5]}: {'does not compile' if well else 'NOT REFUSED'}", flush=True)
    sys.exit(status)


main()
