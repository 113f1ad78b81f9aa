#!/usr/bin/env python3
"""time.py [--runs N] [--times K] [--instructions] COMMANDS STREAM ..
What decoding takes, without a decoder's start: each of the file's lines NAME=COMMAND, where {} is the stream, decodes it K + 1 times over and once;
the least of N runs of each counts, all in turns, and what is told is the difference, by K. Processor time (user and system) in
milliseconds a stream, or with --instructions millions of instructions by callgrind. Beside it stands the ratio to the better of the
commands whose names begin with 'peer', and the most resident memory. bench/time.sh calls it."""
import os
import re
import shlex
import subprocess
import sys
import tempfile


def run(words, counts):
    """Processor milliseconds or million instructions, and the most resident memory in MB."""
    if counts:
        valgrind = ["valgrind", "--tool=callgrind", "--callgrind-out-file=/dev/null", *words]
        done = subprocess.run(valgrind, stdin=subprocess.DEVNULL, stdout=subprocess.DEVNULL, stderr=subprocess.PIPE, check=False)
        return int(re.search(rb"Collected : (\d+)", done.stderr)[1]) / 1e6, 0
    child = subprocess.Popen(words, stdin=subprocess.DEVNULL, stdout=subprocess.DEVNULL, stderr=subprocess.DEVNULL)
    used = os.wait4(child.pid, 0)[2]
    child.returncode = 0
    return 1e3 * (used.ru_utime + used.ru_stime), used.ru_maxrss * 1024 / 1e6


def measure(commands, once, many, runs, times, counts):
    """For each command what the stream takes, and the most memory."""
    least = {name: [float("inf"), float("inf"), 0.0] for name in commands}
    for _ in range(runs):
        for name, command in commands.items():
            for place, stream in enumerate((once, many)):
                cost, memory = run([word.replace("{}", stream) for word in shlex.split(command)], counts)
                least[name][place] = min(least[name][place], cost)
                least[name][2] = max(least[name][2], memory)
    return {name: ((many - once) / times, memory) for name, (once, many, memory) in least.items()}


def main(words):
    runs, times, counts = 15, 10, False
    while words and words[0].startswith("--"):
        word = words.pop(0)
        if word == "--runs":
            runs = int(words.pop(0))
        elif word == "--times":
            times = int(words.pop(0))
        elif word == "--instructions":
            counts, runs, times = True, 1, 2
    if len(words) < 2:
        print(__doc__, file=sys.stderr)
        return 2
    with open(words[0], encoding="utf-8") as file:
        commands = dict(line.rstrip("\n").split("=", 1) for line in file)
    streams = words[1:]
    with tempfile.TemporaryDirectory() as room:
        for stream in streams:
            with open(stream, "rb") as file:
                text = file.read()
            once, many = f"{room}/once.264", f"{room}/many.264"
            for path, count in ((once, 1), (many, times + 1)):
                with open(path, "wb") as file:
                    file.write(text * count)
            took = measure(commands, once, many, runs, times, counts)
            peers = [cost for name, (cost, _) in took.items() if name.startswith("peer")]
            print(os.path.splitext(os.path.basename(stream))[0])
            for name, (cost, memory) in took.items():
                ratio = f"{cost / min(peers):6.2f}" if peers else ""
                print(f"    {name:28} {cost:9.2f} {'M' if counts else 'ms'} {ratio}" + ("" if counts else f" {memory:7.0f} MB"), flush=True)
    return 0


if __name__ == "__main__":
    sys.exit(main(sys.argv[1:]))
