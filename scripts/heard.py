#!/usr/bin/env python3
"""heard.py COMMAND WORD..: runs a command, passes on what it tells, and sees that it says what it is at: by a first line within ten seconds, and
from then on by one at least every half minute. Its status is that of the command; where that is 0 and the command was silent for longer, 1."""
import os
import selectors
import signal
import subprocess
import sys
import time

FIRST = 10  # seconds
EVERY = 30
SLACK = 60  # for a machine that is busy elsewhere


def pass_on(run, told):
    """Passes on what comes, up to the command's end. Answers the silences that were too long: when each began, and how long it was."""
    begun = last = time.monotonic()
    silences = []
    with selectors.DefaultSelector() as ready:
        for source, to in told:
            os.set_blocking(source.fileno(), False)
            ready.register(source, selectors.EVENT_READ, to)
        while True:
            # what is left when it has ended is passed on, too; a child of it may hold the pipes open for longer
            has_ended = run.poll() is not None
            came = False
            for key, _ in ready.select(0 if has_ended else 0.1):
                data = key.fileobj.read(1 << 16)
                if data:
                    came = True
                    key.data.write(data)
                    key.data.flush()
                elif data == b"":
                    ready.unregister(key.fileobj)
            now = time.monotonic()
            if came or has_ended:
                if now - last > (FIRST if last == begun else EVERY) + SLACK:
                    silences.append((last - begun, now - last))
                last = now
            if has_ended and not came:
                return silences


def main(words):
    with subprocess.Popen(words, stdout=subprocess.PIPE, stderr=subprocess.PIPE, bufsize=0) as run:
        signal.signal(signal.SIGTERM, lambda *_: run.terminate())
        try:
            silences = pass_on(run, [(run.stdout, sys.stdout.buffer), (run.stderr, sys.stderr.buffer)])
        except KeyboardInterrupt:
            run.wait()
            return 130
    for after, seconds in silences:
        print(f"failed: {words[0]} said nothing for {seconds:.0f} s, {after:.0f} s after its start", flush=True)
    return run.returncode or (1 if silences else 0)


if __name__ == "__main__":
    sys.exit(main(sys.argv[1:]))
