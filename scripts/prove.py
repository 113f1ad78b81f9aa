#!/usr/bin/env python3
"""prove.py [--tests] [--cpu LEVEL | --target TRIPLE] [--toolchain FOLDER] [--to FOLDER] CRATE..: proves the crates named and all that they
stand on, and builds them: a program, a static library, or with --tests the program of their tests. With --cpu it is built for that level of
x86-64, with --target for that machine; it goes to out/LEVEL/ or out/TRIPLE/ in the crate's folder, else to out/, or to the folder of --to.
With --toolchain the compiler's parts are taken from there.

Crates that don't stand on each other are proved side by side, one a processor as far as memory holds, and first those with the longest way of
others behind them. What a crate has proved is kept for those above it as statements alone, which are read sooner than proofs; a crate for
which all others wait gets the processors that nobody else has. The toolchain's compiler is called for each as `rt lib` calls it.
What was proved before is not proved again, also after an interrupt, nor what `rt ci` proved here since the last change. Every half minute a
line on standard error says what is being proved, and how long is left by the times of scripts/proof-times.txt and by how much longer or
shorter the proofs so far took here.

--plan shows the order and how long it takes, and proves nothing. --times writes what each crate's proof took, for that list. --at-once tells how
many proofs this machine has processors and memory for, and proves nothing."""
import argparse
import hashlib
import os
import shutil
import subprocess
import sys
import threading
import time

TOP = os.path.dirname(os.path.dirname(os.path.realpath(__file__)))
PARTS = ("src", "specs", "proofs")
GIB = 1 << 30
NEED = 3 * GIB  # the memory of one proof
EVERY = 30  # seconds from one line to the next
UNKNOWN = 60  # the seconds of a proof that the list of times doesn't have
TRUSTED = 60  # for so many seconds of proofs the list counts as right, before what was seen here


def say(text):
    print(f"avcdec: {text}", file=sys.stderr, flush=True)


def lines_of(name):
    with open(f"{TOP}/{name}", encoding="utf-8") as file:
        return [line for line in (line.split("#")[0].strip() for line in file) if line]


def told_by(*words):
    return subprocess.run(words, capture_output=True, text=True, check=False).stdout.strip()


def free_memory():
    with open("/proc/meminfo", encoding="utf-8") as file:
        return next(1024 * int(line.split()[1]) for line in file if line.startswith("MemAvailable:"))


class Crates:
    """The crates of the repository, with what each stands on."""

    def __init__(self):
        self.lines = {line.split(":")[0].split()[0]: line for line in lines_of("crates.txt")}
        self.uses = {name: line.split(":")[1].split() for name, line in self.lines.items()}

    def below(self, name):
        return [it for it in self.uses[name] if it in self.lines]

    def with_below(self, names):
        """These crates and all that they stand on, each behind those below it."""
        found = []

        def add(name):
            for it in self.below(name):
                add(it)
            if name not in found:
                found.append(name)

        for name in names:
            add(name)
        return found

    def is_program(self, name):
        return os.path.isfile(f"{TOP}/crates/{name}/src/main.rt")

    def is_static(self, name):
        return "staticlib" in self.lines[name].split(":")[0].split()


class Kit:
    """The toolchain. Says at once where there is none, or another than the decoder was proved with."""

    def __init__(self):
        rows = [[it.strip() for it in line.split(":")] for line in lines_of("scripts/proof-times.txt")]
        self.proved_with = [it for name, it in rows if name == "toolchain"]
        # how long the proof of each crate takes on one processor, in seconds
        self.seconds = {name: int(it) for name, it in rows if name != "toolchain"}

    def needs(self, name):
        return self.seconds.get(name, UNKNOWN)

    def look(self):
        if shutil.which("rt") is None:
            say("the toolchain Rattle is not there: no `rt` on the path. It proves and builds the decoder. Whoever only wants to decode takes")
            say("a release made by scripts/package.sh, which needs none.")
            sys.exit(69)
        self.version = told_by("rt", "version")
        self.at = os.path.dirname(told_by("rt", "doc"))
        if self.version not in self.proved_with:
            say(f"the toolchain here is '{self.version}', and the decoder was proved with '{self.proved_with[0]}'. That is tried.")


class Room:
    """Where the libraries are that were proved, beside other caches of this user: each as its statements, and a file that says of what."""

    def __init__(self, kit, crates):
        cache = os.environ.get("XDG_CACHE_HOME") or os.path.expanduser("~/.cache")
        self.at = f"{cache}/avcdec/{hashlib.sha256(TOP.encode()).hexdigest()[:16]}"
        self.kit, self.crates, self.sums = kit, crates, {}
        # the seconds of each crate that was proved by one processor, by the clock, and those of the processor
        self.took, self.used = {}, {}

    def pace(self):
        """How long proofs take here, as a part of what the list says."""
        took = dict(self.took)
        return (TRUSTED + sum(took.values())) / (TRUSTED + sum(self.kit.needs(it) for it in took))

    def library(self, name):
        return f"{self.at}/{name}.rlib"

    def sum_of(self, name):
        """Of all that the crate's proof reads: the toolchain, its line and its sources, and those below."""
        if name not in self.sums:
            found = hashlib.sha256(repr((self.kit.version, self.crates.lines[name])).encode())
            for part in PARTS:
                for at, folders, files in os.walk(f"{TOP}/crates/{name}/{part}"):
                    folders.sort()
                    for file in sorted(files):
                        with open(f"{at}/{file}", "rb") as it:
                            found.update(repr((os.path.relpath(f"{at}/{file}", TOP), it.read())).encode())
            found.update(repr([self.sum_of(it) for it in self.crates.below(name)]).encode())
            self.sums[name] = found.hexdigest()
        return self.sums[name]

    def has(self, name):
        try:
            with open(f"{self.library(name)}/../{name}.proved", encoding="utf-8") as file:
                if file.read() == self.sum_of(name):
                    return True
        except OSError:
            pass
        return self.takes_from_gate(name)

    def takes_from_gate(self, name):
        """Takes the library that `rt ci` left here, where it is newer than all that its proof reads."""
        made = f"{TOP}/crates/{name}/out/rlib/{name}.rlib"
        try:
            if os.path.getmtime(f"{made}/format") <= self.newest(name):
                return False
            shutil.rmtree(self.library(name), ignore_errors=True)
            shutil.copytree(made, self.library(name))
        except OSError:
            return False
        self.mark(name, self.sum_of(name))
        return True

    def newest(self, name):
        """When what a proof reads was changed last: the toolchain, the list of crates, and the sources of the crate and of those below it."""
        files = [f"{self.kit.at}/KIT-ID", f"{TOP}/crates.txt"]
        for it in self.crates.with_below([name]):
            for part in PARTS:
                for at, _, found in os.walk(f"{TOP}/crates/{it}/{part}"):
                    files += [at, *(f"{at}/{file}" for file in found)]
        return max(os.path.getmtime(it) for it in files)

    def mark(self, name, sources):
        with open(f"{self.at}/{name}.proved", "w", encoding="utf-8") as file:
            file.write(sources)

    def words(self, name):
        """What the compiler wants to know of a crate."""
        root = "src/main.rt" if self.crates.is_program(name) else "src/lib.rt"
        words = ["--crate-name", name, root, "--extern", f"std={self.kit.at}/rlibs/std.rlib"]
        for it in self.crates.uses[name]:
            words += ["--extern", f"{it}={self.library(it) if it in self.crates.lines else f'{self.kit.at}/rlibs/{it}.rlib'}"]
        words += ["-L", f"dependency={self.kit.at}/rlibs", "-L", f"dependency={self.at}", "--links", f"{name}="]
        return words + ["--antt-project", f"{self.kit.at}/rattle/logic/antt-project.json", "--logic-built", f"{self.kit.at}/logic_built"]

    def call(self, name, words, log):
        words = [f"{self.kit.at}/bin/rattle", "build", *self.words(name), *words]
        how = {"cwd": f"{TOP}/crates/{name}", "stdin": subprocess.DEVNULL, "stdout": log, "stderr": log}
        run = subprocess.Popen(words, **how)
        _, status, used = os.wait4(run.pid, 0)
        run.returncode = os.waitstatus_to_exitcode(status)
        self.used[name] = used.ru_utime + used.ru_stime
        return run.returncode

    def prove(self, name, jobs):
        """Proves a library and keeps its statements."""
        mark = f"{self.at}/{name}.proved"
        shutil.rmtree(self.library(name), ignore_errors=True)
        if os.path.lexists(mark):
            os.remove(mark)
        sum_before = self.sum_of(name)
        started = time.time()
        with open(f"{self.at}/{name}.log", "w", encoding="utf-8") as log:
            status = self.call(name, ["--statements", "--jobs", str(jobs), "-o", self.library(name)], log)
        if status == 0:
            if jobs == 1:
                self.took[name] = time.time() - started
            self.mark(name, sum_before)
        return status

    def fail(self, name):
        with open(f"{self.at}/{name}.log", encoding="utf-8") as log:
            sys.stderr.write(log.read())
        say(f"{name} could not be proved; see above")
        sys.exit(70)


class Proofs:
    """The libraries that are still to be proved, in their order."""

    def __init__(self, room, wanted, last):
        self.room, self.crates, self.needs = room, room.crates, room.kit.needs
        self.wanted, self.last = wanted, sum(self.needs(it) for it in last)
        self.everything = [*wanted, *last]
        self.done, self.failed, self.running = set(), None, {}
        self.change, self.started = threading.Condition(), time.time()
        self.jobs = len(os.sched_getaffinity(0))

    def way(self, name):
        """The longest way from a crate to the end, in seconds."""
        above = [it for it in self.everything if name in self.crates.below(it)]
        return self.needs(name) + max((self.way(it) for it in above), default=0)

    def next(self):
        """The crate that is proved next, and by how many processors; or nothing where all is done or a proof failed. Waits while none is ready."""
        with self.change:
            while True:
                left = [it for it in self.wanted if it not in self.done and it not in self.running]
                if self.failed or not left:
                    return None
                ready = [it for it in left if all(low in self.done for low in self.crates.below(it))]
                if ready and (not self.running or free_memory() > NEED):
                    name = max(ready, key=lambda it: (self.way(it), it))
                    idle = self.jobs - len(self.running)
                    self.running[name] = time.time()
                    # what little waits for can wait itself
                    equals = [it for it in ready if 2 * self.way(it) > self.way(name)]
                    return name, max(1, idle // len(equals))
                self.change.wait(5)

    def work(self):
        while (chosen := self.next()) is not None:
            name, jobs = chosen
            status = 0 if self.room.has(name) else self.room.prove(name, jobs)
            with self.change:
                del self.running[name]
                if status == 0:
                    self.done.add(name)
                else:
                    self.failed = name
                self.change.notify_all()

    def left(self):
        """In minutes: the longest way, or all work by the processors, and what is proved where it is built."""
        now, pace = time.time(), self.room.pace()
        so_far = {name: min((now - since) / pace, self.needs(name)) for name, since in self.running.items()}
        left = [it for it in self.wanted if it not in self.done]
        work = sum(self.needs(it) for it in left) - sum(so_far.values())
        way = max((self.way(it) - so_far.get(it, 0) for it in left), default=self.last)
        return pace * max(way, work / self.jobs + self.last) / 60

    def tell(self):
        with self.change:
            names = "; now " * bool(self.running) + ", ".join(sorted(self.running))
            minutes = (time.time() - self.started) / 60
            say(f"{len(self.done)} of {len(self.wanted)} crates proved after {minutes:.0f} min, about {self.left():.0f} min left{names}")

    def run(self):
        workers = [threading.Thread(target=self.work) for _ in range(self.jobs)]
        with Spoken(self.tell):
            for it in workers:
                it.start()
            for it in workers:
                it.join()
        if self.failed:
            self.room.fail(self.failed)


class Spoken:
    """A line at once, and every half minute while something goes on: so none is missing where one thing follows another."""

    def __init__(self, tell):
        self.ends, self.tell = threading.Event(), tell

    def __enter__(self):
        threading.Thread(target=self.speak, daemon=True).start()

    def speak(self):
        self.tell()
        while not self.ends.wait(EVERY):
            self.tell()

    def __exit__(self, *_):
        self.ends.set()


def build(room, name, given, jobs):
    """Has the compiler prove the crate that was named and build it, in the crate's own folder."""
    level = given.cpu or given.target
    is_linked = room.crates.is_program(name) or given.tests
    out = os.path.abspath(given.to) if given.to else f"{TOP}/crates/{name}/out{f'/{level}' if level else ''}"
    made = f"{out}/{name}{'_tests' if given.tests else ''}" if is_linked else f"{out}/lib{name}.a"
    flags = [f"--cpu={given.cpu}"] if given.cpu else ["--target", given.target] if given.target else []
    flags += ["--test"] if given.tests else ["--crate-type", "staticlib"] if room.crates.is_static(name) else []
    os.makedirs(out, exist_ok=True)
    started, whole = time.time(), f" of about {room.pace() * room.kit.needs(name) / 60:.0f}"
    with Spoken(lambda: say(f"{name} is proved and built, for {(time.time() - started) / 60:.1f}{whole} min")):
        with open(f"{room.at}/{name}.log", "w", encoding="utf-8") as log:
            toolchain = ["--toolchain", given.toolchain or f"{room.kit.at}/toolchain"]
            status = room.call(name, [*flags, *toolchain, "--backend", "llvm", "--jobs", str(jobs), "-o", f"{made}.o" if is_linked else made], log)
            status = status or (link(room.kit, made, log) if is_linked else 0)
    if status:
        room.fail(name)


def link(kit, program, log):
    words = [f"{kit.at}/bin/rattle-link", "--target", "x86_64-unknown-linux-gnu", "--toolchain", f"{kit.at}/toolchain", "-o", program, f"{program}.o"]
    words += [f"{kit.at}/c/libos_c.a", f"{kit.at}/c/liblibc_c.a"]
    status = subprocess.run(words, stdin=subprocess.DEVNULL, stdout=log, stderr=log, check=False).returncode
    os.remove(f"{program}.o")
    return status


def at_once():
    """How many proofs run side by side: one a processor, as far as memory holds."""
    return max(1, min(len(os.sched_getaffinity(0)), free_memory() // NEED))


def proofs_of(kit, crates, names):
    """What is named is proved where it is built, and all below it before."""
    return Proofs(Room(kit, crates), [it for it in crates.with_below(names) if it not in names], names)


def words_given():
    given = argparse.ArgumentParser(description=__doc__, formatter_class=argparse.RawDescriptionHelpFormatter)
    given.add_argument("--tests", action="store_true")
    given.add_argument("--plan", action="store_true")
    given.add_argument("--at-once", action="store_true")
    given.add_argument("--times", action="store_true")
    given.add_argument("--cpu")
    given.add_argument("--target")
    given.add_argument("--toolchain")
    given.add_argument("--to")
    given.add_argument("crate", nargs="*")
    words = given.parse_args()
    if not words.crate and not words.at_once:
        given.error("no crate is named")
    return words


def main():
    given = words_given()
    if given.at_once:
        print(at_once())
        return
    crates, kit = Crates(), Kit()
    unknown = [it for it in given.crate if it not in crates.lines]
    if unknown:
        sys.exit(f"prove.py: no such crate: {unknown[0]}")
    proofs = proofs_of(kit, crates, given.crate)
    room = proofs.room
    if given.plan:
        for name in sorted(proofs.everything, key=proofs.way, reverse=True):
            print(f"{proofs.way(name):6} s from the end: {name}")
        print(f"about {proofs.left():.0f} min by {proofs.jobs} at a time")
        return
    kit.look()
    os.makedirs(room.at, exist_ok=True)
    processors, proofs.jobs = proofs.jobs, at_once()
    if proofs.jobs < processors:
        say(f"{free_memory() / GIB:.0f} GiB of memory are free and a proof takes up to 3: {proofs.jobs} at a time; with more it is faster.")
    say(f"{len(proofs.everything)} crates are proved, {proofs.jobs} at a time: about {proofs.left():.0f} min where nothing is proved yet.")
    say("Where this is interrupted, the next start goes on from there.")
    proofs.run()
    for name in given.crate:
        build(room, name, given, proofs.jobs)
    if given.times:
        sys.stdout.writelines(f"{name}: {seconds:.0f}\n" for name, seconds in room.used.items())
    elapsed, worked = time.time() - proofs.started, sum(room.used.values())
    say(f"proved and built after {elapsed / 60:.1f} min, {worked / 60:.0f} min of processors: {worked / elapsed:.1f} were busy on average.")


if __name__ == "__main__":
    main()
