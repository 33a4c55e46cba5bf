#!/usr/bin/env python3
"""Builds build/dspfx, which proves all crates that it is made of first.

    tools/build.py             builds it
    tools/build.py --library   builds crates/dsp_c/out/libdsp_c.a, the archive for C, in the same way
    tools/build.py --time      says how long that takes here, by the times of docs/TESTING.md
    tools/build.py --sum       prints the sum of the sources
    tools/build.py --take SUM  takes the program that a gate which has passed left, if the sources had that sum and have it

A crate is begun as soon as those below it are proved, and of several that could be begun the one on the longest way
to the program comes first, by the times of docs/TESTING.md. Each has one processor, but the lowest, for which all others
wait, those that nobody else can use: several jobs in a crate above others take longer than one, since each loads all
that is below. Each has a folder of its own (tools/workplace.py), since rt works on one crate of a folder at a time. What
is proved is kept in crates/*/out: a build that was stopped goes on where it stopped. Standard error says which crates are
being proved and for how long, and what is left: in a live line on a terminal, else in a line a crate. rt's own words go
to build/log.

The program is built for x86-64-v3, with AVX2, where this machine's processor has it, and for x86-64-v2 elsewhere; in
build/ it stands beside the name of what it is built for, and ./dspfx runs it where the processor is such a one alone.

    JOBS    how many processors; those of this machine, with 2 GB of free memory each, where it is not set
    CPU     x86-64-v2 or x86-64-v3, for a program that other machines are to run too
"""
import contextlib
import fcntl
import os
import re
import select
import shutil
import signal
import subprocess
import sys
import time

import sources
import workplace

TOP = sources.TOP
FOLDER = f"{TOP}/build"
PROGRAM, LIBRARY = "dspfx", "dsp_c"


class Failed(Exception):
    pass


class Wrong(Exception):
    pass


def crates_needed(top=PROGRAM):
    """The crates that the program or the library is made of, lowest first, each with all those below it."""
    uses, below = {}, {}
    with open(f"{TOP}/crates.txt") as file:
        for line in file:
            name, colon, others = line.partition("#")[0].partition(":")
            if colon:
                uses[name.split()[0]] = others.split()
    def add(name):
        if name in uses and name not in below:
            below[name] = set()
            for lower in uses[name]:
                below[name] |= {lower, *add(lower)} if lower in uses else set()
            below[name] = below.pop(name)  # after those below it
        return below.get(name, set())
    add(top)
    return below


def minutes_of_crates(names):
    """The minutes of processor time that the proof of each crate takes, by docs/TESTING.md; 1 where it does not say."""
    found = {}
    with contextlib.suppress(FileNotFoundError), open(f"{TOP}/docs/TESTING.md") as file:
        found = {name: float(number) for name, number in re.findall(r"^\| (dsp\w+) \| ([\d.]+) \|", file.read(), re.M)}
    return {name: found.get(name, 1.0) for name in names}


# What a crate that is proved already takes, in minutes: rt compares its files.
PASSED = 0.1


def is_kept(name, newest):
    """Whether an earlier build has proved a crate since these files of it and of those below it were made."""
    try:
        return os.stat(f"{TOP}/crates/{name}/out/rlib/stamp").st_mtime > newest
    except FileNotFoundError:
        return False


def kept_crates(below):
    """The crates that an earlier build has proved, by the times of their files: rt passes by them."""
    newest, kept = {}, set()
    for name in below:
        own = [os.stat(file).st_mtime for file in sources.files_of(name)]
        newest[name] = max([*own, *(newest[lower] for lower in below[name])], default=0.0)
        if is_kept(name, newest[name]):
            kept.add(name)
    return kept


def longest_ways(below, minutes):
    """For each crate the minutes from its beginning to the end of the program on the longest way."""
    ways = {}
    for name in reversed(below):
        ways[name] = minutes[name] + max((ways[upper] for upper in ways if name in below[upper]), default=0)
    return ways


def processors():
    """Those that JOBS says, or else those of this machine, with 2 GB of free memory each."""
    wanted = os.environ.get("JOBS")
    if wanted:
        if not re.fullmatch("[1-9][0-9]{0,3}", wanted):
            raise Wrong(f"JOBS is {wanted}, and not a number from 1 to 9999")
        return int(wanted)
    with open("/proc/meminfo") as file:
        free = int(re.search(r"MemAvailable:\s+(\d+)", file.read())[1]) >> 21
    return max(1, min(len(os.sched_getaffinity(0)), free))


def processor():
    """What the program is built for."""
    wanted = os.environ.get("CPU") or (sources.NEWER if sources.is_newer() else sources.OLDER)
    if wanted not in (sources.OLDER, sources.NEWER):
        raise Wrong(f"CPU is {wanted}, and not {sources.OLDER} or {sources.NEWER}")
    return wanted


def jobs_of(below, free, waiting):
    """How many of the free processors the next crate has: one, or, where it stands on no other, those that so many
    crates that wait for one leave."""
    return 1 if below else max(1, free - waiting)


def spent(minutes, jobs):
    """The minutes that pass while so many jobs work on what takes one so many: by what was measured four take 0.4."""
    return minutes * (1.6 / jobs if jobs > 1 else 1)


def expected(below, minutes, count, done=(), running=()):
    """The minutes that all takes on so many processors: the crates in the order in which they are begun here. Some may
    be done already, and others running: each with the minutes that it still takes, its name and its jobs."""
    ways, done, running, now = longest_ways(below, minutes), set(done), list(running), 0.0
    free = count - sum(jobs for _, _, jobs in running)
    left = set(below) - done - {name for _, name, _ in running}
    while left or running:
        ready = sorted((name for name in left if below[name] <= done), key=lambda name: -ways[name])
        while ready and free:
            name = ready.pop(0)
            jobs = jobs_of(below[name], free, len(ready))
            left.remove(name)
            free -= jobs
            running.append((now + spent(minutes[name], jobs), name, jobs))
        now, name, jobs = min(running)
        running.remove((now, name, jobs))
        done.add(name)
        free += jobs
    return now


def clock(seconds):
    return f"{int(seconds) // 60}:{int(seconds) % 60:02}"


class Run:
    """A run of rt on a crate, in a workplace of its own, and what it said."""

    def __init__(self, name, below, jobs, cpu):
        self.name, self.jobs, self.begin, self.said = name, jobs, time.time(), b""
        self.workplace = workplace.Workplace(name, below)
        # (x86-64-v2 is what rt builds for where nothing is said)
        newer = [f"--cpu={cpu}"] if cpu != sources.OLDER else []
        words = ["run", *newer] if name == PROGRAM else ["lib"]
        self.process = subprocess.Popen(
            ["rt", *words, "--jobs", str(jobs)], cwd=self.workplace.crate(), stdin=subprocess.DEVNULL,
            stdout=subprocess.PIPE, stderr=subprocess.STDOUT, start_new_session=True,
        )  # fmt: skip

    def passed(self):
        """The minutes since it began."""
        return (time.time() - self.begin) / 60

    def is_ended(self):
        """Takes what rt has said, and tells whether that was all."""
        more = os.read(self.process.stdout.fileno(), 1 << 16)
        self.said += more
        return not more

    def is_well(self):
        """Whether the crate is proved. The program has no words when it runs, and ends with another status than 0."""
        status = self.process.wait()
        self.workplace.end()
        return b"rt: running " in self.said if self.name == PROGRAM else status == 0

    def stop(self):
        # (rt ends the provers when it ends)
        with contextlib.suppress(ProcessLookupError):
            os.killpg(self.process.pid, signal.SIGTERM)
        self.process.wait()
        self.workplace.end()


class Build:
    def __init__(self, top, cpu):
        self.below, self.what, self.cpu = crates_needed(top), "program" if top == PROGRAM else "library", cpu
        self.kept = kept_crates(self.below)
        self.minutes = minutes_of_crates(self.below) | dict.fromkeys(self.kept, PASSED)
        self.ways = longest_ways(self.below, self.minutes)
        self.left, self.done, self.running, self.waited = list(self.below), set(), [], set()
        self.took = self.said = 0.0  # the minutes of the crates that were proved, here and by docs/TESTING.md
        self.count = self.free = processors()
        self.begin, self.is_live = time.time(), sys.stderr.isatty()
        self.log = open(f"{FOLDER}/log", "wb")

    def say(self, text):
        print(("\r\033[K" if self.is_live else "") + f"dspfx: {text}", file=sys.stderr, flush=True)

    def begin_crates(self):
        """Begins crates while processors are free."""
        ready = sorted((name for name in self.left if self.below[name] <= self.done), key=lambda name: -self.ways[name])
        while ready and self.free:
            name = ready.pop(0)
            jobs = jobs_of(self.below[name], self.free, len(ready))
            try:
                self.running.append(Run(name, self.below[name], jobs, self.cpu))
            except workplace.Busy as busy:
                self.wait_for(busy)
                continue
            self.left.remove(name)
            self.free -= jobs

    def wait_for(self, busy):
        """Says once that a crate cannot be begun yet; it is tried again."""
        if str(busy) not in self.waited:
            self.waited.add(str(busy))
            self.say(f"waiting for another rt to finish in {busy}")

    def end(self, run):
        """Takes a run that has ended off the list."""
        self.running.remove(run)
        self.free += run.jobs
        self.log.write(f"== {run.name}\n".encode() + run.said)
        self.log.flush()
        if not run.is_well():
            raise Failed(run.name)
        self.done.add(run.name)
        if run.name not in self.kept:
            self.took += run.passed()
            self.said += spent(self.minutes[run.name], run.jobs)
        if not self.is_live:
            self.say(f"{len(self.done)} of {len(self.below)}: {run.name} is proved in {clock(60 * run.passed())}, {self.so_far()}")

    def so_far(self):
        """The time that has passed, and the minutes that are left if this machine goes on as it did: it may be twice as
        slow as that of the table."""
        pace = self.took / self.said if self.said else 1.0
        minutes = {name: pace * self.minutes[name] for name in self.minutes}
        running = [(max(0.0, spent(minutes[run.name], run.jobs) - run.passed()), run.name, run.jobs) for run in self.running]
        left = expected(self.below, minutes, self.count, self.done, running)
        return f"{clock(time.time() - self.begin)} so far" + (f", about {max(1, round(left))} min left" if left else "")

    def show(self):
        if self.is_live:
            names = ", ".join(f"{run.name} {clock(60 * run.passed())}" for run in self.running)
            line = f"dspfx: {len(self.done)} of {len(self.below)} crates proved, {self.so_far()}: {names}"
            print("\r\033[K" + line[: shutil.get_terminal_size().columns - 1], end="", file=sys.stderr, flush=True)

    def run(self):
        self.say(f"proving {len(self.below)} crates, and building the {self.what}, on {self.count} processors")
        workplace.begin()
        try:
            while self.left or self.running:
                self.begin_crates()
                self.show()
                readable = select.select([run.process.stdout for run in self.running], [], [], 1)[0]
                for run in [run for run in self.running if run.process.stdout in readable]:
                    if run.is_ended():
                        self.end(run)
        finally:
            for run in self.running:
                run.stop()
            workplace.end()
        self.say(f"proved, and built for {self.cpu}, in {clock(time.time() - self.begin)}")


def keep(made_of, cpu):
    """Puts the program into build/."""
    part = f"{FOLDER}/{PROGRAM}.part"
    shutil.copy(f"{TOP}/crates/{PROGRAM}/out/{PROGRAM}", part)
    sources.keep(PROGRAM, part, made_of, cpu)


def take(made_of):
    """Puts the program that the gate built into build/, where none is there of these sources. It is for x86-64-v2."""
    if not sources.is_current(PROGRAM) and sources.total() == made_of:
        os.makedirs(FOLDER, exist_ok=True)
        keep(made_of, sources.OLDER)
        print("dspfx: the program that the gate has proved is build/dspfx", file=sys.stderr)
    return 0


def stop(*_):
    raise KeyboardInterrupt


def build(top):
    """The exit status."""
    if not shutil.which("rt"):
        print("dspfx: not built: rt, the command of the Rattle toolchain, is not on the PATH", file=sys.stderr)
        return 70
    os.makedirs(FOLDER, exist_ok=True)
    for it in (signal.SIGTERM, signal.SIGHUP):
        signal.signal(it, stop)
    with open(f"{FOLDER}/lock", "w") as lock:
        try:
            fcntl.flock(lock, fcntl.LOCK_EX | fcntl.LOCK_NB)
        except BlockingIOError:
            print("dspfx: another call is building; waiting for it", file=sys.stderr)
            fcntl.flock(lock, fcntl.LOCK_EX)
        if top == LIBRARY:
            Build(top, sources.OLDER).run()
            return 0
        made_of, cpu = sources.total(), processor()
        if sources.is_current(PROGRAM) and sources.built_for(PROGRAM) == cpu:
            os.utime(f"{FOLDER}/{PROGRAM}")
            print(f"dspfx: the proved program is built, for {cpu}", file=sys.stderr)
            return 0
        Build(top, cpu).run()
        if sources.total() != made_of:
            print("dspfx: sources changed meanwhile: `./dspfx prove` proves what did", file=sys.stderr)
            return 70
        keep(made_of, cpu)
    return 0


def told(words):
    """Prints what an option asks for."""
    if words == ["--time"]:
        below, count = crates_needed(), processors()
        print(f"about {expected(below, minutes_of_crates(below) | dict.fromkeys(kept_crates(below), PASSED), count):.0f} minutes on {count} processors")
    elif words == ["--sum"]:
        print(sources.total())
    else:
        print(__doc__.strip())
    return 0


def main(words):
    if len(words) == 2 and words[0] == "--take":
        return take(words[1])
    if words not in ([], ["--library"], ["--time"], ["--sum"], ["-h"], ["--help"]):
        print(f"build: {' '.join(words)}: there is no such option", file=sys.stderr)
        return 70
    try:
        return told(words) if words not in ([], ["--library"]) else build(LIBRARY if words else PROGRAM)
    except KeyboardInterrupt:
        print("\ndspfx: stopped; the next call goes on where this one did", file=sys.stderr)
        return 130
    except Wrong as wrong:
        print(f"dspfx: {wrong}", file=sys.stderr)
        return 70
    except Failed as failed:
        with open(f"{FOLDER}/log", errors="replace") as log:
            lines = [line for line in log.read().splitlines() if not line.startswith(("statements ", "logic "))]
        print(*lines[-20:], sep="\n", file=sys.stderr)
        print(f"dspfx: not built: {failed} is not proved; all that rt said is in {FOLDER}/log", file=sys.stderr)
        return 70


if __name__ == "__main__":
    sys.exit(main(sys.argv[1:]))
