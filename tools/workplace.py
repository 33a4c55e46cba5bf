"""A folder in which rt works on one crate beside other calls of rt.

While rt works on a crate, it keeps every other rt from that crate's folder and from those of all crates below it. The
lowest crates are below all others, so each crate is proved in a copy of the folders that it needs. A copy takes no room
and no time, since its files are links to those of the repository; what rt makes of the crate, in `out`, is moved there
and back.
"""
import contextlib
import fcntl
import os
import shutil

import sources

TOP = sources.TOP
FOLDER = f"{sources.FOLDER}/proving"
# What no proof reads of a crate's folder, its own or another's: what rt made, which is linked or moved, and the edits.
LEFT_OUT = {"out", "must-fail"}


def link(old, new):
    """Makes `new` the same file as `old`, or a copy where the file system has no links."""
    try:
        os.link(old, new)
    except OSError:
        shutil.copy2(old, new)


def link_tree(old, new, left_out=()):
    """Makes a folder with the same files as `old`."""
    shutil.copytree(old, new, copy_function=link, ignore=lambda folder, names: left_out if folder == old else ())


class Busy(Exception):
    """An rt works in this folder of the repository."""


def hold(crate):
    """Keeps every rt from a crate's folder in the repository, until what this returns is closed."""
    held = os.open(f"{TOP}/crates/{crate}", os.O_RDONLY)
    try:
        fcntl.flock(held, fcntl.LOCK_EX | fcntl.LOCK_NB)
    except BlockingIOError:
        os.close(held)
        raise Busy(f"{TOP}/crates/{crate}") from None
    except OSError:
        pass  # some file systems have no locks
    return held


class Workplace:
    """The folder of one crate, with all that rt needs to prove it. While it is there, no rt works on the crate in the
    repository."""

    def __init__(self, name, below):
        self.name = name
        with contextlib.ExitStack() as lower:
            for crate in below:
                lower.callback(os.close, hold(crate))
            self.held = hold(name)
            self.make(below)

    def make(self, below):
        name = self.name
        os.makedirs(f"{FOLDER}/{name}/crates")
        link(f"{TOP}/HANDLES", f"{FOLDER}/{name}/HANDLES")
        self.list_crates({*below, name})
        for crate in (*below, name):
            link_tree(f"{TOP}/crates/{crate}", f"{FOLDER}/{name}/crates/{crate}", LEFT_OUT)
        for crate in below:
            link_tree(f"{TOP}/crates/{crate}/out/rlib", f"{FOLDER}/{name}/crates/{crate}/out/rlib")
        move(f"{TOP}/crates/{name}/out", f"{self.crate()}/out")

    def list_crates(self, names):
        """Writes the lines of `crates.txt` that are of these crates."""
        with open(f"{TOP}/crates.txt") as file, open(f"{FOLDER}/{self.name}/crates.txt", "w") as part:
            part.writelines(line for line in file if line.partition(":")[0].split(" ")[0] in names)

    def crate(self):
        """The crate's folder."""
        return f"{FOLDER}/{self.name}/crates/{self.name}"

    def end(self):
        """Moves what rt has made to the repository."""
        take_back(self.name)
        os.close(self.held)


def move(old, new):
    """Moves a folder, where it is there, in the place of another."""
    if os.path.isdir(old):
        shutil.rmtree(new, ignore_errors=True)
        shutil.move(old, new)


def take_back(name):
    """Moves what rt has made of a crate to the repository, and takes its workplace away."""
    move(f"{FOLDER}/{name}/crates/{name}/out", f"{TOP}/crates/{name}/out")
    shutil.rmtree(f"{FOLDER}/{name}")


def begin():
    """Takes away what a call that was killed has left."""
    os.makedirs(FOLDER, exist_ok=True)
    for name in filter(lambda it: os.path.isdir(f"{FOLDER}/{it}"), os.listdir(FOLDER)):
        try:
            held = hold(name)
        except (Busy, FileNotFoundError):
            # An rt has begun the crate's `out` anew in the repository, or the crate is gone.
            shutil.rmtree(f"{FOLDER}/{name}")
            continue
        take_back(name)
        os.close(held)
    # (rt, called at the top, passes by the folders of this one)
    with open(f"{FOLDER}/MODULE.bazel", "w"):
        pass


def end():
    """Takes the folder of all workplaces away, which have ended."""
    shutil.rmtree(FOLDER)
