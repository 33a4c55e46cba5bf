#!/usr/bin/env python3
"""What ./dspfx answers itself: test, help, --help and --version. (`prove` is tools/build.py.)"""
import functools
import math
import os
import re
import shutil
import subprocess
import sys
import tempfile
import time
from concurrent.futures import ThreadPoolExecutor, as_completed

import sources

TOP = sources.TOP


def say(text):
    print(f"dspfx: {text}", file=sys.stderr, flush=True)


def show_help():
    with open(f"{TOP}/tools/help.txt") as file:
        print(file.read(), end="")
    return 0


def show_version():
    with open(f"{TOP}/VERSION") as file:
        version = file.read().strip()
    if os.environ.get("DSPFX_PROGRAM"):
        kind = "DSPFX_PROGRAM names the program"
    elif sources.is_current("dspfx"):
        kind = "proved"
    elif os.path.exists(f"{TOP}/build/dspfx"):
        kind = "not proved: the sources have changed since, and `./dspfx prove` proves what did"
    else:
        kind = "not proved: `./dspfx prove` proves and builds the program"
    print(f"dspfx {version} ({kind})")
    return 0


def tried(crate, *words, given=b""):
    """Runs the tests of a crate, or its program over an input, without proofs: whether it ended well, and what it said."""
    with tempfile.TemporaryFile() as file:
        file.write(given)
        file.seek(0)
        ran = subprocess.run(["rt", "try", *words, "--seconds", "600"], cwd=f"{TOP}/crates/{crate}",
                             stdin=file, stdout=subprocess.PIPE, stderr=subprocess.PIPE, text=True)  # fmt: skip
    return ran.returncode == 0, ran.stdout, ran.stderr


def tests(crate):
    """Whether the tests of a crate pass, what they said, and what is to be known of them."""
    is_well, said, fault = tried(crate, "--test")
    return is_well, said + fault, ""


def is_long(case):
    """Whether a run correlates a block of more than 1,000,000 samples: without proofs, that takes minutes."""
    words, script, _, status = case.split("|")[:4]
    if words.startswith("check"):
        return False
    script = script[1:] if script.startswith("=") else bytes.fromhex(script).decode(errors="replace")
    frames = [int(it) for it in re.findall(r"\bblock (\d+)", words)] or [256]
    samples = max(frames) * math.prod(int(it) for it in re.findall(r"\binterpolate (\d+)", script))
    return status in ("0", "5") and "correlate" in script and samples > 1_000_000


def count_of(lines):
    """How many commands these cases have."""
    return sum(len(line.split("|")[0].split(",")) for line in lines)


def has_output(case):
    """Whether a case is a run that is done, whose output is then checked."""
    words, _, _, status = case.split("|")[:4]
    return status == "0" and any(word.startswith("run ") for word in words.split(","))


def cases():
    """Runs the cases of dsp_replay that are not long, as `tests` does."""
    with open(f"{TOP}/crates/dsp_replay/stdin") as file:
        lines = [line for line in file if not line.startswith("#")]
    taken = [line for line in lines if not is_long(line)]
    count, left_out = count_of(taken), count_of(lines) - count_of(taken)
    found = sum(map(has_output, taken))
    is_well, said, fault = tried("dsp_replay", given="".join(taken).encode())
    is_well = is_well and said == f"{count} cases agree\n{found} outputs are found by a check, and a changed byte in each\n"
    return is_well, said + fault, f"{count} of {count + left_out} cases; {left_out} that takes minutes is left to `.ci/run`"


def has_tests(crate):
    """Whether a crate has test functions."""
    for folder, _, names in os.walk(f"{TOP}/crates/{crate}/src"):
        for name in names:
            with open(f"{folder}/{name}", errors="replace") as file:
                if "#[test]" in file.read():
                    return True
    return False


def test():
    """Runs the tests of all crates, and the cases, without proofs, side by side. 1 where one fails."""
    if not shutil.which("rt"):
        say("rt, the command of the Rattle toolchain, is not on the PATH")
        return 70
    tasks = {"cases of dsp_replay": cases}
    for crate in sorted(filter(has_tests, os.listdir(f"{TOP}/crates"))):
        tasks[f"tests of {crate}"] = functools.partial(tests, crate)
    begin, failed = time.monotonic(), 0
    say(f"{', '.join(tasks)}, without proofs")
    with ThreadPoolExecutor(len(os.sched_getaffinity(0))) as pool:
        running = {pool.submit(task): name for name, task in tasks.items()}
        for ended in as_completed(running):
            is_well, said, note = ended.result()
            result = ("passed" if is_well else "FAILED") + (f" ({note})" if note else "")
            say(f"{running[ended]}: {result}, {time.monotonic() - begin:.0f} s so far")
            if not is_well:
                failed += 1
                print(said, file=sys.stderr)
    say("nothing is proved of this; `.ci/run` proves all" if not failed else f"{failed} of {len(tasks)} failed")
    return 1 if failed else 0


def main(word, *others):
    if others:
        say(f"{word} takes no further words")
        return 1
    return {"test": test, "--version": show_version}.get(word, show_help)()


if __name__ == "__main__":
    try:
        status = main(*sys.argv[1:])
        sys.stdout.flush()
        sys.exit(status)
    except KeyboardInterrupt:
        sys.exit(130)
    except OSError as error:
        # (what is left to write would be tried once more at the end)
        sys.stdout = None
        say(f"{error.filename or 'standard output'}: {error.strerror.lower()}")
        sys.exit(70 if error.filename else 9)
