#!/usr/bin/env bash
# Measures `check`: its memory at the limit of 16,777,216 samples (fir of 16 taps, q15), which is to stay below 512 MiB,
# and the time of 1,000,000 frames through fir of 32 taps, which is to be at most 100 times that of the run. It ends with
# 1 where one of them is not kept. It is no part of the gate. DSPFX names another built program.
set -u
. "$(dirname "$(readlink -f "${BASH_SOURCE[0]}")")/built.sh"
PROGRAM=$program FOLDER=$folder python3 - <<'PYTHON'
import os
import random
import sys
import time

PROGRAM, FOLDER = os.environ["PROGRAM"], os.environ["FOLDER"]
LIMIT, FRAMES = 16777216, 1000000
rng = random.Random(1)
fir = lambda taps: "fir {%s}" % " ".join(str(rng.randint(-2000, 2000)) for _ in range(taps))


def ran(*words):
    """The status of a command, its processor time, and the most memory that it had, in MiB."""
    process = os.posix_spawn(PROGRAM, [PROGRAM, *words], os.environ, file_actions=[
        (os.POSIX_SPAWN_OPEN, 1, f"{FOLDER}/report", os.O_WRONLY | os.O_CREAT | os.O_TRUNC, 0o600)])  # fmt: skip
    _, status, usage = os.wait4(process, 0)
    return os.waitstatus_to_exitcode(status), usage.ru_utime + usage.ru_stime, usage.ru_maxrss / 1024


def measured(name, frames, text, rounds):
    """The least time of a run and of a check of its output, and the memory of the check."""
    script, source, output = (f"{FOLDER}/{it}" for it in ("script", "in.raw", "out.raw"))
    with open(script, "w") as file:
        file.write(f"dspfx 1 input raw q15 1 8000 {text} output raw")
    with open(source, "wb") as file:
        file.write(rng.randbytes(2 * frames))
    runs = [ran("run", script, source, output) for _ in range(rounds)]
    checks = [ran("check", script, source, output) for _ in range(rounds)]
    assert {it[0] for it in runs + checks} == {0}, (runs, checks)
    of_run, of_check, memory = min(it[1] for it in runs), min(it[1] for it in checks), max(it[2] for it in checks)
    print(f"{name}: run {of_run:.3f} s, check {of_check:.3f} s, {of_check / of_run:.1f} times, {memory:.0f} MiB", flush=True)
    return of_check / of_run, memory


began = time.time()
ratio, _ = measured(f"{FRAMES} frames through fir of 32 taps", FRAMES, fir(32), 3)
_, memory = measured(f"{LIMIT} frames through fir of 16 taps", LIMIT, fir(16), 1)
print(f"in {time.time() - began:.0f} s")
sys.exit(0 if ratio <= 100 and memory < 512 else 1)
PYTHON
