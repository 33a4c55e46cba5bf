#!/usr/bin/env python3
"""Runs an example of examples/library, and compares what it prints with what is worked out here.

    tools/library/examples.py fir PROGRAM | biquad PROGRAM STATE | device PROGRAM
"""
import os
import subprocess
import sys

TOP = os.path.dirname(os.path.dirname(os.path.dirname(os.path.abspath(__file__))))


def printed(*words):
    ran = subprocess.run(words, cwd=TOP, stdout=subprocess.PIPE, text=True)
    return ran.returncode, ran.stdout


def fir(program):
    x = [1000, -1000, 400, 32767, 32767, 32767]
    b = [8192, 16384, 8192]
    y = [sum(b[k] * x[n - k] for k in range(3) if n >= k) >> 15 for n in range(6)]
    assert all(-32768 <= it <= 32767 for it in y)
    assert printed(program) == (0, "".join(f"{it}\n" for it in y))


def sections(x, shift, rows):
    """A cascade in Q31: each section's sum is shifted down, and wraps."""
    for b0, b1, b2, a1, a2 in rows:
        x1 = x2 = y1 = y2 = 0
        given = []
        for it in x:
            total = (b0 * it + b1 * x1 + b2 * x2 + a1 * y1 + a2 * y2 + 2**63) % 2**64 - 2**63
            y = ((total >> (31 - shift)) + 2**31) % 2**32 - 2**31
            x1, x2, y1, y2 = it, x1, y, y1
            given.append(y)
        x = given
    return x


def biquad(program, state):
    if os.path.exists(state):
        os.remove(state)
    rows = [(268435456, 536870912, 268435456, 536870912, -268435456), (1073741824, 0, 0, 268435456, 0)]
    wanted = sections([1 << 30, 0, 0, -(1 << 29)] * 3, 1, rows)
    found = [printed(program, state) for _ in range(3)]
    assert found == [(0, "".join(f"{it}\n" for it in wanted[place : place + 4])) for place in (0, 4, 8)]
    with open(state, "r+b") as file:
        file.write((7).to_bytes(8, "little") + (9).to_bytes(8, "little"))
    assert printed(program, state)[0] == 1


def device(program):
    folder = f"{TOP}/examples/designed"
    words = [program, f"{folder}/script.txt", f"{folder}/in.raw"]
    assert printed(*words, f"{folder}/expected.raw") == (0, "same: 500 samples\n")
    with open(f"{folder}/expected.raw", "rb") as file:
        data = bytearray(file.read())
    wanted = int.from_bytes(data[200:202], "little", signed=True)
    data[201] ^= 1
    found = int.from_bytes(data[200:202], "little", signed=True)
    dump = f"{os.path.dirname(program)}/dump.raw"
    for content, text in ((data, f"sample 100: wanted {wanted}, found {found}\n"), (data[:200], "wanted 500 samples, found 100\n")):
        with open(dump, "wb") as file:
            file.write(content)
        assert printed(*words, dump) == (1, text)
    assert printed(*words[:2], f"{folder}/none", dump)[0] == 2
    assert printed(program, f"{folder}/in.raw", f"{folder}/in.raw", dump) == (2, printed_by_program())


def printed_by_program():
    return "dspfx: script: BadByte at 0\n"


if __name__ == "__main__":
    {"fir": fir, "biquad": biquad, "device": device}[sys.argv[1]](*sys.argv[2:])
