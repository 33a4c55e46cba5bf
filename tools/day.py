"""What the tests of the tools share: a case with a folder of its own, commands as a user gives them, and files that are
made by formulas of their own. DSPFX_PROGRAM names another program for ./dspfx.

Its `main` runs the classes of a file that are named, or all, and ends with a line `N passed, M failed`.
"""
import os
import re
import shutil
import struct
import subprocess
import sys
import tempfile
import unittest

TOP = os.path.dirname(os.path.dirname(os.path.abspath(__file__)))
DSPFX = f"{TOP}/dspfx"
COPY = "dspfx 1 input raw q15 1 8000 output raw"


class Ran:
    """What a command wrote, and its status."""

    def __init__(self, folder, words, data=None):
        ran = subprocess.run(words, cwd=folder, input=data, stdin=None if data is not None else subprocess.DEVNULL,
                             stdout=subprocess.PIPE, stderr=subprocess.PIPE)  # fmt: skip
        self.status = ran.returncode
        self.out, self.err = (it.decode(errors="replace") for it in (ran.stdout, ran.stderr))


class Case(unittest.TestCase):
    """A case has a folder of its own."""

    def setUp(self):
        self.folder = tempfile.mkdtemp()
        self.addCleanup(shutil.rmtree, self.folder)

    def path(self, name):
        return f"{self.folder}/{name}"

    def write(self, name, content):
        with open(self.path(name), "wb") as file:
            file.write(content.encode() if isinstance(content, str) else content)
        return name

    def content(self, name):
        with open(self.path(name), "rb") as file:
            return file.read()

    def dspfx(self, *words):
        return Ran(self.folder, [DSPFX, *words])

    def tool(self, name, *words):
        return Ran(self.folder, [sys.executable, f"{TOP}/tools/{name}.py", *words])

    def ends(self, ran, status, *texts):
        """The status, and texts on either stream."""
        self.assertEqual(ran.status, status, ran.out + ran.err)
        for text in texts:
            self.assertIn(text, ran.out + ran.err)


def program_alone():
    """The program that ./dspfx runs."""
    is_proved = subprocess.run([f"{TOP}/tools/sources.py", "dspfx"]).returncode == 0
    return os.environ.get("DSPFX_PROGRAM", f"{TOP}/build/{'dspfx' if is_proved else 'unproved'}")


def words16(*values):
    return struct.pack(f"<{len(values)}h", *values)


def wave_file(bits, channels, values, rate=8000, is_extensible=False):
    """A WAVE file, by formulas of its own: values are whole numbers of so many bits."""
    width = bits // 8
    data = b"".join((value + 128 if bits == 8 else value).to_bytes(width, "little", signed=bits > 8) for value in values)
    tail = struct.pack("<HHI", 22, bits, 0) + bytes.fromhex("0100000000001000800000aa00389b71") if is_extensible else b""
    form = struct.pack("<HHIIHH", 0xFFFE if is_extensible else 1, channels, rate, rate * channels * width, channels * width, bits)
    body = b"WAVEfmt " + struct.pack("<I", len(form + tail)) + form + tail + b"data" + struct.pack("<I", len(data)) + data
    return b"RIFF" + struct.pack("<I", len(body)) + body + b"\0" * (len(data) % 2)


def au_file(bits, channels, values, rate=8000, size=None):
    data = b"".join(value.to_bytes(bits // 8, "big", signed=True) for value in values)
    return b".snd" + struct.pack(">5I", 24, len(data) if size is None else size, {8: 2, 16: 3, 24: 4, 32: 5}[bits], rate, channels) + data


def npy_file(kind, code, shape, values):
    head = f"{{'descr': '{kind}', 'fortran_order': False, 'shape': {shape}, }}".ljust(117) + "\n"
    return b"\x93NUMPY\1\0" + struct.pack("<H", len(head)) + head.encode() + struct.pack(f"<{len(values)}{code}", *values)


def main():
    program = unittest.main(verbosity=0, exit=False)
    counts = program.result
    # (a test with several cases counts once)
    bad = len({re.sub(r" [\[(].*", "", str(case)) if "[" in str(case) else str(case) for case, _ in counts.failures + counts.errors})
    print(f"{counts.testsRun - len(counts.skipped) - bad} passed, {bad} failed")
    for case, why in {str(why): (case, why) for case, why in counts.skipped}.values():
        print(f"skipped: {why}")
    sys.exit(bad > 0)
