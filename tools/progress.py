#!/usr/bin/env python3
"""Shows one live line while a run of dspfx goes on, on a terminal: tools/progress.py PROCESS INPUT.

After two seconds standard error shows how much of the input is read, by the process's own place in the file, how
many bytes a second that is, and the time that is left. It ends with the process, and leaves an empty line.
"""
import os
import shutil
import sys
import time

WAIT = 2.0  # seconds before anything is shown
LAST = 1.0  # seconds before the end, when the line is cleared for the report
EVERY = 0.1


def is_running(process):
    try:
        with open(f"/proc/{process}/stat") as file:
            return file.read().rpartition(")")[2].split()[0] not in "ZX"
    except OSError:
        return False


def place_in(process, path):
    """How many bytes of the input the process has read, or None where it has not opened it."""
    try:
        for number in os.listdir(f"/proc/{process}/fd"):
            if os.path.samefile(f"/proc/{process}/fd/{number}", path):
                with open(f"/proc/{process}/fdinfo/{number}") as file:
                    return int(file.readline().split()[1])
    except (OSError, ValueError):
        pass
    return None


def show(text):
    width = shutil.get_terminal_size().columns - 1
    print(f"\r\033[K{text[:width]}", end="", file=sys.stderr, flush=True)


def line(place, size, seconds):
    """The line at this place, or none where the end is near."""
    rate = place / seconds
    left = (size - place) / rate
    if left < LAST:
        return ""
    return f"dspfx: {100 * place / size:.0f} % of the input, {rate / 1e6:.1f} MB a second, {int(left) // 60}:{int(left) % 60:02} left"


def main(process, path):
    begin, shown = time.monotonic(), ""
    size = os.path.getsize(path) if os.path.isfile(path) else 0
    while is_running(process):
        time.sleep(EVERY)
        passed = time.monotonic() - begin
        place = place_in(process, path) if size and passed >= WAIT else None
        text = line(min(place, size), size, passed) if place else ""
        if text != shown:
            show(text)
        shown = text
    if shown:
        show("")


if __name__ == "__main__":
    try:
        main(*sys.argv[1:])
    except (KeyboardInterrupt, OSError):
        pass
