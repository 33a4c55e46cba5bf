"""The shared library: its calls as include/tozbirem.h declares them."""

import ctypes
import os
from ctypes import POINTER, c_int64, c_size_t, c_uint8, c_uint32, c_uint64, c_void_p

NAME = "libtozbirem.so"


class Answer(ctypes.Structure):
    _fields_ = [("given", c_uint64), ("kept", c_uint64), ("first", c_uint64), ("second", c_uint64),
                ("low", c_int64), ("high", c_int64), ("kind", c_uint32), ("unused", c_uint32)]  # fmt: skip


class Plan(ctypes.Structure):
    _fields_ = [("block", c_uint64), ("unit", c_uint64), ("frame_bytes", c_uint64), ("given_bytes", c_uint64),
                ("room", c_uint64), ("measures", c_uint64), ("frames_given", c_uint64), ("kept", c_uint64),
                ("cost_low", c_uint64), ("cost_high", c_uint64), ("format", c_uint32), ("channels", c_uint32), ("output_format", c_uint32),
                ("output_channels", c_uint32)]  # fmt: skip


class MeasureRow(ctypes.Structure):
    _fields_ = [("kind", c_uint32), ("number", c_uint32), ("channel", c_uint32), ("found", c_uint32),
                ("value", c_int64), ("other", c_int64)]  # fmt: skip


class Handle(ctypes.Structure):
    _fields_ = [("is_full", c_uint8), ("at", c_void_p)]


class Lengths(ctypes.Structure):
    _fields_ = [("output", c_uint64), ("report", c_uint64)]


READ = [c_void_p, c_size_t]  # memory and its length
WRITTEN = READ
CALLS = {
    "tozbirem_version": [],
    "tozbirem_plan": [*READ, c_uint64, c_uint64, POINTER(Plan), POINTER(Answer)],
    "tozbirem_feed": [*READ, c_uint64, c_uint64, *READ, *READ, *WRITTEN, *WRITTEN, POINTER(Answer)],
    "tozbirem_finish": [*READ, c_uint64, c_uint64, *READ, *WRITTEN, *WRITTEN, POINTER(Answer)],
    "tozbirem_hold": [*READ, c_uint64, c_uint64, *READ, POINTER(Handle), POINTER(Answer)],
    "tozbirem_push": [POINTER(Handle), *READ, *WRITTEN, POINTER(Answer)],
    "tozbirem_keep": [POINTER(Handle), *WRITTEN, POINTER(Answer)],
    "tozbirem_let_go": [POINTER(Handle)],
    "tozbirem_explain": [c_uint32, POINTER(Answer), *WRITTEN],
    "tozbirem_program": [*READ, *READ, *READ, *READ, *WRITTEN, *WRITTEN, POINTER(Lengths)],
}
RESULTS = {"tozbirem_explain": c_uint64}  # of the others a status


def places():
    """Where the library may be: what TOZBIREM_LIBRARY names, beside this file, or in the build folder of a checkout."""
    here = os.path.dirname(os.path.abspath(__file__))
    named = os.environ.get("TOZBIREM_LIBRARY")
    return [named] if named else [os.path.join(here, NAME), os.path.join(here, "..", "..", "build", "library", NAME)]


def load():
    for place in places():
        if os.path.exists(place):
            library = ctypes.CDLL(place)
            for name, arguments in CALLS.items():
                getattr(library, name).argtypes = arguments
                getattr(library, name).restype = RESULTS.get(name, c_uint32)
            return library
    raise ImportError(f"{NAME} is not in {' or '.join(places())}: `tools/library.sh python` builds it")


LIBRARY = load()


def explain(status: int, answer: Answer) -> str:
    """What a status means, with the numbers of the answer: a line of text."""
    line = ctypes.create_string_buffer(256)
    length = LIBRARY.tozbirem_explain(status, ctypes.byref(answer), line, len(line))
    return line.raw[:length].decode()
