"""Samples as arrays: of numpy where it is installed, else of the module `array`."""

import array
import collections.abc
import ctypes
from typing import Any, Sequence, Union

try:
    import numpy
except ImportError:
    numpy = None  # type: ignore[assignment]

Samples = Union[Sequence[int], Sequence[Sequence[int]], memoryview, Any]  # or an array of numpy
Array = Any  # an array of numpy, or array.array
BITS = {"q7": 7, "q15": 15, "q31": 31}
CODES = {7: "b", 15: "h", 31: "i"}
NAMES = {7: "int8", 15: "int16", 31: "int32"}
BOOLS = {bool} if numpy is None else {bool, numpy.bool_}
NOWHERE = ctypes.create_string_buffer(16)  # the address of an array of nothing


def bytes_are_cast(samples, bits):
    """Refuses bytes, of which nobody can say whether they are words or numbers."""
    if isinstance(samples, (bytes, bytearray)) or (isinstance(samples, memoryview) and samples.format in "Bc"):
        raise TypeError(f"bytes are cast to words first: memoryview(data).cast({CODES[bits]!r})")


def test_order(samples):
    """Refuses what gives no samples in an order, or samples without a value: sets, mappings, texts, bools, masked ones."""
    if type(samples) is array.array or (numpy is not None and type(samples) is numpy.ndarray):
        return
    if isinstance(samples, (collections.abc.Set, collections.abc.Mapping, str)):
        raise TypeError(f"samples come in an order, as in a list, and not as {type(samples).__name__}")
    if isinstance(samples, (list, tuple)):
        rows = samples if samples and isinstance(samples[0], (list, tuple)) else [samples]
        for row in rows:
            if isinstance(row, (list, tuple)) and not BOOLS.isdisjoint(map(type, row)):
                raise no_whole_numbers("bool")
            if isinstance(row, (collections.abc.Set, collections.abc.Mapping)):
                raise TypeError(f"a frame comes in an order, as in a list, and not as {type(row).__name__}")
    if numpy is not None and isinstance(samples, numpy.ma.MaskedArray) and numpy.ma.is_masked(samples):
        raise ValueError("a masked sample has no value: filled() gives it one")


def out_of_range(bits):
    return OverflowError(f"a sample outside {-(1 << bits)} to {(1 << bits) - 1}")


def no_whole_numbers(kind):
    return TypeError(f"samples are whole numbers, and not {kind}: tozbirem.quantize makes them of fractions")


def words(samples, bits, channels=1):
    """The samples as one run of words of the format, frame by frame."""
    bytes_are_cast(samples, bits)
    test_order(samples)
    return _numpy_words(samples, bits, channels) if numpy is not None else _plain_words(samples, bits, channels)


def _numpy_words(samples, bits, channels):
    found = numpy.asarray(samples)
    if found.ndim > 2 or found.ndim == 0 or (found.ndim == 2 and found.shape[1] != channels):
        raise ValueError(f"samples of the shape {found.shape}, where frames of {channels} channels are needed")
    kind = numpy.dtype(NAMES[bits])
    if found.dtype != kind:
        if found.size and found.dtype.kind not in "iu":
            found = _whole_numbers(samples, found, bits)
        if found.size and (found.min() < -(1 << bits) or found.max() > (1 << bits) - 1):
            raise out_of_range(bits)
        found = found.astype(kind)
    return numpy.ascontiguousarray(found).reshape(-1)


def _whole_numbers(samples, found, bits):
    """Whole numbers that are in an array of objects, or that numpy has no type of whole numbers for, as int64."""
    if found.dtype.kind != "O" and (found.dtype.kind != "f" or hasattr(samples, "dtype")):
        raise no_whole_numbers(found.dtype)
    objects = numpy.asarray(samples, object)
    for it in objects.reshape(-1).tolist():
        if isinstance(it, bool) or not hasattr(it, "__index__"):
            raise no_whole_numbers(type(it).__name__)
        if not -(1 << bits) <= it < 1 << bits:
            raise out_of_range(bits)
    return objects.astype("int64")


def _plain_words(samples, bits, channels):
    if isinstance(samples, memoryview):
        if samples.ndim == 2 and samples.shape[1] != channels:
            raise ValueError(f"frames of {samples.shape[1]} channels, where {channels} are needed")
        if samples.format == "?":
            raise no_whole_numbers("bool")
        if samples.format == CODES[bits]:
            found = array.array(CODES[bits])
            found.frombytes(samples.tobytes())
            return found
        samples = samples.tolist()
    if isinstance(samples, array.array) and samples.typecode == CODES[bits]:
        return samples
    samples = list(samples)
    if samples and hasattr(samples[0], "__len__"):
        if any(not hasattr(frame, "__len__") or len(frame) != channels for frame in samples):
            raise ValueError(f"frames of {channels} channels are needed")
        samples = [it for frame in samples for it in frame]
    try:
        return array.array(CODES[bits], samples)
    except OverflowError:
        raise out_of_range(bits) from None
    except TypeError:
        odd = next((it for it in samples if not hasattr(it, "__index__")), None)
        raise no_whole_numbers(type(odd).__name__) from None


def empty(count, bits):
    """Room for that many words."""
    return numpy.empty(count, NAMES[bits]) if numpy is not None else array.array(CODES[bits], bytes(count * (bits + 1) // 8))


def address(found):
    """Where the first byte of an array is."""
    is_numpy = numpy is not None and isinstance(found, numpy.ndarray)
    place = found.__array_interface__["data"][0] if is_numpy else found.buffer_info()[0]
    return place or ctypes.addressof(NOWHERE)


def size(found):
    """How many bytes an array has."""
    return len(found) * found.itemsize


def shaped(found, channels):
    """A row for each frame where there are several channels; without numpy, one frame after another."""
    return found.reshape(-1, channels) if numpy is not None and channels > 1 else found


def flat(found):
    """The samples one after another."""
    return found.reshape(-1) if numpy is not None else found


def joined(pieces):
    """Arrays one after another."""
    if numpy is not None:
        return numpy.concatenate(pieces)
    found = array.array(pieces[0].typecode)
    for piece in pieces:
        found.extend(piece)
    return found


def woven(parts, bits):
    """Signals side by side, frame by frame: pairs of an array and its number of channels."""
    counts = {len(part) / channels for part, channels in parts}
    if len(counts) != 1 or any(len(part) % channels for part, channels in parts):
        raise ValueError("signals of equal lengths are needed, a complex one with two samples a number")
    if len(parts) == 1:
        return parts[0][0]
    if numpy is not None:
        return numpy.concatenate([part.reshape(-1, channels) for part, channels in parts], axis=1).reshape(-1)
    found = array.array(CODES[bits])
    for frame in range(int(counts.pop())):
        for part, channels in parts:
            found.extend(part[frame * channels : (frame + 1) * channels])
    return found


def column(found, channel, channels):
    """One channel of several."""
    flat = found.reshape(-1) if numpy is not None else found
    part = flat[channel::channels]
    return numpy.ascontiguousarray(part) if numpy is not None else part


def matrix(rows, bits):
    """A matrix as words row by row, and how many rows and columns it has."""
    if numpy is not None:
        test_order(rows)
        found = numpy.asarray(rows)
        if found.ndim != 2:
            raise ValueError(f"an array of the shape {found.shape}, where a matrix is needed")
        return words(found.reshape(-1), bits), found.shape
    test_order(rows)
    if isinstance(rows, memoryview):
        rows = rows.tolist()
    rows = [list(row) for row in rows]
    if len({len(row) for row in rows}) > 1:
        raise ValueError("the rows of a matrix are of equal lengths")
    return words([it for row in rows for it in row], bits), (len(rows), len(rows[0]) if rows else 0)


def as_matrix(found, columns):
    """Words row by row as a matrix: an array of numpy, or a list of arrays."""
    if numpy is not None:
        return found.reshape(-1, columns)
    return [found[place : place + columns] for place in range(0, len(found), columns)]
