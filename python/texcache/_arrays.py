"""Numbers from a caller as C reads them, and values as a caller gets them: numpy arrays, or lists without numpy."""
from __future__ import annotations

from array import array
from math import prod
from typing import Any, List, Sequence, Tuple

from ._structs import FLOAT, HALF, UINT16

try:
    import numpy as numpy
except ImportError:
    numpy = None  # type: ignore[assignment]

Shape = Tuple[int, ...]


# ---- numbers

def _doubles(name: str, numbers: Any) -> Any:
    """An array of doubles side by side, which is the caller's if that is one."""
    try:
        found = numpy.asarray(numbers)
        if found.size == 0 and found.dtype.kind == "O":
            raise ValueError
    except ValueError:
        raise TypeError(f"{name} has to be numbers: its rows have different lengths") from None
    if found.dtype.kind not in "fiu":
        raise TypeError(f"{name} is an array of {found.dtype}, and has to be one of floats or whole numbers")
    # this makes an array with one axis of a number
    return numpy.ascontiguousarray(found, dtype=numpy.float64).reshape(found.shape)


class Columns:
    """The coordinates of many lookups: where each array of doubles lies, and the shape that all have."""

    def __init__(self, names: Sequence[str], numbers: Sequence[Any]) -> None:
        if numpy:
            self.kept: List[Any] = [_doubles(*it) for it in zip(names, numbers)]
            self.shape: Shape = self._common(names)
            self.places = [it.ctypes.data for it in self.kept]
        else:
            self.kept = [self._listed(*it) for it in zip(names, numbers)]
            self.shape = (len(self.kept[0]),)
            if any(len(it) != len(self.kept[0]) for it in self.kept):
                raise ValueError(f"lists of different lengths: {self._sizes(names)}")
            self.places = [it.buffer_info()[0] for it in self.kept]
        self.count = prod(self.shape)

    @staticmethod
    def _listed(name: str, numbers: Any) -> Any:
        if isinstance(numbers, array) and numbers.typecode == "d":
            return numbers
        try:
            return array("d", numbers)
        except TypeError:
            raise TypeError(f"{name} has to be a list of numbers; without numpy all of them are lists") from None

    def _sizes(self, names: Sequence[str]) -> str:
        return ", ".join(f"{name} {it.shape if numpy else len(it)}" for name, it in zip(names, self.kept))

    def _common(self, names: Sequence[str]) -> Shape:
        """The shape of all; what has another one is repeated, if numpy can."""
        shape: Shape = self.kept[0].shape
        if any(it.shape != shape for it in self.kept):
            try:
                shape = numpy.broadcast_shapes(*(it.shape for it in self.kept))
            except ValueError:
                raise ValueError(f"arrays of different shapes: {self._sizes(names)}") from None
            self.kept = [it if it.shape == shape else numpy.ascontiguousarray(numpy.broadcast_to(it, shape))
                         for it in self.kept]
        return shape


# ---- values

# the type of an array's elements, by C's number, and that of Python's own arrays
TYPES = {UINT16: ("uint16", "H"), FLOAT: ("float32", "f"), HALF: ("float16", "")}


def _kind_of(out: Any, shape: Shape, kinds: Sequence[int]) -> int:
    """The type of values that the array of a caller takes, if it has room for these."""
    names = [TYPES[it][0] for it in kinds]
    if numpy is None:
        raise TypeError("out is for numpy arrays, and numpy is not installed")
    if not isinstance(out, numpy.ndarray):
        raise TypeError(f"out is a {type(out).__name__}, and has to be a numpy array")
    if out.dtype.name not in names:
        raise TypeError(f"out is an array of {out.dtype}, and has to be one of {' or '.join(names)}")
    if out.shape != shape:
        raise ValueError(f"out has the shape {out.shape}, and has to have {shape}")
    if not out.flags.writeable:
        raise ValueError("out cannot be written to")
    return kinds[names.index(out.dtype.name)]


class Values:
    """Room for the values of a call, and what the caller gets of them: C writes into `out` itself if it can."""

    def __init__(self, shape: Shape, out: Any = None, kinds: Sequence[int] = (UINT16,)) -> None:
        self.shape, self.out, self.room = shape, out, prod(shape)
        self.kind = kinds[0] if out is None else _kind_of(out, shape, kinds)
        name, code = TYPES[self.kind]
        if numpy is None:
            self.kept: Any = array(code, bytes(array(code).itemsize * self.room))
        elif out is not None and out.flags.c_contiguous and out.dtype.isnative:
            self.kept = out
        else:
            self.kept = numpy.empty(shape, dtype=name)

    @property
    def place(self) -> int:
        """Where C writes."""
        return int(self.kept.ctypes.data if numpy else self.kept.buffer_info()[0])

    def all(self) -> Any:
        """The values: `out` if there is one; an array; without numpy a list of lists."""
        if numpy is None:
            return self._rows(self.room)
        if self.out is None or self.kept is self.out:
            return self.kept
        self.out[...] = self.kept
        return self.out

    def first(self, count: int) -> Any:
        """The values of the first `count` lookups, a row each."""
        if numpy is None:
            return self._rows(count * self.shape[-1])
        return self.kept.reshape(-1, self.shape[-1])[:count]

    def _rows(self, count: int) -> List[List[Any]]:
        channels, values = self.shape[-1], self.kept.tolist()
        return [values[at:at + channels] for at in range(0, count, channels)]

    def flat(self) -> Any:
        """The values of a region or a tile: an array, or without numpy one list."""
        return self.kept.tolist() if numpy is None else self.all()
