"""Burst alignment and merge of raw frames, proved for every input: libstacker.so on buffers.

    import numpy, stacker
    frames = numpy.stack([...])                   # (N, H, W) of uint16, 0..4095, Bayer RGGB
    done = stacker.run(frames, noise=(3, 100))    # a sample x has the variance 3 x + 100
    numpy.asarray(done.merged)                    # (H, W) of uint16; nothing is copied
    numpy.asarray(done.vectors)                   # (N-1, H/16+1, W/16+1, 2) of int32: down, right; a step is two samples; with side=32, H/32+1, W/32+1

Whatever has Python's buffer protocol is taken: numpy arrays, array.array, bytearray, mmap. What comes back are memoryviews with a shape, which numpy
takes as they are; numpy itself is not needed. A call that is refused raises `Refused` with stacker.h's number, and changes nothing. Calls release the
interpreter's lock: threads may call at once.

The library is the file named by the environment's STACKER_LIBRARY, or libstacker.so.1 of the prefix that this package is installed under, or the system's.
Proved are the calls of the library; this package is not.
"""
from __future__ import annotations

import ctypes
import os
from typing import Any, List, NamedTuple, Optional, Sequence, Tuple, Union

from . import _calls
from ._calls import library

__all__ = ['Aligned', 'Burst', 'Frame', 'Merged', 'REFUSALS', 'Range', 'Refused', 'SIDE', 'STRENGTH', 'align', 'merge', 'merge_range', 'noise_number',
           'read_burst', 'read_dng', 'read_pgm', 'residuals', 'run', 'write_pgm']

STRENGTH = 600  # document 002's tau = 75, in eighths
SIDE = 16  # of tiles, in places of a plane; 32 is for very dark scenes
NUMBERS = range(1, 64)  # that a refusal may have
REFUSALS = {number: _calls.words(number) for number in NUMBERS if _calls.words(number) != _calls.words(0xffffffffffffffff)}

Buffer = Any  # whatever memoryview takes
Noise = Tuple[float, float]  # shot, read
Levels = Sequence[int]  # black levels of R, G, G and B


class Refused(ValueError):
    """A call was refused, and nothing has changed. `number` is stacker.h's; `tag` is the tag at fault of a DNG file, or 0."""

    def __init__(self, number: int, what: str = '', tag: int = 0) -> None:
        super().__init__('%srefused %d: %s%s' % (what + ': ' if what else '', number, _calls.words(number), '; it is tag %d' % tag if tag else ''))
        self.number, self.tag = number, tag


class Aligned(NamedTuple):
    vectors: memoryview  #: (N-1, H/side+1, W/side+1, 2) of int32
    residuals: List[int]  #: of each other frame, its sum of finest residuals
    rows: int  #: how many tile rows were summed in all


class Merged(NamedTuple):
    merged: memoryview  #: (H, W) of uint16
    vectors: memoryview
    residuals: List[int]
    rows: int
    reference: int  #: index of the frame that the others were merged on


class Range(NamedTuple):
    low: memoryview  #: (H, W) of uint16
    high: memoryview


class Frame(NamedTuple):
    samples: memoryview  #: (H, W) of uint16
    noise: Noise
    black: Tuple[int, int, int, int]


class Burst(NamedTuple):
    frames: memoryview  #: (N, H, W) of uint16
    reference: int
    noise: Noise
    strength: int


def _accepted(number: int, what: str, tag: int = 0) -> None:
    if number:
        raise Refused(number, what, tag)


def _made(code: str, *shape: int) -> memoryview:
    """A buffer of zeros with a shape."""
    words = 1
    for length in shape:
        words *= length
    flat = memoryview(bytearray(words * {'B': 1, 'H': 2, 'i': 4, 'q': 8, 'Q': 8}[code]))
    return flat.cast(code, shape) if words else flat.cast(code)  # type: ignore[call-overload]


def _lent(view: memoryview) -> Tuple[Any, int]:
    """A buffer as the library takes it, and its length in elements. A read-only one is copied: ctypes lends writable memory alone."""
    raw = ctypes.c_char * view.nbytes
    return (raw.from_buffer_copy(view) if view.readonly else raw.from_buffer(view)), view.nbytes // view.itemsize


def _words(buffer: Buffer, code: str, dimensions: int, what: str) -> memoryview:
    view = memoryview(buffer)
    if view.ndim != dimensions or view.format not in (code, '<' + code) or not view.c_contiguous:
        bits = {'H': 'unsigned 16', 'i': 'signed 32'}[code]
        raise TypeError('%s must be a contiguous buffer of %s-bit words in %d dimensions; numpy.ascontiguousarray makes one' % (what, bits, dimensions))
    return view


class _Lent:
    """Frames with the description and the buffers that go with them."""

    def __init__(self, frames: Buffer, width: Optional[int], black: Levels) -> None:
        self.view = _words(frames, 'H', 3, 'frames')
        self.count, self.height, self.row_length = self.view.shape  # type: ignore[misc]
        self.width = self.row_length if width is None else width
        self.black = black

    def burst(self, reference: int) -> _calls.Burst:
        return _calls.burst(self.width, self.height, self.count, reference, self.row_length, self.black)

    def frames(self) -> _calls.Frames:
        return _calls.frames(self.width, self.height, self.count, self.row_length, self.black)

    def vectors(self, side: int) -> memoryview:
        if side not in _calls.SIDES:
            return _made('i', 0)
        return _made('i', max(self.count - 1, 0), self.height // side + 1, self.width // side + 1, 2)

    def residuals(self, side: int) -> memoryview:
        if side not in _calls.SIDES:
            return _made('Q', 0)
        return _made('Q', max(self.count - 1, 0), self.height // side + 1, self.width // side + 1)

    def output(self) -> memoryview:
        return _made('H', self.height, self.width)

    def work(self) -> memoryview:
        return _made('q', 2 * self.width * self.height)

    def sums(self, answer: _calls.Alignment) -> List[int]:
        return list(answer.residuals)[:self.count - 1]


def align(frames: Buffer, reference: int = 0, *, side: int = SIDE, width: Optional[int] = None, black: Levels = (0, 0, 0, 0)) -> Aligned:
    """The vectors of each other frame. `frames` is (N, H, L) of uint16; where rows have spare words, `width` tells how many of L are samples."""
    lent = _Lent(frames, width, black)
    vectors = lent.vectors(side)
    answer = _calls.align(lent.burst(reference), _calls.tuning(0, side, 0), *_lent(lent.view), *_lent(vectors), *_lent(lent.work()))
    _accepted(answer.refusal, 'align')
    return Aligned(vectors, lent.sums(answer), answer.rows)


def residuals(frames: Buffer, vectors: Buffer, *, side: int = SIDE, reference: int = 0, width: Optional[int] = None) -> memoryview:
    """The finest residual of each tile at these vectors, (N-1, H/side+1, W/side+1) of uint64; at align's vectors a frame's add up to its sum."""
    lent, moves = _Lent(frames, width, (0, 0, 0, 0)), _words(vectors, 'i', memoryview(vectors).ndim, 'vectors')
    found = lent.residuals(side)
    number = _calls.residuals(lent.burst(reference), _calls.tuning(0, side, 0), *_lent(lent.view), *_lent(moves), *_lent(found), *_lent(lent.work()))
    _accepted(number, 'residuals')
    return found


def merge(frames: Buffer, vectors: Buffer, *, noise: Noise, iso: Optional[int] = None, strength: int = STRENGTH, side: int = SIDE, spatial: int = 0,
          reference: int = 0, width: Optional[int] = None, black: Levels = (0, 0, 0, 0)) -> memoryview:
    """The frame merged by these vectors, (H, W) of uint16; `side` is the one that they were found with."""
    lent, moves = _Lent(frames, width, black), _words(vectors, 'i', memoryview(vectors).ndim, 'vectors')
    output = lent.output()
    number = _calls.merge(lent.burst(reference), _calls.noise(noise, iso), _calls.tuning(strength, side, spatial), *_lent(lent.view), *_lent(moves),
                          *_lent(output), *_lent(lent.work()))
    _accepted(number, 'merge')
    return output


def merge_range(frames: Buffer, vectors: Buffer, *, lower: Noise, upper: Noise, iso: Optional[Tuple[int, int]] = None, strength: int = STRENGTH,
                reference: int = 0, width: Optional[int] = None, black: Levels = (0, 0, 0, 0)) -> Range:
    """Where the noise is known only between two curves: `merge` with any curve between `lower` and `upper` gives a frame that lies between low and high at each
    sample. With `iso` these are curves for ISO 100, each with its own number. Vectors are those of side 16."""
    lent, moves = _Lent(frames, width, black), _words(vectors, 'i', memoryview(vectors).ndim, 'vectors')
    low, high = lent.output(), lent.output()
    ends = [_calls.noise(curve, number) for curve, number in zip((lower, upper), iso or (None, None))]
    number = _calls.merge_range(lent.burst(reference), *ends, _calls.tuning(strength, SIDE, 0), *_lent(lent.view), *_lent(moves), *_lent(low),
                                *_lent(high), *_lent(lent.work()))
    _accepted(number, 'merge_range')
    return Range(low, high)


def run(frames: Buffer, *, noise: Noise, iso: Optional[int] = None, strength: int = STRENGTH, side: int = SIDE, spatial: int = 0,
        reference: Union[int, str] = 0, width: Optional[int] = None, black: Levels = (0, 0, 0, 0)) -> Merged:
    """Aligns and merges. `reference` is a frame's index, or 'sharpest': of the first three. With `iso` the noise is the curve for ISO 100."""
    lent = _Lent(frames, width, black)
    vectors, output = lent.vectors(side), lent.output()
    told = (_calls.noise(noise, iso), _calls.tuning(strength, side, spatial))
    buffers = (*_lent(lent.view), *_lent(vectors), *_lent(output), *_lent(lent.work()))
    if reference == 'sharpest':
        choice = _calls.run_sharpest(lent.frames(), *told, *buffers)
        answer, chosen = choice.alignment, choice.reference
    else:
        chosen = int(reference)
        answer = _calls.run(lent.burst(chosen), *told, *buffers)
    _accepted(answer.refusal, 'run')
    return Merged(output, vectors, lent.sums(answer), answer.rows, chosen)


def _content(path: Union[str, os.PathLike]) -> memoryview:
    with open(path, 'rb') as file:
        return memoryview(bytearray(file.read()))


def read_dng(path: Union[str, os.PathLike]) -> Frame:
    """The frame of a DNG file, its noise and its black levels."""
    data = _content(path)
    told = library.stacker_dng_size(*_lent(data))
    _accepted(told.refusal, os.fspath(path), told.tag)
    samples = _made('H', told.height, told.width)
    answer = library.stacker_read_dng(*_lent(data), _calls.frames(told.width, told.height, 1, told.width, (0, 0, 0, 0)), 0, *_lent(samples))
    _accepted(answer.refusal, os.fspath(path))
    return Frame(samples, (answer.shot, answer.read), tuple(answer.black))  # type: ignore[arg-type]


def read_pgm(path: Union[str, os.PathLike]) -> memoryview:
    """The frame of a PGM file as `write_pgm` writes it."""
    data = _content(path)
    told = library.stacker_pgm_size(*_lent(data))
    _accepted(told.refusal, os.fspath(path))
    samples = _made('H', told.height, told.width)
    _accepted(library.stacker_read_pgm(*_lent(data), *_lent(samples)).refusal, os.fspath(path))
    return samples


def read_burst(path: Union[str, os.PathLike]) -> Burst:
    """The frames of a burst file, and what it says of them."""
    data = _content(path)
    _accepted(library.station_check(*_lent(data)), os.fspath(path))
    size = library.stacker_file_size(*_lent(data))
    frames = _made('H', size.count, size.height, size.width)
    told = library.stacker_read_file(*_lent(data), *_lent(frames))
    _accepted(told.refusal, os.fspath(path))
    return Burst(frames, told.reference, (told.shot_level / 1024, told.read_level / 1024), told.strength)


def write_pgm(path: Union[str, os.PathLike], frame: Buffer) -> None:
    """Writes a frame, (H, W) of uint16, as a PGM file. A refused frame leaves the file as it was."""
    view = _words(frame, 'H', 2, 'frame')
    height, width = view.shape  # type: ignore[misc]
    data = _made('B', library.stacker_pgm_length(width, height))
    _accepted(library.stacker_write_pgm(width, height, *_lent(view), *_lent(data)), os.fspath(path))
    with open(path, 'wb') as file:
        file.write(data)


def noise_number(shot: float, read: float, root: int, strength: int = STRENGTH, side: int = SIDE) -> int:
    """V of a tile, in 1/256 of a squared sample, with side 32 in 1/16. `root` is the tile's RMS above black times the side."""
    return _calls.noise_number(shot, read, strength, root, side)
