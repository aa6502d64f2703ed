"""The structs and calls of stacker.h and station.h: the one place that knows their fields."""
from __future__ import annotations

import ctypes
import os
from typing import Any, Optional, Sequence, Tuple, Union

u16, u32, u64, f64, size = ctypes.c_uint16, ctypes.c_uint32, ctypes.c_uint64, ctypes.c_double, ctypes.c_size_t

SIDES = (16, 32)  # of tiles, in places of a plane


class Frames(ctypes.Structure):
    _fields_ = [('width', u64), ('height', u64), ('count', u64), ('row_length', u64), ('black', u16 * 4)]


class Burst(ctypes.Structure):
    _fields_ = [('width', u64), ('height', u64), ('count', u64), ('reference', u64), ('row_length', u64), ('black', u16 * 4)]


class Noise(ctypes.Structure):
    _fields_ = [('shot', f64), ('read', f64)]


class IsoNoise(ctypes.Structure):
    _fields_ = [('iso', u32), ('shot', f64), ('read', f64)]


class Tuning(ctypes.Structure):
    _fields_ = [('strength', u64), ('side', u64), ('spatial', u64)]


class Alignment(ctypes.Structure):
    _fields_ = [('refusal', u64), ('residuals', u64 * 7), ('rows', u64)]


class Choice(ctypes.Structure):
    _fields_ = [('alignment', Alignment), ('reference', u64)]


class File(ctypes.Structure):
    _fields_ = [('refusal', u64), ('width', u64), ('height', u64), ('count', u64), ('reference', u64), ('shot_level', u64), ('read_level', u64),
                ('strength', u64)]


class Pgm(ctypes.Structure):
    _fields_ = [('refusal', u64), ('width', u64), ('height', u64)]


class DngFrame(ctypes.Structure):
    _fields_ = [('refusal', u64), ('tag', u64), ('width', u64), ('height', u64)]


class Dng(ctypes.Structure):
    _fields_ = [('refusal', u64), ('shot', f64), ('read', f64), ('black', u16 * 4)]


_LENT = [ctypes.c_void_p, size]
_CALLS = {
    'stacker_align': (Alignment, [Burst, Tuning] + 3 * _LENT),
    'stacker_residuals': (u64, [Burst, Tuning] + 4 * _LENT),
    'stacker_merge': (u64, [Burst, Noise, Tuning] + 4 * _LENT),
    'stacker_merge_iso': (u64, [Burst, IsoNoise, Tuning] + 4 * _LENT),
    'stacker_range': (u64, [Burst, Noise, Noise, Tuning] + 5 * _LENT),
    'stacker_range_iso': (u64, [Burst, IsoNoise, IsoNoise, Tuning] + 5 * _LENT),
    'stacker_run': (Alignment, [Burst, Noise, Tuning] + 4 * _LENT),
    'stacker_run_iso': (Alignment, [Burst, IsoNoise, Tuning] + 4 * _LENT),
    'stacker_run_sharpest': (Choice, [Frames, Noise, Tuning] + 4 * _LENT),
    'stacker_run_sharpest_iso': (Choice, [Frames, IsoNoise, Tuning] + 4 * _LENT),
    'stacker_read_file': (File, 2 * _LENT),
    'stacker_pgm_length': (u64, [u64, u64]),
    'stacker_write_pgm': (u64, [u64, u64] + 2 * _LENT),
    'stacker_read_pgm': (Pgm, 2 * _LENT),
    'stacker_read_dng': (Dng, _LENT + [Frames, u64] + _LENT),
    'stacker_file_size': (File, _LENT),
    'stacker_pgm_size': (Pgm, _LENT),
    'stacker_dng_size': (DngFrame, _LENT),
    'stacker_refusal_words': (u64, [u64] + _LENT),
    'stacker_version': (u64, []),
    'station_noise': (u64, [f64, f64, u64, u64, u64]),
    'station_check': (u64, _LENT),
}


def _loaded() -> Any:
    name = 'libstacker.so.1'
    here = os.path.join(os.path.dirname(os.path.abspath(__file__)), '..', '..', '..', name)  # PREFIX/lib, from PREFIX/lib/python3/dist-packages/stacker
    path = os.environ.get('STACKER_LIBRARY') or (here if os.path.exists(here) else name)
    try:
        loaded = ctypes.CDLL(path)
    except OSError as error:
        raise ImportError('%s: tools/install PREFIX makes the library; STACKER_LIBRARY may name it' % error) from error
    for call, (answer, told) in _CALLS.items():
        getattr(loaded, call).restype, getattr(loaded, call).argtypes = answer, told
    return loaded


library = _loaded()


def burst(width: int, height: int, count: int, reference: int, row_length: int, black: Sequence[int]) -> Burst:
    return Burst(width, height, count, reference, row_length, (u16 * 4)(*black))


def frames(width: int, height: int, count: int, row_length: int, black: Sequence[int]) -> Frames:
    return Frames(width, height, count, row_length, (u16 * 4)(*black))


def noise(curve: Tuple[float, float], iso: Optional[int]) -> Union[Noise, IsoNoise]:
    return Noise(*curve) if iso is None else IsoNoise(iso, *curve)


def tuning(strength: int, side: int, spatial: int) -> Tuning:
    return Tuning(strength, side, spatial)


def _by_noise(name: str, told: Any, curve: Any, *rest: Any) -> Any:
    """The call, or the one for ISO where the noise is for that."""
    return getattr(library, name + ('_iso' if isinstance(curve, IsoNoise) else ''))(told, curve, *rest)


def align(told: Burst, *rest: Any) -> Alignment:
    return library.stacker_align(told, *rest)


def residuals(told: Burst, *rest: Any) -> int:
    return library.stacker_residuals(told, *rest)


def merge(told: Burst, curve: Any, *rest: Any) -> int:
    return _by_noise('stacker_merge', told, curve, *rest)


def merge_range(told: Burst, lower: Any, *rest: Any) -> int:
    return _by_noise('stacker_range', told, lower, *rest)


def run(told: Burst, curve: Any, *rest: Any) -> Alignment:
    return _by_noise('stacker_run', told, curve, *rest)


def run_sharpest(told: Frames, curve: Any, *rest: Any) -> Choice:
    return _by_noise('stacker_run_sharpest', told, curve, *rest)


def noise_number(shot: float, read: float, strength: int, root: int, side: int) -> int:
    return library.station_noise(shot, read, strength, root, side)


def words(number: int) -> str:
    """What a refusal's number says."""
    text = ctypes.create_string_buffer(128)
    length = library.stacker_refusal_words(number, text, len(text))
    return text.raw[:length].decode()


def version() -> str:
    number = library.stacker_version()
    return '%d.%d.%d' % (number // 1000000, number // 1000 % 1000, number % 1000)
