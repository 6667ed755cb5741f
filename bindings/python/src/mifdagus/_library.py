"""Finds the shared library and its functions."""
from __future__ import annotations

import ctypes
import ctypes.util
import functools
import os
import pathlib
from typing import Any, Callable

NAME = 'libmifdagus.so'
HERE = pathlib.Path(__file__).resolve().parent
BYTES = [ctypes.c_char_p, ctypes.c_size_t]
REPLY = [ctypes.c_void_p, ctypes.c_size_t, ctypes.POINTER(ctypes.c_size_t)]
NUMBER = [ctypes.c_uint64]
PARAMETERS = {
    'replay': BYTES, 'check': BYTES, 'lint': BYTES, 'summary': BYTES, 'print': BYTES, 'judge': BYTES, 'pages': BYTES,
    'inspect': NUMBER + BYTES, 'hit': NUMBER + BYTES * 3, 'generate': NUMBER, 'generate_run': NUMBER,
}


def _places() -> list[str]:
    named = os.environ.get('MIFDAGUS_LIBRARY')
    if named:
        return [named]
    beside = [HERE / NAME, *(folder / 'out' / NAME for folder in HERE.parents[:4])]
    found = ctypes.util.find_library('mifdagus')
    return [str(place) for place in beside if place.is_file()] + ([found] if found else [])


@functools.lru_cache(maxsize=None)
def _library() -> ctypes.CDLL:
    places = _places()
    if not places:
        raise ImportError(f'{NAME} is in none of the usual places: build it with bin/build --library, and set MIFDAGUS_LIBRARY to its path')
    try:
        return ctypes.CDLL(places[0])
    except OSError as fault:
        raise ImportError(f"{places[0]} can't be loaded ({fault}): build it with bin/build --library") from None


@functools.lru_cache(maxsize=None)
def function(job: str) -> Callable[..., Any]:
    call = getattr(_library(), f'mifdagus_raw_{job}')
    call.argtypes = PARAMETERS[job] + REPLY
    call.restype = ctypes.c_uint8
    return call
