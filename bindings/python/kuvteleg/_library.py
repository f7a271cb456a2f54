"""The functions of libkuvteleg.so. Its header says what each asks of its caller."""
import ctypes
import os
import pathlib

NAME = "libkuvteleg.so"


class Handle(ctypes.Structure):
    """An editor or a reader. One of zeros is closed; it is never copied."""

    _fields_ = [("is_open", ctypes.c_uint8), ("at", ctypes.c_void_p)]


class State(ctypes.Structure):
    _fields_ = [
        ("is_governed", ctypes.c_uint8),
        ("is_endless", ctypes.c_uint8),
        ("until_nanoseconds", ctypes.c_uint32),
        ("until_seconds", ctypes.c_int64),
        ("interval", ctypes.c_int64),
        ("event_len", ctypes.c_size_t),
        ("values_len", ctypes.c_size_t),
    ]


_HANDLE, _SIZE, _OUT = ctypes.POINTER(Handle), ctypes.c_size_t, ctypes.POINTER(ctypes.c_size_t)
_U32, _U64, _I64, _BYTES = ctypes.c_uint32, ctypes.POINTER(ctypes.c_uint64), ctypes.c_int64, ctypes.c_char_p
_TEXT = [_BYTES, _SIZE]
_REPLY = [_BYTES, _SIZE, _OUT]
# Without its argument types ctypes would pass a handle by value.
_FUNCTIONS = {
    "kuvteleg_open": [_HANDLE, _U32],
    "kuvteleg_create": [_HANDLE, _I64, _U32, _U32, *_TEXT, *_TEXT, _U64],
    "kuvteleg_change": [_HANDLE, _I64, _U32, _U32, *_TEXT, *_TEXT, _U64],
    "kuvteleg_delete": [_HANDLE, _U32, *_TEXT, _U64],
    "kuvteleg_publish": [_HANDLE, _U64, _U64],
    "kuvteleg_condense": [_HANDLE, _U64],
    "kuvteleg_line": [_HANDLE, *_TEXT, *_REPLY],
    "kuvteleg_reply": [_HANDLE, *_REPLY],
    "kuvteleg_close": [_HANDLE],
    "kuvteleg_look": [_HANDLE, _HANDLE],
    "kuvteleg_share": [_HANDLE, _HANDLE],
    "kuvteleg_seen": [_HANDLE, _U64, _U64],
    "kuvteleg_ask": [_HANDLE, *_TEXT, *_REPLY],
    "kuvteleg_answer": [_HANDLE, *_REPLY],
    "kuvteleg_leave": [_HANDLE],
    "kuvteleg_governor": [_HANDLE, *_TEXT, *_TEXT, _I64, _U32, ctypes.POINTER(State), *_REPLY],
}


def _path() -> pathlib.Path:
    """KUVTELEG_LIB names a folder; else the library stands in the installed package, or in the checkout's release."""
    folder = os.environ.get("KUVTELEG_LIB")
    here = pathlib.Path(__file__).resolve().parent
    places = [pathlib.Path(folder)] if folder else [here, here.parents[2] / "release" / "x86_64-linux"]
    for place in places:
        if (place / NAME).is_file():
            return place / NAME
    raise ImportError(f"kuvteleg: no {NAME} in {' or '.join(map(str, places))}; KUVTELEG_LIB may name its folder")


def _load() -> ctypes.CDLL:
    path = _path()
    try:
        library = ctypes.CDLL(str(path))
        for name, given in _FUNCTIONS.items():
            function = getattr(library, name)
            function.argtypes, function.restype = given, _U32
    except (OSError, AttributeError) as fault:
        raise ImportError(f"kuvteleg: {path} isn't this package's library, for x86-64 Linux with glibc 2.14 or later: {fault}") from fault
    return library


LIBRARY = _load()
