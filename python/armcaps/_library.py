"""The library, found once: where ARMCAPS_LIBRARY says, else by the system's search."""

import ctypes
import ctypes.util
import os

BYTES = ctypes.c_char_p
SIZE = ctypes.c_size_t
# room for every error line
ERR_ROOM = 300


def load():
    """The call of the library, with its types."""
    name = os.environ.get("ARMCAPS_LIBRARY") or ctypes.util.find_library("armcaps") or "libarmcaps.so.1"
    call = ctypes.CDLL(name).armcaps_run
    call.restype = ctypes.c_uint8
    size = ctypes.POINTER(SIZE)
    call.argtypes = [BYTES, SIZE, BYTES, SIZE, ctypes.c_void_p, SIZE, size, ctypes.c_void_p, SIZE, size]
    return call


_call = None


def call(line: bytes, data: bytes, room: int):
    """One call with a buffer of so many bytes: status, output, how long the output is, and the error line."""
    global _call
    if _call is None:
        _call = load()
    out, err = ctypes.create_string_buffer(max(room, 1)), ctypes.create_string_buffer(ERR_ROOM)
    out_length, err_length = SIZE(), SIZE()
    status = _call(
        line, len(line), data, len(data),
        out, room, ctypes.byref(out_length), err, ERR_ROOM, ctypes.byref(err_length),
    )
    output = ctypes.string_at(out, out_length.value) if status == 0 else b""
    return status, output, out_length.value, ctypes.string_at(err, min(err_length.value, ERR_ROOM))
