"""libqbf.so and its calls: include/qbf.h for ctypes.

The library is the file that QBF_LIBRARY in the environment names, or else the one that came with the package, or else
what the system finds under its name.
"""

from __future__ import annotations

import ctypes
import os
from ctypes import POINTER, c_bool, c_int32, c_int64, c_size_t, c_uint32, c_uint64, c_void_p
from pathlib import Path

NAME = "libqbf.so.1"


class Handle(ctypes.Structure):
    """A handle: all zero it holds no solver."""

    _fields_ = [("at", c_void_p), ("live", c_bool)]


HANDLE = POINTER(Handle)
TEXT = c_void_p
COUNT = POINTER(c_size_t)

# What each call is given, in the order of include/qbf.h. Each answers a code but qbf_free. Buffers and arrays are given
# by their addresses.
CALLS: dict[str, list[type]] = {
    "qbf_new": [HANDLE],
    "qbf_new_version": [HANDLE, c_uint32],
    "qbf_read": [HANDLE, TEXT, c_size_t, POINTER(c_uint32)],
    "qbf_free": [HANDLE],
    "qbf_scope": [HANDLE, c_bool, c_uint64],
    "qbf_var": [HANDLE, c_uint64, c_uint64],
    "qbf_scopes": [HANDLE, POINTER(c_uint64)],
    "qbf_vars": [HANDLE, POINTER(c_uint64)],
    "qbf_is_forall": [HANDLE, c_uint64, POINTER(c_uint32)],
    "qbf_scope_of": [HANDLE, c_uint64, POINTER(c_uint64)],
    "qbf_scope_vars": [HANDLE, c_uint64, c_void_p, c_size_t, COUNT],
    "qbf_clause": [HANDLE, c_void_p, c_size_t],
    "qbf_push": [HANDLE],
    "qbf_pop": [HANDLE],
    "qbf_depth": [HANDLE, POINTER(c_uint64)],
    "qbf_open_group": [HANDLE, c_uint64],
    "qbf_close_group": [HANDLE],
    "qbf_activate": [HANDLE, c_uint64],
    "qbf_deactivate": [HANDLE, c_uint64],
    "qbf_write": [HANDLE, c_void_p, c_size_t, COUNT],
    "qbf_assume": [HANDLE, c_int64],
    "qbf_forget_assumptions": [HANDLE],
    "qbf_solve": [HANDLE, c_uint64, POINTER(c_uint64)],
    "qbf_set_restarts": [HANDLE, c_uint32],
    "qbf_set_kept_rows": [HANDLE, c_uint32],
    "qbf_kept_long": [HANDLE, POINTER(c_uint64)],
    "qbf_verdict": [HANDLE],
    "qbf_value": [HANDLE, c_uint64, POINTER(c_int32)],
    "qbf_relevant": [HANDLE, c_void_p, c_size_t, COUNT],
    "qbf_group_core": [HANDLE, c_uint64, c_void_p, c_size_t, COUNT],
    "qbf_certificate": [HANDLE, c_bool, c_bool, c_void_p, c_size_t, COUNT],
    "qbf_trace": [HANDLE, c_void_p, c_size_t, COUNT],
    "qbf_check_formula": [HANDLE, c_bool, c_void_p, c_size_t, COUNT],
    "qbf_run": [TEXT, c_size_t, TEXT, c_size_t, c_void_p, c_size_t, c_void_p, c_size_t, COUNT, COUNT],
}


def load() -> ctypes.CDLL:
    """The library, with the types of its calls."""
    beside = Path(__file__).with_name(NAME)
    library = ctypes.CDLL(os.environ.get("QBF_LIBRARY") or (str(beside) if beside.exists() else NAME))
    for name, given in CALLS.items():
        call = getattr(library, name)
        call.argtypes = given
        call.restype = None if name == "qbf_free" else c_uint32
    return library


LIBRARY = load()
