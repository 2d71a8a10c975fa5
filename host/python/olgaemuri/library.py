"""The engine's shared library: made from the static one by gcc, and its nine functions.

OLGAEMURI_SHARED names a finished shared library instead; OLGAEMURI_LIB_DIR the folder with the static one.
"""

from __future__ import annotations

import ctypes
import os
import shutil
import subprocess
import tempfile
from functools import lru_cache
from pathlib import Path

from . import structs

# The crate that the static library is made of, which names the archive, and the functions that it exports: what each returns, and its
# parameters. A buffer is a pointer and a length; rows of a state are a pointer and their number.
CRATE = "olgaemuri"
ARCHIVE = f"lib{CRATE}.a"
_BUFFER = [ctypes.c_char_p, ctypes.c_size_t]
_WORDS = _FLOATS = [ctypes.c_void_p, ctypes.c_size_t]
_PLACE = [ctypes.c_size_t]
SYMBOLS = {
    "olgaemuri_run": (ctypes.c_uint8, _BUFFER * 5),
    "olgaemuri_open": (ctypes.c_uint8, _WORDS + _FLOATS + _BUFFER),
    "olgaemuri_execute": (ctypes.c_uint8, _WORDS + _FLOATS + _BUFFER * 4),
    "olgaemuri_applied": (ctypes.c_uint8, _WORDS + _PLACE + [ctypes.POINTER(ctypes.c_uint64)]),
    "olgaemuri_counts": (structs.Counts, _WORDS),
    "olgaemuri_request": (structs.Request, _WORDS + _PLACE),
    "olgaemuri_clock": (structs.Clock, _WORDS + _FLOATS + _PLACE),
    "olgaemuri_cause": (structs.Cause, _WORDS + _FLOATS + _PLACE * 2),
    "olgaemuri_rate_for_wait": (ctypes.c_uint8, [ctypes.c_double, ctypes.c_double, ctypes.POINTER(ctypes.c_double)]),
}

SHARED = "libolgaemuri.so"
ROOT = Path(__file__).resolve().parents[3]


class LibraryMissing(OSError):
    """The shared library is not there and cannot be made."""


def _make(archive: Path, shared: Path) -> None:
    compiler = shutil.which(os.environ.get("CC", "gcc"))
    if compiler is None:
        raise LibraryMissing(f"{shared.name} is made by gcc, which is not there; set OLGAEMURI_SHARED to a finished one")
    shared.parent.mkdir(parents=True, exist_ok=True)
    # two processes may make it at the same time, so it is made beside its place and moved there whole
    with tempfile.TemporaryDirectory(dir=shared.parent) as folder:
        made = Path(folder) / shared.name
        whole = ["-Wl,--whole-archive", str(archive), "-Wl,--no-whole-archive"]
        said = subprocess.run(
            [compiler, "-shared", "-o", str(made), *whole, "-Wl,-Bsymbolic", "-Wl,-z,defs"], capture_output=True, text=True
        )
        if said.returncode != 0:
            raise LibraryMissing(f"{shared.name} could not be made: {said.stderr.strip()}")
        times = archive.stat()
        os.utime(made, ns=(times.st_atime_ns, times.st_mtime_ns))
        os.replace(made, shared)


def path() -> Path:
    """The shared library, made anew where it is missing or was made from another static one, which the time of change tells."""
    if "OLGAEMURI_SHARED" in os.environ:
        return Path(os.environ["OLGAEMURI_SHARED"])
    folder = Path(os.environ.get("OLGAEMURI_LIB_DIR", ROOT / "target/staticlib"))
    archive, shared = folder / ARCHIVE, ROOT / "target/python" / SHARED
    if not archive.is_file():
        raise LibraryMissing(f"there is no {archive}; `tools/staticlib {CRATE}` makes it, or set OLGAEMURI_LIB_DIR to its folder")
    if not shared.is_file() or shared.stat().st_mtime_ns != archive.stat().st_mtime_ns:
        _make(archive, shared)
    return shared


@lru_cache(maxsize=None)
def function(symbol: str):
    """The function with this name, to be called from Python."""
    found = getattr(ctypes.CDLL(str(path())), symbol)
    found.restype, found.argtypes = SYMBOLS[symbol]
    return found


def call(commands: bytes, stream: bytes, journal_length: int, answers_length: int, result_length: int) -> tuple:
    """The number that ended the run, then journal, answers and result. Other threads run meanwhile; a run needs 64 KiB of stack."""
    lengths = (journal_length, answers_length, result_length)
    # no buffer is at NULL, not even an empty one
    buffers = [ctypes.create_string_buffer(max(length, 1)) for length in lengths]
    written = [part for pair in zip(buffers, lengths) for part in pair]
    number = function("olgaemuri_run")(commands, len(commands), stream, len(stream), *written)
    return (number, *(buffer.raw[:length] for buffer, length in zip(buffers, lengths)))


def rate_for_wait(threshold: float, wait: float) -> tuple:
    """The number, then the rate, which is 0.0 where the number is not 0."""
    rate = ctypes.c_double()
    number = function("olgaemuri_rate_for_wait")(threshold, wait, ctypes.byref(rate))
    return number, rate.value
