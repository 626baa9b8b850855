"""The three calls of the shared library, in bytes. All as operator: nothing here reads or writes angles."""

from __future__ import annotations

import ctypes
from collections.abc import Sequence
from pathlib import Path
from typing import Any

from bolzsimeg.common import LETTERS, WORDS, Refused

# As in include/bolzsimeg.h, where the names begin with BOLZ_.
OPERATOR = 1
MOST_NODES = 128
WORK_BYTES = 2048
MOST_OUTPUT = 16908
MOST_JOB = 17702

EXCESSIVE_NON_ZERO_LAYER = 15  # the one question whose b is no node

READ = (ctypes.c_char_p, ctypes.c_size_t)
WRITE = (ctypes.POINTER(ctypes.c_char), ctypes.c_size_t)


def load() -> ctypes.CDLL:
    """The library, which lies beside this file."""
    path = Path(__file__).with_name("libbolzsimeg.so")
    if not path.exists():
        raise ImportError(f"{path} is missing: `bash python/build` makes it")
    return ctypes.CDLL(str(path))


def entry(name: str, *arguments: Any) -> Any:
    """A call of the library: the role and these arguments in, its result out."""
    call = LIBRARY[name]
    call.argtypes = (ctypes.c_uint64, *arguments)
    call.restype = ctypes.c_uint64
    return call


LIBRARY = load()
BOLZ_WRITE_JOB = entry("bolz_write_job", ctypes.c_size_t, ctypes.c_size_t, *READ, *READ, *READ, *READ, *WRITE)
BOLZ_FIND = entry("bolz_find", *READ, *WRITE, *WRITE)
BOLZ_VERIFY = entry("bolz_verify", *READ, *WRITE)


def write_job(nodes: Sequence[object], mode: int, edges: bytes, inputs: bytes, outputs: bytes, measurements: bytes) -> bytes:
    """The job file of these lists; the nodes are for the words of a refusal."""
    out = ctypes.create_string_buffer(MOST_JOB)
    lists = (edges, len(edges), inputs, len(inputs), outputs, len(outputs), measurements, len(measurements))
    return answer(BOLZ_WRITE_JOB(OPERATOR, len(nodes), mode, *lists, out, MOST_JOB), out, nodes)


def find(nodes: Sequence[object], job: bytes) -> bytes:
    """The flow file, or the record that says that there is none."""
    work = ctypes.create_string_buffer(WORK_BYTES)
    out = ctypes.create_string_buffer(MOST_OUTPUT)
    return answer(BOLZ_FIND(OPERATOR, job, len(job), work, WORK_BYTES, out, MOST_OUTPUT), out, nodes)


def verify(nodes: Sequence[object], job: bytes, flow: bytes) -> None:
    """Raises where the flow is not accepted; an answer can only be 'accepted'."""
    both = job + flow
    out = ctypes.create_string_buffer(MOST_OUTPUT)
    answer(BOLZ_VERIFY(OPERATOR, both, len(both), out, MOST_OUTPUT), out, nodes)


def answer(result: int, out: ctypes.Array[ctypes.c_char], nodes: Sequence[object]) -> bytes:
    """The bytes written, or the refusal raised: number * 2^32 + a * 2^16 + b."""
    number = result >> 32
    if number:
        raise refusal(number, result >> 16 & 0xFFFF, result & 0xFFFF, nodes)
    return out.raw[:result]


def refusal(number: int, a: int, b: int, nodes: Sequence[object]) -> Refused:
    """The refusal with the user's nodes, as far as its words name them."""
    letters = LETTERS.findall(WORDS[number])
    if number == EXCESSIVE_NON_ZERO_LAYER:
        return Refused(number, nodes[a], b)
    return Refused(number, nodes[a] if "A" in letters else None, nodes[b] if "B" in letters else None)
