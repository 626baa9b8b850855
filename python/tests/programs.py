"""The two programs, asked with bytes that are written and read here, from the README's tables and without the package."""

from __future__ import annotations

import random
import subprocess
from pathlib import Path
from typing import Any, Callable, Hashable, Mapping, NamedTuple, Sequence, Union

import networkx as nx

ROOT = Path(__file__).resolve().parents[2]
NAMES = ["XY", "YZ", "XZ", "X", "Y", "Z"]  # the byte of a measurement is its place, from 1
MOST_NAME = 1000

Sets = Mapping[int, Sequence[int]]
Found = Union[None, "tuple[dict[int, set[int]], dict[int, int]]"]
Told = Union[None, "tuple[int, int, int]"]


class Job(NamedTuple):
    """A job in numbers, and the user's name of each node."""

    mode: int
    edges: list[tuple[int, int]]
    inputs: set[int]
    outputs: set[int]
    measured: dict[int, str]
    names: list[Hashable]

    def arguments(self, rng: random.Random) -> tuple[Any, ...]:
        """Graph, inputs, outputs and measurements under the users' names, everything but the nodes in any order."""
        graph = nx.Graph()
        graph.add_nodes_from(self.names)
        for a, b in rng.sample(self.edges, len(self.edges)):
            graph.add_edge(*(self.names[end] for end in rng.sample([a, b], 2)))
        planes = {self.names[node]: self.measured[node] for node in rng.sample(sorted(self.measured), len(self.measured))}
        return graph, {self.names[node] for node in self.inputs}, {self.names[node] for node in self.outputs}, planes


def random_names(rng: random.Random, n: int) -> list[Hashable]:
    """Different hashable things of several types, in no order."""
    makers: list[Callable[[int], Hashable]] = [str, lambda k: k, lambda k: (k, "q"), lambda k: frozenset([k]), lambda k: f"B{k}", lambda k: k + 0.5]
    return [rng.choice(makers)(k) for k in rng.sample(range(MOST_NAME), n)]


def random_job(rng: random.Random, mode: int, n: int) -> Job:
    """A job of n nodes in this mode."""
    density = rng.random()
    edges = [(a, b) for b in range(n) for a in range(b) if rng.random() < density]
    often = rng.random()
    outputs = {node for node in range(n) if rng.random() < often}
    inputs = {node for node in range(n) if rng.random() < often / 2}
    allowed = {1: NAMES[:1], 2: NAMES[:3], 3: NAMES}[mode]
    measured = {node: rng.choice(allowed) for node in range(n) if node not in outputs}
    return Job(mode, edges, inputs, outputs, measured, random_names(rng, n))


def record(kind: int, payload: Sequence[int]) -> bytes:
    """Length, kind, payload."""
    return len(payload).to_bytes(4, "little") + kind.to_bytes(2, "little") + bytes(payload)


def job_file(job: Job) -> bytes:
    """The five records."""
    n = len(job.names)
    edges = [end for edge in sorted(job.edges) for end in edge]
    measurements = [NAMES.index(job.measured[node]) + 1 if node in job.measured else 0 for node in range(n)]
    inputs, outputs = sorted(job.inputs), sorted(job.outputs)
    return record(1, [n, job.mode]) + record(2, edges) + record(3, inputs) + record(4, outputs) + record(5, measurements)


def flow_file(sets: Sets, layers: Sequence[int]) -> bytes:
    """Layers of two bytes, and the sets."""
    wide = [byte for layer in layers for byte in (layer % 256, layer // 256)]
    entries = [byte for node in sorted(sets) for byte in (node, len(sets[node]), *sorted(sets[node]))]
    return record(0x21, wide) + record(0x12, entries)


def ask(program: str, file: bytes) -> bytes:
    """What a program writes."""
    return subprocess.run([ROOT / "target" / "bin" / program], input=file, capture_output=True, check=True).stdout


def found_by_program(job: Job) -> Found:
    """The flow that flow_find writes, None where it says that there is none."""
    out = ask("flow_find", job_file(job))
    if out == record(0x13, []):
        return None
    n = len(job.names)
    assert out[:6] == (2 * n).to_bytes(4, "little") + b"\x21\0"
    layers = {node: out[6 + 2 * node] + 256 * out[7 + 2 * node] for node in range(n)}
    rest = list(out[6 + 2 * n + 6 :])
    sets: dict[int, set[int]] = {}
    while rest:
        node, count = rest[:2]
        sets[node], rest = set(rest[2 : 2 + count]), rest[2 + count :]
    return sets, layers


def told_by_program(job: Job, sets: Sets, layers: Sequence[int]) -> Told:
    """Number, a and b of flow_verify's refusal, None where it accepts."""
    out = ask("flow_verify", job_file(job) + flow_file(sets, layers))
    if out == record(0x14, []):
        return None
    assert out[:6] == b"\4\0\0\0\x1f\0"
    return out[6], out[7], out[8] + 256 * out[9]
