"""From a user's graph and flow to the library's bytes, and back. What the library cannot be asked is found here, before any call."""

from __future__ import annotations

import struct
from collections.abc import Iterable, Iterator, Mapping, Set
from numbers import Integral
from typing import Any, Generic, Optional

import networkx as nx

from bolzsimeg import _library
from bolzsimeg.common import GFlow, Layer, Measurement, PPlane, V

# The mode of a job.
CAUSAL = 1
PLANES = 2
PAULIS = 3

# The kinds of the records of a flow file.
SETS = 0x12
NO_FLOW = 0x13
WIDE_LAYERS = 0x21

MOST_LAYER = 65535
HEAD = struct.Struct("<IH")  # the length of a record's payload, and its kind

Planes = Optional[Mapping[V, Measurement]]


def find(mode: int, graph: nx.Graph[V], iset: Set[V], oset: Set[V], measured: Planes[V]) -> tuple[GFlow[V], Layer[V]] | None:
    """The flow, or None where there is none."""
    job = Job(mode, graph, iset, oset, measured)
    found = dict(records(_library.find(job.nodes, job.file())))
    if NO_FLOW in found:
        return None
    layers = struct.unpack(f"<{len(job.nodes)}H", found[WIDE_LAYERS])
    f = {job.nodes[node]: {job.nodes[v] for v in members} for node, members in entries(found[SETS])}
    return f, dict(zip(job.nodes, layers))


def verify(
    mode: int, flow: tuple[Mapping[V, Any], Mapping[V, int]], graph: nx.Graph[V], iset: Set[V], oset: Set[V], measured: Planes[V] = None
) -> None:
    """Raises where the flow is not accepted."""
    job = Job(mode, graph, iset, oset, measured)
    f, layer = flow
    sets = job.sets(f)
    layers = job.layers(layer)
    file = job.file()  # first: where there are too many nodes for a byte, it is this that is refused
    _library.verify(job.nodes, file, flow_file(sets, layers))


class Job(Generic[V]):
    """A job in numbers: that of a node is its place in graph.nodes."""

    def __init__(self, mode: int, graph: nx.Graph[V], iset: Set[V], oset: Set[V], measured: Planes[V]) -> None:
        if not isinstance(graph, nx.Graph) or graph.is_directed() or graph.is_multigraph():
            raise TypeError(f"the graph must be an undirected networkx.Graph without parallel edges, not {type(graph).__name__}")
        self.mode = mode
        self.nodes: list[V] = list(graph.nodes)
        self.numbers: dict[V, int] = {node: number for number, node in enumerate(self.nodes)}
        self.edges = [self.numbers[end] for edge in graph.edges for end in edge]
        self.inputs = self.of_set("input", as_set("iset", iset))
        self.outputs = self.of_set("output", as_set("oset", oset))
        self.measurements = self.in_xy() if measured is None else self.in_planes(as_mapping("the measurements", measured))

    def number(self, what: str, node: object) -> int:
        """The node's number; `what` it is to be goes into the words where it is no node."""
        try:
            return self.numbers[node]  # type: ignore[index]
        except (KeyError, TypeError):  # TypeError: it is not even hashable
            raise ValueError(f"{what} {node!r} is no node of the graph") from None

    def of_set(self, what: str, nodes: Iterable[object]) -> list[int]:
        """The numbers of these nodes, ascending."""
        return sorted(self.number(what, node) for node in nodes)

    def in_xy(self) -> list[int]:
        """XY at each node that is no output."""
        outputs = set(self.outputs)
        return [0 if number in outputs else PPlane.XY.value for number in range(len(self.nodes))]

    def in_planes(self, measured: Mapping[V, Measurement]) -> list[int]:
        """What is given, and 0 where nothing is: whether that is right at each node is the library's question."""
        given = [0] * len(self.nodes)
        for node, measurement in measured.items():
            given[self.number("measured node", node)] = code_of(node, measurement)
        return given

    def sets(self, f: Mapping[V, Any]) -> list[tuple[int, list[int]]]:
        """Each node of f with its set, ascending; in mode 1 f has one node for it."""
        as_mapping("f", f)
        return sorted((self.number("corrected node", node), self.members(node, value)) for node, value in f.items())

    def members(self, node: V, value: Any) -> list[int]:
        """The members of a node's set, ascending."""
        members = [value] if self.mode == CAUSAL else as_set(f"the set of node {node!r}", value)
        return self.of_set(f"in the set of node {node!r}: member", members)

    def layers(self, layer: Mapping[V, int]) -> list[int]:
        """The layer of each node."""
        self.of_set("node with a layer", as_mapping("layer", layer))
        return [layer_of(node, layer) for node in self.nodes]

    def file(self) -> bytes:
        """The job file. Of too many nodes the lists are left out, since a byte may not hold them: the library asks for the number of nodes first."""
        lists = [self.edges, self.inputs, self.outputs, self.measurements]
        if len(self.nodes) > _library.MOST_NODES:
            lists = [[], [], [], []]
        return _library.write_job(self.nodes, self.mode, *map(bytes, lists))


def as_set(what: str, value: Any) -> Set[Any]:
    """The value, which must be a set."""
    if not isinstance(value, Set):
        raise TypeError(f"{what} must be a set, not {type(value).__name__}")
    return value


def as_mapping(what: str, value: Any) -> Mapping[Any, Any]:
    """The value, which must be a dict or the like."""
    if not isinstance(value, Mapping):
        raise TypeError(f"{what} must be a dict, not {type(value).__name__}")
    return value


def code_of(node: object, measurement: object) -> int:
    """The byte of a measurement: by its name, as a string itself, or where compiled code left it no name, by its repr, such as Plane.XY."""
    name = getattr(measurement, "name", measurement)
    if not isinstance(name, str):
        name = repr(measurement).rpartition(".")[2]
    if name not in PPlane.__members__:
        raise ValueError(f"the measurement of node {node!r} is {measurement!r}, none of {', '.join(PPlane.__members__)}")
    return PPlane[name].value


def layer_of(node: V, layer: Mapping[V, int]) -> int:
    """The layer of a node."""
    if node not in layer:
        raise ValueError(f"node {node!r} has no layer")
    value = layer[node]
    if not isinstance(value, Integral) or not 0 <= value <= MOST_LAYER:
        raise ValueError(f"the layer of node {node!r} is {value!r}, no whole number from 0 to {MOST_LAYER}")
    return int(value)


def flow_file(sets: Iterable[tuple[int, list[int]]], layers: list[int]) -> bytes:
    """A flow file; an entry of its sets is node, count, members."""
    entered = b"".join(bytes([node, len(members), *members]) for node, members in sets)
    return record(WIDE_LAYERS, struct.pack(f"<{len(layers)}H", *layers)) + record(SETS, entered)


def record(kind: int, payload: bytes) -> bytes:
    """A record of a file."""
    return HEAD.pack(len(payload), kind) + payload


def records(file: bytes) -> Iterator[tuple[int, bytes]]:
    """Kind and payload of each record of a file."""
    at = 0
    while at < len(file):
        length, kind = HEAD.unpack_from(file, at)
        at += HEAD.size + length
        yield kind, file[at - length : at]


def entries(payload: bytes) -> Iterator[tuple[int, bytes]]:
    """Node and members of each entry of a sets record."""
    at = 0
    while at < len(payload):
        node, count = payload[at], payload[at + 1]
        at += 2 + count
        yield node, payload[at - count : at]
