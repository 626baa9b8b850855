"""Pauli flow: each node that is no output is measured in a plane, XY, YZ or XZ, or along an axis, X, Y or Z.

>>> import networkx as nx
>>> from bolzsimeg import pflow
>>> from bolzsimeg.common import PPlane
>>> path = nx.path_graph(3)
>>> pplane = {0: PPlane.XY, 1: PPlane.X}
>>> found = pflow.find(path, {0}, {2}, pplane)
>>> found
({0: {1}, 1: {2}}, {0: 1, 1: 1, 2: 0})
>>> pflow.verify(found, path, {0}, {2}, pplane)
"""

from __future__ import annotations

from collections.abc import Mapping, Set

import networkx as nx

from bolzsimeg import _job
from bolzsimeg.common import GFlow, Layer, Measurement, V


def find(
    graph: nx.Graph[V], iset: Set[V], oset: Set[V], pplane: Mapping[V, Measurement] | None = None
) -> tuple[GFlow[V], Layer[V]] | None:
    """The correction set of each measured node and the layer of every node, each layer as small as it can be; None where there is no flow.

    `pplane` has the measurement of each node that is no output; None means XY everywhere.

    >>> import networkx as nx
    >>> find(nx.empty_graph(2), set(), {1}, {0: "Z"})
    ({0: {0}}, {0: 0, 1: 0})
    >>> find(nx.empty_graph(2), set(), {1}, {0: "X"}) is None
    True
    """
    return _job.find(_job.PAULIS, graph, iset, oset, pplane)


def verify(
    pflow: tuple[Mapping[V, Set[V]], Mapping[V, int]],
    graph: nx.Graph[V],
    iset: Set[V],
    oset: Set[V],
    pplane: Mapping[V, Measurement] | None = None,
) -> None:
    """Raises `Refused` where the pair of correction sets and layers is no flow; layers need not be the smallest.

    >>> import networkx as nx
    >>> verify(({0: {0}}, {0: 0, 1: 0}), nx.empty_graph(2), set(), {1}, {0: "Z"})
    >>> verify(({0: {0}}, {0: 0, 1: 0}), nx.empty_graph(2), set(), {1}, {0: "X"})
    Traceback (most recent call last):
    bolzsimeg.common.Refused: refused 19: node 0's set does not suit its or a Y measurement
    """
    _job.verify(_job.PAULIS, pflow, graph, iset, oset, pplane)
