"""Generalized flow: each node that is no output is measured in a plane, XY, YZ or XZ.

>>> import networkx as nx
>>> from bolzsimeg import gflow
>>> path = nx.path_graph(["in", "mid", "out"])
>>> found = gflow.find(path, {"in"}, {"out"})
>>> found
({'in': {'mid'}, 'mid': {'out'}}, {'in': 2, 'mid': 1, 'out': 0})
>>> gflow.verify(found, path, {"in"}, {"out"})
"""

from __future__ import annotations

from collections.abc import Mapping, Set

import networkx as nx

from bolzsimeg import _job
from bolzsimeg.common import GFlow, Layer, Measurement, V


def find(
    graph: nx.Graph[V], iset: Set[V], oset: Set[V], plane: Mapping[V, Measurement] | None = None
) -> tuple[GFlow[V], Layer[V]] | None:
    """The correction set of each measured node and the layer of every node, each layer as small as it can be; None where there is no flow.

    `plane` has the plane of each node that is no output; None means XY everywhere.

    >>> import networkx as nx
    >>> from bolzsimeg.common import Plane
    >>> find(nx.path_graph(2), {0}, {1}, {0: Plane.YZ})
    ({0: {0}}, {0: 1, 1: 0})
    >>> find(nx.path_graph(2), {0, 1}, {1}) is None
    True
    """
    return _job.find(_job.PLANES, graph, iset, oset, plane)


def verify(
    gflow: tuple[Mapping[V, Set[V]], Mapping[V, int]],
    graph: nx.Graph[V],
    iset: Set[V],
    oset: Set[V],
    plane: Mapping[V, Measurement] | None = None,
) -> None:
    """Raises `Refused` where the pair of correction sets and layers is no flow; layers need not be the smallest.

    >>> import networkx as nx
    >>> verify(({0: {1}, 1: {2}}, {0: 7, 1: 3, 2: 0}), nx.path_graph(3), {0}, {2})
    >>> verify(({0: {1}, 1: {2}}, {0: 1, 1: 1, 2: 0}), nx.path_graph(3), {0}, {2})
    Traceback (most recent call last):
    bolzsimeg.common.Refused: refused 18: node 1 is not later than node 0, or in mode 1 not its neighbour
    """
    _job.verify(_job.PLANES, gflow, graph, iset, oset, plane)
