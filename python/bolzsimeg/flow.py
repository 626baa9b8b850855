"""Causal flow: each node that is no output is measured in the plane XY and corrected by one neighbour.

A causal flow is verified and not searched, so this module has no `find`. `gflow.find` searches the same job for a generalized flow.

>>> import networkx as nx
>>> from bolzsimeg import flow
>>> flow.verify(({0: 1, 1: 2}, {0: 2, 1: 1, 2: 0}), nx.path_graph(3), {0}, {2})
"""

from __future__ import annotations

from collections.abc import Mapping, Set

import networkx as nx

from bolzsimeg import _job
from bolzsimeg.common import V


def verify(flow: tuple[Mapping[V, V], Mapping[V, int]], graph: nx.Graph[V], iset: Set[V], oset: Set[V]) -> None:
    """Raises `Refused` where the pair of the correcting node of each measured node and the layer of every node is no causal flow.

    >>> import networkx as nx
    >>> verify(({0: 1}, {0: 1, 1: 0}), nx.path_graph(2), {0}, {1})
    >>> verify(({0: 1}, {0: 1, 1: 0}), nx.empty_graph(2), {0}, {1})
    Traceback (most recent call last):
    bolzsimeg.common.Refused: refused 18: node 1 is not later than node 0, or in mode 1 not its neighbour
    """
    _job.verify(_job.CAUSAL, flow, graph, iset, oset)
