"""Correction sets and layers for measurement-based quantum computing on graphs of networkx, by a proved library.

`gflow` and `pflow` find and verify generalized and Pauli flow, `flow` verifies causal flow, `common` has the measurements. A job or flow
to which the library says no raises `Refused`.

>>> import networkx as nx
>>> import bolzsimeg
>>> bolzsimeg.gflow.find(nx.path_graph(2), {0}, {1})
({0: {1}}, {0: 1, 1: 0})
>>> try:
...     bolzsimeg.gflow.find(nx.path_graph(129), {0}, {128})
... except bolzsimeg.Refused as refusal:
...     print(refusal.number)
4
"""

from bolzsimeg import common, flow, gflow, pflow
from bolzsimeg.common import Refused

__all__ = ["Refused", "common", "flow", "gflow", "pflow"]
