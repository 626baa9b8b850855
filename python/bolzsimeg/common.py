"""What the three modules share: measurements, names of types, and the exception of a refusal.

>>> from bolzsimeg.common import Plane, PPlane
>>> [plane.name for plane in Plane]
['XY', 'YZ', 'XZ']
>>> [pplane.name for pplane in PPlane]
['XY', 'YZ', 'XZ', 'X', 'Y', 'Z']
"""

from __future__ import annotations

import re
from collections.abc import Hashable
from enum import Enum
from typing import Protocol, TypeVar, Union

V = TypeVar("V", bound=Hashable)
"""A node: anything hashable."""

Flow = dict[V, V]
"""Of a causal flow: the one node that corrects each measured node."""

GFlow = dict[V, set[V]]
"""The correction set of each measured node."""

Layer = dict[V, int]
"""The layer of each node: higher layers are measured first."""


class PPlane(Enum):
    """How a node is measured for a Pauli flow: in a plane or along an axis. The value is the byte in a job file.

    >>> PPlane.X
    <PPlane.X: 4>
    """

    XY = 1
    YZ = 2
    XZ = 3
    X = 4
    Y = 5
    Z = 6


class Plane(Enum):
    """How a node is measured for a generalized flow: in a plane.

    >>> Plane.XZ.value == PPlane.XZ.value
    True
    """

    XY = PPlane.XY.value
    YZ = PPlane.YZ.value
    XZ = PPlane.XZ.value


class Named(Protocol):
    """A measurement of another package: its name is one of ours.

    >>> import enum
    >>> import networkx as nx
    >>> from bolzsimeg import gflow
    >>> other = enum.Enum("other", ["XY", "YZ", "XZ"])
    >>> gflow.find(nx.path_graph(2), {0}, {1}, {0: other.XY})
    ({0: {1}}, {0: 1, 1: 0})
    """

    @property
    def name(self) -> str:
        """XY, YZ, XZ, X, Y or Z."""


Measurement = Union[Plane, PPlane, str, Named]
"""A measurement, or its name."""


# The words of each refusal, as in include/bolzsimeg.h: A stands for a, B for b.
WORDS = {
    1: "the next record is missing or of another kind",
    2: "the payload of a record is cut off",
    3: "the length of a record, list or entry does not suit its kind",
    4: "the number of nodes or the mode is not allowed",
    5: "a node is not below the number of nodes",
    6: "nodes or edges are not strictly ascending",
    7: "a measurement byte is not allowed",
    8: "bytes are left after the last record",
    9: "a causal entry does not have exactly one member",
    10: "only modes 2 and 3 have a search",
    11: "a lent buffer or matrix has the wrong shape",
    12: "there is no right side of the equation's number",
    13: "the set of node A holds an input other than A",
    14: "node A has a set and is an output, or neither",
    15: "output A is in layer B, not in layer 0",
    16: "node A is no output and is in layer 0",
    17: "node A has an entry and no measurement",
    18: "node B is not later than node A, or in mode 1 not its neighbour",
    19: "node A's set does not suit its or a Y measurement",
    20: "the result does not fit the lent buffer",
    21: "a loop, or an edge or node given twice",
    22: "the signal lists are not those of the flow",
    23: "an angle is not from 0 to below 2, or at an output not positive zero",
    24: "only the owner may read angles out or write them",
}

LETTERS = re.compile(r"\b[AB]\b")


class Refused(ValueError):
    """The library asked a question of the job or the flow, and the answer is 'no'.

    `number` is the question's, in the table of the project's README. `a` and `b` are the nodes that its words name, None where they name none;
    b of 15 is a layer. `words` are the question's words with both filled in.

    >>> refusal = Refused(18, "left", "right")
    >>> refusal.number, refusal.a, refusal.b
    (18, 'left', 'right')
    >>> print(refusal)
    refused 18: node 'right' is not later than node 'left', or in mode 1 not its neighbour
    """

    def __init__(self, number: int, a: object = None, b: object = None) -> None:
        super().__init__(number, a, b)
        self.number = number
        self.a = a
        self.b = b

    @property
    def words(self) -> str:
        """The question's words, with a and b in the place of A and B."""
        filled = {"A": repr(self.a), "B": repr(self.b)}
        return LETTERS.sub(lambda letter: filled[letter.group()], WORDS[self.number])

    def __str__(self) -> str:
        return f"refused {self.number}: {self.words}"
