"""Every refusal that the functions can reach, with the user's own nodes.

The others cannot be reached: 1, 2, 3, 5, 6 and 8 are about bytes, which the package writes from nodes of the graph; 9, because a causal flow has
one node for each; 10, because no function searches mode 1; 11 and 20, because the buffers have the header's sizes; 12 is the solver's; 22, 23 and
24 are about signal lists and angles, which the package does not write. 4, of too many nodes, stands with the cases.
"""

from __future__ import annotations

import pickle
from types import ModuleType
from typing import Any

import networkx as nx
import pytest

from bolzsimeg import Refused, flow, gflow, pflow

# The nodes of the path have the letters of the words as names, in another order.
PATH = nx.Graph([("B", "A"), ("A", ("out", 0))])
OUT = ("out", 0)
ENDS = {"B"}, {OUT}
LAYERS: dict[Any, int] = {"B": 2, "A": 1, OUT: 0}
SETS: dict[Any, Any] = {"B": {"A"}, "A": {OUT}}
LATE = "or in mode 1 not its neighbour"


def refused(module: ModuleType, call: str, *arguments: Any) -> tuple[int, object, object, str]:
    with pytest.raises(ValueError) as caught:
        getattr(module, call)(*arguments)
    refusal = caught.value
    assert isinstance(refusal, Refused)
    assert str(refusal) == f"refused {refusal.number}: {refusal.words}"
    return refusal.number, refusal.a, refusal.b, refusal.words


def both(f: dict[Any, Any], layer: dict[Any, int], planes: dict[Any, str] | None = None) -> tuple[int, object, object, str]:
    """The refusal of a flow of the path, the same in modes 2 and 3."""
    one, other = (refused(module, "verify", (f, layer), PATH, *ENDS, planes) for module in (gflow, pflow))
    assert one == other
    return one


@pytest.mark.parametrize("module", [gflow, pflow])
@pytest.mark.parametrize("planes", [{}, {"B": "XY"}, {"B": "XY", "A": "XY", OUT: "XY"}])
def test_7_a_plane_missing_or_at_an_output(module: ModuleType, planes: dict[Any, str]) -> None:
    answer = 7, None, None, "a measurement byte is not allowed"
    assert refused(module, "find", PATH, *ENDS, planes) == answer
    assert refused(module, "verify", (SETS, LAYERS), PATH, *ENDS, planes) == answer


@pytest.mark.parametrize("axis", ["X", "Y", "Z"])
def test_7_an_axis_where_planes_are_asked(axis: str) -> None:
    planes = {"B": "XY", "A": axis}
    assert refused(gflow, "find", PATH, *ENDS, planes)[0] == 7
    assert refused(gflow, "verify", (SETS, LAYERS), PATH, *ENDS, planes)[0] == 7


def test_21_a_loop() -> None:
    graph = nx.Graph([(0, 1), (1, 1)])
    answer = 21, None, None, "a loop, or an edge or node given twice"
    assert refused(gflow, "find", graph, {0}, {1}) == answer
    assert refused(pflow, "find", graph, {0}, {1}) == answer
    assert refused(gflow, "verify", ({0: {1}}, {0: 1, 1: 0}), graph, {0}, {1}) == answer
    assert refused(flow, "verify", ({0: 1}, {0: 1, 1: 0}), graph, {0}, {1}) == answer


def test_13_an_input_in_a_set() -> None:
    assert both({**SETS, "A": {"B", OUT}}, LAYERS) == (13, "A", None, "the set of node 'A' holds an input other than 'A'")
    assert refused(flow, "verify", ({"B": "A", "A": "B"}, LAYERS), PATH, *ENDS)[:3] == (13, "A", None)


@pytest.mark.parametrize("f, node", [({"B": {"A"}}, "A"), ({**SETS, "A": set()}, "A"), ({**SETS, OUT: {"A"}}, OUT)])
def test_14_a_set_missing_empty_or_at_an_output(f: dict[Any, Any], node: object) -> None:
    assert both(f, LAYERS) == (14, node, None, f"node {node!r} has a set and is an output, or neither")


@pytest.mark.parametrize("layer", [1, 2, 300, 65535])
def test_15_an_output_above_layer_0(layer: int) -> None:
    assert both(SETS, {**LAYERS, OUT: layer}) == (15, OUT, layer, f"output ('out', 0) is in layer {layer}, not in layer 0")


def test_16_another_node_in_layer_0() -> None:
    answer = 16, "A", None, "node 'A' is no output and is in layer 0"
    assert refused(gflow, "verify", (SETS, {**LAYERS, "A": 0}), PATH, *ENDS) == answer
    assert refused(flow, "verify", ({"B": "A", "A": OUT}, {**LAYERS, "A": 0}), PATH, *ENDS) == answer


def test_17_an_empty_set_at_an_output() -> None:
    assert both({**SETS, OUT: set()}, LAYERS) == (17, OUT, None, "node ('out', 0) has an entry and no measurement")


def test_18_a_node_that_is_not_later() -> None:
    answer = 18, "B", "A", f"node 'A' is not later than node 'B', {LATE}"
    assert both(SETS, {**LAYERS, "B": 1}) == answer
    assert refused(flow, "verify", ({"B": "A", "A": OUT}, {**LAYERS, "B": 1}), PATH, *ENDS) == answer


def test_18_no_neighbour() -> None:
    answer = 18, "B", OUT, f"node ('out', 0) is not later than node 'B', {LATE}"
    graph = nx.empty_graph(["B", OUT])
    assert refused(flow, "verify", ({"B": OUT}, {"B": 1, OUT: 0}), graph, *ENDS) == answer


def test_19_a_set_that_does_not_suit() -> None:
    planes = {"B": "XY", "A": "YZ"}
    assert both(SETS, LAYERS, planes) == (19, "A", None, "node 'A''s set does not suit its or a Y measurement")


def test_a_refusal_goes_through_pickle() -> None:
    refusal = pickle.loads(pickle.dumps(Refused(18, "B", OUT)))
    assert type(refusal) is Refused
    assert (refusal.number, refusal.a, refusal.b) == (18, "B", OUT)
    assert str(refusal) == f"refused 18: node ('out', 0) is not later than node 'B', {LATE}"
