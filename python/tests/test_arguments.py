"""What the library cannot be asked, and the forms that a measurement may have."""

from __future__ import annotations

import enum
from types import ModuleType
from typing import Any, Callable

import networkx as nx
import pytest

from bolzsimeg import Refused, flow, gflow, pflow
from bolzsimeg.common import Plane, PPlane

EDGE = nx.path_graph(2)
FLOW: Any = ({0: {1}}, {0: 1, 1: 0})
CAUSAL: Any = ({0: 1}, {0: 1, 1: 0})


def plain(kind: type[Exception], words: str, call: Any, *arguments: Any) -> None:
    """The call raises this in these words, and it is no refusal."""
    with pytest.raises(kind) as caught:
        call(*arguments)
    assert not isinstance(caught.value, Refused)
    assert str(caught.value) == words


@pytest.mark.parametrize("graph", [nx.DiGraph([(0, 1)]), nx.MultiGraph([(0, 1)]), nx.MultiDiGraph([(0, 1)]), {0: [1]}, None])
def test_graphs_of_other_kinds(graph: Any) -> None:
    words = f"the graph must be an undirected networkx.Graph without parallel edges, not {type(graph).__name__}"
    plain(TypeError, words, gflow.find, graph, {0}, {1})
    plain(TypeError, words, pflow.find, graph, {0}, {1})
    plain(TypeError, words, gflow.verify, FLOW, graph, {0}, {1})
    plain(TypeError, words, pflow.verify, FLOW, graph, {0}, {1})
    plain(TypeError, words, flow.verify, CAUSAL, graph, {0}, {1})


@pytest.mark.parametrize("module", [gflow, pflow])
def test_of_find(module: ModuleType) -> None:
    plain(ValueError, "input 'x' is no node of the graph", module.find, EDGE, {"x"}, {1})
    plain(ValueError, "output 7 is no node of the graph", module.find, EDGE, {0}, {1, 7})
    plain(ValueError, "measured node 2 is no node of the graph", module.find, EDGE, {0}, {1}, {0: "XY", 2: "XY"})
    plain(TypeError, "iset must be a set, not list", module.find, EDGE, [0], {1})
    plain(TypeError, "oset must be a set, not int", module.find, EDGE, {0}, 1)
    plain(TypeError, "the measurements must be a dict, not list", module.find, EDGE, {0}, {1}, ["XY"])


@pytest.mark.parametrize("module", [gflow, pflow])
def test_of_verify(module: ModuleType) -> None:
    def one(kind: type[Exception], words: str, f: Any, layer: Any) -> None:
        plain(kind, words, module.verify, (f, layer), EDGE, {0}, {1})

    f, layer = FLOW
    one(ValueError, "corrected node 5 is no node of the graph", {0: {1}, 5: {1}}, layer)
    one(ValueError, "in the set of node 0: member 'x' is no node of the graph", {0: {1, "x"}}, layer)
    one(TypeError, "the set of node 0 must be a set, not int", {0: 1}, layer)
    one(TypeError, "f must be a dict, not list", [(0, {1})], layer)
    one(ValueError, "node 1 has no layer", f, {0: 1})
    one(ValueError, "node with a layer 2 is no node of the graph", f, {0: 1, 1: 0, 2: 0})
    one(TypeError, "layer must be a dict, not list", f, [1, 0])


@pytest.mark.parametrize("value", [-1, 65536, 10**30, 1.0, "1", None])
def test_layers_that_are_none(value: Any) -> None:
    words = f"the layer of node 0 is {value!r}, no whole number from 0 to 65535"
    plain(ValueError, words, gflow.verify, ({0: {1}}, {0: value, 1: 0}), EDGE, {0}, {1})
    plain(ValueError, words, flow.verify, ({0: 1}, {0: value, 1: 0}), EDGE, {0}, {1})


def test_layers_at_the_edge() -> None:
    gflow.verify(({0: {1}}, {0: 65535, 1: 0}), EDGE, {0}, {1})
    flow.verify(({0: 1}, {0: 65535, 1: 0}), EDGE, {0}, {1})


def test_of_causal_verify() -> None:
    layer = CAUSAL[1]
    plain(ValueError, "in the set of node 0: member 3 is no node of the graph", flow.verify, ({0: 3}, layer), EDGE, {0}, {1})
    plain(ValueError, "in the set of node 0: member {1} is no node of the graph", flow.verify, ({0: {1}}, layer), EDGE, {0}, {1})
    plain(ValueError, "corrected node 'y' is no node of the graph", flow.verify, ({"y": 1}, layer), EDGE, {0}, {1})
    plain(ValueError, "input 'x' is no node of the graph", flow.verify, CAUSAL, EDGE, {"x"}, {1})


def test_too_many_nodes_do_not_hide_a_wrong_argument() -> None:
    plain(ValueError, "input 'x' is no node of the graph", gflow.find, nx.path_graph(300), {"x"}, {1})
    plain(ValueError, "node 0 has no layer", gflow.verify, ({}, {}), nx.path_graph(300), {0}, {299})


def test_no_search_for_causal_flow() -> None:
    assert not hasattr(flow, "find")


class Compiled:
    """An enumeration of compiled code, which has no names but in its repr."""

    def __init__(self, text: str) -> None:
        self.text = text

    def __repr__(self) -> str:
        return self.text


class Other(enum.Enum):
    """An enumeration with our names and other values."""

    Z = 1
    Y = 2
    X = 3
    XZ = 4
    YZ = 5
    XY = 6


class Text(str, enum.Enum):
    """An enumeration of strings, in which the name counts."""

    XY = "YZ"
    YZ = "XZ"
    XZ = "X"
    X = "Y"
    Y = "Z"
    Z = "XY"


# {u} holds u, and its Odd does not; {out} the other way round; of {u, out} both do. By the rules for a node's own measurement these suit:
SUITING = {"XY": [{"out"}], "YZ": [{"u"}], "XZ": [{"u", "out"}], "X": [{"out"}, {"u", "out"}], "Y": [{"u"}, {"out"}], "Z": [{"u"}, {"u", "out"}]}


def suits(form: Any, members: set[str]) -> bool:
    """Whether the set suits node u of an edge when it is measured so."""
    try:
        pflow.verify(({"u": members}, {"u": 1, "out": 0}), nx.Graph([("u", "out")]), set(), {"out"}, {"u": form})
    except Refused as refusal:
        assert refusal.number == 19
        return False
    return True


def suiting(form: object) -> list[set[str]]:
    return [members for members in ({"u"}, {"out"}, {"u", "out"}) if suits(form, members)]


FORMS: dict[str, Callable[[str], object]] = {
    "string": str,
    "ours": lambda name: PPlane[name],
    "another": lambda name: Other[name],
    "text": lambda name: Text[name],
    "compiled": lambda name: Compiled(f"PPlane.{name}"),
}


@pytest.mark.parametrize("name", SUITING)
@pytest.mark.parametrize("form", FORMS)
def test_forms_of_a_measurement(form: str, name: str) -> None:
    assert suiting(FORMS[form](name)) == SUITING[name]


@pytest.mark.parametrize("plane", Plane)
def test_planes_for_a_pauli_flow(plane: Plane) -> None:
    assert suiting(plane) == SUITING[plane.name]


@pytest.mark.parametrize("form", ["xy", "", "XYZ", "Plane.XY", 1, None, object, Compiled("XYZ")])
def test_no_measurement(form: Any) -> None:
    words = f"the measurement of node 0 is {form!r}, none of XY, YZ, XZ, X, Y, Z"
    plain(ValueError, words, gflow.find, EDGE, {0}, {1}, {0: form})
    plain(ValueError, words, pflow.verify, FLOW, EDGE, {0}, {1}, {0: form})
