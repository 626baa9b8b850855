"""The specification's cases A to N, by names that are not the numbers, and the largest jobs."""

from __future__ import annotations

from types import ModuleType

import networkx as nx
import pytest

from bolzsimeg import Refused, flow, gflow, pflow
from bolzsimeg.common import Plane, PPlane


def edge() -> nx.Graph:
    return nx.Graph([("p", "a")])


def lone() -> nx.Graph:
    graph = nx.Graph()
    graph.add_nodes_from(["p", "a"])
    return graph


def path() -> nx.Graph:
    return nx.Graph([("p", "c"), ("c", "a")])


def test_a_an_edge() -> None:
    found = gflow.find(edge(), {"p"}, {"a"})
    assert found == ({"p": {"a"}}, {"p": 1, "a": 0})
    gflow.verify(found, edge(), {"p"}, {"a"})
    flow.verify(({"p": "a"}, {"p": 1, "a": 0}), edge(), {"p"}, {"a"})


def test_b_nothing() -> None:
    assert gflow.find(nx.Graph(), set(), set()) == ({}, {})
    assert pflow.find(nx.Graph(), set(), set()) == ({}, {})
    gflow.verify(({}, {}), nx.Graph(), set(), set())
    pflow.verify(({}, {}), nx.Graph(), set(), set())
    flow.verify(({}, {}), nx.Graph(), set(), set())


def test_c_one_node_in_yz_without_output() -> None:
    found = gflow.find(nx.empty_graph(["p"]), set(), set(), {"p": Plane.YZ})
    assert found == ({"p": {"p"}}, {"p": 1})
    gflow.verify(found, nx.empty_graph(["p"]), set(), set(), {"p": Plane.YZ})


def test_d_two_lone_nodes() -> None:
    assert gflow.find(lone(), set(), {"a"}, {"p": Plane.YZ}) == ({"p": {"p"}}, {"p": 1, "a": 0})


def test_e_two_lone_nodes_with_z() -> None:
    assert pflow.find(lone(), set(), {"a"}, {"p": PPlane.Z}) == ({"p": {"p"}}, {"p": 0, "a": 0})
    pflow.verify(({"p": {"p"}}, {"p": 1, "a": 0}), lone(), set(), {"a"}, {"p": PPlane.Z})


def test_f_an_input_in_its_own_set() -> None:
    found = gflow.find(edge(), {"p"}, {"a"}, {"p": Plane.YZ})
    assert found == ({"p": {"p"}}, {"p": 1, "a": 0})
    gflow.verify(found, edge(), {"p"}, {"a"}, {"p": Plane.YZ})


def test_g_the_path() -> None:
    found = gflow.find(path(), {"p"}, {"a"}, {"p": Plane.XY, "c": Plane.XY})
    assert found == ({"p": {"c"}, "c": {"a"}}, {"p": 2, "c": 1, "a": 0})
    assert found == gflow.find(path(), {"p"}, {"a"})


def test_h_both_ends_are_inputs() -> None:
    assert gflow.find(edge(), {"p", "a"}, {"a"}) is None
    assert pflow.find(edge(), {"p", "a"}, {"a"}) is None


def test_i_the_path_with_x() -> None:
    pplane = {"p": PPlane.XY, "c": PPlane.X}
    found = pflow.find(path(), {"p"}, {"a"}, pplane)
    assert found == ({"p": {"c"}, "c": {"a"}}, {"p": 1, "c": 1, "a": 0})
    pflow.verify(found, path(), {"p"}, {"a"}, pplane)


# J, K and L are the solver's. Here they are the equations of node u, whose columns are the outputs.


def test_j_of_two_equal_columns_the_first_of_the_graph() -> None:
    graph = nx.Graph([("u", "z"), ("u", "a")])
    assert gflow.find(graph, set(), {"z", "a"}) == ({"u": {"z"}}, {"u": 1, "z": 0, "a": 0})


def test_k_a_zero_row_has_no_solution() -> None:
    graph = nx.empty_graph(["u", "out"])
    assert gflow.find(graph, set(), {"out"}) is None


def test_l_two_rows_take_both_columns() -> None:
    graph = nx.Graph()
    graph.add_nodes_from(["u", "v", "z", "y"])
    graph.add_edges_from([("u", "y"), ("v", "z"), ("v", "y")])
    assert gflow.find(graph, {"u", "v"}, {"z", "y"}) == ({"u": {"z", "y"}, "v": {"z"}}, {"u": 1, "v": 1, "z": 0, "y": 0})


def test_m_a_layer_too_low() -> None:
    with pytest.raises(Refused) as caught:
        gflow.verify(({"p": {"c"}, "c": {"a"}}, {"p": 1, "c": 1, "a": 0}), path(), {"p"}, {"a"})
    assert (caught.value.number, caught.value.a, caught.value.b) == (18, "p", "c")


def test_n_an_output_above_layer_0() -> None:
    with pytest.raises(Refused) as caught:
        gflow.verify(({"p": {"a"}}, {"p": 1, "a": 1}), edge(), {"p"}, {"a"})
    assert (caught.value.number, caught.value.a, caught.value.b) == (15, "a", 1)


def line(n: int) -> tuple[nx.Graph, set[int], set[int]]:
    """The path of n nodes, its first node the input, its last the output."""
    return nx.path_graph(n), {0}, {n - 1}


def layers(n: int) -> dict[int, int]:
    return {node: n - 1 - node for node in range(n)}


@pytest.mark.parametrize("module", [gflow, pflow])
def test_128_nodes(module: ModuleType) -> None:
    found = module.find(*line(128))
    assert found == ({node: {node + 1} for node in range(127)}, layers(128))
    module.verify(found, *line(128))


def test_128_nodes_causal() -> None:
    flow.verify(({node: node + 1 for node in range(127)}, layers(128)), *line(128))


@pytest.mark.parametrize("n", [129, 255, 256, 257, 300])
@pytest.mark.parametrize("module", [gflow, pflow])
def test_more_nodes_are_refused(module: ModuleType, n: int) -> None:
    with pytest.raises(Refused, match="refused 4: ") as caught:
        module.find(*line(n))
    assert (caught.value.number, caught.value.a, caught.value.b) == (4, None, None)
    with pytest.raises(Refused, match="refused 4: "):
        module.verify(({node: {node + 1} for node in range(n - 1)}, layers(n)), *line(n))


@pytest.mark.parametrize("n", [129, 255, 256, 257, 300])
def test_more_nodes_are_refused_causal(n: int) -> None:
    with pytest.raises(Refused, match="refused 4: "):
        flow.verify(({node: node + 1 for node in range(n - 1)}, layers(n)), *line(n))
