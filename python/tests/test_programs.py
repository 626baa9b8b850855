"""Random jobs and flows: the package must say what the two programs say, node for node."""

from __future__ import annotations

import random
from collections import Counter
from typing import Any, Callable

import networkx as nx
import pytest
from programs import Found, Job, Told, found_by_program, random_job, random_names, told_by_program

from bolzsimeg import Refused, flow, gflow, pflow

MODULES = {2: gflow, 3: pflow}
JOBS = 500  # for each mode
MOST = 20  # nodes
ALL_OF = {1: {0, 13, 14, 15, 16, 18}, 2: {0, 13, 14, 15, 16, 17, 18, 19}, 3: {0, 13, 14, 15, 17, 18, 19}}  # what a flow may be told, 0: accepted
NAMES_A = {13, 14, 15, 16, 17, 18, 19}  # the refusals whose words name a node
Flow = tuple[dict[int, set[int]], list[int]]


def jobs(mode: int) -> list[tuple[random.Random, Job]]:
    """Jobs of every size, each with the generator for what is to come."""
    generators = [random.Random(1000 * mode + k) for k in range(JOBS)]
    return [(rng, random_job(rng, mode, k % (MOST + 1))) for k, rng in enumerate(generators)]


def by_name(job: Job, found: Found) -> Any:
    """A flow in numbers under the users' names."""
    if found is None:
        return None
    sets, layers = found
    f = {job.names[node]: {job.names[v] for v in members} for node, members in sets.items()}
    return f, {job.names[node]: layer for node, layer in layers.items()}


def told(verify: Callable[..., None], *arguments: Any) -> Any:
    """Number, a and b of the refusal, None where it is accepted."""
    try:
        verify(*arguments)
    except Refused as refusal:
        return refusal.number, refusal.a, refusal.b
    return None


def told_by_name(job: Job, answer: Told) -> Any:
    """The program's answer as the package should give it."""
    if answer is None:
        return None
    number, a, b = answer
    named_b = {15: b, 18: job.names[b] if b < len(job.names) else "no node"}
    return number, job.names[a] if number in NAMES_A else None, named_b.get(number)


@pytest.mark.parametrize("mode", MODULES)
def test_finds_what_the_program_finds(mode: int) -> None:
    some = Counter[bool]()
    for rng, job in jobs(mode):
        expected = by_name(job, found_by_program(job))
        assert MODULES[mode].find(*job.arguments(rng)) == expected, job
        some[expected is None] += 1
    assert min(some[True], some[False]) > JOBS // 10  # both answers are among them


@pytest.mark.parametrize("mode", MODULES)
def test_verifies_what_it_finds(mode: int) -> None:
    for rng, job in jobs(mode):
        arguments = job.arguments(rng)
        found = MODULES[mode].find(*arguments)
        if found is not None:
            MODULES[mode].verify(found, *arguments)


def made_up(rng: random.Random, job: Job) -> set[int]:
    """Some nodes, seldom an input among them."""
    return {node for node in range(len(job.names)) if rng.random() < (0.01 if node in job.inputs else 0.3)}


def mutated(rng: random.Random, job: Job, flow: Flow) -> Flow:
    """The flow with one thing changed: a member, a layer, or a set given or taken away."""
    sets, layers = {node: set(members) for node, members in flow[0].items()}, list(flow[1])
    node = rng.randrange(len(layers))
    change = rng.randrange(6)
    if change < 2 and sets:
        sets[rng.choice(sorted(sets))] ^= {node}
    elif change == 2:
        layers[node] = rng.choice([0, 1, layers[node] + 1, 65535])
    elif change == 3:
        sets.pop(node, None)
    elif change == 4:
        sets.setdefault(node, set())
    else:
        sets[node] = made_up(rng, job)
    return sets, layers


def starting_flow(rng: random.Random, job: Job) -> Flow:
    """The flow of a job; where there is none, one that is made up."""
    found = found_by_program(job)
    n = len(job.names)
    if found is None:
        return {node: made_up(rng, job) for node in job.measured}, [int(node in job.measured) for node in range(n)]
    return found[0], [found[1][node] for node in range(n)]


@pytest.mark.parametrize("mode", MODULES)
def test_refuses_what_the_program_refuses(mode: int) -> None:
    numbers = Counter[int]()
    for rng, job in jobs(mode):
        if job.names:
            sets, layers = mutated(rng, job, starting_flow(rng, job))
            answer = told_by_program(job, {node: sorted(members) for node, members in sets.items()}, layers)
            pair = by_name(job, (sets, dict(enumerate(layers))))
            assert told(MODULES[mode].verify, pair, *job.arguments(rng)) == told_by_name(job, answer), (job, sets, layers)
            numbers[0 if answer is None else answer[0]] += 1
    assert numbers.keys() >= ALL_OF[mode]


def causal_pair(rng: random.Random, job: Job) -> tuple[dict[int, int], list[int]]:
    """A causal flow that may be right: where the sets found for plane XY have one member each, these, else one that is made up."""
    n = len(job.names)
    found = found_by_program(job._replace(mode=2))
    if found is not None and all(len(members) == 1 for members in found[0].values()):
        return {node: min(members) for node, members in found[0].items()}, [found[1][node] for node in range(n)]
    later = [node for node in range(n) if node not in job.inputs] or [0]
    return {node: rng.choice(later) for node in job.measured}, [rng.randrange(1, 4) if node in job.measured else 0 for node in range(n)]


def mutate_causal(rng: random.Random, f: dict[int, int], layers: list[int]) -> None:
    """Changes one thing, or nothing: the node that corrects, a layer, or an entry taken away."""
    node = rng.randrange(len(layers))
    change = rng.randrange(6)
    if change == 0:
        f[node] = rng.randrange(len(layers))
    elif change == 1:
        layers[node] = rng.choice([0, 1, 65535])
    elif change == 2:
        f.pop(node, None)


def test_causal_flows_as_the_program() -> None:
    numbers = Counter[int]()
    for rng, job in jobs(1):
        if job.names:
            f, layers = causal_pair(rng, job)
            mutate_causal(rng, f, layers)
            answer = told_by_program(job, {node: [v] for node, v in f.items()}, layers)
            pair = {job.names[node]: job.names[v] for node, v in f.items()}, dict(zip(job.names, layers))
            assert told(flow.verify, pair, *job.arguments(rng)[:3]) == told_by_name(job, answer), (job, f, layers)
            numbers[0 if answer is None else answer[0]] += 1
    assert numbers.keys() >= ALL_OF[1]


def test_large_sets_as_the_program() -> None:
    rng = random.Random(128)
    half = range(64)
    edges = [(a, 64 + b) for a in half for b in half if a == b or (a < b and rng.random() < 0.5)]
    job = Job(2, edges, set(half), set(range(64, 128)), dict.fromkeys(half, "XY"), random_names(rng, 128))
    found = found_by_program(job)
    assert found is not None and max(map(len, found[0].values())) > 20
    assert gflow.find(*job.arguments(rng)) == by_name(job, found)


def test_a_number_is_the_place_in_the_graph() -> None:
    """Of two sets that are both right the library takes the one of lower numbers; so the graph's order decides, and not the names'."""
    for first, second in [("a", "b"), ("b", "a")]:
        graph = nx.Graph()
        graph.add_nodes_from(["m", first, second])
        graph.add_edges_from([("m", "a"), ("m", "b")])
        assert gflow.find(graph, set(), {"a", "b"}) == ({"m": {first}}, {"m": 1, "a": 0, "b": 0})
