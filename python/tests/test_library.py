"""The package against the header, its calls, threads, and its own documentation."""

from __future__ import annotations

import doctest
import inspect
import re
import shutil
import subprocess
import sys
import threading
from concurrent.futures import ThreadPoolExecutor
from pathlib import Path
from types import ModuleType
from typing import Any

import networkx as nx
import pytest
from programs import ROOT

import bolzsimeg
from bolzsimeg import _library, common, flow, gflow, pflow

HEADER = (ROOT / "include" / "bolzsimeg.h").read_text()
NUMBERS = {name: int(number) for name, number in re.findall(r"^    BOLZ_(\w+) = (\d+)", HEADER, re.MULTILINE)}
PACKAGE = Path(bolzsimeg.__file__).parent
CALLS = ["bolz_write_job", "bolz_find", "bolz_verify"]


def test_words_are_the_headers() -> None:
    words = {NUMBERS[name]: text for name, text in re.findall(r'case BOLZ_(\w+): return "(.*)";', HEADER)}
    assert common.WORDS == words
    assert len(words) == len(NUMBERS) == 24


@pytest.mark.parametrize("name", ["OPERATOR", "MOST_NODES", "WORK_BYTES", "MOST_OUTPUT", "MOST_JOB"])
def test_sizes_are_the_headers(name: str) -> None:
    assert re.findall(rf"^#define BOLZ_{name} (\d+)", HEADER, re.MULTILINE) == [str(getattr(_library, name))]


def test_the_layers_question_is_the_headers() -> None:
    assert _library.EXCESSIVE_NON_ZERO_LAYER == NUMBERS["EXCESSIVE_NON_ZERO_LAYER"]


def test_only_the_headers_calls_are_exported() -> None:
    listed = subprocess.run(["nm", "-D", "--defined-only", PACKAGE / "libbolzsimeg.so"], capture_output=True, text=True, check=True).stdout
    assert {line.split()[2] for line in listed.splitlines()} == set(re.findall(r"^uint64_t (\w+)\(", HEADER, re.MULTILINE))


def test_every_call_is_the_operators(monkeypatch: pytest.MonkeyPatch) -> None:
    """The role changes no answer of these calls, so only the argument itself tells it."""
    roles = []

    def heard(name: str) -> Any:
        call = getattr(_library, name)
        return lambda role, *rest: roles.append((name, role)) or call(role, *rest)  # type: ignore[func-returns-value]

    names = [name.upper() for name in CALLS]
    for name in names:
        monkeypatch.setattr(_library, name, heard(name))
    gflow.verify(gflow.find(nx.path_graph(2), {0}, {1}), nx.path_graph(2), {0}, {1})  # type: ignore[arg-type]
    write, find, verify = names
    assert roles == [(name, _library.OPERATOR) for name in (write, find, write, verify)]


def test_no_other_call_is_named() -> None:
    named = {name for file in PACKAGE.glob("*.py") for name in re.findall(r'"(bolz_\w+)"', file.read_text())}
    assert named == set(CALLS)


def test_the_library_is_missing(tmp_path: Path) -> None:
    shutil.copytree(PACKAGE, tmp_path / "bolzsimeg", ignore=shutil.ignore_patterns("*.so"))
    run = subprocess.run([sys.executable, "-c", "import bolzsimeg"], cwd=tmp_path, capture_output=True, text=True)
    missing = tmp_path / "bolzsimeg" / "libbolzsimeg.so"
    assert run.stderr.splitlines()[-1] == f"ImportError: {missing} is missing: `bash python/build` makes it"


def path_flow(length: int) -> Any:
    """The flow of the path."""
    return {node: {node + 1} for node in range(length - 1)}, {node: length - 1 - node for node in range(length)}


def find_often(start: threading.Barrier, length: int, times: int) -> list[Any]:
    """What was found for the path of this length that is not its flow."""
    graph = nx.path_graph(length)
    start.wait()
    found = [gflow.find(graph, {0}, {length - 1}) for _ in range(times)]
    return [other for other in found if other != path_flow(length)]


@pytest.mark.parametrize("length, times", [(2, 60000), (120, 2000)])
def test_two_threads_at_once(length: int, times: int) -> None:
    """Searches beside others, short ones and long ones, with the interpreter switching between the two as often as it can."""
    interval = sys.getswitchinterval()
    sys.setswitchinterval(1e-6)
    start = threading.Barrier(2)
    with ThreadPoolExecutor(2) as threads:
        one = threads.submit(find_often, start, 100, 2000)
        other = threads.submit(find_often, start, length, times)
    sys.setswitchinterval(interval)
    assert one.result() == []
    assert other.result() == []


def test_arguments_stay_as_they_were() -> None:
    graph, iset, oset, planes = nx.path_graph(3), {0}, {2}, {0: "XY", 1: "XY"}
    before = graph.copy()
    found = gflow.find(graph, iset, oset, planes)
    gflow.verify(({0: {1}, 1: {2}}, {0: 2, 1: 1, 2: 0}), graph, iset, oset, planes)
    assert nx.utils.graphs_equal(graph, before)
    assert (iset, oset, planes) == ({0}, {2}, {0: "XY", 1: "XY"})
    assert found == ({0: {1}, 1: {2}}, {0: 2, 1: 1, 2: 0})


@pytest.mark.parametrize("module", [bolzsimeg, common, flow, gflow, pflow])
def test_everything_public_has_an_example(module: ModuleType) -> None:
    own = [
        thing
        for name, thing in vars(module).items()
        if not name.startswith("_") and (inspect.isfunction(thing) or inspect.isclass(thing)) and thing.__module__ == module.__name__
    ]
    for thing in [module, *own]:
        assert doctest.DocTestParser().get_examples(thing.__doc__ or ""), thing
