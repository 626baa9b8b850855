#!/usr/bin/env python3
"""Makes the data of crate replay, stdin and what the program should print: python3 oracle/replay.py SAMPLE crates/replay

First stand cases A to N of document 01 and its edges, each claim by its name. SAMPLE is what oracle/export wrote: jobs and flows with the
original's answers, or, where a search may lack columns, those of the papers' rule. Behind them stands a table, made here from documents 01 and 02 alone as the cases are, that reaches every refusal at each record or
list where it can occur, on both sides of its boundary; and one entry that is wrong on purpose.
An entry: kind, role, number, a, then two bytes each, lowest first: b, length of work buffer, of result buffer, of name, of query, of result; then
name, query and result. Number 0 is an answer. Kinds: f finder, v verifier, s solver, w job writer, W the same with angles, which stand behind its
lists, o read-out of angles, r the original's verdict (18 stands for 18 or 19), a adding of signal lists, e editing of a set: its query is the
length of the lent entry in two bytes, the entry, then job and flow. A finder's flow is compared after reading: the original's have layers of kind 0011.
Pairs, one call of two queries on buffers that are filled alike: t twins, whose answers and buffers must be the same afterwards, d two that must be told apart.
The query of a pair is the kind of the call, the length of the first query in two bytes, and both; number and a are the numbers of the two answers."""
import itertools
import random
import struct
import sys
import typing

WORK = 2048
OUT = 16908
HEAD = 16
CAUSAL, PLANES, PAULI = 1, 2, 3
XY, YZ, XZ, X, Y, Z = 1, 2, 3, 4, 5, 6
ACCEPTED = b"\0\0\0\0\x14\0"
NO_FLOW = b"\0\0\0\0\x13\0"
# layers in a byte for each node, and in two
NARROW, WIDE = 0x11, 0x21
ANGLES = 0x24
WRAPS = 65535
OWNER, LARGEST = 0, 2**64 - 1
# by some of its bits alone all but the last would be the owner
OPERATORS = (1, 2, 2**8, 2**16, 2**32, 2**63, LARGEST)
# the byte that stands for a role; TURNS stands for none, and is in no entry at the end
ROLES = {OWNER: 0, 1: 1, 2: 2, 2**8: 8, 2**16: 16, 2**32: 32, 2**63: 63, LARGEST: 255}
TURNS = 254


def entry(kind, query, result=b"", number=0, a=0, b=0, work=WORK, out=OUT, name="", role=None):
    rest = struct.pack("<HHHHHH", b, work, out, len(name), len(query), len(result))
    return bytes([ord(kind), TURNS if role is None else ROLES[role], number, a]) + rest + name.encode() + query + result


def kind_of(made):
    return chr(made[0])


def number_of(made):
    return made[2]


def with_roles(entries):
    """Where no role is given it turns, for each kind of its own, over the owner, 1 and the largest number. But read-out, writing with angles and the solver are
    the owner's, and what 24 refuses and twins are the operators' in turn."""
    turns = {}
    for made in entries:
        kind = kind_of(made)
        roles = OPERATORS if kind == "t" or number_of(made) == 24 else (OWNER,) if kind in "oWs" else (OWNER, 1, LARGEST)
        turn = turns.setdefault((kind, roles), itertools.cycle(roles))
        yield made[:1] + bytes([ROLES[next(turn)]]) + made[2:] if made[1] == TURNS else made


def record(kind, payload):
    return struct.pack("<IH", len(payload), kind) + bytes(payload)


def job_records(n, mode, edges=(), inputs=(), outputs=(), measured=(), angles=None):
    """Angles are the payload of their record; none at all is not the same as those of no node."""
    five = [record(1, [n, mode]), record(2, sum(edges, ())), record(3, inputs), record(4, outputs), record(5, measured)]
    return five if angles is None else five + [record(ANGLES, angles)]


def layers_record(layers, kind):
    return record(kind, struct.pack(f"<{len(layers)}{'B' if kind == NARROW else 'H'}", *layers))


def flow_records(layers, sets, kind=WIDE):
    entries = b"".join(bytes([u, len(members), *members]) for u, members in sets)
    return [layers_record(layers, kind), record(0x12, entries)]


def job(*words, **more):
    return b"".join(job_records(*words, **more))


def flow(layers, *sets, kind=WIDE):
    return b"".join(flow_records(layers, sets, kind))


# ---- Cases A to N of document 01, and its edges.

EDGE = bytes.fromhex("02000000 0100 0202 02000000 0200 0001 01000000 0300 00 01000000 0400 01 02000000 0500 0100")
EDGE_FLOW = bytes.fromhex("04000000 2100 0100 0000 03000000 1200 000101")


def path_job(mode, first, second):
    return job(3, mode, [(0, 1), (1, 2)], [0], [2], [first, second, 0])


def path_flow(*layers):
    return flow(layers, (0, [1]), (1, [2]))


def isolated(mode, measurement):
    return job(2, mode, [], [], [1], [measurement, 0])


def found(name, query, result, *others):
    """The finder writes this flow, which is accepted, and so is each of the others."""
    yield entry("f", query, result, name=f"{name} found")
    yield from accepted(name, query, result, *others)


def accepted(name, query, *flows):
    for at, flow in enumerate(flows):
        yield entry("v", query + flow, ACCEPTED, name=f"{name} accepted" + " too" * at)


def refused(name, query, number, a, b):
    yield entry("v", query, number=number, a=a, b=b, name=name)


def cases():
    old_flow = bytes.fromhex("02000000 1100 0100 03000000 1200 000101")
    own = flow([1, 0], (0, [0]))
    yield from found("A", EDGE, EDGE_FLOW, old_flow)
    yield entry("w", lists(2, PLANES, [1, 0], [0], [1], [XY, 0]), EDGE, name="A written")
    yield from found("B", job(0, PLANES), flow([]))
    yield from found("C", job(1, PLANES, measured=[YZ]), flow([1], (0, [0])))
    yield from found("D", isolated(PLANES, YZ), own)
    yield from found("E", isolated(PAULI, Z), flow([0, 0], (0, [0])), own)
    yield from found("F", job(2, PLANES, [(0, 1)], [0], [1], [YZ, 0]), own)
    yield from found("G", path_job(PLANES, XY, XY), path_flow(2, 1, 0))
    yield entry("f", job(2, PLANES, [(0, 1)], [0, 1], [1], [XY, 0]), NO_FLOW, name="H no flow")
    yield from found("I", path_job(PAULI, XY, X), path_flow(1, 1, 0))
    yield solve(1, 2, 1, 0, row(0, 1, 2), 0, row(0), name="J")
    yield solve(1, 1, 1, 0, row(1), 0, name="K")
    yield solve(2, 2, 1, 0, row(1, 2) + row(0, 1), 0, row(0, 1), name="L")
    yield from refused("M", path_job(PLANES, XY, XY) + path_flow(1, 1, 0), 18, 0, 1)
    yield from refused("N", EDGE + flow([1, 1], (0, [1])), 15, 1, 1)
    big = list(range(128))
    yield entry("f", job(128, PLANES, outputs=big, measured=[0] * 128), flow([0] * 128), name="128 nodes")
    yield entry("f", job(129, PLANES, outputs=big, measured=[0] * 129), number=4, name="129 nodes (4)")
    yield entry("f", EDGE, EDGE_FLOW, out=19, name="19 bytes hold A")
    yield entry("f", EDGE, number=20, out=18, name="18 bytes do not (20)")


# ---- Where the papers, the original and this port part: docs/DIFFERENCES.md.

def differences():
    one = flow([0], (0, [0]))
    yield from refused("an output in layer 1 (15)", job(1, PLANES, outputs=[0], measured=[0]) + flow([1]), 15, 0, 1)
    yield from refused("a YZ node in layer 0 (16)", job(1, PLANES, measured=[YZ]) + one, 16, 0, 0)
    yield from found("F in mode 3", job(2, PAULI, [(0, 1)], [0], [1], [YZ, 0]), flow([1, 0], (0, [0])))
    yield from found("a Z node alone", job(1, PAULI, measured=[Z]), one)


# ---- The sample.

def original(sample):
    at = 0
    while at < len(sample):
        kind, size = chr(sample[at]), struct.unpack_from("<I", sample, at + 1)[0]
        query = sample[at + 5:at + 5 + size]
        at += 5 + size
        size = struct.unpack_from("<I", sample, at)[0]
        answer = sample[at + 4:at + 4 + size]
        at += 4 + size
        yield entry("f", query, answer) if kind == "f" else entry("r", query, number=answer[0])


# ---- Reading: a job of three nodes, its flow, and each record changed at its boundary.

PATH = job_records(3, PLANES, [(0, 1), (1, 2)], [0], [2], [XY, XY, 0])
PATH_SETS = [(0, [1]), (1, [2])]
PATH_FLOW = flow_records([2, 1, 0], PATH_SETS)


def read(records, number, flow=PATH_FLOW):
    """Both calls read these five records of a job: the same refusal, or none."""
    query = b"".join(records)
    yield entry("f", query, b"".join(flow) if number == 0 else b"", number)
    both = query + b"".join(flow)
    yield entry("v", both, ACCEPTED if number == 0 else b"", number)


def read_flow(records, number, job=PATH):
    yield entry("v", b"".join(job + records), ACCEPTED if number == 0 else b"", number)


def changed(records, at, new):
    return records[:at] + [new] + records[at + 1:]


def heads():
    """1 and 2: five bytes of a head, another kind, a payload that is one byte short, a length that is too large; of a flow by each kind."""
    yield from heads_of(PATH + PATH_FLOW, 0)
    yield from heads_of(PATH + flow_records([2, 1, 0], PATH_SETS, NARROW), len(PATH))


def heads_of(whole, first):
    for at, part in list(enumerate(whole))[first:]:
        before = b"".join(whole[:at])
        for number, query in [
            (1, before + part[:5]),
            (1, before),
            (1, before + part[:4] + bytes([part[4] + 0x20]) + part[5:] + b"".join(whole[at + 1:])),
            (2, before + part[:-1]),
            (2, before + b"\xff\xff\xff\xff" + part[4:] + b"".join(whole[at + 1:])),
        ]:
            yield entry("v", query, number=number)
            if at < len(PATH):
                yield entry("f", query, number=number)


def payloads():
    """3 to 7, record by record, each beside a payload that passes."""
    big = list(range(128))
    yield from read(PATH, 0)
    yield from read(changed(PATH, 0, record(1, [3])), 3)
    yield from read(changed(PATH, 0, record(1, [3, PLANES, 0])), 3)
    yield from read(job_records(128, PLANES, outputs=big, measured=[0] * 128), 0, flow_records([0] * 128, []))
    yield from read(job_records(129, PLANES, outputs=big, measured=[0] * 129), 4)
    yield from read(changed(PATH, 0, record(1, [3, 0])), 4)
    yield from read(changed(PATH, 0, record(1, [3, 4])), 4)
    for edges, number in [([0, 1, 1], 3), ([0, 3], 5), ([3, 4], 5), ([1, 2, 0, 3], 5), ([1, 1], 6), ([2, 1], 6),
                          ([0, 1, 0, 1], 6), ([1, 2, 0, 1], 6), ([0, 2, 0, 1], 6)]:
        yield from read(changed(PATH, 1, record(2, edges)), number)
    for at in (2, 3):
        for nodes, number in [([3], 5), ([2, 3], 5), ([3, 0], 5), ([1, 1], 6), ([2, 0], 6)]:
            yield from read(changed(PATH, at, record(at + 1, nodes)), number)
    for measured, number in [([XY, XY], 3), ([XY, XY, 0, 0], 3), ([0, XY, 0], 7), ([XY, XY, XY], 7), ([XY, XZ + 1, 0], 7)]:
        yield from read(changed(PATH, 4, record(5, measured)), number)
    yield from read(job_records(3, PAULI, [(0, 1), (1, 2)], [0], [2], [XY, Z + 1, 0]), 7)
    for measured, number in [([XY, 0], 0), ([XY + 1, 0], 7)]:
        causal = job_records(2, CAUSAL, [(0, 1)], [0], [1], measured)
        yield from read_flow(flow_records([1, 0], [(0, [1])]), number, causal)


def flows():
    """3, 5, 6, 8 and 9 of a flow file."""
    yield from read_flow(PATH_FLOW, 0)
    yield from layers_lengths()
    yield from layers_places()
    for sets, number in [([0], 3), ([0, 1], 3), ([0, 1, 1, 1], 3), ([0, 2, 1, 1, 1], 3), ([3, 1, 1], 5), ([0, 1, 3], 5),
                         ([1, 1, 2, 3, 1, 1], 5), ([0, 2, 1, 1], 6), ([0, 2, 2, 1], 6), ([1, 1, 2, 0, 1, 1], 6), ([0, 1, 1, 0, 1, 1], 6)]:
        yield from read_flow(changed(PATH_FLOW, 1, record(0x12, sets)), number)
    yield entry("v", b"".join(PATH + PATH_FLOW) + b"\0", number=8)
    yield entry("f", b"".join(PATH) + b"\0", number=8)
    yield entry("f", b"".join(PATH + PATH_FLOW), number=8)
    causal = job_records(2, CAUSAL, [(0, 1)], [0], [1], [XY, 0])
    for sets, number in [([(0, [1])], 0), ([(0, [])], 9), ([(0, [0, 1])], 9)]:
        yield from read_flow(flow_records([1, 0], sets), number, causal)


def layers_lengths():
    """3 of the layers: n bytes of 0011, 2n of 0021, and neither a byte less nor one more, nor the length of the other kind; 2 before it."""
    for n in (0, 1, 3, 128):
        outputs = job_records(n, PLANES, outputs=range(n), measured=[0] * n)
        for kind, exact in ((NARROW, n), (WIDE, 2 * n)):
            for size in sorted({exact - 1, exact, exact + 1, n, 2 * n} - {-1}):
                layers = record(kind, [0] * size)
                yield from read_flow([layers, record(0x12, [])], 0 if size == exact else 3, outputs)
                yield from read_flow([layers[:-1]], 2 if size else 1, outputs)


def layers_places():
    """1 where another kind stands in the layers' place, either kind of layers in the sets' place, and 8 behind the sets."""
    narrow, wide = layers_record([2, 1, 0], NARROW), layers_record([2, 1, 0], WIDE)
    sets = PATH_FLOW[1]
    for kind in (0x0000, 0x0001, 0x0010, 0x0012, 0x0013, 0x0020, 0x0022, 0x0111, 0x0121, 0x1100, 0x2100, 0x1111, 0x2121):
        for payload in (narrow[6:], wide[6:]):
            yield from read_flow([record(kind, payload), sets], 1)
    for first in (narrow, wide):
        yield from read_flow([first, sets], 0)
        yield from read_flow([first], 1)
        yield from read_flow([sets, first], 1)
        for second in (narrow, wide):
            yield from read_flow([first, second, sets], 1)
            yield from read_flow([first, sets, second], 8)


# ---- The finder's own questions, and the writer's.

def finder():
    edge = job(2, PLANES, [(0, 1)], [0], [1], [XY, 0])
    found = flow([1, 0], (0, [1]))
    none = job(1, PLANES, measured=[XY])
    for mode, number in [(CAUSAL, 10), (PLANES, 0), (PAULI, 0)]:
        query = job(2, mode, [(0, 1)], [0], [1], [XY, 0])
        yield entry("f", query, b"" if number else found, number)
    for work, number in [(0, 11), (WORK - 1, 11), (WORK, 0), (WORK + 1, 11)]:
        yield entry("f", edge, b"" if number else found, number, work=work)
    for query, result in [(edge, found), (none, NO_FLOW)]:
        yield entry("f", query, result, out=len(result))
        yield entry("f", query, number=20, out=len(result) - 1)
        yield entry("f", query, number=20, out=0)
    yield entry("v", edge + found, ACCEPTED, out=6)
    yield entry("v", edge + found, number=20, out=5)
    yield entry("v", edge + found, number=20, out=0)


# ---- The verifier's questions on the flow.

def verdict(job, flows, number=0, a=0, b=0):
    """Each of the flows has this verdict."""
    for flow in flows:
        yield entry("v", job + flow, b"" if number else ACCEPTED, number, a, b)


def judged(layers, *sets):
    """The flow by each kind that holds its layers."""
    return [flow(layers, *sets, kind=kind) for kind in (NARROW, WIDE) if kind == WIDE or max(layers) < 256]


def verifier():
    path = b"".join(PATH)
    # 13: an input in another node's set; in its own it may be
    own = job(2, PLANES, [(0, 1)], [0], [1], [YZ, 0])
    yield from verdict(own, judged([1, 0], (0, [0])))
    two = job(3, PLANES, [(0, 1), (0, 2)], [1], [1, 2], [XY, 0, 0])
    yield from verdict(two, judged([1, 0, 0], (0, [2])))
    yield from verdict(two, judged([1, 0, 0], (0, [1])), 13, 0)
    # 14: a set missing, empty, or at an output
    yield from verdict(path, judged([2, 1, 0], (0, [1])), 14, 1)
    yield from verdict(path, judged([2, 1, 0], (0, []), (1, [2])), 14, 0)
    yield from verdict(path, judged([2, 1, 0], (0, [1]), (1, [2]), (2, [1])), 14, 2)
    # 15 and 16: layers of outputs and of the others, in one pass by node
    yield from verdict(path, judged([2, 1, 1], (0, [1]), (1, [2])), 15, 2, 1)
    yield from verdict(path, judged([2, 1, 255], (0, [1]), (1, [2])), 15, 2, 255)
    yield from verdict(path, judged([2, 0, 1], (0, [1]), (1, [2])), 16, 1)
    yield from verdict(path, judged([0, 1, 0], (0, [1]), (1, [2])), 16, 0)
    causal = job(2, CAUSAL, [(0, 1)], [0], [1], [XY, 0])
    yield from verdict(causal, judged([0, 0], (0, [1])), 16, 0)
    alone = job(2, PAULI, [], [], [1], [Z, 0])
    yield from verdict(alone, judged([0, 0], (0, [0])))
    # 17: an entry, though an empty one, at an output
    yield from verdict(path, judged([2, 1, 0], (0, [1]), (1, [2]), (2, [])), 17, 2)
    xpath = job(3, PAULI, [(0, 1), (1, 2)], [0], [2], [XY, X, 0])
    yield from verdict(xpath, judged([1, 1, 0], (0, [1]), (1, [2]), (2, [])), 17, 2)
    yield from order()
    yield from planes()
    yield from causal_order()
    yield from two_bytes()


def order():
    """18: a member, or a node of Odd, that is not later, and that X, Y or Z does not excuse."""
    path = b"".join(PATH)
    yield from verdict(path, judged([2, 1, 0], (0, [1]), (1, [2])))
    yield from verdict(path, judged([1, 1, 0], (0, [1]), (1, [2])), 18, 0, 1)
    triangle = job(3, PLANES, [(0, 1), (0, 2), (1, 2)], [], [2], [XY, XY, 0])
    yield from verdict(triangle, judged([1, 1, 0], (0, [2]), (1, [2])), 18, 0, 1)
    yield from verdict(triangle, judged([2, 1, 0], (0, [2]), (1, [2])), 18, 1, 0)
    for second, number in [(X, 0), (XY, 18)]:
        mixed = job(3, PAULI, [(0, 1), (1, 2)], [0], [2], [XY, second, 0])
        yield from verdict(mixed, judged([1, 1, 0], (0, [1]), (1, [2])), number, 0, 1 if number else 0)
    for second, number in [(Z, 0), (XY, 18)]:
        mixed = job(4, PAULI, [(0, 2), (1, 2), (1, 3)], [], [2, 3], [XY, second, 0, 0])
        sets = [(0, [2]), (1, [1] if second == Z else [3])]
        yield from verdict(mixed, judged([1, 1, 0, 0], *sets), number, 0, 1 if number else 0)


def planes():
    """19: a node's own measurement, all six, by whether it is in its set and in Odd; and a Y node in just one of the two."""
    for m, inside, odd in [(XY, 0, 1), (YZ, 1, 0), (XZ, 1, 1), (X, 0, 1), (X, 1, 1), (Y, 0, 1), (Y, 1, 0), (Z, 1, 0), (Z, 1, 1),
                           (XY, 1, 1), (XY, 1, 0), (YZ, 0, 1), (YZ, 1, 1), (XZ, 0, 1), (XZ, 1, 0), (X, 1, 0), (Y, 1, 1), (Z, 0, 1)]:
        edge = job(2, PAULI if m > XZ else PLANES, [(0, 1)], [], [1], [m, 0])
        yield from own_verdict(edge, m, inside, odd)
    # node 1, measured in Y and no later than 0, is in the set of 0 and not in its Odd; a common neighbour puts it in both
    y = job(4, PAULI, [(0, 1), (1, 2), (1, 3)], [], [2, 3], [XY, Y, 0, 0])
    yield from verdict(y, judged([1, 1, 0, 0], (0, [1]), (1, [2])), 19, 0)
    yield from verdict(y, judged([1, 1, 0, 0], (0, [1, 3]), (1, [2])))
    yield from verdict(y, judged([2, 1, 0, 0], (0, [1]), (1, [2])))


def own_verdict(edge, m, inside, odd):
    """On one edge with output 1: does m, the measurement of node 0, hold?"""
    yield from verdict(edge, judged([1, 0], (0, [0] * inside + [1] * odd)), 0 if own_holds(m, inside, odd) else 19, 0)


def own_holds(m, inside, odd):
    return {XY: not inside and odd, YZ: inside and not odd, XZ: inside and odd, X: odd, Y: inside != odd, Z: inside}[m]


def causal_order():
    """18 of mode 1: f(i) later, its neighbours later, the two adjacent."""
    path = job(3, CAUSAL, [(0, 1), (1, 2)], [0], [2], [XY, XY, 0])
    yield from verdict(path, judged([2, 1, 0], (0, [1]), (1, [2])))
    yield from verdict(path, judged([1, 1, 0], (0, [1]), (1, [2])), 18, 0, 1)
    apart = job(3, CAUSAL, [(1, 2)], [], [2], [XY, XY, 0])
    yield from verdict(apart, judged([1, 1, 0], (0, [2]), (1, [2])), 18, 0, 1)
    yield from verdict(apart, judged([2, 1, 0], (0, [2]), (1, [2])), 18, 0, 2)
    itself = job(2, CAUSAL, [(0, 1)], [0], [1], [XY, 0])
    yield from verdict(itself, judged([1, 0], (0, [0])), 18, 0, 0)


# Where a byte is full, where the two bytes change places, and the highest.
LAYERS = [1, 255, 256, 257, 300, 512, 65534, 65535]


def two_bytes():
    """Layers in two bytes, with gaps: both bytes count, in their order."""
    for mode in (CAUSAL, PLANES, PAULI):
        path = path_job(mode, XY, XY)
        for first, second in itertools.product(LAYERS, LAYERS):
            later = second < first
            yield from verdict(path, judged([first, second, 0], *PATH_SETS), 0 if later else 18, 0, 0 if later else 1)
        # 15: b has two bytes
        for layer in LAYERS + [258, 513, 32768, 65280]:
            yield from verdict(path, judged([2, 1, layer], *PATH_SETS), 15, 2, layer)
            yield from verdict(path, judged([layer, layer, layer], *PATH_SETS), 15, 2, layer)
        yield from long_path(mode)
    for mode in (CAUSAL, PLANES):
        # 16, in one pass with 15 by node: a low byte of 0 is not layer 0
        path, edge = path_job(mode, XY, XY), job(2, mode, [(0, 1)], [], [0], [0, XY])
        for layer in (256, 512, 65280, 65535):
            yield from verdict(path, judged([layer, 0, 0], *PATH_SETS), 16, 1)
            yield from verdict(path, judged([0, layer, 0], *PATH_SETS), 16, 0)
            yield from verdict(path, judged([layer, 0, layer], *PATH_SETS), 16, 1)
            yield from verdict(edge, judged([0, layer], (1, [0])))
            yield from verdict(edge, judged([layer, 0], (1, [0])), 15, 0, layer)
    yield from other_orders()


def long_path(mode):
    """128 nodes, each above the next though its lower byte is smaller; and one as high as the next."""
    n = 128
    path = job(n, mode, [(u, u + 1) for u in range(n - 1)], [0], [n - 1], [XY] * (n - 1) + [0])
    sets = [(u, [u + 1]) for u in range(n - 1)]
    layers = [512 * (n - 1 - u) + u for u in range(n - 1)] + [0]
    yield from verdict(path, judged(layers, *sets))
    for u in (0, 63, 125):
        yield from verdict(path, judged(changed(layers, u, layers[u + 1]), *sets), 18, u, u + 1)
    yield from verdict(path, judged(changed(layers, n - 1, 1), *sets), 15, n - 1, 1)


def other_orders():
    """18 of Odd and of a neighbour, 19, and a node that X excuses, by layers past 255."""
    triangle = job(3, PLANES, [(0, 1), (0, 2), (1, 2)], [], [2], [XY, XY, 0])
    apart = job(3, CAUSAL, [(1, 2)], [], [2], [XY, XY, 0])
    y = job(4, PAULI, [(0, 1), (1, 2), (1, 3)], [], [2, 3], [XY, Y, 0, 0])
    for first, second in [(300, 300), (256, 512), (1, 256), (255, 256), (65534, 65535), (512, 256), (256, 1), (256, 255), (65535, 65534)]:
        later = second < first
        yield from verdict(triangle, judged([first, second, 0], (0, [2]), (1, [2])), 18, int(later), int(not later))
        yield from verdict(apart, judged([first, second, 0], (0, [2]), (1, [2])), 18, 0, 2 if later else 1)
        yield from verdict(y, judged([first, second, 0, 0], (0, [1]), (1, [2])), 0 if later else 19, 0)
        yield from verdict(path_job(PAULI, XY, X), judged([first, second, 0], *PATH_SETS))
    edge = job(2, PLANES, [(0, 1)], [], [1], [XY, 0])
    alone = job(2, PAULI, [], [], [1], [Z, 0])
    for layer in (256, 65535):
        yield from verdict(edge, judged([layer, 0], (0, [0])), 19, 0)
        yield from verdict(edge, judged([layer, 0], (0, [1])))
        yield from verdict(alone, judged([layer, 0], (0, [0])))
        yield from verdict(alone, judged([0, layer], (0, [0])), 15, 1, layer)


# ---- The solver: 11 and 12.

def solve(rows, cols, sides, side, matrix, number=0, bits=b"", out=16, name=""):
    query = struct.pack("<HHHH", rows, cols, sides, side) + matrix
    return entry("s", query, bits, number, out=out, name=name)


def row(*bits):
    return sum(1 << bit for bit in bits).to_bytes(16, "little")


def solver():
    first = row(0)
    yield solve(0, 1, 1, 0, b"", 11)
    yield solve(1, 1, 0, 0, row(0), 11)
    yield solve(1, 127, 1, 0, row(0, 127), 0, first)
    yield solve(1, 128, 1, 0, row(0), 11)
    yield solve(1, 1, 127, 126, row(0, 127), 0, first)
    yield solve(1, 1, 128, 0, row(0), 11)
    yield solve(128, 1, 1, 0, row(0, 1) * 128, 0, first)
    yield solve(129, 1, 1, 0, row(0, 1) * 129, 11)
    yield solve(1, 1, 1, 0, row(0, 1)[:15], 11)
    yield solve(1, 1, 1, 0, row(0, 1) + b"\0", 11)
    yield solve(1, 1, 1, 0, row(0, 1), 11, out=15)
    yield solve(1, 1, 1, 0, row(0, 1), 11, out=17)
    yield solve(1, 1, 1, 0, row(0, 1, 2), 11)
    yield solve(1, 1, 1, 0, row(0, 1, 127), 11)
    yield solve(1, 1, 2, 1, row(0, 1), 0, row())
    yield solve(1, 1, 1, 1, row(0, 1), 12)
    yield solve(1, 1, 2, 2, row(0, 1), 12)
    # 65535 stands for a size to which nothing can be added
    yield solve(1, WRAPS, 1, 0, row(0), 11)
    yield solve(1, 1, WRAPS, 0, row(0), 11)
    yield solve(WRAPS, 1, 1, 0, row(0, 1), 11)
    yield solve(1, 1, 1, WRAPS, row(0, 1), 12)


# ---- Without columns, request 2026-05 of document 02.

def solver_without_columns():
    """Solvable exactly where the right side is zero: then the out bits become zero, and else they keep."""
    none = row()
    yield solve(1, 0, 1, 0, none, 0, none)
    yield solve(1, 0, 1, 0, row(0), 0)
    yield solve(2, 0, 2, 0, row(1) + none, 0, none)
    yield solve(2, 0, 2, 1, row(1) + none, 0)
    yield solve(2, 0, 2, 1, none + row(1), 0)
    yield solve(1, 0, 128, 127, row(*range(127)), 0, none)
    yield solve(1, 0, 128, 127, row(127), 0)
    yield solve(1, 0, 129, 0, none, 11)
    yield solve(128, 0, 1, 0, none * 128, 0, none)
    yield solve(128, 0, 1, 0, none * 127 + row(0), 0)
    yield solve(129, 0, 1, 0, none * 129, 11)
    # neither a row, nor a right side, nor an exact length, nor the width is forgone with the columns
    yield solve(0, 0, 1, 0, b"", 11)
    yield solve(1, 0, 0, 0, none, 11)
    yield solve(0, 0, 0, 0, b"", 11)
    yield solve(1, 0, 1, 0, none[:15], 11)
    yield solve(1, 0, 1, 0, none, 11, out=15)
    yield solve(1, 0, 1, 0, row(1), 11)
    yield solve(1, 0, 1, 1, none, 12)
    yield solve(1, 0, 2, 2, none, 12)


def finder_without_columns():
    """A node alone has the set {0} where its measurement asks for no node in Odd, an input too; so has one that meets only an output."""
    for inputs in ([], [0]):
        for mode, measurements in ((PLANES, (XY, YZ, XZ)), (PAULI, (XY, YZ, XZ, X, Y, Z))):
            for measured in measurements:
                first = int(mode == PLANES)
                answer = flow([first], (0, [0])) if measured in (YZ, Y, Z) else NO_FLOW
                yield entry("f", job(1, mode, inputs=inputs, measured=[measured]), answer)
    # the one output is an input, so no column; it is later from round 1 on
    beside = ([(0, 1)], [1], [1])
    yield entry("f", job(2, PLANES, *beside, [YZ, 0]), flow([1, 0], (0, [0])))
    yield entry("f", job(2, PAULI, *beside, [YZ, 0]), flow([1, 0], (0, [0])))
    yield entry("f", job(3, PAULI, *beside, [YZ, 0, Y]), flow([1, 0, 0], (0, [0]), (2, [2])))
    # two that are neighbours are in Odd of each other's set, and neither can be first; for a Z node that is no harm
    pair = [(0, 1)]
    yield entry("f", job(2, PLANES, pair, measured=[YZ, YZ]), NO_FLOW)
    yield entry("f", job(2, PAULI, pair, measured=[YZ, YZ]), NO_FLOW)
    yield entry("f", job(2, PAULI, pair, measured=[Z, Z]), flow([0, 0], (0, [0]), (1, [1])))
    yield entry("f", job(2, PAULI, pair, measured=[YZ, Z]), flow([0, 1], (0, [0]), (1, [1])))


# ---- The job writer, request 2026-01 of document 02: 3, 4, 5 and 7 list by list, then 21, then 20.

# The path of three nodes as an editor may hold it.
EDITED = {"n": 3, "mode": PLANES, "edges": [2, 1, 0, 1], "inputs": [0], "outputs": [2], "measured": [XY, XY, 0]}
NO_LISTS = {"edges": [], "inputs": [], "outputs": [], "measured": []}


def lists(n, mode, edges=(), inputs=(), outputs=(), measured=(), angles=b""):
    """A query: n and mode, eight bytes each, the lengths of the lists, the lists, and the angles where they are given."""
    parts = [bytes(part) for part in (edges, inputs, outputs, measured)]
    return struct.pack("<QQHHHH", n, mode, *map(len, parts)) + b"".join(parts) + angles


def ascending(n, mode, edges=(), inputs=(), outputs=(), measured=(), angles=None):
    """The one file of the job: each list ascending, the smaller end of an edge first; the angles bit for bit."""
    pairs = sorted(tuple(sorted(edges[at:at + 2])) for at in range(0, len(edges), 2))
    return job(n, mode, pairs, sorted(inputs), sorted(outputs), measured, angles)


def edited(number, out=OUT, **changes):
    """The lists of the path, some of them others: refused by this number, or written where it is 0."""
    given = {**EDITED, **changes}
    return entry("W" if "angles" in given else "w", lists(**given), b"" if number else ascending(**given), number, out=out)


def complete(n):
    """Each node joined to each, the last ones first."""
    return [end for a in reversed(range(n)) for b in reversed(range(a)) for end in (a, b)]


def openings():
    """4, of numbers of any size: none counts by its lowest byte alone."""
    for n in (129, 130, 255, 256, 256 + 3, 65536 + 3, 2**32 + 3, 2**63 + 3, 2**64 - 1):
        yield edited(4, n=n)
    for mode, number in [(0, 4), (CAUSAL, 0), (PLANES, 0), (PAULI, 0), (4, 4), (255, 4)]:
        yield edited(number, mode=mode)
    for mode in (256, 256 + 1, 65536 + 2, 2**32 + 2, 2**63 + 3, 2**64 - 1):
        yield edited(4, mode=mode)
    for n, number in [(0, 0), (129, 4), (2**64 - 1, 4)]:
        yield edited(number, n=n, **NO_LISTS)
    for changes, number in [({"edges": [0, 0]}, 5), ({"inputs": [0]}, 5), ({"outputs": [0]}, 5), ({"measured": [0]}, 3)]:
        yield edited(number, n=0, **{**NO_LISTS, **changes})
    big = list(reversed(range(128)))
    yield edited(0, n=128, edges=[127, 0], inputs=big, outputs=big, measured=[0] * 128)
    yield edited(4, n=129, edges=[127, 0], inputs=big, outputs=[128] + big, measured=[0] * 129)


def nodes_of_lists():
    """3 and 5 of edges, 5 of inputs and of outputs."""
    for edges, number in [([], 0), ([0], 3), ([2, 1, 0], 3), ([0, 1, 1, 2, 2], 3), ([2, 0], 0), ([3, 0], 5), ([0, 3], 5), ([3, 3], 5),
                          ([0, 2, 1, 3], 5), ([3, 1, 2, 0], 5), ([255, 0], 5), ([0, 1, 2, 128], 5)]:
        yield edited(number, edges=edges)
    for inputs, number in [([], 0), ([2], 0), ([3], 5), ([2, 0, 1], 0), ([0, 1, 3], 5), ([3, 1, 0], 5), ([255], 5), ([128], 5)]:
        yield edited(number, inputs=inputs)
    for outputs, number in [([3], 5), ([2, 3], 5), ([3, 2], 5), ([255, 2], 5), ([2, 128], 5)]:
        yield edited(number, outputs=outputs)
    full = {"n": 128, "edges": [127, 0], "inputs": [127], "outputs": [127], "measured": [XY] * 127 + [0]}
    yield edited(0, **full)
    for key in ("edges", "inputs", "outputs"):
        yield edited(5, **{**full, key: full[key] + [128] * len(full[key])})
    yield edited(0, outputs=[], measured=[XY, XY, XY])
    yield edited(0, inputs=[2, 1, 0], outputs=[2, 1, 0], measured=[0, 0, 0])


def measurements():
    """3 and 7: a byte for each node, 0 exactly at the outputs, and else at most the highest of the mode."""
    for measured in ([], [XY, XY], [XY, XY, 0, 0], [XY, XY, 0, XY]):
        yield edited(3, measured=measured)
    for mode, highest in [(CAUSAL, XY), (PLANES, XZ), (PAULI, Z)]:
        for byte in range(XY, highest + 1):
            yield edited(0, mode=mode, measured=[XY, byte, 0])
        for byte in (highest + 1, 255):
            yield edited(7, mode=mode, measured=[byte, XY, 0])
            yield edited(7, mode=mode, measured=[XY, byte, 0])
    for measured in ([0, XY, 0], [XY, 0, 0], [XY, XY, XY], [XY, 0, XY], [XY, XY, 255], [0, 0, 0]):
        yield edited(7, measured=measured)
    for outputs, measured, number in [([2, 0], [0, XY, 0], 0), ([2, 0], [0, 0, XY], 7), ([], [XY, XY, 0], 7), ([0], [XY, XY, 0], 7)]:
        yield edited(number, outputs=outputs, measured=measured)
    # the outputs as they are given: one that stands there twice is one output
    for measured, number in [([XY, XY, 0], 21), ([XY, 0, 0], 7), ([0, XY, 0], 7), ([XY, XY, XY], 7)]:
        yield edited(number, outputs=[2, 2], measured=measured)


def given_twice():
    """21: a loop, an edge twice in either direction, an input or an output twice, wherever they stand."""
    for edges in ([1, 1], [0, 0], [2, 2], [0, 1, 1, 1], [2, 2, 0, 1], [0, 1, 0, 1], [0, 1, 1, 0], [1, 0, 0, 1], [1, 0, 1, 0], [0, 1, 2, 1, 0, 2, 1, 0]):
        yield edited(21, edges=edges)
    for inputs in ([0, 0], [2, 2], [0, 1, 0], [2, 1, 0, 2], [1, 0, 0], [0] * 256):
        yield edited(21, inputs=inputs)
    for outputs, measured in [([2, 2], [XY, XY, 0]), ([2, 0, 2], [0, XY, 0]), ([0, 1, 2, 0], [0, 0, 0]), ([2] * 256, [XY, XY, 0])]:
        yield edited(21, outputs=outputs, measured=measured)
    yield edited(0, edges=[2, 0, 1, 2, 1, 0], inputs=[2, 0], outputs=[2, 0], measured=[0, XY, 0])
    long = {"n": 16, "inputs": [15, 0], "outputs": [15, 0], "measured": [0] + [XY] * 14 + [0]}
    edges = complete(16)
    yield edited(0, edges=edges, **long)
    for again in ([15, 14], [14, 15], [1, 0], [0, 1], [7, 7]):
        yield edited(21, edges=edges + again, **long)
    # the first edge, 15-14, gives its place to another one of the list, or to a loop; or it is turned round
    for first, number in [([1, 0], 21), ([0, 1], 21), ([7, 7], 21), ([14, 15], 0)]:
        yield edited(number, edges=first + edges[2:], **long)
    big = list(reversed(range(128)))
    for inputs, outputs in [(big + [127], big), (big, [0] + big), (big[1:] + [0], big)]:
        yield edited(21, n=128, edges=[], inputs=inputs, outputs=outputs, measured=[0] * 128)


def room():
    """20: the result fits exactly, or is a byte too long; the longest file, of 128 nodes each joined to each, has 16,672 bytes."""
    for out, number in [(42, 0), (41, 0), (40, 20), (6, 20), (0, 20)]:
        yield edited(number, out=out)
    for out, number in [(32, 0), (31, 20), (0, 20)]:
        yield edited(number, out=out, n=0, **NO_LISTS)
    big = list(reversed(range(128)))
    for out, number in [(16672, 0), (16671, 20)]:
        yield edited(number, out=out, n=128, edges=complete(128), inputs=big, outputs=big, measured=[0] * 128)


# Each adds to the path's lists what gets this number, in the order of the questions; for 21 so much that the list's length alone tells.
FAULTS = [(4, "mode", 2), (3, "edges", [0]), (5, "edges", [0, 3]), (5, "inputs", [3]), (5, "outputs", [3]), (3, "measured", [0]), (7, "outputs", [1]),
          (21, "edges", [1, 2] * 2), (21, "inputs", [0] * 3), (21, "outputs", [2] * 3), (20, "out", -1)]


def precedence():
    yield from earlier_told(FAULTS, edited, out=41)


def earlier_told(faults, make, **more):
    """Each fault alone, and of two the earlier one is told."""
    for chosen in [*itertools.combinations(faults, 1), *itertools.combinations(faults, 2)]:
        given = {**EDITED, **more}
        for _, key, added in chosen:
            given[key] = given[key] + added
        yield make(chosen[0][0], **given)


def random_jobs():
    """Jobs made with every list ascending, and then given in another order; in mode 2 also with angles, which are read out again."""
    draw, turns = random.Random(2026).random, random.Random(2606).random
    for _ in range(30):
        n, mode = 1 + int(draw() * 20), 1 + int(draw() * 3)
        share = draw()
        outputs = [u for u in range(n) if draw() < share]
        inputs = [u for u in range(n) if draw() < 0.3]
        edges = [(a, b) for a in range(n) for b in range(a + 1, n) if draw() < share]
        measured = [0 if u in outputs else 1 + int(draw() * {CAUSAL: XY, PLANES: XZ, PAULI: Z}[mode]) for u in range(n)]
        mixed = [sorted(part, key=lambda _: draw()) for part in (edges, inputs, outputs)]
        ends = [end for edge in mixed[0] for end in (edge if draw() < 0.5 else edge[::-1])]
        yield entry("w", lists(n, mode, ends, mixed[1], mixed[2], measured), job(n, mode, edges, inputs, outputs, measured))
        if mode == PLANES:
            angles = any_angles(turns, outputs, n)
            file = job(n, mode, edges, inputs, outputs, measured, angles)
            yield entry("W", lists(n, mode, ends, mixed[1], mixed[2], measured, angles), file)
            yield entry("o", file, record(ANGLES, angles))


# ---- Signal lists, request 2026-03 of document 02: a small model, then both calls and the verifier at each boundary.

SET_SIGNALS, ODD_SIGNALS = 0x22, 0x23
MODES = (CAUSAL, PLANES, PAULI)
# the longest flow file: 128 nodes, each with a full set, and both lists
LISTED_OUT = 21016


class Table(typing.NamedTuple):
    """A job and its flow: members by node, and the payloads of the two lists where they are stored."""
    n: int
    mode: int
    edges: list
    inputs: list
    outputs: list
    measured: list
    layers: list
    sets: dict
    kind: int = WIDE
    lists: tuple = ()
    angles: bytes = None

    def job(self):
        return job(self.n, self.mode, self.edges, self.inputs, self.outputs, self.measured, self.angles)

    def flow(self):
        records = flow_records(self.layers, sorted(self.sets.items()), self.kind)
        return b"".join(records + [record(*pair) for pair in zip((SET_SIGNALS, ODD_SIGNALS), self.lists)])

    def file(self):
        return self.job() + self.flow()


def row_bytes(n):
    return (n + 7) // 8


def odd(edges, members):
    """The nodes with an odd number of neighbours among the members."""
    ends = [b for a, b in edges if a in members] + [a for a, b in edges if b in members]
    return {u for u in ends if ends.count(u) % 2}


def bit_rows(n, flips):
    """Row j, bit i: is i another node than j, and j among those that i flips?"""
    rows = [sum(1 << i for i in range(n) if i != j and j in flips[i]) for j in range(n)]
    return b"".join(row.to_bytes(row_bytes(n), "little") for row in rows)


def with_lists(table):
    """Both lists built afresh; a node without an entry flips none."""
    sets = [table.sets.get(i, []) for i in range(table.n)]
    pair = bit_rows(table.n, sets), bit_rows(table.n, [odd(table.edges, members) for members in sets])
    return table._replace(lists=pair)


def with_garbage(table, draw):
    """Lists of the right length, and else at random, padding too."""
    size = table.n * row_bytes(table.n)
    return table._replace(lists=tuple(bytes(int(draw() * 256) for _ in range(size)) for _ in range(2)))


def column(n, rows, i, flipped):
    """Bit i of each row follows those that i flips; all other bits keep."""
    width, result = row_bytes(n), b""
    for j in range(n):
        old = int.from_bytes(rows[width * j:width * (j + 1)], "little")
        new = 1 << i if i != j and j in flipped else 0
        result += (old & ~(1 << i) | new).to_bytes(width, "little")
    return result


def with_set(table, i, members):
    flipped = (members, odd(table.edges, members))
    lists = tuple(column(table.n, rows, i, to) for rows, to in zip(table.lists, flipped))
    return table._replace(sets={**table.sets, i: members}, lists=lists)


def lent(i, members):
    return bytes([i, len(members), *members])


def add(file, result=b"", number=0, out=LISTED_OUT, name=""):
    return entry("a", file, result, number, out=out, name=name)


def edit_query(file, lent):
    return struct.pack("<H", len(lent)) + lent + file


def edit(file, lent, result=b"", number=0, out=LISTED_OUT, name=""):
    return entry("e", edit_query(file, lent), result, number, out=out, name=name)


def exactly(make, *words, result):
    """The result fits exactly, or is a byte too long."""
    yield make(*words, result, out=len(result))
    yield make(*words, number=20, out=len(result) - 1)


def adds(table):
    yield from exactly(add, table.file(), result=with_lists(table).flow())


def edits(table, i, members):
    yield from exactly(edit, table.file(), lent(i, members), result=with_set(table, i, members).flow())


def hand_made():
    """Cases A and G of document 01 with their lists, every byte by hand."""
    edge_lists = bytes.fromhex("02000000 2200 0001 02000000 2300 0000")
    path, sets = path_job(PLANES, XY, XY), bytes.fromhex("06000000 1200 000101 010102")
    layers = bytes.fromhex("06000000 2100 0200 0100 0000")
    lists = bytes.fromhex("03000000 2200 000102 03000000 2300 000001")
    new_sets = bytes.fromhex("07000000 1200 00020102 010102")
    new_lists = bytes.fromhex("03000000 2200 000103 03000000 2300 000101")
    for name, query, flow, more in [("A", EDGE, EDGE_FLOW, edge_lists), ("G", path, layers + sets, lists)]:
        yield add(query + flow, flow + more, name=f"{name} lists added")
        yield entry("v", query + flow + more, ACCEPTED, name=f"{name} lists accepted")
    yield edit(path + layers + sets + lists, lent(0, [1, 2]), layers + new_sets + new_lists, name="G set edited")
    yield edit(path + layers + sets, lent(0, [1, 2]), layers + new_sets, name="G set edited without lists")
    yield add(path + layers + new_sets + lists, layers + new_sets + new_lists, name="G lists added anew")


def any_table(draw, n, mode, kind):
    """Any graph and any sets, at outputs and with inputs too: adding and editing ask no more than reading does."""
    nodes, share = range(n), min(0.4, 4 / (n + 1))
    edges = [(a, b) for a in nodes for b in range(a + 1, n) if draw() < share]
    inputs, outputs = [u for u in nodes if draw() < 0.3], [u for u in nodes if draw() < 0.3]
    sets = {u: any_set(draw, n, mode) for u in nodes if draw() < 0.7}
    measured = [0 if u in outputs else XY for u in nodes]
    return Table(n, mode, edges, inputs, outputs, measured, [int(draw() * (256 if kind == NARROW else 65536)) for _ in nodes], sets, kind)


def any_set(draw, n, mode):
    if mode == CAUSAL:
        return [int(draw() * n)]
    return [v for v in range(n) if draw() < min(0.4, 6 / n)]


def sizes():
    """Both calls by each mode and each padding of a row, over no lists, right ones and wrong ones; 0011 stays 0011, and 0021 stays 0021."""
    draw = random.Random(2203).random
    for n, mode in itertools.product(range(10), MODES):
        table = any_table(draw, n, mode, NARROW if (n + mode) % 2 else WIDE)
        for stored in (table, with_lists(table), with_garbage(table, draw)):
            yield from adds(stored)
            if n > 0:
                yield from edits(stored, int(draw() * n), any_set(draw, n, mode))
    for n, mode in itertools.product((127, 128), MODES):
        table = any_table(draw, n, mode, NARROW if (n + mode) % 2 else WIDE)
        yield from adds(table)
        yield next(edits(with_garbage(table, draw), int(draw() * n), any_set(draw, n, mode)))
    # anew, over wrong lists of the most nodes
    yield next(adds(with_garbage(table, draw)))


def longest():
    """21,016 bytes: the longest flow file, added to and edited."""
    n = 128
    full = list(range(n))
    path = [(u, u + 1) for u in range(n - 1)]
    table = Table(n, PAULI, path, [], full, [0] * n, [65535] * n, {u: full for u in full})
    yield from adds(table)
    thin = with_lists(table._replace(sets={**table.sets, 77: []}))
    yield edit(thin.file(), lent(77, full), with_lists(table).flow())


def judged_table(draw, n, mode):
    """A flow that is accepted: u is corrected by u + k. An edge is no longer than k, so node u + k has no neighbour before u; and beyond mode 1 sets of
    later nodes are added to a set, whose Odd have no node up to u."""
    k = 1 if n < 4 or n > 9 else 2 + n % 2
    edges = [(a, b) for a in range(n) for b in range(a + 1, n) if b - a == k or b - a < k and draw() < 0.5]
    outputs = list(range(max(0, n - k), n))
    sets = {}
    for u in reversed(range(n - k)):
        members = {u + k}
        for v in range(u + 1, n - k):
            if mode != CAUSAL and n < 10 and draw() < 0.4:
                members ^= set(sets[v])
        sets[u] = sorted(members)
    measured = [0 if u in outputs else XY for u in range(n)]
    layers = [0 if u in outputs else n - u for u in range(n)]
    return Table(n, mode, edges, [0] if n else [], outputs, measured, layers, sets, NARROW if (n + mode) % 2 else WIDE)


def flipped(table, which, j, i):
    """Bit i of row j of one of the lists is the other one."""
    at, rows = row_bytes(table.n) * j + i // 8, bytearray(table.lists[which])
    rows[at] ^= 1 << i % 8
    return table._replace(lists=table.lists[:which] + (bytes(rows),) + table.lists[which + 1:])


def stored_lists():
    """22: right lists are accepted; one bit is wrong in the first row, the last, on the diagonal, in the padding; the lists are exchanged."""
    draw = random.Random(2204).random
    for n, mode in itertools.product([*range(10), 127, 128], MODES):
        right = with_lists(judged_table(draw, n, mode))
        yield entry("v", right.file(), ACCEPTED)
        bits = {(0, 0), (0, n - 1), (n - 1, 0), (n - 1, n - 1), (n // 2, n // 2)} | ({(0, n), (n - 1, 8 * row_bytes(n) - 1)} if n % 8 else set())
        wrong = [flipped(right, which, j, i) for j, i in sorted(bits) for which in range(2)] if n else []
        # each mode has a third of them; of many nodes it has one, counted from behind
        for at in range(mode - 1, len(wrong), 3) if n < 10 else [2 - 3 * mode]:
            yield entry("v", wrong[at].file(), number=22)
        if 2 < n < 10:
            yield entry("v", right._replace(lists=right.lists[::-1]).file(), number=22)
            yield entry("v", right._replace(lists=right.lists[:1] * 2).file(), number=22)


def path_table(mode, **changes):
    table = Table(3, mode, [(0, 1), (1, 2)], [0], [2], [XY, XY, 0], [2, 1, 0], {0: [1], 1: [2]})
    return table._replace(**changes)


def every_bit():
    """Each bit of both lists of the path, padding too, is compared; and before 20."""
    right = with_lists(path_table(PLANES))
    for which, j, i in itertools.product(range(2), range(3), range(8)):
        yield entry("v", flipped(right, which, j, i).file(), number=22)
    for mode in MODES:
        right = with_lists(path_table(mode))
        yield entry("v", right.file(), ACCEPTED, out=6)
        yield entry("v", right.file(), number=20, out=5)
        yield entry("v", flipped(right, 0, 1, 0).file(), number=22, out=5)
        yield entry("v", flipped(right, 1, 2, 0).file(), number=22, out=0)


def judged_first():
    """13 to 19 come before 22: a flow that is refused by one of them is so by any lists."""
    draw = random.Random(2205).random
    y = Table(4, PAULI, [(0, 1), (1, 2), (1, 3)], [], [2, 3], [XY, Y, 0, 0], [1, 1, 0, 0], {0: [1], 1: [2]})
    tables = [(y, 19, 0, 0), (path_table(PLANES, measured=[YZ, XY, 0]), 19, 0, 0), (path_table(PAULI, measured=[XY, Z, 0]), 19, 1, 0)]
    for mode in MODES:
        tables += [(path_table(mode, sets={0: [1], 1: [0]}), 13, 1, 0), (path_table(mode, sets={0: [1]}), 14, 1, 0),
                   (path_table(mode, layers=[2, 1, 1]), 15, 2, 1), (path_table(mode, layers=[1, 1, 0]), 18, 0, 1)]
    for mode in (CAUSAL, PLANES):
        tables.append((path_table(mode, layers=[2, 0, 0]), 16, 1, 0))
    for mode in (PLANES, PAULI):
        tables += [(path_table(mode, sets={0: [1], 1: [2], 2: []}), 17, 2, 0),
                   (path_table(mode, edges=[(0, 1), (0, 2), (1, 2)], sets={0: [2], 1: [2]}), 18, 1, 0)]
    for table, number, a, b in tables:
        for stored in (table, with_lists(table), with_garbage(table, draw)):
            yield entry("v", stored.file(), number=number, a=a, b=b)


def refused_by_all(file, number):
    """Verifier, adding and editing ask 1 to 9 of a file alike; of the lent entry nothing is asked then, though it would be refused too."""
    yield entry("v", file, number=number)
    yield from refused_by_both(file, number)


def refused_by_both(file, number):
    yield add(file, number=number)
    yield edit(file, b"" if number != 3 else lent(255, []), number=number)


def places():
    """1, 2, 3 and 8 of the lists; they are read behind the sets only."""
    draw = random.Random(2206).random
    for n in (0, 1, 3, 8, 9):
        table = judged_table(draw, n, PLANES)
        first, second = (record(kind, rows) for kind, rows in zip((SET_SIGNALS, ODD_SIGNALS), with_lists(table).lists))
        for number, tail in [*lengths_behind(n, first, second), *(kinds_behind(first, second) if n in (0, 3) else [])]:
            yield from refused_by_all(table.file() + tail, number)
    layers, sets = PATH_FLOW
    lists = with_lists(path_table(PLANES)).flow()[len(layers + sets):]
    for parts in ([lists, layers, sets], [layers, lists, sets], [layers, lists], [layers, lists[9:], sets]):
        yield from refused_by_all(b"".join(PATH + parts), 1)


def kinds_behind(first, second):
    """1: 0022 is there and 0023 is not. 8: what is no 0022 is not looked for, and behind 0023 there is nothing."""
    for size in (0, 1, 5):
        yield 1, first + second[:size]
    for kind in (0x0003, 0x0012, 0x0013, 0x0021, 0x0022, 0x0024, 0x0028, 0x0123, 0x2300):
        yield 1, first + record(kind, second[6:])
    for kind in (0x0002, 0x0011, 0x0012, 0x0021, 0x0023, 0x0024, 0x0028, 0x0122, 0x2200):
        yield 8, record(kind, first[6:])
        yield 8, record(kind, first[6:]) + second
        yield 8, first + second + record(kind, first[6:])
    for tail in (first[:1], first[:5], second + first, first + second + first, first + second + second, first + second + first + second,
                 first + second + b"\0", first + second + first[:5], b"\0" + first + second):
        yield 8, tail


def lengths_behind(n, first, second):
    """2 and then 3, of each list."""
    exact = n * row_bytes(n)
    for kind, before, whole, behind in [(SET_SIGNALS, b"", first, second), (ODD_SIGNALS, first, second, b"")]:
        yield 2, before + b"\xff\xff\xff\xff" + whole[4:] + behind
        yield 2, before + record(kind, bytes(exact + 1))[:-1]
        if n > 0:
            yield 2, before + whole[:-1]
        # also rows without their padding, one row less and one more, and a list by twice as many bytes
        for size in sorted({0, exact - 1, exact + 1, (n * n + 7) // 8, exact - row_bytes(n), exact + row_bytes(n), 2 * exact} - {-1, exact}):
            yield 3, before + record(kind, bytes(size)) + behind


def refused_files():
    """All that the verifier refuses in reading, above, adding and editing refuse too."""
    for made in itertools.chain(heads(), payloads(), flows()):
        if kind_of(made) == "v" and number_of(made) > 0:
            yield from refused_by_both(made[HEAD:], number_of(made))


def sets_edited():
    """A set replaced, or put in first, between others or last; with no member, its own node, an input or an output, and at an output too."""
    draw = random.Random(2207).random
    for mode, kind in zip(MODES, (NARROW, WIDE, NARROW)):
        edges, measured = [(0, 1), (0, 4), (1, 2), (1, 3), (3, 4)], [XY, 0, XY, XY, 0]
        table = Table(5, mode, edges, [0, 3], [1, 4], measured, [3, 0, 2, 1, 0], {1: [3], 3: [2]}, kind)
        for i in range(5):
            for members in [[v] for v in range(5)] if mode == CAUSAL else [[], [i], [0, 3], [1, 4], [0, 1, 2, 3, 4]]:
                new = table._replace(sets={**table.sets, i: members})
                yield edit(table.file(), lent(i, members), new.flow())
                yield edit(with_lists(table).file(), lent(i, members), with_lists(new).flow())
                wrong = with_garbage(table, draw)
                yield edit(wrong.file(), lent(i, members), with_set(wrong, i, members).flow())
            bare = with_lists(table._replace(sets={}))
            yield edit(bare.file(), lent(i, [2]), with_set(bare, i, [2]).flow())


def lent_entries():
    """3, 5, 6 and in mode 1 9 of the lent entry, after all that is asked of the file."""
    for mode in MODES:
        for stored in (path_table(mode), with_lists(path_table(mode))):
            for given, number in LENT + (LENT_ONE if mode == CAUSAL else LENT_ANY):
                result = b"" if number else with_set(stored, given[0], given[2:]).flow()
                yield edit(stored.file(), bytes(given), result, number)
        for given, number in [([], 3), ([0], 3), ([0, 0], 5), ([0, 1, 0], 5)]:
            yield edit(with_lists(judged_table(None, 0, mode)).file(), bytes(given), number=number)
    # 9 of the file comes first, though the entry it is asked of would be replaced
    for members in ([], [1, 2]):
        file = path_table(CAUSAL, sets={0: members, 1: [2]}).file()
        for given in (b"", lent(3, [1]), lent(0, [2, 1]), lent(0, []), lent(0, [1])):
            yield edit(file, given, number=9)
    full = list(range(128))
    table = Table(128, PLANES, [], [], full, [0] * 128, [0] * 128, {})
    for i, members, number in [(127, [127], 0), (0, full, 0), (128, [], 5), (0, [128], 5), (0, full + [128], 5), (0, full + [127], 6), (0, full + full[1:], 6)]:
        yield edit(table.file(), lent(i, members), b"" if number else with_set(table, i, members).flow(), number)


# By the path of three nodes, whatever the mode: an entry, and its number.
LENT = [([], 3), ([0], 3), ([0, 1], 3), ([0, 2, 1], 3), ([0, 0, 1], 3), ([0, 1, 1, 2], 3), ([0, 1, 1, 1, 1, 2], 3), ([0, 255], 3), ([0, 255, 1], 3),
        ([3], 3), ([3, 1], 3), ([3, 0, 0], 3), ([0, 2, 3], 3), ([0, 1, 3, 3], 3), ([0, 3, 2, 1], 3), ([0, 1, 2, 1], 3),
        ([3, 0], 5), ([3, 1, 1], 5), ([255, 1, 1], 5), ([0, 1, 3], 5), ([0, 1, 255], 5), ([0, 2, 1, 3], 5), ([0, 2, 3, 1], 5), ([0, 2, 3, 3], 5), ([3, 2, 2, 1], 5),
        ([0, 2, 1, 1], 6), ([0, 2, 2, 1], 6), ([0, 3, 0, 2, 1], 6), ([0, 3, 1, 0, 2], 6), ([2, 3, 0, 1, 1], 6), ([1, 4, 0, 1, 2, 2], 6),
        ([0, 1, 1], 0), ([2, 1, 2], 0)]
LENT_ONE = [([0, 0], 9), ([1, 0], 9), ([2, 0], 9), ([0, 2, 0, 1], 9), ([2, 2, 1, 2], 9), ([0, 3, 0, 1, 2], 9)]
LENT_ANY = [(given, 0) for given, _ in LENT_ONE]


# In the order of the questions. The verifier's, those of adding and those of editing go on from here.
FILE_FAULTS = ["3 layers", "3 sets", "5 sets", "6 sets", "2 first", "3 first", "1 second", "2 second", "3 second", "8 behind", "9 sets"]


def faulty(faults):
    """The path in mode 1 with its lists and these faults."""
    table = with_lists(path_table(CAUSAL))
    entries = [lent(0, [1, 2] if "9 sets" in faults else [1]), lent(1, [2])]
    if "6 sets" in faults:
        entries.reverse()
    if "5 sets" in faults:
        entries.append(lent(3, [1]))
    sets = b"".join(entries) + b"\2" * ("3 sets" in faults)
    first, second = flipped(table, 0, 2, 0).lists if "22 bits" in faults else table.lists
    records = [layers_record([2, 1, 0] + [0] * ("3 layers" in faults), WIDE), record(0x12, sets),
               faulty_list(SET_SIGNALS, first, "2 first" in faults, "3 first" in faults),
               faulty_list(0x24 if "1 second" in faults else ODD_SIGNALS, second, "2 second" in faults, "3 second" in faults)]
    return table.job() + b"".join(records) + b"\0" * ("8 behind" in faults)


def faulty_list(kind, rows, cut, long):
    whole = record(kind, rows + b"\0" * long)
    return b"\xff\xff\xff\xff" + whole[4:] if cut else whole


def faulty_entry(faults):
    members = [2, 1] if "6 lent" in faults else [1, 2] if "9 lent" in faults else [2]
    return lent(3 if "5 lent" in faults else 1, members) + b"\0" * ("3 lent" in faults)


def one_or_two(faults):
    for chosen in [*itertools.combinations(faults, 1), *itertools.combinations(faults, 2)]:
        yield int(chosen[0].split()[0]), chosen


def first_of_two():
    """Each fault alone, and of two the earlier one is told."""
    size = len(with_lists(path_table(CAUSAL)).flow())
    for number, faults in one_or_two(FILE_FAULTS + ["22 bits", "20 room"]):
        yield entry("v", faulty(faults), number=number, out=6 - ("20 room" in faults))
    for number, faults in one_or_two(FILE_FAULTS + ["20 room"]):
        yield add(faulty(faults), number=number, out=size - ("20 room" in faults))
    for number, faults in one_or_two(FILE_FAULTS + ["3 lent", "5 lent", "6 lent", "9 lent", "20 room"]):
        yield edit(faulty(faults), faulty_entry(faults), number=number, out=size - ("20 room" in faults))


# ---- Angles, request 2026-06 of document 02: what they infer, a small model; then 1, 2, 3, 4, 8, 20 and 23 by each call.

def bits_of(x):
    return struct.unpack("<Q", struct.pack("<d", x))[0]


def double(angle):
    return struct.unpack("<d", angle_bytes(angle))[0]


def angle_bytes(*angles):
    """The payload of 0024: the bits of each angle in eight bytes, lowest first."""
    return struct.pack(f"<{len(angles)}Q", *angles)


QUARTER, TWO, INFINITY = map(bits_of, (0.25, 2.0, float("inf")))
SIGN = 1 << 63
ALL_PLANES = (XY, YZ, XZ)
SPECIAL = [bits_of(x) for x in (0.0, -0.0, 0.5, 1.0, 1.5)]
# The special ones, and each with one bit changed, also the sign; the doubles below 0.5, 1, 1.5 and 2; these four by bytes in reverse; and, by either
# sign, the ends of the subnormal ones, 0.25, 2 and what follows, the highest finite one, infinity, and what is not a number, signalling and then
# quiet, by the least and the greatest payload.
TRIED = sorted({*SPECIAL, *(angle ^ 1 << at for angle in SPECIAL for at in (0, 31, 32, 51, 52, 62, 63)),
                *(angle - 1 for angle in SPECIAL[2:] + [TWO]),
                *(int.from_bytes(angle_bytes(angle), "big") for angle in SPECIAL[2:] + [TWO]),
                *(sign | angle for sign in (0, SIGN) for angle in (1, 2**52 - 1, QUARTER, TWO, TWO + 1, INFINITY - 1, INFINITY, INFINITY + 1,
                                                                   INFINITY + 2**51 - 1, INFINITY + 2**51, INFINITY + 2**52 - 1))})


def inferred(plane, angle):
    """Exactly 0 or 1, exactly 0.5 or 1.5, or any other angle; negative zero is 0."""
    whole, half = {XY: (X, Y), YZ: (Z, Y), XZ: (Z, X)}[plane]
    return whole if double(angle) in (0, 1) else half if double(angle) in (0.5, 1.5) else plane


def angle_number(angle, output=False):
    """23, or 0 where the angle is allowed: from 0 to below 2, at an output positive zero."""
    return 0 if (angle == 0 if output else 0 <= double(angle) < 2) else 23


def by_hand():
    """Cases A, B and G of document 01 with angles, every byte by hand: 0.75 in A, 0.25 in G; and G with node 1 at 1, which makes it case I."""
    edge = EDGE + bytes.fromhex("10000000 2400 000000000000e83f 0000000000000000")
    yield from found("A with angles", edge, EDGE_FLOW)
    yield entry("W", lists(2, PLANES, [1, 0], [0], [1], [XY, 0], edge[-16:]), edge, name="A with angles written")
    yield entry("o", edge, edge[-22:], name="A with angles read out")
    none = bytes.fromhex("00000000 2400")
    yield from found("B with angles", job(0, PLANES) + none, flow([]))
    yield entry("o", job(0, PLANES) + none, none, name="B with angles read out")
    for name, angle, layers in [("G with angles", "000000000000d03f", (2, 1, 0)), ("G with an angle of 1", "000000000000f03f", (1, 1, 0))]:
        path = path_job(PLANES, XY, XY) + bytes.fromhex(f"18000000 2400 000000000000d03f {angle} 0000000000000000")
        yield from found(name, path, path_flow(*layers))


# The path of four, its ends outputs, node 2 in XZ: the sets of nodes 1 and 2 by the measurement of node 1. Both lie in layer 1.
FOUR = {"n": 4, "mode": PLANES, "edges": [3, 2, 1, 0, 1, 2], "outputs": [3, 0]}
FOUR_SETS = {XY: ([0], [0, 2, 3]), YZ: ([1, 3], [0, 2, 3]), XZ: ([0, 1, 3], [0, 2, 3]), X: ([0], [0, 1, 2]), Y: ([0], [1, 2]), Z: ([1, 3], [2, 3])}


def four_calls(plane, angles, number, measurement):
    """Finder, verifier, read-out and writer: all refuse by this number, or the flow of this measurement is found and accepted."""
    given = {**FOUR, "measured": [0, plane, XZ, 0], "angles": angle_bytes(*angles)}
    file, answer = ascending(**given), flow([0, 1, 1, 0], *zip((1, 2), FOUR_SETS[measurement]))
    calls = [("f", file, answer), ("v", file + answer, ACCEPTED), ("o", file, record(ANGLES, given["angles"])), ("W", lists(**given), file)]
    return [entry(kind, query, b"" if number else result, number) for kind, query, result in calls]


def each_angle():
    """What an angle infers in each plane, or 23; and 23 at an output, first and last."""
    for angle in TRIED:
        for plane in ALL_PLANES:
            calls = four_calls(plane, (0, angle, QUARTER, 0), angle_number(angle), inferred(plane, angle))
            yield from calls if plane == XY else calls[:2]
        for angles in [(angle, QUARTER, QUARTER, 0), (0, QUARTER, QUARTER, angle)]:
            finder, _, _, writer = four_calls(XY, angles, angle_number(angle, output=True), XY)
            yield from (finder, writer)
    # of 128 nodes alone the last one's angle decides
    for angle in SPECIAL + [QUARTER, TWO - 1, TWO, SIGN + 1, INFINITY + 1]:
        query = job(128, PLANES, measured=[YZ] * 127 + [XY], angles=angle_bytes(*[QUARTER] * 127, angle))
        all_own = flow([0] * 128, *((u, [u]) for u in range(128)))
        number = angle_number(angle)
        yield entry("f", query, b"" if number else all_own if inferred(XY, angle) == Y else NO_FLOW, number)


def angle_verdicts():
    """By the inferred measurements, in mode 3: what is accepted for the planes stays accepted, 16 is not asked, and X and Y excuse."""
    for plane, angle in itertools.product(ALL_PLANES, SPECIAL + [QUARTER]):
        m = inferred(plane, angle)
        alone = job(1, PLANES, measured=[plane], angles=angle_bytes(angle))
        yield entry("f", alone, flow([0], (0, [0])) if m in (YZ, Y, Z) else NO_FLOW)
        yield from verdict(alone, judged([0], (0, [0])), 0 if m in (YZ, Y, Z) else 19)
        yield four_calls(plane, (0, angle, QUARTER, 0), 0, plane)[1]
        edge = job(2, PLANES, [(0, 1)], [], [1], [plane, 0], angle_bytes(angle, 0))
        for inside, odd in [(0, 1), (1, 0), (1, 1)]:
            yield from own_verdict(edge, m, inside, odd)
    for angle in SPECIAL + [QUARTER]:
        path = path_job(PLANES, XY, XY) + record(ANGLES, angle_bytes(QUARTER, angle, 0))
        yield from verdict(path, judged([2, 1, 0], *PATH_SETS))
        yield from verdict(path, judged([1, 1, 0], *PATH_SETS), *{X: (0,), Y: (19, 0), XY: (18, 0, 1)}[inferred(XY, angle)])
        yield from verdict(path, judged([1, 0, 0], *PATH_SETS), 18, 1, 2)
        yield from verdict(path, judged([1, 0, 1], *PATH_SETS), 15, 2, 1)
        # an entry of no member, which only mode 1 refuses by 9
        yield from verdict(path, judged([2, 1, 0], (0, []), (1, [2])), 14, 0)
    yield from verdict(b"".join(PATH), judged([1, 0, 0], *PATH_SETS), 16, 1)


ANGLED = PATH + [record(ANGLES, angle_bytes(QUARTER, QUARTER, 0))]


def tails():
    """What stands behind the five records of the path in mode 2, and the three numbers."""
    whole, wrong = ANGLED[-1], record(ANGLES, angle_bytes(QUARTER, TWO, 0))
    yield b"", 0, 0, 1
    yield whole, 0, 0, 0
    for size in (1, 5):
        yield whole[:size], 8, 1, 1
    for kind in (0x0004, 0x0005, 0x0014, 0x0023, 0x0025, 0x0028, 0x0124, 0x2400, 0x2424):
        yield record(kind, whole[6:]), 8, 1, 1
    yield whole + whole, 8, 1, 8
    yield whole + b"\0", 8, 1, 8
    # 2 before 3, 3 before 23, 23 before 8 and before the 1 of a flow
    for number, tail in [*((2, b"\xff\xff\xff\xff" + part[4:]) for part in (whole, wrong)), *((23, wrong + more) for more in (b"", b"\0", whole)),
                         *((3, record(ANGLES, wrong[6:6 + size].ljust(size, b"\0"))) for size in (0, 3, 6, 8, 16, 23, 25, 32))]:
        yield tail, number, number, number


def angle_places():
    """0024 is looked for behind 0005 in mode 2, and nowhere else."""
    flow = b"".join(PATH_FLOW)
    for tail, *numbers in tails():
        yield from three_calls(PLANES, tail, *numbers)
        for mode, searched in [(CAUSAL, 10), (PAULI, 0)]:
            yield from three_calls(mode, tail, 8 if tail else searched, 1 if tail else 0, 1)
    path, angles = b"".join(PATH), ANGLED[-1]
    for number, tail in [(1, b""), (1, angles), (2, angles[:-1]), (2, angles[:6]), (23, record(ANGLES, angle_bytes(TWO, QUARTER, 0)))]:
        yield from refused_by_all(path + tail, number)
    for tail in (angles[:-1], angles[:6]):
        yield entry("f", path + tail, number=2)
        yield entry("o", path + tail, number=2)
    for at in range(len(PATH)):
        for before in (b"".join(PATH[:at] + [angles] + PATH[at:]), b"".join(PATH[:at] + [angles] + PATH[at + 1:])):
            yield entry("f", before, number=1)
            yield entry("o", before, number=1)
            yield from refused_by_all(before + flow, 1)
    for first, reads in [(path, 1), (path + angles, 8)]:
        for behind, judges in [(flow + angles, 8), (PATH_FLOW[0] + angles + PATH_FLOW[1], 1)]:
            yield entry("f", first + behind, number=8)
            yield from refused_by_all(first + behind, judges)
            yield entry("o", first + behind, number=reads)
        yield entry("o", first + flow, number=reads)
    yield from heads_of(ANGLED + PATH_FLOW, len(ANGLED))
    # 7 comes before, and so does all that is asked of the five records
    for tail in (b"", angles, record(ANGLES, angle_bytes(TWO, TWO, TWO))):
        yield from read(changed(PATH, 4, record(5, [XY, XZ + 1, 0]) + tail), 7)
    for made in itertools.chain(heads(), payloads()):
        if kind_of(made) == "f" and number_of(made) > 0:
            yield entry("o", made[HEAD:], number=number_of(made))


def three_calls(mode, tail, finds, judges, reads):
    """The path in this mode, with this behind its five records: the numbers of finder, of verifier with a flow behind that, and of read-out."""
    file, flow = path_job(mode, XY, XY) + tail, b"".join(PATH_FLOW)
    yield entry("f", file, b"" if finds else flow, finds)
    yield from [entry("v", file + flow, ACCEPTED)] if judges == 0 else refused_by_all(file + flow, judges)
    yield entry("o", file, b"" if reads else tail, reads)


def no_node():
    """An empty 0024 is one; eight bytes are too many."""
    none, nothing = job(0, PLANES), flow([])
    for size, number in [(0, 0), (1, 3), (8, 3)]:
        file = none + record(ANGLES, bytes(size))
        yield entry("f", file, b"" if number else nothing, number)
        yield entry("v", file + nothing, b"" if number else ACCEPTED, number)
        yield entry("o", file, b"" if number else file[-6:], number)
        yield edited(number, n=0, **NO_LISTS, angles=bytes(size))


def angle_room():
    """20: the result fits exactly, or is a byte too long; the longest job with angles has 17,702 bytes. The finder's 11 after 23."""
    big = list(reversed(range(128)))
    longest = {"n": 128, "edges": complete(128), "inputs": big, "outputs": big, "measured": [0] * 128, "angles": bytes(1024)}
    for given, size in [(longest, 17702), ({"angles": ANGLED[-1][6:]}, 71), ({"n": 0, **NO_LISTS, "angles": b""}, 38)]:
        for out, number in [(size, 0), (size - 1, 20), (0, 20)]:
            yield edited(number, out=out, **given)
        yield from exactly(entry, "o", ascending(**{**EDITED, **given}), result=record(ANGLES, given["angles"]))
    file, answer = b"".join(ANGLED), b"".join(PATH_FLOW)
    yield from exactly(entry, "f", file, result=answer)
    yield from exactly(entry, "v", file + answer, result=ACCEPTED)
    for query, number in [(file, 11), (b"".join(PATH) + record(ANGLES, angle_bytes(TWO, QUARTER, 0)), 23)]:
        yield entry("f", query, number=number, work=WORK - 1)


def angle_lists():
    """The writer's 4, 3 and 23 of the angles, after 7 and before 21."""
    for size in (0, 3, 8, 16, 23, 24, 25, 32):
        yield edited(0 if size == 24 else 3, angles=bytes(size))
        for mode in (CAUSAL, PAULI):
            yield edited(4, mode=mode, angles=bytes(size))
            yield edited(4, n=0, mode=mode, **NO_LISTS, angles=bytes(size))
    yield from earlier_told(FAULTS[:7] + ANGLE_FAULTS + FAULTS[7:], with_first_angle, out=71, first=QUARTER, behind=b"")


# Mode 1, a byte behind the angles, and 2 for the first of them.
ANGLE_FAULTS = [(4, "mode", -1), (3, "behind", b"\0"), (23, "first", TWO - QUARTER)]


def with_first_angle(number, first, behind, **changes):
    return edited(number, angles=angle_bytes(first, QUARTER, 0) + behind, **changes)


def any_angles(draw, outputs, n):
    """Of one node in two an angle that is tried above, and else any."""
    kept = [angle for angle in TRIED if angle_number(angle) == 0]
    return angle_bytes(*(0 if u in outputs else kept[int(draw() * len(kept))] if draw() < 0.5 else bits_of(2 * draw()) for u in range(n)))


def lists_beside_angles():
    """Signal lists are added, edited and judged as without angles."""
    draw = random.Random(2208).random
    for n in (0, 1, 3, 8, 9, 128):
        table = any_table(draw, n, PLANES, WIDE)
        table = table._replace(angles=any_angles(draw, table.outputs, n))
        for stored in (table, with_garbage(table, draw)):
            yield from adds(stored)
            if n > 0:
                yield from edits(stored, int(draw() * n), any_set(draw, n, PLANES))
        right = judged_table(draw, n, PLANES)
        right = with_lists(right._replace(angles=any_angles(draw, right.outputs, n)))
        yield entry("v", right.file(), ACCEPTED)
        if n > 0:
            yield entry("v", flipped(right, 0, n - 1, 0).file(), number=22)


# ---- Roles, request 2026-07 of document 02: 24 at its two calls, then twins, which no operator can tell apart.

def written(table):
    """The query that writes the job of a table, with its angles."""
    return lists(table.n, table.mode, sum(table.edges, ()), table.inputs, table.outputs, table.measured, table.angles)


def each_role():
    """Every call by every role: at two of them an operator is refused, and at no other has the role a say."""
    table = path_table(PLANES, angles=ANGLED[-1][6:])
    set_of_0 = (0, [1, 2])
    calls = [("f", table.job(), table.flow()), ("v", table.file(), ACCEPTED), ("a", table.file(), with_lists(table).flow()),
             ("e", edit_query(table.file(), lent(*set_of_0)), with_set(table, *set_of_0).flow()), ("w", lists(**EDITED), ascending(**EDITED)),
             ("o", table.job(), ANGLED[-1]), ("W", written(table), table.job())]
    for role, (kind, query, result) in itertools.product(ROLES, calls):
        closed = kind in "oW" and role != OWNER
        yield entry(kind, query, b"" if closed else result, 24 if closed else 0, role=role, out=LISTED_OUT)
        # 11 and 20 are not the role's either
        if kind == "f":
            yield entry(kind, query, number=11, role=role, work=0)
        yield entry(kind, query, number=24 if closed else 20, role=role, out=len(result) - 1)
    # no bytes, and a job without angles: 1 for the owner
    for role, query, out in itertools.product(ROLES, (b"", b"".join(PATH)), (OUT, 0)):
        yield entry("o", query, number=24 if role != OWNER else 1, role=role, out=out)
    edge = EDGE + bytes.fromhex("10000000 2400 000000000000e83f 0000000000000000")
    yield entry("o", edge, number=24, name="A with angles read out by an operator (24)", role=1)
    yield entry("W", lists(2, PLANES, [1, 0], [0], [1], [XY, 0], edge[-16:]), number=24, name="A with angles written by an operator (24)", role=1)


def before_any_other():
    """24 whatever is right or wrong: all that is asked above of read-out and of writing with angles, asked by operators; each second time no byte is lent."""
    made = [each for part in (by_hand, angle_places, no_node, angle_room, angle_lists) for each in part() if kind_of(each) in "oW"]
    for at, each in enumerate(made):
        out, name, query = struct.unpack_from("<HHH", each, 8)
        start = HEAD + name
        yield entry(kind_of(each), each[start:start + query], number=24, out=out if at % 2 else 0)
    for n, mode in [(2**64 - 1, 2**64 - 1), (0, 0), (129, PLANES)]:
        yield entry("W", lists(n, mode), number=24)
        yield entry("W", lists(n, mode, [0], [255], [255], [255], b"\xff"), number=24, out=0)


# What infers the same in every plane: 0 and 1, 0.5 and 1.5, and any other angle.
ALLOWED = [angle for angle in TRIED if angle_number(angle) == 0]
ALIKE = [[angle for angle in ALLOWED if inferred(XY, angle) == m] for m in (X, Y, XY)]
HALF = bits_of(0.5)


def pair(kind, call, queries, number=0, other=None, **more):
    first, second = queries
    query = call.encode() + struct.pack("<H", len(first)) + first + second
    return entry(kind, query, number=number, a=number if other is None else other, **more)


def twins_by_hand():
    """Case G with angles, every byte by hand: 0.25 and the double behind it at node 0; then 0.5 against 0.25 at node 1, which is told apart."""
    quarter, next_one, half, zero = (bytes.fromhex(word) for word in ("000000000000d03f", "010000000000d03f", "000000000000e03f", "0000000000000000"))
    jobs = [path_job(PLANES, XY, XY) + bytes.fromhex("18000000 2400") + first + quarter + zero for first in (quarter, next_one)]
    yield pair("t", "f", jobs, name="G's twins found", role=1)
    yield pair("t", "v", [file + path_flow(2, 1, 0) for file in jobs], name="G's twins accepted", role=1)
    yield pair("t", "o", jobs, 24, name="G's twins read out by an operator (24)", role=1)
    yield pair("d", "o", jobs, name="G's twins read out by the owner", role=OWNER)
    jobs = [path_job(PLANES, XY, XY) + bytes.fromhex("18000000 2400") + quarter + second + zero for second in (half, quarter)]
    yield pair("d", "f", jobs, name="G, a half told from a quarter", role=1)


def told_apart():
    """Whether an angle is special does show: by finder and verifier, and by nothing else to an operator; to the owner by all that has the angles."""
    tables = {m: path_table(PLANES, angles=angle_bytes(QUARTER, angle, 0), layers=[1, 1, 0]) for m, angle in ((X, 0), (Y, HALF), (XY, QUARTER))}
    numbers = {X: 0, Y: 19, XY: 18}
    for one, two in itertools.permutations(tables, 2):
        both = [tables[one], tables[two]]
        jobs, files = [table.job() for table in both], [table.file() for table in both]
        for role in (OWNER, 1, LARGEST):
            yield pair("d", "f", jobs, role=role)
            yield pair("d", "v", files, numbers[one], numbers[two], role=role)
        yield pair("t", "a", files)
        yield pair("t", "e", [edit_query(file, lent(0, [2])) for file in files])
        yield pair("t", "o", jobs, 24)
        yield pair("t", "W", [written(table) for table in both], 24)
        if one < two:
            yield from owners(*both)
    # an operator learns nothing of a job by 24, though it has no angles or is none
    for one, two in itertools.permutations([b"".join(PATH), b"".join(ANGLED), b"", b"\0"], 2):
        yield pair("t", "o", [one, two], 24)


def owners(one, two):
    """The owner reads out and writes each table's own angles, so the two are told apart."""
    both = [one, two]
    for table in both:
        yield entry("o", table.job(), record(ANGLES, table.angles))
        yield entry("W", written(table), table.job())
    yield pair("d", "o", [table.job() for table in both], role=OWNER)
    yield pair("d", "W", [written(table) for table in both], role=OWNER)


def each_bit():
    """Two ordinary angles that differ in one bit, any but the highest two, by which they would be 2 or more, or negative; and two zeros that differ in the sign."""
    tenths = bits_of(0.3)
    for one, two in [*((tenths, tenths ^ 1 << at) for at in range(62)), (0, SIGN)]:
        both = [path_table(PLANES, angles=angle_bytes(angle, QUARTER, 0)) for angle in (one, two)]
        yield pair("t", "f", [table.job() for table in both])
        yield pair("t", "v", [table.file() for table in both])
        yield pair("d", "o", [table.job() for table in both], role=OWNER)


def each_alike():
    """Each angle that is tried above beside the next that infers the same, in each plane."""
    for plane, angles in itertools.product(ALL_PLANES, ALIKE):
        for one, two in zip(angles, angles[1:] + angles[:1]):
            both = [four_table([plane])._replace(angles=angle_bytes(0, angle, QUARTER, 0)) for angle in (one, two)]
            yield pair("t", "f", [table.job() for table in both])
            yield pair("t", "v", [table.file() for table in both])


def four_table(planes):
    """A path of four for each of the planes, and the flow that these have without angles."""
    measured, edges, sets = [], [], {}
    for at, plane in zip(range(0, 4 * len(planes), 4), planes):
        measured += [0, plane, XZ, 0]
        edges += [(at + u, at + u + 1) for u in range(3)]
        sets.update({at + u: [at + v for v in members] for u, members in zip((1, 2), FOUR_SETS[plane])})
    outputs = [at for at, m in enumerate(measured) if m == 0]
    return Table(len(measured), PLANES, edges, [], outputs, measured, [int(m != 0) for m in measured], sets)


def twin_angles(draw, table, special):
    """Two lists of angles, at each measured node two that infer the same: special ones by this share, and else ordinary ones, of which one in two is tried
    above; and the first list with the last bit of its first ordinary angle changed, or the one before, where that would make it special."""
    def ordinary():
        return ALIKE[2][int(draw() * len(ALIKE[2]))] if draw() < 0.5 else bits_of(2 * draw()) | 1
    one, two = [0] * table.n, [0] * table.n
    for u in range(table.n):
        if u not in table.outputs:
            of = ALIKE[int(draw() * 2)] if draw() < special else [ordinary(), ordinary()]
            one[u], two[u] = sorted(of, key=lambda _: draw())[:2]
    near = list(one)
    for u in [u for u in range(table.n) if inferred(XY, one[u]) == XY][:1]:
        near[u] ^= 1 if inferred(XY, one[u] ^ 1) == XY else 2
    return angle_bytes(*one), angle_bytes(*two), angle_bytes(*near)


def drawn_twins():
    """Twins of every size, with and without special angles, by every call."""
    draw = random.Random(2207).random
    shares = {0: [0], 2: [0, 1], 3: [0, 0.5, 1], 5: [0.5], 8: [0], 9: [0.5], 33: [0.5], 128: [0]}
    tables = [(judged_table(draw, n, PLANES), share) for n in shares for share in shares[n]]
    tables += [(Table(1, PLANES, [], [], [], [YZ], [1], {0: [0]}), share) for share in (0, 1)]
    tables += [(four_table([ALL_PLANES[int(draw() * 3)] for _ in range(count)]), share) for count, share in [(1, 0), (2, 0.5), (6, 0.5)]]
    for table, share in tables:
        yield from twins_of(table, *twin_angles(draw, table, share))
    many = four_table([ALL_PLANES[int(draw() * 3)] for _ in range(32)])
    one, two, _ = twin_angles(draw, many, 0.5)
    yield from itertools.islice(every_call(many._replace(angles=one), many._replace(angles=two)), 8)


def twins_of(table, one, two, near):
    """By every call the two lists of angles, and by finder and verifier the nearest one."""
    both = [table._replace(angles=angles) for angles in (one, two)]
    yield from every_call(*both)
    if one != two:
        yield from owners(*both)
    if one != near:
        both = [table._replace(angles=angles) for angles in (one, near)]
        yield pair("t", "f", [each.job() for each in both])
        yield pair("t", "v", [each.file() for each in both])
        yield pair("d", "o", [each.job() for each in both], role=OWNER)


def every_call(one, two):
    """Answered, and refused: what a refusal leaves is compared too. Five bytes hold no result."""
    both, n = [one, two], one.n
    jobs, files = [table.job() for table in both], [table.file() for table in both]
    edited = [edit_query(file, lent(max(n - 1, 0), [0] * min(n, 1))) for file in files]
    yield pair("t", "f", jobs)
    yield pair("t", "f", jobs, role=OWNER)
    yield pair("t", "v", files)
    yield pair("t", "v", files, role=OWNER)
    yield pair("t", "a", files)
    yield pair("t", "e", edited, 0 if n else 5)
    yield pair("t", "o", jobs, 24)
    yield pair("t", "W", [written(table) for table in both], 24)
    yield pair("t", "f", jobs, 11, work=WORK - 1)
    yield pair("t", "e", [edit_query(file, lent(n, [])) for file in files], 5)
    for call, queries in [("f", jobs), ("v", files), ("a", files), ("e", edited)]:
        if n or call != "e":
            yield pair("t", call, queries, 20, out=5)
        yield pair("t", call, [query + b"\0" for query in queries], 8)
        if call != "f":
            yield pair("t", call, [query[:-1] for query in queries], 2 if one.sets else 1)
    yield from refused_flows(both)


def refused_flows(both):
    """13, 14, 15, 17 and 22 of the verifier; and what it refuses, with lists added, and edited."""
    table = both[0]
    measured = sorted(table.sets)
    wrong = [(22, {"lists": flipped(with_lists(table), 1, 0, table.n - 1).lists})] if table.n else []
    if table.outputs:
        last = table.outputs[-1]
        wrong += [(15, {"layers": changed(table.layers, last, 1)}), (17, {"sets": {**table.sets, last: []}})]
    if measured:
        wrong.append((14, {"sets": {u: table.sets[u] for u in measured[1:]}}))
    if table.inputs and measured[1:]:
        wrong.append((13, {"sets": {**table.sets, measured[-1]: table.inputs[:1]}}))
    for number, changes in wrong:
        files = [each._replace(**changes).file() for each in both]
        yield pair("t", "v", files, number)
        if number in (14, 22):
            yield pair("t", "a", files)
            yield pair("t", "e", [edit_query(file, lent(0, [])) for file in files])


def inferred_verdicts():
    """18 and 19, which go by what is inferred: node 0 of an edge in each plane by each of its sets, and the path with its nodes in one layer."""
    for plane, angles, (inside, odd) in itertools.product(ALL_PLANES, ALIKE, [(0, 1), (1, 0), (1, 1)]):
        number = 0 if own_holds(inferred(plane, angles[0]), inside, odd) else 19
        ask = flow([1, 0], (0, [0] * inside + [1] * odd))
        yield pair("t", "v", [job(2, PLANES, [(0, 1)], [], [1], [plane, 0], angle_bytes(angle, 0)) + ask for angle in angles[-2:]], number)
    for angles, number in zip(ALIKE, (0, 19, 18)):
        for layers, given in [([1, 1, 0], number), ([1, 0, 0], 18)]:
            both = [path_table(PLANES, layers=layers, angles=angle_bytes(first, angle, 0)) for first, angle in zip(ALIKE[2], angles[-2:])]
            yield pair("t", "v", [table.file() for table in both], given)


def expected(entries, wrong):
    """What the program prints: the entries with a name, the wrong entry, and how many of each number, of twins, and of other pairs are as stored."""
    names = [e[HEAD:HEAD + struct.unpack_from("<H", e, 10)[0]].decode() for e in entries]
    lines = [f"entry {at}: DIFFERENT" if at == wrong else f"{name}: as the documents say" for at, name in enumerate(names) if name or at == wrong]
    places = [kind_of(e) if kind_of(e) in "td" else number_of(e) for at, e in enumerate(entries) if at != wrong]
    for number in range(25):
        lines.append(f"number {number}: {places.count(number)} as stored")
    lines.append(f"twins: {places.count('t')} as stored")
    lines.append(f"pairs told apart: {places.count('d')} as stored")
    lines.append(f"entries: {len(entries)}")
    return "\n".join(lines) + "\n"


def main():
    sample, folder = sys.argv[1:]
    entries = list(cases()) + list(differences())
    with open(sample, "rb") as file:
        entries.extend(original(file.read()))
    # wrong on purpose: case A with its node in layer 257, of which the lower byte alone is as it should be
    wrong = len(entries)
    entries.append(entry("f", job(2, PLANES, [(0, 1)], [0], [1], [XY, 0]), flow([257, 0], (0, [1]))))
    writer = (openings, nodes_of_lists, measurements, given_twice, room, precedence, random_jobs)
    signals = (hand_made, sizes, longest, stored_lists, every_bit, judged_first, places, refused_files, sets_edited, lent_entries, first_of_two)
    angles = (by_hand, each_angle, angle_verdicts, angle_places, no_node, angle_room, angle_lists, lists_beside_angles)
    roles = (each_role, before_any_other, twins_by_hand, told_apart, each_bit, each_alike, inferred_verdicts, drawn_twins)
    for part in (heads, payloads, flows, finder, verifier, solver, solver_without_columns, finder_without_columns) + writer + signals + angles + roles:
        entries.extend(part())
    entries = list(with_roles(entries))
    with open(f"{folder}/stdin", "wb") as file:
        file.write(b"".join(entries))
    with open(f"{folder}/stdout", "w") as file:
        file.write(expected(entries, wrong))


if __name__ == "__main__":
    main()
