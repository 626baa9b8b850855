//! The original, from bytes to bytes.

use crate::angles::inferred_bytes;
use crate::jobs::{ANGLES, CAUSAL, LAYERS, NO_FLOW, PAULI, PLANES, Record, SETS, X, XY, XZ, Y, YZ, Z, layers_of, put_record, records};
use hashbrown::HashMap;
use original::common::{FlowValidationError, Graph, Layer, Nodes};
use original::flow;
use original::gflow::{self, Plane};
use original::pflow::{self, PPlane};
use std::borrow::Cow;

type Sets = HashMap<usize, Nodes>;

struct Job<'a> {
    mode: u8,
    graph: Graph,
    inputs: Nodes,
    outputs: Nodes,
    measured: Cow<'a, [u8]>,
}

fn set_of(bytes: &[u8]) -> Nodes {
    bytes.iter().map(|&u| u as usize).collect()
}

/// All records of a readable file.
fn records_of(file: &[u8]) -> Vec<Record<'_>> {
    records(file).expect("the file ends with a record")
}

/// The job in the first five records, the bytes being a valid job's; with angles behind them the job that these come to, since the original
/// has none.
fn read<'a>(records: &[Record<'a>]) -> Job<'a> {
    let [opening, edges, inputs, outputs, measured] = [0, 1, 2, 3, 4].map(|at| records[at].1);
    let mut graph = vec![Nodes::new(); opening[0] as usize];
    for pair in edges.chunks_exact(2) {
        let (a, b) = (pair[0] as usize, pair[1] as usize);
        graph[a].insert(b);
        graph[b].insert(a);
    }
    let (mode, measured) = match records.get(5) {
        Some((ANGLES, angles)) => (PAULI, inferred_bytes(measured, angles).into()),
        _ => (opening[1], measured.into()),
    };
    Job { mode, graph, inputs: set_of(inputs), outputs: set_of(outputs), measured }
}

/// The measurement of each node that has one.
fn table<T>(measured: &[u8], of: impl Fn(u8) -> T) -> HashMap<usize, T> {
    measured.iter().enumerate().filter(|(_, m)| **m != 0).map(|(u, &m)| (u, of(m))).collect()
}

fn plane(m: u8) -> Plane {
    match m {
        XY => Plane::XY,
        YZ => Plane::YZ,
        XZ => Plane::XZ,
        _ => unreachable!("mode 2 has planes only"),
    }
}

fn pauli(m: u8) -> PPlane {
    match m {
        XY => PPlane::XY,
        YZ => PPlane::YZ,
        XZ => PPlane::XZ,
        X => PPlane::X,
        Y => PPlane::Y,
        Z => PPlane::Z,
        _ => unreachable!("there are six measurements"),
    }
}

fn write(found: Option<(Sets, Layer)>, out: &mut Vec<u8>) {
    out.clear();
    let Some((sets, layers)) = found else {
        return put_record(out, NO_FLOW, &[]);
    };
    let layers: Vec<u8> = layers.iter().map(|&l| l as u8).collect();
    let mut entries = Vec::new();
    for u in 0..layers.len() {
        let Some(set) = sets.get(&u) else { continue };
        entries.extend([u as u8, set.len() as u8]);
        let start = entries.len();
        entries.extend(set.iter().map(|&v| v as u8));
        entries[start..].sort_unstable();
    }
    put_record(out, LAYERS, &layers);
    put_record(out, SETS, &entries);
}

/// How many nodes and measurements the job in the records has, once the original's graph, sets and table are made of them.
fn made(records: &[Record]) -> usize {
    let job = read(records);
    let measured = if job.mode == PLANES { table(&job.measured, plane).len() } else { table(&job.measured, pauli).len() };
    job.graph.len() + measured
}

/// Only what the harness does before the original's finder is called in mode 2 or 3: its arguments are made of the bytes.
pub fn prepare(file: &[u8]) -> usize {
    made(&records_of(file))
}

/// The same before its verifier is called, on a job and a flow file.
pub fn prepare_verify(file: &[u8]) -> usize {
    let records = records_of(file);
    let (sets, layers) = flow_of(&records);
    made(&records) + sets.len() + layers.len()
}

/// The causal flow with sets of one node each.
fn find_causal(job: Job) -> Option<(Sets, Layer)> {
    let (f, layers) = flow::find(job.graph, job.inputs, job.outputs)?;
    Some((f.into_iter().map(|(u, v)| (u, Nodes::from_iter([v]))).collect(), layers))
}

/// The finder of the job's mode, from the bytes of a valid job to a flow file or 0013.
pub fn find(file: &[u8], out: &mut Vec<u8>) {
    let job = read(&records_of(file));
    let found = match job.mode {
        CAUSAL => find_causal(job),
        PLANES => gflow::find(job.graph, job.inputs, job.outputs, table(&job.measured, plane)),
        _ => pflow::find(job.graph, job.inputs, job.outputs, table(&job.measured, pauli)),
    };
    write(found, out);
}

fn sets_of(mut bytes: &[u8]) -> Sets {
    let mut sets = Sets::new();
    while let [node, count, rest @ ..] = bytes {
        let (members, rest) = rest.split_at(*count as usize);
        sets.insert(*node as usize, set_of(members));
        bytes = rest;
    }
    sets
}

/// The flow in the two records behind the job's.
fn flow_of(records: &[Record]) -> (Sets, Layer) {
    let [.., layers, (_, sets)] = records else { unreachable!("a flow file is behind the job") };
    (sets_of(sets), layers_of(*layers).expect("the layers are 0011 or 0021"))
}

/// Document 01's number for the original's error, with a and b.
fn numbers(error: &FlowValidationError) -> (u8, usize, usize) {
    use FlowValidationError::*;
    match *error {
        InvalidFlowCodomain { node } => (13, node, 0),
        InvalidFlowDomain { node } => (14, node, 0),
        ExcessiveNonZeroLayer { node, layer } => (15, node, layer),
        ExcessiveZeroLayer { node } => (16, node, 0),
        InvalidMeasurementSpec { node } => (17, node, 0),
        InconsistentFlowOrder { nodes } => (18, nodes.0, nodes.1),
        InconsistentFlowPlane { node, .. } | InconsistentFlowPPlane { node, .. } => (19, node, 0),
    }
}

/// The verifier of the job's mode, on a job and a flow file: 0 where it accepts, else the number of its refusal, a and b.
pub fn verify(file: &[u8]) -> (u8, usize, usize) {
    let records = records_of(file);
    let job = read(&records);
    let (sets, layers) = flow_of(&records);
    let verdict = match job.mode {
        CAUSAL => {
            let one = |(u, set): (usize, Nodes)| (u, *set.iter().next().expect("one member, by question 9"));
            flow::verify((sets.into_iter().map(one).collect(), layers), job.graph, job.inputs, job.outputs)
        }
        PLANES => gflow::verify((sets, layers), job.graph, job.inputs, job.outputs, table(&job.measured, plane)),
        _ => pflow::verify((sets, layers), job.graph, job.inputs, job.outputs, table(&job.measured, pauli)),
    };
    match verdict {
        Ok(()) => (0, 0, 0),
        Err(error) => numbers(error.value.downcast_ref().expect("the original's own error")),
    }
}
