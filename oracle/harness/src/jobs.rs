//! Jobs and flows, and their bytes as documents 01 and 02 have them.

use std::collections::{BTreeMap, BTreeSet};

pub const CAUSAL: u8 = 1;
pub const PLANES: u8 = 2;
pub const PAULI: u8 = 3;

pub const XY: u8 = 1;
pub const YZ: u8 = 2;
pub const XZ: u8 = 3;
pub const X: u8 = 4;
pub const Y: u8 = 5;
pub const Z: u8 = 6;
const NAMES: [&str; 7] = ["-", "XY", "YZ", "XZ", "X", "Y", "Z"];

/// Layers in a byte for each node, and in two.
pub const LAYERS: u16 = 0x0011;
pub const WIDE_LAYERS: u16 = 0x0021;
pub const SETS: u16 = 0x0012;
pub const ANGLES: u16 = 0x0024;
/// A finder's answer where there is no flow.
pub const NO_FLOW: u16 = 0x0013;
/// The highest layer that 0021 can hold.
pub const HIGHEST_LAYER: usize = 65_535;

#[derive(Clone, Debug)]
pub struct Job {
    pub n: usize,
    pub mode: u8,
    pub edges: BTreeSet<(u8, u8)>,
    pub inputs: BTreeSet<u8>,
    pub outputs: BTreeSet<u8>,
    /// A measurement for each node; those of outputs are not written.
    pub measured: Vec<u8>,
    /// An angle for each node, in units of pi, where they are given; those of outputs are not written.
    pub angles: Option<Vec<f64>>,
}

#[derive(Clone, Debug, PartialEq, Eq)]
pub struct Flow {
    /// The kind of the layers' record.
    pub kind: u16,
    pub layers: Vec<usize>,
    pub sets: BTreeMap<u8, BTreeSet<u8>>,
}

pub fn put_record(out: &mut Vec<u8>, kind: u16, payload: &[u8]) {
    out.extend((payload.len() as u32).to_le_bytes());
    out.extend(kind.to_le_bytes());
    out.extend(payload);
}

impl Job {
    /// All nodes in XY, with no edge, input or output.
    pub fn new(n: usize, mode: u8) -> Self {
        let none = BTreeSet::new();
        Job { n, mode, edges: BTreeSet::new(), inputs: none.clone(), outputs: none, measured: vec![XY; n], angles: None }
    }

    pub fn join(&mut self, a: usize, b: usize) {
        self.edges.insert((a.min(b) as u8, a.max(b) as u8));
    }

    pub fn bytes(&self) -> Vec<u8> {
        let edges: Vec<u8> = self.edges.iter().flat_map(|&(a, b)| [a, b]).collect();
        let inputs: Vec<u8> = self.inputs.iter().copied().collect();
        let outputs: Vec<u8> = self.outputs.iter().copied().collect();
        let measured: Vec<u8> = (0..self.n).map(|u| self.written(u)).collect();
        let mut out = Vec::new();
        put_record(&mut out, 0x0001, &[self.n as u8, self.mode]);
        put_record(&mut out, 0x0002, &edges);
        put_record(&mut out, 0x0003, &inputs);
        put_record(&mut out, 0x0004, &outputs);
        put_record(&mut out, 0x0005, &measured);
        if let Some(angles) = &self.angles {
            let written = |u: usize| if self.is_output(u) { 0.0 } else { angles[u] };
            let payload: Vec<u8> = (0..self.n).flat_map(|u| written(u).to_le_bytes()).collect();
            put_record(&mut out, ANGLES, &payload);
        }
        out
    }

    fn is_output(&self, u: usize) -> bool {
        self.outputs.contains(&(u as u8))
    }

    /// The measurement as a job file has it.
    fn written(&self, u: usize) -> u8 {
        if self.is_output(u) { 0 } else { self.measured[u] }
    }

    /// The mode, and whether there are angles, for people.
    pub fn told_mode(&self) -> String {
        format!("mode {}{}", self.mode, if self.angles.is_some() { " with angles" } else { "" })
    }

    /// For people.
    pub fn told(&self) -> String {
        let listed = |all: Vec<String>| if all.is_empty() { "none".to_string() } else { all.join(" ") };
        let nodes = |set: &BTreeSet<u8>| listed(set.iter().map(u8::to_string).collect());
        let edges = listed(self.edges.iter().map(|(a, b)| format!("{a}-{b}")).collect());
        let measured = listed((0..self.n).map(|u| NAMES[self.written(u) as usize].to_string()).collect());
        let (n, inputs, outputs) = (self.n, nodes(&self.inputs), nodes(&self.outputs));
        let angles = self.angles.as_ref().map_or(String::new(), |angles| format!(", angles {angles:?}"));
        format!("n {n}, edges {edges}, inputs {inputs}, outputs {outputs}, measured {measured}{angles}")
    }
}

/// What a finder writes: the flow file, or 0013.
pub fn found_bytes(flow: Option<&Flow>) -> Vec<u8> {
    let mut none = Vec::new();
    put_record(&mut none, NO_FLOW, &[]);
    flow.map_or(none, Flow::bytes)
}

/// What a finder wrote for a job of n nodes, for people.
pub fn told_found(bytes: &[u8], n: usize) -> String {
    let told = |flow: Flow| format!("layers {:?}, sets {:?}", flow.layers, flow.sets);
    Flow::read(bytes, n).map_or("no flow".to_string(), told)
}

impl Flow {
    pub fn bytes(&self) -> Vec<u8> {
        let mut sets = Vec::new();
        for (&u, set) in &self.sets {
            sets.extend([u, set.len() as u8]);
            sets.extend(set);
        }
        let bytes_of = |&layer: &usize| match self.kind {
            LAYERS => vec![u8::try_from(layer).expect("0011 has a byte for a layer")],
            _ => u16::try_from(layer).expect("0021 has two").to_le_bytes().to_vec(),
        };
        let layers: Vec<u8> = self.layers.iter().flat_map(bytes_of).collect();
        let mut out = Vec::new();
        put_record(&mut out, self.kind, &layers);
        put_record(&mut out, SETS, &sets);
        out
    }

    /// The flow of n nodes in these bytes; none where they are no flow file, with nothing left in it and of the right lengths: written again,
    /// the flow gives the same bytes.
    pub fn read(bytes: &[u8], n: usize) -> Option<Flow> {
        let [layers, (SETS, sets)] = records(bytes)?[..] else { return None };
        let flow = Flow { kind: layers.0, layers: layers_of(layers)?, sets: entries(sets) };
        (flow.layers.len() == n && flow.bytes() == bytes).then_some(flow)
    }
}

/// A record's kind and its payload.
pub type Record<'a> = (u16, &'a [u8]);

/// All records; none where the bytes do not end with one.
pub fn records(mut bytes: &[u8]) -> Option<Vec<Record<'_>>> {
    let mut all = Vec::new();
    while !bytes.is_empty() {
        let (&[a, b, c, d, low, high], rest) = bytes.split_first_chunk()?;
        let (payload, rest) = rest.split_at_checked(u32::from_le_bytes([a, b, c, d]) as usize)?;
        all.push((u16::from_le_bytes([low, high]), payload));
        bytes = rest;
    }
    Some(all)
}

/// The number of each node's layer, by either kind.
pub fn layers_of((kind, payload): Record) -> Option<Vec<usize>> {
    match kind {
        LAYERS => Some(payload.iter().map(|&layer| layer.into()).collect()),
        WIDE_LAYERS => Some(payload.chunks_exact(2).map(|two| u16::from_le_bytes([two[0], two[1]]).into()).collect()),
        _ => None,
    }
}

/// As far as they are whole.
fn entries(mut sets: &[u8]) -> BTreeMap<u8, BTreeSet<u8>> {
    let mut all = BTreeMap::new();
    while let [node, count, rest @ ..] = sets {
        let Some((members, rest)) = rest.split_at_checked(*count as usize) else { break };
        all.insert(*node, members.iter().copied().collect());
        sets = rest;
    }
    all
}
