//! Families of jobs.

use crate::jobs::{Job, PAULI, PLANES, X, XY, XZ, Y, YZ, Z};
use crate::random::Random;

/// No job has more nodes.
pub const HIGHEST: usize = 128;

pub const ALL_PLANES: [u8; 3] = [XY, YZ, XZ];
pub const ALL_SIX: [u8; 6] = [XY, YZ, XZ, X, Y, Z];

/// The measurements that a mode allows.
pub fn allowed(mode: u8) -> &'static [u8] {
    match mode {
        PLANES => &ALL_PLANES,
        PAULI => &ALL_SIX,
        _ => &[XY],
    }
}

pub fn measure(job: &mut Job, from: &[u8], random: &mut Random) {
    for m in &mut job.measured {
        *m = random.pick(from);
    }
}

/// A path from input to output.
pub fn path(n: usize, mode: u8) -> Job {
    let mut job = Job::new(n, mode);
    for u in 1..n {
        job.join(u - 1, u);
    }
    if n > 0 {
        job.inputs.insert(0);
        job.outputs.insert(n as u8 - 1);
    }
    job
}

/// A grid whose first column is the inputs and whose last is the outputs.
pub fn grid(rows: usize, cols: usize, mode: u8) -> Job {
    let mut job = Job::new(rows * cols, mode);
    for u in 0..rows * cols {
        if u % rows + 1 < rows {
            job.join(u, u + 1);
        }
        if u + rows < rows * cols {
            job.join(u, u + rows);
        }
    }
    job.inputs.extend(0..rows as u8);
    job.outputs.extend((rows * (cols - 1)) as u8..(rows * cols) as u8);
    job
}

/// Each edge is there in `part` of `whole` cases.
pub fn scattered(n: usize, mode: u8, part: usize, whole: usize, random: &mut Random) -> Job {
    let mut job = Job::new(n, mode);
    for a in 0..n {
        for b in a + 1..n {
            if random.chance(part, whole) {
                job.join(a, b);
            }
        }
    }
    job
}

/// Wires of a circuit: each new node prolongs a wire, or in one of `every` steps the ends of two wires are joined instead; so there
/// is a causal flow, and the layers are many. Nodes are numbered in the order of time.
pub fn circuit(n: usize, wires: usize, every: usize, mode: u8, random: &mut Random) -> Job {
    let mut job = Job::new(n, mode);
    let mut ends: Vec<usize> = (0..wires).collect();
    job.inputs.extend(0..wires as u8);
    let mut next = wires;
    while next < n {
        let w = random.below(wires);
        if wires > 1 && random.chance(1, every) {
            let other = (w + 1 + random.below(wires - 1)) % wires;
            job.join(ends[w], ends[other]);
            continue;
        }
        job.join(ends[w], next);
        ends[w] = next;
        next += 1;
    }
    job.outputs.extend(ends.iter().map(|&u| u as u8));
    job
}

/// So many different nodes.
pub fn some_nodes(n: usize, count: usize, random: &mut Random) -> Vec<u8> {
    let mut nodes: Vec<u8> = (0..n as u8).collect();
    for i in 0..count {
        let j = i + random.below(n - i);
        nodes.swap(i, j);
    }
    nodes.truncate(count);
    nodes
}
