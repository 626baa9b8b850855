//! Random jobs of every kind.

use crate::families::{self, HIGHEST, allowed, some_nodes};
use crate::grown::{grown, grown_lean};
use crate::jobs::{Job, X, XY, XZ, Y, YZ, Z};
use crate::random::Random;
use std::collections::BTreeSet;

pub const KINDS: [&str; 10] = ["dense", "sparse", "path", "grid", "tree", "star", "islands", "isolated", "circuit", "grown"];

/// Mostly small, some large.
fn size(random: &mut Random) -> usize {
    match random.below(20) {
        0..=9 => 1 + random.below(10),
        10..=16 => 8 + random.below(25),
        _ => 30 + random.below(HIGHEST - 29),
    }
}

/// Each node after the first hangs on an earlier one.
fn tree(n: usize, mode: u8, random: &mut Random) -> Job {
    let mut job = Job::new(n, mode);
    for u in 1..n {
        job.join(random.below(u), u);
    }
    job
}

fn star(n: usize, mode: u8) -> Job {
    let mut job = Job::new(n, mode);
    for u in 1..n {
        job.join(0, u);
    }
    job
}

/// Edges only between nodes of one island.
fn islands(n: usize, mode: u8, random: &mut Random) -> Job {
    let count = 2 + random.below(4);
    let mut job = families::scattered(n, mode, 1, 2, random);
    job.edges.retain(|&(a, b)| a as usize % count == b as usize % count);
    job
}

/// Some nodes lose all their edges.
fn isolated(n: usize, mode: u8, random: &mut Random) -> Job {
    let mut job = families::scattered(n, mode, 1, 3, random);
    let alone: BTreeSet<u8> = some_nodes(n, n / 3, random).into_iter().collect();
    job.edges.retain(|(a, b)| !alone.contains(a) && !alone.contains(b));
    job
}

fn grid(n: usize, mode: u8, random: &mut Random) -> Job {
    let rows = 1 + random.below(n.min(8));
    families::grid(rows, n / rows, mode)
}

fn circuit(n: usize, mode: u8, random: &mut Random) -> Job {
    let wires = 1 + random.below(n.min(12));
    let every = 2 + random.below(4);
    families::circuit(n, wires, every, mode, random)
}

fn graph(kind: &str, n: usize, mode: u8, random: &mut Random) -> Job {
    match kind {
        "dense" => families::scattered(n, mode, 1 + random.below(3), 4, random),
        "sparse" => families::scattered(n, mode, 1 + random.below(4), n + 1, random),
        "path" => families::path(n, mode),
        "grid" => grid(n, mode, random),
        "tree" => tree(n, mode, random),
        "star" => star(n, mode),
        "islands" => islands(n, mode, random),
        "isolated" => isolated(n, mode, random),
        _ => circuit(n, mode, random),
    }
}

/// Keeps the kind's own inputs and outputs, or takes none, all, or some; chosen apart, so that they may meet.
fn ends(set: &mut BTreeSet<u8>, n: usize, random: &mut Random) {
    let count = match random.below(8) {
        0..=2 if !set.is_empty() => return,
        3 => n * random.below(2),
        4 | 5 => n / 2,
        6 => n * 3 / 4,
        _ => random.below(n / 3 + 1),
    };
    *set = some_nodes(n, count, random).into_iter().collect();
}

/// All measurements of the mode alike, or mostly some of them.
fn measure(job: &mut Job, random: &mut Random) {
    let mostly: &[u8] = match random.below(8) {
        0 => &[XY],
        1 => &[XY, XY, XZ],
        2 => &[XY, XZ, YZ, XZ],
        3 => &[X, XY, Y],
        4 => &[Y, Y, XY, Z],
        5 => &[X, Y],
        6 => &[YZ, Z, XZ],
        _ => allowed(job.mode),
    };
    let fitting: Vec<u8> = mostly.iter().copied().filter(|m| allowed(job.mode).contains(m)).collect();
    let from = if fitting.is_empty() { allowed(job.mode) } else { &fitting };
    families::measure(job, from, random);
}

/// Nodes take each other's numbers.
fn renumber(job: &Job, random: &mut Random) -> Job {
    let to = some_nodes(job.n, job.n, random);
    let mut new = Job::new(job.n, job.mode);
    for &(a, b) in &job.edges {
        new.join(to[a as usize] as usize, to[b as usize] as usize);
    }
    new.inputs = job.inputs.iter().map(|&u| to[u as usize]).collect();
    new.outputs = job.outputs.iter().map(|&u| to[u as usize]).collect();
    for u in 0..job.n {
        new.measured[to[u] as usize] = job.measured[u];
    }
    new
}

pub fn job_of(kind: &str, mode: u8, n: usize, random: &mut Random) -> Job {
    if kind == "grown" {
        let job = grown(n, mode, random);
        return renumber(&job, random);
    }
    let mut job = graph(kind, n, mode, random);
    let n = job.n;
    ends(&mut job.inputs, n, random);
    ends(&mut job.outputs, n, random);
    measure(&mut job, random);
    if random.chance(1, 2) {
        return renumber(&job, random);
    }
    job
}

pub fn job(kind: &str, mode: u8, random: &mut Random) -> Job {
    let n = size(random);
    job_of(kind, mode, n, random)
}

/// A job with a flow and few columns at first: most of these are outside the old premise.
pub fn lean(mode: u8, random: &mut Random) -> Job {
    let n = size(random);
    let job = grown_lean(n, mode, random);
    renumber(&job, random)
}
