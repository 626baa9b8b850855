//! The families of jobs that are timed, each at several sizes.

use harness::angles::angled;
use harness::families::{ALL_PLANES, ALL_SIX, circuit, grid, measure, path, scattered, some_nodes};
use harness::jobs::{Job, PAULI, PLANES, X, XY, Y};
use harness::random::Random;

pub const SIZES: [usize; 4] = [16, 32, 64, 128];
pub const SEED: u64 = 1;
/// Random families take the mean of so many jobs, or matrices.
pub const JOBS: usize = 8;

pub struct Family {
    pub name: &'static str,
    /// The jobs of so many nodes.
    pub jobs: fn(usize) -> Vec<Job>,
}

pub const FAMILIES: [Family; 13] = [
    Family { name: "planes, path", jobs: |n| vec![path(n, PLANES)] },
    Family { name: "planes, grid", jobs: |n| vec![grid_of(n, PLANES)] },
    Family { name: "planes, circuits", jobs: |n| circuits(n, PLANES, &[XY]) },
    Family { name: "planes, random sparse", jobs: |n| random_jobs(n, PLANES, 3, n) },
    Family { name: "planes, random dense", jobs: |n| random_jobs(n, PLANES, 1, 2) },
    Family { name: "Pauli, path of XY", jobs: |n| vec![path(n, PAULI)] },
    Family { name: "Pauli, path of X and XY", jobs: |n| measured(path(n, PAULI), &[X, XY]) },
    Family { name: "Pauli, grid of X and XY", jobs: |n| measured(grid_of(n, PAULI), &[X, XY]) },
    Family { name: "Pauli, circuits of X, Y, XY", jobs: |n| circuits(n, PAULI, &[X, Y, XY]) },
    Family { name: "Pauli, circuits of X and Y", jobs: |n| circuits(n, PAULI, &[X, Y]) },
    Family { name: "Pauli, random sparse", jobs: |n| random_jobs(n, PAULI, 3, n) },
    Family { name: "Pauli, random dense", jobs: |n| random_jobs(n, PAULI, 1, 2) },
    Family { name: "angles, circuits of XY", jobs: |n| at_angles(circuits(n, PLANES, &[XY])) },
];

/// A grid of 4 or 8 rows.
fn grid_of(n: usize, mode: u8) -> Job {
    let rows = if n < 64 { 4 } else { 8 };
    grid(rows, n / rows, mode)
}

/// Random graphs with few or many outputs and inputs.
fn random_jobs(n: usize, mode: u8, part: usize, whole: usize) -> Vec<Job> {
    let mut random = Random::new(SEED);
    let one = |i: usize| {
        let mut job = scattered(n, mode, part, whole, &mut random);
        let outputs = n * (i % 4 + 1) / 5;
        job.outputs.extend(some_nodes(n, outputs, &mut random));
        job.inputs.extend(some_nodes(n, n / 8, &mut random));
        measure(&mut job, if mode == PLANES { &ALL_PLANES } else { &ALL_SIX }, &mut random);
        job
    };
    (0..JOBS).map(one).collect()
}

fn circuits(n: usize, mode: u8, from: &[u8]) -> Vec<Job> {
    let mut random = Random::new(SEED);
    let one = |_| {
        let mut job = circuit(n, n / 8, 3, mode, &mut random);
        measure(&mut job, from, &mut random);
        job
    };
    (0..JOBS).map(one).collect()
}

/// The jobs, half of their nodes at special angles.
fn at_angles(jobs: Vec<Job>) -> Vec<Job> {
    let mut random = Random::new(SEED);
    jobs.iter().map(|job| angled(job, &mut random)).collect()
}

fn measured(mut job: Job, from: &[u8]) -> Vec<Job> {
    measure(&mut job, from, &mut Random::new(SEED));
    vec![job]
}
