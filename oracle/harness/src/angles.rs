//! Jobs with angles, request 2026-06 of document 02: ours by record 0024, the original and the papers' rule by the measurements that the angles come to.

use crate::finders::{self, all_jobs, find_ours};
use crate::jobs::{Flow, Job, PAULI, PLANES, X, XY, XZ, Y, YZ, Z, records};
use crate::many::{self, KINDS};
use crate::ours::{self, Answer, OUT_BYTES, OWNER};
use crate::random::Random;
use crate::roles;
use crate::rule::SMALL;
use crate::tally::{Tally, hex};
use crate::verifiers::{around_chance, around_found, small_size};

/// What a plane at this angle, in units of pi, comes to; 0, of an output, stays.
fn inferred(plane: u8, angle: f64) -> u8 {
    let (whole, half) = match plane {
        XY => (X, Y),
        YZ => (Z, Y),
        XZ => (Z, X),
        other => return other,
    };
    if angle == 0.0 || angle == 1.0 {
        return whole;
    }
    if angle == 0.5 || angle == 1.5 { half } else { plane }
}

/// The same of the payloads of 0005 and 0024.
pub fn inferred_bytes(planes: &[u8], angles: &[u8]) -> Vec<u8> {
    let angles = angles.chunks_exact(8).map(|eight| f64::from_le_bytes(eight.try_into().expect("eight bytes")));
    planes.iter().zip(angles).map(|(&plane, angle)| inferred(plane, angle)).collect()
}

/// The job that is searched and judged: with angles one of mode 3.
pub fn working(job: &Job) -> Job {
    let Some(angles) = &job.angles else { return job.clone() };
    let measured = job.measured.iter().zip(angles).map(|(&plane, &angle)| inferred(plane, angle)).collect();
    Job { mode: PAULI, measured, angles: None, ..job.clone() }
}

/// In half of the cases special, else a neighbour of these or of 2, or any.
fn some_angle(random: &mut Random) -> f64 {
    match random.below(6) {
        0..=2 => random.pick(&[0.0, -0.0, 0.5, 1.0, 1.5]),
        3 => f64::next_up(random.pick(&[0.0, 0.5, 1.0, 1.5])),
        4 => f64::next_down(random.pick(&[0.5, 1.0, 1.5, 2.0])),
        _ => (random.next() >> 11) as f64 / (1u64 << 52) as f64,
    }
}

/// Another angle, by its bits, of which the same is inferred in every plane: often the one that differs in the lowest bit.
fn another(angle: f64, random: &mut Random) -> f64 {
    loop {
        let other = if random.chance(1, 2) { f64::from_bits(angle.to_bits() ^ 1) } else { some_angle(random) };
        if other.to_bits() != angle.to_bits() && inferred(XY, other) == inferred(XY, angle) {
            return other;
        }
    }
}

/// The job with another angle at every node, and the same inferred measurements.
pub fn twin(job: &Job, random: &mut Random) -> Job {
    let angles = job.angles.as_ref().map(|angles| angles.iter().map(|&angle| another(angle, random)).collect());
    Job { angles, ..job.clone() }
}

pub fn angled(job: &Job, random: &mut Random) -> Job {
    let angles = (0..job.n).map(|_| some_angle(random)).collect();
    Job { angles: Some(angles), ..job.clone() }
}

/// Beside the same job without angles: what ours finds there is accepted here, and no layer is larger.
fn compare_planes(tally: &mut Tally, job: &Job) {
    let planes = Job { angles: None, ..job.clone() };
    let [alone, with] = [&planes, job].map(|job| Flow::read(&find_ours(tally.role(), &job.bytes()).ok()?, job.n));
    let (label, right) = match (&alone, &with) {
        (None, None) => ("no flow", true),
        (None, Some(_)) => ("a flow by the angles only", true),
        (Some(_), None) => ("a flow for the planes only", false),
        (Some(alone), Some(with)) => {
            let accepted = matches!(ours::verify(tally.role(), &[job.bytes(), alone.bytes()].concat(), &mut [0; 6]), Answer::Value(_));
            let no_larger = with.layers.iter().zip(&alone.layers).all(|(a, b)| a <= b);
            (if with.layers == alone.layers { "the same layers" } else { "smaller layers" }, accepted && no_larger)
        }
    };
    tally.add("angles, ours beside ours for the planes alone", label, right, || format!("{} alone {alone:?} with {with:?}", job.told()));
}

/// Written from its lists backwards, and its angles read out, by the owner: the job's own bytes.
fn compare_written(tally: &mut Tally, job: &Job) {
    let (file, mut out) = (job.bytes(), vec![0; OUT_BYTES]);
    let parts = records(&file).expect("a job's records");
    let [edges, inputs, outputs] = [1, 2, 3].map(|at| parts[at].1.iter().rev().copied().collect::<Vec<u8>>());
    let wrote = ours::write_job_angles(OWNER, job.n, job.mode.into(), [&edges, &inputs, &outputs, parts[4].1, parts[5].1], &mut out);
    let mut same = wrote == Answer::Value(file.len()) && out.starts_with(&file);
    let record = &file[file.len() - 6 - 8 * job.n..];
    let read = ours::read_angles(OWNER, &file, &mut out);
    same &= read == Answer::Value(record.len()) && out.starts_with(record);
    tally.add("angles, ours written and read out", "the job's bytes", same, || format!("file {} {wrote:?} {read:?}", hex(&file)));
}

/// Roles go by other random numbers, so that the jobs are those of the seed as before.
fn compare(tally: &mut Tally, family: &str, job: &Job, others: &mut Random) {
    finders::compare(tally, &format!("finder, {}, {family}", job.told_mode()), job);
    compare_planes(tally, job);
    compare_written(tally, job);
    roles::compare_written(tally, job, others);
    roles::compare_twins(tally, job, others);
}

/// Each job of planes with some angles.
pub fn all_small(tally: &mut Tally, random: &mut Random) {
    let others = &mut random.beside();
    for n in 0..=SMALL {
        all_jobs(n, PLANES, |job| compare(tally, &format!("all jobs of {n} nodes"), &angled(job, random), others));
    }
}

pub fn random_ones(tally: &mut Tally, random: &mut Random, count: usize) {
    let others = &mut random.beside();
    for kind in KINDS.into_iter().cycle().take(count) {
        let job = angled(&many::job(kind, PLANES, random), random);
        compare(tally, &format!("random, {kind}"), &job, others);
        around_found(tally, &job, random);
        let n = small_size(random);
        let small = angled(&many::job_of(kind, PLANES, n, random), random);
        around_chance(tally, &small, random);
    }
}
