//! The verifiers of modes 1, 2 and 3: accepting or not, and 13 to 17 by number.

use crate::finders::all_jobs;
use crate::flows::{DAMAGES, all_flows, by_chance, damaged, found, spread, widened};
use crate::jobs::{CAUSAL, Flow, Job, PAULI, PLANES};
use crate::many::{self, KINDS};
use crate::ours::{self, Answer};
use crate::random::Random;
use crate::tally::{Tally, hex};
use crate::theirs;

const MODES: [u8; 3] = [CAUSAL, PLANES, PAULI];
/// All flows for all jobs of up to so many nodes are compared, with layers up to `SMALL_LAYERS` and by other numbers for them.
const SMALL: usize = 2;
const SMALL_LAYERS: usize = 2;
/// Flows by chance are made for jobs of up to so many nodes.
const BY_CHANCE: usize = 5;
/// For up to so many nodes a and b are compared too, with those of any of so many runs of the original.
const CLOSELY: usize = 5;
const RUNS: usize = 2000;

/// With several faults the original's choice of 18 or 19 and of nodes follows hash order; only 15 and 16 are found in the order of
/// the nodes.
fn same(mine: Answer, other: (u8, usize, usize)) -> bool {
    match (mine, other) {
        (Answer::Value(_), (0, _, _)) => true,
        (Answer::Refused(18 | 19, _, _), (18 | 19, _, _)) => true,
        (Answer::Refused(x @ (15 | 16), a, b), (y, c, d)) => x == y.into() && a as usize == c && b as usize == d,
        (Answer::Refused(x @ (13 | 14 | 17), _, _), (y, _, _)) => x == y.into(),
        _ => false,
    }
}

/// Whether the original gives our number, a and b in some run: its sets are hashed anew in each. Of 14 only the number is asked,
/// since the original looks at the nodes with a wrong set first and at those without one then.
fn is_named(mine: Answer, file: &[u8]) -> bool {
    let Answer::Refused(number, a, b) = mine else { return true };
    let named = |(x, c, d): (u8, usize, usize)| (u32::from(x), c, d) == (number, a.into(), b.into());
    number == 14 || (0..RUNS).any(|_| named(theirs::verify(file)))
}

fn label(number: u8) -> String {
    match number {
        0 => "accepted".to_string(),
        18 | 19 => "18 or 19".to_string(),
        other => other.to_string(),
    }
}

fn compare(tally: &mut Tally, family: &str, job: &Job, flow: &Flow) {
    let file = [job.bytes(), flow.bytes()].concat();
    let role = tally.role();
    let mine = ours::verify(role, &file, &mut [0; 6]);
    let other = std::panic::catch_unwind(|| theirs::verify(&file)).ok();
    let answer = other.map_or("panic".to_string(), |o| label(o.0));
    let agree = other.is_some_and(|o| same(mine, o)) && (job.n > CLOSELY || is_named(mine, &file));
    tally.add(family, &answer, agree, || format!("role {role}, file {} ours {mine:?} original {other:?}", hex(&file)));
    tally.add_flow(flow);
}

/// The flow by each kind, and by other numbers.
fn compare_all(tally: &mut Tally, family: &str, job: &Job, flow: &Flow, random: &mut Random) {
    compare(tally, family, job, flow);
    compare(tally, family, job, &widened(flow));
    compare(tally, &format!("{family}, other numbers"), job, &spread(flow, random));
}

/// The flow by one of these.
fn compare_one(tally: &mut Tally, family: &str, job: &Job, flow: &Flow, random: &mut Random) {
    match random.below(4) {
        0 => compare(tally, family, job, flow),
        1 => compare(tally, family, job, &widened(flow)),
        _ => compare(tally, family, job, &spread(flow, random)),
    }
}

pub fn all_small(tally: &mut Tally, random: &mut Random) {
    for mode in MODES {
        for n in 0..=SMALL {
            let family = format!("verifier, mode {mode}, all flows of all jobs of {n} nodes");
            all_jobs(n, mode, |job| {
                all_flows(n, mode, SMALL_LAYERS, |flow| compare_all(tally, &family, job, flow, random));
            });
        }
    }
}

/// A job's flow as found, and with each kind of damage.
pub fn around_found(tally: &mut Tally, job: &Job, random: &mut Random) {
    let Some(whole) = found(job) else { return };
    let mode = job.told_mode();
    compare_all(tally, &format!("verifier, {mode}, found flows"), job, &whole, random);
    for kind in DAMAGES {
        if let Some(flow) = damaged(kind, job, &whole, random) {
            compare_one(tally, &format!("verifier, {mode}, {kind}"), job, &flow, random);
        }
    }
}

pub fn random_ones(tally: &mut Tally, random: &mut Random, count: usize) {
    for i in 0..count {
        let kind = KINDS[i % KINDS.len()];
        let mode = MODES[i / KINDS.len() % MODES.len()];
        let job = many::job(kind, mode, random);
        around_found(tally, &job, random);
        let n = small_size(random);
        let small = many::job_of(kind, mode, n, random);
        around_chance(tally, &small, random);
    }
}

/// How many nodes a job has whose flow is made by chance.
pub fn small_size(random: &mut Random) -> usize {
    1 + random.below(BY_CHANCE)
}

pub fn around_chance(tally: &mut Tally, job: &Job, random: &mut Random) {
    let flow = by_chance(job, random);
    compare_one(tally, &format!("verifier, {}, flows by chance", job.told_mode()), job, &flow, random);
}
