//! The finders of modes 2 and 3: layers and sets, after reading.

use crate::angles::working;
use crate::families::{self, allowed};
use crate::jobs::{Flow, Job, PAULI, PLANES, WIDE_LAYERS, Y, found_bytes, told_found};
use crate::many::{self, KINDS};
use crate::ours::{self, Answer, OUT_BYTES, WORK_BYTES};
use crate::random::Random;
use crate::rule::{Rule, SMALL};
use crate::tally::{Tally, hex};
use crate::theirs;

/// What the original gave outside the old premise, where it is what ours gave.
const ALIKE: &str = "as the original";

/// The bytes that ours writes, or the refusal.
pub fn find_ours(role: u64, file: &[u8]) -> Result<Vec<u8>, Answer> {
    let (mut work, mut out) = (vec![0; WORK_BYTES], vec![0; OUT_BYTES]);
    match ours::find(role, file, &mut work, &mut out) {
        Answer::Value(count) => Ok(out[..count].to_vec()),
        refused => Err(refused),
    }
}

/// The bytes that the original gives; none where it panics.
pub fn find_theirs(file: &[u8]) -> Option<Vec<u8>> {
    let call = || {
        let mut out = Vec::new();
        theirs::find(file, &mut out);
        out
    };
    std::panic::catch_unwind(call).ok()
}

/// Whether ours is the original's answer for a job of n nodes: the same flow, by layers of kind 0021, or the same 0013.
pub fn is_same(mine: &[u8], other: &[u8], n: usize) -> bool {
    match Flow::read(other, n) {
        Some(flow) => Flow::read(mine, n) == Some(Flow { kind: WIDE_LAYERS, ..flow }),
        None => mine == other,
    }
}

/// How deep the original's answer is.
fn depth(answer: Option<&[u8]>, n: usize) -> &'static str {
    let Some(bytes) = answer else { return "panic" };
    let Some(flow) = Flow::read(bytes, n) else { return "no flow" };
    match flow.layers.iter().max() {
        _ if flow.sets.is_empty() => "nothing to measure",
        None | Some(0..=1) => "flow to layer 1",
        Some(2..=9) => "flow to layer 2-9",
        Some(_) => "flow to layer 10 or more",
    }
}

/// How the original's answer stands to ours outside the old premise, and whether it may: it gives up more often, and its layers may be
/// larger.
fn beside(mine: Option<&Flow>, other: Option<&Flow>) -> (&'static str, bool) {
    let (mine, other) = match (mine, other) {
        (None, None) => return (ALIKE, true),
        (Some(_), None) => return ("the original: no flow", true),
        (None, Some(_)) => return ("the original: a flow, ours: none", false),
        (Some(mine), Some(other)) => (mine, other),
    };
    let no_larger = mine.layers.iter().zip(&other.layers).all(|(a, b)| a <= b);
    match mine.layers == other.layers {
        true if mine.sets == other.sets => (ALIKE, true),
        true => ("the original: other sets", true),
        false if no_larger => ("the original: larger layers", true),
        false => ("the original: some smaller layer", false),
    }
}

/// The job with nodes on their own beside it, so that the original always has a column: a planes job gets an output, whose column is
/// zero; a job with Paulis two Y nodes, each of which has a row of its own that keeps it out of other sets. The rule gives all other
/// nodes what it gives them without these, and such a job is inside the old premise.
fn with_islands(job: &Job) -> Job {
    let mut more = job.clone();
    let added = if job.mode == PLANES { 1 } else { 2 };
    more.n += added;
    more.measured.extend(vec![Y; added]);
    if job.mode == PLANES {
        more.outputs.insert(job.n as u8);
    }
    more
}

/// The original's answer for the job with islands, less the islands.
fn find_with_islands(job: &Job) -> Option<Vec<u8>> {
    let more = with_islands(job);
    let flow = Flow::read(&find_theirs(&more.bytes())?, more.n).map(|mut flow| {
        flow.layers.truncate(job.n);
        flow.sets.retain(|&u, _| usize::from(u) < job.n);
        flow
    });
    Some(found_bytes(flow.as_ref()))
}

/// Whether ours is what the rule gives. For a job of up to `SMALL` nodes that is found by trying all: the flow of the equations, with
/// the smallest layers. Of a larger job outside the old premise the original is asked with islands; inside it the answers are compared
/// anyway.
fn is_right(job: &Job, rule: &Rule, mine: &[u8]) -> bool {
    let flow = Flow::read(mine, job.n);
    let obeys = flow.as_ref().is_none_or(|flow| rule.obeys(flow));
    if job.n <= SMALL {
        let smallest = rule.smallest_layers() == flow.map(|flow| flow.layers);
        return obeys && smallest && is_same(mine, &found_bytes(rule.answer().as_ref()), job.n);
    }
    obeys && (rule.in_old_premise() || find_with_islands(job).is_some_and(|wanted| is_same(mine, &wanted, job.n)))
}

/// The job and both answers, for people and as bytes.
fn told(job: &Job, mine: &Result<Vec<u8>, Answer>, other: Option<&[u8]>) -> String {
    let answer = |bytes: &[u8]| format!("{} ({})", told_found(bytes, job.n), hex(bytes));
    let mine = mine.as_ref().map_or_else(|refused| format!("{refused:?}"), |bytes| answer(bytes));
    let other = other.map_or("panic".to_string(), answer);
    format!("{} ({}); ours: {mine}; original: {other}", job.told(), hex(&job.bytes()))
}

/// What the rule gives, where all sets can be tried.
fn told_rule(job: &Job, rule: &Rule) -> String {
    if job.n > SMALL { String::new() } else { format!("; by the rule: {}", told_found(&found_bytes(rule.answer().as_ref()), job.n)) }
}

pub fn compare(tally: &mut Tally, family: &str, job: &Job) {
    let file = job.bytes();
    let working = &working(job);
    let rule = Rule::new(working);
    let role = tally.role();
    let (mine, other) = (find_ours(role, &file), find_theirs(&file));
    let [flow, original] = [mine.as_deref().ok(), other.as_deref()].map(|bytes| Flow::read(bytes?, job.n));
    let right = mine.as_ref().is_ok_and(|bytes| is_right(working, &rule, bytes));
    let answers = || told(job, &mine, other.as_deref());
    let detail = || format!("role {role}, {}{}", answers(), told_rule(job, &rule));
    if rule.in_old_premise() {
        let same = matches!((&mine, &other), (Ok(a), Some(b)) if is_same(a, b, job.n));
        tally.add(family, depth(other.as_deref(), job.n), same && right, detail);
    } else {
        let (label, may) = if other.is_some() { beside(flow.as_ref(), original.as_ref()) } else { ("panic", false) };
        tally.add(&format!("{family}, outside the old premise (by the papers' rule)"), label, may && right, detail);
        tally.add_outside();
        if label != ALIKE {
            tally.add_otherwise(format!("mode {}, {label}", working.mode), working, answers);
        }
    }
    if let Some(flow) = flow {
        flow.sets.keys().for_each(|&u| tally.add_node(working.measured[u as usize]));
    }
}

/// The subset of 0..n whose members are the bits of `bits`.
pub fn subset(n: usize, bits: usize) -> Vec<u8> {
    (0..n).filter(|u| bits >> u & 1 == 1).map(|u| u as u8).collect()
}

/// Calls `each` for all graphs, inputs and outputs of n nodes and all measurements of the others.
pub fn all_jobs(n: usize, mode: u8, mut each: impl FnMut(&Job)) {
    let pairs: Vec<(usize, usize)> = (0..n).flat_map(|b| (0..b).map(move |a| (a, b))).collect();
    for choice in 0..1 << (pairs.len() + 2 * n) {
        let mut job = Job::new(n, mode);
        for (i, &(a, b)) in pairs.iter().enumerate() {
            if choice >> i & 1 == 1 {
                job.join(a, b);
            }
        }
        job.inputs.extend(subset(n, choice >> pairs.len()));
        job.outputs.extend(subset(n, choice >> (pairs.len() + n)));
        all_measurements(&mut job, &mut each);
    }
}

fn all_measurements(job: &mut Job, each: &mut impl FnMut(&Job)) {
    let from = allowed(job.mode);
    let free: Vec<usize> = (0..job.n).filter(|&u| !job.outputs.contains(&(u as u8))).collect();
    for choice in 0..from.len().pow(free.len() as u32) {
        let mut rest = choice;
        for &u in &free {
            job.measured[u] = from[rest % from.len()];
            rest /= from.len();
        }
        each(job);
    }
}

pub fn all_small(tally: &mut Tally) {
    for mode in [PLANES, PAULI] {
        for n in 0..=SMALL {
            let family = format!("finder, mode {mode}, all jobs of {n} nodes");
            all_jobs(n, mode, |job| compare(tally, &family, job));
        }
    }
}

pub fn random_ones(tally: &mut Tally, random: &mut Random, count: usize) {
    for i in 0..count {
        let kind = KINDS[i % KINDS.len()];
        let mode = [PLANES, PAULI][i / KINDS.len() % 2];
        let job = many::job(kind, mode, random);
        compare(tally, &format!("finder, mode {mode}, random, {kind}"), &job);
    }
}

/// Jobs that have a flow, most of them outside the old premise.
pub fn random_lean(tally: &mut Tally, random: &mut Random, count: usize) {
    for i in 0..count {
        let mode = [PLANES, PAULI][i % 2];
        let job = many::lean(mode, random);
        compare(tally, &format!("finder, mode {mode}, random, grown with few columns"), &job);
    }
}

/// Each kind at the highest number of nodes.
pub fn largest(tally: &mut Tally, random: &mut Random, rounds: usize) {
    for _ in 0..rounds {
        for kind in KINDS {
            for mode in [PLANES, PAULI] {
                let job = many::job_of(kind, mode, families::HIGHEST, random);
                compare(tally, &format!("finder, mode {mode}, random, 128 nodes"), &job);
            }
        }
    }
}

/// More nodes than 128: the original answers, ours refuses with 4.
pub fn too_many(tally: &mut Tally, random: &mut Random, count: usize) {
    for i in 0..count {
        let n = families::HIGHEST + 1 + random.below(20);
        let job = families::path(n, [PLANES, PAULI][i % 2]);
        let (mine, other) = (find_ours(tally.role(), &job.bytes()), find_theirs(&job.bytes()));
        let same = mine == Err(Answer::Refused(4, 0, 0)) && other.is_some();
        let answer = if other.is_some() { "answer" } else { "panic" };
        tally.add("finder, more than 128 nodes (ours: 4)", answer, same, || format!("{n} nodes, ours {mine:?}"));
    }
}
