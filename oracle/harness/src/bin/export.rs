//! Writes a sample of answers to the file that is named. Each entry: 'f' or 'v', the length of the query (4 bytes, little-endian), the
//! query (a job; or a job and a flow file), the length of the answer, the answer (a flow file or 0013; or one byte: 0 accepted, else the
//! refusal's number, 18 also for 19). The answers are the original's; but of a job outside the old premise (rule.rs) a search's answer is
//! what the papers' rule gives. That is found by trying all sets, so larger jobs outside are left out.

use harness::families::{circuit, grid, measure, path};
use harness::finders::{all_jobs, find_theirs};
use harness::flows::{DAMAGES, by_chance, damaged, found};
use harness::jobs::{CAUSAL, Flow, Job, PAULI, PLANES, X, XY, Y, found_bytes};
use harness::many::{self, KINDS};
use harness::random::Random;
use harness::rule::{self, Rule};
use harness::theirs;
use std::collections::BTreeMap;

const SEED: u64 = 20260101;
const LONGEST_SAMPLE: usize = 60_000;
/// So many jobs with a flow, and as many without, of each kind and mode.
const FINDS: usize = 4;
/// So many flows for each number of each mode.
const VERDICTS: usize = 7;
const SMALL: usize = 9;
const MIDDLE: usize = 20;
/// A choice that is not met after so many tries is left.
const TRIES: usize = 3000;
/// The same number in so many runs: then it does not hang on hash order.
const RUNS: usize = 40;

#[derive(Default)]
struct Sample {
    bytes: Vec<u8>,
    counts: BTreeMap<String, usize>,
}

impl Sample {
    fn put(&mut self, kind: u8, label: String, query: &[u8], answer: &[u8]) {
        self.bytes.push(kind);
        for part in [query, answer] {
            self.bytes.extend((part.len() as u32).to_le_bytes());
            self.bytes.extend(part);
        }
        *self.counts.entry(label).or_default() += 1;
    }

    /// A job with the flow file or 0013 that is wanted.
    fn put_find(&mut self, job: &Job, answer: &[u8]) {
        let what = if Flow::read(answer, job.n).is_some() { "flow" } else { "no flow" };
        let by = if Rule::new(job).in_old_premise() { "original" } else { "rule" };
        self.put(b'f', format!("find, mode {}, {what}, by the {by}", job.mode), &job.bytes(), answer);
    }

    /// A job and a flow with the original's verdict.
    fn put_verdict(&mut self, job: &Job, flow: &Flow, number: u8) {
        let file = [job.bytes(), flow.bytes()].concat();
        self.put(b'v', format!("verify, mode {}, {number}", job.mode), &file, &[number.min(18)]);
    }
}

/// What a finder should give, with layers of kind 0011: the original's answer, or the rule's outside the old premise; none where the
/// job is too large for that.
fn wanted(job: &Job) -> Option<Vec<u8>> {
    let rule = Rule::new(job);
    if rule.in_old_premise() {
        return Some(find_theirs(&job.bytes()).expect("no finder panics"));
    }
    (job.n <= rule::SMALL).then(|| found_bytes(rule.answer().as_ref()))
}

/// The number of the original's verdict, where it is the same in all runs.
fn settled(job: &Job, flow: &Flow) -> Option<u8> {
    let file = [job.bytes(), flow.bytes()].concat();
    let number = theirs::verify(&file).0;
    (0..RUNS).all(|_| theirs::verify(&file).0 == number).then_some(number)
}

/// Small jobs of a kind, some with a flow that has an entry and some without a flow, and a larger one.
fn finds(sample: &mut Sample, kind: &str, mode: u8, random: &mut Random) {
    let (mut with, mut without) = (0, 0);
    for _ in 0..TRIES {
        if with + without == 2 * FINDS {
            break;
        }
        let n = 2 + random.below(SMALL - 1);
        let job = many::job_of(kind, mode, n, random);
        let Some(answer) = wanted(&job) else { continue };
        let count = match Flow::read(&answer, job.n) {
            Some(flow) if flow.sets.is_empty() => continue,
            Some(_) => &mut with,
            None => &mut without,
        };
        if *count < FINDS {
            *count += 1;
            sample.put_find(&job, &answer);
        }
    }
    let larger = std::iter::repeat_with(|| many::job_of(kind, mode, MIDDLE, random)).find_map(|job| Some((wanted(&job)?, job)));
    let (answer, job) = larger.expect("it goes on until there is one");
    sample.put_find(&job, &answer);
}

/// A flow for the job: found, found and damaged, or made by chance.
fn some_flow(job: &Job, random: &mut Random) -> Option<Flow> {
    if random.chance(1, 3) {
        return Some(by_chance(job, random));
    }
    let whole = found(job)?;
    let kind = random.pick(&DAMAGES);
    if random.chance(1, 6) { Some(whole) } else { damaged(kind, job, &whole, random) }
}

/// Small flows, some for each verdict of the mode.
fn verdicts(sample: &mut Sample, mode: u8, random: &mut Random) {
    let mut counts = [0; 20];
    for _ in 0..TRIES {
        let (kind, n) = (random.pick(&KINDS), 2 + random.below(SMALL - 1));
        let job = many::job_of(kind, mode, n, random);
        let Some(flow) = some_flow(&job, random) else { continue };
        let Some(number) = settled(&job, &flow) else { continue };
        let count = &mut counts[number as usize];
        if !flow.sets.is_empty() && *count < VERDICTS {
            *count += 1;
            sample.put_verdict(&job, &flow, number);
        }
    }
}

/// Jobs of 128 nodes with small sets, their flows, and these with a fault.
fn largest(sample: &mut Sample, mode: u8, random: &mut Random) {
    for mut job in [path(128, mode), grid(8, 16, mode), circuit(128, 16, 3, mode, random)] {
        if mode == PAULI {
            measure(&mut job, &[X, Y, XY], random);
        }
        if mode != CAUSAL {
            sample.put_find(&job, &wanted(&job).expect("an output is no input, and many nodes are in X or Y"));
        }
        let whole = found(&job).expect("these have flows");
        let broken = damaged("member added", &job, &whole, random).expect("there is an entry");
        for flow in [whole, broken] {
            if let Some(number) = settled(&job, &flow) {
                sample.put_verdict(&job, &flow, number);
            }
        }
    }
}

fn main() {
    let file = std::env::args().nth(1).expect("the file to write");
    let (mut sample, random) = (Sample::default(), &mut Random::new(SEED));
    for mode in [PLANES, PAULI] {
        (0..=1).for_each(|n| all_jobs(n, mode, |job| sample.put_find(job, &wanted(job).expect("the job is small"))));
        KINDS.iter().for_each(|kind| finds(&mut sample, kind, mode, random));
    }
    for mode in [CAUSAL, PLANES, PAULI] {
        verdicts(&mut sample, mode, random);
        largest(&mut sample, mode, random);
    }
    assert!(sample.bytes.len() <= LONGEST_SAMPLE, "the sample is too long: {}", sample.bytes.len());
    std::fs::write(&file, &sample.bytes).expect("the file can be written");
    sample.counts.iter().for_each(|(label, count)| println!("{label}: {count}"));
    println!("{} entries, {} bytes", sample.counts.values().sum::<usize>(), sample.bytes.len());
}
