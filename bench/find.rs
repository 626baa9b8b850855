//! The finder, from job bytes to flow file bytes: by families, and on single jobs.

use crate::families::{FAMILIES, SEED, SIZES};
use crate::summary::{Row, Table};
use crate::timing::{Times, medians};
use harness::finders::is_same;
use harness::jobs::{Flow, Job, PAULI, PLANES, records};
use harness::many::{self, KINDS};
use harness::ours::{self, Answer, OPERATOR, OUT_BYTES, WORK_BYTES};
use harness::random::Random;
use harness::rule::Rule;
use harness::theirs;

/// A run takes at least so many microseconds, on families and on single jobs.
const FAMILY_RUN: f64 = 50_000.0;
const SINGLE_RUN: f64 = 5_000.0;
/// So many random jobs of each kind are timed one by one.
const SINGLE_JOBS: usize = 10;

/// The buffers that ours is lent.
struct Ours {
    work: Vec<u8>,
    out: Vec<u8>,
}

impl Ours {
    fn new() -> Self {
        Ours { work: vec![0; WORK_BYTES], out: vec![0; OUT_BYTES] }
    }

    fn find(&mut self, file: &[u8]) -> usize {
        match ours::find(OPERATOR, file, &mut self.work, &mut self.out) {
            Answer::Value(count) => count,
            refused => panic!("a job was refused: {refused:?}"),
        }
    }
}

fn find_theirs(file: &[u8], out: &mut Vec<u8>) -> usize {
    theirs::find(file, out);
    out.len()
}

/// How many of the jobs have a flow; both sides must give the same.
fn agree(files: &[Vec<u8>]) -> usize {
    let (mut ours, mut theirs) = (Ours::new(), Vec::new());
    let mut flows = 0;
    for file in files {
        let count = ours.find(file);
        find_theirs(file, &mut theirs);
        let n = records(file).expect("the job's records")[0].1[0].into();
        assert!(is_same(&ours.out[..count], &theirs, n), "the two sides differ");
        flows += usize::from(Flow::read(&theirs, n).is_some());
    }
    flows
}

fn times(files: &[Vec<u8>], shortest: f64) -> Times {
    let (mut ours, mut theirs) = (Ours::new(), Vec::new());
    let [ours, rust, making] = medians(
        files,
        shortest,
        [&mut |file| ours.find(file), &mut |file| find_theirs(file, &mut theirs), &mut |file| theirs::prepare(file)],
    );
    Times { ours, rust, making }
}

fn growth(before: Option<f64>, now: f64) -> String {
    before.map_or("-".to_string(), |b| format!("{:.1}", now / b))
}

pub fn print_families() -> Vec<Row> {
    println!("| family | n | flows | ours µs | Rust µs | Rust / ours | without reading | ours grows by | Rust grows by |");
    println!("|---|---|---|---|---|---|---|---|---|");
    let mut rows = Vec::new();
    for family in &FAMILIES {
        let mut before: Option<Times> = None;
        for n in SIZES {
            let files: Vec<Vec<u8>> = (family.jobs)(n).iter().map(Job::bytes).collect();
            let flows = agree(&files);
            let t = times(&files, FAMILY_RUN);
            print!("| {} | {n} | {flows} of {} | {:.1} | {:.1} ", family.name, files.len(), t.ours, t.rust);
            print!("| {:.2} | {:.2} ", t.ratio(), t.ratio_without_reading());
            println!("| {} | {} |", growth(before.map(|b| b.ours), t.ours), growth(before.map(|b| b.rust), t.rust));
            before = Some(t);
            rows.push(Row { table: Table::Families, name: family.name.to_string(), n, times: t });
        }
    }
    rows
}

/// A random job inside the old premise: outside it the original may do something else.
fn comparable(kind: &str, mode: u8, n: usize, random: &mut Random) -> Job {
    loop {
        let job = many::job_of(kind, mode, n, random);
        if Rule::new(&job).in_old_premise() {
            return job;
        }
    }
}

/// The times of random jobs, one of each kind after the other, several times over.
fn single_jobs(mode: u8, n: usize, random: &mut Random) -> Vec<(&'static str, Times)> {
    let one = |&kind: &&'static str| {
        let files = [comparable(kind, mode, n, random).bytes()];
        agree(&files);
        (kind, times(&files, SINGLE_RUN))
    };
    KINDS.iter().cycle().take(SINGLE_JOBS * KINDS.len()).map(one).collect()
}

/// Single random jobs of every kind: the least and the middle ratio.
pub fn print_single() -> Vec<Row> {
    println!("| mode | n | random jobs | least Rust / ours | its kind | median |");
    println!("|---|---|---|---|---|---|");
    let mut rows = Vec::new();
    let mut random = Random::new(SEED);
    for (mode, n) in [PLANES, PAULI].into_iter().flat_map(|mode| SIZES.map(|n| (mode, n))) {
        let mut jobs = single_jobs(mode, n, &mut random);
        jobs.sort_by(|x, y| x.1.ratio().total_cmp(&y.1.ratio()));
        let ((kind, least), (_, median)) = (jobs[0], jobs[jobs.len() / 2]);
        println!("| {mode} | {n} | {} | {:.2} | {kind} | {:.2} |", jobs.len(), least.ratio(), median.ratio());
        let row = |(kind, times)| Row { table: Table::Single, name: format!("mode {mode}, {kind}"), n, times };
        rows.extend(jobs.into_iter().map(row));
    }
    rows
}
