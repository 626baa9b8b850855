//! The verifier, from the bytes of a job and a found flow, by the kind that our finder writes, to 'accepted'.

use crate::families::{FAMILIES, Family, SIZES};
use crate::summary::{Row, Table};
use crate::timing::{Times, medians};
use harness::flows::{found, widened};
use harness::jobs::Job;
use harness::ours::{self, Answer, OPERATOR};
use harness::theirs;

/// A run takes at least so many microseconds.
const RUN: f64 = 50_000.0;
/// The bytes of 0014.
const ACCEPTED_BYTES: usize = 6;

/// Each job of the family that has a flow, with that flow behind it.
fn files_of(family: &Family, n: usize) -> Vec<Vec<u8>> {
    let with_flow = |job: &Job| Some([job.bytes(), widened(&found(job)?).bytes()].concat());
    (family.jobs)(n).iter().filter_map(with_flow).collect()
}

fn accept(file: &[u8], out: &mut [u8]) {
    assert_eq!(ours::verify(OPERATOR, file, out), Answer::Value(ACCEPTED_BYTES), "ours refuses a found flow");
    assert_eq!(theirs::verify(file), (0, 0, 0), "the original refuses a found flow");
}

fn times(files: &[Vec<u8>]) -> Times {
    let out = &mut [0; ACCEPTED_BYTES];
    files.iter().for_each(|file| accept(file, out));
    let [ours, rust, making] = medians(
        files,
        RUN,
        [
            &mut |file| usize::from(ours::verify(OPERATOR, file, out) == Answer::Value(ACCEPTED_BYTES)),
            &mut |file| usize::from(theirs::verify(file).0 == 0),
            &mut |file| theirs::prepare_verify(file),
        ],
    );
    Times { ours, rust, making }
}

pub fn print() -> Vec<Row> {
    println!("| verified flows of | n | flows | ours µs | Rust µs | Rust / ours | without reading |");
    println!("|---|---|---|---|---|---|---|");
    let mut rows = Vec::new();
    for (family, n) in FAMILIES.iter().flat_map(|family| SIZES.map(|n| (family, n))) {
        let files = files_of(family, n);
        if files.is_empty() {
            continue;
        }
        let t = times(&files);
        print!("| {} | {n} | {} | {:.2} | {:.2} ", family.name, files.len(), t.ours, t.rust);
        println!("| {:.2} | {:.2} |", t.ratio(), t.ratio_without_reading());
        rows.push(Row { table: Table::Verify, name: family.name.to_string(), n, times: t });
    }
    rows
}
