//! What the original answers on a file, and what ours does to an operator: a job is searched, a job with a flow file behind it is judged.

use harness::finders::find_theirs;
use harness::jobs::{SETS, records, told_found};
use harness::ours::{self, Answer, OPERATOR, OUT_BYTES, WORK_BYTES};
use harness::theirs;

fn refused(number: u32, a: usize, b: usize) -> String {
    format!("refused {number}, a = {a}, b = {b}")
}

fn searched(file: &[u8], n: usize) -> [String; 2] {
    let (mut work, mut out) = ([0; WORK_BYTES], [0; OUT_BYTES]);
    let mine = match ours::find(OPERATOR, file, &mut work, &mut out) {
        Answer::Value(len) => told_found(&out[..len], n),
        Answer::Refused(number, a, b) => refused(number, a as usize, b as usize),
    };
    [find_theirs(file).map_or("panic".to_string(), |bytes| told_found(&bytes, n)), mine]
}

fn judged(file: &[u8]) -> [String; 2] {
    let mine = match ours::verify(OPERATOR, file, &mut [0; OUT_BYTES]) {
        Answer::Value(_) => "accepted".to_string(),
        Answer::Refused(number, a, b) => refused(number, a as usize, b as usize),
    };
    let other = match theirs::verify(file) {
        (0, _, _) => "accepted".to_string(),
        (number, a, b) => refused(number.into(), a, b),
    };
    [other, mine]
}

fn main() {
    for name in std::env::args().skip(1) {
        let file = std::fs::read(&name).expect("the file can be read");
        let parts = records(&file).expect("the file ends with a record");
        let has_flow = parts.iter().any(|(kind, _)| *kind == SETS);
        let [other, mine] = if has_flow { judged(&file) } else { searched(&file, parts[0].1[0].into()) };
        println!("{name}: original: {other}; ours: {mine}");
    }
}
