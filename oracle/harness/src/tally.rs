//! Counts of what was compared, and the first differences.

use crate::jobs::{Flow, Job, LAYERS};
use crate::ours::{OWNER, ROLES};
use std::collections::BTreeMap;

/// So many differences are shown whole.
const SHOWN: usize = 10;

#[derive(Default)]
struct Row {
    compared: usize,
    different: usize,
    answers: BTreeMap<String, usize>,
}

/// A job by its number of nodes, its number of edges and its bytes: the first is the smallest.
type Rank = (usize, usize, Vec<u8>);

#[derive(Default)]
pub struct Tally {
    rows: BTreeMap<String, Row>,
    /// How many nodes of each measurement the found flows have.
    measured: [usize; 7],
    /// How many flows were judged by layers of kind 0011, of kind 0021 up to layer 255, and of kind 0021 beyond.
    judged: [usize; 3],
    differences: Vec<String>,
    /// How often a role was taken by turns.
    turns: usize,
    /// How many jobs were outside the old premise, and how many of these the original answers otherwise.
    outside: usize,
    otherwise: usize,
    /// The smallest of them, of each kind.
    smallest: BTreeMap<String, (Rank, String)>,
}

pub fn hex(bytes: &[u8]) -> String {
    bytes.iter().map(|b| format!("{b:02x}")).collect()
}

impl Tally {
    /// One comparison of a family: what the original answered, and whether ours agrees; `detail` is for people.
    pub fn add(&mut self, family: &str, answer: &str, same: bool, detail: impl FnOnce() -> String) {
        let row = self.rows.entry(family.to_string()).or_default();
        row.compared += 1;
        *row.answers.entry(answer.to_string()).or_default() += 1;
        if same {
            return;
        }
        row.different += 1;
        if self.differences.len() < SHOWN {
            self.differences.push(format!("{family}: {}", detail()));
        }
    }

    /// A flow was found that has an entry for a node of this measurement.
    pub fn add_node(&mut self, measurement: u8) {
        self.measured[measurement as usize] += 1;
    }

    pub fn add_flow(&mut self, flow: &Flow) {
        let beyond = flow.layers.iter().any(|&layer| layer > 255);
        self.judged[usize::from(flow.kind != LAYERS) + usize::from(beyond)] += 1;
    }

    /// The role of the next call, by turns: which it is must not matter.
    pub fn role(&mut self) -> u64 {
        let role = ROLES[self.turns % ROLES.len()];
        self.turns += 1;
        role
    }

    pub fn add_outside(&mut self) {
        self.outside += 1;
    }

    /// A job outside the old premise that the original answers otherwise, and may.
    pub fn add_otherwise(&mut self, kind: String, job: &Job, detail: impl FnOnce() -> String) {
        self.otherwise += 1;
        let rank = (job.n, job.edges.len(), job.bytes());
        if self.smallest.get(&kind).is_none_or(|(least, _)| rank < *least) {
            self.smallest.insert(kind, (rank, detail()));
        }
    }

    /// Prints the table; true where nothing differs.
    pub fn report(&self) -> bool {
        println!("| compared | cases | differences | the original's answers |");
        println!("|---|---|---|---|");
        for (family, row) in &self.rows {
            let answers: Vec<String> = row.answers.iter().map(|(a, count)| format!("{a}: {count}")).collect();
            println!("| {family} | {} | {} | {} |", row.compared, row.different, answers.join(", "));
        }
        println!("\nnodes in the found flows: XY, YZ, XZ, X, Y, Z: {:?}", &self.measured[1..]);
        let [narrow, wide, beyond] = self.judged;
        println!("judged flows: kind 0011: {narrow}; kind 0021: {}, {beyond} of them with a layer past 255", wide + beyond);
        let by_owner = (0..self.turns).filter(|turn| ROLES[turn % ROLES.len()] == OWNER).count();
        println!("calls of ours by turns: {by_owner} as owner, {} as operator", self.turns - by_owner);
        println!("outside the old premise: {} jobs, of which the original answers {} otherwise", self.outside, self.otherwise);
        for (kind, (_, detail)) in &self.smallest {
            println!("smallest, {kind}: {detail}");
        }
        let compared: usize = self.rows.values().map(|row| row.compared).sum();
        let different: usize = self.rows.values().map(|row| row.different).sum();
        println!("{compared} compared, {different} different");
        for difference in &self.differences {
            println!("{difference}");
        }
        different == 0
    }
}
