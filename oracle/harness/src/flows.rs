//! Flows to be judged: found ones, damaged ones, and ones made without a finder; and by which numbers their layers go.

use crate::finders::{find_theirs, subset};
use crate::jobs::{CAUSAL, Flow, HIGHEST_LAYER, Job, LAYERS, WIDE_LAYERS};
use crate::random::Random;
use std::collections::{BTreeMap, BTreeSet};

/// The original's flow of a job. Where a causal flow has a choice, the original's follows hash order; here the least is taken.
pub fn found(job: &Job) -> Option<Flow> {
    let mut flow = Flow::read(&find_theirs(&job.bytes())?, job.n)?;
    if job.mode == CAUSAL {
        let least = |&u: &u8| (u, BTreeSet::from_iter((0..job.n as u8).find(|&v| corrects(job, &flow.layers, u, v))));
        flow.sets = flow.sets.keys().map(least).collect();
    }
    Some(flow)
}

/// Whether f(u) = v suits the layers: v is no input, later, and a neighbour of u, and its other neighbours are later than u.
fn corrects(job: &Job, layers: &[usize], u: u8, v: u8) -> bool {
    let later = |w: u8| layers[w as usize] < layers[u as usize];
    let near = |a: u8, b: u8| job.edges.contains(&(a.min(b), a.max(b)));
    !job.inputs.contains(&v) && later(v) && near(u, v) && (0..job.n as u8).all(|w| w == u || !near(v, w) || later(w))
}

pub const DAMAGES: [&str; 9] = [
    "member added",
    "member removed",
    "layer changed",
    "entry dropped",
    "entry at an output",
    "input in a set",
    "output's layer raised",
    "layer 0 at a non-output",
    "all layers raised",
];

fn pick(nodes: impl IntoIterator<Item = u8>, random: &mut Random) -> Option<u8> {
    let nodes: Vec<u8> = nodes.into_iter().collect();
    (!nodes.is_empty()).then(|| random.pick(&nodes))
}

/// v joins u's set; a causal flow's one member is replaced.
fn put(flow: &mut Flow, mode: u8, u: u8, v: u8) {
    let set = flow.sets.entry(u).or_default();
    if mode == CAUSAL {
        set.clear();
    }
    set.insert(v);
}

/// An entry where none belongs: empty, except in causal flows and in half of the other cases.
fn entry_at_output(job: &Job, flow: &mut Flow, random: &mut Random) -> Option<()> {
    let u = pick(job.outputs.clone(), random)?;
    flow.sets.insert(u, BTreeSet::new());
    if job.mode == CAUSAL || random.chance(1, 2) {
        put(flow, job.mode, u, random.below(job.n) as u8);
    }
    Some(())
}

/// The flow with one fault of the kind; none where the job has no place for it, or the flow would not pass reading.
pub fn damaged(kind: &str, job: &Job, found: &Flow, random: &mut Random) -> Option<Flow> {
    let mut flow = found.clone();
    let u = pick(found.sets.keys().copied(), random)?;
    let some = random.below(job.n) as u8;
    match kind {
        "member added" => put(&mut flow, job.mode, u, some),
        "member removed" if job.mode == CAUSAL => return None,
        "member removed" => {
            let v = pick(found.sets[&u].clone(), random)?;
            flow.sets.get_mut(&u)?.remove(&v);
        }
        "layer changed" => flow.layers[some as usize] = random.below(job.n + 2),
        "entry dropped" => drop(flow.sets.remove(&u)),
        "entry at an output" => entry_at_output(job, &mut flow, random)?,
        "input in a set" => put(&mut flow, job.mode, u, pick(job.inputs.clone(), random)?),
        "output's layer raised" => flow.layers[pick(job.outputs.clone(), random)? as usize] += 1,
        "layer 0 at a non-output" => flow.layers[u as usize] = 0,
        _ => (0..job.n).filter(|u| !job.outputs.contains(&(*u as u8))).for_each(|u| flow.layers[u] += 1),
    }
    Some(flow)
}

/// Sets and layers by chance, with few members and layers, so that some are right.
pub fn by_chance(job: &Job, random: &mut Random) -> Flow {
    let mut flow = Flow { kind: LAYERS, layers: vec![0; job.n], sets: BTreeMap::new() };
    for u in (0..job.n as u8).filter(|u| !job.outputs.contains(u)) {
        flow.layers[u as usize] = 1 + random.below(3);
        for _ in 0..1 + random.below(2) {
            put(&mut flow, job.mode, u, random.below(job.n) as u8);
        }
    }
    flow
}

/// Calls `each` for all flows with layers up to `highest`: each node with no entry, or with any set that the mode can have.
pub fn all_flows(n: usize, mode: u8, highest: usize, mut each: impl FnMut(&Flow)) {
    let sets: Vec<Vec<u8>> = (0..1 << n).map(|bits| subset(n, bits)).filter(|s| mode != CAUSAL || s.len() == 1).collect();
    let choices = (highest + 1) * (sets.len() + 1);
    for choice in 0..choices.pow(n as u32) {
        let mut rest = choice;
        let mut flow = Flow { kind: LAYERS, layers: Vec::new(), sets: BTreeMap::new() };
        for u in 0..n as u8 {
            let own = rest % choices;
            rest /= choices;
            flow.layers.push(own % (highest + 1));
            if let Some(set) = sets.get(own / (highest + 1)) {
                flow.sets.insert(u, set.iter().copied().collect());
            }
        }
        each(&flow);
    }
}

/// Where a byte is full, or a layer.
const BORDERS: [usize; 8] = [1, 255, 256, 257, 511, 512, HIGHEST_LAYER - 1, HIGHEST_LAYER];

pub fn widened(flow: &Flow) -> Flow {
    Flow { kind: WIDE_LAYERS, ..flow.clone() }
}

/// The flow by other numbers, with gaps and up to the highest: 0 stays, and so does what is later than what. In half of the cases one node
/// then takes a number at a border or beside another node's.
pub fn spread(flow: &Flow, random: &mut Random) -> Flow {
    let count = flow.layers.iter().max().map_or(0, |highest| highest + 1);
    let mut numbers = BTreeSet::from([0]);
    while numbers.len() < count {
        numbers.insert(if random.chance(1, 4) { random.pick(&BORDERS) } else { random.below(HIGHEST_LAYER + 1) });
    }
    let numbers: Vec<usize> = numbers.into_iter().collect();
    let mut new = widened(flow);
    new.layers.iter_mut().for_each(|layer| *layer = numbers[*layer]);
    if count > 0 && random.chance(1, 2) {
        let other = random.pick(&new.layers);
        let beside = [other, other + 1, other.saturating_sub(1), other ^ 256, (other as u16).swap_bytes().into(), random.pick(&BORDERS)];
        let node = random.below(new.layers.len());
        new.layers[node] = random.pick(&beside).min(HIGHEST_LAYER);
    }
    new
}
