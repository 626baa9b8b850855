//! The papers' rule for flows in modes 2 and 3, with the differences that docs/DIFFERENCES.md lists under 'Verifiers'; and what a
//! finder should give by it, found by trying all sets. Nothing here is taken from our library or from the original.

use crate::jobs::{Flow, Job, LAYERS, PLANES, X, XY, XZ, Y, YZ, Z};
use std::collections::{BTreeMap, BTreeSet};

/// All sets are tried for jobs of up to so many nodes.
pub const SMALL: usize = 4;

/// Bit u stands for node u.
type Nodes = u128;

fn bit(u: usize) -> Nodes {
    1 << u
}

fn has(set: Nodes, u: usize) -> bool {
    set >> u & 1 == 1
}

/// The members in ascending order.
fn members(set: Nodes) -> impl Iterator<Item = usize> {
    let rest = std::iter::successors(Some(set), |rest| Some(rest & rest.saturating_sub(1)));
    rest.take_while(|&rest| rest != 0).map(|rest| rest.trailing_zeros() as usize)
}

/// All subsets, the empty one first.
fn subsets(of: Nodes) -> impl Iterator<Item = Nodes> {
    std::iter::successors(Some(0), move |set: &Nodes| Some(set.wrapping_sub(of) & of).filter(|&next| next != 0))
}

/// A set of a flow; none where a member is no node of the job.
fn set_of(nodes: &BTreeSet<u8>, n: usize) -> Option<Nodes> {
    nodes.iter().all(|&u| usize::from(u) < n).then(|| nodes.iter().fold(0, |set, &u| set | bit(u.into())))
}

/// The branches that a measurement tries, in order.
fn branches(measurement: u8) -> &'static [u8] {
    match measurement {
        XY => &[XY],
        YZ => &[YZ],
        XZ => &[XZ],
        X => &[XY, XZ],
        Y => &[XY, YZ],
        _ => &[YZ, XZ],
    }
}

/// A job of mode 2 or 3 as sets of nodes.
pub struct Rule {
    n: usize,
    mode: u8,
    all: Nodes,
    inputs: Nodes,
    /// All nodes but the outputs.
    measured: Nodes,
    /// The nodes of each measurement.
    kinds: [Nodes; 7],
    measurements: Vec<u8>,
    /// The neighbours of each node.
    near: Vec<Nodes>,
}

/// Document 01's equations for a node's set: from which columns the members come, and in which rows they must add up to what.
struct Equations {
    columns: Nodes,
    upper: Nodes,
    lower: Nodes,
}

impl Rule {
    pub fn new(job: &Job) -> Self {
        let set = |nodes: &BTreeSet<u8>| set_of(nodes, job.n).expect("a job's nodes are below n");
        let all = (0..job.n).fold(0, |all, u| all | bit(u));
        let measured = all & !set(&job.outputs);
        let mut kinds = [0; 7];
        members(measured).for_each(|u| kinds[job.measured[u] as usize] |= bit(u));
        let mut near = vec![0; job.n];
        for &(a, b) in &job.edges {
            near[a as usize] |= bit(b.into());
            near[b as usize] |= bit(a.into());
        }
        Rule { n: job.n, mode: job.mode, all, inputs: set(&job.inputs), measured, kinds, measurements: job.measured.clone(), near }
    }

    fn kind(&self, measurement: u8) -> Nodes {
        self.kinds[measurement as usize]
    }

    /// Whether demand 3 spoke of this job before request 2026-05: there no system without a column decides, and the original's answer
    /// is the rule's.
    pub fn in_old_premise(&self) -> bool {
        let [yz, x, y, z] = [YZ, X, Y, Z].map(|m| self.kind(m));
        match self.mode {
            PLANES => self.all & !self.measured & !self.inputs != 0 || yz == 0,
            _ => ((x | y) & !self.inputs).count_ones() >= 2 || yz | y | z == 0,
        }
    }

    /// The nodes with an odd number of neighbours in the set.
    fn odd(&self, set: Nodes) -> Nodes {
        members(set).fold(0, |odd, k| odd ^ self.near[k])
    }

    /// Whether the set has no input but i, and i's own measurement holds.
    fn suits(&self, i: usize, set: Nodes) -> bool {
        let own = match (self.measurements[i], has(set, i), has(self.odd(set), i)) {
            (XY, inside, odd) => !inside && odd,
            (YZ, inside, odd) => inside && !odd,
            (XZ, inside, odd) => inside && odd,
            (X, _, odd) => odd,
            (Y, inside, odd) => inside != odd,
            (_, inside, _) => inside,
        };
        own && set & self.inputs & !bit(i) == 0
    }

    /// The nodes that must be later than i where this is i's set. Mode 2 has no node in X, Y or Z, so that all of set and Odd are among
    /// them.
    fn needed(&self, i: usize, set: Nodes) -> Nodes {
        let odd = self.odd(set);
        let [x, y, z] = [X, Y, Z].map(|m| self.kind(m));
        (set & !(x | y) | odd & !(y | z) | (set ^ odd) & y) & !bit(i)
    }

    /// The lowest layer that a node can have.
    fn lowest(&self, i: usize) -> usize {
        usize::from(self.mode == PLANES && has(self.measured, i))
    }

    /// Whether the flow is one by the rule, for any number of nodes.
    pub fn obeys(&self, flow: &Flow) -> bool {
        let entries = flow.sets.keys().map(|&u| usize::from(u));
        flow.layers.len() == self.n && entries.eq(members(self.measured)) && (0..self.n).all(|i| self.obeys_at(i, flow))
    }

    fn obeys_at(&self, i: usize, flow: &Flow) -> bool {
        let own = flow.layers[i];
        let Some(set) = flow.sets.get(&(i as u8)) else { return own == 0 };
        let later = |set| members(self.needed(i, set)).all(|k| flow.layers[k] < own);
        own >= self.lowest(i) && set_of(set, self.n).is_some_and(|set| self.suits(i, set) && later(set))
    }

    /// The smallest layers that flows by the rule have; none where there is no such flow. Each layer starts at its lowest. Where no set
    /// at all does for a node by the layers as they stand, none does in that layer however the others rise, so the node must rise.
    /// Smallest layers have no gaps, so none is past n.
    pub fn smallest_layers(&self) -> Option<Vec<usize>> {
        let of = |i| subsets(self.all).filter(move |&set| self.suits(i, set)).map(move |set| self.needed(i, set));
        let needed: Vec<(usize, Vec<Nodes>)> = members(self.measured).map(|i| (i, of(i).collect())).collect();
        let mut layers: Vec<usize> = (0..self.n).map(|i| self.lowest(i)).collect();
        loop {
            let later = |i: usize| (0..self.n).filter(|&k| layers[k] < layers[i]).fold(0, |all, k| all | bit(k));
            let stuck = |(i, sets): &&(usize, Vec<Nodes>)| sets.iter().all(|set| set & !later(*i) != 0);
            let Some(&(i, _)) = needed.iter().find(stuck) else { return Some(layers) };
            layers[i] += 1;
            if layers[i] > self.n {
                return None;
            }
        }
    }

    fn equations(&self, u: usize, later: Nodes) -> Equations {
        let [x, y, z] = [X, Y, Z].map(|m| self.kind(m));
        Equations {
            columns: (later | x | y) & !self.inputs & !bit(u),
            upper: self.all & !(later | y | z) | bit(u),
            lower: y & !later & !bit(u),
        }
    }

    /// The rows in which the set's columns add up to 1: an upper row counts neighbours, a lower row the node itself too.
    fn sum(&self, of: &Equations, set: Nodes) -> Nodes {
        let odd = self.odd(set);
        odd & of.upper | (odd ^ set) & of.lower
    }

    /// The columns that are no sum of earlier ones.
    fn pivots(&self, of: &Equations) -> Nodes {
        let is_sum = |k: usize| subsets(of.columns & (bit(k) - 1)).any(|set| self.sum(of, set) == self.sum(of, bit(k)));
        members(of.columns).filter(|&k| !is_sum(k)).fold(0, |all, k| all | bit(k))
    }

    /// The set that the equations give u, by the first branch that has a solution: the one that uses pivots only.
    fn solved(&self, u: usize, later: Nodes) -> Option<Nodes> {
        let of = self.equations(u, later);
        let pivots = self.pivots(&of);
        branches(self.measurements[u]).iter().find_map(|&branch| {
            let own = if branch == XY { 0 } else { bit(u) };
            let wanted = if branch == YZ { 0 } else { bit(u) };
            let is_answer = |set: &Nodes| set & !own & !pivots == 0 && self.sum(&of, *set) == wanted;
            subsets(of.columns).map(|set| set | own).find(is_answer)
        })
    }

    /// The flow that document 01's equations give, round by round, with layers of kind 0011; none where a node is left.
    pub fn answer(&self) -> Option<Flow> {
        let mut flow = Flow { kind: LAYERS, layers: vec![0; self.n], sets: BTreeMap::new() };
        let mut unsolved = self.measured;
        let mut round = usize::from(self.mode == PLANES);
        while unsolved != 0 {
            let later = if round == 0 { 0 } else { self.all & !unsolved };
            let solved: Vec<(usize, Nodes)> = members(unsolved).filter_map(|u| Some((u, self.solved(u, later)?))).collect();
            if solved.is_empty() && round > 0 {
                return None;
            }
            for (u, set) in solved {
                flow.layers[u] = round;
                flow.sets.insert(u as u8, members(set).map(|k| k as u8).collect());
                unsolved &= !bit(u);
            }
            round += 1;
        }
        Some(flow)
    }
}
