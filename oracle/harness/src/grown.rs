//! Random jobs that have a flow, with every plane and many layers.

use crate::families::allowed;
use crate::jobs::{Job, PAULI, PLANES, X, XY, XZ, Y, YZ, Z};
use crate::random::Random;

/// Sets of nodes as bits. No row has another's pivot.
#[derive(Default)]
struct Basis {
    rows: Vec<(u32, u128)>,
}

impl Basis {
    fn add(&mut self, mut set: u128) {
        for &(pivot, row) in &self.rows {
            if set >> pivot & 1 == 1 {
                set ^= row;
            }
        }
        if set == 0 {
            return;
        }
        let new = set.trailing_zeros();
        for (_, row) in &mut self.rows {
            if *row >> new & 1 == 1 {
                *row ^= set;
            }
        }
        self.rows.push((new, set));
    }

    /// Changed at pivots only, so that it meets each set in an even number of nodes.
    fn made_even(&self, near: u128) -> u128 {
        let odd = |row: u128| (near & row).count_ones() % 2 == 1;
        self.rows.iter().filter(|(_, row)| odd(*row)).fold(near, |near, (pivot, _)| near ^ (1 << pivot))
    }
}

/// Random nodes below `end`; the more `thin`, the fewer.
fn some(end: usize, thin: usize, random: &mut Random) -> u128 {
    let all = u128::MAX >> (128 - end);
    (0..=thin).fold(all, |set, _| set & ((random.next() as u128) << 64 | random.next() as u128))
}

/// A set for a node with these neighbours: it meets them in an odd number for XY and XZ, in an even number for YZ.
fn set_for(plane: u8, near: u128, set: u128) -> u128 {
    let odd = (set & near).count_ones() % 2 == 1;
    if odd == (plane != YZ) {
        return set;
    }
    set ^ (1 << near.trailing_zeros())
}

/// A measurement whose flows a flow of the plane is.
fn measurement(plane: u8, mode: u8, random: &mut Random) -> u8 {
    match plane {
        _ if mode != PAULI => plane,
        XY => random.pick(&[XY, X, Y]),
        YZ => random.pick(&[YZ, Y, Z]),
        _ => random.pick(&[XZ, X, Z]),
    }
}

/// A job that has a flow.
pub fn grown(n: usize, mode: u8, random: &mut Random) -> Job {
    grow(n, mode, false, random)
}

/// The same with few columns at first: with planes none, for all outputs are inputs; with Paulis no more than one node is in X or Y,
/// and in half of the cases all outputs are inputs there too.
pub fn grown_lean(n: usize, mode: u8, random: &mut Random) -> Job {
    let closed = mode != PAULI || random.chance(1, 2);
    let mut job = grow(n, PLANES, closed, random);
    if mode == PAULI {
        job.mode = mode;
        job.measured.iter_mut().filter(|m| **m != XY && random.chance(1, 2)).for_each(|m| *m = Z);
        let one = random.below(n);
        if job.measured[one] == XY {
            job.measured[one] = measurement(XY, mode, random);
        }
    }
    job
}

/// The outputs come first, then each node that is measured before those that are there: its neighbours among them meet all their sets in an
/// even number, so that their sets stay right. Where `closed`, the outputs are inputs and in no set.
fn grow(n: usize, mode: u8, closed: bool, random: &mut Random) -> Job {
    let mut job = Job::new(n, mode);
    let outputs = 1 + random.below(n.div_ceil(2));
    let (thin_edges, thin_sets) = (random.below(4), random.below(4));
    let planes: Vec<u8> = [XY, YZ, XZ].into_iter().filter(|p| allowed(mode).contains(p)).collect();
    let mut basis = Basis::default();
    let mut members = 0;
    job.outputs.extend(0..outputs as u8);
    let usable = if closed { u128::MAX << outputs } else { u128::MAX };
    for u in outputs..n {
        let near = basis.made_even(some(u, thin_edges, random));
        let usable_near = near & usable;
        let plane = if usable_near == 0 { YZ } else { random.pick(&planes) };
        let set = some(u, thin_sets, random) & usable;
        let set = if usable_near == 0 { set } else { set_for(plane, usable_near, set) };
        basis.add(if plane == XY { set } else { set | 1 << u });
        members |= set;
        (0..u).filter(|v| near >> v & 1 == 1).for_each(|v| job.join(u, v));
        job.measured[u] = if allowed(mode).contains(&plane) { measurement(plane, mode, random) } else { XY };
    }
    job.inputs.extend((0..n as u8).filter(|v| members >> v & 1 == 0 && random.chance(1, 2)));
    if closed {
        job.inputs.extend(&job.outputs);
    }
    job
}
