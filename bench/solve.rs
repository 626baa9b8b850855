//! The solver: a matrix is put back as it was given, eliminated, and asked for one right side. The original's arguments are made
//! before. Ours has no call for another right side of the same elimination, so one answer is timed.

use crate::families::{JOBS, SEED};
use crate::summary::{Row, Table};
use crate::timing::{Times, medians};
use fixedbitset::FixedBitSet;
use harness::families::{grid, path};
use harness::jobs::{Job, PLANES};
use harness::ours::{self, Answer};
use harness::random::Random;
use harness::solving::{ROW_BYTES, Shape, bytes_of, rows_of};
use original::internal::gf2_linalg::GF2Solver;

/// A run takes at least so many microseconds.
const RUN: f64 = 50_000.0;
const ROWS: usize = 128;
/// One right side, and as many as there are columns of coefficients.
const SHAPES: [Shape; 2] = [Shape { rows: ROWS, cols: 127, sides: 1 }, Shape { rows: ROWS, cols: 64, sides: 64 }];
/// The right side that is asked for.
const ASKED: usize = 0;
const KINDS: [&str; 3] = ["dense", "path", "grid"];

/// Row by row, lowest bit first: the coefficients, then the right sides.
type Rows = [u128; ROWS];

fn random_row(random: &mut Random) -> u128 {
    u128::from(random.next()) << 64 | u128::from(random.next())
}

/// The neighbours of each node of a graph.
fn neighbours(job: &Job) -> Rows {
    let mut rows = [0; ROWS];
    for &(a, b) in &job.edges {
        rows[a as usize] |= 1 << b;
        rows[b as usize] |= 1 << a;
    }
    rows
}

/// Random matrices are several, since a processor learns the turns of a single one by heart.
fn coefficients(kind: &str, random: &mut Random) -> Vec<Rows> {
    match kind {
        "dense" => (0..JOBS).map(|_| [(); ROWS].map(|()| random_row(random))).collect(),
        "path" => vec![neighbours(&path(ROWS, PLANES))],
        _ => vec![neighbours(&grid(8, ROWS / 8, PLANES))],
    }
}

/// The coefficients with right sides that have a solution: each is what some of the columns add up to.
fn solvable(coefficients: &Rows, shape: Shape, random: &mut Random) -> Rows {
    let columns = (1 << shape.cols) - 1;
    let mut rows = coefficients.map(|row| row & columns);
    for side in 0..shape.sides {
        let chosen = random_row(random) & columns;
        for row in &mut rows {
            *row |= u128::from((*row & chosen).count_ones() % 2) << (shape.cols + side);
        }
    }
    rows
}

/// The same without a solution for the right side that is asked for: its bit changes in the first row where that leaves none.
fn unsolvable(solvable: &Rows, shape: Shape) -> Rows {
    let changed = |at: usize| {
        let mut rows = *solvable;
        rows[at] ^= 1 << (shape.cols + ASKED);
        rows
    };
    let has_none = |rows: &Rows| {
        let given = Given::new(rows, shape);
        Theirs::new(&given).solve(&given) == 0
    };
    (0..ROWS).map(changed).find(has_none).expect("there are more rows than columns")
}

/// A matrix as each side is given it.
struct Given {
    shape: Shape,
    ours: Vec<u8>,
    theirs: Vec<FixedBitSet>,
}

impl Given {
    fn new(rows: &Rows, shape: Shape) -> Self {
        let ours: Vec<u8> = rows.iter().flat_map(|row| row.to_le_bytes()).collect();
        let theirs = rows_of(&ours, shape.cols + shape.sides);
        Given { shape, ours, theirs }
    }
}

/// What ours works on.
struct Ours {
    matrix: Vec<u8>,
    bits: [u8; ROW_BYTES],
}

impl Ours {
    fn new(given: &Given) -> Self {
        Ours { matrix: given.ours.clone(), bits: [0; ROW_BYTES] }
    }

    /// 1 where there is a solution, else 0.
    fn solve(&mut self, given: &Given) -> usize {
        let Shape { rows, cols, sides } = given.shape;
        self.matrix.copy_from_slice(&given.ours);
        match ours::solve(&mut self.matrix, &mut self.bits, rows, cols, sides, ASKED) {
            Answer::Value(solved) => solved,
            refused => panic!("a matrix was refused: {refused:?}"),
        }
    }
}

/// What the original works on.
struct Theirs {
    matrix: Vec<FixedBitSet>,
    bits: FixedBitSet,
}

impl Theirs {
    fn new(given: &Given) -> Self {
        Theirs { matrix: given.theirs.clone(), bits: FixedBitSet::with_capacity(given.shape.cols) }
    }

    /// 1 where there is a solution, else 0.
    fn solve(&mut self, given: &Given) -> usize {
        for (row, given) in self.matrix.iter_mut().zip(&given.theirs) {
            row.as_mut_slice().copy_from_slice(given.as_slice());
        }
        let mut solver = GF2Solver::attach(self.matrix.as_mut_slice(), given.shape.sides);
        usize::from(solver.solve_in_place(&mut self.bits, ASKED))
    }
}

/// Both sides must give this answer, and the same solution.
fn agree(given: &Given, answer: usize) {
    let (mut ours, mut theirs) = (Ours::new(given), Theirs::new(given));
    assert_eq!([ours.solve(given), theirs.solve(given)], [answer; 2], "the two sides differ");
    if answer == 1 {
        assert_eq!(ours.bits, bytes_of(&theirs.bits), "the two solutions differ");
    }
}

fn times(matrices: &[Given], answer: usize) -> Times {
    matrices.iter().for_each(|given| agree(given, answer));
    let (mut ours, mut theirs) = (Ours::new(&matrices[0]), Theirs::new(&matrices[0]));
    let [ours, rust] = medians(matrices, RUN, [&mut |given| ours.solve(given), &mut |given| theirs.solve(given)]);
    Times { ours, rust, making: 0.0 }
}

fn print_row(kind: &str, shape: Shape, matrices: &[Rows], answer: usize) -> Row {
    let given: Vec<Given> = matrices.iter().map(|rows| Given::new(rows, shape)).collect();
    let t = times(&given, answer);
    let solution = if answer == 1 { "yes" } else { "no" };
    let Shape { rows, cols, sides } = shape;
    print!("| {kind} | {} | {rows} | {cols} | {sides} | {solution} ", matrices.len());
    println!("| {:.1} | {:.1} | {:.2} |", t.ours, t.rust, t.ratio());
    Row { table: Table::Solve, name: format!("{kind}, {cols} columns, solution: {solution}"), n: rows, times: t }
}

pub fn print() -> Vec<Row> {
    println!("| coefficients | matrices | rows | columns | right sides | solution | ours µs | Rust µs | Rust / ours |");
    println!("|---|---|---|---|---|---|---|---|---|");
    let mut rows = Vec::new();
    for (kind, shape) in KINDS.into_iter().flat_map(|kind| SHAPES.map(|shape| (kind, shape))) {
        let random = &mut Random::new(SEED);
        let solvable: Vec<Rows> = coefficients(kind, random).iter().map(|rows| solvable(rows, shape, random)).collect();
        let unsolvable: Vec<Rows> = solvable.iter().map(|rows| unsolvable(rows, shape)).collect();
        rows.push(print_row(kind, shape, &solvable, 1));
        rows.push(print_row(kind, shape, &unsolvable, 0));
    }
    rows
}
