//! The solver on random matrices of every shape, and where the original panics.

use crate::ours::{self, Answer};
use crate::random::Random;
use crate::tally::{Tally, hex};
use fixedbitset::FixedBitSet;
use original::internal::gf2_linalg::GF2Solver;

pub const ROW_BYTES: usize = 16;
const MOST: usize = 128;
/// So many right sides of a matrix are solved.
const SIDES_TRIED: usize = 6;
/// What the out bits hold before a call.
const OLD_BITS: [u8; ROW_BYTES] = [0xA5; ROW_BYTES];

#[derive(Clone, Copy, Debug)]
pub struct Shape {
    pub rows: usize,
    /// Columns of coefficients.
    pub cols: usize,
    /// Right sides.
    pub sides: usize,
}

fn bit(bytes: &[u8], i: usize) -> bool {
    bytes[i / 8] >> (i % 8) & 1 == 1
}

/// Random rows of the shape's width; where `rank` is small, all are sums of so many.
fn matrix(shape: Shape, random: &mut Random) -> Vec<u8> {
    let density = 1 + random.below(8);
    let rank = 1 + random.below(shape.rows);
    let mut bytes = vec![0; shape.rows * ROW_BYTES];
    for row in 0..shape.rows {
        let (done, rest) = bytes.split_at_mut(row * ROW_BYTES);
        if row >= rank && random.chance(7, 8) {
            let from = random.below(rank) * ROW_BYTES;
            rest[..ROW_BYTES].copy_from_slice(&done[from..from + ROW_BYTES]);
            continue;
        }
        for i in 0..shape.cols + shape.sides {
            rest[i / 8] |= u8::from(random.chance(density, 16)) << (i % 8);
        }
    }
    bytes
}

/// A matrix of so many bits a row as the original has it.
pub fn rows_of(bytes: &[u8], width: usize) -> Vec<FixedBitSet> {
    let row = |bytes: &[u8]| {
        let mut set = FixedBitSet::with_capacity(width);
        (0..width).for_each(|i| set.set(i, bit(bytes, i)));
        set
    };
    bytes.chunks(ROW_BYTES).map(row).collect()
}

/// The original's solution as ours writes it.
pub fn bytes_of(bits: &FixedBitSet) -> [u8; ROW_BYTES] {
    let mut bytes = [0; ROW_BYTES];
    bits.ones().for_each(|i| bytes[i / 8] |= 1 << (i % 8));
    bytes
}

/// Whether the bits solve the side's equations in the matrix as it was given.
fn solves(matrix: &[u8], shape: Shape, side: usize, bits: &[u8]) -> bool {
    let holds = |row: &[u8]| {
        let sum = (0..shape.cols).filter(|&c| bit(row, c) && bit(bits, c)).count() % 2 == 1;
        sum == bit(row, shape.cols + side)
    };
    matrix.chunks(ROW_BYTES).all(holds)
}

/// Ours is as the original's; a solution is one; without one the out bits are the old ones.
fn agrees(given: &[u8], shape: Shape, side: usize, mine: (Answer, [u8; ROW_BYTES]), other: Option<[u8; ROW_BYTES]>) -> bool {
    match (mine, other) {
        ((Answer::Value(1), bits), Some(theirs)) => bits == theirs && solves(given, shape, side, &bits),
        ((Answer::Value(0), bits), None) => bits == OLD_BITS,
        _ => false,
    }
}

fn solve_ours(matrix: &mut [u8], shape: Shape, side: usize) -> (Answer, [u8; ROW_BYTES]) {
    let mut bits = OLD_BITS;
    let answer = ours::solve(matrix, &mut bits, shape.rows, shape.cols, shape.sides, side);
    (answer, bits)
}

/// Some right sides of one matrix, each on the matrix as given and on the one that the calls before it left.
fn compare(tally: &mut Tally, shape: Shape, given: &[u8], random: &mut Random) {
    let mut storage = rows_of(given, shape.cols + shape.sides);
    let mut theirs = GF2Solver::attach(storage.as_mut_slice(), shape.sides);
    let mut used = given.to_vec();
    for _ in 0..SIDES_TRIED.min(shape.sides) {
        let side = random.below(shape.sides);
        let mut out = FixedBitSet::with_capacity(shape.cols);
        let other = theirs.solve_in_place(&mut out, side).then(|| bytes_of(&out));
        let fresh = solve_ours(&mut given.to_vec(), shape, side);
        let again = solve_ours(&mut used, shape, side);
        let same = fresh == again && agrees(given, shape, side, fresh, other);
        let answer = if other.is_some() { "solvable" } else { "not" };
        tally.add("solver, random matrices", answer, same, || {
            format!("{shape:?} side {side} matrix {} ours {fresh:?} again {again:?} original {other:?}", hex(given))
        });
    }
}

fn random_shape(random: &mut Random) -> Shape {
    let most = if random.chance(1, 2) { 12 } else { MOST };
    let cols = 1 + random.below(most - 1);
    Shape { rows: 1 + random.below(most), cols, sides: 1 + random.below(most - cols) }
}

pub fn random_ones(tally: &mut Tally, random: &mut Random, count: usize) {
    for _ in 0..count {
        let shape = random_shape(random);
        let given = matrix(shape, random);
        compare(tally, shape, &given, random);
    }
}

/// The original's solver; none where it panics.
fn tried_theirs(mut storage: Vec<FixedBitSet>, sides: usize, out_bits: usize, side: usize) -> Option<bool> {
    let call = move || {
        let mut out = FixedBitSet::with_capacity(out_bits);
        GF2Solver::attach(storage.as_mut_slice(), sides).solve_in_place(&mut out, side)
    };
    std::panic::catch_unwind(call).ok()
}

/// Right sides only: half of them are zero, the others have a single 1 or many.
fn sides_only(shape: Shape, random: &mut Random) -> Vec<u8> {
    let mut bytes = vec![0; shape.rows * ROW_BYTES];
    for side in 0..shape.sides {
        let (kind, single) = (random.below(4), random.below(shape.rows));
        for row in 0..shape.rows {
            let is_set = kind == 2 && row == single || kind == 3 && random.chance(1, 2);
            bytes[row * ROW_BYTES + side / 8] |= u8::from(is_set) << (side % 8);
        }
    }
    bytes
}

/// No column: the empty sum is zero, so that just a right side of zeros has a solution, and there is nothing to eliminate.
pub fn no_column(tally: &mut Tally, random: &mut Random, count: usize) {
    for _ in 0..count {
        let most = if random.chance(1, 2) { 12 } else { MOST };
        let shape = Shape { rows: 1 + random.below(most), cols: 0, sides: 1 + random.below(most) };
        let given = sides_only(shape, random);
        let side = random.below(shape.sides);
        let mut matrix = given.clone();
        let mine = solve_ours(&mut matrix, shape, side);
        let other = tried_theirs(rows_of(&given, shape.sides), shape.sides, 0, side);
        let is_zero = given.chunks(ROW_BYTES).all(|row| !bit(row, side));
        let wanted = if is_zero { (Answer::Value(1), [0; ROW_BYTES]) } else { (Answer::Value(0), OLD_BITS) };
        let answer = match other {
            Some(_) => "answer",
            None if is_zero => "panic, the right side zero",
            None => "panic, the right side not zero",
        };
        tally.add("solver, no column (the original panics)", answer, mine == wanted && matrix == given && other.is_none(), || {
            format!("{shape:?} side {side} matrix {} ours {mine:?} leaves {} original {other:?}", hex(&given), hex(&matrix))
        });
    }
}

fn tried_ours(shape: Shape, out_bytes: usize, side: usize) -> Answer {
    let (mut matrix, mut bits) = (vec![0; shape.rows * ROW_BYTES], vec![0; out_bytes]);
    ours::solve(&mut matrix, &mut bits, shape.rows, shape.cols, shape.sides, side)
}

/// Calls of a wrong shape, each also without a column: where the original panics ours refuses; what is above 128 only ours refuses, but
/// without a column the original panics there too.
pub fn wrong_shapes(tally: &mut Tally, random: &mut Random, count: usize) {
    for _ in 0..count {
        let good = random_shape(random);
        wrong_shapes_near(tally, good, random);
        wrong_shapes_near(tally, Shape { cols: 0, ..good }, random);
    }
}

fn wrong_shapes_near(tally: &mut Tally, good: Shape, random: &mut Random) {
    let (cols, sides) = (good.cols, good.sides);
    let cases = [
        ("no row", Shape { rows: 0, ..good }, cols, ROW_BYTES, 0, 11),
        ("no right side", Shape { sides: 0, ..good }, cols, ROW_BYTES, 0, 11),
        ("out bits of a wrong length", good, cols + 1, ROW_BYTES + 1, 0, 11),
        ("no such equation", good, cols, ROW_BYTES, sides + random.below(3), 12),
        ("more than 128 rows", Shape { rows: MOST + 1, ..good }, cols, ROW_BYTES, 0, 11),
        ("more than 128 columns in all", Shape { sides: MOST + 1 - cols, ..good }, cols, ROW_BYTES, 0, 11),
    ];
    for (name, shape, out_bits, out_bytes, side, number) in cases {
        let storage = vec![FixedBitSet::with_capacity(shape.cols + shape.sides); shape.rows];
        let (mine, other) = (tried_ours(shape, out_bytes, side), tried_theirs(storage, shape.sides, out_bits, side));
        let panics = cols == 0 || !name.starts_with("more");
        let same = mine == Answer::Refused(number, 0, 0) && other.is_none() == panics;
        let answer = if other.is_none() { "panic" } else { "answer" };
        let besides = if cols == 0 { ", and no column" } else { "" };
        let family = format!("solver, {name}{besides} (ours: {number})");
        tally.add(&family, answer, same, || format!("{shape:?} side {side} ours {mine:?} original {other:?}"));
    }
}
