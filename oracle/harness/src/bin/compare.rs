//! Compares the proved library with the original, and with the papers' rule; the seed may be given. Exit code 1 where they differ.

use harness::random::Random;
use harness::tally::Tally;
use harness::{angles, finders, solving, verifiers};
use std::process::ExitCode;

const SEED: u64 = 20260101;
const JOBS: usize = 40_000;
const LEAN_JOBS: usize = 4_000;
const LARGEST_ROUNDS: usize = 20;
const VERDICTS: usize = 24_000;
const MATRICES: usize = 10_000;
const WRONG_SHAPES: usize = 100;
const NO_COLUMN: usize = 10_000;
const TOO_MANY: usize = 4;
const ANGLED: usize = 20_000;

fn main() -> ExitCode {
    let seed = std::env::args().nth(1).map_or(SEED, |word| word.parse().expect("the seed is a number"));
    println!("seed {seed}\n");
    // The original's panics are counted, not shown.
    std::panic::set_hook(Box::new(|_| {}));
    let random = &mut Random::new(seed);
    let tally = &mut Tally::default();
    finders::all_small(tally);
    finders::random_ones(tally, random, JOBS);
    finders::largest(tally, random, LARGEST_ROUNDS);
    finders::too_many(tally, random, TOO_MANY);
    verifiers::all_small(tally, random);
    verifiers::random_ones(tally, random, VERDICTS);
    solving::random_ones(tally, random, MATRICES);
    solving::wrong_shapes(tally, random, WRONG_SHAPES);
    solving::no_column(tally, random, NO_COLUMN);
    finders::random_lean(tally, random, LEAN_JOBS);
    angles::all_small(tally, random);
    angles::random_ones(tally, random, ANGLED);
    if tally.report() { ExitCode::SUCCESS } else { ExitCode::FAILURE }
}
