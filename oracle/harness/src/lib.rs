//! What the oracle and the benchmark share: jobs, the same call on both sides, and the comparisons.

pub mod angles;
pub mod families;
pub mod finders;
pub mod flows;
pub mod grown;
pub mod jobs;
pub mod many;
pub mod ours;
pub mod random;
pub mod roles;
pub mod rule;
pub mod solving;
pub mod tally;
pub mod theirs;
pub mod verifiers;
