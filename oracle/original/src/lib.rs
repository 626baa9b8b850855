//! The modules of the original, unchanged.
#![allow(dead_code)]

pub mod common;
pub mod flow;
pub mod gflow;
pub mod pflow;

pub mod internal {
    pub mod gf2_linalg;
    pub mod utils;
    pub mod validate;
}
