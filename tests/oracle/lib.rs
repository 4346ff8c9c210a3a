//! The smallest shell round the crate's own sources: the modules that the comparison needs, and nothing of its parser or drawing.
#![allow(warnings)]
pub mod block;
pub mod board;
pub mod cache;
pub mod solver;
pub mod utils;
