//! Stands in for the crate's src/solver.rs, which is not among the given sources. Only these two of its children are compared.
pub mod line;
pub mod propagation;
