//! The derivation of a clause as a picture: each clause once, with the clauses that its step names above it.

mod coordinates;
mod dot;
mod graph;
mod layers;
mod order;
mod svg;

pub use dot::dot;
pub use graph::IN_FULL;
pub use svg::svg;
