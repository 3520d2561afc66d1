//! Proofs of SPASS's converted: stored ones, ones written by hand, what is refused, and, where SPASS is installed, what it prints now.

mod inferences;
mod random;
mod refusals;
mod running;
mod stored;
