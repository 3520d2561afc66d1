//! Proof files for tests: the case sheet, examples from the literature, files at the edge of every
//! limit, deep, heavy and random ones, files with days, pairs of files that are merged, calls of boards, files for the second
//! readout, files of both forms and their conversions, files that are trimmed; and the vectors that are stored of them.

#![forbid(unsafe_code)]

pub mod alone;
pub mod boarding;
pub mod boards;
pub mod canonical;
pub mod clashing;
pub mod covering;
pub mod dated;
pub mod examples;
pub mod forms;
pub mod hiding;
pub mod merges;
pub mod merging;
pub mod outcome;
pub mod padding;
pub mod random;
pub mod renaming;
pub mod repeating;
pub mod shapes;
pub mod sketch;
pub mod stored;
pub mod trims;
pub mod widening;

pub use boarding::board_script;
pub use clashing::{clashing_file, clashing_several_file};
pub use covering::covering_file;
pub use dated::dated_file;
pub use hiding::hiding_file;
pub use merging::merging_files;
pub use padding::{padded, trimming_file};
pub use random::{damage, damage_form, random_file, random_file_of, several_file, several_file_of};
pub use repeating::repeating_file;
pub use widening::{converting_file, new_file, widened};
