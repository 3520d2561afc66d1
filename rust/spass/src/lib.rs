//! Proofs that SPASS prints, as proof files.
//!
//! SPASS, a prover for first-order logic and a Debian package, prints its proofs with `-DocProof`. [`proof_file`] reads such a proof of a
//! problem without equality, and writes its input clauses and, for each inference, the resolution and factoring steps that
//! give its clause:
//!
//! ```
//! let text = "Here is a proof with depth 1, length 5 :
//! 1[0:Inp] ||  -> night(slot)*.
//! 2[0:Inp] || night(u)* -> closed(lakeside,u)*.
//! 3[0:Inp] || closed(u,slot)* -> .
//! 4[0:Res:1.0,2.0] ||  -> closed(lakeside,slot)*.
//! 5[0:UnC:4.0,3.0] ||  -> .
//! ";
//! let converted = yestrwyn_spass::proof_file(text)?;
//! assert_eq!(converted.names, "s0 slot\ns1 night\ns2 lakeside\ns3 closed\n");
//! assert_eq!(converted.file.len(), converted.summary.records * 16);
//! assert_eq!(converted.summary.steps, 2);
//! # Ok::<(), yestrwyn_spass::SpassError>(())
//! ```
//!
//! Neither SPASS nor this package need be trusted: whether the file is a proof is the check's to say.

#![forbid(unsafe_code)]
#![warn(missing_docs)]

mod bindings;
mod conversion;
mod error;
mod growing;
mod proof;
mod search;
mod splitting;
mod steps;
mod summary;
mod term;
mod writing;

pub use error::{Fault, SpassError};
pub use summary::Summary;

/// The Rust on the page for authors of planners.
#[cfg(doctest)]
#[doc = include_str!("../../../docs/PLANNERS.md")]
struct Planners;

/// A proof of SPASS's as a proof file.
#[derive(Clone, PartialEq, Eq, Debug)]
pub struct Converted {
    /// The bytes of the file, in the old form.
    pub file: Vec<u8>,
    /// SPASS's names of the symbols, as the text of a file of names: `s3 departs` a line.
    pub names: String,
    /// How large the proof was, and how large the file is.
    pub summary: Summary,
}

/// The proof file of what SPASS prints with `-DocProof`. The clause of each inference becomes one that says as much or more, so that some
/// steps of SPASS's take no record and others several; what the empty clause does not use is left out, but for input clauses.
pub fn proof_file(text: &str) -> Result<Converted, SpassError> {
    let proof = proof::read(text)?;
    let converting = conversion::convert(&proof)?;
    let written = writing::write(&proof, &converting)?;
    let summary = Summary::of(&proof, &written);
    let names = written.names();
    Ok(Converted { file: written.finish(), names, summary })
}
