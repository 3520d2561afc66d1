//! How large a proof was, and how large its file is.

use std::fmt;

use yestrwyn_builder::RunningBuilder;
use yestrwyn_types::limits::RECORD_BYTES;
use yestrwyn_types::record::kind;

use crate::proof::Proof;

/// How large a proof was, and how large its file is.
#[derive(Clone, Copy, PartialEq, Eq, Debug)]
pub struct Summary {
    /// Clauses of SPASS's proof that are input clauses. Each is one of the file.
    pub inputs: usize,
    /// The other clauses of SPASS's proof.
    pub inferences: usize,
    /// Resolution and factoring steps of the file.
    pub steps: usize,
    /// All records of the file.
    pub records: usize,
}

impl Summary {
    /// The sizes of a proof and of its file.
    pub(crate) fn of(proof: &Proof, written: &RunningBuilder) -> Summary {
        let inputs = proof.lines.iter().filter(|line| line.is_input()).count();
        let inferences = proof.lines.len() - inputs;
        let records = written.bytes().chunks_exact(RECORD_BYTES);
        let is_step = |record: &&[u8]| {
            matches!(record.first(), Some(&(kind::RESOLVE | kind::FACTOR | kind::RESOLVE_SEVERAL)))
        };
        Summary { inputs, inferences, steps: records.clone().filter(is_step).count(), records: records.len() }
    }
}

/// `19 input clauses and 35 inferences became 19 input clauses and 40 steps in 133 records`.
impl fmt::Display for Summary {
    fn fmt(&self, out: &mut fmt::Formatter<'_>) -> fmt::Result {
        let Summary { inputs, inferences, steps, records } = self;
        write!(out, "{inputs} input clauses, {inferences} inferences as {steps} steps, {records} records")
    }
}
