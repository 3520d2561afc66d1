//! The exit status.

use yestrwyn::Verdict;

/// What the exit status says; of several the highest.
#[derive(Clone, Copy, PartialEq, Eq, PartialOrd, Ord, Hash, Debug)]
pub enum Status {
    /// Accepted, or done.
    Accepted,
    /// Open, or a no.
    Open,
    /// Refused.
    Refused,
    /// Something could not be read or written, or was not asked for in the right way.
    Failed,
}

impl Status {
    /// The number that the command ends with.
    pub fn number(self) -> u8 {
        match self {
            Status::Accepted => 0,
            Status::Open => 1,
            Status::Refused => 2,
            Status::Failed => 3,
        }
    }
}

impl From<Verdict> for Status {
    fn from(verdict: Verdict) -> Status {
        match verdict {
            Verdict::Accepted(_) => Status::Accepted,
            Verdict::Open => Status::Open,
            Verdict::Refused { .. } => Status::Refused,
        }
    }
}
