//! How a command ends.

/// The exit status.
#[derive(Clone, Copy, Debug, PartialEq, Eq, PartialOrd, Ord)]
#[repr(u8)]
pub enum Status {
    /// Safe, or the evidence passes, or the plans are the same, or what was
    /// asked for is done.
    Good = 0,
    /// Unsafe, or the evidence fails, or the plans differ, or a plan is not in
    /// its shortest form.
    Bad = 1,
    /// A plan is refused, or its text has mistakes.
    Refused = 2,
    /// Wrong use, or a file or pipe that fails.
    Failed = 3,
}

/// What a command says: its output, messages beside it, and the status.
#[derive(Clone, Debug, PartialEq, Eq)]
pub struct Outcome {
    pub output: Vec<u8>,
    pub messages: String,
    pub status: Status,
}

impl Outcome {
    /// An answer, with nothing to say beside it.
    pub fn done(output: impl Into<Vec<u8>>) -> Outcome {
        Outcome {
            output: output.into(),
            messages: String::new(),
            status: Status::Good,
        }
    }
}

/// Why there is no answer, and the status to end with.
#[derive(Clone, Debug, PartialEq, Eq)]
pub struct Failure {
    pub status: Status,
    pub message: String,
}

impl Failure {
    pub fn refused(message: impl Into<String>) -> Failure {
        Failure {
            status: Status::Refused,
            message: message.into(),
        }
    }

    pub fn failed(message: impl Into<String>) -> Failure {
        Failure {
            status: Status::Failed,
            message: message.into(),
        }
    }
}

impl From<Failure> for Outcome {
    fn from(failure: Failure) -> Outcome {
        Outcome {
            output: Vec::new(),
            messages: failure.message,
            status: failure.status,
        }
    }
}
