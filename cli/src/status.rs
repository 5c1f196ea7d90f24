//! How a command ends: its exit status, and why it could not be done.

use std::fmt::Display;

/// The exit status. Of several files the highest counts.
#[derive(Clone, Copy, Debug, PartialEq, Eq, PartialOrd, Ord)]
pub enum Status {
    /// All was read, and there is nothing to report.
    Clean = 0,
    /// All was read, and there is something to report.
    Reported = 1,
    /// A text or a stream was refused.
    Refused = 2,
    /// The command could not be done.
    Failed = 3,
    /// The tool's own checks of what the core gave failed.
    Fault = 4,
}

/// Why a file got no answer.
#[derive(Debug)]
pub struct Failure {
    pub status: Status,
    pub message: String,
}

impl Failure {
    pub fn failed(why: impl Display) -> Failure {
        Failure { status: Status::Failed, message: why.to_string() }
    }

    pub fn fault(why: impl Display) -> Failure {
        Failure { status: Status::Fault, message: format!("a fault in this tool, please report it: {why}") }
    }
}
