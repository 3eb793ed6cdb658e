//! Nothing is solved here, so a report of a solve is empty.

#[derive(Clone, Debug, PartialEq)]
pub struct LinearSolveReport;
