//! Sheets: a mesh, its conditions and its fields in a text file that a person writes by hand. They are run
//! through the engine, what it gives is printed, and flux sheets and gradient sheets are marked against it.
//! FORMAT.md says what a sheet looks like.

#![forbid(unsafe_code)]
#![deny(missing_docs)]

mod advice;
mod any;
pub mod check;
mod closed;
mod conditions;
mod entries;
mod fields;
pub mod files;
mod form;
mod gradient;
mod items;
mod lines;
mod mesh;
mod mistake;
pub mod number;
pub mod polymesh;
pub mod report;
pub mod run;
mod sheet;

pub use any::{AnyOutcome, AnySheet};
pub use gradient::{FaceValues, GradientSheet};
pub use mistake::Mistake;
pub use sheet::{CorrectionFields, Fields, Momentum, Sheet, StepFields};

/// The most cells, faces and points that are taken, the engine's own limit of cells and faces.
pub const MOST: usize = 65_535;

/// The most faces of a cell, the engine's own limit.
pub const MOST_CELL_FACES: usize = 26;
