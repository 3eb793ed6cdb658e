//! Safe calls of Juvandeer, a finite-volume kernel whose every function is proved, bit for bit, against a
//! definition over IEEE 754 binary64.
//!
//! A [`Mesh`] is built from faces and cells or from points; [`Conditions`] and fields are made for it; the
//! engine's functions are methods of the mesh. What the engine does not accept is a [`Refusal`], with the face
//! or the cell, which is printed as the engine's sentence.
//!
//! The two-cell sheet: face 0 joins cells 0 and 1, faces 1 and 2 belong to one cell each and have a zero
//! gradient.
//!
//! ```
//! use juvandeer::{Cell, CellField, Condition, Conditions, Dimension, Face, FaceField, Mesh};
//!
//! let face = |owner, neighbour, x, outward| Face {
//!     owner,
//!     neighbour,
//!     center: [x, 0.5, 0.0],
//!     area_vector: [outward, 0.0, 0.0],
//!     normal: [outward, 0.0, 0.0],
//! };
//! let cell = |x| Cell { center: [x, 0.5, 0.0], volume: 1.0 };
//! let mesh = Mesh::from_faces(
//!     Dimension::Two,
//!     &[face(0, Some(1), 1.0, 1.0), face(0, None, 0.0, -1.0), face(1, None, 2.0, 1.0)],
//!     &[cell(0.5), cell(1.5)],
//! )?;
//! let conditions = Conditions::uniform(&mesh, Condition::ZeroGradient);
//! let flux = mesh.correct_face_flux_with_boundary(
//!     &conditions,
//!     &FaceField::new(&mesh, vec![2.0, -1.0, 1.0]),
//!     &FaceField::new(&mesh, vec![0.5, 0.0, 0.0]),
//!     &CellField::new(&mesh, vec![1.0, 3.0]),
//! )?;
//! assert_eq!(flux.values(), [1.0, -1.0, 1.0]);
//! let outflow = mesh.integrated_divergence(&flux)?;
//! assert_eq!(outflow.values(), [0.0, 0.0]);
//! # Ok::<(), Box<dyn std::error::Error>>(())
//! ```
//!
//! A caller keeps the default floating-point environment: rounding to nearest, no flush to zero. The library's
//! proofs say nothing of this crate: that the two fit together is tested.

#![deny(unsafe_code)]
#![deny(missing_docs)]

mod amount;
pub mod balance;
mod calls;
mod chains;
mod conditions;
mod distances;
mod error;
#[allow(unsafe_code)]
mod ffi;
mod fields;
mod gradients;
mod mesh;
mod points;
mod refusal;
mod stencil;
mod step;
mod whole;

pub use calls::{root, Continuity, Metrics, Prediction};
pub use conditions::{Condition, Conditions};
pub use distances::Distances;
pub use error::BuildError;
pub use fields::{CellField, FaceField, VectorField};
pub use mesh::{Cell, Dimension, Face, Mesh, Vec3};
pub use refusal::{Refusal, RefusalKind};
pub use stencil::Stencil;
pub use step::{Step, StepInput};

#[cfg(doctest)]
#[doc = include_str!("../README.md")]
struct Readme;
