//! The parts of FLURSYS (commit f745a8f69b) that the port follows, built from its own sources.
//!
//! `build.rs` takes them out at build time; nothing of the original's text is kept here. Each extracted
//! module has a child module `access` of our own, which reaches private items from outside them.

include!(concat!(env!("OUT_DIR"), "/modules.rs"));

pub use fields::{CellField, FaceField, FieldError};
pub use linear::{LinearAlgebraError, LinearSolveReport};
pub use mesh::{
    BoundaryPatch, BoundaryType, Cell, CellDefinition, Face, MeshDimension, MeshError, MeshId,
    Point, UnstructuredMesh, Vec3,
};
pub use momentum::{MomentumError, MomentumOptions, TransientDensity};
pub use numerics::{
    gauss_gradient_from_faces, integrated_divergence, integrated_divergence_into,
    least_squares_gradient, least_squares_gradient_into, DiffusionOptions, Diffusivity,
    LeastSquaresGradientStencil, NumericsError, ResolvedScalarBoundaryConditions,
    ScalarBoundaryCondition,
};
pub use simple::{
    continuity_rms, correct_cell_velocity_from_gradient, correct_face_flux_with_boundary,
    momentum_inverse_diagonal, pressure_face_coefficients,
    pressure_face_coefficients_with_boundary, rhie_chow_predicted_flux, SimpleError,
};

/// What was taken: file, lines, SHA-256 and what it is, a row each; checked when this crate was built.
pub const MANIFEST: &str = include_str!(concat!(env!("OUT_DIR"), "/manifest.txt"));
