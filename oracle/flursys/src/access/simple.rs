//! Private functions of the coupling.

use super::*;

/// `continuity_metrics` with the largest divergence: the root mean square and that.
pub fn continuity_metrics(
    mesh: &UnstructuredMesh,
    flux: &FaceField<f64>,
) -> Result<(f64, f64), SimpleError> {
    super::continuity_metrics(mesh, flux, true)
        .map(|(rms, largest)| (rms, largest.expect("asked for")))
}

/// `rhie_chow_flux_with_coefficients` with the least-squares gradient, and with conditions where given.
#[allow(clippy::too_many_arguments)]
pub fn rhie_chow_flux_with_coefficients(
    mesh: &UnstructuredMesh,
    predictor_velocity: &CellField<Vec3>,
    pressure: &CellField<f64>,
    r_au: &CellField<f64>,
    pressure_stencil: &LeastSquaresGradientStencil,
    wall_flux: &FaceField<f64>,
    coefficients: &FaceField<f64>,
    coupling_gradient: Option<&CellField<Vec3>>,
    boundary: Option<&ResolvedScalarBoundaryConditions>,
) -> Result<FaceField<f64>, SimpleError> {
    super::rhie_chow_flux_with_coefficients(
        mesh,
        predictor_velocity,
        pressure,
        r_au,
        pressure_stencil,
        wall_flux,
        coefficients,
        coupling_gradient,
        boundary,
    )
}

/// `pressure_coupling_gradient_with_gravity` without density or gravity.
pub fn pressure_coupling_gradient(
    mesh: &UnstructuredMesh,
    pressure: &CellField<f64>,
    boundary: Option<&ResolvedScalarBoundaryConditions>,
) -> Result<CellField<Vec3>, SimpleError> {
    super::pressure_coupling_gradient_with_gravity(mesh, pressure, boundary, None)
}
