//! The deferred convection correction, for later requests.

use super::*;

/// The private function `convection::correct`.
pub fn convection_correct(
    mesh: &UnstructuredMesh,
    options: MomentumOptions<'_>,
    rhs: &mut [f64],
) -> Result<(), MomentumError> {
    convection::correct(mesh, options, rhs)
}
