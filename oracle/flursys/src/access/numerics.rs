//! Conditions and stencils made from, and taken apart into, their private parts.

use super::*;
use crate::periodic::CyclicMap;
use std::sync::Arc;

/// Where an equation takes its other value from.
#[derive(Clone, Copy, Debug)]
pub enum Source {
    Neighbour(usize),
    FixedValue(f64),
    ZeroNormalDerivative,
}

/// One equation of a cell's stencil.
#[derive(Clone, Copy, Debug)]
pub struct Equation {
    pub coefficient: Vec3,
    pub source: Source,
}

/// Conditions that no constructor tests: any value, absent ones, any link.
pub fn conditions(
    mesh_id: MeshId,
    conditions: Vec<Option<ScalarBoundaryCondition>>,
    cyclic: Option<CyclicMap>,
) -> ResolvedScalarBoundaryConditions {
    let mut resolved = ResolvedScalarBoundaryConditions {
        mesh_id,
        conditions,
        cyclic: None,
    };
    if let Some(map) = cyclic {
        set_cyclic(&mut resolved, map);
    }
    resolved
}

/// Gives conditions their links.
pub fn set_cyclic(conditions: &mut ResolvedScalarBoundaryConditions, map: CyclicMap) {
    conditions.set_cyclic(Arc::new(map));
}

pub fn stencil(
    mesh_id: MeshId,
    equations: Vec<Vec<Equation>>,
    inverse_normal_matrices: Vec<[f64; 9]>,
) -> LeastSquaresGradientStencil {
    let made = |equation: Equation| LeastSquaresEquation {
        rhs_coefficient: equation.coefficient,
        source: match equation.source {
            Source::Neighbour(cell) => LeastSquaresSource::Neighbour(cell),
            Source::FixedValue(value) => LeastSquaresSource::FixedValue(value),
            Source::ZeroNormalDerivative => LeastSquaresSource::ZeroNormalDerivative,
        },
    };
    LeastSquaresGradientStencil {
        mesh_id,
        boundary: conditions(mesh_id, Vec::new(), None),
        equations: equations
            .into_iter()
            .map(|cell| cell.into_iter().map(made).collect())
            .collect(),
        inverse_normal_matrices,
    }
}

/// The equations of each cell, in order.
pub fn equations(stencil: &LeastSquaresGradientStencil) -> Vec<Vec<Equation>> {
    let read = |equation: &LeastSquaresEquation| Equation {
        coefficient: equation.rhs_coefficient,
        source: match equation.source {
            LeastSquaresSource::Neighbour(cell) => Source::Neighbour(cell),
            LeastSquaresSource::FixedValue(value) => Source::FixedValue(value),
            LeastSquaresSource::ZeroNormalDerivative => Source::ZeroNormalDerivative,
        },
    };
    stencil
        .equations
        .iter()
        .map(|cell| cell.iter().map(read).collect())
        .collect()
}

pub fn inverses(stencil: &LeastSquaresGradientStencil) -> &[[f64; 9]] {
    &stencil.inverse_normal_matrices
}

/// The private function of that name.
pub fn inverse_normal_matrix(
    mesh: &UnstructuredMesh,
    normal: [f64; 9],
    cell: usize,
) -> Result<[f64; 9], NumericsError> {
    super::inverse_normal_matrix(mesh, normal, cell)
}
