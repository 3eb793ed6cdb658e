//! What each function is lent and what it hands out.

use crate::lent::FACE_WIDTH;
use Part::*;

/// A lent slice, or one that is handed out.
#[derive(Clone, Copy, Debug, PartialEq, Eq)]
pub enum Part {
    Adjacency,
    Geometry,
    Heads,
    Places,
    Facing,
    Bordering,
    Codes,
    Values,
    Starts,
    Equations,
    Weights,
    Inverses,
    Diagonal,
    Responses,
    Pressure,
    Velocity,
    Gradient,
    Walls,
    Predicted,
    Coefficients,
    Correction,
    Flux,
    Outflow,
    Metrics,
    Corrected,
    FaceValues,
}

/// What a slice has a record for.
#[derive(Clone, Copy, Debug, PartialEq, Eq)]
pub enum Unit {
    Cell,
    Face,
    FaceRecord,
    NeighbourRecord,
    EquationRecord,
    Call,
}

impl Part {
    pub const ALL: [Part; 26] = [
        Adjacency,
        Geometry,
        Heads,
        Places,
        Facing,
        Bordering,
        Codes,
        Values,
        Starts,
        Equations,
        Weights,
        Inverses,
        Diagonal,
        Responses,
        Pressure,
        Velocity,
        Gradient,
        Walls,
        Predicted,
        Coefficients,
        Correction,
        Flux,
        Outflow,
        Metrics,
        Corrected,
        FaceValues,
    ];

    pub fn name(self) -> &'static str {
        match self {
            Adjacency => "adjacency",
            Geometry => "geometry",
            Heads => "heads",
            Places => "places",
            Facing => "facing",
            Bordering => "bordering",
            Codes => "codes",
            Values => "values",
            Starts => "starts",
            Equations => "equations",
            Weights => "weights",
            Inverses => "inverses",
            Diagonal => "diagonal",
            Responses => "responses",
            Pressure => "pressure",
            Velocity => "velocity",
            Gradient => "gradient",
            Walls => "walls",
            Predicted => "predicted",
            Coefficients => "coefficients",
            Correction => "correction",
            Flux => "flux",
            Outflow => "outflow",
            Metrics => "metrics",
            Corrected => "corrected",
            FaceValues => "face values",
        }
    }

    /// What it has a record for, and how many numbers a record holds.
    pub fn shape(self) -> (Unit, usize) {
        match self {
            Adjacency | Codes => (Unit::Face, 2),
            Geometry => (Unit::Face, FACE_WIDTH),
            Values => (Unit::Face, 4),
            Walls | Predicted | Coefficients | Flux | FaceValues => (Unit::Face, 1),
            Heads => (Unit::Cell, 2),
            Places => (Unit::Cell, 4),
            Inverses => (Unit::Cell, 9),
            Velocity | Gradient | Corrected => (Unit::Cell, 3),
            Starts | Diagonal | Responses | Pressure | Correction | Outflow => (Unit::Cell, 1),
            Facing => (Unit::FaceRecord, 2),
            Bordering => (Unit::NeighbourRecord, 2),
            Equations => (Unit::EquationRecord, 2),
            Weights => (Unit::EquationRecord, 4),
            Metrics => (Unit::Call, 2),
        }
    }

    /// Whether a mesh number is lent beside it: conditions have theirs with the codes, a stencil with
    /// the starts. The Rust's diagonal is a plain slice and has none.
    pub fn is_numbered(self) -> bool {
        matches!(
            self,
            Codes
                | Starts
                | Responses
                | Pressure
                | Velocity
                | Gradient
                | Walls
                | Predicted
                | Coefficients
                | Correction
                | Flux
                | FaceValues
        )
    }
}

/// A function that takes lent slices; the root of a number stands apart. Those of document 01 come first, then
/// those of document 02.
#[derive(Clone, Copy, Debug, PartialEq, Eq)]
pub enum Entry {
    MomentumInverseDiagonal,
    LeastSquaresStencil,
    LeastSquaresGradient,
    PressureFaceCoefficients,
    PressureFaceCoefficientsWithBoundary,
    RhieChowPredictedFlux,
    CorrectFaceFluxWithBoundary,
    CorrectCellVelocityFromGradient,
    IntegratedDivergence,
    ContinuityMetrics,
    Step,
    CorrectFaceFluxInPlace,
    FaceDistances,
    GaussGradientFromFaces,
    PressureCouplingGradient,
    PressureCouplingGradientWithoutConditions,
}

impl Entry {
    pub const ALL: [Entry; 16] = [
        Entry::MomentumInverseDiagonal,
        Entry::LeastSquaresStencil,
        Entry::LeastSquaresGradient,
        Entry::PressureFaceCoefficients,
        Entry::PressureFaceCoefficientsWithBoundary,
        Entry::RhieChowPredictedFlux,
        Entry::CorrectFaceFluxWithBoundary,
        Entry::CorrectCellVelocityFromGradient,
        Entry::IntegratedDivergence,
        Entry::ContinuityMetrics,
        Entry::Step,
        Entry::CorrectFaceFluxInPlace,
        Entry::FaceDistances,
        Entry::GaussGradientFromFaces,
        Entry::PressureCouplingGradient,
        Entry::PressureCouplingGradientWithoutConditions,
    ];

    /// Those of document 01, which the fixed list and the program `edges` call.
    pub fn of_document_01() -> impl Iterator<Item = Entry> {
        let last = Entry::Step as usize;
        Entry::ALL.into_iter().take(last + 1)
    }

    /// The gradients of Gauss, which divide by the cells' volumes.
    pub fn of_gauss() -> impl Iterator<Item = Entry> {
        Entry::ALL.into_iter().filter(|entry| entry.is_gauss())
    }

    pub fn is_gauss(self) -> bool {
        matches!(
            self,
            Entry::GaussGradientFromFaces
                | Entry::PressureCouplingGradient
                | Entry::PressureCouplingGradientWithoutConditions
        )
    }

    pub fn name(self) -> &'static str {
        match self {
            Entry::MomentumInverseDiagonal => "momentum_inverse_diagonal",
            Entry::LeastSquaresStencil => "least_squares_stencil",
            Entry::LeastSquaresGradient => "least_squares_gradient",
            Entry::PressureFaceCoefficients => "pressure_face_coefficients",
            Entry::PressureFaceCoefficientsWithBoundary => {
                "pressure_face_coefficients_with_boundary"
            }
            Entry::RhieChowPredictedFlux => "rhie_chow_predicted_flux",
            Entry::CorrectFaceFluxWithBoundary => "correct_face_flux_with_boundary",
            Entry::CorrectCellVelocityFromGradient => "correct_cell_velocity_from_gradient",
            Entry::IntegratedDivergence => "integrated_divergence",
            Entry::ContinuityMetrics => "continuity_metrics",
            Entry::Step => "step",
            Entry::CorrectFaceFluxInPlace => "correct_face_flux_in_place",
            Entry::FaceDistances => "face_distances",
            Entry::GaussGradientFromFaces => "gauss_gradient_from_faces",
            Entry::PressureCouplingGradient => "pressure_coupling_gradient",
            Entry::PressureCouplingGradientWithoutConditions => {
                "pressure_coupling_gradient_without_conditions"
            }
        }
    }

    /// The slices that are lent to be read. The counts are lent to every entry.
    pub fn inputs(self) -> &'static [Part] {
        match self {
            Entry::MomentumInverseDiagonal => &[Diagonal],
            Entry::LeastSquaresStencil => &[
                Adjacency, Geometry, Heads, Places, Facing, Bordering, Codes, Values,
            ],
            Entry::LeastSquaresGradient => &[Starts, Equations, Weights, Inverses, Pressure],
            Entry::PressureFaceCoefficients => &[Adjacency, Geometry, Places, Responses],
            Entry::PressureFaceCoefficientsWithBoundary => {
                &[Adjacency, Geometry, Places, Codes, Values, Responses]
            }
            Entry::RhieChowPredictedFlux => &[
                Adjacency, Geometry, Places, Starts, Equations, Weights, Inverses, Velocity,
                Pressure, Responses, Walls,
            ],
            Entry::CorrectFaceFluxWithBoundary => &[
                Adjacency,
                Codes,
                Values,
                Predicted,
                Coefficients,
                Correction,
            ],
            Entry::CorrectCellVelocityFromGradient => &[Velocity, Responses, Gradient],
            Entry::IntegratedDivergence => &[Adjacency, Flux],
            Entry::ContinuityMetrics => &[Adjacency, Places, Flux],
            Entry::Step => &[
                Adjacency, Geometry, Heads, Places, Facing, Bordering, Codes, Values, Velocity,
                Pressure, Responses, Walls, Correction,
            ],
            Entry::CorrectFaceFluxInPlace => &[
                Adjacency,
                Codes,
                Values,
                Coefficients,
                Correction,
                Predicted,
            ],
            Entry::FaceDistances => &[Adjacency, Places, Codes, Geometry],
            Entry::GaussGradientFromFaces => &[Adjacency, Geometry, Places, FaceValues],
            Entry::PressureCouplingGradient => {
                &[Adjacency, Geometry, Places, Codes, Values, Pressure]
            }
            Entry::PressureCouplingGradientWithoutConditions => {
                &[Adjacency, Geometry, Places, Pressure]
            }
        }
    }

    /// The slices that are lent to be written. One that is among those to be read too is written over.
    pub fn outputs(self) -> &'static [Part] {
        match self {
            Entry::MomentumInverseDiagonal => &[Responses],
            Entry::LeastSquaresStencil => &[Starts, Equations, Weights, Inverses],
            Entry::LeastSquaresGradient => &[Gradient],
            Entry::PressureFaceCoefficients => &[Coefficients],
            Entry::PressureFaceCoefficientsWithBoundary => &[Coefficients],
            Entry::RhieChowPredictedFlux => &[Gradient, Predicted],
            Entry::CorrectFaceFluxWithBoundary => &[Flux],
            Entry::CorrectCellVelocityFromGradient => &[Corrected],
            Entry::IntegratedDivergence => &[Outflow],
            Entry::ContinuityMetrics => &[Outflow, Metrics],
            Entry::Step => &[
                Starts,
                Equations,
                Weights,
                Inverses,
                Gradient,
                Predicted,
                Coefficients,
                Flux,
                Outflow,
                Metrics,
            ],
            Entry::CorrectFaceFluxInPlace => &[Predicted],
            Entry::FaceDistances => &[Geometry],
            Entry::GaussGradientFromFaces
            | Entry::PressureCouplingGradient
            | Entry::PressureCouplingGradientWithoutConditions => &[Gradient],
        }
    }

    pub fn lends(self, part: Part) -> bool {
        self.inputs().contains(&part)
    }

    /// Whether it checks the distances of faces: it is lent the geometry and does not make them itself.
    pub fn checks_distances(self) -> bool {
        self.lends(Geometry) && !self.outputs().contains(&Geometry)
    }

    /// Whether the number of equation records is lent.
    pub fn has_stencil(self) -> bool {
        self.lends(Starts) || self.outputs().contains(&Starts)
    }
}
