//! The coupling step.

use crate::balance::{Balance, BalanceError};
use crate::calls::{within, Metrics};
use crate::conditions::Conditions;
use crate::ffi;
use crate::fields::{CellField, FaceField, VectorField};
use crate::mesh::Mesh;
use crate::refusal::Refusal;
use crate::stencil::Stencil;

/// What a step is taken from. One set of conditions holds for all its parts.
#[derive(Clone, Copy, Debug)]
pub struct StepInput<'a> {
    /// The conditions and links.
    pub conditions: &'a Conditions,
    /// The velocity of each cell.
    pub velocity: &'a VectorField,
    /// The pressure of each cell.
    pub pressure: &'a CellField,
    /// The momentum response of each cell, as [`Mesh::momentum_inverse_diagonal`] gives it.
    pub responses: &'a CellField,
    /// The wall flux of each face; it counts at faces with one cell and no link, and is not read at any other.
    pub walls: &'a FaceField,
    /// The pressure correction of each cell.
    pub correction: &'a CellField,
}

/// What an accepted step hands out.
#[derive(Clone, Debug, PartialEq)]
pub struct Step {
    /// The stencil of the mesh under the conditions.
    pub stencil: Stencil,
    /// The gradient of the pressure.
    pub gradient: VectorField,
    /// The predicted flux: of two linked faces the higher has the lower's negated.
    pub predicted: FaceField,
    /// The coefficient of each face.
    pub coefficients: FaceField,
    /// The corrected flux.
    pub flux: FaceField,
    /// The outflow of each cell, summed from the corrected flux.
    pub outflow: CellField,
    /// How far the outflows are from 0.
    pub metrics: Metrics,
}

impl Step {
    /// The exact balance of the step, on the mesh it was taken on.
    ///
    /// # Errors
    ///
    /// Where the mesh is another, or the fields were changed so that they no longer fit it or are not finite.
    pub fn balance(&self, mesh: &Mesh) -> Result<Balance, BalanceError> {
        Balance::of(mesh, &self.flux, &self.outflow)
    }
}

impl Mesh {
    /// The coupling step: stencil, predicted flux, coefficients, predicted flux of the linked faces, corrected
    /// flux, outflow and metrics, with [`Mesh::stencil_room`]. The mass balance of an accepted step is proved;
    /// [`Step::balance`] shows it. Proved too: of two linked faces the higher has exactly the lower's predicted
    /// flux negated, and where their coefficients are equal, their corrected fluxes are opposite, a zero's sign
    /// aside.
    ///
    /// A linked face is predicted by Rhie and Chow, with the coefficient of that face, as if the cell beyond its
    /// link were moved back by the translation. [`Mesh::rhie_chow_predicted_flux`] gives it the wall flux.
    ///
    /// # Errors
    ///
    /// The first refusal of the parts in that order, after those of shape and mesh: 1 to 5, 14, 6. That of the
    /// linked faces is 9 at the lowest whose own flux, before any is negated, is not finite.
    pub fn step(&self, input: StepInput<'_>) -> Result<Step, Refusal> {
        self.step_in(input, self.stencil_room())
    }

    /// The step with room for `room` equation records.
    ///
    /// # Errors
    ///
    /// As [`Mesh::step`]; 1 at index 0 where the stencil's equations are more than `room`, or that is over
    /// 65,535.
    pub fn step_in(&self, input: StepInput<'_>, room: usize) -> Result<Step, Refusal> {
        let mut step = self.blank_step(within(room)?);
        let mut metrics = [0.0; 2];
        ffi::step(
            self.counts(),
            self.adjacency(),
            self.geometry_under(input.conditions),
            self.heads(),
            self.places(),
            self.facing(),
            self.bordering(),
            input.conditions.number,
            &input.conditions.codes,
            &input.conditions.values,
            room,
            input.velocity.number,
            &input.velocity.values,
            input.pressure.number,
            &input.pressure.values,
            input.responses.number,
            &input.responses.values,
            input.walls.number,
            &input.walls.values,
            input.correction.number,
            &input.correction.values,
            &mut step.stencil.starts,
            &mut step.stencil.equations,
            &mut step.stencil.weights,
            &mut step.stencil.inverses,
            &mut step.gradient.values,
            &mut step.predicted.values,
            &mut step.coefficients.values,
            &mut step.flux.values,
            &mut step.outflow.values,
            &mut metrics,
        )?;
        step.metrics = Metrics::of(metrics);
        Ok(step)
    }

    fn blank_step(&self, room: usize) -> Step {
        Step {
            stencil: Stencil::blank(self, room),
            gradient: VectorField::blank(self),
            predicted: FaceField::blank(self),
            coefficients: FaceField::blank(self),
            flux: FaceField::blank(self),
            outflow: CellField::blank(self),
            metrics: Metrics::of([0.0; 2]),
        }
    }
}
