//! A sheet run through the engine.

use crate::sheet::{CorrectionFields, Fields, Momentum, Sheet, StepFields};
use engine::balance::{Balance, BalanceError};
use engine::{CellField, FaceField, Metrics, Refusal, RefusalKind, StepInput};

/// What the engine gives for a sheet that it accepts.
#[derive(Clone, Debug)]
pub struct Outcome {
    /// The corrected flux of each face.
    pub flux: FaceField,
    /// The outflow of each cell.
    pub outflow: CellField,
    /// How far the outflows are from 0.
    pub metrics: Metrics,
    /// The exact balance.
    pub balance: Result<Balance, BalanceError>,
}

/// A refusal, and the call that gave it.
#[derive(Clone, Copy, Debug, PartialEq, Eq)]
pub struct Refused {
    /// The engine's function.
    pub by: &'static str,
    /// Its refusal.
    pub refusal: Refusal,
    /// Of 9 by the step: the face that the face of that index is linked to, where it is linked.
    pub peer: Option<usize>,
}

impl Sheet {
    /// Runs the sheet.
    ///
    /// # Errors
    ///
    /// The first refusal of the calls that its form makes.
    pub fn run(&self) -> Result<Outcome, Refused> {
        match &self.fields {
            Fields::Step(fields) => self.step(fields),
            Fields::Correction(fields) => self.correction(fields),
        }
    }

    fn step(&self, fields: &StepFields) -> Result<Outcome, Refused> {
        let step = self.mesh.step(StepInput {
            conditions: &self.conditions,
            velocity: &fields.velocity,
            pressure: &fields.pressure,
            responses: &self.responses(&fields.momentum)?,
            walls: &fields.walls,
            correction: &fields.correction,
        });
        let step = step.map_err(|refusal| self.refused_step(refusal))?;
        Ok(Outcome {
            balance: step.balance(&self.mesh),
            flux: step.flux,
            outflow: step.outflow,
            metrics: step.metrics,
        })
    }

    fn refused_step(&self, refusal: Refusal) -> Refused {
        let peer = match refusal.kind {
            RefusalKind::InvalidPressureFaceCoefficient => self.conditions.peer(refusal.index),
            _ => None,
        };
        Refused {
            peer,
            ..by("step")(refusal)
        }
    }

    fn correction(&self, fields: &CorrectionFields) -> Result<Outcome, Refused> {
        let flux = self.mesh.correct_face_flux_with_boundary(
            &self.conditions,
            &fields.predicted,
            &fields.coefficients,
            &fields.correction,
        );
        let flux = flux.map_err(by("correct_face_flux_with_boundary"))?;
        let continuity = self.mesh.continuity_metrics(&flux);
        let continuity = continuity.map_err(by("continuity_metrics"))?;
        Ok(Outcome {
            balance: Balance::of(&self.mesh, &flux, &continuity.outflow),
            flux,
            outflow: continuity.outflow,
            metrics: continuity.metrics,
        })
    }

    fn responses(&self, momentum: &Momentum) -> Result<CellField, Refused> {
        match momentum {
            Momentum::Response(responses) => Ok(responses.clone()),
            Momentum::Diagonal(diagonal) => {
                let responses = self.mesh.momentum_inverse_diagonal(diagonal);
                responses.map_err(by("momentum_inverse_diagonal"))
            }
        }
    }
}

pub(crate) fn by(by: &'static str) -> impl Fn(Refusal) -> Refused {
    move |refusal| Refused {
        by,
        refusal,
        peer: None,
    }
}
