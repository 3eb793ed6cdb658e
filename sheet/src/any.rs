//! Sheets of any form, and what the engine gives for them.

use crate::check::{self, Mark};
use crate::entries::Entries;
use crate::form::{dimension, form, Form};
use crate::gradient::GradientSheet;
use crate::lines::{last_line, lines, text};
use crate::mesh::mesh;
use crate::mistake::Mistake;
use crate::report;
use crate::run::{Outcome, Refused};
use crate::sheet::Sheet;
use engine::VectorField;

/// A sheet of any form.
#[derive(Clone, Debug)]
pub enum AnySheet {
    /// `form step` or `form correction`.
    Fluxes(Sheet),
    /// `form gradient`.
    Gradient(GradientSheet),
}

/// What the engine gives for a sheet that it accepts.
#[derive(Clone, Debug)]
pub enum AnyOutcome {
    /// Of `form step` or `form correction`.
    Fluxes(Box<Outcome>),
    /// Of `form gradient`: the gradient of each cell.
    Gradient(VectorField),
}

impl AnySheet {
    /// Reads a sheet.
    ///
    /// # Errors
    ///
    /// The first mistake that is found, with its line.
    pub fn read(bytes: &[u8]) -> Result<Self, Mistake> {
        let text = text(bytes)?;
        let entries = Entries::of(lines(text), last_line(text))?;
        let form = form(&entries)?;
        let dimension = dimension(&entries)?;
        form.check_fields(&entries)?;
        let mesh = mesh(&entries, dimension, form == Form::Correction)?;
        match form {
            Form::Step => Sheet::of_step(&entries, mesh).map(Self::Fluxes),
            Form::Correction => Sheet::of_correction(&entries, mesh).map(Self::Fluxes),
            Form::Gradient => GradientSheet::of(&entries, mesh).map(Self::Gradient),
        }
    }

    /// Runs the sheet.
    ///
    /// # Errors
    ///
    /// The first refusal of the calls that its form makes.
    pub fn run(&self) -> Result<AnyOutcome, Refused> {
        match self {
            Self::Fluxes(sheet) => sheet
                .run()
                .map(|outcome| AnyOutcome::Fluxes(Box::new(outcome))),
            Self::Gradient(sheet) => sheet.run().map(AnyOutcome::Gradient),
        }
    }
}

impl AnyOutcome {
    /// What is printed of it.
    pub fn report(&self) -> String {
        match self {
            Self::Fluxes(outcome) => report::outcome(outcome),
            Self::Gradient(gradient) => report::gradient(gradient),
        }
    }

    /// Marks a flux sheet, or for gradients a gradient sheet, against it.
    ///
    /// # Errors
    ///
    /// As of [`check::read`].
    pub fn mark(&self, bytes: &[u8]) -> Result<Mark, Mistake> {
        match self {
            Self::Fluxes(outcome) => {
                let right = outcome.flux.values();
                let given = check::read(bytes, right.len())?;
                Ok(Mark::of(&given, right))
            }
            Self::Gradient(gradient) => {
                let right = gradient.values();
                let given = check::read_gradient(bytes, right.len() / 3)?;
                Ok(Mark::of_gradient(&given, right))
            }
        }
    }
}
