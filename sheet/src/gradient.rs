//! A sheet of `form gradient`.

use crate::conditions::conditions;
use crate::entries::Entries;
use crate::mistake::Mistake;
use crate::run::{by, Refused};
use crate::sheet::Reader;
use engine::{CellField, Conditions, FaceField, Mesh, VectorField};

/// A mesh and what the gradients of its cells are taken of, by Gauss.
#[derive(Clone, Debug)]
pub struct GradientSheet {
    /// The mesh.
    pub mesh: Mesh,
    /// The conditions and links, where the sheet has an entry of either. They count where a pressure is given.
    pub conditions: Option<Conditions>,
    /// From what the values at the faces are taken.
    pub values: FaceValues,
}

/// From what the values at the faces are taken.
#[derive(Clone, Debug)]
pub enum FaceValues {
    /// `pressure`, of each cell: they are those of the coupling gradient.
    Pressure(CellField),
    /// `face-value`, of each face: they are as given.
    Given(FaceField),
}

impl GradientSheet {
    pub(crate) fn of(entries: &Entries<'_>, mesh: Mesh) -> Result<Self, Mistake> {
        let values = Reader::of(entries, &mesh).face_values()?;
        let given = ["conditions", "links"].map(|name| entries.get(name));
        let conditions = match given {
            [None, None] => None,
            _ => Some(conditions(entries, &mesh)?),
        };
        Ok(Self {
            mesh,
            conditions,
            values,
        })
    }

    /// The gradient of each cell.
    ///
    /// # Errors
    ///
    /// The refusal of the call that is made: `gauss_gradient_from_faces`, or `pressure_coupling_gradient`, with
    /// conditions or without.
    pub fn run(&self) -> Result<VectorField, Refused> {
        let mesh = &self.mesh;
        match (&self.values, &self.conditions) {
            (FaceValues::Given(values), _) => {
                let gradient = mesh.gauss_gradient_from_faces(values);
                gradient.map_err(by("gauss_gradient_from_faces"))
            }
            (FaceValues::Pressure(pressure), Some(conditions)) => {
                let gradient = mesh.pressure_coupling_gradient(conditions, pressure);
                gradient.map_err(by("pressure_coupling_gradient"))
            }
            (FaceValues::Pressure(pressure), None) => {
                let gradient = mesh.pressure_coupling_gradient_without_conditions(pressure);
                gradient.map_err(by("pressure_coupling_gradient_without_conditions"))
            }
        }
    }
}

impl Reader<'_> {
    /// The pressure or the values at the faces, one of the two.
    fn face_values(&self) -> Result<FaceValues, Mistake> {
        let given = ["pressure", "face-value"].map(|name| self.entries.get(name));
        match given {
            [None, None] => {
                let what = "`pressure` or `face-value`, one of which `form gradient` needs";
                Err(self.entries.lacks(what))
            }
            [Some(_), None] => {
                let pressure = self.cells("pressure")?;
                Ok(FaceValues::Pressure(CellField::new(self.mesh, pressure)))
            }
            [None, Some(_)] => {
                let values = self.faces("face-value")?;
                Ok(FaceValues::Given(FaceField::new(self.mesh, values)))
            }
            [Some(_), Some(values)] => {
                let reason = "`face-value` has no place beside `pressure`, from which the values at the faces are worked out";
                Err(Mistake::new(values.line, reason))
            }
        }
    }
}
