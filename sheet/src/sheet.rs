//! A sheet: what is read from a file and lent to the engine.

use crate::any::AnySheet;
use crate::conditions::conditions;
use crate::entries::Entries;
use crate::fields::{field, scalar, vector, Place};
use crate::mistake::Mistake;
use engine::{CellField, Conditions, FaceField, Mesh, VectorField};

/// A mesh, its conditions and the fields of one of the two forms that have fluxes.
#[derive(Clone, Debug)]
pub struct Sheet {
    /// The mesh.
    pub mesh: Mesh,
    /// The conditions and links.
    pub conditions: Conditions,
    /// The fields.
    pub fields: Fields,
}

/// The fields of the two forms that have fluxes.
#[derive(Clone, Debug)]
pub enum Fields {
    /// `form step`.
    Step(StepFields),
    /// `form correction`.
    Correction(CorrectionFields),
}

/// The fields of `form step`.
#[derive(Clone, Debug)]
pub struct StepFields {
    /// The velocity of each cell.
    pub velocity: VectorField,
    /// The pressure of each cell.
    pub pressure: CellField,
    /// The momentum diagonal or response of each cell.
    pub momentum: Momentum,
    /// The wall flux of each face; at a face with two cells or a link it is not read, and +0.0 where the sheet
    /// gives none.
    pub walls: FaceField,
    /// The pressure correction of each cell.
    pub correction: CellField,
}

/// The fields of `form correction`.
#[derive(Clone, Debug)]
pub struct CorrectionFields {
    /// The predicted flux of each face.
    pub predicted: FaceField,
    /// The coefficient of each face.
    pub coefficients: FaceField,
    /// The pressure correction of each cell.
    pub correction: CellField,
}

/// From what the momentum response is taken.
#[derive(Clone, Debug)]
pub enum Momentum {
    /// The diagonal, of which the response is the inverse.
    Diagonal(Vec<f64>),
    /// The response itself.
    Response(CellField),
}

impl Sheet {
    /// Reads a sheet of `form step` or `form correction`. [`AnySheet::read`] reads one of any form.
    ///
    /// # Errors
    ///
    /// The first mistake that is found, with its line; of the whole file where it is of another form.
    pub fn read(bytes: &[u8]) -> Result<Self, Mistake> {
        match AnySheet::read(bytes)? {
            AnySheet::Fluxes(sheet) => Ok(sheet),
            AnySheet::Gradient(_) => {
                let reason = "the sheet is of `form gradient`, which has no fluxes";
                Err(Mistake::new(0, reason))
            }
        }
    }

    pub(crate) fn of_step(entries: &Entries<'_>, mesh: Mesh) -> Result<Self, Mistake> {
        let conditions = conditions(entries, &mesh)?;
        let fields = Reader::of(entries, &mesh).step(&conditions)?;
        Ok(Self {
            conditions,
            fields: Fields::Step(fields),
            mesh,
        })
    }

    pub(crate) fn of_correction(entries: &Entries<'_>, mesh: Mesh) -> Result<Self, Mistake> {
        let fields = Reader::of(entries, &mesh).correction()?;
        Ok(Self {
            conditions: conditions(entries, &mesh)?,
            fields: Fields::Correction(fields),
            mesh,
        })
    }
}

/// Reads the fields of a mesh.
pub(crate) struct Reader<'a> {
    pub(crate) entries: &'a Entries<'a>,
    pub(crate) mesh: &'a Mesh,
}

impl<'a> Reader<'a> {
    pub(crate) fn of(entries: &'a Entries<'a>, mesh: &'a Mesh) -> Self {
        Self { entries, mesh }
    }

    fn step(&self, conditions: &Conditions) -> Result<StepFields, Mistake> {
        Ok(StepFields {
            velocity: self.velocity()?,
            pressure: CellField::new(self.mesh, self.cells("pressure")?),
            momentum: self.momentum()?,
            walls: FaceField::new(self.mesh, self.walls(conditions)?),
            correction: CellField::new(self.mesh, self.cells("pressure-correction")?),
        })
    }

    fn correction(&self) -> Result<CorrectionFields, Mistake> {
        Ok(CorrectionFields {
            predicted: FaceField::new(self.mesh, self.faces("predicted-flux")?),
            coefficients: FaceField::new(self.mesh, self.faces("face-coefficient")?),
            correction: CellField::new(self.mesh, self.cells("pressure-correction")?),
        })
    }

    fn velocity(&self) -> Result<VectorField, Mistake> {
        let entry = self.entries.need("velocity", WHY)?;
        let read = |words: &[&str]| vector(self.mesh.dimension(), words);
        let vectors = field(entry, Place::cells(self.mesh), |_| None, read)?;
        Ok(VectorField::new(self.mesh, &vectors))
    }

    /// The diagonal or the response, one of the two.
    fn momentum(&self) -> Result<Momentum, Mistake> {
        let given = ["momentum-diagonal", "momentum-response"].map(|name| self.entries.get(name));
        match given {
            [None, None] => {
                let what =
                    "`momentum-diagonal` or `momentum-response`, one of which `form step` needs";
                Err(self.entries.lacks(what))
            }
            [Some(_), None] => Ok(Momentum::Diagonal(self.cells("momentum-diagonal")?)),
            [None, Some(_)] => {
                let response = self.cells("momentum-response")?;
                Ok(Momentum::Response(CellField::new(self.mesh, response)))
            }
            [Some(diagonal), Some(_)] => {
                let reason = "`momentum-diagonal` has no place beside `momentum-response`, which is its inverse";
                Err(Mistake::new(diagonal.line, reason))
            }
        }
    }

    /// The wall flux, which is asked for at faces with one cell and no link; without any such face the entry may be
    /// missing.
    fn walls(&self, conditions: &Conditions) -> Result<Vec<f64>, Mistake> {
        let place = Place {
            which: ", which has one cell and no link",
            ..Place::faces(self.mesh)
        };
        let unread = |at| {
            let face = self.mesh.face(at)?;
            (face.neighbour.is_some() || conditions.peer(at).is_some()).then_some(0.0)
        };
        match self.entries.get("wall-flux") {
            Some(entry) => field(entry, place, unread, scalar),
            None => {
                let what =
                    |at| format!("`wall-flux`, which face {at} with one cell and no link needs");
                let faces = 0..place.count;
                faces
                    .map(|at| unread(at).ok_or_else(|| self.entries.lacks(&what(at))))
                    .collect()
            }
        }
    }

    pub(crate) fn cells(&self, name: &str) -> Result<Vec<f64>, Mistake> {
        let entry = self.entries.need(name, WHY)?;
        field(entry, Place::cells(self.mesh), |_| None, scalar)
    }

    pub(crate) fn faces(&self, name: &str) -> Result<Vec<f64>, Mistake> {
        let entry = self.entries.need(name, WHY)?;
        field(entry, Place::faces(self.mesh), |_| None, scalar)
    }
}

/// Why a field has to be there.
const WHY: &str = "a sheet of this form needs";
