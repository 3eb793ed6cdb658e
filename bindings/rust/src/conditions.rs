//! Boundary conditions and links.

use crate::error::BuildError;
use crate::mesh::{Mesh, Vec3};
use std::sync::OnceLock;

/// The condition of a face. It counts at faces with one cell and no link.
#[derive(Clone, Copy, Debug, PartialEq)]
pub enum Condition {
    /// None; a call that needs one is refused with 10.
    Absent,
    /// The value at the face.
    FixedValue(f64),
    /// No change across the face; it keeps the flux that it is given.
    ZeroGradient,
}

impl Condition {
    fn code(self) -> usize {
        match self {
            Self::Absent => 0,
            Self::FixedValue(_) => 1,
            Self::ZeroGradient => 2,
        }
    }

    fn value(self) -> f64 {
        match self {
            Self::FixedValue(value) => value,
            Self::Absent | Self::ZeroGradient => 0.0,
        }
    }
}

/// A condition for each face, and links between pairs of faces.
#[derive(Clone, Debug)]
pub struct Conditions {
    pub(crate) number: u64,
    /// Per face: code, peer + 1.
    pub(crate) codes: Vec<usize>,
    /// Per face: fixed value, translation.
    pub(crate) values: Vec<f64>,
    /// The geometry of the mesh with the distances of these links, from the first call that is lent it; none
    /// where there is no link, and the mesh's own is lent.
    pub(crate) linked: Option<OnceLock<Vec<f64>>>,
}

impl PartialEq for Conditions {
    fn eq(&self, other: &Self) -> bool {
        self.number == other.number && self.codes == other.codes && self.values == other.values
    }
}

impl Conditions {
    /// No condition and no link.
    pub fn absent(mesh: &Mesh) -> Self {
        Self::new(mesh, &vec![Condition::Absent; mesh.face_count()])
    }

    /// One condition at every face with one cell.
    pub fn uniform(mesh: &Mesh, condition: Condition) -> Self {
        let faces = mesh.adjacency().chunks_exact(2);
        let conditions = faces.map(|pair| match pair[1] {
            0 => condition,
            _ => Condition::Absent,
        });
        Self::new(mesh, &conditions.collect::<Vec<_>>())
    }

    /// A condition per face, faces with two cells too, and no link. Too few or too many can be given; a call
    /// with them is refused with 2.
    pub fn new(mesh: &Mesh, conditions: &[Condition]) -> Self {
        Self {
            number: mesh.number(),
            codes: conditions.iter().flat_map(|c| [c.code(), 0]).collect(),
            values: conditions
                .iter()
                .flat_map(|c| [c.value(), 0.0, 0.0, 0.0])
                .collect(),
            linked: None,
        }
    }

    /// Sets the condition of a face; a link stays.
    ///
    /// # Errors
    ///
    /// [`BuildError::MissingFace`].
    pub fn set(&mut self, face: usize, condition: Condition) -> Result<&mut Self, BuildError> {
        self.check(face)?;
        self.codes[2 * face] = condition.code();
        self.values[4 * face] = condition.value();
        Ok(self)
    }

    /// Links two faces with each other. `translation` leads from `face` to `peer`; the way back is its negation.
    ///
    /// Where a face is linked anew, its former peer's link stays and the engine refuses it with 6.
    ///
    /// # Errors
    ///
    /// [`BuildError::MissingFace`].
    pub fn link(
        &mut self,
        face: usize,
        peer: usize,
        translation: Vec3,
    ) -> Result<&mut Self, BuildError> {
        self.check(face)?;
        self.check(peer)?;
        self.set_link(face, peer, translation);
        self.set_link(peer, face, translation.map(|x| -x));
        self.linked = Some(OnceLock::new());
        Ok(self)
    }

    /// The condition of a face, where the face is there.
    pub fn condition(&self, face: usize) -> Option<Condition> {
        self.check(face).ok()?;
        Some(match self.codes[2 * face] {
            0 => Condition::Absent,
            1 => Condition::FixedValue(self.values[4 * face]),
            _ => Condition::ZeroGradient,
        })
    }

    /// The face that a face is linked to, where it has a link.
    pub fn peer(&self, face: usize) -> Option<usize> {
        self.check(face).ok()?;
        self.codes[2 * face + 1].checked_sub(1)
    }

    /// Per face: condition (0 absent, 1 fixed value, 2 zero gradient), peer + 1 or 0.
    pub fn codes(&self) -> &[usize] {
        &self.codes
    }

    /// Per face: fixed value, translation, three numbers.
    pub fn values(&self) -> &[f64] {
        &self.values
    }

    /// The number of the mesh they belong to.
    pub fn number(&self) -> u64 {
        self.number
    }

    fn check(&self, face: usize) -> Result<(), BuildError> {
        let faces = self.codes.len() / 2;
        if face < faces {
            Ok(())
        } else {
            Err(BuildError::MissingFace { face, faces })
        }
    }

    fn set_link(&mut self, face: usize, peer: usize, translation: Vec3) {
        self.codes[2 * face + 1] = peer + 1;
        self.values[4 * face + 1..4 * face + 4].copy_from_slice(&translation);
    }
}
