//! Fields: numbers per cell or per face, and vectors per cell. Each carries its mesh's number.

use crate::mesh::{Mesh, Vec3};

/// Gives a field of single numbers its methods.
macro_rules! scalar_field {
    ($name:ident, $place:literal, $count:ident) => {
        #[doc = concat!("A number per ", $place, ".")]
        ///
        /// A field with too few or too many values can be made; a call with it is refused with 2.
        #[derive(Clone, Debug, PartialEq)]
        pub struct $name {
            pub(crate) number: u64,
            pub(crate) values: Vec<f64>,
        }

        impl $name {
            #[doc = concat!("A field of a mesh, a value per ", $place, ".")]
            pub fn new(mesh: &Mesh, values: Vec<f64>) -> Self {
                Self {
                    number: mesh.number(),
                    values,
                }
            }

            #[doc = concat!("A field with one value at every ", $place, ".")]
            pub fn uniform(mesh: &Mesh, value: f64) -> Self {
                Self::new(mesh, vec![value; mesh.$count()])
            }

            /// A field to be handed out, +0.0 throughout.
            pub(crate) fn blank(mesh: &Mesh) -> Self {
                Self::uniform(mesh, 0.0)
            }

            /// The number of the mesh it belongs to.
            pub fn number(&self) -> u64 {
                self.number
            }

            #[doc = concat!("The values, per ", $place, ".")]
            pub fn values(&self) -> &[f64] {
                &self.values
            }

            /// The values, to be changed.
            pub fn values_mut(&mut self) -> &mut [f64] {
                &mut self.values
            }

            /// The values, without the field.
            pub fn into_values(self) -> Vec<f64> {
                self.values
            }
        }
    };
}

scalar_field!(CellField, "cell", cell_count);
scalar_field!(FaceField, "face", face_count);

/// A vector per cell.
///
/// A field with too few or too many vectors can be made; a call with it is refused with 2.
#[derive(Clone, Debug, PartialEq)]
pub struct VectorField {
    pub(crate) number: u64,
    pub(crate) values: Vec<f64>,
}

impl VectorField {
    /// A field of a mesh, a vector per cell.
    pub fn new(mesh: &Mesh, vectors: &[Vec3]) -> Self {
        Self {
            number: mesh.number(),
            values: vectors.iter().flatten().copied().collect(),
        }
    }

    /// A field with one vector at every cell.
    pub fn uniform(mesh: &Mesh, vector: Vec3) -> Self {
        Self::new(mesh, &vec![vector; mesh.cell_count()])
    }

    /// A field to be handed out, +0.0 throughout.
    pub(crate) fn blank(mesh: &Mesh) -> Self {
        Self::uniform(mesh, [0.0; 3])
    }

    /// The number of the mesh it belongs to.
    pub fn number(&self) -> u64 {
        self.number
    }

    /// The vector of a cell, where it is there.
    pub fn vector(&self, cell: usize) -> Option<Vec3> {
        self.vectors().nth(cell)
    }

    /// The vectors, per cell.
    pub fn vectors(&self) -> impl Iterator<Item = Vec3> + '_ {
        self.values.chunks_exact(3).map(|v| [v[0], v[1], v[2]])
    }

    /// The numbers one after another, three per cell.
    pub fn values(&self) -> &[f64] {
        &self.values
    }

    /// The numbers one after another, to be changed.
    pub fn values_mut(&mut self) -> &mut [f64] {
        &mut self.values
    }
}
