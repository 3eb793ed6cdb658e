//! Gradients by Gauss: over a cell's faces, the area vector times the value at the face, added up and divided by
//! the cell's volume.
//!
//! The sums start at +0.0 and take the faces in face order, whatever the order of a cell's faces is. Nothing is
//! tested for being finite: an infinity or a NaN among values, distances and volumes is no refusal.

use crate::conditions::Conditions;
use crate::ffi;
use crate::fields::{CellField, FaceField, VectorField};
use crate::mesh::Mesh;
use crate::refusal::Refusal;

impl Mesh {
    /// The gradient of each cell, from the values at its faces.
    ///
    /// # Errors
    ///
    /// 1 to 3, 14; 12 at the lowest cell with a volume that is at most 0.
    pub fn gauss_gradient_from_faces(&self, values: &FaceField) -> Result<VectorField, Refusal> {
        let mut out = VectorField::blank(self);
        ffi::gauss_gradient_from_faces(
            self.counts(),
            self.adjacency(),
            self.geometry(),
            self.places(),
            values.number,
            &values.values,
            &mut out.values,
        )?;
        Ok(out)
    }

    /// The gradient of each cell's pressure, from these values at its faces. Between two cells it is
    /// (b·p + a·q) / (a + b), where p and q are the pressures of owner and neighbour, and a and b the distances
    /// of their centres from the face's. At a linked face, whatever its condition, it is the same of the cell
    /// beyond the link, with the distance of its image. At a fixed value it is that value, and at a zero gradient
    /// or an absent condition the owner's pressure.
    ///
    /// # Errors
    ///
    /// 1 to 3, 14, 6; 12 as of [`Mesh::gauss_gradient_from_faces`]. An absent condition is no refusal, nor are
    /// distances that add up to 0, where the value at the face is a NaN.
    pub fn pressure_coupling_gradient(
        &self,
        conditions: &Conditions,
        pressure: &CellField,
    ) -> Result<VectorField, Refusal> {
        let mut out = VectorField::blank(self);
        ffi::pressure_coupling_gradient(
            self.counts(),
            self.adjacency(),
            self.geometry_under(conditions),
            self.places(),
            conditions.number,
            &conditions.codes,
            &conditions.values,
            pressure.number,
            &pressure.values,
            &mut out.values,
        )?;
        Ok(out)
    }

    /// The gradient of each cell's pressure without conditions and links: that of
    /// [`Mesh::pressure_coupling_gradient`] under [`Conditions::absent`].
    ///
    /// # Errors
    ///
    /// 1 to 3, 14; 12 as of [`Mesh::gauss_gradient_from_faces`].
    pub fn pressure_coupling_gradient_without_conditions(
        &self,
        pressure: &CellField,
    ) -> Result<VectorField, Refusal> {
        let mut out = VectorField::blank(self);
        ffi::pressure_coupling_gradient_without_conditions(
            self.counts(),
            self.adjacency(),
            self.geometry(),
            self.places(),
            pressure.number,
            &pressure.values,
            &mut out.values,
        )?;
        Ok(out)
    }
}
