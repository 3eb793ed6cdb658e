//! The engine's functions, as methods of the mesh they are called on.
//!
//! A call with a field, conditions or a stencil of another mesh is refused with 3, or with 2 where its length
//! is another too.

use crate::conditions::Conditions;
use crate::ffi;
use crate::fields::{CellField, FaceField, VectorField};
use crate::mesh::Mesh;
use crate::refusal::Refusal;
use crate::stencil::Stencil;

/// The float nearest to the exact root of `x`, ties to even; a NaN below 0.
pub fn root(x: f64) -> f64 {
    ffi::sqrt(x)
}

/// What [`Mesh::rhie_chow_predicted_flux`] hands out.
#[derive(Clone, Debug, PartialEq)]
pub struct Prediction {
    /// The gradient of the pressure, from which the flux is predicted.
    pub gradient: VectorField,
    /// The predicted flux.
    pub flux: FaceField,
}

/// How far outflows are from 0.
#[derive(Clone, Copy, Debug, PartialEq)]
pub struct Metrics {
    /// The root mean square of the outflows.
    pub root_mean_square: f64,
    /// The largest magnitude of an outflow over its cell's volume.
    pub largest_divergence: f64,
}

impl Metrics {
    pub(crate) fn of([root_mean_square, largest_divergence]: [f64; 2]) -> Self {
        Self {
            root_mean_square,
            largest_divergence,
        }
    }
}

/// What [`Mesh::continuity_metrics`] hands out.
#[derive(Clone, Debug, PartialEq)]
pub struct Continuity {
    /// The outflow of each cell.
    pub outflow: CellField,
    /// How far they are from 0.
    pub metrics: Metrics,
}

impl Mesh {
    /// The response of each cell, 1 over its momentum diagonal. The diagonal is a plain list and carries no
    /// mesh number.
    ///
    /// # Errors
    ///
    /// 1, 2; 11 at the lowest cell with a diagonal that is not finite or not above 0.
    pub fn momentum_inverse_diagonal(&self, diagonal: &[f64]) -> Result<CellField, Refusal> {
        let mut out = CellField::blank(self);
        ffi::momentum_inverse_diagonal(self.counts(), diagonal, &mut out.values)?;
        Ok(out)
    }

    /// The stencil of the mesh under conditions, with [`Mesh::stencil_room`].
    ///
    /// # Errors
    ///
    /// 1 to 5, 14, 6; 7 and 10 at a face, 8 at a cell; 1 at index 0 where the equations are over 65,535.
    pub fn least_squares_stencil(&self, conditions: &Conditions) -> Result<Stencil, Refusal> {
        self.least_squares_stencil_in(conditions, self.stencil_room())
    }

    /// The stencil with room for `room` equation records.
    ///
    /// # Errors
    ///
    /// As [`Mesh::least_squares_stencil`]; 1 at index 0 where the equations are more than `room`, or that is
    /// over 65,535.
    pub fn least_squares_stencil_in(
        &self,
        conditions: &Conditions,
        room: usize,
    ) -> Result<Stencil, Refusal> {
        let room = within(room)?;
        let mut out = Stencil::blank(self, room);
        ffi::least_squares_stencil(
            self.counts(),
            self.adjacency(),
            self.geometry_under(conditions),
            self.heads(),
            self.places(),
            self.facing(),
            self.bordering(),
            conditions.number,
            &conditions.codes,
            &conditions.values,
            room,
            &mut out.starts,
            &mut out.equations,
            &mut out.weights,
            &mut out.inverses,
        )?;
        Ok(out)
    }

    /// The gradient of a field, from a stencil.
    ///
    /// # Errors
    ///
    /// 1, 2, 3, 5.
    pub fn least_squares_gradient(
        &self,
        stencil: &Stencil,
        field: &CellField,
    ) -> Result<VectorField, Refusal> {
        let mut out = VectorField::blank(self);
        ffi::least_squares_gradient(
            self.counts(),
            stencil.number,
            stencil.records(),
            &stencil.starts,
            &stencil.equations,
            &stencil.weights,
            &stencil.inverses,
            field.number,
            &field.values,
            &mut out.values,
        )?;
        Ok(out)
    }

    /// The pressure coefficient of each face with two cells, +0.0 at the others.
    ///
    /// # Errors
    ///
    /// 1 to 3, 14; 7 and 9 at a face.
    pub fn pressure_face_coefficients(&self, responses: &CellField) -> Result<FaceField, Refusal> {
        let mut out = FaceField::blank(self);
        ffi::pressure_face_coefficients(
            self.counts(),
            self.adjacency(),
            self.geometry(),
            self.places(),
            responses.number,
            &responses.values,
            &mut out.values,
        )?;
        Ok(out)
    }

    /// The pressure coefficient of each face: two cells, linked or with a fixed value; +0.0 at the others.
    ///
    /// # Errors
    ///
    /// 1 to 3, 14, 6; 7 and 9 at a face with two cells, then 9 at another.
    pub fn pressure_face_coefficients_with_boundary(
        &self,
        conditions: &Conditions,
        responses: &CellField,
    ) -> Result<FaceField, Refusal> {
        let mut out = FaceField::blank(self);
        ffi::pressure_face_coefficients_with_boundary(
            self.counts(),
            self.adjacency(),
            self.geometry_under(conditions),
            self.places(),
            conditions.number,
            &conditions.codes,
            &conditions.values,
            responses.number,
            &responses.values,
            &mut out.values,
        )?;
        Ok(out)
    }

    /// The predicted flux of each face: by Rhie and Chow between two cells, the wall flux as given at a face
    /// with one, linked or not. [`Mesh::step`] predicts linked faces too.
    ///
    /// # Errors
    ///
    /// 1 to 3, 5, 14; 7 and 9 of a coefficient, then 9 of a flux, at a face.
    pub fn rhie_chow_predicted_flux(
        &self,
        stencil: &Stencil,
        velocity: &VectorField,
        pressure: &CellField,
        responses: &CellField,
        walls: &FaceField,
    ) -> Result<Prediction, Refusal> {
        let mut gradient = VectorField::blank(self);
        let mut flux = FaceField::blank(self);
        ffi::rhie_chow_predicted_flux(
            self.counts(),
            self.adjacency(),
            self.geometry(),
            self.places(),
            stencil.number,
            stencil.records(),
            &stencil.starts,
            &stencil.equations,
            &stencil.weights,
            &stencil.inverses,
            velocity.number,
            &velocity.values,
            pressure.number,
            &pressure.values,
            responses.number,
            &responses.values,
            walls.number,
            &walls.values,
            &mut gradient.values,
            &mut flux.values,
        )?;
        Ok(Prediction { gradient, flux })
    }

    /// The corrected flux of each face: predicted − coefficient × (other − owner), of the pressure corrections.
    /// A face with one cell, no link and a zero gradient keeps the predicted one.
    ///
    /// # Errors
    ///
    /// 1 to 3, 14, 6; 9 and 10 at a face.
    pub fn correct_face_flux_with_boundary(
        &self,
        conditions: &Conditions,
        predicted: &FaceField,
        coefficients: &FaceField,
        correction: &CellField,
    ) -> Result<FaceField, Refusal> {
        let mut out = FaceField::blank(self);
        ffi::correct_face_flux_with_boundary(
            self.counts(),
            self.adjacency(),
            conditions.number,
            &conditions.codes,
            &conditions.values,
            predicted.number,
            &predicted.values,
            coefficients.number,
            &coefficients.values,
            correction.number,
            &correction.values,
            &mut out.values,
        )?;
        Ok(out)
    }

    /// The corrected flux of each face, bit for bit that of [`Mesh::correct_face_flux_with_boundary`], written
    /// over the predicted one that `flux` holds; no other field is made.
    ///
    /// # Errors
    ///
    /// As there, and `flux` is then as the engine leaves it: the predicted flux after 1 to 3, 14 and 6, +0.0 at
    /// every face after 9 and 10.
    pub fn correct_face_flux_in_place(
        &self,
        conditions: &Conditions,
        coefficients: &FaceField,
        correction: &CellField,
        flux: &mut FaceField,
    ) -> Result<(), Refusal> {
        ffi::correct_face_flux_in_place(
            self.counts(),
            self.adjacency(),
            conditions.number,
            &conditions.codes,
            &conditions.values,
            coefficients.number,
            &coefficients.values,
            correction.number,
            &correction.values,
            flux.number,
            &mut flux.values,
        )
    }

    /// The corrected velocity of each cell: velocity − response × gradient.
    ///
    /// # Errors
    ///
    /// 1 to 3; 11 at the lowest cell with a response that is not finite or not above 0, or a corrected velocity
    /// that is not finite.
    pub fn correct_cell_velocity_from_gradient(
        &self,
        velocity: &VectorField,
        responses: &CellField,
        gradient: &VectorField,
    ) -> Result<VectorField, Refusal> {
        let mut out = VectorField::blank(self);
        ffi::correct_cell_velocity_from_gradient(
            self.counts(),
            velocity.number,
            &velocity.values,
            responses.number,
            &responses.values,
            gradient.number,
            &gradient.values,
            &mut out.values,
        )?;
        Ok(out)
    }

    /// The outflow of each cell: in face order, the flux of a face added to its owner's and taken from its
    /// neighbour's.
    ///
    /// # Errors
    ///
    /// 1 to 3, 14.
    pub fn integrated_divergence(&self, flux: &FaceField) -> Result<CellField, Refusal> {
        let mut out = CellField::blank(self);
        self.integrated_divergence_into(flux, &mut out)?;
        Ok(out)
    }

    /// The outflow of each cell, into a field of this mesh, which is left as it was where the call is refused.
    ///
    /// # Errors
    ///
    /// 3 at once where `out` belongs to another mesh; else as [`Mesh::integrated_divergence`], and 2 where `out`
    /// has another length.
    pub fn integrated_divergence_into(
        &self,
        flux: &FaceField,
        out: &mut CellField,
    ) -> Result<(), Refusal> {
        if out.number != self.number() {
            return Err(Refusal::new(3, 0));
        }
        ffi::integrated_divergence(
            self.counts(),
            self.adjacency(),
            flux.number,
            &flux.values,
            &mut out.values,
        )
    }

    /// The outflow of each cell, and how far the outflows are from 0.
    ///
    /// # Errors
    ///
    /// 1 to 3, 14; 12 at a cell; 9 at index 0 where a metric is not finite.
    pub fn continuity_metrics(&self, flux: &FaceField) -> Result<Continuity, Refusal> {
        let mut outflow = CellField::blank(self);
        let mut metrics = [0.0; 2];
        ffi::continuity_metrics(
            self.counts(),
            self.adjacency(),
            self.places(),
            flux.number,
            &flux.values,
            &mut outflow.values,
            &mut metrics,
        )?;
        Ok(Continuity {
            outflow,
            metrics: Metrics::of(metrics),
        })
    }
}

/// Room that can be allocated: the engine takes at most 65,535 records and refuses more with 1.
pub(crate) fn within(room: usize) -> Result<usize, Refusal> {
    if room > 65_535 {
        return Err(Refusal::new(1, 0));
    }
    Ok(room)
}
