//! The port's side: its functions, declared and called.

use crate::entry::Entry;
use crate::lent::{Lent, Slices};

/// What the port answers.
#[derive(Clone, Copy, Debug, PartialEq, Eq)]
pub enum Answer {
    Accepted,
    Refused(u64, usize),
}

/// A call of the port: reads what is lent and writes into the outputs, which have their lengths.
pub type Call = Box<dyn Fn(&Lent, &mut Slices) -> Answer>;

/// The entries that the port has.
pub struct Port {
    pub sqrt: Option<fn(f64) -> f64>,
    pub entries: Vec<(Entry, Call)>,
}

impl Port {
    pub fn call(&self, entry: Entry) -> Option<&Call> {
        let mut entries = self.entries.iter();
        entries
            .find(|(name, _)| *name == entry)
            .map(|(_, call)| call)
    }
}

/// The port as it was linked; without a library it has nothing.
#[cfg(not(port))]
pub fn linked() -> Port {
    Port {
        sqrt: None,
        entries: Vec::new(),
    }
}

#[cfg(port)]
pub fn linked() -> Port {
    Port {
        sqrt: Some(library::sqrt),
        entries: library::entries(),
    }
}

#[cfg(port)]
mod library {
    use super::{Answer, Call};
    use crate::entry::{Entry, Part};
    use crate::lent::{Counts, Lent, Slices};
    use std::ffi::c_void;

    extern "C" {
        fn juvandeer_sqrt(x: f64) -> f64;
    }

    pub fn sqrt(x: f64) -> f64 {
        // SAFETY: takes and returns a number, and touches no memory
        unsafe { juvandeer_sqrt(x) }
    }

    /// The answer of a call that is given the place of the index.
    fn answer(call: impl FnOnce(*mut usize) -> u64) -> Answer {
        let mut index = usize::MAX;
        match call(&mut index) {
            0 => Answer::Accepted,
            number => Answer::Refused(number, index),
        }
    }

    /// Declares the functions of the library and defines `entries`, which calls them. A row has the parameters
    /// that stand between the counts and the place of the index, first what is read, then what is written:
    ///
    /// | in the row | parameters |
    /// |---|---|
    /// | `slice` | its pointer and its length; one that is read and written stands with what is written |
    /// | `[Part]` before a slice | the mesh number beside that part |
    /// | `(records)` | the number of equation records |
    macro_rules! entries {
        ($($entry:ident = $function:ident(
            $($([$part:ident])? $(($records:ident))? $($lent:ident)?),* => $($out:ident),*
        );)*) => {
            extern "C" {
                $(fn $function(
                    counts: Counts,
                    $($($part: u64,)? $($records: usize,)? $($lent: *const c_void, _: usize,)?)*
                    $($out: *mut c_void, _: usize,)*
                    index: *mut usize,
                ) -> u64;)*
            }

            pub fn entries() -> Vec<(Entry, Call)> {
                vec![$((Entry::$entry, Box::new(|lent: &Lent, outputs: &mut Slices| {
                    // SAFETY: each pointer is that of a slice and stands with the slice's length, the slices
                    // that are written are borrowed for the call, and the port proves that it stays within them
                    answer(|index| unsafe {
                        $function(
                            lent.counts,
                            $($(lent.number(Part::$part),)? $(lent.$records,)?
                            $(lent.slices.$lent.as_ptr().cast(), lent.slices.$lent.len(),)?)*
                            $(outputs.$out.as_mut_ptr().cast(), outputs.$out.len(),)*
                            index,
                        )
                    })
                }))),*]
            }
        };
    }

    entries! {
        MomentumInverseDiagonal = juvandeer_momentum_inverse_diagonal(diagonal => responses);
        LeastSquaresStencil = juvandeer_least_squares_stencil(
            adjacency, geometry, heads, places, facing, bordering, [Codes] codes, values, (records)
            => starts, equations, weights, inverses
        );
        LeastSquaresGradient = juvandeer_least_squares_gradient(
            [Starts] (records) starts, equations, weights, inverses, [Pressure] pressure => gradient
        );
        PressureFaceCoefficients = juvandeer_pressure_face_coefficients(
            adjacency, geometry, places, [Responses] responses => coefficients
        );
        PressureFaceCoefficientsWithBoundary = juvandeer_pressure_face_coefficients_with_boundary(
            adjacency, geometry, places, [Codes] codes, values, [Responses] responses => coefficients
        );
        RhieChowPredictedFlux = juvandeer_rhie_chow_predicted_flux(
            adjacency, geometry, places, [Starts] (records) starts, equations, weights, inverses,
            [Velocity] velocity, [Pressure] pressure, [Responses] responses, [Walls] walls
            => gradient, predicted
        );
        CorrectFaceFluxWithBoundary = juvandeer_correct_face_flux_with_boundary(
            adjacency, [Codes] codes, values, [Predicted] predicted, [Coefficients] coefficients,
            [Correction] correction => flux
        );
        CorrectCellVelocityFromGradient = juvandeer_correct_cell_velocity_from_gradient(
            [Velocity] velocity, [Responses] responses, [Gradient] gradient => corrected
        );
        IntegratedDivergence = juvandeer_integrated_divergence(adjacency, [Flux] flux => outflow);
        ContinuityMetrics = juvandeer_continuity_metrics(
            adjacency, places, [Flux] flux => outflow, metrics
        );
        Step = juvandeer_step(
            adjacency, geometry, heads, places, facing, bordering, [Codes] codes, values, (records),
            [Velocity] velocity, [Pressure] pressure, [Responses] responses, [Walls] walls,
            [Correction] correction
            => starts, equations, weights, inverses, gradient, predicted, coefficients, flux, outflow, metrics
        );
        CorrectFaceFluxInPlace = juvandeer_correct_face_flux_in_place(
            adjacency, [Codes] codes, values, [Coefficients] coefficients, [Correction] correction,
            [Predicted] => predicted
        );
        FaceDistances = juvandeer_face_distances(adjacency, places, [Codes] codes => geometry);
        GaussGradientFromFaces = juvandeer_gauss_gradient_from_faces(
            adjacency, geometry, places, [FaceValues] face_values => gradient
        );
        PressureCouplingGradient = juvandeer_pressure_coupling_gradient(
            adjacency, geometry, places, [Codes] codes, values, [Pressure] pressure => gradient
        );
        PressureCouplingGradientWithoutConditions = juvandeer_pressure_coupling_gradient_without_conditions(
            adjacency, geometry, places, [Pressure] pressure => gradient
        );
    }
}
