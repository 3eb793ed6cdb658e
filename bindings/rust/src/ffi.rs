//! The library's functions, declared and called; the only unsafe code of the crate.

#![allow(clippy::too_many_arguments)]

use crate::refusal::Refusal;

#[cfg(not(target_pointer_width = "64"))]
compile_error!("the library counts in 64-bit numbers");

/// The mesh's number, its dimension and its counts, by value as C has such a record.
#[repr(C)]
#[derive(Clone, Copy, Debug)]
pub(crate) struct Counts {
    pub mesh: u64,
    pub dimension: usize,
    pub cells: usize,
    pub faces: usize,
    pub face_records: usize,
    pub neighbour_records: usize,
}

extern "C" {
    fn juvandeer_sqrt(x: f64) -> f64;
    fn juvandeer_refusal_sentence(number: u64, index: usize, out: *mut u8, _: usize) -> usize;
}

pub(crate) fn sqrt(x: f64) -> f64 {
    // SAFETY: takes and returns a number, and touches no memory.
    unsafe { juvandeer_sqrt(x) }
}

/// Writes the sentence of a refusal where it fits; how many bytes it needs.
pub(crate) fn refusal_sentence(number: u64, index: usize, out: &mut [u8]) -> usize {
    // SAFETY: the pointer is that of a slice, borrowed for the call alone, and stands with its length; the
    // library is proved to stay within it.
    unsafe { juvandeer_refusal_sentence(number, index, out.as_mut_ptr(), out.len()) }
}

/// The answer of a call that is given the place of the index.
fn answer(call: impl FnOnce(*mut usize) -> u64) -> Result<(), Refusal> {
    let mut index = 0;
    match call(&mut index) {
        0 => Ok(()),
        number => Err(Refusal::new(number, index)),
    }
}

/// Declares functions of the library and defines a safe one for each. A row has the parameters between the
/// counts and the place of the index, in the library's order, first what is read, then what is written, or read
/// and written:
///
/// | in the row | parameters in C |
/// |---|---|
/// | `[name]` | a mesh number |
/// | `(name)` | a number of equation records |
/// | `name: type` | a slice's pointer and its length |
macro_rules! functions {
    ($($function:ident = $symbol:ident(
        $($([$number:ident])? $(($records:ident))? $($lent:ident: $read:ty)?),*
        => $($out:ident: $written:ty),*
    );)*) => {
        extern "C" {
            $(fn $symbol(
                counts: Counts,
                $($($number: u64,)? $($records: usize,)? $($lent: *const $read, _: usize,)?)*
                $($out: *mut $written, _: usize,)*
                index: *mut usize,
            ) -> u64;)*
        }

        $(pub(crate) fn $function(
            counts: Counts,
            $($($number: u64,)? $($records: usize,)? $($lent: &[$read],)?)*
            $($out: &mut [$written],)*
        ) -> Result<(), Refusal> {
            // SAFETY: each pointer is that of a slice and stands with the slice's length; what is written is
            // borrowed for the call alone, so it overlaps nothing; the index has its place; and the library
            // is proved to stay within the slices whatever they hold.
            answer(|index| unsafe {
                $symbol(
                    counts,
                    $($($number,)? $($records,)? $($lent.as_ptr(), $lent.len(),)?)*
                    $($out.as_mut_ptr(), $out.len(),)*
                    index,
                )
            })
        })*
    };
}

functions! {
    face_distances = juvandeer_face_distances(
        adjacency: usize, places: f64, [number], codes: usize => geometry: f64
    );
    momentum_inverse_diagonal = juvandeer_momentum_inverse_diagonal(diagonal: f64 => out: f64);
    least_squares_stencil = juvandeer_least_squares_stencil(
        adjacency: usize, geometry: f64, heads: usize, places: f64, facing: usize, bordering: usize,
        [number], codes: usize, values: f64, (records)
        => starts: usize, equations: usize, weights: f64, inverses: f64
    );
    least_squares_gradient = juvandeer_least_squares_gradient(
        [stencil], (records), starts: usize, equations: usize, weights: f64, inverses: f64,
        [number], field: f64 => out: f64
    );
    gauss_gradient_from_faces = juvandeer_gauss_gradient_from_faces(
        adjacency: usize, geometry: f64, places: f64, [number], values: f64 => out: f64
    );
    pressure_coupling_gradient = juvandeer_pressure_coupling_gradient(
        adjacency: usize, geometry: f64, places: f64, [number], codes: usize, values: f64,
        [pressure], pressures: f64 => out: f64
    );
    pressure_coupling_gradient_without_conditions =
        juvandeer_pressure_coupling_gradient_without_conditions(
        adjacency: usize, geometry: f64, places: f64, [pressure], pressures: f64 => out: f64
    );
    pressure_face_coefficients = juvandeer_pressure_face_coefficients(
        adjacency: usize, geometry: f64, places: f64, [response], responses: f64 => out: f64
    );
    pressure_face_coefficients_with_boundary = juvandeer_pressure_face_coefficients_with_boundary(
        adjacency: usize, geometry: f64, places: f64, [number], codes: usize, values: f64,
        [response], responses: f64 => out: f64
    );
    rhie_chow_predicted_flux = juvandeer_rhie_chow_predicted_flux(
        adjacency: usize, geometry: f64, places: f64,
        [stencil], (records), starts: usize, equations: usize, weights: f64, inverses: f64,
        [velocity], velocities: f64, [pressure], pressures: f64, [response], responses: f64,
        [wall], walls: f64 => gradient: f64, out: f64
    );
    correct_face_flux_with_boundary = juvandeer_correct_face_flux_with_boundary(
        adjacency: usize, [number], codes: usize, values: f64, [prediction], predicted: f64,
        [coefficient], coefficients: f64, [correction], corrections: f64 => out: f64
    );
    correct_face_flux_in_place = juvandeer_correct_face_flux_in_place(
        adjacency: usize, [number], codes: usize, values: f64, [coefficient], coefficients: f64,
        [correction], corrections: f64, [prediction] => flux: f64
    );
    correct_cell_velocity_from_gradient = juvandeer_correct_cell_velocity_from_gradient(
        [velocity], velocities: f64, [response], responses: f64, [gradient], gradients: f64
        => out: f64
    );
    integrated_divergence = juvandeer_integrated_divergence(
        adjacency: usize, [number], flux: f64 => out: f64
    );
    continuity_metrics = juvandeer_continuity_metrics(
        adjacency: usize, places: f64, [number], flux: f64 => outflow: f64, metrics: f64
    );
    step = juvandeer_step(
        adjacency: usize, geometry: f64, heads: usize, places: f64, facing: usize, bordering: usize,
        [number], codes: usize, values: f64, (records),
        [velocity], velocities: f64, [pressure], pressures: f64, [response], responses: f64,
        [wall], walls: f64, [correction], corrections: f64
        => starts: usize, equations: usize, weights: f64, inverses: f64, gradient: f64,
        predicted: f64, coefficients: f64, flux: f64, outflow: f64, metrics: f64
    );
}
