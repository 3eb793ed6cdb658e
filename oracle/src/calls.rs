//! The Rust's functions over what is lent, with answers in the numbers of docs/REFUSALS.md.

mod counting;

pub use counting::{counts_agree, equation_counts, equations_at_most};

use crate::entry::{Entry, Part};
use crate::lent::{distances, export_stencil, three, Lent, SliceMut, Slices, FACE_WIDTH, OWN};
use crate::port::Answer;
use flursys::simple::access::{
    continuity_metrics, pressure_coupling_gradient, rhie_chow_flux_with_coefficients,
};
use flursys::{
    correct_cell_velocity_from_gradient, correct_face_flux_with_boundary, fields,
    gauss_gradient_from_faces, integrated_divergence, least_squares_gradient, mesh,
    momentum_inverse_diagonal, pressure_face_coefficients,
    pressure_face_coefficients_with_boundary, rhie_chow_predicted_flux, CellField, FaceField,
    FieldError, LeastSquaresGradientStencil, NumericsError, ResolvedScalarBoundaryConditions,
    SimpleError, UnstructuredMesh, Vec3,
};

/// Where a check stands; this decides what a refusal leaves in the outputs.
#[derive(Clone, Copy, Debug, PartialEq, Eq)]
pub enum Place {
    Shape,
    Mesh,
    Arithmetic,
}

#[derive(Clone, Debug, PartialEq, Eq)]
pub struct Refusal {
    pub place: Place,
    pub number: u64,
    pub index: usize,
}

/// What a call is to answer, and with it what it is to leave in its outputs.
#[derive(Clone, Debug)]
pub enum Outcome {
    Accepted(Box<Slices>),
    Refused(Refusal),
}

impl Outcome {
    pub fn answer(&self) -> Answer {
        match self {
            Outcome::Accepted(_) => Answer::Accepted,
            Outcome::Refused(refusal) => Answer::Refused(refusal.number, refusal.index),
        }
    }

    /// What the outputs hold after the call, where they held `before` on the way in.
    pub fn contents(&self, entry: Entry, before: &Slices) -> Slices {
        let mut after = before.clone();
        match self {
            Outcome::Accepted(outputs) => {
                for &part in entry.outputs() {
                    after.take(part, outputs);
                }
            }
            Outcome::Refused(refusal) if refusal.place == Place::Arithmetic => {
                for &part in entry.outputs() {
                    clear(after.slice_mut(part));
                }
            }
            Outcome::Refused(_) => {}
        }
        after
    }
}

fn clear(slice: SliceMut<'_>) {
    match slice {
        SliceMut::Whole(numbers) => numbers.fill(0),
        SliceMut::Float(numbers) => numbers.fill(0.0),
    }
}

/// Whether this number of an output is copied from an input without arithmetic, so that its bits are
/// kept, a NaN's payload too. The step predicts at linked faces, the prediction by itself does not.
pub fn is_copied(entry: Entry, part: Part, at: usize, lent: &Lent) -> bool {
    let one_cell = |face: usize| lent.slices.adjacency[2 * face + 1] == 0;
    let unlinked = |face: usize| one_cell(face) && lent.slices.codes[2 * face + 1] == 0;
    let kept = |face: usize| unlinked(face) && lent.slices.codes[2 * face] == 2;
    match (entry, part) {
        (_, Part::Weights) => at % 4 == 3,
        (Entry::CorrectFaceFluxInPlace, Part::Predicted) => kept(at),
        (Entry::FaceDistances, Part::Geometry) => at % FACE_WIDTH < OWN,
        (Entry::Step, Part::Predicted) => unlinked(at),
        (_, Part::Predicted) => one_cell(at),
        (Entry::CorrectFaceFluxWithBoundary | Entry::Step, Part::Flux) => kept(at),
        _ => false,
    }
}

/// A refusal within arithmetic, as number and index.
type Refused = (u64, usize);

/// Calls the Rust. What is lent has passed the checks that stand before arithmetic; mesh numbers may
/// differ, and are then tested where the Rust tests them.
pub fn run(entry: Entry, lent: &Lent) -> Outcome {
    let result = match entry {
        Entry::MomentumInverseDiagonal => inverse_diagonal(lent),
        Entry::LeastSquaresStencil => stencil(lent),
        Entry::LeastSquaresGradient => gradient(lent),
        Entry::PressureFaceCoefficients => coefficients(lent),
        Entry::PressureFaceCoefficientsWithBoundary => coefficients_with_boundary(lent),
        Entry::RhieChowPredictedFlux => predicted_flux(lent),
        Entry::CorrectFaceFluxWithBoundary => corrected_flux(lent),
        Entry::CorrectCellVelocityFromGradient => corrected_velocity(lent),
        Entry::IntegratedDivergence => outflow(lent),
        Entry::ContinuityMetrics => metrics(lent),
        Entry::Step => step(lent),
        Entry::CorrectFaceFluxInPlace => corrected_in_place(lent),
        Entry::FaceDistances => Ok(with_distances(lent)),
        Entry::GaussGradientFromFaces => gradient_of_faces(lent),
        Entry::PressureCouplingGradient => coupling_gradient(lent, Some(&lent.conditions())),
        Entry::PressureCouplingGradientWithoutConditions => coupling_gradient(lent, None),
    };
    outcome(result)
}

fn outcome(result: Result<Slices, Refused>) -> Outcome {
    match result {
        Ok(outputs) => Outcome::Accepted(Box::new(outputs)),
        Err((number, index)) => Outcome::Refused(Refusal {
            place: if number == 3 {
                Place::Shape
            } else {
                Place::Arithmetic
            },
            number,
            index,
        }),
    }
}

fn inverse_diagonal(lent: &Lent) -> Result<Slices, Refused> {
    let responses = momentum_inverse_diagonal(&lent.slices.diagonal).map_err(of_simple)?;
    Ok(Slices {
        responses,
        ..Slices::default()
    })
}

fn stencil(lent: &Lent) -> Result<Slices, Refused> {
    let mut outputs = Slices::default();
    build_stencil(&lent.mesh(), &lent.conditions(), lent.records, &mut outputs)?;
    Ok(outputs)
}

fn gradient(lent: &Lent) -> Result<Slices, Refused> {
    let pressure = lent.cell_numbers(Part::Pressure);
    let gradient = least_squares_gradient(&lent.mesh(), &lent.stencil(), &pressure);
    Ok(Slices {
        gradient: flat(&gradient.map_err(of_numerics)?),
        ..Slices::default()
    })
}

fn coefficients(lent: &Lent) -> Result<Slices, Refused> {
    let responses = lent.cell_numbers(Part::Responses);
    let coefficients = pressure_face_coefficients(&lent.mesh(), &responses);
    Ok(Slices {
        coefficients: coefficients.map_err(of_simple)?.values().to_vec(),
        ..Slices::default()
    })
}

fn coefficients_with_boundary(lent: &Lent) -> Result<Slices, Refused> {
    let responses = lent.cell_numbers(Part::Responses);
    let coefficients =
        pressure_face_coefficients_with_boundary(&lent.mesh(), &responses, &lent.conditions());
    Ok(Slices {
        coefficients: coefficients.map_err(of_simple)?.values().to_vec(),
        ..Slices::default()
    })
}

fn predicted_flux(lent: &Lent) -> Result<Slices, Refused> {
    let mesh = lent.mesh();
    let pressure = lent.cell_numbers(Part::Pressure);
    let stencil = lent.stencil();
    let predicted = rhie_chow_predicted_flux(
        &mesh,
        &lent.cell_vectors(Part::Velocity),
        &pressure,
        &lent.cell_numbers(Part::Responses),
        &stencil,
        &lent.face_numbers(Part::Walls),
    );
    let predicted = predicted.map_err(of_simple)?.values().to_vec();
    let gradient = least_squares_gradient(&mesh, &stencil, &pressure).map_err(of_numerics)?;
    Ok(Slices {
        gradient: flat(&gradient),
        predicted,
        ..Slices::default()
    })
}

fn corrected_flux(lent: &Lent) -> Result<Slices, Refused> {
    let flux = correct_face_flux_with_boundary(
        &lent.mesh(),
        &lent.face_numbers(Part::Predicted),
        &lent.face_numbers(Part::Coefficients),
        &lent.cell_numbers(Part::Correction),
        &lent.conditions(),
    );
    Ok(Slices {
        flux: flux.map_err(of_simple)?.values().to_vec(),
        ..Slices::default()
    })
}

/// The same, in the slice that holds the predicted flux.
fn corrected_in_place(lent: &Lent) -> Result<Slices, Refused> {
    let corrected = corrected_flux(lent)?;
    Ok(Slices {
        predicted: corrected.flux,
        ..Slices::default()
    })
}

/// The geometry with the distances of the Rust's mesh in their places.
fn with_distances(lent: &Lent) -> Slices {
    let mut geometry = lent.slices.geometry.clone();
    write_distances(&lent.mesh(), &lent.conditions(), &mut geometry);
    Slices {
        geometry,
        ..Slices::default()
    }
}

/// Writes both distances of every face into a geometry.
pub fn write_distances(
    mesh: &UnstructuredMesh,
    conditions: &ResolvedScalarBoundaryConditions,
    geometry: &mut [f64],
) {
    for (face, record) in geometry.chunks_exact_mut(FACE_WIDTH).enumerate() {
        record[OWN..].copy_from_slice(&distances(mesh, conditions, face));
    }
}

fn gradient_of_faces(lent: &Lent) -> Result<Slices, Refused> {
    let values = lent.face_numbers(Part::FaceValues);
    let gradient = gauss_gradient_from_faces(&lent.mesh(), &values);
    Ok(Slices {
        gradient: flat(&gradient.map_err(of_numerics)?),
        ..Slices::default()
    })
}

/// The Rust looks at the mesh number of neither the pressure nor the conditions.
fn coupling_gradient(
    lent: &Lent,
    conditions: Option<&ResolvedScalarBoundaryConditions>,
) -> Result<Slices, Refused> {
    let pressure = lent.cell_numbers(Part::Pressure);
    let gradient = pressure_coupling_gradient(&lent.mesh(), &pressure, conditions);
    Ok(Slices {
        gradient: flat(&gradient.map_err(of_simple)?),
        ..Slices::default()
    })
}

fn corrected_velocity(lent: &Lent) -> Result<Slices, Refused> {
    let corrected = correct_cell_velocity_from_gradient(
        &lent.mesh(),
        &lent.cell_vectors(Part::Velocity),
        &lent.cell_numbers(Part::Responses),
        &lent.cell_vectors(Part::Gradient),
    );
    Ok(Slices {
        corrected: flat(&corrected.map_err(of_simple)?),
        ..Slices::default()
    })
}

fn outflow(lent: &Lent) -> Result<Slices, Refused> {
    let outflow = integrated_divergence(&lent.mesh(), &lent.face_numbers(Part::Flux));
    Ok(Slices {
        outflow: outflow.map_err(of_numerics)?.values().to_vec(),
        ..Slices::default()
    })
}

fn metrics(lent: &Lent) -> Result<Slices, Refused> {
    let mut outputs = Slices::default();
    measure(
        &lent.mesh(),
        &lent.face_numbers(Part::Flux),
        &mut outputs.outflow,
        &mut outputs.metrics,
    )?;
    Ok(outputs)
}

/// The whole step of documents 01 and 02: stencil, predicted flux, coefficients with boundary, predicted flux of linked
/// faces with these, correction, outflow and metrics. The last prediction is of all faces, and refuses at linked ones
/// only: at faces with two cells it does again what the first has done, with the same coefficients.
fn step(lent: &Lent) -> Result<Slices, Refused> {
    let mesh = lent.mesh();
    let conditions = lent.conditions();
    let velocity = lent.cell_vectors(Part::Velocity);
    let pressure = lent.cell_numbers(Part::Pressure);
    let responses = lent.cell_numbers(Part::Responses);
    let walls = lent.face_numbers(Part::Walls);
    let mut outputs = Slices::default();
    let stencil = build_stencil(&mesh, &conditions, lent.records, &mut outputs)?;
    rhie_chow_predicted_flux(&mesh, &velocity, &pressure, &responses, &stencil, &walls)
        .map_err(of_simple)?;
    let gradient = least_squares_gradient(&mesh, &stencil, &pressure).map_err(of_numerics)?;
    let coefficients = pressure_face_coefficients_with_boundary(&mesh, &responses, &conditions)
        .map_err(of_simple)?;
    let predicted = rhie_chow_flux_with_coefficients(
        &mesh,
        &velocity,
        &pressure,
        &responses,
        &stencil,
        &walls,
        &coefficients,
        None,
        Some(&conditions),
    )
    .map_err(of_simple)?;
    let correction = lent.cell_numbers(Part::Correction);
    let flux =
        correct_face_flux_with_boundary(&mesh, &predicted, &coefficients, &correction, &conditions)
            .map_err(of_simple)?;
    measure(&mesh, &flux, &mut outputs.outflow, &mut outputs.metrics)?;
    if outputs.outflow.iter().any(|outflow| !outflow.is_finite()) {
        return Err((9, 0));
    }
    outputs.gradient = flat(&gradient);
    outputs.predicted = predicted.values().to_vec();
    outputs.coefficients = coefficients.values().to_vec();
    outputs.flux = flux.values().to_vec();
    Ok(outputs)
}

/// The predicted flux with links, on what is lent as stencil and coefficients: a part of the step, and no entry.
pub fn linked_flux(lent: &Lent) -> Outcome {
    let predicted = rhie_chow_flux_with_coefficients(
        &lent.mesh(),
        &lent.cell_vectors(Part::Velocity),
        &lent.cell_numbers(Part::Pressure),
        &lent.cell_numbers(Part::Responses),
        &lent.stencil(),
        &lent.face_numbers(Part::Walls),
        &lent.face_numbers(Part::Coefficients),
        None,
        Some(&lent.conditions()),
    );
    let predicted = predicted.map_err(of_simple).map(|predicted| Slices {
        predicted: predicted.values().to_vec(),
        ..Slices::default()
    });
    outcome(predicted)
}

/// `integrated_divergence`, and `continuity_metrics` with the largest divergence, which sums the same
/// outflows before it.
fn measure(
    mesh: &UnstructuredMesh,
    flux: &FaceField<f64>,
    outflow: &mut Vec<f64>,
    metrics: &mut Vec<f64>,
) -> Result<(), Refused> {
    let (rms, largest) = continuity_metrics(mesh, flux).map_err(of_simple)?;
    let sums = integrated_divergence(mesh, flux).map_err(of_numerics)?;
    *outflow = sums.values().to_vec();
    *metrics = vec![rms, largest];
    Ok(())
}

/// `LeastSquaresGradientStencil::new` into slices of `records` equation records. Where these are too few
/// it is 1, at the first equation too many; a refusal that the Rust gives before that comes first.
fn build_stencil(
    mesh: &UnstructuredMesh,
    conditions: &ResolvedScalarBoundaryConditions,
    records: usize,
    outputs: &mut Slices,
) -> Result<LeastSquaresGradientStencil, Refused> {
    const TOO_MANY: Refused = (1, 0);
    match LeastSquaresGradientStencil::new(mesh, conditions) {
        Ok(stencil) => {
            export_stencil(&stencil, records, outputs).ok_or(TOO_MANY)?;
            Ok(stencil)
        }
        Err(error) => {
            let refused = of_numerics(error);
            let enough = refused.0 == 3 || counting::equations_at_most(mesh, conditions) <= records;
            if enough {
                return Err(refused);
            }
            let appended = counting::equations_before(mesh, conditions, refused);
            Err(if appended > records {
                TOO_MANY
            } else {
                refused
            })
        }
    }
}

fn flat(vectors: &CellField<Vec3>) -> Vec<f64> {
    vectors.values().iter().copied().flat_map(three).collect()
}

fn of_field(error: FieldError) -> Refused {
    match error {
        FieldError::MeshMismatch { .. } => (3, 0),
        FieldError::SizeMismatch { .. } => unreachable!("lengths are tested before: {error:?}"),
    }
}

fn of_numerics(error: NumericsError) -> Refused {
    match error {
        NumericsError::Field(error) => of_field(error),
        NumericsError::DegenerateOwnerNeighbourDistance { face }
        | NumericsError::DegenerateOwnerFaceDistance { face } => (7, face),
        NumericsError::SingularLeastSquaresStencil { cell } => (8, cell),
        NumericsError::MissingBoundaryCondition { face } => (10, face),
        NumericsError::InvalidCellMeasure { cell } => (12, cell),
        other => unreachable!("no function that is called gives {other:?}"),
    }
}

fn of_simple(error: SimpleError) -> Refused {
    match error {
        SimpleError::Field(error) => of_field(error),
        SimpleError::Numerics(error) => of_numerics(error),
        SimpleError::InvalidPressureFaceCoefficient { face, .. } => (9, face),
        SimpleError::InvalidMomentumDiagonal { cell, .. } => (11, cell),
        other => unreachable!("no function that is called gives {other:?}"),
    }
}

/// Branches of the Rust that no entry of the port has: an output field of another mesh, and the
/// metrics without the divergence. Gives whether each answered as it should.
pub fn others(lent: &Lent) -> bool {
    let mesh = lent.mesh();
    let other = mesh::access::mesh_id(!lent.counts.mesh);
    let mut outflow = fields::access::cell_field(other, vec![0.0; lent.counts.cells]);
    let mut gradient = fields::access::cell_field(other, vec![Vec3::ZERO; lent.counts.cells]);
    let flux = lent.face_numbers(Part::Flux);
    let pressure = lent.cell_numbers(Part::Pressure);
    let scattered = flursys::integrated_divergence_into(&mesh, &flux, &mut outflow);
    let reconstructed =
        flursys::least_squares_gradient_into(&mesh, &lent.stencil(), &pressure, &mut gradient);
    let rms = flursys::continuity_rms(&mesh, &flux).ok();
    let both = continuity_metrics(&mesh, &flux).ok();
    scattered.is_err_and(|error| of_numerics(error) == (3, 0))
        && reconstructed.is_err_and(|error| of_numerics(error) == (3, 0))
        && both.is_none_or(|(first, _)| rms == Some(first))
}
