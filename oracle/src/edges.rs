//! The cases of the programs `edges` and `oneslice`, with what the checks and the Rust answer: an
//! accepted call of each entry and one for each refusal that it can give. The tables here are those of
//! `crates/edges/src` and `crates/oneslice/src`, in the same order and by the same names.

use crate::calls::{Outcome, Place};
use crate::compare::{expected, patterned};
use crate::damage::{self, Count, Damage};
use crate::entry::{Entry, Part, Part::*};
use crate::lent::{Counts, Lent, SliceMut, Slices, FACE_WIDTH};
use crate::makers;
use std::fmt::Write;
use Change::{Dimension, Float, Length, Nothing, Number, Records, Whole};

const COUNTS: Counts = Counts {
    mesh: 7,
    dimension: 2,
    cells: 2,
    faces: 7,
    face_records: 8,
    neighbour_records: 2,
};

/// One more than the stencil has.
const RECORDS: usize = 7;

/// Two unit squares side by side: face 0 joins cells 0 and 1; faces 1 and 2, to the left and to the
/// right, are linked; faces 3 and 4 are below and above cell 0, faces 5 and 6 below and above cell 1.
/// Faces 3 and 6 have a fixed value, faces 4 and 5 zero gradient. Starts, equations, weights and inverses
/// are those of a lent stencil.
#[rustfmt::skip]
const WHOLE: [[usize; 16]; 7] = [
    [0, 2, 0, 0, 1, 0, 0, 0, 0, 0, 1, 0, 1, 0, 0, 0], // adjacency
    [1, 1, 5, 2, 0, 0, 0, 0, 0, 0, 0, 0, 0, 0, 0, 0], // heads
    [0, 2, 1, 3, 3, 4, 4, 0, 0, 6, 2, 7, 5, 8, 6, 0], // facing
    [1, 0, 0, 0, 0, 0, 0, 0, 0, 0, 0, 0, 0, 0, 0, 0], // bordering
    [0, 0, 0, 3, 0, 2, 1, 0, 2, 0, 2, 0, 1, 0, 0, 0], // codes
    [1, 4, 0, 0, 0, 0, 0, 0, 0, 0, 0, 0, 0, 0, 0, 0], // starts
    [3, 2, 3, 3, 1, 0, 2, 5, 2, 6, 1, 7, 0, 0, 0, 0], // equations
];

#[rustfmt::skip]
const GEOMETRY: [[f64; FACE_WIDTH]; 7] = [
    [1.0, 0.5, 0.0, 1.0, 0.0, 0.0, 1.0, 0.0, 0.0, 0.5, 0.5],
    [0.0, 0.5, 0.0, -1.0, 0.0, 0.0, -1.0, 0.0, 0.0, 0.5, 0.5],
    [2.0, 0.5, 0.0, 1.0, 0.0, 0.0, 1.0, 0.0, 0.0, 0.5, 0.5],
    [0.5, 0.0, 0.0, 0.0, -1.0, 0.0, 0.0, -1.0, 0.0, 0.5, 0.0],
    [0.5, 1.0, 0.0, 0.0, 1.0, 0.0, 0.0, 1.0, 0.0, 0.5, 0.0],
    [1.5, 0.0, 0.0, 0.0, -1.0, 0.0, 0.0, -1.0, 0.0, 0.5, 0.0],
    [1.5, 1.0, 0.0, 0.0, 1.0, 0.0, 0.0, 1.0, 0.0, 0.5, 0.0],
];

#[rustfmt::skip]
const FLOAT: [[f64; 9]; 21] = [
    [0.5, 0.5, 0.0, 1.0, 1.5, 0.5, 0.0, 1.0, 0.0], // places
    [0.0, 0.0, 0.0, 0.0, 0.0, 2.0, 0.0, 0.0, 0.0], // values
    [-2.0, 0.0, 0.0, 4.0, 0.0, 0.0, 0.0, 0.0, 0.0],
    [0.0, 0.0, 0.0, 0.0, 0.0, 0.0, 2.0, 0.0, 0.0],
    [0.0, 0.0, 0.0, 0.0, 0.0, 0.0, 0.0, 0.0, 0.0],
    [1.0, 0.0, 0.0, 0.0, -0.7, 0.0, 0.0, 0.0, 0.0], // weights
    [-2.0, 0.0, 4.0, -1.0, 0.0, 0.0, 0.0, 0.7, 0.0],
    [0.0, 0.0, 0.0, 2.0, 0.0, 2.0, 1.0, 1.0, 0.0],
    [0.0, 0.0, 0.0, 0.0, 0.0, 0.0, 0.0, 0.0, 0.0],
    [0.5, 0.0, 0.0, 0.0, 1.0, 0.0, 0.0, 0.0, 0.0], // inverses
    [0.5, 0.1, 0.0, 0.1, 1.0, 0.0, 0.0, 0.0, 0.0],
    [2.0, 3.0, 0.0, 0.0, 0.0, 0.0, 0.0, 0.0, 0.0], // diagonal
    [0.5, 0.25, 0.0, 0.0, 0.0, 0.0, 0.0, 0.0, 0.0], // responses
    [0.1, 0.7, 0.0, 0.0, 0.0, 0.0, 0.0, 0.0, 0.0], // pressure
    [1.0, 0.5, 0.0, 3.0, 0.3, 0.0, 0.0, 0.0, 0.0], // velocity
    [1.0, 0.5, 0.0, 4.0, 0.3, 0.0, 0.0, 0.0, 0.0], // gradient
    [0.0, 2.0, -2.0, 0.5, -0.6, 0.3, 1.0, 0.0, 0.0], // walls
    [2.0, -1.0, 1.0, 0.0, 0.1, 0.2, -0.3, 0.0, 0.0], // predicted
    [0.5, 1.0, 1.0, 2.0, 0.0, 0.0, 0.7, 0.0, 0.0], // coefficients
    [1.0, 3.0, 0.0, 0.0, 0.0, 0.0, 0.0, 0.0, 0.0], // correction
    [1.0, -1.0, 0.7, 0.1, 0.2, -0.5, 0.3, 0.0, 0.0], // flux
];

/// The row at which a slice starts in its table.
const ROWS: [(Part, usize); 21] = [
    (Adjacency, 0),
    (Heads, 1),
    (Facing, 2),
    (Bordering, 3),
    (Codes, 4),
    (Starts, 5),
    (Equations, 6),
    (Places, 0),
    (Values, 1),
    (Weights, 5),
    (Inverses, 9),
    (Diagonal, 11),
    (Responses, 12),
    (Pressure, 13),
    (Velocity, 14),
    (Gradient, 15),
    (Walls, 16),
    (Predicted, 17),
    (Coefficients, 18),
    (Correction, 19),
    (Flux, 20),
];

/// Where x of cell 1's centre is 2^-26 from that of cell 0, and where it is 2^-25 from it.
const NEAR: f64 = 0.5 + 1.0 / (1 << 26) as f64;
const FARTHER: f64 = 0.5 + 1.0 / (1 << 25) as f64;

/// Where y of face 3's centre is 2^-27 from that of cell 0.
const BESIDE: f64 = 0.5 - 1.0 / (1 << 27) as f64;

/// What a case changes in the base.
enum Change {
    Nothing,
    Dimension(usize),
    /// Room for so many equation records.
    Records(usize),
    /// The length of a slice, lent or handed out.
    Length(Part, usize),
    /// The mesh number beside a slice.
    Number(Part, u64),
    /// One number of a slice.
    Whole(Part, usize, usize),
    Float(Part, usize, f64),
}

type Case = (&'static str, Change);

const DIAGONAL: &[Case] = &[
    ("as it stands", Nothing),
    ("diagonal 2^-1074", Float(Diagonal, 0, 5.0e-324)),
    ("dimension 4", Dimension(4)),
    ("diagonal one short", Length(Diagonal, 1)),
    ("output one long", Length(Responses, 3)),
    ("diagonal 0", Float(Diagonal, 1, 0.0)),
];

const STENCIL: &[Case] = &[
    ("as it stands", Nothing),
    ("zero gradient at face 3", Whole(Codes, 6, 2)),
    ("room for 6 records", Records(6)),
    ("dimension 4", Dimension(4)),
    ("codes one short", Length(Codes, 13)),
    ("equations one short", Length(Equations, 13)),
    ("conditions of another mesh", Number(Codes, 8)),
    ("owner of face 3 missing", Whole(Adjacency, 6, 2)),
    ("code 3 at face 4", Whole(Codes, 8, 3)),
    ("first face of cell 1 missing", Whole(Heads, 2, 9)),
    ("link of face 4 to face 5", Whole(Codes, 9, 6)),
    ("room for 5 records", Records(5)),
    ("centre distance 2^-26", Float(Places, 4, NEAR)),
    ("centre of face 3 its cell's", Float(Geometry, 34, 0.5)),
    ("no faces of cell 0 but 0 and 1", Whole(Facing, 3, 0)),
    ("no condition at face 3", Whole(Codes, 6, 0)),
];

const GRADIENT: &[Case] = &[
    ("as it stands", Nothing),
    ("dimension 4", Dimension(4)),
    ("pressure one short", Length(Pressure, 1)),
    ("stencil of another mesh", Number(Starts, 8)),
    ("pressure of another mesh", Number(Pressure, 8)),
    ("first equation of cell 1 missing", Whole(Starts, 1, 8)),
];

const COEFFICIENTS: &[Case] = &[
    ("as it stands", Nothing),
    ("centre distance 2^-25", Float(Places, 4, FARTHER)),
    ("dimension 4", Dimension(4)),
    ("places one short", Length(Places, 7)),
    ("responses of another mesh", Number(Responses, 8)),
    ("owner of face 3 missing", Whole(Adjacency, 6, 2)),
    ("centre distance 2^-26", Float(Places, 4, NEAR)),
    ("response -1", Float(Responses, 0, -1.0)),
];

const BOUNDARY: &[Case] = &[
    ("as it stands", Nothing),
    (
        "centre of face 3 2^-27 from its cell's",
        Float(Geometry, 34, BESIDE),
    ),
    ("code 1 at linked face 1", Whole(Codes, 2, 1)),
    ("dimension 4", Dimension(4)),
    ("values one short", Length(Values, 27)),
    ("conditions of another mesh", Number(Codes, 8)),
    ("responses of another mesh", Number(Responses, 8)),
    ("code 3 at face 4", Whole(Codes, 8, 3)),
    ("link of face 4 to face 5", Whole(Codes, 9, 6)),
    ("centre distance 2^-26", Float(Places, 4, NEAR)),
    ("response -1", Float(Responses, 0, -1.0)),
    ("area of face 6 0", Float(Geometry, 70, 0.0)),
    ("centre of face 3 its cell's", Float(Geometry, 34, 0.5)),
];

const PREDICTION: &[Case] = &[
    ("as it stands", Nothing),
    ("dimension 4", Dimension(4)),
    ("walls one short", Length(Walls, 6)),
    ("velocity of another mesh", Number(Velocity, 8)),
    ("stencil of another mesh", Number(Starts, 8)),
    ("owner of face 3 missing", Whole(Adjacency, 6, 2)),
    ("first equation of cell 1 missing", Whole(Starts, 1, 8)),
    ("centre distance 2^-26", Float(Places, 4, NEAR)),
    ("response -1", Float(Responses, 0, -1.0)),
    ("area of face 0 1e308", Float(Geometry, 3, 1.0e308)),
];

const CORRECTION: &[Case] = &[
    ("as it stands", Nothing),
    ("code 1 at linked face 1", Whole(Codes, 2, 1)),
    ("dimension 4", Dimension(4)),
    ("output one long", Length(Flux, 8)),
    ("conditions of another mesh", Number(Codes, 8)),
    ("correction of another mesh", Number(Correction, 8)),
    ("neighbour of face 0 its owner", Whole(Adjacency, 1, 1)),
    ("code 3 at face 4", Whole(Codes, 8, 3)),
    ("link of face 4 to face 5", Whole(Codes, 9, 6)),
    ("coefficient 0 at face 0", Float(Coefficients, 0, 0.0)),
    ("coefficient 0 at face 6", Float(Coefficients, 6, 0.0)),
    (
        "correction of cell 0 -1.7e308",
        Float(Correction, 0, -1.7e308),
    ),
    ("no condition at face 4", Whole(Codes, 8, 0)),
];

const VELOCITY: &[Case] = &[
    ("as it stands", Nothing),
    ("dimension 4", Dimension(4)),
    ("gradient one short", Length(Gradient, 5)),
    ("gradient of another mesh", Number(Gradient, 8)),
    ("response 0", Float(Responses, 1, 0.0)),
    ("response 1.7e308", Float(Responses, 1, 1.7e308)),
];

const OUTFLOW: &[Case] = &[
    ("as it stands", Nothing),
    ("dimension 4", Dimension(4)),
    ("output one short", Length(Outflow, 1)),
    ("flux of another mesh", Number(Flux, 8)),
    ("neighbour of face 0 its owner", Whole(Adjacency, 1, 1)),
];

const METRICS: &[Case] = &[
    ("as it stands", Nothing),
    ("dimension 4", Dimension(4)),
    ("metrics one long", Length(Metrics, 3)),
    ("flux of another mesh", Number(Flux, 8)),
    ("neighbour of face 0 its owner", Whole(Adjacency, 1, 1)),
    ("flux of face 1 1.7e308", Float(Flux, 1, 1.7e308)),
    ("volume of cell 1 2^-1074", Float(Places, 7, 5.0e-324)),
    ("volume of cell 1 0", Float(Places, 7, 0.0)),
];

const STEP: &[Case] = &[
    ("as it stands", Nothing),
    ("dimension 4", Dimension(4)),
    ("walls one short", Length(Walls, 6)),
    ("equations one short", Length(Equations, 13)),
    ("pressure of another mesh", Number(Pressure, 8)),
    ("owner of face 3 missing", Whole(Adjacency, 6, 2)),
    ("code 3 at face 4", Whole(Codes, 8, 3)),
    ("first neighbour of cell 1 missing", Whole(Heads, 3, 3)),
    ("link of face 4 to face 5", Whole(Codes, 9, 6)),
    ("room for 5 records", Records(5)),
    ("centre distance 2^-26", Float(Places, 4, NEAR)),
    ("no faces of cell 0 but 0 and 1", Whole(Facing, 3, 0)),
    ("no condition at face 3", Whole(Codes, 6, 0)),
    ("response -1", Float(Responses, 0, -1.0)),
    ("area of face 0 1e308", Float(Geometry, 3, 1.0e308)),
    ("area of face 6 0", Float(Geometry, 70, 0.0)),
    ("area of face 3 1e308", Float(Geometry, 37, -1.0e308)),
    ("wall flux of face 4 1.7e308", Float(Walls, 4, 1.7e308)),
    ("volume of cell 1 0", Float(Places, 7, 0.0)),
];

const IN_PLACE: &[Case] = &[
    ("as it stands", Nothing),
    ("code 1 at linked face 1", Whole(Codes, 2, 1)),
    (
        "predicted flux of face 4 a NaN",
        Float(Predicted, 4, f64::NAN),
    ),
    ("predicted flux of face 5 -0", Float(Predicted, 5, -0.0)),
    ("dimension 4", Dimension(4)),
    ("predicted flux one long", Length(Predicted, 8)),
    ("predicted flux one short", Length(Predicted, 6)),
    ("conditions of another mesh", Number(Codes, 8)),
    ("coefficients of another mesh", Number(Coefficients, 8)),
    ("correction of another mesh", Number(Correction, 8)),
    ("predicted flux of another mesh", Number(Predicted, 8)),
    ("neighbour of face 0 its owner", Whole(Adjacency, 1, 1)),
    ("code 3 at face 4", Whole(Codes, 8, 3)),
    ("link of face 4 to face 5", Whole(Codes, 9, 6)),
    ("coefficient 0 at face 0", Float(Coefficients, 0, 0.0)),
    ("coefficient 0 at face 6", Float(Coefficients, 6, 0.0)),
    (
        "correction of cell 0 -1.7e308",
        Float(Correction, 0, -1.7e308),
    ),
    (
        "predicted flux of face 2 a NaN",
        Float(Predicted, 2, f64::NAN),
    ),
    ("no condition at face 4", Whole(Codes, 8, 0)),
];

fn cases(entry: Entry) -> &'static [Case] {
    match entry {
        Entry::MomentumInverseDiagonal => DIAGONAL,
        Entry::LeastSquaresStencil => STENCIL,
        Entry::LeastSquaresGradient => GRADIENT,
        Entry::PressureFaceCoefficients => COEFFICIENTS,
        Entry::PressureFaceCoefficientsWithBoundary => BOUNDARY,
        Entry::RhieChowPredictedFlux => PREDICTION,
        Entry::CorrectFaceFluxWithBoundary => CORRECTION,
        Entry::CorrectCellVelocityFromGradient => VELOCITY,
        Entry::IntegratedDivergence => OUTFLOW,
        Entry::ContinuityMetrics => METRICS,
        Entry::Step => STEP,
        Entry::CorrectFaceFluxInPlace => IN_PLACE,
        // they have the programs `distances` and `gradients`
        Entry::FaceDistances
        | Entry::GaussGradientFromFaces
        | Entry::PressureCouplingGradient
        | Entry::PressureCouplingGradientWithoutConditions => &[],
    }
}

/// The lines of the program `edges`.
pub fn text() -> String {
    lines(Entry::of_document_01())
}

/// The lines of the program `oneslice`.
pub fn in_place() -> String {
    lines([Entry::CorrectFaceFluxInPlace].into_iter())
}

/// A line for each case: its name, the answer, and the outputs or what a refusal left of them.
fn lines(entries: impl Iterator<Item = Entry>) -> String {
    let mut text = String::new();
    for entry in entries {
        for (name, change) in cases(entry) {
            let result = result(entry, change);
            let _ = writeln!(text, "{}, {name}: {result}", entry.name());
        }
    }
    text
}

fn result(entry: Entry, change: &Change) -> String {
    let mut lent = base();
    let mut outputs = patterned(entry, &lent);
    damage::apply(entry, &damages(entry, change), &mut lent, &mut outputs);
    let outcome = expected(entry, &lent, &outputs);
    let mut contents = outcome.contents(entry, &outputs);
    makers::canonical(&mut contents);
    match &outcome {
        Outcome::Accepted(_) => "accepted".to_string() + &words(entry, &contents),
        Outcome::Refused(refusal) => {
            let left = match refusal.place {
                _ if entry.outputs().iter().any(|&part| entry.lends(part)) => {
                    words(entry, &contents)
                }
                Place::Shape | Place::Mesh => ", untouched".to_string(),
                Place::Arithmetic => ", cleared".to_string(),
            };
            format!("refused {} at {}{left}", refusal.number, refusal.index)
        }
    }
}

fn words(entry: Entry, outputs: &Slices) -> String {
    let mut text = String::new();
    for &part in entry.outputs() {
        text.push(',');
        for word in outputs.slice(part).words() {
            let _ = write!(text, " {word:016x}");
        }
    }
    text
}

/// What every entry accepts.
fn base() -> Lent {
    let geometry = GEOMETRY.concat();
    let mut lent = Lent::of(
        COUNTS,
        RECORDS,
        Slices {
            geometry,
            ..Slices::default()
        },
    );
    for (part, row) in ROWS {
        let due = lent.due(part).expect("a small slice");
        match lent.slices.slice_mut(part) {
            SliceMut::Whole(numbers) => numbers.extend(&WHOLE[row..].concat()[..due]),
            SliceMut::Float(numbers) => numbers.extend(&FLOAT[row..].concat()[..due]),
        }
    }
    lent
}

fn damages(entry: Entry, change: &Change) -> Vec<Damage> {
    match *change {
        Nothing => Vec::new(),
        Dimension(n) => vec![Damage::Count(Count::Dimension, n)],
        Records(n) => vec![
            Damage::Count(Count::Records, n),
            Damage::Output(Equations, 2 * n),
            Damage::Output(Weights, 4 * n),
        ],
        Length(part, n) if entry.lends(part) => vec![Damage::Input(part, n)],
        Length(part, n) => vec![Damage::Output(part, n)],
        Number(part, n) => vec![Damage::Number(part, n)],
        Whole(part, at, n) => vec![Damage::Whole(part, at, n)],
        Float(part, at, x) => damage::refilled(vec![Damage::Float(part, at, x)]),
    }
}
