//! The cases of the program `pairs`: steps at the edges of the prediction of linked faces. The tables here are those of
//! `crates/pairs/src`, in the same order and by the same names. The answers are the model's and the Rust's.

use crate::calls::{Outcome, Place};
use crate::compare::{expected, patterned};
use crate::damage::{self, Damage};
use crate::entry::{Entry, Part, Part::*};
use crate::lent::{Counts, Lent, Slices, FACE_WIDTH};
use crate::lines::words;
use crate::makers;
use std::fmt::Write;
use Change::{Code, Float, Length, Number, Record, Refilled};

const COUNTS: Counts = Counts {
    mesh: 7,
    dimension: 3,
    cells: 2,
    faces: 9,
    face_records: 11,
    neighbour_records: 2,
};

/// One more than the stencil has.
const RECORDS: usize = 11;

/// Two cells, which faces 0 and 8 join, one from each side. Face 1, of cell 1, has a fixed value. Faces 2 and 3 are
/// linked, and faces 4 and 5, of which the lower is cell 1's, with zero gradient, and the higher cell 0's, with a fixed
/// value. Face 6, of cell 0, has a fixed value, face 7, of cell 1, zero gradient.
const ADJACENCY: [usize; 18] = [0, 2, 1, 0, 0, 0, 1, 0, 1, 0, 0, 0, 0, 0, 1, 0, 1, 1];
const HEADS: [usize; 4] = [1, 1, 6, 2];
#[rustfmt::skip]
const FACING: [usize; 22] = [0, 2, 2, 3, 5, 4, 6, 5, 8, 0, 0, 7, 1, 8, 3, 9, 4, 10, 7, 11, 8, 0];
const BORDERING: [usize; 4] = [1, 0, 0, 0];
const CODES: [usize; 18] = [0, 0, 1, 0, 0, 4, 0, 3, 2, 6, 1, 5, 1, 0, 2, 0, 0, 0];

/// In the places of the distances stands what none is.
#[rustfmt::skip]
const GEOMETRY: [[f64; FACE_WIDTH]; 9] = [
    [1.0, 0.375, 0.25, 1.1, 0.25, 0.125, 1.0, 0.0, 0.0, -1.0, -1.0],
    [1.9, 0.3, -1.2, 0.1, 0.0, -1.2, 0.0, 0.0, -1.0, -1.0, -1.0],
    [-0.5, 0.5, 0.25, -1.1, -0.3, -0.25, -1.0, 0.0, 0.0, -1.0, -1.0],
    [2.5, 0.25, 0.0, 1.1, 0.3, 0.25, 1.0, 0.0, 0.0, -1.0, -1.0],
    [1.6, -0.75, -0.1, 0.1, -1.0, 0.2, 0.0, -1.0, 0.0, -1.0, -1.0],
    [0.5, 1.25, 0.3, 0.0, 0.9, -0.3, 0.0, 1.0, 0.0, -1.0, -1.0],
    [0.5, -0.2, 0.4, 0.1, -1.0, 0.2, 0.0, -1.0, 0.0, -1.0, -1.0],
    [1.5, 1.0, -0.375, -0.2, 0.9, 0.3, 0.0, 1.0, 0.0, -1.0, -1.0],
    [1.0, 0.2, -0.3, -0.4, 0.3, -0.7, 0.0, 0.0, -1.0, -1.0, -1.0],
];
const PLACES: [f64; 8] = [0.25, 0.5, 0.125, 1.7, 1.75, 0.25, -0.25, 0.7];

/// No linked face is as far from the image before it as its peer is from its owner.
#[rustfmt::skip]
const VALUES: [[f64; 4]; 9] = [
    [0.0, 0.0, 0.0, 0.0],
    [2.0, 0.0, 0.0, 0.0],
    [0.0, 3.125, -0.125, 0.5],
    [0.0, -3.125, 0.125, -0.5],
    [0.0, -1.125, 2.0, 0.375],
    [5.0, 1.125, -2.0, -0.375],
    [4.0, 0.0, 0.0, 0.0],
    [0.0, 0.0, 0.0, 0.0],
    [0.0, 0.0, 0.0, 0.0],
];
const VELOCITY: [f64; 6] = [1.0, 0.5, 0.1, 3.0, -0.3, 0.2];
const PRESSURE: [f64; 2] = [1.1, -0.7];
const RESPONSES: [f64; 2] = [0.7, 0.25];
const WALLS: [f64; 9] = [0.3, 0.2, 2.0, -2.0, 0.5, 0.1, -0.6, 0.3, 0.7];
const CORRECTION: [f64; 2] = [1.0, 3.0];

/// What a case changes in the mesh with the distances that belong to it.
#[derive(Clone, Copy)]
enum Change {
    /// The length of the wall fluxes.
    Length(usize),
    /// The mesh number beside the wall fluxes.
    Number(u64),
    /// One of the codes, and one number of the face records.
    Code(usize, usize),
    Record(usize, usize),
    /// One number of a slice.
    Float(Part, usize, f64),
    /// The distances of every face made anew.
    Refilled,
}

/// A velocity of cell 0 with which a linked face of a huge area is endless: the flux that is predicted there is not
/// finite.
const FAST: Change = Float(Velocity, 0, 1.0e10);
const FAST_Y: Change = Float(Velocity, 1, 1.0e10);
const ENDLESS_2: Change = Float(Geometry, 25, -1.0e300);
const ENDLESS_3: Change = Float(Geometry, 36, 1.0e300);
const ENDLESS_4: Change = Float(Geometry, 48, -1.0e300);
const ENDLESS_5: Change = Float(Geometry, 59, 1.0e300);

/// Face 1 in no chain.
const APART: Change = Record(11, 8);

/// The correction of cell 0 with which the flux of face 0 is not finite, where that of cell 1 is as large the other way.
const LOW: Change = Float(Correction, 0, -1.7e308);
const HIGH: Change = Float(Correction, 1, 1.7e308);

/// Pressures and fixed values with which no gradient is other than 0.
const EVEN_0: Change = Float(Pressure, 0, 0.0);
const EVEN_1: Change = Float(Pressure, 1, 0.0);
const EVEN_2: Change = Float(Values, 4, 0.0);
const EVEN_3: Change = Float(Values, 24, 0.0);

type Case = (&'static str, &'static [Change]);

#[rustfmt::skip]
const CASES: &[Case] = &[
    ("as it stands", &[]),
    // wall fluxes
    ("wall flux of face 2 a NaN", &[Float(Walls, 2, f64::NAN)]),
    ("wall flux of face 3 a NaN", &[Float(Walls, 3, f64::NAN)]),
    ("wall flux of face 2 infinite", &[Float(Walls, 2, f64::INFINITY)]),
    ("wall flux of face 3 -infinite", &[Float(Walls, 3, f64::NEG_INFINITY)]),
    ("wall flux of face 4 1.7e308, of face 5 1.7e308", &[Float(Walls, 4, 1.7e308), Float(Walls, 5, 1.7e308)]),
    ("wall flux of face 8 a NaN", &[Float(Walls, 8, f64::NAN)]),
    ("wall flux of face 6 a NaN", &[Float(Walls, 6, f64::NAN)]),
    ("wall flux of face 7 a NaN", &[Float(Walls, 7, f64::NAN)]),
    // predictions that are not finite
    ("face 2 endless", &[FAST, ENDLESS_2]),
    ("face 3 endless", &[FAST, ENDLESS_3]),
    ("faces 2 and 3 endless", &[FAST, ENDLESS_2, ENDLESS_3]),
    ("face 4 endless", &[FAST_Y, ENDLESS_4]),
    ("face 5 endless", &[FAST_Y, ENDLESS_5]),
    ("faces 4 and 5 endless", &[FAST_Y, ENDLESS_4, ENDLESS_5]),
    ("faces 2 and 4 endless", &[FAST, FAST_Y, ENDLESS_2, ENDLESS_4]),
    ("faces 3 and 4 endless", &[FAST, FAST_Y, ENDLESS_3, ENDLESS_4]),
    ("prediction of face 3 a NaN", &[FAST, FAST_Y, ENDLESS_3, Float(Geometry, 37, -1.0e299)]),
    ("area of face 2 -1e150", &[Float(Geometry, 25, -1.0e150)]),
    ("area of face 3 1e150", &[Float(Geometry, 36, 1.0e150)]),
    // what comes before 9 of a linked face
    ("face 2 endless, walls of another mesh", &[FAST, ENDLESS_2, Number(8)]),
    ("face 2 endless, walls one short", &[FAST, ENDLESS_2, Length(8)]),
    ("face 2 endless, link of face 4 to face 3", &[FAST, ENDLESS_2, Code(9, 4)]),
    ("face 2 endless, no condition at face 1", &[FAST, ENDLESS_2, Code(2, 0)]),
    ("face 2 endless, area of face 8 1e300", &[FAST, ENDLESS_2, Float(Geometry, 91, -1.0e300)]),
    ("face 2 endless, area of face 6 0", &[
        FAST, ENDLESS_2, Float(Geometry, 69, 0.0), Float(Geometry, 70, 0.0), Float(Geometry, 71, 0.0),
    ]),
    ("face 2 endless, area of face 3 the other way", &[FAST, ENDLESS_2, Float(Geometry, 36, -1.1)]),
    // what comes after it
    ("face 1 in no chain", &[APART]),
    ("face 1 in no chain, no condition there", &[APART, Code(2, 0)]),
    ("face 1 in no chain, no condition there, face 3 endless", &[APART, Code(2, 0), FAST, ENDLESS_3]),
    ("correction without end at face 0", &[LOW, HIGH]),
    ("correction without end at face 0, face 3 endless", &[LOW, HIGH, FAST, ENDLESS_3]),
    ("volume of cell 1 0", &[Float(Places, 7, 0.0)]),
    ("volume of cell 1 0, face 5 endless", &[Float(Places, 7, 0.0), FAST_Y, ENDLESS_5]),
    // coefficients, conditions, links
    ("responses equal", &[Float(Responses, 1, 0.7)]),
    ("responses 0.5", &[Float(Responses, 0, 0.5), Float(Responses, 1, 0.5)]),
    ("responses 0.5, wall fluxes of faces 2 and 3 NaNs", &[
        Float(Responses, 0, 0.5), Float(Responses, 1, 0.5), Float(Walls, 2, f64::NAN), Float(Walls, 3, f64::NAN),
    ]),
    ("fixed value a NaN at face 2", &[Code(4, 1), Float(Values, 8, f64::NAN)]),
    ("zero gradient at face 3", &[Code(6, 2)]),
    ("no condition at faces 4 and 5", &[Code(8, 0), Code(10, 0)]),
    ("translation of face 3 a little off", &[Float(Values, 13, -2.75)]),
    ("faces 2 and 5, 3 and 4 linked, distances made anew", &[
        Code(5, 6), Code(11, 3), Code(7, 5), Code(9, 4), Refilled,
    ]),
    ("links gone, distances made anew", &[
        Code(5, 0), Code(7, 0), Code(9, 0), Code(11, 0), Code(4, 2), Code(6, 2), Refilled,
    ]),
    // predictions that are zeros
    ("velocities 0, pressures and fixed values 0", &[
        EVEN_0, EVEN_1, EVEN_2, EVEN_3, Float(Velocity, 0, 0.0), Float(Velocity, 1, 0.0), Float(Velocity, 2, 0.0),
        Float(Velocity, 3, 0.0), Float(Velocity, 4, 0.0), Float(Velocity, 5, 0.0),
    ]),
    ("velocities -0, pressures and fixed values 0", &[
        EVEN_0, EVEN_1, EVEN_2, EVEN_3, Float(Velocity, 0, -0.0), Float(Velocity, 1, -0.0), Float(Velocity, 2, -0.0),
        Float(Velocity, 3, -0.0), Float(Velocity, 4, -0.0), Float(Velocity, 5, -0.0),
    ]),
];

/// The lines of the program.
pub fn text() -> String {
    let mut text = String::new();
    let made = made();
    for (name, changes) in CASES {
        let _ = writeln!(text, "step, {name}: {}", result(&made, changes));
    }
    text
}

/// The mesh with the distances that belong to it.
fn made() -> Lent {
    let slices = Slices {
        adjacency: ADJACENCY.to_vec(),
        geometry: GEOMETRY.concat(),
        heads: HEADS.to_vec(),
        places: PLACES.to_vec(),
        facing: FACING.to_vec(),
        bordering: BORDERING.to_vec(),
        codes: CODES.to_vec(),
        values: VALUES.concat(),
        velocity: VELOCITY.to_vec(),
        pressure: PRESSURE.to_vec(),
        responses: RESPONSES.to_vec(),
        walls: WALLS.to_vec(),
        correction: CORRECTION.to_vec(),
        ..Slices::default()
    };
    let mut lent = Lent::of(COUNTS, RECORDS, slices);
    damage::apply(
        Entry::Step,
        &[Damage::Refilled],
        &mut lent,
        &mut Slices::default(),
    );
    lent
}

/// The answer of a step, and its outputs or what a refusal leaves in them.
fn result(made: &Lent, changes: &[Change]) -> String {
    let mut lent = made.clone();
    let mut outputs = patterned(Entry::Step, &lent);
    let damages: Vec<Damage> = changes.iter().map(|change| change.damage()).collect();
    damage::apply(Entry::Step, &damages, &mut lent, &mut outputs);
    match expected(Entry::Step, &lent, &outputs) {
        Outcome::Accepted(mut handed) => {
            makers::canonical(&mut handed);
            let parts = Entry::Step.outputs().iter();
            let words = parts.map(|&part| format!(",{}", words(&handed.slice(part).words())));
            format!("accepted{}", words.collect::<String>())
        }
        Outcome::Refused(refusal) => {
            let left = match refusal.place {
                Place::Shape | Place::Mesh => "untouched",
                Place::Arithmetic => "cleared",
            };
            format!("refused {} at {}, {left}", refusal.number, refusal.index)
        }
    }
}

impl Change {
    fn damage(self) -> Damage {
        match self {
            Length(n) => Damage::Input(Walls, n),
            Number(n) => Damage::Number(Walls, n),
            Code(at, n) => Damage::Whole(Codes, at, n),
            Record(at, n) => Damage::Whole(Facing, at, n),
            Float(part, at, x) => Damage::Float(part, at, x),
            Refilled => Damage::Refilled,
        }
    }
}
