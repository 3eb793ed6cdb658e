//! The cases of the program `distances`: the distances of a mesh's faces made, and checked by `mesh::Mesh::check`
//! and by the coefficients without and with links. The tables here are those of `crates/distances/src`, in the same
//! order and by the same names. The answers are the model's and the Rust's.

use crate::checks;
use crate::compare::{expected, patterned};
use crate::damage::{self, Count, Damage};
use crate::entry::{Entry, Part, Part::*};
use crate::lent::{Counts, Lent, Slices, FACE_WIDTH};
use crate::lines::told;
use std::fmt::Write;
use Change::{
    Dimension, FaceRecords, Faces, Flipped, Float, Length, Number, Refilled, Responses, Whole,
};

const COUNTS: Counts = Counts {
    mesh: 7,
    dimension: 3,
    cells: 2,
    faces: 5,
    face_records: 6,
    neighbour_records: 2,
};

/// Two cells: face 0 joins them; faces 1 and 2, one of each, are linked; face 3, of cell 0, has a fixed value, and
/// face 4, of cell 1, zero gradient.
const ADJACENCY: [usize; 10] = [0, 2, 0, 0, 1, 0, 0, 0, 1, 0];
const HEADS: [usize; 4] = [1, 1, 4, 2];
const FACING: [usize; 12] = [0, 2, 1, 3, 3, 0, 0, 5, 2, 6, 4, 0];
const BORDERING: [usize; 4] = [1, 0, 0, 0];
const CODES: [usize; 10] = [0, 0, 0, 3, 0, 2, 1, 0, 2, 0];

/// In the places of the distances stands what none is.
#[rustfmt::skip]
const GEOMETRY: [[f64; FACE_WIDTH]; 5] = [
    [1.0, 0.375, 0.25, 1.0, 0.25, 0.125, 1.0, 0.0, 0.0, -1.0, -1.0],
    [-0.5, 0.5, 0.25, -1.0, 0.0, 0.0, -1.0, 0.0, 0.0, -1.0, -1.0],
    [2.5, 0.25, 0.0, 1.0, 0.0, 0.0, 1.0, 0.0, 0.0, -1.0, -1.0],
    [0.5, -0.2, 0.4, 0.0, -1.0, 0.0, 0.0, -1.0, 0.0, -1.0, -1.0],
    [1.5, 1.0, -0.375, 0.0, 1.0, 0.0, 0.0, 1.0, 0.0, -1.0, -1.0],
];
const PLACES: [f64; 8] = [0.25, 0.5, 0.125, 1.0, 1.75, 0.25, -0.25, 1.0];

/// The translations of the links are a little off: face 1 is 1.25 from the image of cell 1.
#[rustfmt::skip]
const VALUES: [[f64; 4]; 5] = [
    [0.0, 0.0, 0.0, 0.0],
    [0.0, 3.0, -0.25, 0.5],
    [0.0, -3.0, 0.25, -0.5],
    [4.0, 0.0, 0.0, 0.0],
    [0.0, 0.0, 0.0, 0.0],
];
const RESPONSES: [f64; 2] = [0.5, 0.25];

/// What a case changes.
#[derive(Clone, Copy)]
enum Change {
    Dimension(usize),
    /// The number of face records that is counted.
    FaceRecords(usize),
    /// The length of a slice.
    Length(Part, usize),
    /// The number of the conditions' mesh.
    Number(u64),
    /// One number of a slice.
    Whole(Part, usize, usize),
    Float(Part, usize, f64),
    /// The lowest bit of a number of the geometry.
    Flipped(usize),
    /// The distances of every face made anew.
    Refilled,
    /// So many faces more, like face 3.
    Faces(usize),
    /// The responses.
    Responses(f64, f64),
}

type Case = (&'static str, &'static [Change]);

/// Distances made in the mesh as it stands.
const MADE: &[Case] = &[
    ("as it stands", &[]),
    (
        "other numbers in their places",
        &[
            Float(Geometry, 9, 0.0),
            Float(Geometry, 10, 1.0),
            Float(Geometry, 20, f64::INFINITY),
            Float(Geometry, 21, f64::NAN),
            Float(Geometry, 43, -0.0),
            Float(Geometry, 54, 5.0e-324),
        ],
    ),
    ("no links", &[Whole(Codes, 3, 0), Whole(Codes, 5, 0)]),
    ("no neighbour at face 0", &[Whole(Adjacency, 1, 0)]),
    (
        "owners of faces 1 and 2 exchanged",
        &[Whole(Adjacency, 2, 1), Whole(Adjacency, 4, 0)],
    ),
    (
        "translations of another length",
        &[Float(Values, 5, 4.0), Float(Values, 9, 1.0)],
    ),
    ("centre of face 3 a NaN", &[Float(Geometry, 33, f64::NAN)]),
    ("centre of cell 1 a NaN", &[Float(Places, 6, f64::NAN)]),
    (
        "centre of face 2 infinite",
        &[Float(Geometry, 22, f64::INFINITY)],
    ),
    (
        "centres of cell 0 and face 3 infinite",
        &[
            Float(Places, 0, f64::INFINITY),
            Float(Geometry, 33, f64::INFINITY),
        ],
    ),
    ("centre of face 4 at 1e300", &[Float(Geometry, 44, 1.0e300)]),
    (
        "centre of face 3 its cell's",
        &[
            Float(Geometry, 33, 0.25),
            Float(Geometry, 34, 0.5),
            Float(Geometry, 35, 0.125),
        ],
    ),
    (
        "centre of face 3 5e-160 from its cell's",
        &[
            Float(Places, 0, 0.0),
            Float(Geometry, 33, 5.0e-160),
            Float(Geometry, 34, 0.5),
            Float(Geometry, 35, 0.125),
        ],
    ),
    (
        "centre of face 3 1e-170 from its cell's",
        &[
            Float(Places, 0, 0.0),
            Float(Geometry, 33, 1.0e-170),
            Float(Geometry, 34, 0.5),
            Float(Geometry, 35, 0.125),
        ],
    ),
    ("65535 face records counted", &[FaceRecords(65535)]),
    ("65536 face records counted", &[FaceRecords(65536)]),
    ("dimension 4", &[Dimension(4)]),
    ("adjacency one short", &[Length(Adjacency, 9)]),
    ("places one long", &[Length(Places, 9)]),
    ("codes one short", &[Length(Codes, 9)]),
    ("geometry one short", &[Length(Geometry, 54)]),
    ("geometry one long", &[Length(Geometry, 56)]),
    ("nine numbers a face", &[Length(Geometry, 45)]),
    ("conditions of another mesh", &[Number(8)]),
    ("owner of face 3 missing", &[Whole(Adjacency, 6, 2)]),
    ("neighbour of face 0 its owner", &[Whole(Adjacency, 1, 1)]),
    ("code 3 at face 4", &[Whole(Codes, 8, 3)]),
    ("27 faces of cell 0", &[Faces(24)]),
    ("link of face 4 to face 3", &[Whole(Codes, 9, 4)]),
    (
        "27 faces of cell 0, link of face 4 to face 3",
        &[Faces(24), Whole(Codes, 9, 4)],
    ),
];

/// Distances checked: the changes are those of the mesh with the distances that belong to it.
const CHECKED: &[Case] = &[
    ("as made", &[]),
    ("owner's of face 0 one bit off", &[Flipped(9)]),
    ("other of face 0 one bit off", &[Flipped(10)]),
    ("owner's of face 1 one bit off", &[Flipped(20)]),
    ("other of face 1 one bit off", &[Flipped(21)]),
    ("owner's of face 2 one bit off", &[Flipped(31)]),
    ("other of face 2 one bit off", &[Flipped(32)]),
    ("owner's of face 4 one bit off", &[Flipped(53)]),
    ("image distance at face 1", &[Float(Geometry, 21, 1.25)]),
    ("other of face 3 -0", &[Float(Geometry, 43, -0.0)]),
    ("other of face 3 2^-1074", &[Float(Geometry, 43, 5.0e-324)]),
    ("other of face 4 a NaN", &[Float(Geometry, 54, f64::NAN)]),
    ("owner's of face 3 0", &[Float(Geometry, 42, 0.0)]),
    ("owner's of face 3 a NaN", &[Float(Geometry, 42, f64::NAN)]),
    (
        "owner's of face 3 infinite",
        &[Float(Geometry, 42, f64::INFINITY)],
    ),
    (
        "centre of face 3 a NaN",
        &[Float(Geometry, 33, f64::NAN), Refilled],
    ),
    (
        "centre of face 3 a NaN, a NaN stored",
        &[
            Float(Geometry, 33, f64::NAN),
            Refilled,
            Float(Geometry, 42, f64::NAN),
        ],
    ),
    (
        "centre of face 3 a NaN, its negative stored",
        &[
            Float(Geometry, 33, f64::NAN),
            Refilled,
            Float(Geometry, 42, -f64::NAN),
        ],
    ),
    (
        "centre of face 3 a NaN, a number stored",
        &[
            Float(Geometry, 33, f64::NAN),
            Refilled,
            Float(Geometry, 42, 1.0),
        ],
    ),
    (
        "centre of face 3 a NaN, infinity stored",
        &[
            Float(Geometry, 33, f64::NAN),
            Refilled,
            Float(Geometry, 42, f64::INFINITY),
        ],
    ),
    (
        "centre of face 3 infinite",
        &[Float(Geometry, 33, f64::INFINITY), Refilled],
    ),
    (
        "centre of face 3 infinite, the largest number stored",
        &[
            Float(Geometry, 33, f64::INFINITY),
            Refilled,
            Float(Geometry, 42, f64::MAX),
        ],
    ),
    (
        "centre of face 3 infinite, -infinity stored",
        &[
            Float(Geometry, 33, f64::INFINITY),
            Refilled,
            Float(Geometry, 42, f64::NEG_INFINITY),
        ],
    ),
    (
        "centre of face 2 infinite",
        &[Float(Geometry, 22, f64::INFINITY), Refilled],
    ),
    (
        "centre of face 2 infinite, other of face 1 the largest number",
        &[
            Float(Geometry, 22, f64::INFINITY),
            Refilled,
            Float(Geometry, 21, f64::MAX),
        ],
    ),
    ("centre of face 3 one bit off", &[Flipped(33)]),
    ("centre of face 3 elsewhere", &[Float(Geometry, 33, 0.75)]),
    (
        "centre of face 3 elsewhere, distances made anew",
        &[Float(Geometry, 33, 0.75), Refilled],
    ),
    ("centre of cell 1 elsewhere", &[Float(Places, 4, 2.0)]),
    ("links gone", &[Whole(Codes, 3, 0), Whole(Codes, 5, 0)]),
    (
        "links gone, distances made anew",
        &[Whole(Codes, 3, 0), Whole(Codes, 5, 0), Refilled],
    ),
    (
        "faces 3 and 4 linked",
        &[Whole(Codes, 7, 5), Whole(Codes, 9, 4)],
    ),
    (
        "owner's of faces 4 and 2 one bit off",
        &[Flipped(53), Flipped(31)],
    ),
    (
        "owner's of face 4 and other of face 0 one bit off",
        &[Flipped(53), Flipped(10)],
    ),
    (
        "other of face 3 -0 and owner's of face 4 one bit off",
        &[Float(Geometry, 43, -0.0), Flipped(53)],
    ),
    (
        "owner's of face 0 one bit off, conditions of another mesh",
        &[Flipped(9), Number(8)],
    ),
    (
        "owner's of face 0 one bit off, code 3 at face 4",
        &[Flipped(9), Whole(Codes, 8, 3)],
    ),
    (
        "owner's of face 0 one bit off, first face of cell 1 missing",
        &[Flipped(9), Whole(Heads, 2, 7)],
    ),
    (
        "owner's of face 0 one bit off, 26 faces of cell 0",
        &[Flipped(9), Faces(23)],
    ),
    (
        "owner's of face 0 one bit off, 27 faces of cell 0",
        &[Flipped(9), Faces(24)],
    ),
    (
        "owner's of face 0 one bit off, link of face 4 to face 3",
        &[Flipped(9), Whole(Codes, 9, 4)],
    ),
    ("responses below 0", &[Responses(-0.5, -0.25)]),
    (
        "owner's of face 4 one bit off, responses below 0",
        &[Flipped(53), Responses(-0.5, -0.25)],
    ),
];

/// The lines of the program.
pub fn text() -> String {
    let mut text = String::new();
    for (name, changes) in MADE {
        let result = result(Entry::FaceDistances, &base(), changes);
        let _ = writeln!(text, "face_distances, {name}: {result}");
    }
    let mut made = base();
    Refilled.make(Entry::FaceDistances, &mut made, &mut Slices::default());
    for (name, changes) in CHECKED {
        let _ = writeln!(text, "check, {name}: {}", check(&made, changes));
    }
    for entry in [
        Entry::PressureFaceCoefficients,
        Entry::PressureFaceCoefficientsWithBoundary,
    ] {
        for (name, changes) in CHECKED {
            let result = result(entry, &made, changes);
            let _ = writeln!(text, "{}, {name}: {result}", entry.name());
        }
    }
    text
}

fn base() -> Lent {
    let slices = Slices {
        adjacency: ADJACENCY.to_vec(),
        geometry: GEOMETRY.concat(),
        heads: HEADS.to_vec(),
        places: PLACES.to_vec(),
        facing: FACING.to_vec(),
        bordering: BORDERING.to_vec(),
        codes: CODES.to_vec(),
        values: VALUES.concat(),
        responses: RESPONSES.to_vec(),
        ..Slices::default()
    };
    Lent::of(COUNTS, 0, slices)
}

impl Change {
    fn make(self, entry: Entry, lent: &mut Lent, outputs: &mut Slices) {
        let damages = match self {
            Dimension(n) => vec![Damage::Count(Count::Dimension, n)],
            FaceRecords(n) => vec![Damage::Count(Count::FaceRecords, n)],
            Length(part, n) => vec![Damage::Input(part, n)],
            Number(n) => vec![Damage::Number(Codes, n)],
            Whole(part, at, n) => vec![Damage::Whole(part, at, n)],
            Float(part, at, x) => vec![Damage::Float(part, at, x)],
            Flipped(at) => vec![Damage::Flipped(at)],
            Refilled => vec![Damage::Refilled],
            Faces(count) => vec![Damage::Faces {
                count,
                owner: 0,
                neighbour: 0,
                like: 3,
            }],
            Responses(first, second) => [first, second]
                .into_iter()
                .enumerate()
                .map(|(cell, x)| Damage::Float(Part::Responses, cell, x))
                .collect(),
        };
        damage::apply(entry, &damages, lent, outputs);
    }
}

/// The answer of `mesh::Mesh::check`, which makes the checks of the stencil.
fn check(lent: &Lent, changes: &[Change]) -> String {
    let entry = Entry::LeastSquaresStencil;
    let mut lent = lent.clone();
    let mut outputs = patterned(entry, &lent);
    for change in changes {
        change.make(entry, &mut lent, &mut outputs);
    }
    match checks::check(entry, &lent, &outputs) {
        Some(refusal) => format!("refused {} at {}", refusal.number, refusal.index),
        None => "accepted".to_string(),
    }
}

/// The answer, and what the output holds after the call, refused or not.
fn result(entry: Entry, lent: &Lent, changes: &[Change]) -> String {
    let mut lent = lent.clone();
    let mut outputs = patterned(entry, &lent);
    for change in changes {
        change.make(entry, &mut lent, &mut outputs);
    }
    told(entry, &expected(entry, &lent, &outputs), &outputs)
}
