//! The cases of the program `gradients`: the gradients of Gauss, each accepted one handed out as records too. The tables
//! here are those of `crates/gradients/src`, in the same order and by the same names. The answers are the model's and the
//! Rust's.

use crate::calls::Outcome;
use crate::compare::{expected, patterned, PATTERN};
use crate::damage::{self, Count, Damage};
use crate::entry::{Entry, Part, Part::*};
use crate::lent::{Counts, Lent, Slices, FACE_WIDTH};
use crate::lines::{told, words};
use crate::makers;
use std::fmt::Write;
use Change::{Dimension, FaceRecords, Faces, Flipped, Float, Length, Number, Refilled, Whole};

const COUNTS: Counts = Counts {
    mesh: 7,
    dimension: 3,
    cells: 2,
    faces: 7,
    face_records: 9,
    neighbour_records: 2,
};

/// Two cells, which faces 0 and 6 join, one from each side; faces 1 and 2, one of each, are linked, and face 1 has a
/// fixed value besides; face 3, of cell 0, has a fixed value, face 4, of cell 1, zero gradient, and face 5, of cell 0, no
/// condition.
const ADJACENCY: [usize; 14] = [0, 2, 0, 0, 1, 0, 0, 0, 1, 0, 0, 0, 1, 1];
const CODES: [usize; 14] = [0, 0, 1, 3, 0, 2, 1, 0, 2, 0, 0, 0, 0, 0];

/// In the places of the distances stands what none is.
#[rustfmt::skip]
const GEOMETRY: [[f64; FACE_WIDTH]; 7] = [
    [1.0, 0.375, 0.25, 1.1, 0.25, 0.125, 1.0, 0.0, 0.0, -1.0, -1.0],
    [-0.5, 0.5, 0.25, -1.1, 0.3, 0.0, -1.0, 0.0, 0.0, -1.0, -1.0],
    [2.5, 0.25, 0.0, 1.1, -0.3, 0.0, 1.0, 0.0, 0.0, -1.0, -1.0],
    [0.5, -0.2, 0.4, 0.1, -1.0, 0.2, 0.0, -1.0, 0.0, -1.0, -1.0],
    [1.5, 1.0, -0.375, -0.2, 0.9, 0.3, 0.0, 1.0, 0.0, -1.0, -1.0],
    [0.25, 0.6, 1.0, 0.0, 0.1, 1.3, 0.0, 0.0, 1.0, -1.0, -1.0],
    [1.0, 0.2, -0.3, -0.4, 0.3, -0.7, 0.0, 0.0, -1.0, -1.0, -1.0],
];
const PLACES: [f64; 8] = [0.25, 0.5, 0.125, 1.7, 1.75, 0.25, -0.25, 0.7];

/// The translations of the links are a little off: face 1 is 1.3287682265918313 from the image of cell 1.
#[rustfmt::skip]
const VALUES: [[f64; 4]; 7] = [
    [0.0, 0.0, 0.0, 0.0],
    [5.0, 3.125, -0.25, 0.5],
    [0.0, -3.125, 0.25, -0.5],
    [4.0, 0.0, 0.0, 0.0],
    [0.0, 0.0, 0.0, 0.0],
    [0.0, 0.0, 0.0, 0.0],
    [0.0, 0.0, 0.0, 0.0],
];
const PRESSURE: [f64; 2] = [1.1, -0.7];
const FACE_VALUES: [f64; 7] = [0.3, -1.1, 0.7, 2.0, -0.4, 0.9, 1.3];

/// What a case changes in the mesh with the distances that belong to it.
#[derive(Clone, Copy)]
enum Change {
    Dimension(usize),
    /// The number of face records that is counted.
    FaceRecords(usize),
    /// The length of a slice, lent or handed out.
    Length(Part, usize),
    /// The mesh number beside a slice.
    Number(Part, u64),
    /// One number of a slice.
    Whole(Part, usize, usize),
    Float(Part, usize, f64),
    /// The lowest bit of a number of the geometry.
    Flipped(usize),
    /// The distances of every face made anew.
    Refilled,
    /// So many faces more, like face 3.
    Faces(usize),
}

type Case = (&'static str, &'static [Change]);

/// Of each entry.
const ALL: &[Case] = &[
    ("as it stands", &[]),
    ("volume of cell 0 a NaN", &[Float(Places, 3, f64::NAN)]),
    (
        "volume of cell 1 infinite",
        &[Float(Places, 7, f64::INFINITY)],
    ),
    ("volume of cell 1 2^-1074", &[Float(Places, 7, 5.0e-324)]),
    (
        "volume of cell 0 -infinite",
        &[Float(Places, 3, f64::NEG_INFINITY)],
    ),
    ("volume of cell 0 0", &[Float(Places, 3, 0.0)]),
    ("volume of cell 1 -0", &[Float(Places, 7, -0.0)]),
    ("volume of cell 1 -1", &[Float(Places, 7, -1.0)]),
    ("volume of cell 1 -2^-1074", &[Float(Places, 7, -5.0e-324)]),
    (
        "volume of cell 0 0, of cell 1 -1",
        &[Float(Places, 3, 0.0), Float(Places, 7, -1.0)],
    ),
    (
        "volume of cell 0 a NaN, of cell 1 0",
        &[Float(Places, 3, f64::NAN), Float(Places, 7, 0.0)],
    ),
    (
        "volume of cell 0 0, owner's of face 0 one bit off",
        &[Float(Places, 3, 0.0), Flipped(9)],
    ),
    (
        "volume of cell 0 0, 27 faces of cell 0",
        &[Float(Places, 3, 0.0), Faces(22)],
    ),
    ("owner's of face 3 one bit off", &[Flipped(42)]),
    ("other of face 1 one bit off", &[Flipped(21)]),
    ("other of face 3 -0", &[Float(Geometry, 43, -0.0)]),
    ("dimension 4", &[Dimension(4)]),
    ("adjacency one short", &[Length(Adjacency, 13)]),
    ("geometry one long", &[Length(Geometry, 78)]),
    ("places one short", &[Length(Places, 7)]),
    ("output one short", &[Length(Gradient, 5)]),
    ("owner of face 3 missing", &[Whole(Adjacency, 6, 2)]),
    (
        "area of face 0 infinite",
        &[Float(Geometry, 3, f64::INFINITY)],
    ),
];

/// Of values of the faces.
const OF_FACES: &[Case] = &[
    ("65536 face records counted", &[FaceRecords(65536)]),
    ("values one short", &[Length(FaceValues, 6)]),
    ("values of another mesh", &[Number(FaceValues, 8)]),
    (
        "values of another mesh, volume of cell 0 0",
        &[Number(FaceValues, 8), Float(Places, 3, 0.0)],
    ),
    ("value of face 0 a NaN", &[Float(FaceValues, 0, f64::NAN)]),
    (
        "value of face 3 infinite",
        &[Float(FaceValues, 3, f64::INFINITY)],
    ),
    (
        "value of face 0 1.7e308, of face 3 -1.7e308",
        &[
            Float(FaceValues, 0, 1.7e308),
            Float(FaceValues, 3, -1.7e308),
        ],
    ),
    (
        "values of cell 0's faces -0",
        &[
            Float(FaceValues, 0, -0.0),
            Float(FaceValues, 1, -0.0),
            Float(FaceValues, 3, -0.0),
            Float(FaceValues, 5, -0.0),
            Float(FaceValues, 6, -0.0),
        ],
    ),
];

/// Of a pressure, with conditions and without.
const OF_PRESSURE: &[Case] = &[
    ("pressure one short", &[Length(Pressure, 1)]),
    ("pressure of another mesh", &[Number(Pressure, 8)]),
    (
        "pressure of another mesh, volume of cell 1 0",
        &[Number(Pressure, 8), Float(Places, 7, 0.0)],
    ),
    (
        "pressures -0",
        &[Float(Pressure, 0, -0.0), Float(Pressure, 1, -0.0)],
    ),
    ("pressure of cell 0 a NaN", &[Float(Pressure, 0, f64::NAN)]),
    (
        "pressure of cell 1 infinite",
        &[Float(Pressure, 1, f64::INFINITY)],
    ),
    (
        "centre of face 0 its owner's",
        &[
            Float(Geometry, 0, 0.25),
            Float(Geometry, 1, 0.5),
            Float(Geometry, 2, 0.125),
            Refilled,
        ],
    ),
    (
        "centres of face 0 and of both cells in one place",
        &[
            Float(Geometry, 0, 0.25),
            Float(Geometry, 1, 0.5),
            Float(Geometry, 2, 0.125),
            Float(Places, 4, 0.25),
            Float(Places, 5, 0.5),
            Float(Places, 6, 0.125),
            Refilled,
        ],
    ),
    (
        "centre of face 0 1e-170 from that of both cells",
        &[
            Float(Geometry, 0, 1.0e-170),
            Float(Geometry, 1, 0.5),
            Float(Geometry, 2, 0.125),
            Float(Places, 0, 0.0),
            Float(Places, 4, 0.0),
            Float(Places, 5, 0.5),
            Float(Places, 6, 0.125),
            Refilled,
        ],
    ),
    (
        "centre of cell 1 at 1e300",
        &[Float(Places, 4, 1.0e300), Refilled],
    ),
];

/// Of a pressure with conditions.
const OF_CONDITIONS: &[Case] = &[
    ("code 0 at linked face 1", &[Whole(Codes, 2, 0)]),
    ("code 2 at linked face 1", &[Whole(Codes, 2, 2)]),
    ("code 1 at face 0", &[Whole(Codes, 0, 1)]),
    ("no condition at face 3", &[Whole(Codes, 6, 0)]),
    ("zero gradient at face 3", &[Whole(Codes, 6, 2)]),
    ("fixed value a NaN", &[Float(Values, 12, f64::NAN)]),
    (
        "links gone, distances made anew",
        &[Whole(Codes, 3, 0), Whole(Codes, 5, 0), Refilled],
    ),
    (
        "faces 4 and 5 linked, distances made anew",
        &[Whole(Codes, 9, 6), Whole(Codes, 11, 5), Refilled],
    ),
    (
        "no translation of face 1",
        &[
            Float(Values, 5, 0.0),
            Float(Values, 6, 0.0),
            Float(Values, 7, 0.0),
        ],
    ),
    (
        "centre of face 1 that of the image",
        &[
            Float(Geometry, 11, -1.375),
            Float(Geometry, 13, -0.75),
            Refilled,
        ],
    ),
    (
        "centres of face 1 and of its owner that of the image",
        &[
            Float(Geometry, 11, -1.375),
            Float(Geometry, 13, -0.75),
            Float(Places, 0, -1.375),
            Float(Places, 2, -0.75),
            Refilled,
        ],
    ),
    ("codes one short", &[Length(Codes, 13)]),
    ("condition values one long", &[Length(Values, 29)]),
    ("conditions of another mesh", &[Number(Codes, 8)]),
    (
        "conditions of another mesh, volume of cell 0 0",
        &[Number(Codes, 8), Float(Places, 3, 0.0)],
    ),
    ("code 3 at face 4", &[Whole(Codes, 8, 3)]),
    ("link of face 4 to face 3", &[Whole(Codes, 9, 4)]),
    (
        "link of face 4 to face 3, volume of cell 0 0",
        &[Whole(Codes, 9, 4), Float(Places, 3, 0.0)],
    ),
];

/// Numbers that are handed out, and how many records there are for them.
const HANDED: &[(&str, &[f64], usize)] = &[
    (
        "two records",
        &[f64::NAN, -0.0, 5.0e-324, f64::INFINITY, -1.0, 1.7e308],
        2,
    ),
    ("one record too few", &[1.0, 2.0, 3.0, 4.0, 5.0, 6.0], 1),
    ("one record too many", &[1.0, 2.0, 3.0, 4.0, 5.0, 6.0], 3),
    ("one number too few", &[1.0, 2.0, 3.0, 4.0, 5.0], 2),
    ("nothing", &[], 0),
];

/// The lines of the program.
pub fn text() -> String {
    let mut text = String::new();
    let made = made();
    let of_pressure = [
        Entry::PressureCouplingGradient,
        Entry::PressureCouplingGradientWithoutConditions,
    ];
    let all: Vec<Entry> = Entry::of_gauss().collect();
    let tables = [
        (&all[..], ALL),
        (&[Entry::GaussGradientFromFaces], OF_FACES),
        (&of_pressure, OF_PRESSURE),
        (&[Entry::PressureCouplingGradient], OF_CONDITIONS),
    ];
    for (entries, cases) in tables {
        for &entry in entries {
            for (name, changes) in cases {
                let name = format!("{}, {name}", entry.name());
                add_case(&mut text, &name, entry, &made, changes);
            }
        }
    }
    for &(name, numbers, records) in HANDED {
        let handed = handed_out(numbers, records);
        let _ = writeln!(text, "hand_out, {name}: {handed}");
    }
    text
}

/// The mesh with the distances that belong to it.
fn made() -> Lent {
    let slices = Slices {
        adjacency: ADJACENCY.to_vec(),
        geometry: GEOMETRY.concat(),
        places: PLACES.to_vec(),
        codes: CODES.to_vec(),
        values: VALUES.concat(),
        pressure: PRESSURE.to_vec(),
        face_values: FACE_VALUES.to_vec(),
        ..Slices::default()
    };
    let mut lent = Lent::of(COUNTS, 0, slices);
    let entry = Entry::FaceDistances;
    damage::apply(
        entry,
        &[Damage::Refilled],
        &mut lent,
        &mut Slices::default(),
    );
    lent
}

/// The line of a call; and where it is accepted, that of its gradient as records.
fn add_case(text: &mut String, name: &str, entry: Entry, made: &Lent, changes: &[Change]) {
    let mut lent = made.clone();
    let mut outputs = patterned(entry, &lent);
    let damages: Vec<Damage> = changes.iter().map(|change| change.damage()).collect();
    damage::apply(entry, &damages, &mut lent, &mut outputs);
    let outcome = expected(entry, &lent, &outputs);
    let _ = writeln!(text, "{name}: {}", told(entry, &outcome, &outputs));
    if let Outcome::Accepted(handed) = outcome {
        let records = handed_out(&handed.gradient, lent.counts.cells);
        let _ = writeln!(text, "{name}, as records: {records}");
    }
}

/// The answer where so many records are lent for these numbers, and what the records hold, one after another.
fn handed_out(numbers: &[f64], records: usize) -> String {
    let mut out = vec![f64::from_bits(PATTERN); 3 * records];
    let is_right = numbers.len() == out.len();
    if is_right {
        out.copy_from_slice(numbers);
    }
    let mut held = Slices {
        gradient: out,
        ..Slices::default()
    };
    makers::canonical(&mut held);
    let words = words(&held.slice(Gradient).words());
    match is_right {
        true => format!("accepted,{words}"),
        false => format!("refused 2 at 0,{words}"),
    }
}

impl Change {
    fn damage(self) -> Damage {
        match self {
            Dimension(n) => Damage::Count(Count::Dimension, n),
            FaceRecords(n) => Damage::Count(Count::FaceRecords, n),
            Length(Gradient, n) => Damage::Output(Gradient, n),
            Length(part, n) => Damage::Input(part, n),
            Number(part, n) => Damage::Number(part, n),
            Whole(part, at, n) => Damage::Whole(part, at, n),
            Float(part, at, x) => Damage::Float(part, at, x),
            Flipped(at) => Damage::Flipped(at),
            Refilled => Damage::Refilled,
            Faces(count) => Damage::Faces {
                count,
                owner: 0,
                neighbour: 0,
                like: 3,
            },
        }
    }
}
