//! Steps over linked faces, with the answers of the original Rust as they stand in `crates/pairs/stdout`.

mod common;

use common::{answer, face, step_words, stored};
use juvandeer::{
    Cell, CellField, Condition, Conditions, Dimension, Face, FaceField, Mesh, Refusal, Step,
    StepInput, Vec3, VectorField,
};
use Condition::{Absent, FixedValue, ZeroGradient};

/// The case of the program, with the names and numbers of `oracle/src/pairs.rs`: two cells, which faces 0 and 8
/// join, one from each side; face 1 has a fixed value; faces 2 and 3 are linked, and faces 4 and 5, of which the
/// lower is cell 1's, with a zero gradient, and the higher cell 0's, with a fixed value; face 6 has a fixed value,
/// face 7 a zero gradient.
struct Base {
    faces: Vec<Face>,
    cells: Vec<Cell>,
    conditions: Vec<Condition>,
    links: Vec<(usize, usize, Vec3)>,
    velocity: Vec<Vec3>,
    pressure: Vec<f64>,
    responses: Vec<f64>,
    walls: Vec<f64>,
    correction: Vec<f64>,
    /// The wall fluxes are those of another mesh.
    strange_walls: bool,
}

#[rustfmt::skip]
fn base() -> Base {
    Base {
        faces: vec![
            face(0, Some(1), [[1.0, 0.375, 0.25], [1.1, 0.25, 0.125], [1.0, 0.0, 0.0]]),
            face(1, None, [[1.9, 0.3, -1.2], [0.1, 0.0, -1.2], [0.0, 0.0, -1.0]]),
            face(0, None, [[-0.5, 0.5, 0.25], [-1.1, -0.3, -0.25], [-1.0, 0.0, 0.0]]),
            face(1, None, [[2.5, 0.25, 0.0], [1.1, 0.3, 0.25], [1.0, 0.0, 0.0]]),
            face(1, None, [[1.6, -0.75, -0.1], [0.1, -1.0, 0.2], [0.0, -1.0, 0.0]]),
            face(0, None, [[0.5, 1.25, 0.3], [0.0, 0.9, -0.3], [0.0, 1.0, 0.0]]),
            face(0, None, [[0.5, -0.2, 0.4], [0.1, -1.0, 0.2], [0.0, -1.0, 0.0]]),
            face(1, None, [[1.5, 1.0, -0.375], [-0.2, 0.9, 0.3], [0.0, 1.0, 0.0]]),
            face(1, Some(0), [[1.0, 0.2, -0.3], [-0.4, 0.3, -0.7], [0.0, 0.0, -1.0]]),
        ],
        cells: vec![
            Cell { center: [0.25, 0.5, 0.125], volume: 1.7 },
            Cell { center: [1.75, 0.25, -0.25], volume: 0.7 },
        ],
        conditions: vec![
            Absent, FixedValue(2.0), Absent, Absent, ZeroGradient, FixedValue(5.0), FixedValue(4.0), ZeroGradient,
            Absent,
        ],
        links: vec![(2, 3, [3.125, -0.125, 0.5]), (4, 5, [-1.125, 2.0, 0.375])],
        velocity: vec![[1.0, 0.5, 0.1], [3.0, -0.3, 0.2]],
        pressure: vec![1.1, -0.7],
        responses: vec![0.7, 0.25],
        walls: vec![0.3, 0.2, 2.0, -2.0, 0.5, 0.1, -0.6, 0.3, 0.7],
        correction: vec![1.0, 3.0],
        strange_walls: false,
    }
}

impl Base {
    fn step(&self) -> Result<Step, Refusal> {
        let mesh = Mesh::from_faces(Dimension::Three, &self.faces, &self.cells).unwrap();
        let other = Mesh::from_faces(Dimension::Three, &self.faces, &self.cells).unwrap();
        let mut conditions = Conditions::new(&mesh, &self.conditions);
        for &(face, peer, translation) in &self.links {
            conditions.link(face, peer, translation).unwrap();
        }
        let walls = if self.strange_walls { &other } else { &mesh };
        mesh.step(StepInput {
            conditions: &conditions,
            velocity: &VectorField::new(&mesh, &self.velocity),
            pressure: &CellField::new(&mesh, self.pressure.clone()),
            responses: &CellField::new(&mesh, self.responses.clone()),
            walls: &FaceField::new(walls, self.walls.clone()),
            correction: &CellField::new(&mesh, self.correction.clone()),
        })
    }

    /// Faces 2 and 3 look along x, faces 4 and 5 along y. With cell 0 so fast and so large an area the flux of a
    /// linked face is not finite.
    fn endless(&mut self, faces: &[usize]) {
        for &face in faces {
            let axis = face / 2 - 1;
            self.velocity[0][axis] = 1.0e10;
            let area = &mut self.faces[face].area_vector[axis];
            *area = 1.0e300_f64.copysign(*area);
        }
    }

    /// Without a gradient.
    fn even(&mut self, velocity: f64) {
        self.pressure = vec![0.0; 2];
        self.conditions[1] = FixedValue(0.0);
        self.conditions[6] = FixedValue(0.0);
        self.velocity = vec![[velocity; 3]; 2];
    }
}

/// Changes the base by the name of a case; none where no mesh and no conditions of the bindings can be so.
fn changed(case: &str) -> Option<Base> {
    let mut b = base();
    let (before, rest) = match case.split_once(" endless, ") {
        Some((faces, rest)) => (faces, rest),
        None => ("", case),
    };
    match before {
        "" => {}
        "face 2" => b.endless(&[2]),
        _ => panic!("{before} is not known"),
    }
    match rest {
        "as it stands" => {}
        "wall flux of face 2 a NaN" => b.walls[2] = f64::NAN,
        "wall flux of face 3 a NaN" => b.walls[3] = f64::NAN,
        "wall flux of face 2 infinite" => b.walls[2] = f64::INFINITY,
        "wall flux of face 3 -infinite" => b.walls[3] = f64::NEG_INFINITY,
        "wall flux of face 4 1.7e308, of face 5 1.7e308" => b.walls[4..6].fill(1.7e308),
        "wall flux of face 8 a NaN" => b.walls[8] = f64::NAN,
        "wall flux of face 6 a NaN" => b.walls[6] = f64::NAN,
        "wall flux of face 7 a NaN" => b.walls[7] = f64::NAN,
        "face 2 endless" => b.endless(&[2]),
        "face 3 endless" => b.endless(&[3]),
        "faces 2 and 3 endless" => b.endless(&[2, 3]),
        "face 4 endless" => b.endless(&[4]),
        "face 5 endless" => b.endless(&[5]),
        "faces 4 and 5 endless" => b.endless(&[4, 5]),
        "faces 2 and 4 endless" => b.endless(&[2, 4]),
        "faces 3 and 4 endless" => b.endless(&[3, 4]),
        "prediction of face 3 a NaN" => {
            b.endless(&[3]);
            b.velocity[0][1] = 1.0e10;
            b.faces[3].area_vector[1] = -1.0e299;
        }
        "area of face 2 -1e150" => b.faces[2].area_vector[0] = -1.0e150,
        "area of face 3 1e150" => b.faces[3].area_vector[0] = 1.0e150,
        "walls of another mesh" => b.strange_walls = true,
        "walls one short" => b.walls.truncate(8),
        // 3 stays linked with 2, and 5 is left behind
        "link of face 4 to face 3" => b.links.extend([(4, 3, [0.0; 3]), (2, 3, [0.0; 3])]),
        "no condition at face 1" => b.conditions[1] = Absent,
        "area of face 8 1e300" => b.faces[8].area_vector[0] = -1.0e300,
        "area of face 6 0" => b.faces[6].area_vector = [0.0; 3],
        "area of face 3 the other way" => b.faces[3].area_vector[0] = -1.1,
        "correction without end at face 0" => b.correction = vec![-1.7e308, 1.7e308],
        "correction without end at face 0, face 3 endless" => {
            b.correction = vec![-1.7e308, 1.7e308];
            b.endless(&[3]);
        }
        "volume of cell 1 0" => b.cells[1].volume = 0.0,
        "volume of cell 1 0, face 5 endless" => {
            b.cells[1].volume = 0.0;
            b.endless(&[5]);
        }
        "responses equal" => b.responses = vec![0.7; 2],
        "responses 0.5" => b.responses = vec![0.5; 2],
        "responses 0.5, wall fluxes of faces 2 and 3 NaNs" => {
            b.responses = vec![0.5; 2];
            b.walls[2..4].fill(f64::NAN);
        }
        "fixed value a NaN at face 2" => b.conditions[2] = FixedValue(f64::NAN),
        "zero gradient at face 3" => b.conditions[3] = ZeroGradient,
        "no condition at faces 4 and 5" => b.conditions[4..6].fill(Absent),
        "links gone, distances made anew" => {
            b.links.clear();
            b.conditions[2..4].fill(ZeroGradient);
        }
        "velocities 0, pressures and fixed values 0" => b.even(0.0),
        "velocities -0, pressures and fixed values 0" => b.even(-0.0),
        _ if BEYOND.contains(&case) => return None,
        _ => panic!("the case `{case}` is not known"),
    }
    Some(b)
}

/// What no mesh and no conditions of the bindings have: a chain without one of the cell's faces, and a way back that
/// is not the way.
const BEYOND: [&str; 5] = [
    "face 1 in no chain",
    "face 1 in no chain, no condition there",
    "face 1 in no chain, no condition there, face 3 endless",
    "translation of face 3 a little off",
    "faces 2 and 5, 3 and 4 linked, distances made anew",
];

/// Every line: as the bindings give it, or of a case that they cannot make. Of what is accepted the higher of two
/// linked faces has the lower's predicted flux negated.
#[test]
fn every_line_is_the_stored_one() {
    let lines = stored("pairs");
    let (mut beyond, mut accepted, mut refused) = (Vec::new(), 0, 0);
    for line in lines.lines() {
        let (name, told) = line.split_once(": ").unwrap();
        let case = name.strip_prefix("step, ").unwrap();
        let Some(base) = changed(case) else {
            beyond.push(case);
            continue;
        };
        match (base.step(), answer(told)) {
            (Ok(step), Ok(expected)) => {
                assert_eq!(step_words(&step), expected, "{case}");
                for &(lower, higher, _) in &base.links {
                    let [lower, higher] = [lower, higher].map(|face| step.predicted.values()[face]);
                    assert_eq!(higher.to_bits(), (-lower).to_bits(), "{case}");
                }
                accepted += 1;
            }
            (found, expected) => {
                assert_eq!(found.unwrap_err(), expected.unwrap_err(), "{case}");
                refused += 1;
            }
        }
    }
    assert_eq!(beyond, BEYOND);
    assert!(accepted >= 15 && refused >= 20, "{accepted}, {refused}");
}
