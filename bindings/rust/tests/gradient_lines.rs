//! The gradients by Gauss, with the answers of the original Rust as they stand in `crates/gradients/stdout`.

mod common;

use common::{answer, face, stored};
use juvandeer::{
    Cell, CellField, Condition, Conditions, Dimension, Face, FaceField, Mesh, Refusal, Vec3,
    VectorField,
};
use Condition::{Absent, FixedValue, ZeroGradient};

/// The case of the program, with the names and numbers of `oracle/src/gradients.rs`: two cells, which faces 0 and
/// 6 join, one from each side; faces 1 and 2 are linked, and face 1 has a fixed value besides; face 3 has a fixed
/// value, face 4 a zero gradient, and face 5 no condition.
struct Base {
    faces: Vec<Face>,
    cells: Vec<Cell>,
    conditions: Vec<Condition>,
    links: Vec<(usize, usize, Vec3)>,
    pressure: Vec<f64>,
    values: Vec<f64>,
    /// The fields, or the conditions, are those of another mesh.
    strange_fields: bool,
    strange_conditions: bool,
}

#[rustfmt::skip]
fn base() -> Base {
    Base {
        faces: vec![
            face(0, Some(1), [[1.0, 0.375, 0.25], [1.1, 0.25, 0.125], [1.0, 0.0, 0.0]]),
            face(0, None, [[-0.5, 0.5, 0.25], [-1.1, 0.3, 0.0], [-1.0, 0.0, 0.0]]),
            face(1, None, [[2.5, 0.25, 0.0], [1.1, -0.3, 0.0], [1.0, 0.0, 0.0]]),
            face(0, None, [[0.5, -0.2, 0.4], [0.1, -1.0, 0.2], [0.0, -1.0, 0.0]]),
            face(1, None, [[1.5, 1.0, -0.375], [-0.2, 0.9, 0.3], [0.0, 1.0, 0.0]]),
            face(0, None, [[0.25, 0.6, 1.0], [0.0, 0.1, 1.3], [0.0, 0.0, 1.0]]),
            face(1, Some(0), [[1.0, 0.2, -0.3], [-0.4, 0.3, -0.7], [0.0, 0.0, -1.0]]),
        ],
        cells: vec![
            Cell { center: [0.25, 0.5, 0.125], volume: 1.7 },
            Cell { center: [1.75, 0.25, -0.25], volume: 0.7 },
        ],
        conditions: vec![
            Absent, FixedValue(5.0), Absent, FixedValue(4.0), ZeroGradient, Absent, Absent,
        ],
        links: vec![(1, 2, [3.125, -0.25, 0.5])],
        pressure: vec![1.1, -0.7],
        values: vec![0.3, -1.1, 0.7, 2.0, -0.4, 0.9, 1.3],
        strange_fields: false,
        strange_conditions: false,
    }
}

impl Base {
    /// The bits of the gradient that an entry gives, by its vectors, or its refusal.
    fn call(&self, entry: &str) -> Result<Vec<[u64; 3]>, Refusal> {
        let mesh = Mesh::from_faces(Dimension::Three, &self.faces, &self.cells).unwrap();
        let other = Mesh::from_faces(Dimension::Three, &self.faces, &self.cells).unwrap();
        let of = |strange: bool| if strange { &other } else { &mesh };
        let mut conditions = Conditions::new(of(self.strange_conditions), &self.conditions);
        for &(face, peer, translation) in &self.links {
            conditions.link(face, peer, translation).unwrap();
        }
        let fields = of(self.strange_fields);
        let pressure = CellField::new(fields, self.pressure.clone());
        let gradient = match entry {
            "gauss_gradient_from_faces" => {
                mesh.gauss_gradient_from_faces(&FaceField::new(fields, self.values.clone()))
            }
            "pressure_coupling_gradient" => mesh.pressure_coupling_gradient(&conditions, &pressure),
            "pressure_coupling_gradient_without_conditions" => {
                mesh.pressure_coupling_gradient_without_conditions(&pressure)
            }
            _ => panic!("{entry} is not known"),
        };
        gradient.map(|gradient| bits(&gradient))
    }
}

/// With one pattern for every NaN, as the lines have it.
fn bits(gradient: &VectorField) -> Vec<[u64; 3]> {
    let pattern = |x: f64| match x.is_nan() {
        true => 0x7ff8_0000_0000_0000,
        false => x.to_bits(),
    };
    gradient.vectors().map(|v| v.map(pattern)).collect()
}

/// Changes the base by the name of a case; none where no mesh, conditions or field of the bindings can be so.
fn changed(case: &str) -> Option<Base> {
    let mut b = base();
    let volume = |b: &mut Base, cell: usize, volume: f64| b.cells[cell].volume = volume;
    match case {
        "as it stands" => {}
        "volume of cell 0 a NaN" => volume(&mut b, 0, f64::NAN),
        "volume of cell 1 infinite" => volume(&mut b, 1, f64::INFINITY),
        "volume of cell 1 2^-1074" => volume(&mut b, 1, 5.0e-324),
        "volume of cell 0 -infinite" => volume(&mut b, 0, f64::NEG_INFINITY),
        "volume of cell 0 0" => volume(&mut b, 0, 0.0),
        "volume of cell 1 -0" => volume(&mut b, 1, -0.0),
        "volume of cell 1 -1" => volume(&mut b, 1, -1.0),
        "volume of cell 1 -2^-1074" => volume(&mut b, 1, -5.0e-324),
        "volume of cell 0 0, of cell 1 -1" => {
            volume(&mut b, 0, 0.0);
            volume(&mut b, 1, -1.0);
        }
        "volume of cell 0 a NaN, of cell 1 0" => {
            volume(&mut b, 0, f64::NAN);
            volume(&mut b, 1, 0.0);
        }
        "volume of cell 0 0, 27 faces of cell 0" => {
            volume(&mut b, 0, 0.0);
            b.faces.extend(vec![b.faces[3]; 22]);
            b.conditions.extend(vec![b.conditions[3]; 22]);
            b.values.extend(vec![b.values[3]; 22]);
        }
        "area of face 0 infinite" => b.faces[0].area_vector[0] = f64::INFINITY,
        "values one short" => b.values.truncate(6),
        "values of another mesh" | "pressure of another mesh" => b.strange_fields = true,
        "values of another mesh, volume of cell 0 0" => {
            b.strange_fields = true;
            volume(&mut b, 0, 0.0);
        }
        "value of face 0 a NaN" => b.values[0] = f64::NAN,
        "value of face 3 infinite" => b.values[3] = f64::INFINITY,
        "value of face 0 1.7e308, of face 3 -1.7e308" => {
            b.values[0] = 1.7e308;
            b.values[3] = -1.7e308;
        }
        "values of cell 0's faces -0" => {
            [0, 1, 3, 5, 6].into_iter().for_each(|f| b.values[f] = -0.0)
        }
        "pressure one short" => b.pressure.truncate(1),
        "pressure of another mesh, volume of cell 1 0" => {
            b.strange_fields = true;
            volume(&mut b, 1, 0.0);
        }
        "pressures -0" => b.pressure = vec![-0.0; 2],
        "pressure of cell 0 a NaN" => b.pressure[0] = f64::NAN,
        "pressure of cell 1 infinite" => b.pressure[1] = f64::INFINITY,
        "centre of face 0 its owner's" => b.faces[0].center = b.cells[0].center,
        "centres of face 0 and of both cells in one place" => {
            b.faces[0].center = b.cells[0].center;
            b.cells[1].center = b.cells[0].center;
        }
        "centre of face 0 1e-170 from that of both cells" => {
            b.faces[0].center = [1.0e-170, 0.5, 0.125];
            b.cells[0].center = [0.0, 0.5, 0.125];
            b.cells[1].center = [0.0, 0.5, 0.125];
        }
        "centre of cell 1 at 1e300" => b.cells[1].center[0] = 1.0e300,
        "code 0 at linked face 1" => b.conditions[1] = Absent,
        "code 2 at linked face 1" => b.conditions[1] = ZeroGradient,
        "code 1 at face 0" => b.conditions[0] = FixedValue(0.0),
        "no condition at face 3" => b.conditions[3] = Absent,
        "zero gradient at face 3" => b.conditions[3] = ZeroGradient,
        "fixed value a NaN" => b.conditions[3] = FixedValue(f64::NAN),
        "links gone, distances made anew" => b.links.clear(),
        "faces 4 and 5 linked, distances made anew" => b.links.push((4, 5, [0.0; 3])),
        "centre of face 1 that of the image" => b.faces[1].center = [-1.375, 0.5, -0.75],
        "centres of face 1 and of its owner that of the image" => {
            b.faces[1].center = [-1.375, 0.5, -0.75];
            b.cells[0].center = [-1.375, 0.5, -0.75];
        }
        // 4 was linked with 3 and is left behind
        "link of face 4 to face 3" => b.links.extend([(4, 3, [0.0; 3]), (3, 5, [0.0; 3])]),
        "link of face 4 to face 3, volume of cell 0 0" => {
            b.links.extend([(4, 3, [0.0; 3]), (3, 5, [0.0; 3])]);
            volume(&mut b, 0, 0.0);
        }
        "conditions of another mesh" => b.strange_conditions = true,
        "conditions of another mesh, volume of cell 0 0" => {
            b.strange_conditions = true;
            volume(&mut b, 0, 0.0);
        }
        _ if BEYOND.contains(&case) => return None,
        _ => panic!("the case `{case}` is not known"),
    }
    Some(b)
}

/// What no mesh and no conditions of the bindings have: other lengths, counts, cells and codes, distances that are
/// not those of the geometry, and a way back that is not the way.
const BEYOND: [&str; 15] = [
    "volume of cell 0 0, owner's of face 0 one bit off",
    "owner's of face 3 one bit off",
    "other of face 1 one bit off",
    "other of face 3 -0",
    "dimension 4",
    "adjacency one short",
    "geometry one long",
    "places one short",
    "output one short",
    "owner of face 3 missing",
    "65536 face records counted",
    "no translation of face 1",
    "codes one short",
    "condition values one long",
    "code 3 at face 4",
];

/// Every line: as the bindings give it, or of a case that they cannot make. The gradients of `as records` are
/// those of the bindings' vectors; `hand_out` lends numbers that are no field.
#[test]
fn every_line_is_the_stored_one() {
    let lines = stored("gradients");
    let mut beyond = Vec::new();
    let mut accepted = Vec::new();
    let mut refused = Vec::new();
    for line in lines.lines().filter(|line| !line.starts_with("hand_out, ")) {
        let (name, told) = line.split_once(": ").unwrap();
        let (entry, case) = name.split_once(", ").unwrap();
        let case = case.strip_suffix(", as records").unwrap_or(case);
        let Some(base) = changed(case) else {
            beyond.push(case);
            continue;
        };
        match (base.call(entry), answer(told)) {
            (Ok(gradient), Ok(expected)) => {
                assert_eq!(vec![gradient.concat()], expected, "{name}");
                accepted.push((entry, case));
            }
            (found, expected) => {
                assert_eq!(found.unwrap_err(), expected.unwrap_err(), "{name}");
                refused.push((entry, case));
            }
        }
    }
    for entry in [
        "gauss_gradient_from_faces",
        "pressure_coupling_gradient",
        "pressure_coupling_gradient_without_conditions",
    ] {
        assert!(accepted.contains(&(entry, "as it stands")), "{entry}");
        assert!(refused.contains(&(entry, "volume of cell 0 0")), "{entry}");
    }
    assert!(BEYOND.iter().all(|case| beyond.contains(case)));
}
