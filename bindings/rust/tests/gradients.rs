//! Gradients by Gauss, against values worked out by hand.

mod common;

use common::base;
use juvandeer::{
    Cell, CellField, Condition, Conditions, Dimension, Face, FaceField, Mesh, Refusal, Vec3,
    VectorField,
};

fn vectors(gradient: Result<VectorField, Refusal>) -> Vec<Vec3> {
    gradient.unwrap().vectors().collect()
}

fn bits(gradient: Result<VectorField, Refusal>) -> Vec<u64> {
    let gradient = gradient.unwrap();
    gradient.values().iter().map(|x| x.to_bits()).collect()
}

fn refused(gradient: Result<VectorField, Refusal>) -> (u64, usize) {
    let refusal = gradient.unwrap_err();
    (refusal.kind.number(), refusal.index)
}

/// The unit squares, with the pressure 2x at their centres.
fn squares() -> (Mesh, CellField) {
    let mesh = base().mesh();
    let pressure = CellField::new(&mesh, vec![1.0, 3.0]);
    (mesh, pressure)
}

/// Two unit cubes side by side, in the order of the faces of the squares, then below and above along z.
fn cubes() -> Mesh {
    let face = |owner, neighbour, center: Vec3, normal: Vec3| Face {
        owner,
        neighbour,
        center,
        area_vector: normal,
        normal,
    };
    let mut faces = vec![
        face(0, Some(1), [1.0, 0.5, 0.5], [1.0, 0.0, 0.0]),
        face(0, None, [0.0, 0.5, 0.5], [-1.0, 0.0, 0.0]),
        face(1, None, [2.0, 0.5, 0.5], [1.0, 0.0, 0.0]),
    ];
    for (cell, x) in [(0, 0.5), (1, 1.5)] {
        faces.push(face(cell, None, [x, 0.0, 0.5], [0.0, -1.0, 0.0]));
        faces.push(face(cell, None, [x, 1.0, 0.5], [0.0, 1.0, 0.0]));
        faces.push(face(cell, None, [x, 0.5, 0.0], [0.0, 0.0, -1.0]));
        faces.push(face(cell, None, [x, 0.5, 1.0], [0.0, 0.0, 1.0]));
    }
    let cells = [0.5, 1.5].map(|x| Cell {
        center: [x, 0.5, 0.5],
        volume: 1.0,
    });
    Mesh::from_faces(Dimension::Three, &faces, &cells).unwrap()
}

/// A field at the centres of the faces, and at those of the cells.
fn sampled(mesh: &Mesh, at: impl Fn(Vec3) -> f64) -> (FaceField, CellField) {
    let faces = (0..mesh.face_count()).map(|face| at(mesh.face(face).unwrap().center));
    let cells = (0..mesh.cell_count()).map(|cell| at(mesh.cell(cell).unwrap().center));
    (
        FaceField::new(mesh, faces.collect()),
        CellField::new(mesh, cells.collect()),
    )
}

/// Fixed values at all faces with one cell.
fn fixed(mesh: &Mesh, values: &FaceField) -> Conditions {
    let values = values.values().iter().copied().map(Condition::FixedValue);
    Conditions::new(mesh, &values.collect::<Vec<_>>())
}

/// Half of the slope is lost at a wall that takes its cell's pressure, and none where the pressure is fixed.
#[test]
fn a_linear_pressure_on_unit_squares() {
    let (mesh, pressure) = squares();
    let half = [[1.0, 0.0, 0.0]; 2];
    let without = mesh.pressure_coupling_gradient_without_conditions(&pressure);
    assert_eq!(vectors(without), half);
    let mut conditions = Conditions::uniform(&mesh, Condition::ZeroGradient);
    let closed = mesh.pressure_coupling_gradient(&conditions, &pressure);
    assert_eq!(vectors(closed), half);
    conditions.set(1, Condition::FixedValue(0.0)).unwrap();
    conditions.set(2, Condition::FixedValue(4.0)).unwrap();
    let open = mesh.pressure_coupling_gradient(&conditions, &pressure);
    assert_eq!(vectors(open), [[2.0, 0.0, 0.0]; 2]);
    let values = FaceField::new(&mesh, vec![2.0, 0.0, 4.0, 1.0, 1.0, 3.0, 3.0]);
    let from_faces = mesh.gauss_gradient_from_faces(&values);
    assert_eq!(vectors(from_faces), [[2.0, 0.0, 0.0]; 2]);
}

#[test]
fn a_linear_pressure_on_unit_cubes() {
    let mesh = cubes();
    let (values, pressure) = sampled(&mesh, |[x, y, z]| 2.0 * x - 3.0 * y + 5.0 * z + 1.0);
    let slope = [[2.0, -3.0, 5.0]; 2];
    assert_eq!(vectors(mesh.gauss_gradient_from_faces(&values)), slope);
    let conditions = fixed(&mesh, &values);
    let coupling = mesh.pressure_coupling_gradient(&conditions, &pressure);
    assert_eq!(vectors(coupling), slope);
    // the walls along y and z take the cell's pressure on either side
    let without = mesh.pressure_coupling_gradient_without_conditions(&pressure);
    assert_eq!(vectors(without), [[1.0, 0.0, 0.0]; 2]);
}

/// Two by two parallelograms of volume 252, whose half sides are (3, 4) and (-12, 5): all distances are 5 or 13.
#[test]
fn a_linear_field_on_oblique_cells() {
    let points: Vec<Vec3> = (0..9)
        .map(|at| (f64::from(at % 3), f64::from(at / 3)))
        .map(|(i, j)| [6.0 * i - 24.0 * j, 8.0 * i + 10.0 * j, 0.0])
        .collect();
    let edges = [
        [1, 4],
        [4, 3],
        [5, 4],
        [4, 7],
        [0, 1],
        [1, 2],
        [2, 5],
        [5, 8],
        [8, 7],
        [7, 6],
        [6, 3],
        [3, 0],
    ];
    let edges = edges.map(Vec::from);
    let owners = [0, 0, 1, 2, 0, 1, 1, 3, 3, 2, 2, 0];
    let mesh = Mesh::from_points(Dimension::Two, &points, &edges, &owners, &[1, 2, 3, 3]).unwrap();
    assert!((0..4).all(|cell| mesh.cell(cell).unwrap().volume == 252.0));
    let (values, pressure) = sampled(&mesh, |[x, y, _]| 2.0 * x - 5.0 * y + 7.0);
    let slope = [[2.0, -5.0, 0.0]; 4];
    assert_eq!(vectors(mesh.gauss_gradient_from_faces(&values)), slope);
    let conditions = fixed(&mesh, &values);
    let coupling = mesh.pressure_coupling_gradient(&conditions, &pressure);
    assert_eq!(vectors(coupling), slope);
}

/// A square of side 1 and a rectangle of sides 3 and 1 in a row, 0 to 4 along x. The outer edges are linked over
/// a way of 6, so that an image is 2 further away than the cell would be that follows without a gap.
fn linked() -> (Mesh, Conditions, CellField) {
    let mut row = base();
    row.cells[1] = Cell {
        center: [2.5, 0.5, 0.0],
        volume: 3.0,
    };
    row.faces[2].center[0] = 4.0;
    for face in 5..7 {
        row.faces[face].center[0] = 2.5;
        row.faces[face].area_vector[1] *= 3.0;
    }
    let mesh = row.mesh();
    let conditions = Conditions::uniform(&mesh, Condition::FixedValue(100.0));
    let pressure = CellField::new(&mesh, vec![8.0, 16.0]);
    (mesh, conditions, pressure)
}

#[test]
fn a_link_goes_before_a_fixed_value() {
    let (mesh, mut conditions, pressure) = linked();
    for face in 3..7 {
        conditions.set(face, Condition::ZeroGradient).unwrap();
    }
    // 10 = (1.5 · 8 + 0.5 · 16) / 2 between the cells, 100 at the outer edges
    let unlinked = mesh.pressure_coupling_gradient(&conditions, &pressure);
    assert_eq!(vectors(unlinked), [[-90.0, 0.0, 0.0], [30.0, 0.0, 0.0]]);
    // 9 = (3.5 · 8 + 0.5 · 16) / 4 at face 1, and 13 = (2.5 · 16 + 1.5 · 8) / 4 at face 2
    conditions.link(1, 2, [6.0, 0.0, 0.0]).unwrap();
    let gradient = mesh.pressure_coupling_gradient(&conditions, &pressure);
    assert_eq!(vectors(gradient), [[1.0, 0.0, 0.0]; 2]);
    // over a way without a gap 10 stands at all three edges
    conditions.link(1, 2, [4.0, 0.0, 0.0]).unwrap();
    let gradient = mesh.pressure_coupling_gradient(&conditions, &pressure);
    assert_eq!(vectors(gradient), [[0.0; 3]; 2]);
}

#[test]
fn an_absent_condition_is_no_refusal() {
    let (row, _, uneven) = linked();
    let (mesh, pressure) = squares();
    for (mesh, pressure) in [(&mesh, &pressure), (&row, &uneven)] {
        let without = bits(mesh.pressure_coupling_gradient_without_conditions(pressure));
        let absent = mesh.pressure_coupling_gradient(&Conditions::absent(mesh), pressure);
        assert_eq!(bits(absent), without);
    }
    // beside others: 0 at face 1, 3 at face 2
    let mut conditions = Conditions::absent(&mesh);
    conditions.set(1, Condition::FixedValue(0.0)).unwrap();
    let gradient = mesh.pressure_coupling_gradient(&conditions, &pressure);
    assert_eq!(vectors(gradient), [[2.0, 0.0, 0.0], [1.0, 0.0, 0.0]]);
}

#[test]
fn a_condition_between_two_cells_has_no_effect() {
    let (mesh, pressure) = squares();
    let mut conditions = Conditions::absent(&mesh);
    conditions.set(0, Condition::FixedValue(77.0)).unwrap();
    let gradient = mesh.pressure_coupling_gradient(&conditions, &pressure);
    assert_eq!(vectors(gradient), [[1.0, 0.0, 0.0]; 2]);
}

/// What the three calls give on the squares with these volumes, lent the pressure 2x or its values at the faces.
fn with_volumes(volumes: [f64; 2]) -> [Result<VectorField, Refusal>; 3] {
    let mut squares = base();
    for (cell, volume) in squares.cells.iter_mut().zip(volumes) {
        cell.volume = volume;
    }
    let mesh = squares.mesh();
    let pressure = CellField::new(&mesh, vec![1.0, 3.0]);
    let values = FaceField::new(&mesh, vec![2.0, 1.0, 3.0, 1.0, 1.0, 3.0, 3.0]);
    let conditions = Conditions::uniform(&mesh, Condition::ZeroGradient);
    [
        mesh.gauss_gradient_from_faces(&values),
        mesh.pressure_coupling_gradient(&conditions, &pressure),
        mesh.pressure_coupling_gradient_without_conditions(&pressure),
    ]
}

#[test]
fn a_volume_at_most_0_12() {
    for bad in [
        0.0,
        -0.0,
        -1.0,
        -f64::from_bits(1),
        f64::MIN,
        f64::NEG_INFINITY,
    ] {
        for (volumes, cell) in [
            ([1.0, bad], 1),
            ([bad, 1.0], 0),
            ([bad, -1.0], 0),
            ([f64::NAN, bad], 1),
        ] {
            for gradient in with_volumes(volumes) {
                assert_eq!(refused(gradient), (12, cell), "{volumes:?}");
            }
        }
    }
}

#[test]
fn other_volumes_are_divided_by() {
    let x = |volume: f64| with_volumes([2.0, volume]).map(vectors);
    let first = [0.5, 0.0, 0.0];
    assert_eq!(x(4.0), [(); 3].map(|()| vec![first, [0.25, 0.0, 0.0]]));
    // 1 over 2^-1074
    let large = [f64::INFINITY, 0.0, 0.0];
    assert_eq!(x(f64::from_bits(1)), [(); 3].map(|()| vec![first, large]));
    assert_eq!(x(f64::INFINITY), [(); 3].map(|()| vec![first, [0.0; 3]]));
    for gradient in x(f64::NAN) {
        assert_eq!(gradient[0], first);
        assert!(gradient[1].iter().all(|x| x.is_nan()));
    }
}

/// Of the reciprocal of 49 the product with 49 is less than 1.
#[test]
fn a_sum_is_divided_and_not_multiplied() {
    assert_ne!(49.0 * (1.0 / 49.0), 1.0);
    let (mesh, values) = one_cell(&[49.0], 49.0);
    assert_eq!(vectors(mesh.gauss_gradient_from_faces(&values)), [[1.0; 3]]);
}

/// One cell with a face of area (1, 1, 1) for each value.
fn one_cell(values: &[f64], volume: f64) -> (Mesh, FaceField) {
    let face = Face {
        owner: 0,
        neighbour: None,
        center: [1.0, 0.0, 0.0],
        area_vector: [1.0; 3],
        normal: [1.0, 0.0, 0.0],
    };
    let cell = Cell {
        center: [0.0; 3],
        volume,
    };
    let faces = vec![face; values.len()];
    let mesh = Mesh::from_faces(Dimension::Three, &faces, &[cell]).unwrap();
    let values = FaceField::new(&mesh, values.to_vec());
    (mesh, values)
}

/// 1 is lost beside 2^53, which is taken away again; the order of a cell's own faces makes no difference.
#[test]
fn sums_are_in_face_order() {
    let large = 2f64.powi(53);
    for (values, sum) in [([1.0, large, -large], 0.0), ([large, -large, 1.0], 1.0)] {
        let (mesh, field) = one_cell(&values, 1.0);
        assert_eq!(vectors(mesh.gauss_gradient_from_faces(&field)), [[sum; 3]]);
        let turned = mesh.with_face_order(&[vec![2, 1, 0]]).unwrap();
        let field = FaceField::new(&turned, values.to_vec());
        assert_eq!(
            vectors(turned.gauss_gradient_from_faces(&field)),
            [[sum; 3]]
        );
    }
}

/// An infinity at a face, and distances that add up to 0, are no refusal.
#[test]
fn what_is_not_finite_is_accepted() {
    let (mesh, pressure) = squares();
    let mut values = FaceField::uniform(&mesh, 0.0);
    values.values_mut()[2] = f64::INFINITY;
    let gradient = vectors(mesh.gauss_gradient_from_faces(&values));
    assert_eq!(gradient[0], [0.0; 3]);
    assert_eq!(gradient[1][0], f64::INFINITY);
    // 0 · inf
    assert!(gradient[1][1].is_nan() && gradient[1][2].is_nan());
    let fixed = fixed(&mesh, &values);
    let gradient = vectors(mesh.pressure_coupling_gradient(&fixed, &pressure));
    assert_eq!(gradient[1][0], f64::INFINITY);

    let mut near = base();
    near.cells[0].center = near.faces[0].center;
    near.cells[1].center = near.faces[0].center;
    let mesh = near.mesh();
    let pressure = CellField::new(&mesh, vec![1.0, 3.0]);
    let conditions = Conditions::uniform(&mesh, Condition::ZeroGradient);
    for gradient in [
        mesh.pressure_coupling_gradient(&conditions, &pressure),
        mesh.pressure_coupling_gradient_without_conditions(&pressure),
    ] {
        let gradient = gradient.unwrap();
        assert!(gradient.values().iter().all(|x| x.is_nan()));
    }
}

/// 12 comes after 3 and after the checks of the mesh.
#[test]
fn volumes_are_looked_at_last() {
    let mut hollow = base();
    hollow.cells[0].volume = 0.0;
    let made = hollow.made();
    let (mesh, pressure) = (&made.mesh, &made.pressure);
    let strange = base().made();
    let of =
        |conditions: &Conditions| refused(mesh.pressure_coupling_gradient(conditions, pressure));
    assert_eq!(of(&made.conditions), (12, 0));
    assert_eq!(of(&strange.conditions), (3, 0));
    let mut bad = made.conditions.clone();
    bad.link(4, 4, [0.0; 3]).unwrap();
    assert_eq!(of(&bad), (6, 4));
    assert_eq!(
        refused(mesh.gauss_gradient_from_faces(&strange.flux)),
        (3, 0)
    );
    let without = mesh.pressure_coupling_gradient_without_conditions(&strange.pressure);
    assert_eq!(refused(without), (3, 0));

    hollow.faces.extend(vec![hollow.faces[3]; 23]);
    let crowd = hollow.mesh();
    let values = FaceField::uniform(&crowd, 1.0);
    assert_eq!(refused(crowd.gauss_gradient_from_faces(&values)), (14, 0));
}

#[test]
fn vectors_are_handed_out_three_numbers_at_a_time() {
    let mesh = cubes();
    let (values, _) = sampled(&mesh, |[x, y, z]| x * (2.0 * x - 3.0 * y + 5.0 * z));
    let gradient = mesh.gauss_gradient_from_faces(&values).unwrap();
    // along x (2 - 1.5 + 2.5) - 0 and (8 - 3 + 5) - 3, along y -3x, along z 5x
    let expected = [[3.0, -1.5, 2.5], [7.0, -4.5, 7.5]];
    assert_eq!(gradient.number(), mesh.number());
    assert_eq!(gradient.vectors().collect::<Vec<_>>(), expected);
    assert_eq!(gradient.values(), expected.concat());
    for (cell, vector) in expected.into_iter().enumerate() {
        assert_eq!(gradient.vector(cell), Some(vector));
    }
    assert_eq!(gradient.vector(2), None);
}
