//! The distances that are lent with each face, known by hand, and who keeps them.

mod common;

use common::base;
use juvandeer::{
    Cell, CellField, Condition, Conditions, Dimension, Face, FaceField, Mesh, Refusal, Vec3,
};

/// The roots of 2 and 3 as IEEE 754 rounds them.
const ROOT_2: f64 = f64::from_bits(0x3ff6a09e667f3bcd);
const ROOT_3: f64 = f64::from_bits(0x3ffbb67ae8584caa);

fn bits(values: &[f64]) -> Vec<u64> {
    values.iter().map(|x| x.to_bits()).collect()
}

/// Sees that the distances are these, asked for and lent.
fn check(mesh: &Mesh, conditions: &Conditions, own: &[f64], other: &[f64]) {
    let made = mesh.face_distances(conditions).unwrap();
    assert_eq!(bits(made.own.values()), bits(own));
    assert_eq!(bits(made.other.values()), bits(other));
    let lent = mesh.geometry_under(conditions);
    assert_eq!(lent.len(), 11 * mesh.face_count());
    let records = lent.chunks_exact(11).zip(mesh.geometry().chunks_exact(11));
    for (face, (lent, kept)) in records.enumerate() {
        assert_eq!(bits(&lent[9..]), bits(&[own[face], other[face]]), "{face}");
        assert_eq!(bits(&lent[..9]), bits(&kept[..9]), "{face}");
    }
}

fn face(owner: usize, neighbour: Option<usize>, center: Vec3) -> Face {
    Face {
        owner,
        neighbour,
        center,
        area_vector: [1.0, 2.0, 3.0],
        normal: [4.0, 5.0, 6.0],
    }
}

fn cell(center: Vec3) -> Cell {
    Cell {
        center,
        volume: 1.0,
    }
}

/// Faces at whole distances, and at roots of 2 and 3, from two cells.
fn scattered() -> Mesh {
    let faces = [
        face(0, Some(1), [3.0, 4.0, 0.0]),
        face(0, None, [-5.0, -12.0, 0.0]),
        // (2, 3, 6) from its cell
        face(1, None, [6.0, 8.0, 6.0]),
        face(0, None, [1.0, 1.0, 1.0]),
        face(1, None, [4.0, 5.0, 0.0]),
        face(1, Some(0), [4.0, 3.0, 0.0]),
        // (0, 0, -9) from its cell
        face(1, None, [4.0, 5.0, -9.0]),
    ];
    let cells = [cell([0.0; 3]), cell([4.0, 5.0, 0.0])];
    Mesh::from_faces(Dimension::Three, &faces, &cells).unwrap()
}

const SCATTERED: [f64; 7] = [5.0, 13.0, 7.0, ROOT_3, 0.0, 2.0, 9.0];

#[test]
fn without_links_there_is_no_other_side_but_the_neighbour() {
    let mesh = scattered();
    let other = [ROOT_2, 0.0, 0.0, 0.0, 0.0, 5.0, 0.0];
    let conditions = Conditions::uniform(&mesh, Condition::ZeroGradient);
    check(&mesh, &conditions, &SCATTERED, &other);
    check(&mesh, &Conditions::absent(&mesh), &SCATTERED, &other);
}

/// Whatever the translations are, and wherever the images of the cells.
#[test]
fn a_linked_face_has_its_peer_s_own_distance() {
    let mesh = scattered();
    let mut conditions = Conditions::absent(&mesh);
    conditions.link(1, 2, [1.0, 2.0, 3.0]).unwrap();
    let other = [ROOT_2, 7.0, 13.0, 0.0, 0.0, 5.0, 0.0];
    check(&mesh, &conditions, &SCATTERED, &other);
    // linked after they were lent
    conditions.link(4, 3, [7.0, 0.0, 0.0]).unwrap();
    let other = [ROOT_2, 7.0, 13.0, 0.0, ROOT_3, 5.0, 0.0];
    check(&mesh, &conditions, &SCATTERED, &other);
    // the mesh has none of this
    let other = [ROOT_2, 0.0, 0.0, 0.0, 0.0, 5.0, 0.0];
    check(&mesh, &Conditions::absent(&mesh), &SCATTERED, &other);
}

/// Two parallelograms side by side. Half a side is (3, 4), (1, 1) or (-12, 5).
#[test]
fn a_mesh_from_points_has_its_distances() {
    let points = [[0, 0], [6, 8], [8, 10], [-24, 10], [-18, 18], [-16, 20]];
    let points = points.map(|[x, y]: [i32; 2]| [f64::from(x), f64::from(y), 0.0]);
    let edges = [[1, 4], [3, 0], [2, 5], [0, 1], [4, 3], [1, 2], [5, 4]].map(Vec::from);
    let owners = [0, 0, 1, 0, 0, 1, 1];
    let mesh = Mesh::from_points(Dimension::Two, &points, &edges, &owners, &[1]).unwrap();
    let own = [5.0, 5.0, ROOT_2, 13.0, 13.0, 13.0, 13.0];
    let mut other = [ROOT_2, 0.0, 0.0, 0.0, 0.0, 0.0, 0.0];
    let mut conditions = Conditions::uniform(&mesh, Condition::FixedValue(0.0));
    check(&mesh, &conditions, &own, &other);
    conditions.link(1, 2, [8.0, 10.0, 0.0]).unwrap();
    other[1] = ROOT_2;
    other[2] = 5.0;
    check(&mesh, &conditions, &own, &other);
    assert!(mesh.least_squares_stencil(&conditions).is_ok());
    let responses = CellField::uniform(&mesh, 1.0);
    let coefficients = mesh.pressure_face_coefficients_with_boundary(&conditions, &responses);
    assert!(coefficients.is_ok());
}

#[test]
fn another_order_of_faces_keeps_the_distances() {
    let mesh = scattered();
    let order = vec![vec![5, 3, 1, 0], vec![6, 5, 4, 2, 0]];
    let ordered = mesh.clone().with_face_order(&order).unwrap();
    assert_eq!(bits(ordered.geometry()), bits(mesh.geometry()));
    let mut conditions = Conditions::absent(&ordered);
    conditions.link(1, 2, [0.0; 3]).unwrap();
    let other = [ROOT_2, 7.0, 13.0, 0.0, 0.0, 5.0, 0.0];
    check(&ordered, &conditions, &SCATTERED, &other);
}

/// A centre that is not finite, and one whose squares are not: the engine takes the mesh all the same.
#[test]
fn distances_need_not_be_finite() {
    let faces = [
        face(0, Some(1), [1.0, 0.0, 0.0]),
        face(0, None, [0.0, f64::NAN, 0.0]),
        face(0, None, [0.0, f64::NEG_INFINITY, 0.0]),
        face(1, None, [0.0, 0.0, 1.0e200]),
    ];
    let cells = [cell([0.0; 3]), cell([2.0, 0.0, 0.0])];
    let mesh = Mesh::from_faces(Dimension::Three, &faces, &cells).unwrap();
    let made = mesh.face_distances(&Conditions::absent(&mesh)).unwrap();
    assert_eq!(made.own.values()[0], 1.0);
    assert!(made.own.values()[1].is_nan());
    assert_eq!(made.own.values()[2..], [f64::INFINITY; 2]);
    assert_eq!(bits(made.other.values()), bits(&[1.0, 0.0, 0.0, 0.0]));
    let coefficients = mesh.pressure_face_coefficients(&CellField::uniform(&mesh, 1.0));
    assert!(coefficients.is_ok());
}

#[test]
fn what_is_lent_is_made_once() {
    let made = base().made();
    let (mesh, linked) = (&made.mesh, &made.conditions);
    let lent = mesh.geometry_under(linked).as_ptr();
    assert_ne!(lent, mesh.geometry().as_ptr());
    mesh.step(made.step_input()).unwrap();
    assert_eq!(mesh.geometry_under(linked).as_ptr(), lent);
    // what has been lent makes no other conditions
    assert_eq!(base().made_for(mesh.clone()).conditions, made.conditions);
    let alone = Conditions::uniform(mesh, Condition::ZeroGradient);
    assert!(std::ptr::eq(mesh.geometry_under(&alone), mesh.geometry()));
}

#[test]
fn linked_conditions_are_lent_from_several_threads() {
    let made = base().made();
    let step = || made.mesh.step(made.step_input()).unwrap();
    let steps = std::thread::scope(|scope| {
        let threads = [(); 4].map(|()| scope.spawn(step));
        threads.map(|thread| thread.join().unwrap())
    });
    assert!(steps.iter().all(|step| *step == steps[0]));
}

/// Conditions of another mesh are refused with 3, and their distances stay those of their own.
#[test]
fn conditions_of_another_mesh_keep_the_distances_of_their_own() {
    let mut larger = base();
    for face in &mut larger.faces {
        face.center = face.center.map(|x| 4.0 * x);
    }
    for cell in &mut larger.cells {
        cell.center = cell.center.map(|x| 4.0 * x);
    }
    let (a, b) = (base().made(), larger.made());
    let mismatch = Refusal::new(3, 0);
    for _ in 0..2 {
        for (mesh, own, conditions) in [
            (&a.mesh, &b.mesh, &b.conditions),
            (&b.mesh, &a.mesh, &a.conditions),
        ] {
            assert_eq!(mesh.face_distances(conditions).unwrap_err(), mismatch);
            let stencil = mesh.least_squares_stencil(conditions);
            assert_eq!(stencil.unwrap_err(), mismatch);
            assert!(own.least_squares_stencil(conditions).is_ok());
        }
    }
    let other = |half: f64| [half, half, half, 0.0, 0.0, 0.0, 0.0];
    check(&a.mesh, &a.conditions, &[0.5; 7], &other(0.5));
    check(&b.mesh, &b.conditions, &[2.0; 7], &other(2.0));
}

/// Where no distances are made the engine refuses the call by the check that they did not pass.
#[test]
fn without_distances_the_call_is_refused_as_before() {
    let made = base().made();
    let mesh = &made.mesh;
    let few = Conditions::new(mesh, &[Condition::ZeroGradient]);
    let mut few_linked = Conditions::new(mesh, &[Condition::ZeroGradient; 2]);
    few_linked.link(0, 1, [0.0; 3]).unwrap();
    let mut bad = made.conditions.clone();
    bad.link(3, 3, [0.0; 3]).unwrap();
    for (conditions, number, index) in [(&few, 2, 0), (&few_linked, 2, 0), (&bad, 6, 3)] {
        let refusal = Refusal::new(number, index);
        assert_eq!(mesh.face_distances(conditions).unwrap_err(), refusal);
        let stencil = mesh.least_squares_stencil(conditions);
        assert_eq!(stencil.unwrap_err(), refusal);
        let coefficients =
            mesh.pressure_face_coefficients_with_boundary(conditions, &made.responses);
        assert_eq!(coefficients.unwrap_err(), refusal);
        assert_eq!(bits(mesh.geometry_under(conditions)), bits(mesh.geometry()));
    }
    // linked well, they are made
    bad.link(3, 4, [0.0, 1.0, 0.0]).unwrap();
    let other = [0.5, 0.5, 0.5, 0.5, 0.5, 0.0, 0.0];
    check(mesh, &bad, &[0.5; 7], &other);
}

/// Meshes without a cell, with too many faces, and with too many of a cell.
#[test]
fn a_mesh_that_is_refused_is_built_without_distances() {
    let empty = Mesh::from_faces(Dimension::Three, &[], &[]).unwrap();
    let apart = face(0, None, [3.0, 4.0, 0.0]);
    let with = |count: usize| {
        Mesh::from_faces(Dimension::Three, &vec![apart; count], &[cell([0.0; 3])]).unwrap()
    };
    for (mesh, number) in [(&empty, 1), (&with(65_536), 1), (&with(27), 14)] {
        let conditions = Conditions::uniform(mesh, Condition::ZeroGradient);
        let refusal = Refusal::new(number, 0);
        assert_eq!(mesh.face_distances(&conditions).unwrap_err(), refusal);
        let responses = CellField::uniform(mesh, 1.0);
        let coefficients = mesh.pressure_face_coefficients(&responses);
        assert_eq!(coefficients.unwrap_err(), refusal);
        let stencil = mesh.least_squares_stencil_in(&conditions, 9);
        assert_eq!(stencil.unwrap_err(), refusal);
        let records = mesh.geometry().chunks_exact(11);
        assert!(records
            .flat_map(|face| &face[9..])
            .all(|x| x.to_bits() == 0));
    }
    let most = with(26);
    let own = FaceField::uniform(&most, 5.0);
    let other = FaceField::uniform(&most, 0.0);
    check(
        &most,
        &Conditions::absent(&most),
        own.values(),
        other.values(),
    );
}
