//! 20, which no caller of the bindings meets: the distances that are lent are spoiled from within.

use super::{FACE_NUMBERS, OWN};
use crate::{
    Cell, CellField, Condition, Conditions, Dimension, Face, FaceField, Mesh, Refusal, Stencil,
    StepInput, VectorField,
};
use std::sync::OnceLock;

/// Accepted, or number and index.
type Answer = Result<(), (u64, usize)>;

/// A mesh and conditions with the geometry that is lent without links and with them.
#[derive(Clone)]
struct Lent {
    mesh: Mesh,
    conditions: Conditions,
    stencil: Stencil,
}

/// Two parallelograms side by side, whose outer edges, 1 and 2, are linked. Half a side is (3, 4), (1, 1) or
/// (-12, 5).
fn lent() -> Lent {
    let points = [[0, 0], [6, 8], [8, 10], [-24, 10], [-18, 18], [-16, 20]];
    let points = points.map(|[x, y]: [i32; 2]| [f64::from(x), f64::from(y), 0.0]);
    let edges = [[1, 4], [3, 0], [2, 5], [0, 1], [4, 3], [1, 2], [5, 4]].map(Vec::from);
    let owners = [0, 0, 1, 0, 0, 1, 1];
    let mesh = Mesh::from_points(Dimension::Two, &points, &edges, &owners, &[1]).unwrap();
    let mut conditions = Conditions::uniform(&mesh, Condition::FixedValue(1.0));
    conditions.link(1, 2, [8.0, 10.0, 0.0]).unwrap();
    Lent {
        stencil: mesh.least_squares_stencil(&conditions).unwrap(),
        mesh,
        conditions,
    }
}

impl Lent {
    /// Changes both geometries.
    fn spoil(&mut self, change: impl Fn(&mut [f64])) {
        let mut linked = self.mesh.geometry_under(&self.conditions).to_vec();
        change(&mut linked);
        self.conditions.linked = Some(OnceLock::from(linked));
        change(&mut self.mesh.geometry);
    }

    /// The calls that are lent geometry with links: the stencil, the coefficients, the step and a gradient.
    fn with_links(&self) -> [Answer; 4] {
        let (mesh, conditions) = (&self.mesh, &self.conditions);
        let responses = CellField::uniform(mesh, 0.5);
        let cells = CellField::uniform(mesh, 0.3);
        let step = mesh.step(StepInput {
            conditions,
            velocity: &VectorField::uniform(mesh, [1.0, 0.5, 0.0]),
            pressure: &cells,
            responses: &responses,
            walls: &FaceField::uniform(mesh, 0.25),
            correction: &cells,
        });
        [
            answer(mesh.least_squares_stencil(conditions)),
            answer(mesh.pressure_face_coefficients_with_boundary(conditions, &responses)),
            answer(step),
            answer(mesh.pressure_coupling_gradient(conditions, &cells)),
        ]
    }

    /// Those that are lent it without: the coefficients, the prediction and two gradients.
    fn without_links(&self) -> [Answer; 4] {
        let mesh = &self.mesh;
        let responses = CellField::uniform(mesh, 0.5);
        let prediction = mesh.rhie_chow_predicted_flux(
            &self.stencil,
            &VectorField::uniform(mesh, [1.0, 0.5, 0.0]),
            &CellField::uniform(mesh, 0.3),
            &responses,
            &FaceField::uniform(mesh, 0.25),
        );
        [
            answer(mesh.pressure_face_coefficients(&responses)),
            answer(prediction),
            answer(mesh.gauss_gradient_from_faces(&FaceField::uniform(mesh, 0.5))),
            answer(mesh.pressure_coupling_gradient_without_conditions(&responses)),
        ]
    }

    /// Those that are lent faces and no geometry, and the one that makes the distances.
    fn without_geometry(&self) -> [Answer; 5] {
        let (mesh, conditions) = (&self.mesh, &self.conditions);
        let cells = CellField::uniform(mesh, 0.3);
        let mut flux = FaceField::uniform(mesh, 0.5);
        let (k, x) = (&flux.clone(), &cells);
        [
            answer(mesh.face_distances(conditions)),
            answer(mesh.correct_face_flux_with_boundary(conditions, k, k, x)),
            answer(mesh.correct_face_flux_in_place(conditions, k, x, &mut flux)),
            answer(mesh.integrated_divergence(k)),
            answer(mesh.continuity_metrics(k)),
        ]
    }
}

fn answer<T>(answer: Result<T, Refusal>) -> Answer {
    match answer {
        Ok(_) => Ok(()),
        Err(refusal) => Err((refusal.kind.number(), refusal.index)),
    }
}

fn own(face: usize) -> usize {
    FACE_NUMBERS * face + OWN
}

fn other(face: usize) -> usize {
    own(face) + 1
}

#[test]
fn as_they_are_made_all_are_accepted() {
    let lent = lent();
    assert_eq!(lent.with_links(), [Ok(()); 4]);
    assert_eq!(lent.without_links(), [Ok(()); 4]);
    assert_eq!(lent.without_geometry(), [Ok(()); 5]);
}

#[test]
fn an_own_distance_one_bit_off_20() {
    for face in 0..7 {
        for up in [true, false] {
            let mut lent = lent();
            lent.spoil(|geometry| {
                let bits = geometry[own(face)].to_bits();
                geometry[own(face)] = f64::from_bits(if up { bits + 1 } else { bits - 1 });
            });
            assert_eq!(lent.with_links(), [Err((20, face)); 4]);
            assert_eq!(lent.without_links(), [Err((20, face)); 4]);
            assert_eq!(lent.without_geometry(), [Ok(()); 5]);
        }
    }
}

/// The other distance of a face with one cell hangs on its link, and is looked at where links are lent.
#[test]
fn an_other_distance_20() {
    for face in 0..7 {
        let mut lent = lent();
        lent.spoil(|geometry| geometry[other(face)] = -geometry[other(face)]);
        assert_eq!(lent.with_links(), [Err((20, face)); 4]);
        let answer = if face == 0 { Err((20, 0)) } else { Ok(()) };
        assert_eq!(lent.without_links(), [answer; 4]);
        assert_eq!(lent.without_geometry(), [Ok(()); 5]);
    }
}

/// With links the mesh's own geometry is not enough, and that of other links neither.
#[test]
fn the_distances_of_other_links_20() {
    let mut lent = lent();
    lent.conditions.linked = Some(OnceLock::from(lent.mesh.geometry.clone()));
    assert_eq!(lent.with_links(), [Err((20, 1)); 4]);
    lent.conditions.link(3, 4, [-24.0, 10.0, 0.0]).unwrap();
    lent.conditions.linked = self::lent().conditions.linked;
    assert_eq!(lent.with_links(), [Err((20, 3)); 4]);
}

#[test]
fn the_lowest_wrong_distance_20() {
    let mut lent = lent();
    lent.spoil(|geometry| {
        geometry[own(6)] = 0.0;
        geometry[own(3)] = 12.0;
        geometry[other(2)] = 6.0;
    });
    assert_eq!(lent.with_links(), [Err((20, 2)); 4]);
    assert_eq!(lent.without_links(), [Err((20, 3)); 4]);
}

/// 20 comes after 3 and 6, and before arithmetic.
#[test]
fn wrong_distances_20_in_their_place() {
    let mut lent = lent();
    lent.spoil(|geometry| geometry[own(0)] = 4.0);
    let mut unlike = lent.clone();
    unlike.conditions = self::lent().conditions;
    assert_eq!(unlike.with_links(), [Err((3, 0)); 4]);
    let mut bad = lent.clone();
    bad.conditions.link(4, 4, [0.0; 3]).unwrap();
    bad.spoil(|geometry| geometry[own(0)] = 4.0);
    assert_eq!(bad.with_links(), [Err((6, 4)); 4]);
    let negative = CellField::uniform(&lent.mesh, -1.0);
    let coefficients = lent.mesh.pressure_face_coefficients(&negative);
    assert_eq!(answer(coefficients), Err((20, 0)));
    let faces = [0, 1, 2, 3, 4, 5, 6].map(|face| lent.mesh.face(face).unwrap());
    let cells = [0, 1].map(|cell| Cell {
        volume: 0.0,
        ..lent.mesh.cell(cell).unwrap()
    });
    let mut hollow = Mesh::from_faces(Dimension::Two, &faces, &cells).unwrap();
    let values = FaceField::uniform(&hollow, 0.5);
    let gradient = |mesh: &Mesh| answer(mesh.gauss_gradient_from_faces(&values));
    assert_eq!(gradient(&hollow), Err((12, 0)));
    hollow.geometry[own(3)] = 4.0;
    assert_eq!(gradient(&hollow), Err((20, 3)));
}

/// Any NaN agrees with any other, and infinity is stored as such.
#[test]
fn distances_that_are_not_finite() {
    let far = [[f64::NAN, 0.0, 0.0], [1.0e200, 0.0, 0.0]].map(|center| Face {
        owner: 0,
        neighbour: None,
        center,
        area_vector: [1.0, 0.0, 0.0],
        normal: [1.0, 0.0, 0.0],
    });
    let cell = Cell {
        center: [0.0; 3],
        volume: 1.0,
    };
    let mesh = Mesh::from_faces(Dimension::Three, &far, &[cell]).unwrap();
    let with = |face: usize, distance: f64| {
        let mut mesh = mesh.clone();
        mesh.geometry[own(face)] = distance;
        answer(mesh.pressure_face_coefficients(&CellField::uniform(&mesh, 1.0)))
    };
    for bits in [0x7ff8_0000_0000_0abc, 0xfff8_dead_0000_beef] {
        assert_eq!(with(0, f64::from_bits(bits)), Ok(()));
    }
    assert_eq!(with(0, f64::INFINITY), Err((20, 0)));
    assert_eq!(with(1, f64::INFINITY), Ok(()));
    assert_eq!(with(1, f64::MAX), Err((20, 1)));
    assert_eq!(with(1, f64::NAN), Err((20, 1)));
}
