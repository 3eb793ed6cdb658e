//! Meshes from points: grids of squares and of cubes, even and distorted.

mod common;

use common::Numbers;
use juvandeer::{
    BuildError, CellField, Condition, Conditions, Dimension, FaceField, Mesh, Refusal, StepInput,
    Vec3, VectorField,
};

/// Points, faces, owners and neighbours in the way of OpenFOAM.
#[derive(Clone)]
struct Draft {
    dimension: Dimension,
    points: Vec<Vec3>,
    faces: Vec<Vec<usize>>,
    owners: Vec<usize>,
    neighbours: Vec<usize>,
}

impl Draft {
    fn build(&self) -> Result<Mesh, BuildError> {
        Mesh::from_points(
            self.dimension,
            &self.points,
            &self.faces,
            &self.owners,
            &self.neighbours,
        )
    }
}

/// A grid of so many cells each way, of side 1; in 2D the third count is 1.
fn grid(dimension: Dimension, counts: [usize; 3]) -> Draft {
    let flat = dimension == Dimension::Two;
    let lines = counts.map(|count| count + 1);
    let at = |[i, j, k]: [usize; 3]| i + lines[0] * (j + lines[1] * k);
    let cell = |[i, j, k]: [usize; 3]| i + counts[0] * (j + counts[1] * k);
    let mut points = Vec::new();
    for k in 0..if flat { 1 } else { lines[2] } {
        for j in 0..lines[1] {
            points.extend((0..lines[0]).map(|i| [i as f64, j as f64, k as f64]));
        }
    }
    let (mut inner, mut outer) = (Vec::new(), Vec::new());
    for place in places(counts) {
        for axis in 0..dimension_count(dimension) {
            let points = |place| corners(dimension, place, axis).map(at);
            let mut after = place;
            after[axis] += 1;
            let up: Vec<usize> = points(after).collect();
            if after[axis] < counts[axis] {
                inner.push((up, cell(place), Some(cell(after))));
            } else {
                outer.push((up, cell(place), None));
            }
            if place[axis] == 0 {
                let mut down: Vec<usize> = points(place).collect();
                down.reverse();
                outer.push((down, cell(place), None));
            }
        }
    }
    let all: Vec<_> = inner.into_iter().chain(outer).collect();
    Draft {
        dimension,
        points,
        faces: all.iter().map(|(face, _, _)| face.clone()).collect(),
        owners: all.iter().map(|&(_, owner, _)| owner).collect(),
        neighbours: all
            .iter()
            .filter_map(|&(_, _, neighbour)| neighbour)
            .collect(),
    }
}

fn dimension_count(dimension: Dimension) -> usize {
    match dimension {
        Dimension::Two => 2,
        Dimension::Three => 3,
    }
}

fn places([x, y, z]: [usize; 3]) -> impl Iterator<Item = [usize; 3]> {
    (0..x * y * z).map(move |n| [n % x, n / x % y, n / (x * y)])
}

/// The corners of the face at a point of the grid that looks along an axis, so that they turn about it.
fn corners(
    dimension: Dimension,
    place: [usize; 3],
    axis: usize,
) -> impl Iterator<Item = [usize; 3]> {
    let (first, second) = ((axis + 1) % 3, (axis + 2) % 3);
    let steps: &[[usize; 2]] = match (dimension, axis) {
        (Dimension::Two, 0) => &[[0, 0], [1, 0]],
        (Dimension::Two, _) => &[[0, 1], [0, 0]],
        (Dimension::Three, _) => &[[0, 0], [1, 0], [1, 1], [0, 1]],
    };
    steps.iter().map(move |[a, b]| {
        let mut corner = place;
        corner[first] += a;
        corner[second] += b;
        corner
    })
}

fn distorted(mut draft: Draft, numbers: &mut Numbers) -> Draft {
    for point in &mut draft.points {
        for x in &mut point[..dimension_count(draft.dimension)] {
            *x += 0.3 * numbers.next();
        }
    }
    draft
}

/// A step on random fields: accepted, with a balance that holds and faces that keep their wall flux.
fn check_step(mesh: &Mesh, numbers: &mut Numbers) {
    let mut conditions = Conditions::uniform(mesh, Condition::ZeroGradient);
    let fixed = mesh.face_count() - 1;
    conditions.set(fixed, Condition::FixedValue(0.25)).unwrap();
    let diagonal: Vec<f64> = numbers
        .list(mesh.cell_count())
        .iter()
        .map(|x| 1.5 + x)
        .collect();
    let vectors: Vec<Vec3> = (0..mesh.cell_count())
        .map(|_| [numbers.next(), numbers.next(), 0.0])
        .collect();
    let walls = FaceField::new(mesh, numbers.list(mesh.face_count()));
    let step = mesh
        .step(StepInput {
            conditions: &conditions,
            velocity: &VectorField::new(mesh, &vectors),
            pressure: &CellField::new(mesh, numbers.list(mesh.cell_count())),
            responses: &mesh.momentum_inverse_diagonal(&diagonal).unwrap(),
            walls: &walls,
            correction: &CellField::new(mesh, numbers.list(mesh.cell_count())),
        })
        .unwrap();
    let balance = step.balance(mesh).unwrap();
    assert!(balance.holds(), "{balance}");
    for face in (0..fixed).filter(|&face| mesh.face(face).unwrap().neighbour.is_none()) {
        let [flux, wall] = [&step.flux, &walls].map(|field| field.values()[face].to_bits());
        assert_eq!(flux, wall);
    }
    let continuity = mesh.continuity_metrics(&step.flux).unwrap();
    assert_eq!(continuity.outflow, step.outflow);
    assert_eq!(continuity.metrics, step.metrics);
}

#[test]
fn squares_and_cubes_have_their_geometry() {
    for (dimension, counts) in [(Dimension::Two, [4, 3, 1]), (Dimension::Three, [3, 2, 2])] {
        let mesh = grid(dimension, counts).build().unwrap();
        let middle = if dimension == Dimension::Two {
            0.0
        } else {
            0.5
        };
        assert_eq!(mesh.cell_count(), counts.iter().product::<usize>());
        for (at, [i, j, k]) in places(counts).enumerate() {
            let cell = mesh.cell(at).unwrap();
            assert_eq!(cell.volume, 1.0);
            assert_eq!(
                cell.center,
                [i as f64 + 0.5, j as f64 + 0.5, k as f64 + middle]
            );
        }
        for at in 0..mesh.face_count() {
            let face = mesh.face(at).unwrap();
            assert_eq!(face.area_vector, face.normal);
            let owner = mesh.cell(face.owner).unwrap();
            for axis in 0..3 {
                let arm = face.center[axis] - owner.center[axis];
                assert_eq!(2.0 * arm, face.normal[axis]);
            }
        }
    }
}

#[test]
fn steps_are_accepted_and_balance() {
    let mut numbers = Numbers(1);
    for (dimension, counts) in [
        (Dimension::Two, [5, 4, 1]),
        (Dimension::Two, [1, 6, 1]),
        (Dimension::Three, [3, 3, 3]),
        (Dimension::Three, [2, 1, 4]),
    ] {
        let even = grid(dimension, counts);
        check_step(&even.build().unwrap(), &mut numbers);
        let distorted = distorted(even, &mut numbers);
        check_step(&distorted.build().unwrap(), &mut numbers);
    }
}

#[test]
fn a_distorted_box_keeps_its_volume() {
    let mut draft = grid(Dimension::Three, [2, 2, 2]);
    let middle = draft
        .points
        .iter()
        .position(|&point| point == [1.0; 3])
        .unwrap();
    draft.points[middle] = [1.2, 0.9, 1.1];
    let mesh = draft.build().unwrap();
    let volume: f64 = (0..8).map(|cell| mesh.cell(cell).unwrap().volume).sum();
    assert!((volume - 8.0).abs() < 1e-14);
    for cell in 0..8 {
        let mut closed = [0.0; 3];
        for face in (0..mesh.face_count()).map(|face| mesh.face(face).unwrap()) {
            let sign = match (face.owner == cell, face.neighbour == Some(cell)) {
                (true, _) => 1.0,
                (_, true) => -1.0,
                _ => 0.0,
            };
            closed = [0, 1, 2].map(|axis| closed[axis] + sign * face.area_vector[axis]);
        }
        assert!(closed.iter().all(|x| x.abs() < 1e-15));
    }
}

#[test]
fn a_tetrahedron_has_its_geometry() {
    let points = [[0.0; 3], [1.0, 0.0, 0.0], [0.0, 1.0, 0.0], [0.0, 0.0, 1.0]];
    let faces = [[0, 2, 1], [0, 1, 3], [1, 2, 3], [0, 3, 2]].map(Vec::from);
    let mesh = Mesh::from_points(Dimension::Three, &points, &faces, &[0; 4], &[]).unwrap();
    let cell = mesh.cell(0).unwrap();
    assert!((cell.volume - 1.0 / 6.0).abs() < 1e-15);
    assert!(cell.center.iter().all(|x| (x - 0.25).abs() < 1e-15));
    assert_eq!(mesh.face(0).unwrap().area_vector, [0.0, 0.0, -0.5]);
}

#[test]
fn the_order_of_faces_can_be_given() {
    let mesh = grid(Dimension::Two, [2, 1, 1]).build().unwrap();
    let order = vec![vec![3, 1, 2, 0], vec![0, 4, 5, 6]];
    let number = mesh.number();
    assert_eq!(mesh.heads(), [1, 1, 5, 2]);
    let ordered = mesh.clone().with_face_order(&order).unwrap();
    assert_ne!(ordered.number(), number);
    assert_eq!(ordered.facing()[..8], [3, 2, 1, 3, 2, 4, 0, 0]);
    assert_eq!(ordered.bordering(), mesh.bordering());
    let wrong = |order: Vec<Vec<usize>>| mesh.clone().with_face_order(&order).unwrap_err();
    assert_eq!(
        wrong(vec![vec![0, 1, 2, 3], vec![0, 4, 5]]),
        BuildError::FaceOrder { cell: 1 }
    );
    assert_eq!(
        wrong(vec![vec![0, 1, 2, 2], vec![]]),
        BuildError::FaceOrder { cell: 0 }
    );
    assert!(matches!(
        wrong(vec![]),
        BuildError::Count {
            expected: 2,
            found: 0,
            ..
        }
    ));
}

/// Strips of squares under zero gradients, whose cells take their second rings and then their normals: they
/// fill the room to its last record.
#[test]
fn there_is_room_for_every_stencil() {
    for counts in [[2, 1, 1], [7, 1, 1], [3, 3, 1]] {
        let mesh = grid(Dimension::Two, counts).build().unwrap();
        let room = mesh.stencil_room();
        for condition in [Condition::ZeroGradient, Condition::FixedValue(1.0)] {
            let conditions = Conditions::uniform(&mesh, condition);
            assert_eq!(
                mesh.least_squares_stencil(&conditions).unwrap().records(),
                room
            );
        }
        if counts[1] == 1 {
            let conditions = Conditions::uniform(&mesh, Condition::ZeroGradient);
            let stencil = mesh.least_squares_stencil_in(&conditions, room - 1);
            assert_eq!(stencil.unwrap_err(), Refusal::new(1, 0));
        }
    }
}

/// More cells in rings than the engine takes records: the room is the most that it takes, and suffices.
#[test]
fn a_large_grid_has_room() {
    let mesh = grid(Dimension::Two, [100, 100, 1]).build().unwrap();
    assert_eq!(mesh.stencil_room(), 65_535);
    check_step(&mesh, &mut Numbers(2));
}

/// The error of a grid of two cubes after a change.
fn error(change: fn(&mut Draft)) -> BuildError {
    let mut draft = grid(Dimension::Three, [2, 1, 1]);
    change(&mut draft);
    draft.build().unwrap_err()
}

#[test]
fn wrong_indices_and_counts_are_told() {
    let missing = BuildError::MissingPoint {
        face: 3,
        point: 99,
        points: 12,
    };
    assert_eq!(error(|d| d.faces[3][0] = 99), missing);
    assert_eq!(
        missing.to_string(),
        "face 3 names point 99, and there are 12 points, from 0"
    );
    let empty = BuildError::FacePoints { face: 2, found: 0 };
    assert_eq!(error(|d| d.faces[2].clear()), empty);
    assert_eq!(error(|d| d.owners[2] = 7), BuildError::NoFace { cell: 2 });
    let far = error(|d| d.owners[2] = usize::MAX);
    assert_eq!(far, BuildError::NoFace { cell: 2 });
    let own = error(|d| d.neighbours[0] = 0);
    assert_eq!(own, BuildError::NeighbourIsOwner { face: 0 });
    let few = error(|d| d.owners.truncate(3));
    assert!(matches!(few, BuildError::Count { list: "owners", .. }));
    let many = error(|d| d.neighbours = vec![1; 99]);
    assert!(matches!(
        many,
        BuildError::Count {
            list: "neighbours",
            ..
        }
    ));
}

#[test]
fn wrong_geometry_is_told() {
    let not_finite = error(|d| d.points[4][1] = f64::NAN);
    assert_eq!(not_finite, BuildError::BadPoint { point: 4 });
    let flat = error(|d| d.faces[1] = vec![0, 0, 0]);
    assert_eq!(flat, BuildError::NoArea { face: 1 });
    let turned = error(|d| d.faces.iter_mut().for_each(|face| face.reverse()));
    assert_eq!(
        turned,
        BuildError::NoVolume {
            cell: 0,
            volume: -1.0
        }
    );
    assert_eq!(
        turned.to_string(),
        "cell 0 has volume -1: a face is missing, or its points turn the wrong way"
    );
    let mut raised = grid(Dimension::Two, [1, 1, 1]);
    raised.points[0][2] = 1.0;
    assert_eq!(
        raised.build().unwrap_err(),
        BuildError::BadPoint { point: 0 }
    );
}
