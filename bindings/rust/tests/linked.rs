//! The step at linked faces: fluxes that are known without the engine, what is promised of a pair, and the wall flux
//! that is not read.

mod common;

use common::{base, floats, Numbers};
use juvandeer::{
    root, Cell, CellField, Conditions, Dimension, Face, FaceField, Mesh, RefusalKind, Step,
    StepInput, Vec3, VectorField,
};

/// Unit squares in a row along x, of a ring that is cut between two of them. Face 0 is the left end and face 1 the
/// right end, or the other way round, and they are linked; then come the faces between the squares, then those
/// below and above each square, which are linked too. Each number is moved a little by `jitter`.
struct Row {
    mesh: Mesh,
    conditions: Conditions,
    links: Vec<(usize, usize)>,
}

fn row(count: usize, turned: bool, mut jitter: impl FnMut() -> f64) -> Row {
    let mut moved = |v: [f64; 2]| [v[0] + jitter(), v[1] + jitter(), jitter()];
    let mut face = |owner, neighbour, center: [f64; 2], area: [f64; 2]| Face {
        owner,
        neighbour,
        center: moved(center),
        area_vector: moved(area),
        normal: [area[0], area[1], 0.0],
    };
    let length = count as f64;
    let mut faces = vec![
        face(0, None, [0.0, 0.5], [-1.0, 0.0]),
        face(count - 1, None, [length, 0.5], [1.0, 0.0]),
    ];
    if turned {
        faces.reverse();
    }
    faces.extend((1..count).map(|at| face(at - 1, Some(at), [at as f64, 0.5], [1.0, 0.0])));
    for at in 0..count {
        let x = at as f64 + 0.5;
        faces.push(face(at, None, [x, 0.0], [0.0, -1.0]));
        faces.push(face(at, None, [x, 1.0], [0.0, 1.0]));
    }
    let cells: Vec<Cell> = (0..count)
        .map(|at| Cell {
            center: moved([at as f64 + 0.5, 0.5]),
            volume: 1.0,
        })
        .collect();
    let mesh = Mesh::from_faces(Dimension::Two, &faces, &cells).unwrap();
    let mut conditions = Conditions::absent(&mesh);
    let way = if turned { -length } else { length };
    conditions.link(0, 1, [way, 0.0, 0.0]).unwrap();
    let mut links = vec![(0, 1)];
    for below in (1 + count..1 + 3 * count).step_by(2) {
        conditions.link(below, below + 1, [0.0, 1.0, 0.0]).unwrap();
        links.push((below, below + 1));
    }
    Row {
        mesh,
        conditions,
        links,
    }
}

/// The fields of a square: velocity, pressure, response and correction.
#[derive(Clone, Copy)]
struct Square {
    velocity: Vec3,
    pressure: f64,
    response: f64,
    correction: f64,
}

impl Row {
    fn step(&self, squares: &[Square], wall: f64) -> Step {
        let mesh = &self.mesh;
        let field =
            |part: fn(&Square) -> f64| CellField::new(mesh, squares.iter().map(part).collect());
        let velocity: Vec<Vec3> = squares.iter().map(|square| square.velocity).collect();
        let input = StepInput {
            conditions: &self.conditions,
            velocity: &VectorField::new(mesh, &velocity),
            pressure: &field(|square| square.pressure),
            responses: &field(|square| square.response),
            walls: &FaceField::uniform(mesh, wall),
            correction: &field(|square| square.correction),
        };
        mesh.step(input).unwrap()
    }
}

fn square(speed: f64, pressure: f64, response: f64, correction: f64) -> Square {
    Square {
        velocity: [speed, 0.0, 0.0],
        pressure,
        response,
        correction,
    }
}

/// A ring of numbers with few binary digits, so that nothing is rounded.
fn ring() -> [Square; 4] {
    [
        square(1.0, 5.0, 0.5, -1.0),
        square(2.5, -3.0, 0.25, 2.0),
        square(-1.5, 2.0, 1.0, 0.25),
        square(0.75, 8.0, 0.125, 3.0),
    ]
}

/// The predicted and the corrected flux out of each square of the ring, to the right, cut before one of them.
fn around(cut: usize, turned: bool) -> [[u64; 4]; 2] {
    let squares: Vec<Square> = (0..4).map(|at| ring()[(cut + at) % 4]).collect();
    let step = row(4, turned, || 0.0).step(&squares, f64::NAN);
    [&step.predicted, &step.flux].map(|field| {
        let values = field.values();
        let (left, right) = if turned { (1, 0) } else { (0, 1) };
        assert_eq!(values[left], -values[right]);
        let mut found = [0; 4];
        for at in 0..4 {
            let face = if at == 3 { right } else { 2 + at };
            found[(cut + at) % 4] = values[face].to_bits();
        }
        found
    })
}

/// What is linked in one row lies between two squares in another, and the flux is the same. A square's gradient is
/// half of the difference of the pressures beside it.
#[test]
fn the_place_of_the_cut_does_not_count() {
    let gradient = [-5.5, -1.5, 5.5, 1.5];
    let mut expected = [[0; 4]; 2];
    for at in 0..4 {
        let (a, b) = (ring()[at], ring()[(at + 1) % 4]);
        let (g, h) = (gradient[at], gradient[(at + 1) % 4]);
        let response = (a.response + b.response) / 2.0;
        let covariance = (a.response * g + b.response * h) / 2.0 - response * (g + h) / 2.0;
        let rise = (g + h) / 2.0 - (b.pressure - a.pressure);
        let predicted = (a.velocity[0] + b.velocity[0]) / 2.0 + covariance + response * rise;
        expected[0][at] = predicted.to_bits();
        let corrected = predicted - response * (b.correction - a.correction);
        expected[1][at] = corrected.to_bits();
    }
    for cut in 0..4 {
        for turned in [false, true] {
            assert_eq!(around(cut, turned), expected, "{cut}, {turned}");
        }
    }
}

fn any_square(numbers: &mut Numbers) -> Square {
    Square {
        velocity: [0; 3].map(|_| numbers.next()),
        pressure: numbers.next(),
        response: 1.0 + numbers.next(),
        correction: numbers.next(),
    }
}

fn dot(a: Vec3, b: Vec3) -> f64 {
    a[0] * b[0] + a[1] * b[1] + a[2] * b[2]
}

fn minus(a: Vec3, b: Vec3) -> Vec3 {
    [0, 1, 2].map(|k| a[k] - b[k])
}

fn mixed(a: Vec3, s: f64, b: Vec3, t: f64) -> Vec3 {
    [0, 1, 2].map(|k| a[k] * s + b[k] * t)
}

/// The flux that a linked face is predicted with by itself, as the original Rust has it, from the step's gradient
/// and coefficient.
fn own_flux(row: &Row, step: &Step, squares: &[Square], face: usize) -> f64 {
    let at = row.mesh.face(face).unwrap();
    let peer = row.conditions.peer(face).unwrap();
    let (i, j) = (at.owner, row.mesh.face(peer).unwrap().owner);
    let [here, there] = [i, j].map(|cell| row.mesh.cell(cell).unwrap().center);
    let translation: Vec3 = row.conditions.values()[4 * face + 1..4 * face + 4]
        .try_into()
        .unwrap();
    let image = minus(there, translation);
    let distance = |from: Vec3| {
        let arm = minus(at.center, from);
        root(dot(arm, arm))
    };
    let (a, b) = (distance(here), distance(image));
    let w = b / (a + b);
    let u = 1.0 - w;
    let gradients: Vec<Vec3> = step.gradient.vectors().collect();
    let (g, h) = (gradients[i], gradients[j]);
    let (r, s) = (squares[i].response, squares[j].response);
    let velocity = mixed(squares[i].velocity, w, squares[j].velocity, u);
    let gradient = mixed(g, w, h, u);
    let response = w * r + u * s;
    let covariance = minus(mixed(g, w * r, h, u * s), gradient.map(|x| x * response));
    let rise = dot(gradient, minus(image, here)) - (squares[j].pressure - squares[i].pressure);
    dot(velocity, at.area_vector)
        + dot(covariance, at.area_vector)
        + step.coefficients.values()[face] * rise
}

/// On rows that are moved at random, and on some that are not: the lower face has its own flux, the higher that flux
/// negated, whatever its own is, and the corrected fluxes are opposite where the coefficients are equal. No wall flux
/// is read.
#[test]
fn pairs_are_opposite() {
    let mut numbers = Numbers(4);
    let (mut other, mut unequal, mut equal) = (0, 0, 0);
    for round in 0..60 {
        let share = if round % 4 == 0 { 0.0 } else { 0.2 };
        let row = row(2 + round % 5, round % 2 == 1, || share * numbers.next());
        let squares: Vec<Square> = (0..row.mesh.cell_count())
            .map(|_| any_square(&mut numbers))
            .collect();
        let step = row.step(&squares, f64::NAN);
        for &(lower, higher) in &row.links {
            let [predicted, coefficients, flux] =
                [&step.predicted, &step.coefficients, &step.flux].map(|field| field.values());
            let own = [lower, higher].map(|face| own_flux(&row, &step, &squares, face));
            assert_eq!(predicted[lower].to_bits(), own[0].to_bits());
            assert_eq!(predicted[higher].to_bits(), (-own[0]).to_bits());
            other += usize::from(own[1] != -own[0]);
            if coefficients[lower] == coefficients[higher] {
                assert_eq!(flux[higher], -flux[lower]);
                equal += 1;
            } else {
                unequal += usize::from(flux[higher] != -flux[lower]);
            }
        }
        assert!(step.balance(&row.mesh).unwrap().holds());
        for wall in [f64::INFINITY, -1.7e308, -0.0] {
            assert_eq!(row.step(&squares, wall), step);
        }
    }
    assert!(
        other > 100 && unequal > 30 && equal > 10,
        "{other}, {unequal}, {equal}"
    );
}

/// The base of the stored lines with other wall fluxes at its linked faces 1 and 2, and at face 0.
#[test]
fn a_wall_flux_of_a_linked_face_is_not_read() {
    let expected = {
        let made = base().made();
        made.mesh.step(made.step_input()).unwrap()
    };
    for walls in [[f64::NAN; 3], [f64::INFINITY, 1.7e308, -1.7e308], [-0.0; 3]] {
        let mut base = base();
        base.walls[..3].copy_from_slice(&walls);
        let made = base.made();
        let step = made.mesh.step(made.step_input()).unwrap();
        assert_eq!(
            floats(step.predicted.values()),
            floats(expected.predicted.values())
        );
        assert_eq!(floats(step.flux.values()), floats(expected.flux.values()));
        assert_eq!(
            floats(step.outflow.values()),
            floats(expected.outflow.values())
        );
    }
    // by itself the prediction takes it
    let mut base = base();
    base.walls[1] = f64::INFINITY;
    let made = base.made();
    let prediction = made.mesh.rhie_chow_predicted_flux(
        &made.stencil,
        &made.velocity,
        &made.pressure,
        &made.responses,
        &made.walls,
    );
    assert_eq!(prediction.unwrap().flux.values()[1], f64::INFINITY);
}

/// It is still lent: a number for each face, of the same mesh.
#[test]
fn a_wall_flux_is_lent_for_every_face() {
    let mut short = base();
    short.walls.truncate(6);
    let made = short.made();
    let refusal = made.mesh.step(made.step_input()).unwrap_err();
    assert_eq!(refusal.kind, RefusalKind::Length);
    let (made, other) = (base().made(), base().made());
    let input = StepInput {
        walls: &other.walls,
        ..made.step_input()
    };
    let refusal = made.mesh.step(input).unwrap_err();
    assert_eq!(refusal.kind, RefusalKind::MeshMismatch);
}

/// Of the flux that a linked face has by itself 9 tells, at the higher of two faces too, though it would be
/// replaced; the lowest such face is named.
#[test]
fn a_linked_flux_that_is_not_finite() {
    for (faces, index) in [(&[1][..], 1), (&[2], 2), (&[1, 2], 1)] {
        let mut base = base();
        for &face in faces {
            base.faces[face].area_vector[0] *= 1.0e308;
        }
        let made = base.made();
        let refusal = made.mesh.step(made.step_input()).unwrap_err();
        assert_eq!(refusal.kind, RefusalKind::InvalidPressureFaceCoefficient);
        assert_eq!(refusal.index, index);
    }
    // the linked faces come after every coefficient and before the correction
    for (spoil, index) in [(6, 6), (2, 2)] {
        let mut base = base();
        base.faces[1].area_vector[0] = -1.0e308;
        base.faces[spoil].area_vector = [0.0; 3];
        let made = base.made();
        assert_eq!(made.mesh.step(made.step_input()).unwrap_err().index, index);
    }
    let mut base = base();
    base.faces[2].area_vector[0] = 1.0e308;
    base.correction = vec![-1.7e308, 1.7e308];
    let made = base.made();
    assert_eq!(made.mesh.step(made.step_input()).unwrap_err().index, 2);
}
