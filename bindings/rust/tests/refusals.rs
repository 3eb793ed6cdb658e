//! Each refusal through a call that a careless caller could make, or why there is none.
//!
//! 4 cannot be met: a mesh is not built of a face that names a missing cell or has its owner as neighbour, and
//! `Condition` has no unknown code. 5 cannot be met by a mesh, whose chains the bindings make, nor by a stencil
//! that the engine made; a stencil from kept slices can be broken. 20 cannot be met, since the engine made the
//! distances that are lent; `src/distances/tests.rs` has calls with others.

mod common;

use common::{base, Made};
use juvandeer::{
    BuildError, Cell, CellField, Condition, Conditions, Dimension, FaceField, Mesh, Refusal,
    RefusalKind, Stencil,
};

fn refused<T: std::fmt::Debug>(answer: Result<T, Refusal>) -> (u64, usize) {
    let refusal = answer.unwrap_err();
    (refusal.kind.number(), refusal.index)
}

#[test]
fn size_1() {
    let empty = Mesh::from_faces(Dimension::Three, &[], &[]).unwrap();
    assert_eq!(refused(empty.momentum_inverse_diagonal(&[])), (1, 0));
    let cell = Cell {
        center: [0.0; 3],
        volume: 1.0,
    };
    let large = Mesh::from_faces(Dimension::Two, &[], &vec![cell; 65_536]).unwrap();
    let diagonal = vec![1.0; 65_536];
    assert_eq!(refused(large.momentum_inverse_diagonal(&diagonal)), (1, 0));
    for mesh in [&empty, &large] {
        let (values, pressure) = (FaceField::uniform(mesh, 1.0), CellField::uniform(mesh, 1.0));
        let absent = Conditions::absent(mesh);
        let without = mesh.pressure_coupling_gradient_without_conditions(&pressure);
        let answers = [
            refused(mesh.gauss_gradient_from_faces(&values)),
            refused(mesh.pressure_coupling_gradient(&absent, &pressure)),
            refused(without),
        ];
        assert_eq!(answers, [(1, 0); 3]);
    }
}

#[test]
fn room_too_small_or_too_large_1() {
    let made = base().made();
    for room in [0, 5, 65_536, usize::MAX] {
        let stencil = made.mesh.least_squares_stencil_in(&made.conditions, room);
        assert_eq!(refused(stencil), (1, 0));
        let step = made.mesh.step_in(made.step_input(), room);
        assert_eq!(refused(step), (1, 0));
    }
    assert!(made.mesh.least_squares_stencil(&made.conditions).is_ok());
    assert!(made.mesh.step_in(made.step_input(), 65_535).is_ok());
}

#[test]
fn length_2() {
    let mesh = base().mesh();
    let short = FaceField::new(&mesh, vec![1.0; 6]);
    assert_eq!(refused(mesh.integrated_divergence(&short)), (2, 0));
    let long = CellField::new(&mesh, vec![1.0; 3]);
    assert_eq!(refused(mesh.pressure_face_coefficients(&long)), (2, 0));
    let few = Conditions::new(&mesh, &[Condition::ZeroGradient]);
    assert_eq!(refused(mesh.least_squares_stencil(&few)), (2, 0));
    assert_eq!(refused(mesh.gauss_gradient_from_faces(&short)), (2, 0));
    let absent = Conditions::absent(&mesh);
    let pressure = CellField::uniform(&mesh, 1.0);
    let coupling = |c, p| mesh.pressure_coupling_gradient(c, p);
    assert_eq!(refused(coupling(&absent, &long)), (2, 0));
    assert_eq!(refused(coupling(&few, &pressure)), (2, 0));
    let without = mesh.pressure_coupling_gradient_without_conditions(&long);
    assert_eq!(refused(without), (2, 0));
}

/// Everything of another mesh of the same form, one after another, in every call that takes it.
#[test]
fn mesh_mismatch_3() {
    let (a, b) = (base().made(), base().made());
    let mesh = &a.mesh;
    let boundary = |c, r| mesh.pressure_face_coefficients_with_boundary(c, r);
    let velocity = |v, r, g| mesh.correct_cell_velocity_from_gradient(v, r, g);
    let coupling = |c, p| mesh.pressure_coupling_gradient(c, p);
    let answers = [
        refused(mesh.face_distances(&b.conditions)),
        refused(mesh.least_squares_stencil(&b.conditions)),
        refused(mesh.least_squares_gradient(&b.stencil, &a.pressure)),
        refused(mesh.least_squares_gradient(&a.stencil, &b.pressure)),
        refused(mesh.pressure_face_coefficients(&b.responses)),
        refused(boundary(&b.conditions, &a.responses)),
        refused(boundary(&a.conditions, &b.responses)),
        refused(velocity(&b.velocity, &a.responses, &a.gradient)),
        refused(velocity(&a.velocity, &b.responses, &a.gradient)),
        refused(velocity(&a.velocity, &a.responses, &b.gradient)),
        refused(mesh.integrated_divergence(&b.flux)),
        refused(mesh.continuity_metrics(&b.flux)),
        refused(mesh.gauss_gradient_from_faces(&b.flux)),
        refused(coupling(&b.conditions, &a.pressure)),
        refused(coupling(&a.conditions, &b.pressure)),
        refused(mesh.pressure_coupling_gradient_without_conditions(&b.pressure)),
    ];
    assert_eq!(answers, [(3, 0); 16]);
}

#[test]
fn mesh_mismatch_3_of_the_prediction() {
    let (a, b) = (base().made(), base().made());
    let predict = |s, v, p, r, w| a.mesh.rhie_chow_predicted_flux(s, v, p, r, w);
    let (s, v, p, r, w) = (&a.stencil, &a.velocity, &a.pressure, &a.responses, &a.walls);
    let answers = [
        refused(predict(&b.stencil, v, p, r, w)),
        refused(predict(s, &b.velocity, p, r, w)),
        refused(predict(s, v, &b.pressure, r, w)),
        refused(predict(s, v, p, &b.responses, w)),
        refused(predict(s, v, p, r, &b.walls)),
    ];
    assert_eq!(answers, [(3, 0); 5]);
}

#[test]
fn mesh_mismatch_3_of_correction_and_step() {
    let (a, b) = (base().made(), base().made());
    let correct = |c, p, k, x| a.mesh.correct_face_flux_with_boundary(c, p, k, x);
    let (c, p, k, x) = (&a.conditions, &a.predicted, &a.coefficients, &a.correction);
    let mut inputs = [a.step_input(); 6];
    inputs[0].conditions = &b.conditions;
    inputs[1].velocity = &b.velocity;
    inputs[2].pressure = &b.pressure;
    inputs[3].responses = &b.responses;
    inputs[4].walls = &b.walls;
    inputs[5].correction = &b.correction;
    for input in inputs {
        assert_eq!(refused(a.mesh.step(input)), (3, 0));
    }
    let answers = [
        refused(correct(&b.conditions, p, k, x)),
        refused(correct(c, &b.predicted, k, x)),
        refused(correct(c, p, &b.coefficients, x)),
        refused(correct(c, p, k, &b.correction)),
    ];
    assert_eq!(answers, [(3, 0); 4]);
    let correct_over = |c, k, x, flux: &FaceField| {
        let mut flux = flux.clone();
        let answer = a.mesh.correct_face_flux_in_place(c, k, x, &mut flux);
        assert_eq!(flux.values(), p.values(), "the predicted flux is left");
        refused(answer)
    };
    let answers = [
        correct_over(&b.conditions, k, x, p),
        correct_over(c, &b.coefficients, x, p),
        correct_over(c, k, &b.correction, p),
        correct_over(c, k, x, &b.predicted),
    ];
    assert_eq!(answers, [(3, 0); 4]);
}

#[test]
fn bad_face_4_is_not_built() {
    let mut missing = base();
    missing.faces[3].owner = 2;
    let built = Mesh::from_faces(Dimension::Two, &missing.faces, &missing.cells);
    let error = BuildError::MissingCell {
        face: 3,
        cell: 2,
        cells: 2,
    };
    assert_eq!(built.unwrap_err(), error);
    let mut own = base();
    own.faces[0].neighbour = Some(0);
    let built = Mesh::from_faces(Dimension::Two, &own.faces, &own.cells);
    assert_eq!(built.unwrap_err(), BuildError::NeighbourIsOwner { face: 0 });
}

#[test]
fn broken_chain_5() {
    let made = base().made();
    let mesh = &made.mesh;
    let kept = mesh.least_squares_stencil(&made.conditions).unwrap();
    let mut starts = kept.starts().to_vec();
    starts[1] = kept.records() + 1;
    let broken = Stencil::from_slices(
        mesh,
        starts,
        kept.equations().to_vec(),
        kept.weights().to_vec(),
        kept.inverses().to_vec(),
    );
    let gradient = mesh.least_squares_gradient(&broken, &made.pressure);
    assert_eq!(refused(gradient), (5, 1));
}

#[test]
fn bad_link_6() {
    let made = base().made();
    let mesh = &made.mesh;
    let refused_at = |conditions: &Conditions| refused(mesh.least_squares_stencil(conditions));
    let mut two_cells = made.conditions.clone();
    two_cells.link(0, 3, [1.0, 0.0, 0.0]).unwrap();
    assert_eq!(refused_at(&two_cells), (6, 0));
    let mut left_behind = made.conditions.clone();
    left_behind.link(1, 4, [1.0, 0.0, 0.0]).unwrap();
    assert_eq!(refused_at(&left_behind), (6, 2));
    let mut itself = made.conditions.clone();
    itself.link(3, 3, [1.0, 0.0, 0.0]).unwrap();
    assert_eq!(refused_at(&itself), (6, 3));
}

/// Of several bad links the lowest face is named, by every call that takes links.
#[test]
fn lowest_bad_link_6() {
    let lowest = |links: &[(usize, usize)]| {
        let mut made = base().made();
        for &(face, peer) in links {
            made.conditions.link(face, peer, [1.0, 0.0, 0.0]).unwrap();
        }
        let (mesh, c) = (&made.mesh, &made.conditions);
        let (p, k, x) = (&made.predicted, &made.coefficients, &made.correction);
        let answers = [
            refused(mesh.face_distances(c)),
            refused(mesh.least_squares_stencil(c)),
            refused(mesh.pressure_face_coefficients_with_boundary(c, &made.responses)),
            refused(mesh.correct_face_flux_with_boundary(c, p, k, x)),
            refused(mesh.correct_face_flux_in_place(c, k, x, &mut p.clone())),
            refused(mesh.step(made.step_input())),
            refused(mesh.pressure_coupling_gradient(c, &made.pressure)),
        ];
        assert_eq!(answers, [answers[0]; 7]);
        answers[0]
    };
    // 1 and 2 stay linked well
    assert_eq!(lowest(&[(6, 6), (4, 4), (5, 5)]), (6, 4));
    // 0 has two cells, its peer has one
    assert_eq!(lowest(&[(6, 0), (5, 5)]), (6, 0));
    // 1 and 4 are linked well, and so are 2 and 6 after them, but 3 was left by 4
    assert_eq!(lowest(&[(3, 4), (1, 4), (2, 6), (5, 5)]), (6, 3));
}

/// What the calls answer on the base with so many faces more of cell 1, which has four: first those that look at
/// faces, then those that do not. The faces have a zero gradient and fields of 0.
fn with_faces(more: usize, spoil: fn(&mut Made)) -> ([Answer; 13], [Answer; 3]) {
    let mut crowd = base();
    crowd.faces.extend(vec![crowd.faces[5]; more]);
    crowd.conditions.extend(vec![Condition::ZeroGradient; more]);
    for field in [
        &mut crowd.walls,
        &mut crowd.predicted,
        &mut crowd.coefficients,
        &mut crowd.flux,
    ] {
        field.extend(vec![0.0; more]);
    }
    let mut made = crowd.made();
    spoil(&mut made);
    let (mesh, c) = (&made.mesh, &made.conditions);
    let (p, k, x) = (&made.predicted, &made.coefficients, &made.correction);
    let (s, v, r, w) = (&made.stencil, &made.velocity, &made.responses, &made.walls);
    let mut over = p.clone();
    let in_place = answer(mesh.correct_face_flux_in_place(c, k, x, &mut over));
    if in_place != Ok(()) {
        assert_eq!(over.values(), p.values(), "the predicted flux is left");
    }
    let of_faces = [
        answer(mesh.least_squares_stencil(c)),
        answer(mesh.pressure_face_coefficients(r)),
        answer(mesh.pressure_face_coefficients_with_boundary(c, r)),
        answer(mesh.rhie_chow_predicted_flux(s, v, &made.pressure, r, w)),
        answer(mesh.correct_face_flux_with_boundary(c, p, k, x)),
        in_place,
        answer(mesh.integrated_divergence(&made.flux)),
        answer(mesh.continuity_metrics(&made.flux)),
        answer(mesh.step(made.step_input())),
        answer(mesh.face_distances(c)),
        answer(mesh.gauss_gradient_from_faces(&made.flux)),
        answer(mesh.pressure_coupling_gradient(c, x)),
        answer(mesh.pressure_coupling_gradient_without_conditions(x)),
    ];
    let of_others = [
        answer(mesh.momentum_inverse_diagonal(&made.diagonal)),
        answer(mesh.least_squares_gradient(s, &made.pressure)),
        answer(mesh.correct_cell_velocity_from_gradient(v, r, &made.gradient)),
    ];
    (of_faces, of_others)
}

/// Accepted, or number and index.
type Answer = Result<(), (u64, usize)>;

fn answer<T>(answer: Result<T, Refusal>) -> Answer {
    match answer {
        Ok(_) => Ok(()),
        Err(refusal) => Err((refusal.kind.number(), refusal.index)),
    }
}

#[test]
fn crowded_cell_14() {
    assert_eq!(with_faces(22, |_| ()), ([Ok(()); 13], [Ok(()); 3]));
    assert_eq!(with_faces(23, |_| ()), ([Err((14, 1)); 13], [Ok(()); 3]));
}

/// 14 comes before 6 and after 5.
#[test]
fn crowded_cell_14_in_its_place() {
    let bad_link = |made: &mut Made| {
        made.conditions.link(4, 4, [1.0, 0.0, 0.0]).unwrap();
    };
    let (of_faces, _) = with_faces(22, bad_link);
    let linked = [0, 2, 4, 5, 8, 9, 11].map(|call| of_faces[call]);
    assert_eq!(linked, [Err((6, 4)); 7]);
    let (of_faces, _) = with_faces(23, bad_link);
    assert_eq!(of_faces, [Err((14, 1)); 13]);
    let broken_chain = |made: &mut Made| {
        let kept = &made.stencil;
        made.stencil = Stencil::from_slices(
            &made.mesh,
            vec![99, 4],
            kept.equations().to_vec(),
            kept.weights().to_vec(),
            kept.inverses().to_vec(),
        );
    };
    let (of_faces, of_others) = with_faces(23, broken_chain);
    assert_eq!(of_faces[3], Err((5, 0)));
    assert_eq!(of_others[1], Err((5, 0)));
}

/// Faces that are shared count in both cells, and the lowest cell is named.
#[test]
fn lowest_crowded_cell_14() {
    let outflow = |more: usize| {
        let mut crowd = base();
        crowd.faces.extend(vec![crowd.faces[0]; more]);
        let mesh = crowd.mesh();
        answer(mesh.integrated_divergence(&FaceField::uniform(&mesh, 1.0)))
    };
    assert_eq!(outflow(22), Ok(()));
    assert_eq!(outflow(23), Err((14, 0)));
}

#[test]
fn arithmetic_7_to_12() {
    let mut near = base();
    near.cells[1].center = near.cells[0].center;
    let made = near.made();
    let answer = made.mesh.pressure_face_coefficients(&made.responses);
    assert_eq!(refused(answer), (7, 0));

    let mut flat = base();
    flat.conditions[3..].fill(Condition::ZeroGradient);
    flat.faces[3].normal = [0.0; 3];
    flat.faces[4].normal = [0.0; 3];
    let made = flat.made();
    assert_eq!(refused(made.mesh.step(made.step_input())), (8, 0));

    let mut made = base().made();
    made.coefficients.values_mut()[6] = -1.0;
    let answer = made.mesh.correct_face_flux_with_boundary(
        &made.conditions,
        &made.predicted,
        &made.coefficients,
        &made.correction,
    );
    assert_eq!(refused(answer), (9, 6));

    let made = base().made();
    let absent = Conditions::absent(&made.mesh);
    assert_eq!(refused(made.mesh.least_squares_stencil(&absent)), (10, 1));

    let diagonal = made.mesh.momentum_inverse_diagonal(&[1.0, f64::NAN]);
    assert_eq!(refused(diagonal), (11, 1));

    let mut hollow = base();
    hollow.cells[1].volume = -1.0;
    let made = hollow.made();
    assert_eq!(refused(made.mesh.continuity_metrics(&made.flux)), (12, 1));
}

#[test]
fn conditions_of_missing_faces_are_errors() {
    let mut conditions = base().made().conditions;
    let missing = BuildError::MissingFace { face: 7, faces: 7 };
    let set = conditions.set(7, Condition::ZeroGradient);
    assert_eq!(set.unwrap_err(), missing);
    assert_eq!(conditions.link(1, 7, [0.0; 3]).unwrap_err(), missing);
    assert_eq!(conditions.peer(1), Some(2));
    assert_eq!(conditions.peer(usize::MAX), None);
    assert_eq!(conditions.condition(3), Some(Condition::FixedValue(4.0)));
    assert_eq!(conditions.condition(usize::MAX), None);
}

#[test]
fn conditions_are_lent_as_the_header_says() {
    let mesh = base().made().mesh;
    let mut conditions = Conditions::absent(&mesh);
    conditions.set(3, Condition::FixedValue(4.0)).unwrap();
    conditions.set(4, Condition::ZeroGradient).unwrap();
    conditions.link(1, 2, [5.0, 6.0, 7.0]).unwrap();
    let codes = [0, 0, 0, 3, 0, 2, 1, 0, 2, 0, 0, 0, 0, 0];
    assert_eq!(conditions.codes(), codes);
    let mut values = [0.0; 28];
    values[5..8].copy_from_slice(&[5.0, 6.0, 7.0]);
    values[9..12].copy_from_slice(&[-5.0, -6.0, -7.0]);
    values[12] = 4.0;
    assert_eq!(conditions.values(), values);
}

#[test]
fn numbers_kinds_and_reasons_fit() {
    for number in 0..30 {
        assert_eq!(RefusalKind::from_number(number).number(), number);
    }
    for number in [0, 13, 15, 19, 21] {
        let kind = RefusalKind::from_number(number);
        assert_eq!(kind, RefusalKind::Other(number));
    }
    assert_eq!(RefusalKind::from_number(14), RefusalKind::CrowdedCell);
    assert_eq!(RefusalKind::from_number(20), RefusalKind::WrongDistance);
    let at = |number| Refusal::new(number, 17).reason();
    for number in [4, 6, 7, 9, 10, 20] {
        assert!(at(number).starts_with("face 17 "));
    }
    for number in [5, 8, 11, 12, 14] {
        assert!(at(number).starts_with("cell 17 "));
    }
    for number in [1, 2, 3] {
        assert!(!at(number).contains("17"));
    }
}

/// Lines `NUMBER INDEX exact: needs BYTES |SENTENCE|`, written from document 02.
#[test]
fn sentences_are_the_stored_ones() {
    let stored = include_str!("../../../crates/sentences/stdout");
    let exact = stored.lines().filter(|line| line.contains(" exact: "));
    let mut told = 0;
    for line in exact {
        let (refusal, slice) = line.split_once(" exact: needs ").unwrap();
        let (number, index) = refusal.split_once(' ').unwrap();
        let refusal = Refusal::new(number.parse().unwrap(), index.parse().unwrap());
        let (_, sentence) = slice.strip_suffix('|').unwrap().split_once(" |").unwrap();
        if sentence.is_empty() {
            assert_eq!(refusal.sentence(), None, "{line}");
            assert_eq!(
                refusal.to_string(),
                format!("number {number}, index {index}")
            );
        } else {
            assert_eq!(refusal.sentence().as_deref(), Some(sentence), "{line}");
            assert_eq!(refusal.to_string(), sentence);
            told += 1;
        }
    }
    assert_eq!(told, 14 * 4);
}
