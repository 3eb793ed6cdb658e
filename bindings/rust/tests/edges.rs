//! Calls of every entry, with the answers of the original Rust as they stand in `crates/edges/stdout` and
//! `crates/oneslice/stdout`. All the values of a call differ, so that two parameters of one type, taken for each
//! other, change a bit or are refused.

mod common;

use common::{answer, base, floats, stencil_words, step_words, stored, words, Answer, Base, Made};
use juvandeer::{Condition, Dimension, Mesh};

/// Makes a call and gives its outputs in the library's order.
type Call = fn(&Made) -> Answer;

/// What stands behind the name of a case in its stored line.
fn line(entry: &str, case: &str) -> String {
    let text = stored("edges") + &stored("oneslice");
    let start = format!("{entry}, {case}: ");
    let mut lines = text.lines().filter_map(|line| line.strip_prefix(&start));
    let line = lines.next().unwrap_or_else(|| panic!("no line {start}"));
    line.to_owned()
}

/// The answer that is stored for a case.
fn expected(entry: &str, case: &str) -> Answer {
    answer(&line(entry, case))
}

fn diagonal(m: &Made) -> Answer {
    let out = m.mesh.momentum_inverse_diagonal(&m.diagonal)?;
    Ok(vec![floats(out.values())])
}

fn stencil(m: &Made) -> Answer {
    let out = m.mesh.least_squares_stencil_in(&m.conditions, m.room)?;
    Ok(stencil_words(&out))
}

fn gradient(m: &Made) -> Answer {
    let out = m.mesh.least_squares_gradient(&m.stencil, &m.pressure)?;
    Ok(vec![floats(out.values())])
}

fn coefficients(m: &Made) -> Answer {
    let out = m.mesh.pressure_face_coefficients(&m.responses)?;
    Ok(vec![floats(out.values())])
}

fn boundary(m: &Made) -> Answer {
    let mesh = &m.mesh;
    let out = mesh.pressure_face_coefficients_with_boundary(&m.conditions, &m.responses)?;
    Ok(vec![floats(out.values())])
}

fn prediction(m: &Made) -> Answer {
    let out = m.mesh.rhie_chow_predicted_flux(
        &m.stencil,
        &m.velocity,
        &m.pressure,
        &m.responses,
        &m.walls,
    )?;
    Ok(vec![
        floats(out.gradient.values()),
        floats(out.flux.values()),
    ])
}

fn correction(m: &Made) -> Answer {
    let out = m.mesh.correct_face_flux_with_boundary(
        &m.conditions,
        &m.predicted,
        &m.coefficients,
        &m.correction,
    )?;
    Ok(vec![floats(out.values())])
}

fn in_place(m: &Made) -> Answer {
    let mut flux = m.predicted.clone();
    let mesh = &m.mesh;
    mesh.correct_face_flux_in_place(&m.conditions, &m.coefficients, &m.correction, &mut flux)?;
    Ok(vec![floats(flux.values())])
}

fn velocity(m: &Made) -> Answer {
    let mesh = &m.mesh;
    let out = mesh.correct_cell_velocity_from_gradient(&m.velocity, &m.responses, &m.gradient)?;
    Ok(vec![floats(out.values())])
}

fn outflow(m: &Made) -> Answer {
    let out = m.mesh.integrated_divergence(&m.flux)?;
    Ok(vec![floats(out.values())])
}

fn metrics(m: &Made) -> Answer {
    let out = m.mesh.continuity_metrics(&m.flux)?;
    let metrics = [out.metrics.root_mean_square, out.metrics.largest_divergence];
    Ok(vec![floats(out.outflow.values()), floats(&metrics)])
}

fn step(m: &Made) -> Answer {
    let out = m.mesh.step_in(m.step_input(), m.room)?;
    Ok(step_words(&out))
}

const ENTRIES: [(&str, Call); 12] = [
    ("momentum_inverse_diagonal", diagonal),
    ("least_squares_stencil", stencil),
    ("least_squares_gradient", gradient),
    ("pressure_face_coefficients", coefficients),
    ("pressure_face_coefficients_with_boundary", boundary),
    ("rhie_chow_predicted_flux", prediction),
    ("correct_face_flux_with_boundary", correction),
    ("correct_face_flux_in_place", in_place),
    ("correct_cell_velocity_from_gradient", velocity),
    ("integrated_divergence", outflow),
    ("continuity_metrics", metrics),
    ("step", step),
];

/// A call of an entry after a change, against its stored line.
fn check(entry: &str, case: &str, change: impl FnOnce(&mut Base)) {
    let mut base = base();
    change(&mut base);
    let (_, call) = ENTRIES.iter().find(|(name, _)| *name == entry).unwrap();
    assert_eq!(call(&base.made()), expected(entry, case), "{entry}, {case}");
}

/// The distances that the stored lines were made with.
#[test]
fn the_base_has_its_distances() {
    let made = base().made();
    let distances = made.mesh.face_distances(&made.conditions).unwrap();
    assert_eq!(distances.own.values(), [0.5; 7]);
    let other = [0.5, 0.5, 0.5, 0.0, 0.0, 0.0, 0.0];
    assert_eq!(floats(distances.other.values()), floats(&other));
}

#[test]
fn every_entry_gives_the_stored_bits() {
    for (entry, call) in ENTRIES {
        let expected = expected(entry, "as it stands");
        assert!(expected.is_ok(), "{entry} is accepted");
        assert_eq!(call(&base().made()), expected, "{entry}");
    }
}

#[test]
fn a_mesh_from_points_gives_the_stored_bits() {
    let points: Vec<_> = [(0, 0), (1, 0), (2, 0), (0, 1), (1, 1), (2, 1)]
        .map(|(x, y)| [f64::from(x), f64::from(y), 0.0])
        .into();
    let edges = [[1, 4], [3, 0], [2, 5], [0, 1], [4, 3], [1, 2], [5, 4]];
    let faces: Vec<_> = edges.iter().map(|edge| edge.to_vec()).collect();
    let owners = [0, 0, 1, 0, 0, 1, 1];
    let mesh = Mesh::from_points(Dimension::Two, &points, &faces, &owners, &[1]).unwrap();
    let given = base().mesh();
    assert_eq!(mesh.geometry(), given.geometry());
    assert_eq!(mesh.places(), given.places());
    for (entry, call) in ENTRIES {
        let made = base().made_for(mesh.clone());
        assert_eq!(call(&made), expected(entry, "as it stands"), "{entry}");
    }
}

#[test]
fn other_accepted_cases_give_the_stored_bits() {
    check("momentum_inverse_diagonal", "diagonal 2^-1074", |b| {
        b.diagonal[0] = 5.0e-324;
    });
    check("least_squares_stencil", "zero gradient at face 3", |b| {
        b.conditions[3] = Condition::ZeroGradient;
    });
    check("least_squares_stencil", "room for 6 records", |b| {
        b.room = 6
    });
    check("pressure_face_coefficients", "centre distance 2^-25", |b| {
        b.cells[1].center[0] = 0.5 + 2f64.powi(-25);
    });
    let entry = "pressure_face_coefficients_with_boundary";
    check(entry, "centre of face 3 2^-27 from its cell's", |b| {
        b.faces[3].center[1] = 0.5 - 2f64.powi(-27);
    });
    for entry in [
        entry,
        "correct_face_flux_with_boundary",
        "correct_face_flux_in_place",
    ] {
        check(entry, "code 1 at linked face 1", |b| {
            b.conditions[1] = Condition::FixedValue(0.0);
        });
    }
}

#[test]
fn refusals_of_the_arithmetic_are_the_stored_ones() {
    for entry in ["least_squares_stencil", "step"] {
        check(entry, "room for 5 records", |b| b.room = 5);
        check(entry, "no condition at face 3", |b| {
            b.conditions[3] = Condition::Absent;
        });
        check(entry, "centre distance 2^-26", near);
    }
    for entry in [
        "pressure_face_coefficients",
        "pressure_face_coefficients_with_boundary",
        "rhie_chow_predicted_flux",
        "step",
    ] {
        check(entry, "centre distance 2^-26", near);
        check(entry, "response -1", |b| b.responses[0] = -1.0);
    }
    for entry in ["rhie_chow_predicted_flux", "step"] {
        check(entry, "area of face 0 1e308", |b| {
            b.faces[0].area_vector[0] = 1.0e308;
        });
    }
    for entry in ["pressure_face_coefficients_with_boundary", "step"] {
        check(entry, "area of face 6 0", |b| {
            b.faces[6].area_vector[1] = 0.0;
        });
    }
    check("momentum_inverse_diagonal", "diagonal 0", |b| {
        b.diagonal[1] = 0.0;
    });
}

fn near(base: &mut Base) {
    base.cells[1].center[0] = 0.5 + 2f64.powi(-26);
}

#[test]
fn refusals_of_correction_velocity_and_metrics_are_the_stored_ones() {
    for entry in [
        "correct_face_flux_with_boundary",
        "correct_face_flux_in_place",
    ] {
        check(entry, "coefficient 0 at face 0", |b| {
            b.coefficients[0] = 0.0
        });
        check(entry, "coefficient 0 at face 6", |b| {
            b.coefficients[6] = 0.0
        });
        check(entry, "correction of cell 0 -1.7e308", |b| {
            b.correction[0] = -1.7e308;
        });
        check(entry, "no condition at face 4", |b| {
            b.conditions[4] = Condition::Absent;
        });
    }
    let entry = "correct_cell_velocity_from_gradient";
    check(entry, "response 0", |b| b.responses[1] = 0.0);
    check(entry, "response 1.7e308", |b| b.responses[1] = 1.7e308);
    let entry = "continuity_metrics";
    check(entry, "flux of face 1 1.7e308", |b| b.flux[1] = 1.7e308);
    check(entry, "volume of cell 1 2^-1074", |b| {
        b.cells[1].volume = 5.0e-324;
    });
    for entry in [entry, "step"] {
        check(entry, "volume of cell 1 0", |b| b.cells[1].volume = 0.0);
    }
    check("step", "wall flux of face 4 1.7e308", |b| {
        b.walls[4] = 1.7e308
    });
}

#[test]
fn refusals_of_the_checks_are_the_stored_ones() {
    check("momentum_inverse_diagonal", "diagonal one short", |b| {
        b.diagonal.truncate(1);
    });
    for entry in ["rhie_chow_predicted_flux", "step"] {
        check(entry, "walls one short", |b| b.walls.truncate(6));
    }
    check("least_squares_gradient", "pressure one short", |b| {
        b.pressure.truncate(1);
    });
    for entry in ["least_squares_gradient", "rhie_chow_predicted_flux"] {
        check(entry, "first equation of cell 1 missing", |b| {
            b.starts[1] = 8
        });
    }
}

/// The field that is corrected in place, after a call by which it is refused, against the stored line.
fn check_left(case: &str, change: impl FnOnce(&mut Base)) {
    let mut base = base();
    change(&mut base);
    let mut m = base.made();
    let entry = "correct_face_flux_in_place";
    let answer = m.mesh.correct_face_flux_in_place(
        &m.conditions,
        &m.coefficients,
        &m.correction,
        &mut m.predicted,
    );
    assert_eq!(answer.unwrap_err(), expected(entry, case).unwrap_err());
    let line = line(entry, case);
    let (_, left) = line.split_once(", ").unwrap();
    assert_eq!(floats(m.predicted.values()), words(left), "{case}");
}

#[test]
fn a_refused_field_in_place_is_left_as_stored() {
    check_left("predicted flux one short", |b| b.predicted.truncate(6));
    check_left("predicted flux one long", |b| b.predicted.push(1.0));
    check_left("coefficient 0 at face 0", |b| b.coefficients[0] = 0.0);
    check_left("coefficient 0 at face 6", |b| b.coefficients[6] = 0.0);
    check_left("no condition at face 4", |b| {
        b.conditions[4] = Condition::Absent;
    });
}

/// A face with one cell, no link and a zero gradient keeps its flux with a NaN's every bit.
#[test]
fn a_kept_nan_keeps_its_payload() {
    let bits = [0x7ff8_0000_0000_0abc, 0xfff8_dead_0000_beef];
    let mut m = base().made();
    m.predicted.values_mut()[4] = f64::from_bits(bits[0]);
    m.predicted.values_mut()[5] = f64::from_bits(bits[1]);
    let into = correction(&m).unwrap();
    let over = in_place(&m).unwrap();
    assert_eq!(into[0][4..6], bits);
    assert_eq!(into, over);
}
