//! `form gradient`, against gradients worked out by hand.

mod common;

use common::{gradients, printed, stored_by, CUBES, SQUARES};
use sheet::{AnySheet, FaceValues, GradientSheet};

/// The gradients that are printed of a sheet, as numbers.
fn results(sheet: &str) -> Vec<[f64; 3]> {
    let bits = gradients(&printed(sheet));
    bits.into_iter().map(|v| v.map(f64::from_bits)).collect()
}

fn read(sheet: &str) -> GradientSheet {
    match AnySheet::read(sheet.as_bytes()) {
        Ok(AnySheet::Gradient(sheet)) => sheet,
        other => panic!("{other:?}"),
    }
}

/// Of a pressure with conditions and links, of the pressure alone, and of values at the faces.
#[test]
fn the_stored_bits() {
    let sheet = std::fs::read_to_string(common::own("gradient.sheet")).unwrap();
    let (alone, _) = sheet.split_once("conditions").unwrap();
    let (mesh, _) = sheet.split_once("pressure").unwrap();
    let values = ["0.3", "-1.1", "0.7", "2.0", "-0.4", "0.9", "1.3"];
    let values = values.iter().enumerate();
    let values: String = values.map(|(face, x)| format!("{face} {x}\n")).collect();
    let given = format!("{mesh}face-value\n{values}");
    for (sheet, entry) in [
        (sheet.as_str(), "pressure_coupling_gradient"),
        (alone, "pressure_coupling_gradient_without_conditions"),
        (&given, "gauss_gradient_from_faces"),
    ] {
        let expected = stored_by("gradients", entry, "as it stands");
        assert_eq!(vec![gradients(&printed(sheet)).concat()], expected);
    }
}

/// The two squares with other entries behind their pressure, which is 2x.
fn squares(entries: &str) -> String {
    format!("{SQUARES}{entries}")
}

/// 1 and 3 are the pressures at the outer walls, 2 that between the cells.
#[test]
fn a_pressure_alone() {
    let expected = "cell gradient\n\
        0 3ff0000000000000 0000000000000000 0000000000000000\n\
        1 3ff0000000000000 0000000000000000 0000000000000000\n";
    assert_eq!(printed(SQUARES), expected);
}

#[test]
fn a_pressure_with_conditions() {
    let half = [[1.0, 0.0, 0.0]; 2];
    assert_eq!(results(&squares("conditions\n")), half);
    assert_eq!(
        results(&squares("conditions default zero-gradient\n")),
        half
    );
    let open = squares("conditions\n1 fixed-value 0\n2 fixed-value 4\n6 fixed-value 5\n");
    assert_eq!(results(&open), [[2.0, 0.0, 0.0], [2.0, 2.0, 0.0]]);
}

/// 2 stands at all three edges along x where the way is 2; where it is 4, each image is 2 further away, so that
/// at face 1 it is (2.5 · 1 + 0.5 · 3) / 3 and at face 2 (2.5 · 3 + 0.5 · 1) / 3.
#[test]
fn a_pressure_with_links() {
    let near = squares("links\n1 2  2 0\n");
    assert_eq!(results(&near), [[0.0; 3]; 2]);
    let far = squares("links\n1 2  4 0\n");
    let x = [2.0 - 4.0 / 3.0, 8.0 / 3.0 - 2.0];
    assert_eq!(results(&far), x.map(|x| [x, 0.0, 0.0]));
    let fixed = far + "conditions\n1-2 fixed-value 9\n";
    assert_eq!(results(&fixed), x.map(|x| [x, 0.0, 0.0]));
}

/// Of each face its own value: sums of 64 · 1 - 1 · 1, -1 · 3 + 1 · 12 and so on, halved in cell 1.
#[test]
fn values_at_the_faces() {
    let given = SQUARES.replace("1  1.5 0.5  1", "1  1.5 0.5  2").replace(
        "pressure\n0  1\n1  3\n",
        "face-value\n0  64\n1  1\n2  96\n3  3\n4  12\n5  -8\n6  20\n",
    );
    let expected = [[63.0, 9.0, 0.0], [16.0, 14.0, 0.0]];
    assert_eq!(results(&given), expected);
    // neither conditions nor links count here
    let more = given.clone() + "links\n1 2  2 0\nconditions\n3 fixed-value 50\n";
    assert_eq!(results(&more), expected);
    let uniform = SQUARES.replace("pressure\n0  1\n1  3\n", "face-value default 4\n0 5\n");
    assert_eq!(results(&uniform), [[1.0, 0.0, 0.0], [-1.0, 0.0, 0.0]]);
}

/// 2x − 3y + 5z + 1 on the unit cubes, from its values at the centres of the faces.
#[test]
fn a_linear_pressure_in_space() {
    let values = [
        (0, 4.0),
        (1, 2.0),
        (2, 6.0),
        (3, 0.5),
        (4, 2.5),
        (5, 5.5),
        (6, 7.5),
        (7, 4.5),
        (8, 6.5),
        (9, 1.5),
        (10, 3.5),
    ];
    let lines = |before: &str| -> String {
        let lines = values
            .iter()
            .map(|(face, x)| format!("{face} {before}{x}\n"));
        lines.collect()
    };
    let mesh = CUBES.split_once("conditions").unwrap().0;
    let mesh = mesh.replace("form step", "form gradient");
    let slope = [[2.0, -3.0, 5.0]; 2];
    let given = format!("{mesh}face-value\n{}", lines(""));
    assert_eq!(results(&given), slope);
    let conditions = format!(
        "{mesh}pressure\n0 3\n1 5\nconditions\n{}",
        lines("fixed-value ")
    );
    assert_eq!(results(&conditions), slope);
    let walls = format!("{mesh}pressure\n0 3\n1 5\n");
    assert_eq!(results(&walls), [[1.0, 0.0, 0.0]; 2]);
}

/// What the import writes of two unit cubes, from points and linked along x, with 1 at the walls below.
#[test]
fn an_imported_mesh() {
    let text = sheet::polymesh::import(&common::own("polymesh/two-cubes")).unwrap();
    let (mesh, _) = text.split_once("# Fields").unwrap();
    let mesh = mesh.replace("form step", "form gradient").replace(
        "3-10  zero-gradient",
        "3-4 fixed-value 1\n5-10 zero-gradient",
    );
    let linked = format!("{mesh}pressure\n0 7\n1 11\n");
    assert_eq!(results(&linked), [[0.0, 0.0, 6.0], [0.0, 0.0, 10.0]]);
    let apart = linked.replace("1 2  2 0 0\n", "");
    assert_eq!(results(&apart), [[2.0, 0.0, 6.0], [2.0, 0.0, 10.0]]);
}

#[test]
fn what_is_lent_is_what_is_written() {
    let sheet = read(SQUARES);
    assert!(sheet.conditions.is_none());
    assert!(matches!(&sheet.values, FaceValues::Pressure(p) if p.values() == [1.0, 3.0]));
    let sheet = read(&squares("links\n1 2  2 0\n"));
    assert_eq!(sheet.conditions.unwrap().peer(2), Some(1));
    let sheet = read(&squares("conditions\n4 zero-gradient\n"));
    let condition = sheet.conditions.unwrap().condition(4);
    assert_eq!(condition, Some(engine::Condition::ZeroGradient));
    let given = SQUARES.replace("pressure\n0  1\n1  3\n", "face-value uniform 7\n");
    assert!(matches!(&read(&given).values, FaceValues::Given(v) if v.values() == [7.0; 7]));
}

/// An infinite volume, one that is a NaN and the smallest one are divided by; so is what is not finite.
#[test]
fn numbers_that_are_not_finite() {
    let with = |volume: &str| SQUARES.replace("1  1.5 0.5  1", &format!("1  1.5 0.5  {volume}"));
    assert_eq!(results(&with("inf"))[1], [0.0; 3]);
    assert_eq!(
        results(&with("0000000000000001"))[1],
        [f64::INFINITY, 0.0, 0.0]
    );
    assert!(results(&with("nan"))[1].iter().all(|x| x.is_nan()));
    let pressure = SQUARES.replace("1  3\n", "1  inf\n");
    assert_eq!(results(&pressure)[0][0], f64::INFINITY);
    assert!(results(&pressure)[1].iter().all(|x| x.is_nan()));
}

/// A face with two cells in whose centre both have theirs.
#[test]
fn centres_in_one_place() {
    let near = SQUARES
        .replace("0  0.5 0.5  1", "0  1 0.5  1")
        .replace("1  1.5 0.5  1", "1  1 0.5  1");
    assert!(results(&near).concat().iter().all(|x| x.is_nan()));
}
