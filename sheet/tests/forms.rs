//! Both forms, against answers of the original Rust and against arithmetic worked out by hand.

mod common;

use common::{
    changed, correction_sheet, listed, metrics, own, printed, step_sheet, stored, stored_by, told,
    CUBES, SQUARE,
};
use sheet::{Fields, Sheet};

/// The fluxes, the outflows and the metrics that are printed of a sheet.
fn results(sheet: &str) -> [Vec<u64>; 3] {
    let text = printed(sheet);
    [
        listed(&text, "face flux"),
        listed(&text, "cell outflow"),
        metrics(&text),
    ]
}

/// Those of a step's stored outputs.
fn of_step(outputs: &[Vec<u64>]) -> [Vec<u64>; 3] {
    [outputs[7].clone(), outputs[8].clone(), outputs[9].clone()]
}

/// Those of the stored step.
fn stored_step() -> [Vec<u64>; 3] {
    of_step(&stored("step", "as it stands"))
}

#[test]
fn a_step_gives_the_stored_bits() {
    assert_eq!(results(&step_sheet()), stored_step());
}

#[test]
fn a_diagonal_gives_the_step_of_its_inverse() {
    let sheet = step_sheet().replace(
        "momentum-response\n0  0.5\n1  0.25",
        "momentum-diagonal\n0  2\n1  4",
    );
    assert!(sheet.contains("momentum-diagonal"));
    assert_eq!(results(&sheet), stored_step());
}

/// Faces 0, 1 and 2 have two cells or a link: their wall flux is not read, and need not be given.
#[test]
fn a_wall_flux_is_read_at_unlinked_faces_alone() {
    let all = "wall-flux\n0   0\n1   2\n2  -2\n3   0.5\n4  -0.6\n5   0.3\n6   1\n";
    let asked = "3   0.5\n4  -0.6\n5   0.3\n6   1\n";
    let sheet = step_sheet();
    assert_eq!(sheet.matches(all).count(), 1);
    for others in [
        "wall-flux\n",
        "wall-flux\n1  2\n",
        "wall-flux\n0-2  nan\n",
        "wall-flux\n1  1.7e308\n2  inf\n",
        "wall-flux default -inf\n",
        "wall-flux default 3\n2  7ff4000000000001\n",
    ] {
        let sheet = sheet.replace(all, &format!("{others}{asked}"));
        assert_eq!(results(&sheet), stored_step(), "{others}");
    }
    let some = sheet.replace(all, &format!("wall-flux\n2  -2\n{asked}"));
    let Fields::Step(fields) = Sheet::read(some.as_bytes()).unwrap().fields else {
        panic!("it has no wall flux");
    };
    let walls: Vec<u64> = fields.walls.values().iter().map(|x| x.to_bits()).collect();
    let lent = [0.0, 0.0, -2.0, 0.5, -0.6, 0.3, 1.0];
    assert_eq!(walls, lent.map(f64::to_bits));
}

#[test]
fn a_step_over_two_links_gives_the_stored_bits() {
    let sheet = std::fs::read_to_string(own("linked.sheet")).unwrap();
    let expected = of_step(&stored_by("pairs", "step", "as it stands"));
    assert_eq!(results(&sheet), expected);
    let infinite = sheet.replace("wall-flux\n", "wall-flux\n0,2-5,8 inf\n");
    assert_ne!(infinite, sheet);
    assert_eq!(results(&infinite), expected);
}

/// What leaves the square on the one side comes back on the other.
#[test]
fn a_step_without_any_wall_flux() {
    let [flux, outflow, metrics] = results(SQUARE);
    assert_eq!(flux, [-2.0, 2.0, 8.0, -8.0].map(f64::to_bits));
    assert_eq!(outflow, [0.0].map(f64::to_bits));
    assert_eq!(metrics, [0.0; 2].map(f64::to_bits));
    let given = format!("{SQUARE}wall-flux uniform nan\n");
    assert_eq!(printed(&given), printed(SQUARE));
    let begun = format!("{SQUARE}wall-flux\n");
    assert_eq!(printed(&begun), printed(SQUARE));
}

/// Were two fields of one kind taken for each other, the stored bits would not come out.
#[test]
fn no_two_fields_of_a_step_can_be_exchanged() {
    let cells = ["pressure\n", "momentum-response\n", "pressure-correction\n"];
    for (first, second) in [(0, 1), (0, 2), (1, 2)] {
        let exchanged = exchange(&step_sheet(), cells[first], cells[second]);
        let (output, error, _) = told(&["-"], &exchanged);
        assert_eq!(error, "");
        assert!(!output.starts_with("face flux") || results(&exchanged) != stored_step());
    }
}

#[test]
fn no_two_fields_of_a_correction_can_be_exchanged() {
    let exchanged = exchange(
        &correction_sheet(),
        "predicted-flux\n",
        "face-coefficient\n",
    );
    let (output, error, status) = told(&["-"], &exchanged);
    assert_eq!((error.as_str(), status), ("", 3), "{output}");
}

/// The sheet with two words in each other's place.
fn exchange(sheet: &str, first: &str, second: &str) -> String {
    let first = format!("\n\n{first}");
    let second = format!("\n\n{second}");
    assert!(sheet.matches(&first).count() == 1 && sheet.matches(&second).count() == 1);
    let parked = sheet.replace(&first, "\n\n?\n").replace(&second, &first);
    parked.replace("\n\n?\n", &second)
}

#[test]
fn a_correction_gives_the_stored_bits() {
    let [flux, outflow, _] = results(&correction_sheet());
    assert_eq!(
        flux,
        stored("correct_face_flux_with_boundary", "as it stands")[0]
    );
    let f: Vec<f64> = flux.iter().map(|&bits| f64::from_bits(bits)).collect();
    let by_hand = [
        0.0 + f[0] + f[1] + f[3] + f[4],
        0.0 - f[0] + f[2] + f[5] + f[6],
    ];
    assert_eq!(outflow, by_hand.map(f64::to_bits));
}

/// P8 of document 01 at face 0 and P9 at face 1, and the outflows and metrics of the two fluxes.
#[test]
fn a_correction_by_hand() {
    let sheet = "form correction\ndimension 3\nfaces\n0 0 1\n1 1 -\ncells\n0 2\n1 4\n\
        conditions\n1 fixed-value 1\npredicted-flux\n0 2\n1 0\nface-coefficient\n0 0.5\n1 2\n\
        pressure-correction\n0 2\n1 4\n";
    // 2 - 0.5 (4 - 2) = 1; 0 - 2 (1 - 4) = 6; outflows 1 and 6 - 1 = 5; mean square 13; 1/2 and 5/4
    let [flux, outflow, metrics] = results(sheet);
    assert_eq!(flux, [1.0, 6.0].map(f64::to_bits));
    assert_eq!(outflow, [1.0, 5.0].map(f64::to_bits));
    assert_eq!(metrics, [13f64.sqrt(), 1.25].map(f64::to_bits));
}

#[test]
fn a_face_order_of_its_own_is_taken() {
    let (sheet, _) = changed(&step_sheet(), "1  0 2 5 6", "0-1  0 2 5 6");
    assert_eq!(told(&["-"], &sheet).2, 4);
    let (sheet, _) = changed(&step_sheet(), "1  0 2 5 6", "1  6 0 5 2");
    let read = sheet::Sheet::read(sheet.as_bytes()).unwrap();
    // records of cell 1 come after the four of cell 0: face, next
    assert_eq!(read.mesh.facing()[8..], [6, 6, 0, 7, 5, 8, 2, 0]);
    assert_eq!(read.mesh.facing()[..8], [0, 2, 1, 3, 3, 4, 4, 0]);
}

#[test]
fn a_uniform_field_and_a_default_are_taken_everywhere_else() {
    let sheet = correction_sheet()
        .replace(
            "conditions\n4,5  zero-gradient\n",
            "conditions default zero-gradient\n",
        )
        .replace(
            "face-coefficient\n0     0.5\n1-2   1\n3     2\n4-5   0\n",
            "face-coefficient default 0\n0 0.5\n1-2 1\n3 2\n",
        );
    assert_eq!(printed(&sheet), printed(&correction_sheet()));
    let sheet = correction_sheet().replace("cells\n0-1  1\n", "cells\n0 1\n1 1\n");
    let uniform = sheet.replace(
        "pressure-correction\n0  1\n1  3\n",
        "pressure-correction uniform 2\n",
    );
    let [flux, ..] = results(&uniform);
    // no difference of corrections: only the fixed values change a flux, 0 - 2 (4 - 2) and -0.3 - 0.7 (2 - 2)
    let expected = [2.0, -1.0, 1.0, -4.0, 0.1, 0.2, -0.3];
    assert_eq!(flux, expected.map(f64::to_bits));
}

/// P7 of document 01: between unit cubes of response 0.5 the coefficient is 0.5. The flux of a velocity of 3 is
/// 3, and the correction takes 0.5 (1 - 0) from it.
#[test]
fn a_step_in_space_by_hand() {
    let [flux, outflow, metrics] = results(CUBES);
    let mut expected = [0.0; 11];
    expected[..3].copy_from_slice(&[2.5, -3.0, 3.0]);
    assert_eq!(flux, expected.map(f64::to_bits));
    assert_eq!(outflow, [-0.5, 0.5].map(f64::to_bits));
    assert_eq!(metrics, [0.5, 0.5].map(f64::to_bits));
}

/// The same cubes with the ends linked, velocities of 3 and 5 and pressures of 7 and 9. Over the link as between
/// the cubes the velocity is 4 and the coefficient 0.5, and the pressure gradient is 0: it rises by 2 on one side
/// of a cube and falls by 2 on the other. Face 0 is predicted with 4 - 0.5 (9 - 7), face 1 with -4 - 0.5 (9 - 7);
/// of 0.5 and 1 the correction takes 0.5 (1 - 0.5) from either, and face 2 gives back what face 1 takes.
#[test]
fn a_step_over_a_link_by_hand() {
    let sheet = CUBES
        .replace("conditions", "links\n1 2  2 0 0\nconditions")
        .replace("velocity uniform 3 0 0", "velocity\n0 3 0 0\n1 5 0 0")
        .replace("pressure uniform 7", "pressure\n0 7\n1 9")
        .replace("0  0\n1  1\n", "0  0.5\n1  1\n");
    let without = sheet.replace("wall-flux default 0\n1  -3\n2   3\n", "wall-flux\n3-10 0\n");
    assert_ne!(without, sheet);
    for sheet in [sheet, without] {
        let [flux, outflow, metrics] = results(&sheet);
        let mut expected = [0.0; 11];
        expected[..3].copy_from_slice(&[2.75, -5.25, 5.25]);
        assert_eq!(flux, expected.map(f64::to_bits));
        assert_eq!(outflow, [-2.5, 2.5].map(f64::to_bits));
        assert_eq!(metrics, [2.5, 2.5].map(f64::to_bits));
    }
}

/// The cube beyond the link is 4 away, its centre 3.5 from the face and that of the face's own cell 0.5. Face 1 is
/// predicted with -(3.5 x 2 + 0.5 x 10) / 4 = -3; face 2 has 3, though by its own link it would have
/// (3.5 x 10 + 0.5 x 2) / 4 = 9. The coefficients are 0.5 x 4 / 16, so that the corrected fluxes are opposite too,
/// or twice that at face 2 where its area is twice as large.
#[test]
fn the_higher_of_two_linked_faces_has_the_flux_of_the_lower() {
    let sheet = CUBES
        .replace("conditions", "links\n1 2  5 0 0\nconditions")
        .replace("velocity uniform 3 0 0", "velocity\n0 2 0 0\n1 10 0 0")
        .replace("default 0\n1  -3\n2   3\n", "uniform 0\n")
        .replace("0  0\n1  1\n", "0  0\n1  8\n");
    let (larger, _) = changed(&sheet, "2 0.5 0.5    1 0 0", "2 0.5 0.5    2 0 0");
    for (sheet, higher) in [(sheet, 3.0 + 0.125 * 8.0), (larger, 3.0 + 0.25 * 8.0)] {
        let [flux, outflow, metrics] = results(&sheet);
        let mut expected = [0.0; 11];
        expected[..3].copy_from_slice(&[6.0 - 0.5 * 8.0, -3.0 - 0.125 * 8.0, higher]);
        assert_eq!(flux, expected.map(f64::to_bits));
        let left = higher - 2.0;
        assert_eq!(outflow, [-2.0, left].map(f64::to_bits));
        let mean: f64 = (4.0 + left * left) / 2.0;
        assert_eq!(metrics, [mean.sqrt(), left].map(f64::to_bits));
    }
}

/// Each number of a face's and a cell's line goes to its own place.
#[test]
fn geometry_is_taken_as_it_is_given() {
    let text = CUBES
        .replace(
            "1  0 -  0 0.5 0.5   -1 0 0   -1 0 0",
            "1  0 -  11 12 13   14 15 16   17 18 19",
        )
        .replace("1  1.5 0.5 0.5  1", "1  21 22 23  24");
    let read = sheet::Sheet::read(text.as_bytes()).unwrap();
    let face = read.mesh.face(1).unwrap();
    assert_eq!((face.owner, face.neighbour), (0, None));
    assert_eq!(face.center, [11.0, 12.0, 13.0]);
    assert_eq!(face.area_vector, [14.0, 15.0, 16.0]);
    assert_eq!(face.normal, [17.0, 18.0, 19.0]);
    let cell = read.mesh.cell(1).unwrap();
    assert_eq!((cell.center, cell.volume), ([21.0, 22.0, 23.0], 24.0));
    let (text, _) = changed(
        &step_sheet(),
        "1 -  2 0.5    1 0    1 0",
        "1 -  31 32  33 34  35 36",
    );
    let read = sheet::Sheet::read(text.as_bytes()).unwrap();
    let face = read.mesh.face(2).unwrap();
    assert_eq!(face.center, [31.0, 32.0, 0.0]);
    assert_eq!(face.area_vector, [33.0, 34.0, 0.0]);
    assert_eq!(face.normal, [35.0, 36.0, 0.0]);
}

/// A normal that is not given is the area vector over its length: 3, 4 and 5.
#[test]
fn a_normal_is_worked_out() {
    let (text, _) = changed(
        &step_sheet(),
        "1 -  2 0.5    1 0    1 0",
        "1 -  2 0.5    -6 8",
    );
    let read = sheet::Sheet::read(text.as_bytes()).unwrap();
    assert_eq!(read.mesh.face(2).unwrap().normal, [-0.6, 0.8, 0.0]);
}

/// The distances of a face are not written: they are those of the centres, (3, 4) apart at face 2, and of links.
#[test]
fn distances_are_worked_out() {
    let (linked, _) = changed(
        &step_sheet(),
        "1 -  2 0.5    1 0    1 0",
        "1 -  4.5 4.5    1 0",
    );
    let alone = linked.replace("links\n1 2  2 0\n", "");
    assert_ne!(alone, linked);
    for (text, beyond) in [(linked, [5.0, 0.5]), (alone, [0.0, 0.0])] {
        let read = sheet::Sheet::read(text.as_bytes()).unwrap();
        let distances = read.mesh.face_distances(&read.conditions).unwrap();
        let own = [0.5, 0.5, 5.0, 0.5, 0.5, 0.5, 0.5];
        assert_eq!(distances.own.values(), own);
        let other = [0.5, beyond[0], beyond[1], 0.0, 0.0, 0.0, 0.0];
        assert_eq!(distances.other.values(), other);
    }
}

#[test]
fn geometry_from_points_is_the_geometry_given() {
    let folder = common::own("polymesh/two-cubes");
    let text = sheet::polymesh::import(&folder).unwrap();
    let [points, given] =
        [text.as_str(), CUBES].map(|text| sheet::Sheet::read(text.as_bytes()).unwrap());
    assert_eq!(points.mesh.geometry(), given.mesh.geometry());
    assert_eq!(points.mesh.places(), given.mesh.places());
    assert_eq!(points.mesh.adjacency(), given.mesh.adjacency());
}
