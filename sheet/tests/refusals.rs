//! The refusals that a sheet can meet: what is printed of each, and what docs/REFUSALS.md says of it.

mod common;

use common::{
    changed, correction_sheet, listed, printed, step_sheet, text, told, CUBES, NOT_MET, NUMBERS,
    SQUARE, SQUARES,
};
use engine::Refusal;
use sheet::run::Refused;
use sheet::{report, AnySheet, Sheet};

/// A sheet without a cell.
const EMPTY: &str = "form correction\ndimension 2\nfaces\ncells\npredicted-flux\nface-coefficient\npressure-correction\n";

/// Sheets, and the four lines that are printed of each.
fn refused() -> Vec<(String, [&'static str; 4])> {
    let step = |old, new| changed(&step_sheet(), old, new).0;
    let correction = |old, new| changed(&correction_sheet(), old, new).0;
    let diagonal = step_sheet().replace(
        "momentum-response\n0  0.5\n1  0.25",
        "momentum-diagonal\n0  2\n1  0",
    );
    let flat = CUBES
        .replace(
            "4  1 -  1.5 0.5 0    0 0 -1\n",
            "4  1 -  1.5 0.5 0    0 0 -1   0 0 0\n",
        )
        .replace(
            "6  1 -  1.5 0.5 1    0 0 1\n",
            "6  1 -  1.5 0.5 1    0 0 1   0 0 0\n",
        );
    vec![
        (EMPTY.to_string(), [
            "bad size at 0.",
            "refusal 1 index 0 by correct_face_flux_with_boundary",
            "the mesh has no cell, over 65,535 cells, faces, chain entries or equation records, or there is too little room for the stencil's equations",
            "a mesh needs a cell, and at most 65,535 each of: faces counted cell by cell, neighbours counted cell by cell, equations of the stencil; take fewer cells or faces",
        ]),
        (correction("1 2  2 0", "1 1  2 0"), [
            "bad link at 1.",
            "refusal 6 index 1 by correct_face_flux_with_boundary",
            "face 1 has a link but two cells, or is linked to itself, to a missing face or to one that is not linked back",
            "in `links`, pair two different faces that have one cell each",
        ]),
        // face 3, of fixed value, in the centre of its cell
        (step("3  0 -  0.5 0    0 -1", "3  0 -  0.5 0.5  0 -1"), [
            "too near at 3.",
            "refusal 7 index 3 by step",
            "face 3 has centres that are too near to each other or at no finite distance: of its two cells, of its cell and the one beyond its link, or of its cell and itself",
            "look at the points of face 3 and its cells, or at the centres in `faces` and `cells`, and at the translation in `links`: these centres must not be in one place",
        ]),
        // faces below and above cell 1 that look nowhere
        (flat, [
            "singular stencil at 1.",
            "refusal 8 index 1 by step",
            "cell 1 has too few equations in different directions to fix a gradient",
            "look at the faces of cell 1 and at `dimension`: its neighbours, links and conditions have to lie in as many directions as the mesh has",
        ]),
        // an area vector that leads into the owner
        (step("3  0 -  0.5 0    0 -1", "3  0 -  0.5 0    0 1"), [
            "bad coefficient at 3.",
            "refusal 9 index 3 by step",
            "face 3 has a coefficient that is not finite or not above 0, or a flux that is not finite",
            "look at face 3: its area vector has to lead out of its owner, towards the other side, the responses of its cells have to be above 0, and velocity, pressure, wall flux and correction so small that fluxes and outflows stay finite",
        ]),
        // an area vector that leads away from the cell beyond the link
        (step("1  0 -  0 0.5   -1 0", "1  0 -  0 0.5    1 0"), [
            "bad coefficient at 1.",
            "refusal 9 index 1 by step",
            "face 1 has a coefficient that is not finite or not above 0, or a flux that is not finite",
            "look at face 1: its area vector has to lead out of its owner, towards the cell beyond its link to face 2, which the translation in `links` moves back, the responses of both cells have to be above 0, and velocity, pressure and correction so small that fluxes and outflows stay finite; no wall flux is read there",
        ]),
        // a translation that moves the cell beyond to the other side
        (step("1 2  2 0", "1 2  -2 0"), [
            "bad coefficient at 1.",
            "refusal 9 index 1 by step",
            "face 1 has a coefficient that is not finite or not above 0, or a flux that is not finite",
            "look at face 1: its area vector has to lead out of its owner, towards the cell beyond its link to face 2, which the translation in `links` moves back, the responses of both cells have to be above 0, and velocity, pressure and correction so small that fluxes and outflows stay finite; no wall flux is read there",
        ]),
        // a flux that is predicted at the higher of two linked faces alone
        (step("2  1 -  2 0.5    1 0    1 0", "2  1 -  2 0.5    1e308 0    1 0"), [
            "bad coefficient at 2.",
            "refusal 9 index 2 by step",
            "face 2 has a coefficient that is not finite or not above 0, or a flux that is not finite",
            "look at face 2: its area vector has to lead out of its owner, towards the cell beyond its link to face 1, which the translation in `links` moves back, the responses of both cells have to be above 0, and velocity, pressure and correction so small that fluxes and outflows stay finite; no wall flux is read there",
        ]),
        // face 0 is linked, or an outflow is not finite
        (SQUARE.replace("uniform 2 8", "uniform inf 0"), [
            "bad coefficient at 0.",
            "refusal 9 index 0 by step",
            "face 0 has a coefficient that is not finite or not above 0 or a flux that is not finite, or an outflow or a metric is not finite",
            "look at face 0 as at any such face (area vector out of its owner, towards the cell beyond its link to face 1, which the translation in `links` moves back; responses above 0); where it is sound, look at every face and cell for values of velocity, pressure, wall flux or correction that are not finite, or so large that a flux or an outflow is not",
        ]),
        (correction("3     2", "3     0"), [
            "bad coefficient at 3.",
            "refusal 9 index 3 by correct_face_flux_with_boundary",
            "face 3 has a coefficient that is not finite or not above 0, or a flux that is not finite",
            "look at face 3: its `face-coefficient` has to be finite and above 0, and its `predicted-flux` and the `pressure-correction` of its cells so small that its flux stays finite",
        ]),
        // face 4 has a zero gradient, and keeps its flux
        (step("4  -0.6", "4  inf"), [
            "bad coefficient at 0.",
            "refusal 9 index 0 by step",
            "face 0 has a coefficient that is not finite or not above 0 or a flux that is not finite, or an outflow or a metric is not finite",
            "look at face 0 as at any such face (area vector out of its owner, responses above 0); where it is sound, look at every face and cell for values of velocity, pressure, wall flux or correction that are not finite, or so large that a flux or an outflow is not",
        ]),
        (correction("4   0.1", "4   inf"), [
            "bad coefficient at 0.",
            "refusal 9 index 0 by continuity_metrics",
            "face 0 has a coefficient that is not finite or not above 0 or a flux that is not finite, or an outflow or a metric is not finite",
            "take smaller fluxes: an outflow, its square or its quotient with the volume is not finite; 0 names no face",
        ]),
        (step("6    fixed-value 2", "6    absent"), [
            "no condition at 6.",
            "refusal 10 index 6 by step",
            "face 6 has one cell and neither a link nor a condition",
            "give face 6 a condition in `conditions`, or link it in `links`",
        ]),
        (diagonal, [
            "bad diagonal at 1.",
            "refusal 11 index 1 by momentum_inverse_diagonal",
            "cell 1 has a momentum diagonal or response that is not finite or not above 0, or a velocity that is not finite",
            "give cell 1 a `momentum-diagonal` that is finite and above 0",
        ]),
        (correction("0-1  1", "0  1\n1  0"), [
            "bad volume at 1.",
            "refusal 12 index 1 by continuity_metrics",
            "cell 1 has a volume that is at most 0 or, where outflows are divided by it, not finite",
            "give cell 1 a volume that is finite and above 0 in `cells`: its outflow is divided by it",
        ]),
        (cubes_with(21), [
            "refusal 14 at 1.",
            "refusal 14 index 1 by step",
            "cell 1 has more than 26 faces",
            "split cell 1 into smaller ones, or join several of its faces into one: in `faces`, at most 26 may name a cell",
        ]),
        (correction_with(23), [
            "refusal 14 at 1.",
            "refusal 14 index 1 by correct_face_flux_with_boundary",
            "cell 1 has more than 26 faces",
            "split cell 1 into smaller ones, or join several of its faces into one: in `faces`, at most 26 may name a cell",
        ]),
    ]
}

/// The squares of a gradient after a change, with values at the faces where they are given in place of the
/// pressure.
fn squares(old: &str, new: &str, given: bool) -> String {
    let sheet = changed(SQUARES, old, new).0;
    match given {
        true => sheet.replace("pressure\n0  1\n1  3\n", "face-value uniform 1\n"),
        false => sheet,
    }
}

/// The same of `form gradient`.
fn refused_gradients() -> Vec<(String, [&'static str; 4])> {
    let hollow = |given| squares("1  1.5 0.5  1", "1  1.5 0.5  -0", given);
    let hollow_with = |entry: &str| hollow(false) + entry;
    let crowd = |given| {
        let last = "6  1 -  1.5 1    0 1";
        squares(last, &format!("{last}\n7-29  1 -  1.5 1  0 1"), given)
    };
    let volume = [
        "bad volume at 1.",
        "refusal 12 index 1 by pressure_coupling_gradient_without_conditions",
        "cell 1 has a volume that is at most 0 or, where outflows are divided by it, not finite",
        "give cell 1 a volume above 0 in `cells`: its gradient is divided by it",
    ];
    let many = [
        "refusal 14 at 1.",
        "refusal 14 index 1 by pressure_coupling_gradient_without_conditions",
        "cell 1 has more than 26 faces",
        "split cell 1 into smaller ones, or join several of its faces into one: in `faces`, at most 26 may name a cell",
    ];
    let by = |lines: [&'static str; 4], second| [lines[0], second, lines[2], lines[3]];
    vec![
        ("form gradient\ndimension 3\nfaces\ncells\nface-value\n".to_string(), [
            "bad size at 0.",
            "refusal 1 index 0 by gauss_gradient_from_faces",
            "the mesh has no cell, over 65,535 cells, faces, chain entries or equation records, or there is too little room for the stencil's equations",
            "a mesh needs a cell, and at most 65,535 each of: faces counted cell by cell, neighbours counted cell by cell, equations of the stencil; take fewer cells or faces",
        ]),
        (format!("{SQUARES}links\n2 2  2 0\n"), [
            "bad link at 2.",
            "refusal 6 index 2 by pressure_coupling_gradient",
            "face 2 has a link but two cells, or is linked to itself, to a missing face or to one that is not linked back",
            "in `links`, pair two different faces that have one cell each",
        ]),
        (hollow(false), volume),
        (hollow_with("conditions\n"), by(volume, "refusal 12 index 1 by pressure_coupling_gradient")),
        (hollow_with("links\n1 2  2 0\n"), by(volume, "refusal 12 index 1 by pressure_coupling_gradient")),
        (hollow(true), by(volume, "refusal 12 index 1 by gauss_gradient_from_faces")),
        (crowd(false), many),
        (crowd(false) + "conditions\n", by(many, "refusal 14 index 1 by pressure_coupling_gradient")),
        (crowd(true), by(many, "refusal 14 index 1 by gauss_gradient_from_faces")),
    ]
}

/// The two cubes with so many faces more above cell 1, which has six.
fn cubes_with(more: usize) -> String {
    let last = "10  1 -  1.5 1 0.5   0 1 0\n";
    let all = format!("{last}11-{}  1 -  1.5 1 0.5   0 1 0\n", 10 + more);
    CUBES.replace(last, &all)
}

/// The two squares in `form correction` with so many faces more of cell 1, which has four; they keep their flux.
fn correction_with(more: usize) -> String {
    let added = format!("7-{}", 6 + more);
    let mut sheet = correction_sheet();
    for (last, item) in [
        ("6  1 -", "1 -"),
        ("6    fixed-value 2", "zero-gradient"),
        ("6  -0.3", "0"),
        ("6     0.7", "0"),
    ] {
        sheet = changed(&sheet, last, &format!("{last}\n{added}  {item}")).0;
    }
    sheet
}

#[test]
fn a_refusal_is_the_result_of_a_sheet() {
    for (sheet, lines) in refused().into_iter().chain(refused_gradients()) {
        let (output, error, status) = told(&["-"], &sheet);
        let printed: Vec<&str> = output.lines().collect();
        assert_eq!(printed, lines);
        assert!(output.ends_with('\n'));
        assert_eq!((error.as_str(), status), ("", 3));
    }
}

/// With 26 faces to a cell both forms are accepted, and the faces that were there have the fluxes that they had.
#[test]
fn as_many_faces_as_a_cell_may_have() {
    for (sheet, crowd, faces) in [
        (CUBES.to_string(), cubes_with(20), 11),
        (correction_sheet(), correction_with(22), 7),
    ] {
        let mesh = Sheet::read(crowd.as_bytes()).unwrap().mesh;
        let names = |pair: &&[usize]| pair[0] == 1 || pair[1] == 2;
        assert_eq!(mesh.adjacency().chunks_exact(2).filter(names).count(), 26);
        let flux = listed(&printed(&crowd), "face flux");
        assert_eq!(flux[..faces], listed(&printed(&sheet), "face flux"));
        assert!(flux[faces..].iter().all(|&bits| bits == 0));
    }
}

/// With 26 faces of cell 1 a gradient is accepted, and so is one without a condition anywhere.
#[test]
fn what_a_gradient_is_not_refused_for() {
    let last = "6  1 -  1.5 1    0 1";
    let crowd = changed(
        SQUARES,
        last,
        &format!("{last}\n7-28  1 -  1.5 1  0 0  0 1"),
    )
    .0;
    let names = |pair: &&[usize]| pair[0] == 1 || pair[1] == 2;
    let AnySheet::Gradient(read) = AnySheet::read(crowd.as_bytes()).unwrap() else {
        panic!("it has fluxes");
    };
    let adjacency = read.mesh.adjacency();
    assert_eq!(adjacency.chunks_exact(2).filter(names).count(), 26);
    assert_eq!(printed(&crowd), printed(SQUARES));
    let absent = format!("{SQUARES}conditions uniform absent\n");
    assert_eq!(printed(&absent), printed(SQUARES));
    // no link is lent beside values at the faces
    let given = SQUARES.replace("pressure\n0  1\n1  3\n", "face-value uniform 1\n");
    let linked = format!("{given}links\n2 2  2 0\n");
    assert_eq!(printed(&linked), printed(&given));
}

/// 14 comes before 6.
#[test]
fn too_many_faces_and_a_bad_link() {
    for (more, answer) in [
        (22, "bad link at 1.\nrefusal 6 index 1 "),
        (23, "refusal 14 at 1.\nrefusal 14 index 1 "),
    ] {
        let (sheet, _) = changed(&correction_with(more), "1 2  2 0", "1 1  2 0");
        let (output, _, status) = told(&["-"], &sheet);
        assert!(output.starts_with(answer), "{output}");
        assert_eq!(status, 3);
    }
}

#[test]
fn every_number_is_met_or_cannot_be() {
    for number in NUMBERS {
        let start = format!("refusal {number} index ");
        let met = refused()
            .iter()
            .any(|(_, lines)| lines[1].starts_with(&start));
        assert_ne!(met, NOT_MET.contains(&number), "{number}");
    }
}

/// What would be printed of a refusal by a step.
fn of_a_step(number: u64, index: usize) -> String {
    report::refusal(&Refused {
        by: "step",
        refusal: Refusal::new(number, index),
        peer: None,
    })
}

#[test]
fn where_no_sheet_meets_it_the_sheet_is_to_be_kept() {
    let advice = "no sheet is known that meets this: keep the sheet and report it\n";
    for number in NUMBERS {
        let printed = of_a_step(number, 3);
        assert_eq!(
            printed.ends_with(advice),
            NOT_MET.contains(&number),
            "{number}"
        );
    }
    let lines = "refusal 20 at 3.\nrefusal 20 index 3 by step\n\
        face 3 carries a distance that is not, bit for bit, the one that the geometry gives\n";
    assert_eq!(of_a_step(20, 3), format!("{lines}{advice}"));
}

#[test]
fn of_several_bad_links_the_lowest_face_is_told() {
    // faces 5 and 4 to themselves, and face 6 with face 0, which has two cells
    for (links, lowest) in [
        ("5 5  2 0\n4 4  2 0\n1 2  2 0", 4),
        ("5 5  2 0\n6 0  2 0", 0),
    ] {
        for (sheet, call) in [
            (step_sheet(), "step"),
            (correction_sheet(), "correct_face_flux_with_boundary"),
        ] {
            let (sheet, _) = changed(&sheet, "1 2  2 0", links);
            let (output, _, status) = told(&["-"], &sheet);
            let expected = format!("bad link at {lowest}.\nrefusal 6 index {lowest} by {call}\n");
            assert!(output.starts_with(&expected), "{output}");
            assert_eq!(status, 3);
        }
    }
}

/// The page's table has the sentence of each number, as it was stored from document 02, and a section.
#[test]
fn the_page_has_every_sentence() {
    let page = text("docs/REFUSALS.md");
    let stored = text("crates/sentences/stdout");
    for number in NUMBERS {
        let index = if number <= 3 { 0 } else { 7 };
        let start = format!("{number} {index} exact: ");
        let line = stored.lines().find(|line| line.starts_with(&start));
        let sentence = line.unwrap().split('|').nth(1).unwrap();
        let row = format!("\n| {number} | `{sentence}` | ");
        assert_eq!(page.matches(&row).count(), 1, "{row}");
        // a later number's phrase is its number, and no heading
        let (phrase, _) = sentence.split_once(" at ").unwrap();
        let heading = match number {
            1..=12 => format!("\n### {number}: {phrase}\n"),
            _ => format!("\n### {number}: "),
        };
        assert_eq!(page.matches(&heading).count(), 1, "{heading}");
    }
}

/// The page's example is what is printed.
#[test]
fn the_page_shows_what_is_printed() {
    let sheet = CUBES.replace("conditions", "links\n7 7  0 0 0\nconditions");
    let (output, _, status) = told(&["-"], &sheet);
    let shown: String = output.lines().map(|line| format!("    {line}\n")).collect();
    assert!(text("docs/REFUSALS.md").contains(&shown), "{shown}");
    assert_eq!(status, 3);
}
