//! Mistakes in a sheet: the line and the reason, one test for each kind.

mod common;

use common::{changed, correction_sheet, mistake, shipped, step_sheet, told, CUBES, SQUARES};

/// After a change of the line with `old` in it, the mistake on that line is told for `reason`.
fn told_there(sheet: &str, old: &str, new: &str, reason: &str) {
    let (sheet, line) = changed(sheet, old, new);
    told_at(&sheet, line, reason);
}

fn told_at(sheet: &str, line: usize, reason: &str) {
    let found = mistake(sheet);
    assert_eq!((found.line, found.reason.as_str()), (line, reason));
}

/// The line of a sheet that is, or begins with, some text.
fn line_of(sheet: &str, start: &str) -> usize {
    sheet
        .lines()
        .position(|line| line.starts_with(start))
        .unwrap()
        + 1
}

fn last_line(sheet: &str) -> usize {
    sheet.lines().count()
}

fn without(sheet: &str, part: &str) -> String {
    assert_eq!(sheet.matches(part).count(), 1, "{part}");
    sheet.replace(part, "")
}

#[test]
fn an_empty_file() {
    told_at(
        "",
        1,
        "the sheet ends without `form`, which every sheet needs",
    );
    told_at(
        "# nothing\n\n",
        2,
        "the sheet ends without `form`, which every sheet needs",
    );
}

#[test]
fn bytes_that_are_no_text() {
    let found = sheet::Sheet::read(b"form step\n# \xff\n").unwrap_err();
    assert_eq!(
        (found.line, found.reason.as_str()),
        (2, "expected text in UTF-8, found other bytes")
    );
}

#[test]
fn an_unknown_word() {
    told_there(&step_sheet(), "links", "lynx", "`lynx` is no word of a sheet: expected an item, which begins with its number, or one of form, dimension, points, faces, cells, face-order, conditions, links, velocity, pressure, momentum-diagonal, momentum-response, wall-flux, pressure-correction, predicted-flux, face-coefficient, face-value");
}

#[test]
fn an_item_before_any_word() {
    told_at(
        "7 8\nform step\n",
        1,
        "expected a word such as `form` first, found `7`",
    );
}

#[test]
fn a_word_given_twice() {
    let sheet = step_sheet() + "links\n";
    let first = line_of(&sheet, "links");
    told_at(
        &sheet,
        last_line(&sheet),
        &format!("`links` is given twice, first on line {first}"),
    );
}

#[test]
fn a_wrong_form() {
    told_there(
        &step_sheet(),
        "form step",
        "form steps",
        "expected `form step`, `form correction` or `form gradient`, found `steps`",
    );
    told_there(
        &step_sheet(),
        "form step",
        "form",
        "expected `step`, `correction` or `gradient` after `form`, on its line",
    );
    told_at("form step\n4\n", 2, "`form` has no items below it");
}

#[test]
fn a_wrong_dimension() {
    told_there(
        &step_sheet(),
        "dimension 2",
        "dimension 4",
        "expected `dimension 2` or `dimension 3`, found `4`",
    );
    let sheet = without(&step_sheet(), "dimension 2\n");
    told_at(
        &sheet,
        last_line(&sheet),
        "the sheet ends without `dimension`, which every sheet needs",
    );
}

#[test]
fn a_missing_field() {
    let sheet = without(&step_sheet(), "pressure\n0  0.1\n1  0.7\n");
    told_at(
        &sheet,
        last_line(&sheet),
        "the sheet ends without `pressure`, which a sheet of this form needs",
    );
    let sheet = without(&step_sheet(), "momentum-response\n0  0.5\n1  0.25\n");
    told_at(&sheet, last_line(&sheet), "the sheet ends without `momentum-diagonal` or `momentum-response`, one of which `form step` needs");
}

#[test]
fn a_missing_wall_flux() {
    let items = "wall-flux\n0   0\n1   2\n2  -2\n3   0.5\n4  -0.6\n5   0.3\n6   1\n";
    let sheet = without(&step_sheet(), items);
    let reason = "the sheet ends without `wall-flux`, which face 3 with one cell and no link needs";
    told_at(&sheet, last_line(&sheet), reason);
    let reason = "the sheet ends without `wall-flux`, which face 1 with one cell and no link needs";
    let sheet = without(CUBES, "wall-flux default 0\n1  -3\n2   3\n");
    told_at(&sheet, last_line(&sheet), reason);
}

/// It is asked for at faces 3 to 6, and without the link at faces 1 and 2.
#[test]
fn a_missing_item_of_the_wall_flux() {
    let reason = |face, given, of| {
        format!("`wall-flux` has no value for face {face}, which has one cell and no link: it has {given} of {of}, and no default")
    };
    let missing = |item: &str| {
        let sheet = without(&step_sheet(), item);
        let line = line_of(&sheet, "wall-flux");
        (sheet, line)
    };
    let (sheet, line) = missing("3   0.5\n");
    told_at(&sheet, line, &reason(3, 3, 4));
    let (sheet, line) = missing("4  -0.6\n5   0.3\n");
    told_at(&sheet, line, &reason(4, 2, 4));
    let (sheet, line) = missing("0   0\n1   2\n2  -2\n3   0.5\n4  -0.6\n5   0.3\n6   1\n");
    told_at(&sheet, line, &reason(3, 0, 4));
    // of internal and linked faces nothing is missed
    let (sheet, _) = missing("0   0\n1   2\n2  -2\n");
    let unlinked = without(&sheet, "links\n1 2  2 0\n");
    let line = line_of(&unlinked, "wall-flux");
    told_at(&unlinked, line, &reason(1, 4, 6));
    let (other, _) = changed(&sheet, "1 2  2 0", "1 3  2 0");
    told_at(&other, line_of(&other, "wall-flux"), &reason(2, 3, 4));
}

/// What is not read is read as a number all the same.
#[test]
fn a_wrong_wall_flux_of_a_linked_face() {
    told_there(
        &step_sheet(),
        "1   2",
        "1   none",
        "expected a number, found `none`: a decimal, or 16 hexadecimal digits as bits",
    );
    told_there(&step_sheet(), "2  -2", "2", "expected one number, found 0");
    let sheet = step_sheet();
    let first = line_of(&sheet, "2  -2");
    let reason = format!("face 2 is given twice, first on line {first}");
    told_there(&sheet, "3   0.5", "2-3   0.5", &reason);
    let sheet = step_sheet().replace("wall-flux\n", "wall-flux default\n");
    let line = line_of(&sheet, "wall-flux");
    told_at(&sheet, line, "expected one number, found 0");
}

#[test]
fn a_field_of_the_other_form() {
    let sheet = step_sheet() + "predicted-flux uniform 0\n";
    told_at(
        &sheet,
        last_line(&sheet),
        "`predicted-flux` is no field of `form step`",
    );
    let sheet = correction_sheet() + "velocity uniform 0 0\n";
    told_at(
        &sheet,
        last_line(&sheet),
        "`velocity` is no field of `form correction`",
    );
    for (sheet, form) in [(step_sheet(), "step"), (correction_sheet(), "correction")] {
        let sheet = sheet + "face-value uniform 0\n";
        let reason = format!("`face-value` is no field of `form {form}`");
        told_at(&sheet, last_line(&sheet), &reason);
    }
    for field in [
        "velocity uniform 0 0",
        "momentum-diagonal uniform 1",
        "momentum-response uniform 1",
        "wall-flux uniform 0",
        "pressure-correction uniform 0",
        "predicted-flux uniform 0",
        "face-coefficient uniform 0",
    ] {
        let sheet = format!("{SQUARES}{field}\n");
        let (name, _) = field.split_once(' ').unwrap();
        let reason = format!("`{name}` is no field of `form gradient`");
        told_at(&sheet, last_line(&sheet), &reason);
    }
}

#[test]
fn neither_a_pressure_nor_values_at_the_faces() {
    let sheet = without(SQUARES, "pressure\n0  1\n1  3\n");
    told_at(
        &sheet,
        last_line(&sheet),
        "the sheet ends without `pressure` or `face-value`, one of which `form gradient` needs",
    );
}

#[test]
fn values_at_the_faces_beside_a_pressure() {
    let reason = "`face-value` has no place beside `pressure`, from which the values at the faces are worked out";
    let sheet = format!("{SQUARES}face-value uniform 0\nlinks\n");
    told_at(&sheet, last_line(&sheet) - 1, reason);
    let sheet = SQUARES.replace("pressure\n", "face-value uniform 0\npressure\n");
    told_at(&sheet, line_of(&sheet, "face-value"), reason);
}

#[test]
fn a_wrong_field_of_a_gradient() {
    let sheet = without(SQUARES, "1  3\n");
    told_at(
        &sheet,
        line_of(&sheet, "pressure"),
        "`pressure` has no value for cell 1: it has 1 of 2, and no default",
    );
    let sheet = SQUARES.replace("pressure\n0  1\n1  3\n", "face-value\n0-5 1\n");
    told_at(
        &sheet,
        line_of(&sheet, "face-value"),
        "`face-value` has no value for face 6: it has 6 of 7, and no default",
    );
    let sheet = SQUARES.replace("pressure\n0  1\n1  3\n", "face-value\n0-7 1\n");
    told_at(
        &sheet,
        line_of(&sheet, "0-7"),
        "there is no face 7: the mesh has faces 0 to 6",
    );
    // conditions and links are read, with values at the faces too
    let given = SQUARES.replace("pressure\n0  1\n1  3\n", "face-value uniform 0\n");
    for sheet in [SQUARES, &given] {
        let wrong = format!("{sheet}conditions\n3 fixed 2\n");
        told_at(
            &wrong,
            last_line(&wrong),
            "expected `absent`, `zero-gradient` or `fixed-value` and a number, found `fixed 2`",
        );
        let wrong = format!("{sheet}links\n1 9  2 0\n");
        told_at(
            &wrong,
            last_line(&wrong),
            "there is no face 9: the mesh has faces 0 to 6",
        );
    }
}

#[test]
fn a_diagonal_beside_a_response() {
    let sheet = step_sheet() + "momentum-diagonal uniform 1\n";
    told_at(
        &sheet,
        last_line(&sheet),
        "`momentum-diagonal` has no place beside `momentum-response`, which is its inverse",
    );
}

#[test]
fn a_word_that_is_no_number() {
    told_there(
        &step_sheet(),
        "1  0.7",
        "1  0,7",
        "expected a number, found `0,7`: a decimal has a point, not a comma",
    );
    told_there(
        &step_sheet(),
        "1  0.7",
        "1  1e999",
        "`1e999` is beyond the largest binary64: write `inf` where infinity is meant",
    );
}

#[test]
fn too_many_or_too_few_numbers() {
    told_there(
        &step_sheet(),
        "1  0.7",
        "1  0.7 0.8",
        "expected one number, found 2",
    );
    told_there(&step_sheet(), "1  0.7", "1", "expected one number, found 0");
    told_there(
        &step_sheet(),
        "1  3 0.3",
        "1  3 0.3 0",
        "expected a vector of 2 numbers, found 3",
    );
}

#[test]
fn a_missing_item() {
    let sheet = without(&step_sheet(), "1  0.7\n");
    let line = line_of(&sheet, "pressure");
    told_at(
        &sheet,
        line,
        "`pressure` has no value for cell 1: it has 1 of 2, and no default",
    );
}

#[test]
fn an_item_given_twice() {
    let sheet = step_sheet();
    let first = line_of(&sheet, "0  0.1");
    told_there(
        &sheet,
        "1  0.7",
        "0-1  0.7",
        &format!("cell 0 is given twice, first on line {first}"),
    );
}

#[test]
fn an_item_that_is_not_there() {
    told_there(
        &step_sheet(),
        "1  0.7",
        "1-2  0.7",
        "there is no cell 2: the mesh has cells 0 to 1",
    );
    told_there(
        &step_sheet(),
        "6    fixed-value 2",
        "7    fixed-value 2",
        "there is no face 7: the mesh has faces 0 to 6",
    );
}

#[test]
fn a_range_that_runs_backwards() {
    told_there(
        &correction_sheet(),
        "4-5   0",
        "5-4   0",
        "the range `5-4` runs backwards: write `4-5`",
    );
}

#[test]
fn a_number_of_a_face_that_is_none() {
    told_there(
        &correction_sheet(),
        "4-5   0",
        "4-5x   0",
        "expected the number of a face, found `5x`",
    );
    told_there(
        &correction_sheet(),
        "4-5   0",
        "4-   0",
        "expected the number of a face, found ``",
    );
    told_there(
        &correction_sheet(),
        "4-5   0",
        "4-99999999999999999999   0",
        "no face has the number `99999999999999999999`: at most 65535 are taken, from 0 to 65534",
    );
    told_there(
        &correction_sheet(),
        "4-5   0",
        "4-65535   0",
        "no face has the number `65535`: at most 65535 are taken, from 0 to 65534",
    );
}

#[test]
fn items_below_a_uniform_field() {
    let sheet = step_sheet().replace("pressure\n0  0.1", "pressure uniform 0\n0  0.1");
    told_at(&sheet, line_of(&sheet, "0  0.1"), "`pressure` is uniform and has no items: write `pressure default VALUE` to give some their own");
}

#[test]
fn a_word_beside_a_field() {
    told_there(
        &step_sheet(),
        "momentum-response",
        "momentum-response 7",
        "expected `uniform`, `default` or nothing after `momentum-response`, found `7`",
    );
}

#[test]
fn a_word_beside_a_list() {
    told_there(
        &step_sheet(),
        "cells          #",
        "cells 2 #",
        "expected the items of `cells` on lines of their own below it, found `2` beside it",
    );
}

#[test]
fn a_gap_in_a_list() {
    told_there(
        &step_sheet(),
        "6  1 -  1.5 1",
        "8  1 -  1.5 1",
        "face 8 is given and face 6 is not: numbers run from 0 without a gap",
    );
}

#[test]
fn a_face_without_its_cells() {
    told_there(
        &correction_sheet(),
        "6  1 -",
        "6  1",
        "expected the face's owner and its neighbour, or `-` for no neighbour",
    );
    told_there(&correction_sheet(), "6  1 -", "6  1 none", "expected the number of a cell, found `none`: the neighbour is a cell, or `-` where there is none");
}

#[test]
fn a_face_of_a_missing_cell() {
    told_there(
        &correction_sheet(),
        "6  1 -",
        "6  2 -",
        "face 6 names cell 2, and there are 2 cells, from 0",
    );
    told_there(
        &correction_sheet(),
        "0  0 1",
        "0  0 0",
        "face 0 has its owner as neighbour",
    );
}

#[test]
fn geometry_that_is_not_whole() {
    told_there(&step_sheet(), "6  1 -  1.5 1    0 1", "6  1 -  1.5 1    0", "expected a centre and an area vector, and a normal or none, after the face's cells: 4 or 6 numbers, found 3");
    told_there(&step_sheet(), "6  1 -  1.5 1    0 1", "6  1 -", "expected a centre and an area vector, and a normal or none, after the face's cells: 4 or 6 numbers, found 0");
    told_there(SQUARES, "6  1 -  1.5 1    0 1", "6  1 -", "expected a centre and an area vector, and a normal or none, after the face's cells: 4 or 6 numbers, found 0");
    told_there(&correction_sheet(), "6  1 -", "6  1 - 1", "expected nothing, or a centre and an area vector, and a normal or none, after the face's cells: 4 or 6 numbers, found 1");
    told_there(
        &step_sheet(),
        "1  1.5 0.5  1",
        "1  1",
        "expected a centre and a volume, 3 numbers, found 1",
    );
    told_there(
        SQUARES,
        "1  1.5 0.5  1",
        "1  1",
        "expected a centre and a volume, 3 numbers, found 1",
    );
    told_there(
        &correction_sheet(),
        "0-1  1",
        "0-1",
        "expected a volume, or a centre and a volume, 3 numbers, found 0",
    );
}

#[test]
fn no_area_to_take_a_normal_from() {
    told_there(
        &step_sheet(),
        "6  1 -  1.5 1    0 1",
        "6  1 -  1.5 1    0 0",
        "the area vector's length is 0 or not finite: give the normal after it",
    );
}

#[test]
fn a_mesh_without_its_parts() {
    let sheet = without(&correction_sheet(), "cells\n0-1  1\n");
    told_at(&sheet, last_line(&sheet), "the sheet ends without `cells`, which a mesh without `points` needs, with centres and volumes");
    let sheet = "form step\ndimension 2\npoints\n0 0 0\n";
    told_at(
        sheet,
        4,
        "the sheet ends without `faces`, which every sheet needs",
    );
}

#[test]
fn cells_beside_points() {
    let sheet = shipped("block") + "cells\n0 1 1 1 1\n";
    told_at(
        &sheet,
        last_line(&sheet) - 1,
        "`cells` has no place beside `points`, from which centres and volumes are worked out",
    );
}

/// The block's first face, of cells 0 and 1.
const FACE: &str = "0  0 1  1 6 26 21";

#[test]
fn a_mesh_from_points_that_cannot_be_built() {
    let block = shipped("block");
    told_there(
        &block,
        FACE,
        "0  0 1  1 6 26 99",
        "face 0 names point 99, and there are 60 points, from 0",
    );
    told_there(
        &block,
        FACE,
        "0  0 1  1 6",
        "face 0 has 2 points: it needs two in 2D, and three or more in 3D",
    );
    told_there(
        &block,
        FACE,
        "0  0 1  1 1 1",
        "face 0 has an area that is zero or not finite",
    );
    told_there(
        &block,
        FACE,
        "0  0 1  1 six 26 21",
        "expected the number of a point, found `six`",
    );
    told_there(
        &block,
        "59  2 1.2 1",
        "59  2 nan 1",
        "point 59 has a coordinate that is not finite, or in 2D a z that is not 0",
    );
    told_there(
        &block,
        "59  2 1.2 1",
        "59  2 1.2",
        "expected a vector of 3 numbers, found 2",
    );
}

#[test]
fn points_and_their_faces_given_together() {
    let block = shipped("block");
    told_there(
        &block,
        FACE,
        "0-9  0 1  1 6 26 21",
        "expected the number of a face, found `0-9`",
    );
    told_there(
        &block,
        "59  2 1.2 1",
        "59,60  2 1.2 1",
        "expected the number of a point, found `59,60`",
    );
}

#[test]
fn a_face_with_two_cells_after_one_with_one() {
    let block = shipped("block");
    let second = block
        .lines()
        .filter(|line| line.contains(" -  "))
        .nth(1)
        .unwrap();
    let face: usize = second.split(' ').next().unwrap().parse().unwrap();
    told_there(&block, second, &second.replacen(" -  ", " 23  ", 1), &format!("face {face} has two cells and face {} one: among faces made of points, those with two cells come first", face - 1));
}

#[test]
fn a_cell_without_volume() {
    let block = shipped("block");
    // all faces looked at from the other side
    let mut turned = String::new();
    for line in block.lines() {
        let words: Vec<&str> = line.split_whitespace().collect();
        let is_face = words.len() == 7 && words[0].parse::<usize>().is_ok();
        if is_face {
            turned += &format!(
                "{} {} {}  {} {} {} {}\n",
                words[0], words[1], words[2], words[6], words[5], words[4], words[3]
            );
        } else {
            turned += &format!("{line}\n");
        }
    }
    let found = mistake(&turned);
    assert_eq!(found.line, line_of(&turned, "0 0 1"));
    assert!(
        found.reason.starts_with("cell 0 has volume -"),
        "{}",
        found.reason
    );
    assert!(found
        .reason
        .ends_with(": a face is missing, or its points turn the wrong way"));
}

#[test]
fn a_cell_that_is_not_closed() {
    let block = shipped("block");
    told_there(
        &block,
        FACE,
        "0  0 1  21 26 6 1",
        "the points of face 0 turn the wrong way: turned round, it would close cell 0",
    );
    told_there(
        &block,
        FACE,
        "0  0 1  1 6 26",
        "the faces of cell 0 do not close it: one is missing, or their points turn the wrong way",
    );
    let duct = shipped("duct-with-bend");
    let line = duct.lines().rfind(|line| line.contains(" -  ")).unwrap();
    let words: Vec<&str> = line.split_whitespace().collect();
    let turned = format!("{} {} - {} {}", words[0], words[1], words[4], words[3]);
    told_there(
        &duct,
        line,
        &turned,
        &format!(
            "the points of face {} turn the wrong way: turned round, it would close cell {}",
            words[0], words[1]
        ),
    );
}

#[test]
fn a_cell_that_no_face_names() {
    let (sheet, _) = changed(&shipped("block"), FACE, "0  0 77  1 6 26 21");
    told_at(
        &sheet,
        line_of(&sheet, "faces"),
        "no face names cell 24, though one names a higher cell",
    );
}

#[test]
fn an_order_that_is_none() {
    told_there(
        &step_sheet(),
        "1  0 2 5 6",
        "1  0 2 5 5",
        "expected the faces of cell 1, each once: `0 2 5 6`",
    );
    told_there(
        &step_sheet(),
        "1  0 2 5 6",
        "1  0 2 5",
        "expected the faces of cell 1, each once: `0 2 5 6`",
    );
    told_there(
        &step_sheet(),
        "1  0 2 5 6",
        "2  0 2 5 6",
        "there is no cell 2: the mesh has cells 0 to 1",
    );
}

#[test]
fn a_condition_that_is_none() {
    told_there(
        &step_sheet(),
        "6    fixed-value 2",
        "6    fixed 2",
        "expected `absent`, `zero-gradient` or `fixed-value` and a number, found `fixed 2`",
    );
    told_there(
        &step_sheet(),
        "6    fixed-value 2",
        "6    fixed-value",
        "expected one number, found 0",
    );
    told_there(
        &step_sheet(),
        "6    fixed-value 2",
        "6    zero-gradient 2",
        "expected `absent`, `zero-gradient` or `fixed-value` and a number, found `zero-gradient 2`",
    );
}

#[test]
fn a_link_that_is_none() {
    told_there(
        &step_sheet(),
        "1 2  2 0",
        "1",
        "expected two faces and a translation",
    );
    told_there(
        &step_sheet(),
        "1 2  2 0",
        "1 2  2",
        "expected a vector of 2 numbers, found 1",
    );
    told_there(
        &step_sheet(),
        "1 2  2 0",
        "1 9  2 0",
        "there is no face 9: the mesh has faces 0 to 6",
    );
    told_there(
        &step_sheet(),
        "1 2  2 0",
        "1-2 2  2 0",
        "expected the number of a face, found `1-2`",
    );
    let (sheet, line) = changed(&step_sheet(), "1 2  2 0", "1 2  2 0\n2 3  2 0");
    told_at(&sheet, line + 1, "face 2 is linked already, to face 1");
}

#[test]
fn a_mistake_goes_to_standard_error_with_file_and_line() {
    let (output, error, status) = told(&["-"], "form step\ndimension 5\n");
    assert_eq!(output, "");
    assert_eq!(
        error,
        "-:2: expected `dimension 2` or `dimension 3`, found `5`\n"
    );
    assert_eq!(status, 4);
    let (output, error, status) = told(&["no such file"], "");
    assert_eq!((output.as_str(), status), ("", 4));
    assert!(
        error.starts_with("no such file: cannot be read: "),
        "{error}"
    );
}

/// What is read for its fluxes alone has to have some.
#[test]
fn a_gradient_where_fluxes_are_asked_for() {
    let found = sheet::Sheet::read(SQUARES.as_bytes()).unwrap_err();
    assert_eq!(
        found.in_file("my.sheet"),
        "my.sheet: the sheet is of `form gradient`, which has no fluxes"
    );
}

#[test]
fn a_command_that_is_not_understood() {
    for (arguments, reason) in [
        (&[][..], "expected the file of a sheet"),
        (&["--frob"], "there is no option `--frob`"),
        (
            &["a", "b"],
            "expected one file, or one folder after `--polymesh`",
        ),
        (
            &["a", "--check"],
            "expected the file of a flux sheet or a gradient sheet after `--check`",
        ),
        (
            &["--polymesh"],
            "expected a polyMesh folder after `--polymesh`",
        ),
        (
            &["-", "--check", "-"],
            "only one of the two files can be standard input",
        ),
    ] {
        let (output, error, status) = told(arguments, "");
        assert_eq!((output.as_str(), status), ("", 2));
        assert!(
            error.starts_with(&format!("juvandeer: {reason}\nusage: ")),
            "{error}"
        );
    }
    let (output, error, status) = told(&["--help"], "");
    assert!(output.starts_with("usage: "));
    assert_eq!((error.as_str(), status), ("", 0));
}
