//! Flux sheets and gradient sheets, marked.

mod common;

use common::{changed, path, printed, shipped, told, GRADIENT};
use sheet::check::Mark;

/// Marks a flux sheet or a gradient sheet for a sheet that is shipped.
fn marked(name: &str, fluxes: &str) -> (String, String, i32) {
    let file = path(&format!("sheets/{name}.sheet"));
    told(&[file.to_str().unwrap(), "--check", "-"], fluxes)
}

fn right(output: &str) -> (String, String, i32) {
    (output.to_string(), String::new(), 0)
}

/// The mistake on a line of a flux sheet for the two cells.
fn wrong_form(fluxes: &str, expected: &str) {
    wrong_form_of("two-cell", fluxes, expected);
}

fn wrong_form_of(name: &str, given: &str, expected: &str) {
    let (output, error, status) = marked(name, given);
    assert_eq!(
        (output.as_str(), error.trim_end(), status),
        ("", expected, 5)
    );
}

#[test]
fn a_right_sheet_in_bits_in_decimals_and_in_any_order() {
    let all = "-: 3 of 3 faces right\n";
    assert_eq!(
        marked(
            "two-cell",
            "0 3ff0000000000000\n1 bff0000000000000\n2 3ff0000000000000\n"
        ),
        right(all)
    );
    assert_eq!(
        marked("two-cell", "# mine\n\n2 1.0 # right\n 0\t1e0\r\n1 -1"),
        right(all)
    );
    assert_eq!(
        marked("two-cell", "0 3FF0000000000000\n1 BFF0000000000000\n2 1\n"),
        right(all)
    );
}

#[test]
fn what_is_printed_can_be_handed_back() {
    for (name, faces) in [
        ("two-cell", 3),
        ("duct-with-bend", 101),
        ("annulus", 118),
        ("block", 98),
    ] {
        let output = printed(&shipped(name));
        assert_eq!(
            marked(name, &output),
            right(&format!("-: {faces} of {faces} faces right\n"))
        );
    }
}

#[test]
fn a_wrong_flux() {
    let (output, error, status) = marked("two-cell", "0 1\n1 -1.0000000000000004\n2 2\n");
    let expected =
        "-: 1 of 3 faces right\nfirst wrong: face 1, 2 units in the last place apart\n  \
        given bff0000000000002 -1.0000000000000004\n  right bff0000000000000 -1\n";
    assert_eq!((output.as_str(), error.as_str(), status), (expected, "", 1));
    let (output, _, status) = marked("two-cell", "0 1\n1 nan\n2 1\n");
    let expected = "-: 2 of 3 faces right\nfirst wrong: face 1, one of the two is not a number\n  \
        given 7ff8000000000000 NaN\n  right bff0000000000000 -1\n";
    assert_eq!((output.as_str(), status), (expected, 1));
}

#[test]
fn a_flux_of_the_next_float_is_one_unit_away() {
    let (output, _, status) = marked("two-cell", "0 3fefffffffffffff\n1 -1\n2 1\n");
    assert!(
        output.contains("first wrong: face 0, 1 unit in the last place apart\n"),
        "{output}"
    );
    assert_eq!(status, 1);
}

#[test]
fn the_sign_of_a_zero() {
    let sheet = shipped("two-cell");
    let (sheet, _) = changed(&sheet, "1  -1", "1  -0");
    let folder = std::env::temp_dir().join(format!("juvandeer-check-{}", std::process::id()));
    std::fs::create_dir_all(&folder).unwrap();
    let file = folder.join("zero.sheet");
    std::fs::write(&file, sheet).unwrap();
    let mark = |fluxes: &str| told(&[file.to_str().unwrap(), "--check", "-"], fluxes);
    assert_eq!(mark("0 1\n1 8000000000000000\n2 1\n").2, 0);
    assert_eq!(mark("0 1\n1 -0.0\n2 1\n").2, 0);
    let (output, _, status) = mark("0 1\n1 0\n2 1\n");
    let expected = "-: 2 of 3 faces right\nfirst wrong: face 1, a zero of the other sign\n  \
        given 0000000000000000 0\n  right 8000000000000000 -0\n";
    assert_eq!((output.as_str(), status), (expected, 1));
    std::fs::remove_dir_all(folder).unwrap();
}

#[test]
fn nans_of_any_payload_are_the_same() {
    let [a, b] = [0x7ff8000000000000, 0xfff0000000000007].map(f64::from_bits);
    assert_eq!(Mark::of(&[a, 1.0], &[b, 1.0]).right, 2);
    let mark = Mark::of(&[a, 0.0], &[1.0, -0.0]);
    assert_eq!(mark.right, 0);
    assert_eq!(mark.first_wrong.unwrap().at, 0);
}

#[test]
fn a_missing_face() {
    wrong_form(
        "0 1\n2 1\n",
        "-:2: face 1 is missing: 2 of 3 faces are given",
    );
    wrong_form("", "-:1: face 0 is missing: 0 of 3 faces are given");
    wrong_form(
        "face flux\n0 1\n1 -1\ncell outflow\n2 1\n",
        "-:5: face 2 is missing: 2 of 3 faces are given",
    );
}

#[test]
fn a_face_given_twice() {
    wrong_form(
        "0 1\n1 -1\n0 1\n2 1\n",
        "-:3: face 0 is given twice, first on line 1",
    );
}

#[test]
fn a_face_that_is_not_there() {
    wrong_form(
        "0 1\n1 -1\n3 1\n",
        "-:3: there is no face 3: the mesh has faces 0 to 2",
    );
    wrong_form("99999999999999999999 1\n", "-:1: no face has the number `99999999999999999999`: at most 65535 are taken, from 0 to 65534");
}

#[test]
fn a_line_in_another_form() {
    wrong_form(
        "0 1\n1\n2 1\n",
        "-:2: expected a face and its flux, two words, found 1",
    );
    wrong_form(
        "0 1\n1 -1 0\n2 1\n",
        "-:2: expected a face and its flux, two words, found 3",
    );
    wrong_form(
        "0 1\nface -1\n2 1\n",
        "-:2: expected the number of a face, found `face`",
    );
    wrong_form(
        "0 1\n1 one\n2 1\n",
        "-:2: expected a number, found `one`: a decimal, or 16 hexadecimal digits as bits",
    );
    wrong_form("0 1\n1 bff000000000000\n2 1\n", "-:2: expected a number, found `bff000000000000`: bits are 16 hexadecimal digits and no more, these are 15 digits");
}

#[test]
fn a_refused_sheet_marks_nothing() {
    let (sheet, _) = changed(&shipped("two-cell"), "0  0.5", "0  0");
    let fluxes = path("sheet/tests/correction.sheet");
    let (output, error, status) = told(&["-", "--check", fluxes.to_str().unwrap()], &sheet);
    let expected = "bad coefficient at 0.\nrefusal 9 index 0 by correct_face_flux_with_boundary\n";
    assert!(output.starts_with(expected), "{output}");
    assert_eq!((error.as_str(), status), ("", 3));
}

#[test]
fn a_mistake_in_the_sheet_goes_before_one_in_the_fluxes() {
    let (output, error, status) = told(&["-", "--check", "no such file"], "form step\n");
    assert_eq!((output.as_str(), status), ("", 4));
    assert!(
        error.starts_with("-:1: the sheet ends without `dimension`"),
        "{error}"
    );
    let (output, error, status) = told(&["-", "--check", "no such file"], &shipped("two-cell"));
    assert_eq!((output.as_str(), status), ("", 5));
    assert!(
        error.starts_with("no such file: cannot be read: "),
        "{error}"
    );
}

/// The gradients of the linked duct, which `tests/shipped.rs` works out, a line for each cell.
const GRADIENTS: [&str; 8] = [
    "0 2 1.25 0",
    "1 0.75 5 0",
    "2 -2 5.5 0",
    "3 -0.75 -1 0",
    "4 1 0.75 0",
    "5 1.375 -0.5 0",
    "6 -1 2 0",
    "7 -1.375 1.5 0",
];

/// They with some lines others.
fn gradients(others: &[(usize, &str)]) -> String {
    let mut lines = GRADIENTS;
    for &(cell, line) in others {
        lines[cell] = line;
    }
    lines.join("\n") + "\n"
}

/// What is said of a gradient sheet, but for the count, and how many cells are right.
fn gradient_mark(others: &[(usize, &str)]) -> (String, usize) {
    let (output, error, status) = marked(GRADIENT, &gradients(others));
    assert_eq!((error.as_str(), status), ("", 1));
    let (count, first) = output.split_once('\n').unwrap();
    let (right, of) = count.split_once(" of ").unwrap();
    assert_eq!(of, "8 cells right");
    let right = right.strip_prefix("-: ").unwrap().parse().unwrap();
    (first.to_string(), right)
}

#[test]
fn a_right_gradient_in_bits_in_decimals_and_in_any_order() {
    let all = "-: 8 of 8 cells right\n";
    assert_eq!(marked(GRADIENT, &gradients(&[])), right(all));
    let mut lines = GRADIENTS;
    lines.reverse();
    let text = format!("# mine\n\ncell gradient\n{}", lines.join(" # right\n"));
    assert_eq!(marked(GRADIENT, &text), right(all));
    let bits = "6\tBFF0000000000000  4000000000000000 0000000000000000";
    assert_eq!(marked(GRADIENT, &gradients(&[(6, bits)])), right(all));
}

#[test]
fn a_printed_gradient_can_be_handed_back() {
    let output = printed(&shipped(GRADIENT));
    assert_eq!(marked(GRADIENT, &output), right("-: 8 of 8 cells right\n"));
}

#[test]
fn a_wrong_gradient() {
    let (first, right) = gradient_mark(&[(2, "2 -2 5.500000000000002 0"), (5, "5 1 -0.5 0")]);
    let expected = "first wrong: cell 2, y, 2 units in the last place apart\n  \
        given 4016000000000002 5.500000000000002\n  right 4016000000000000 5.5\n";
    assert_eq!((first.as_str(), right), (expected, 6));
    let (first, right) = gradient_mark(&[(7, "7 bff5ffffffffffff nan 5e-324")]);
    let expected = "first wrong: cell 7, x, 1 unit in the last place apart\n  \
        given bff5ffffffffffff -1.3749999999999998\n  right bff6000000000000 -1.375\n";
    assert_eq!((first.as_str(), right), (expected, 7));
    let (first, right) = gradient_mark(&[(0, "0 2 nan 0"), (1, "1 0 0 0")]);
    let expected = "first wrong: cell 0, y, one of the two is not a number\n  \
        given 7ff8000000000000 NaN\n  right 3ff4000000000000 1.25\n";
    assert_eq!((first.as_str(), right), (expected, 6));
}

/// In 2D z is +0.0, and is marked too.
#[test]
fn the_third_number_of_a_gradient() {
    let (first, right) = gradient_mark(&[(3, "3 -0.75 -1 -0")]);
    let expected = "first wrong: cell 3, z, a zero of the other sign\n  \
        given 8000000000000000 -0\n  right 0000000000000000 0\n";
    assert_eq!((first.as_str(), right), (expected, 7));
    let (first, _) = gradient_mark(&[(3, "3 -0.75 -1 5e-324")]);
    assert!(
        first.starts_with("first wrong: cell 3, z, 1 unit in the last place apart\n"),
        "{first}"
    );
}

#[test]
fn gradients_that_are_not_numbers_are_the_same() {
    let [a, b] = [0x7ff8000000000000, 0xfff0000000000007].map(f64::from_bits);
    let mark = Mark::of_gradient(
        &[1.0, a, 2.0, 0.0, 0.0, 0.0],
        &[1.0, b, 2.0, 0.0, 0.0, -0.0],
    );
    assert_eq!((mark.count, mark.right), (2, 1));
    let wrong = mark.first_wrong.unwrap();
    assert_eq!((wrong.at, wrong.component), (1, "z"));
}

#[test]
fn a_gradient_sheet_in_another_form() {
    let with = |lines: &[(usize, &str)], expected: &str| {
        wrong_form_of(GRADIENT, &gradients(lines), expected);
    };
    with(
        &[(4, "4 1 0.75")],
        "-:5: expected a cell and its gradient, four words, found 3",
    );
    with(
        &[(4, "4 1 0.75 0 0")],
        "-:5: expected a cell and its gradient, four words, found 5",
    );
    with(
        &[(4, "cell 1 0.75 0")],
        "-:5: expected the number of a cell, found `cell`",
    );
    with(
        &[(4, "4 1 three 0")],
        "-:5: expected a number, found `three`: a decimal, or 16 hexadecimal digits as bits",
    );
    with(
        &[(4, "8 1 0.75 0")],
        "-:5: there is no cell 8: the mesh has cells 0 to 7",
    );
    with(
        &[(4, "3 1 0.75 0")],
        "-:5: cell 3 is given twice, first on line 4",
    );
    with(&[(4, "")], "-:8: cell 4 is missing: 7 of 8 cells are given");
    wrong_form_of(
        GRADIENT,
        "",
        "-:1: cell 0 is missing: 0 of 8 cells are given",
    );
}

/// Fluxes where gradients are due, and the other way.
#[test]
fn a_sheet_of_the_other_kind() {
    wrong_form_of(
        GRADIENT,
        "face flux\n0 1\n",
        "-:1: expected a cell and its gradient, four words, found 2",
    );
    wrong_form(
        "cell gradient\n0 1 2 3\n",
        "-:1: expected the number of a face, found `cell`",
    );
    // the heading of the outflows ends a flux sheet alone
    wrong_form_of(
        GRADIENT,
        &(gradients(&[]) + "cell outflow\n"),
        "-:9: expected a cell and its gradient, four words, found 2",
    );
}

#[test]
fn a_refused_gradient_marks_nothing() {
    let (sheet, _) = changed(&shipped(GRADIENT), "10 12  8 0", "10 10  8 0");
    let (output, error, status) = told(&["-", "--check", "no such file"], &sheet);
    let expected = "bad link at 10.\nrefusal 6 index 10 by pressure_coupling_gradient\n";
    assert!(output.starts_with(expected), "{output}");
    assert_eq!((error.as_str(), status), ("", 3));
    let (output, error, status) = told(&["-", "--check", "no such file"], &shipped(GRADIENT));
    assert_eq!((output.as_str(), status), ("", 5));
    assert!(
        error.starts_with("no such file: cannot be read: "),
        "{error}"
    );
}
