//! Files of the repository, and the program that is tested.
#![allow(dead_code)]

use sheet::{AnySheet, Mistake};
use std::fs;
use std::io::Write;
use std::path::{Path, PathBuf};
use std::process::{Command, Output, Stdio};

/// The sheets that are shipped, but for the last of them, which has gradients and no fluxes.
pub const SHIPPED: [&str; 4] = ["two-cell", "duct-with-bend", "annulus", "block"];

/// The sheet of `form gradient` that is shipped.
pub const GRADIENT: &str = "linked-duct";

/// The numbers of refusals that are in use.
pub const NUMBERS: [u64; 14] = [1, 2, 3, 4, 5, 6, 7, 8, 9, 10, 11, 12, 14, 20];

/// Refusals that the program sees to itself: fields are whole and of one mesh, faces name cells, chains end,
/// and the distances are the engine's own.
pub const NOT_MET: [u64; 5] = [2, 3, 4, 5, 20];

/// A path of the repository.
pub fn path(name: &str) -> PathBuf {
    Path::new(env!("CARGO_MANIFEST_DIR")).join("..").join(name)
}

pub fn text(name: &str) -> String {
    fs::read_to_string(path(name)).unwrap_or_else(|error| panic!("{name}: {error}"))
}

pub fn shipped(name: &str) -> String {
    text(&format!("sheets/{name}.sheet"))
}

/// Two unit squares side by side in `form step`, with the numbers of `crates/edges`: the faces with geometry.
pub fn step_sheet() -> String {
    fs::read_to_string(own("step.sheet")).unwrap()
}

/// The same mesh in `form correction`.
pub fn correction_sheet() -> String {
    fs::read_to_string(own("correction.sheet")).unwrap()
}

/// Two unit cubes in space, by their geometry.
pub const CUBES: &str = "\
form step
dimension 3
faces
0  0 1  1 0.5 0.5    1 0 0
1  0 -  0 0.5 0.5   -1 0 0   -1 0 0
2  1 -  2 0.5 0.5    1 0 0
3  0 -  0.5 0.5 0    0 0 -1
4  1 -  1.5 0.5 0    0 0 -1
5  0 -  0.5 0.5 1    0 0 1
6  1 -  1.5 0.5 1    0 0 1
7  0 -  0.5 0 0.5    0 -1 0
8  1 -  1.5 0 0.5    0 -1 0
9  0 -  0.5 1 0.5    0 1 0   0 1 0
10  1 -  1.5 1 0.5   0 1 0
cells
0  0.5 0.5 0.5  1
1  1.5 0.5 0.5  1
conditions uniform zero-gradient
velocity uniform 3 0 0
pressure uniform 7
momentum-response uniform 0.5
wall-flux default 0
1  -3
2   3
pressure-correction
0  0
1  1
";

/// A unit square that is linked to itself both ways, so that no face has a wall flux.
pub const SQUARE: &str = "\
form step
dimension 2
faces
0  0 -  0 0.5   -1 0
1  0 -  1 0.5    1 0
2  0 -  0.5 1    0 1
3  0 -  0.5 0    0 -1
cells
0  0.5 0.5  1
links
0 1  1 0
2 3  0 -1
velocity uniform 2 8
pressure uniform 7
momentum-response uniform 0.5
pressure-correction uniform 3
";

/// Two unit squares in `form gradient`, with the faces of `step.sheet`; the pressure is 2x.
pub const SQUARES: &str = "\
form gradient
dimension 2
faces
0  0 1  1 0.5    1 0
1  0 -  0 0.5   -1 0
2  1 -  2 0.5    1 0
3  0 -  0.5 0    0 -1
4  0 -  0.5 1    0 1
5  1 -  1.5 0    0 -1
6  1 -  1.5 1    0 1
cells
0  0.5 0.5  1
1  1.5 0.5  1
pressure
0  1
1  3
";

/// A file beside the tests.
pub fn own(name: &str) -> PathBuf {
    Path::new(env!("CARGO_MANIFEST_DIR"))
        .join("tests")
        .join(name)
}

/// Runs the program with an input.
pub fn run(arguments: &[&str], input: &str) -> Output {
    let mut child = Command::new(env!("CARGO_BIN_EXE_juvandeer"))
        .args(arguments)
        .stdin(Stdio::piped())
        .stdout(Stdio::piped())
        .stderr(Stdio::piped())
        .spawn()
        .unwrap();
    // a program that ends without reading its input closes it, which is no failure
    let _ = child.stdin.take().unwrap().write_all(input.as_bytes());
    child.wait_with_output().unwrap()
}

/// What a run printed, on standard output and on standard error, and its status.
pub fn told(arguments: &[&str], input: &str) -> (String, String, i32) {
    let output = run(arguments, input);
    (
        String::from_utf8(output.stdout).unwrap(),
        String::from_utf8(output.stderr).unwrap(),
        output.status.code().unwrap(),
    )
}

/// What is printed of a sheet that is accepted.
pub fn printed(sheet: &str) -> String {
    let (output, error, status) = told(&["-"], sheet);
    assert_eq!((error.as_str(), status), ("", 0), "{output}");
    output
}

/// The mistake of a sheet.
pub fn mistake(text: &str) -> Mistake {
    match AnySheet::read(text.as_bytes()) {
        Ok(_) => panic!("the sheet was read:\n{text}"),
        Err(mistake) => mistake,
    }
}

/// The sheet with the only line that has `old` in it changed, and that line's number.
pub fn changed(sheet: &str, old: &str, new: &str) -> (String, usize) {
    let lines: Vec<&str> = sheet.lines().collect();
    let found: Vec<usize> = (0..lines.len())
        .filter(|&at| lines[at].contains(old))
        .collect();
    assert_eq!(found.len(), 1, "{old} is on {found:?}");
    let mut lines: Vec<String> = lines.into_iter().map(str::to_string).collect();
    lines[found[0]] = lines[found[0]].replace(old, new);
    (lines.join("\n") + "\n", found[0] + 1)
}

/// The words of a stored line of `crates/edges`, output by output.
pub fn stored(entry: &str, case: &str) -> Vec<Vec<u64>> {
    stored_by("edges", entry, case)
}

/// Those of a stored line of another program.
pub fn stored_by(program: &str, entry: &str, case: &str) -> Vec<Vec<u64>> {
    let start = format!("{entry}, {case}: accepted, ");
    let lines = text(&format!("crates/{program}/stdout"));
    let mut found = lines.lines().filter_map(|line| line.strip_prefix(&start));
    let outputs = found.next().unwrap_or_else(|| panic!("no line {start}"));
    let words = |output: &str| {
        let words = output.split_whitespace();
        words
            .map(|word| u64::from_str_radix(word, 16).unwrap())
            .collect()
    };
    outputs.split(", ").map(words).collect()
}

/// The lines below a heading, up to the next line that is not `NUMBER BITS`, as bits.
pub fn listed(printed: &str, heading: &str) -> Vec<u64> {
    let mut lines = printed.lines().skip_while(|line| *line != heading);
    assert_eq!(lines.next(), Some(heading));
    let mut bits = Vec::new();
    for line in lines {
        let Some((at, word)) = line.split_once(' ') else {
            break;
        };
        if at != bits.len().to_string() || word.len() != 16 {
            break;
        }
        bits.push(u64::from_str_radix(word, 16).unwrap());
    }
    bits
}

/// The gradients that are printed, as bits.
pub fn gradients(printed: &str) -> Vec<[u64; 3]> {
    let mut lines = printed.lines();
    assert_eq!(lines.next(), Some("cell gradient"));
    let gradient = |(cell, line): (usize, &str)| {
        let words: Vec<&str> = line.split(' ').collect();
        assert_eq!((words.len(), words[0]), (4, cell.to_string().as_str()));
        assert!(words[1..].iter().all(|word| word.len() == 16));
        [1, 2, 3].map(|at| u64::from_str_radix(words[at], 16).unwrap())
    };
    lines.enumerate().map(gradient).collect()
}

/// The bits of the two metrics.
pub fn metrics(printed: &str) -> Vec<u64> {
    let mut lines = printed
        .lines()
        .skip_while(|line| *line != "metrics")
        .skip(1);
    ["root-mean-square-outflow", "largest-divergence"]
        .map(|name| {
            let words: Vec<&str> = lines.next().unwrap().split(' ').collect();
            let bits = u64::from_str_radix(words[1], 16).unwrap();
            assert_eq!(words[0], name);
            assert_eq!(words[2].parse::<f64>().unwrap().to_bits(), bits);
            bits
        })
        .to_vec()
}
