//! No file makes the program panic, or take memory out of proportion: shipped sheets, flux sheets and meshes,
//! spoiled at random from a fixed seed.

mod common;

use common::{
    gradients, own, printed, shipped, step_sheet, told, GRADIENT, NOT_MET, SHIPPED, SQUARE, SQUARES,
};
use sheet::{check, polymesh, report, AnyOutcome, AnySheet};
use std::fs;

/// Numbers that look random, always the same ones.
struct Numbers(u64);

impl Numbers {
    fn next(&mut self) -> u64 {
        self.0 ^= self.0 << 13;
        self.0 ^= self.0 >> 7;
        self.0 ^= self.0 << 17;
        self.0
    }

    /// Below a limit.
    fn below(&mut self, limit: usize) -> usize {
        (self.next() % limit.max(1) as u64) as usize
    }
}

/// Words that are put into a file.
const WORDS: [&str; 24] = [
    "0",
    "1",
    "-1",
    "65534",
    "65535",
    "0-65534",
    "4294967296",
    "18446744073709551616",
    "nan",
    "inf",
    "1e308",
    "1e999",
    "7ff0000000000000",
    "-",
    "#",
    ",",
    "faces\n",
    "cells\n",
    "uniform",
    "default",
    "(",
    ")",
    "{",
    "4000000000{1}",
];

/// A file with some of its bytes, words or lines changed.
fn spoiled(text: &[u8], numbers: &mut Numbers) -> Vec<u8> {
    let mut bytes = text.to_vec();
    for _ in 0..=numbers.below(3) {
        let at = numbers.below(bytes.len());
        match numbers.below(7) {
            0 => bytes.truncate(at),
            1 if !bytes.is_empty() => bytes[at] = numbers.next() as u8,
            2 if !bytes.is_empty() => {
                bytes[at] = b"0123456789-,.\n #abcdefghx(){};/*\""[numbers.below(33)]
            }
            3 => {
                let end = (at + numbers.below(20)).min(bytes.len());
                bytes.drain(at..end);
            }
            4 => swap_lines(&mut bytes, numbers),
            _ => {
                let word = format!(" {} ", WORDS[numbers.below(WORDS.len())]);
                let rest = bytes.split_off(at);
                bytes.extend(word.bytes());
                bytes.extend(rest);
            }
        }
    }
    bytes
}

fn swap_lines(bytes: &mut Vec<u8>, numbers: &mut Numbers) {
    let mut lines: Vec<Vec<u8>> = bytes
        .split(|&byte| byte == b'\n')
        .map(<[u8]>::to_vec)
        .collect();
    let (a, b) = (numbers.below(lines.len()), numbers.below(lines.len()));
    lines.swap(a, b);
    *bytes = lines.join(&b'\n');
}

/// Reads and runs a file, and gives whether it was read. A refusal is told in four lines, and is none that the
/// program sees to itself.
fn tried(bytes: &[u8]) -> bool {
    match AnySheet::read(bytes) {
        Err(mistake) => {
            let lines = bytes.split(|&byte| byte == b'\n').count();
            assert!(
                mistake.line >= 1 && mistake.line <= lines.max(1),
                "{mistake:?}"
            );
            assert!(!mistake.reason.is_empty());
            false
        }
        Ok(sheet) => {
            match sheet.run() {
                Ok(outcome) => printed_whole(&outcome),
                Err(refused) => {
                    let printed = report::refusal(&refused);
                    assert_eq!(printed.lines().count(), 4);
                    assert!(
                        !NOT_MET.contains(&refused.refusal.kind.number()),
                        "{printed}"
                    );
                    let sentence = refused.refusal.sentence().unwrap();
                    assert!(printed.starts_with(&format!("{sentence}\nrefusal ")));
                }
            }
            true
        }
    }
}

/// A balance at its end, or a gradient for each cell.
fn printed_whole(outcome: &AnyOutcome) {
    let printed = outcome.report();
    match outcome {
        AnyOutcome::Fluxes(_) => assert!(printed.ends_with("together\n")),
        AnyOutcome::Gradient(gradient) => {
            let cells = gradient.values().len() / 3;
            assert_eq!(printed.lines().count(), 1 + cells);
        }
    }
}

#[test]
fn spoiled_sheets() {
    let mut numbers = Numbers(20_261_116);
    let mut sheets: Vec<String> = SHIPPED.map(shipped).to_vec();
    sheets.extend([step_sheet(), common::correction_sheet()]);
    sheets.extend([shipped(GRADIENT), SQUARES.to_string(), SQUARE.to_string()]);
    let (mut read, mut told) = (0, 0);
    for round in 0..4_000 {
        let sheet = &sheets[round % sheets.len()];
        let count = if tried(&spoiled(sheet.as_bytes(), &mut numbers)) {
            &mut read
        } else {
            &mut told
        };
        *count += 1;
    }
    // both ways were gone
    assert!(
        read > 200 && told > 200,
        "{read} were read, {told} were not"
    );
}

#[test]
fn bytes_at_random() {
    let mut numbers = Numbers(7);
    for _ in 0..500 {
        let length = numbers.below(300);
        let bytes: Vec<u8> = (0..length).map(|_| numbers.next() as u8).collect();
        tried(&bytes);
        let _ = check::read(&bytes, numbers.below(100));
        let _ = check::read_gradient(&bytes, numbers.below(100));
    }
}

#[test]
fn every_sheet_cut_short() {
    for sheet in [
        step_sheet(),
        common::correction_sheet(),
        shipped("two-cell"),
        shipped(GRADIENT),
        SQUARES.to_string(),
        SQUARE.to_string(),
    ] {
        for length in 0..sheet.len() {
            tried(&sheet.as_bytes()[..length]);
        }
    }
}

#[test]
fn spoiled_flux_sheets() {
    let output = printed(&shipped("duct-with-bend"));
    let mut numbers = Numbers(99);
    for _ in 0..1_000 {
        let bytes = spoiled(output.as_bytes(), &mut numbers);
        if let Ok(fluxes) = check::read(&bytes, 101) {
            assert_eq!(fluxes.len(), 101);
        }
    }
}

#[test]
fn spoiled_gradient_sheets() {
    let output = printed(&shipped(GRADIENT));
    let mut numbers = Numbers(3);
    let mut read = 0;
    for _ in 0..1_000 {
        let bytes = spoiled(output.as_bytes(), &mut numbers);
        if let Ok(gradients) = check::read_gradient(&bytes, 8) {
            assert_eq!(gradients.len(), 24);
            read += 1;
        }
    }
    assert!(read > 20 && read < 980, "{read} were read");
}

#[test]
fn spoiled_meshes() {
    let files = ["points", "faces", "owner", "neighbour", "boundary"];
    let texts = files.map(|file| fs::read(own("polymesh/two-cubes").join(file)).unwrap());
    let folder = std::env::temp_dir().join(format!("juvandeer-spoiled-{}", std::process::id()));
    fs::create_dir_all(&folder).unwrap();
    for (file, text) in files.iter().zip(&texts) {
        fs::write(folder.join(file), text).unwrap();
    }
    let mut numbers = Numbers(5);
    for round in 0..2_000 {
        let (file, text) = (files[round % 5], &texts[round % 5]);
        fs::write(folder.join(file), spoiled(text, &mut numbers)).unwrap();
        if let Ok(sheet) = polymesh::import(&folder) {
            assert!(tried(sheet.as_bytes()), "{sheet}");
        }
        fs::write(folder.join(file), text).unwrap();
    }
    fs::remove_dir_all(folder).unwrap();
}

/// As many cells and faces as are taken, a face to each cell.
#[test]
fn large_gradients() {
    let faces: String = (0..65_535)
        .map(|at| format!("{at} {at} - 1 0 2 0\n"))
        .collect();
    let sheet = format!(
        "form gradient\ndimension 2\nfaces\n{faces}cells\n0-65534 0 0 4\nface-value uniform 6\n"
    );
    let gradients = gradients(&printed(&sheet));
    assert_eq!(gradients, vec![[3.0, 0.0, 0.0].map(f64::to_bits); 65_535]);
}

/// As many cells and faces as are taken, and more than are, most in few bytes.
#[test]
fn large_counts() {
    let with = |cells: &str, faces: &str| {
        format!("form correction\ndimension 2\nfaces\n{faces}cells\n{cells} 1\nconditions uniform zero-gradient\n\
            predicted-flux uniform 0\nface-coefficient uniform 0\npressure-correction uniform 0\n")
    };
    let sheet = |cells: &str, faces: &str| with(cells, &format!("{faces} 0 -\n"));
    // a face to each cell, and all faces of one
    let each: String = (0..65_535).map(|at| format!("{at} {at} -\n")).collect();
    let (output, _, status) = told(&["-"], &with("0-65534", &each));
    assert_eq!(status, 0);
    assert_eq!(
        output
            .lines()
            .filter(|line| line.ends_with(" 0000000000000000"))
            .count(),
        2 * 65_535
    );
    let (output, _, status) = told(&["-"], &sheet("0-65534", "0-65534"));
    assert_eq!(status, 3);
    assert!(
        output.starts_with("refusal 14 at 0.\nrefusal 14 index 0 by "),
        "{output}"
    );
    for count in ["0-65535", "0-99999999999", "0-18446744073709551615"] {
        assert_eq!(told(&["-"], &sheet(count, "0")).2, 4);
        assert_eq!(told(&["-"], &sheet("0", count)).2, 4);
    }
    let again = sheet(&["0-65534"; 1000].join(","), "0");
    assert_eq!(told(&["-"], &again).2, 4);
    let (output, _, status) = told(&["-"], "form correction\ndimension 2\nfaces\ncells\npredicted-flux\nface-coefficient\npressure-correction\n");
    assert_eq!(status, 3);
    assert!(
        output.starts_with("bad size at 0.\nrefusal 1 index 0 by "),
        "{output}"
    );
}
