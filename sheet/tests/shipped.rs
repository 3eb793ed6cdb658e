//! The sheets that are shipped: accepted, the same in bits as in decimals, and balanced.

mod common;
mod exact;

use common::{gradients, listed, own, path, printed, shipped, text, told, GRADIENT, SHIPPED};
use exact::Exact;
use sheet::Sheet;

/// Document 01's sheet, printed in full there.
const DOCUMENT_01: &str = "\
face flux
0 3ff0000000000000
1 bff0000000000000
2 3ff0000000000000
cell outflow
0 0000000000000000
1 0000000000000000
";

#[test]
fn the_two_cell_sheet_is_that_of_document_01() {
    let file = path("sheets/two-cell.sheet");
    let (output, error, status) = told(&[file.to_str().unwrap()], "");
    assert!(output.starts_with(DOCUMENT_01), "{output}");
    assert!(output[DOCUMENT_01.len()..].starts_with("metrics\n"));
    assert_eq!((error.as_str(), status), ("", 0));
    assert_eq!(text("crates/twocell/stdout"), DOCUMENT_01);
}

/// The two-cell sheet's balance as docs/BALANCE.md works it out: differences 0, bounds 2^-51 and 2^-52.
#[test]
fn the_balance_of_the_two_cell_sheet() {
    let output = printed(&shipped("two-cell"));
    let lines: Vec<&str> = output
        .lines()
        .skip_while(|line| *line != "mass balance")
        .collect();
    assert_eq!(lines[1], "all cells: difference 0 of at most 4.44089e-16");
    assert_eq!(lines[2], "  difference 0");
    assert_eq!(whole(lines[3]), Exact::of(2f64.powi(-51)));
    assert_eq!(
        lines[4],
        "cell 0, nearest its bound (0.0%): difference 0 of at most 2.22045e-16"
    );
    assert_eq!(lines[5], "  difference 0");
    assert_eq!(whole(lines[6]), Exact::of(2f64.powi(-52)));
    assert_eq!(
        lines[7],
        "whole numbers count 2^-1127, which is 2^-1074 / 2^53"
    );
    assert_eq!(lines[8], "holds, for every cell and for all cells together");
    assert_eq!(lines.len(), 9);
}

/// P12 of document 01: a difference that leaves almost nothing of its bound.
#[test]
fn the_balance_of_a_sum_that_rounds() {
    let sheet = "form correction\ndimension 2\nfaces\n0 0 -\n1 0 -\n2 0 -\ncells\n0 1\n\
        conditions uniform zero-gradient\nface-coefficient uniform 0\npressure-correction uniform 0\n\
        predicted-flux\n0 1\n1-2 3ca0000000000000\n";
    let output = printed(sheet);
    assert_eq!(listed(&output, "cell outflow"), [1f64.to_bits()]);
    let lines: Vec<&str> = output
        .lines()
        .skip_while(|line| *line != "mass balance")
        .collect();
    let bound = Exact::of(2f64.powi(-52)).plus(Exact::of(2f64.powi(-104)));
    for at in [1, 4] {
        assert_eq!(whole(lines[at + 1]), Exact::of(2f64.powi(-52)));
        assert_eq!(whole(lines[at + 2]), bound);
    }
    assert!(
        lines[4].starts_with("cell 0, nearest its bound (100.0%): "),
        "{}",
        lines[4]
    );
    assert_eq!(lines[8], "holds, for every cell and for all cells together");
}

/// The whole number of a line `difference N` or `bound N`.
fn whole(line: &str) -> Exact {
    Exact::parse(line.split_whitespace().nth(1).unwrap())
}

/// The sheet with every number that a field, a condition, a link or a point has written as its bits.
fn in_bits(sheet: &str) -> String {
    let mut text = String::new();
    let mut entry = "";
    for line in sheet.lines() {
        let line = line.split('#').next().unwrap();
        let words: Vec<&str> = line.split_whitespace().collect();
        let Some(&first) = words.first() else {
            continue;
        };
        if !first.starts_with(|c: char| c.is_ascii_digit()) {
            entry = first;
        }
        let kept = match entry {
            "form" | "dimension" | "faces" => words.len(),
            "links" => 2,
            _ => 1,
        };
        for (at, word) in words.iter().enumerate() {
            match word.parse::<f64>() {
                Ok(x) if at >= kept => text += &format!("{:016x} ", x.to_bits()),
                _ => text += &format!("{word} "),
            }
        }
        text.push('\n');
    }
    text
}

#[test]
fn numbers_given_as_bits_give_the_same_bits() {
    for name in SHIPPED.into_iter().chain([GRADIENT]) {
        let sheet = shipped(name);
        let bits = in_bits(&sheet);
        assert!(
            bits.split_whitespace()
                .filter(|word| word.len() == 16)
                .count()
                >= 10
        );
        assert_eq!(printed(&bits), printed(&sheet), "{name}");
    }
}

/// The terms of each cell: with their signs, in face order.
fn terms(sheet: &Sheet, flux: &[f64]) -> Vec<Vec<f64>> {
    let mut terms = vec![Vec::new(); sheet.mesh.cell_count()];
    for (face, &flux) in flux.iter().enumerate() {
        let face = sheet.mesh.face(face).unwrap();
        terms[face.owner].push(flux);
        if let Some(neighbour) = face.neighbour {
            terms[neighbour].push(-flux);
        }
    }
    terms
}

/// A cell's difference and bound, from its terms.
fn limits(terms: &[f64], outflow: f64) -> (Exact, Exact) {
    let (mut exact, mut magnitudes) = (Exact::ZERO, Exact::ZERO);
    for &term in terms {
        exact = exact.plus(Exact::of(term));
        magnitudes = magnitudes.plus(Exact::of(term.abs()));
    }
    let bound = magnitudes.times(terms.len() as u64 - 1).over_two_to_53();
    (Exact::of(outflow).minus(exact).magnitude(), bound)
}

#[test]
fn the_balance_holds_in_exact_arithmetic() {
    for name in SHIPPED {
        let sheet = Sheet::read(shipped(name).as_bytes()).unwrap();
        let output = printed(&shipped(name));
        let [flux, outflow] = ["face flux", "cell outflow"].map(|heading| {
            let bits = listed(&output, heading);
            bits.into_iter().map(f64::from_bits).collect::<Vec<_>>()
        });
        assert_eq!(flux.len(), sheet.mesh.face_count());
        assert_eq!(outflow.len(), sheet.mesh.cell_count());
        let mut total = (Exact::ZERO, Exact::ZERO);
        let lines: Vec<&str> = output
            .lines()
            .skip_while(|line| *line != "mass balance")
            .collect();
        let nearest: usize = lines[4].split([' ', ',']).nth(1).unwrap().parse().unwrap();
        for (cell, terms) in terms(&sheet, &flux).iter().enumerate() {
            let sum = terms.iter().fold(0.0, |sum, term| sum + term);
            assert_eq!(
                sum.to_bits(),
                outflow[cell].to_bits(),
                "{name}, cell {cell}"
            );
            let (difference, bound) = limits(terms, outflow[cell]);
            assert!(difference.at_most(bound), "{name}, cell {cell}");
            let share = difference.product(whole(lines[6]));
            assert!(
                share.at_most(whole(lines[5]).product(bound)),
                "{name}, cell {cell} is nearer"
            );
            if cell == nearest {
                assert_eq!(
                    (whole(lines[5]), whole(lines[6])),
                    (difference, bound),
                    "{name}"
                );
            }
            total = (total.0.plus(Exact::of(outflow[cell])), total.1.plus(bound));
        }
        for (face, &flux) in flux.iter().enumerate() {
            if sheet.mesh.face(face).unwrap().neighbour.is_none() {
                total.0 = total.0.minus(Exact::of(flux));
            }
        }
        assert!(total.0.magnitude().at_most(total.1));
        assert_eq!(
            (whole(lines[2]), whole(lines[3])),
            (total.0.magnitude(), total.1),
            "{name}"
        );
    }
}

/// What the sheets say of themselves: nothing is left over in a cell, a flux of 1 goes through the duct and the
/// block, and linked faces hand on what goes out.
#[test]
fn the_fluxes_make_sense() {
    for (name, through) in [
        ("duct-with-bend", Some(1.0)),
        ("annulus", None),
        ("block", Some(1.0)),
    ] {
        let sheet = Sheet::read(shipped(name).as_bytes()).unwrap();
        let outcome = sheet.run().unwrap();
        assert!(outcome.metrics.largest_divergence < 1e-8, "{name}");
        let (mut into, mut out) = (0.0, 0.0);
        for (face, &flux) in outcome.flux.values().iter().enumerate() {
            if sheet.mesh.face(face).unwrap().neighbour.is_some() {
                continue;
            }
            if let Some(peer) = sheet.conditions.peer(face) {
                assert_eq!(flux, -outcome.flux.values()[peer], "{name}, face {face}");
            }
            *if flux < 0.0 { &mut into } else { &mut out } += flux;
        }
        assert!((into + out).abs() < 1e-8, "{name}: {into} and {out}");
        if let Some(through) = through {
            assert!((out - through).abs() < 1e-5, "{name}: {out}");
        }
    }
}

/// The fluxes that the original Rust gives for the annulus.
#[test]
fn the_fluxes_of_the_annulus() {
    let [sheet, fluxes] = [path("sheets/annulus.sheet"), own("annulus.fluxes")];
    let [sheet, fluxes] = [&sheet, &fluxes].map(|file| file.to_str().unwrap());
    let (output, error, status) = told(&[sheet, "--check", fluxes], "");
    assert_eq!(output, format!("{fluxes}: 118 of 118 faces right\n"));
    assert_eq!((error.as_str(), status), ("", 0));
}

/// The annulus has a wall flux at its walls and nowhere else, and none that is given where it was cut has an effect.
#[test]
fn the_annulus_needs_no_wall_flux_where_it_was_cut() {
    let sheet = shipped("annulus");
    let read = Sheet::read(sheet.as_bytes()).unwrap();
    let linked: Vec<usize> = (0..read.mesh.face_count())
        .filter(|&face| read.conditions.peer(face).is_some())
        .collect();
    assert_eq!(
        linked,
        [90, 91, 92, 109, 110, 111, 112, 113, 114, 115, 116, 117]
    );
    let walls = sheet
        .lines()
        .skip_while(|line| !line.starts_with("wall-flux"));
    let walls: Vec<&str> = walls.take_while(|line| !line.is_empty()).collect();
    let faces: Vec<&str> = walls[1..]
        .iter()
        .map(|line| line.split(' ').next().unwrap())
        .collect();
    assert_eq!(faces, ["74-89", "93-108"]);
    for wall in ["nan", "1.7e308", "-0.25"] {
        let items = format!("{}\n90-92,109-117  {wall}", walls[0]);
        let given = sheet.replace(walls[0], &items);
        assert_ne!(given, sheet);
        assert_eq!(printed(&given), printed(&sheet), "{wall}");
    }
}

/// Round the ring goes ln 2, the vortex's 1/r from 1 to 2, the same through either cut as between any two columns
/// of cells, of which each half has eight.
#[test]
fn as_much_goes_through_the_cuts_as_round_the_ring() {
    let sheet = Sheet::read(shipped("annulus").as_bytes()).unwrap();
    let flux = sheet.run().unwrap().flux;
    let column = |cell: usize| cell / 3;
    let mut round = [0.0; 16];
    for (at, &flux) in flux.values().iter().enumerate() {
        let face = sheet.mesh.face(at).unwrap();
        let peer = sheet.conditions.peer(at);
        let beyond = peer.map(|peer| sheet.mesh.face(peer).unwrap().owner);
        if let Some(other) = face.neighbour.or(beyond) {
            if column(other) == (column(face.owner) + 1) % 16 {
                round[column(face.owner)] += flux;
            }
        }
    }
    for flux in round {
        assert!((flux - round[0]).abs() < 1e-7, "{round:?}");
        assert!((flux - 2f64.ln()).abs() < 0.02, "{round:?}");
    }
}

/// A face between a short cell and a long one is 0.5 and 1.5 from their centres, so that it has (1.5 p + 0.5 q) / 2
/// of the short one's pressure p and the long one's q; where the duct is linked likewise. Along x the gradient is
/// the difference of a cell's two ends over its length: in a short cell a quarter of the difference of the long
/// ones beside it, and in a long cell of the short ones beside it. Along y the face between the rows has the mean
/// of the two, the lower wall 0.5 and the upper wall its cell's own.
#[test]
fn the_gradients_of_the_linked_duct() {
    let expected = [
        [(6.0 + 2.0) / 4.0, (1.0 + 2.5) / 2.0 - 0.5],
        [(4.0 - 1.0) / 4.0, (6.0 + 5.0) / 2.0 - 0.5],
        [(-2.0 - 6.0) / 4.0, (4.0 + 8.0) / 2.0 - 0.5],
        [(1.0 - 4.0) / 4.0, (-2.0 + 1.0) / 2.0 - 0.5],
        [(5.0 - 1.0) / 4.0, 2.5 - (1.0 + 2.5) / 2.0],
        [(8.0 - 2.5) / 4.0, 5.0 - (6.0 + 5.0) / 2.0],
        [(1.0 - 5.0) / 4.0, 8.0 - (4.0 + 8.0) / 2.0],
        [(2.5 - 8.0) / 4.0, 1.0 - (-2.0 + 1.0) / 2.0],
    ];
    let expected = expected.map(|[x, y]: [f64; 2]| [x, y, 0.0].map(f64::to_bits));
    let file = path("sheets/linked-duct.sheet");
    let (output, error, status) = told(&[file.to_str().unwrap()], "");
    assert_eq!(gradients(&output), expected);
    assert_eq!((error.as_str(), status), ("", 0));
}

/// In eighths: over all cells the volume times the gradient comes to the area vectors of the outer faces times
/// their values, and the linked ends take from each other. The cells are 1 and 3 long.
#[test]
fn the_gradients_add_up_to_what_stands_at_the_walls() {
    let eighths = |bits: u64| {
        let eighths = 8.0 * f64::from_bits(bits);
        assert_eq!(eighths, eighths.trunc());
        eighths as i64
    };
    let mut sum = [0; 3];
    for (gradient, volume) in gradients(&printed(&shipped(GRADIENT)))
        .iter()
        .zip([1, 3].repeat(4))
    {
        for (sum, &bits) in sum.iter_mut().zip(gradient) {
            *sum += volume * eighths(bits);
        }
    }
    // 2.5, 5, 8 and 1 along the upper wall, 0.5 along all of the lower one
    let upper = 20 + 3 * 40 + 64 + 3 * 8;
    assert_eq!(sum, [0, upper - 8 * 4, 0]);
}
