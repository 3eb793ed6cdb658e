//! Exact amounts, and the balance of a sum that rounds.

use juvandeer::balance::{Amount, Balance, BalanceError, Whole};
use juvandeer::{Cell, CellField, Dimension, Face, FaceField, Mesh};

fn amount(x: f64) -> Amount {
    Amount::of(x).unwrap()
}

#[test]
fn whole_numbers_print_and_count() {
    let two_100 = Whole::from(1).shifted(100);
    assert_eq!(two_100.to_string(), "1267650600228229401496703205376");
    assert_eq!(
        (&Whole::zero() - &two_100).to_string(),
        "-1267650600228229401496703205376"
    );
    assert!((&two_100 - &two_100).is_zero());
    assert_eq!(&two_100 + &two_100, Whole::from(1).shifted(101));
    assert_eq!(
        &Whole::from(1).shifted(64) - &Whole::from(1),
        Whole::from(u64::MAX)
    );
    assert_eq!(
        two_100.times(10).to_string(),
        "12676506002282294014967032053760"
    );
    assert_eq!(Whole::zero().to_string(), "0");
    assert!(-two_100.clone() < Whole::zero() && Whole::from(9) < two_100);
    assert!(-two_100.clone() < -Whole::from(9));
}

#[test]
fn amounts_of_floats_are_exact() {
    assert_eq!(amount(f64::from_bits(1)).whole(), &Whole::from(1));
    assert_eq!(amount(1.0).whole(), &Whole::from(1).shifted(1074));
    assert_eq!(amount(-0.0), Amount::zero());
    assert_eq!(Amount::of(f64::NAN), None);
    assert_eq!(Amount::of(f64::INFINITY), None);
    let largest = amount(f64::MAX).whole().clone();
    assert_eq!(largest, Whole::from((1 << 53) - 1).shifted(1074 + 971));
}

#[test]
fn decimals_have_every_digit() {
    assert_eq!(amount(-2.5).to_string(), "-2.5");
    assert_eq!(amount(1e22).to_string(), "10000000000000000000000");
    assert_eq!(amount(0.0).to_string(), "0");
    let tenth = "0.1000000000000000055511151231257827021181583404541015625";
    assert_eq!(amount(0.1).to_string(), tenth);
    // the standard library prints exact decimals too
    for x in [
        1.0 / 3.0,
        1234.5678e-100,
        f64::MIN_POSITIVE,
        3.0e200,
        -7.1e-320,
    ] {
        assert_eq!(
            amount(x).to_string(),
            format!("{x:.1100}")
                .trim_end_matches('0')
                .trim_end_matches('.')
        );
    }
}

#[test]
fn fewer_digits_are_rounded() {
    assert_eq!(amount(0.1).scientific(3), "1.00e-1");
    assert_eq!(amount(-999.96).scientific(4), "-1.000e3");
    assert_eq!(amount(12345.0).scientific(2), "1.2e4");
    assert_eq!(amount(2f64.powi(-52)).scientific(6), "2.22045e-16");
    assert_eq!(amount(7.0).scientific(0), "7e0");
    assert_eq!(Amount::zero().scientific(6), "0");
    assert_eq!(
        amount(7.0).scientific(usize::MAX).len(),
        "7.e0".len() + 1499
    );
}

/// One cell with a face for each flux.
fn one_cell(flux: &[f64]) -> (Mesh, FaceField, CellField) {
    let face = Face {
        owner: 0,
        neighbour: None,
        center: [1.0, 0.0, 0.0],
        area_vector: [1.0, 0.0, 0.0],
        normal: [1.0, 0.0, 0.0],
    };
    let cell = Cell {
        center: [0.0; 3],
        volume: 1.0,
    };
    let mesh = Mesh::from_faces(Dimension::Three, &vec![face; flux.len()], &[cell]).unwrap();
    let flux = FaceField::new(&mesh, flux.to_vec());
    let outflow = mesh.integrated_divergence(&flux).unwrap();
    (mesh, flux, outflow)
}

/// P12 of document 01, with the numbers of docs/BALANCE.md.
#[test]
fn a_sum_that_rounds() {
    let small = 2f64.powi(-53);
    let (mesh, flux, outflow) = one_cell(&[1.0, small, small]);
    assert_eq!(outflow.values(), [1.0]);
    let balance = Balance::of(&mesh, &flux, &outflow).unwrap();
    let cell = &balance.cells[0];
    let two_to = |places| Whole::from(1).shifted(places);
    assert_eq!(cell.terms, 3);
    assert_eq!(cell.exact.whole(), &(&two_to(1074) + &two_to(1022)));
    assert_eq!(cell.difference.whole(), &two_to(1022));
    assert_eq!(cell.bound.places(), 1074 + 53);
    assert_eq!(cell.bound.whole(), &(&two_to(1075) + &two_to(1023)));
    let magnitudes = &two_to(1074) + &two_to(1022);
    assert_eq!(cell.quotable.places(), 1074 + 53);
    assert_eq!(cell.quotable.whole(), &magnitudes.times(25));
    assert_eq!(balance.total.quotable, cell.quotable);
    assert!(balance.holds());
    assert_eq!(balance.total.difference, cell.difference);
    assert!(balance
        .to_string()
        .contains("0 3 1.00000e0 1.00000e0 2.22045e-16 2.22045e-16"));
}

/// 26 terms are the most: their bound is the one with 25.
#[test]
fn the_largest_multiplier_is_25() {
    let (mesh, flux, outflow) = one_cell(&[0.1; 26]);
    let balance = Balance::of(&mesh, &flux, &outflow).unwrap();
    assert!(balance.holds());
    assert_eq!(balance.cells[0].terms, 26);
    assert_eq!(balance.cells[0].quotable, balance.cells[0].bound);
    assert_eq!(balance.total.quotable, balance.total.bound);
    let (mesh, flux, outflow) = one_cell(&[0.1; 25]);
    let balance = Balance::of(&mesh, &flux, &outflow).unwrap();
    assert!(balance.cells[0].quotable > balance.cells[0].bound);
}

#[test]
fn a_changed_outflow_is_out_of_its_bound() {
    let (mesh, flux, mut outflow) = one_cell(&[1.0, 1.0]);
    assert!(Balance::of(&mesh, &flux, &outflow).unwrap().holds());
    outflow.values_mut()[0] = 2.0 + 2f64.powi(-51);
    let balance = Balance::of(&mesh, &flux, &outflow).unwrap();
    assert!(!balance.cells[0].holds() && !balance.total.holds() && !balance.holds());
}

#[test]
fn what_has_no_balance_is_told() {
    let (mesh, mut flux, outflow) = one_cell(&[1.0, 2.0]);
    let (other, _, _) = one_cell(&[1.0, 2.0]);
    let of = |flux: &FaceField| Balance::of(&mesh, flux, &outflow).unwrap_err();
    assert_eq!(
        of(&FaceField::uniform(&other, 0.0)),
        BalanceError::MeshMismatch
    );
    assert_eq!(of(&FaceField::new(&mesh, vec![1.0])), BalanceError::Length);
    flux.values_mut()[1] = f64::NAN;
    assert_eq!(of(&flux), BalanceError::Flux { face: 1 });
}
