//! The two-cell sheet of document 01.

use juvandeer::balance::{Amount, Balance};
use juvandeer::{Cell, CellField, Condition, Conditions, Dimension, Face, FaceField, Mesh};

fn sheet() -> Mesh {
    let face = |owner, neighbour, x, outward| Face {
        owner,
        neighbour,
        center: [x, 0.5, 0.0],
        area_vector: [outward, 0.0, 0.0],
        normal: [outward, 0.0, 0.0],
    };
    let cell = |x| Cell {
        center: [x, 0.5, 0.0],
        volume: 1.0,
    };
    let faces = [
        face(0, Some(1), 1.0, 1.0),
        face(0, None, 0.0, -1.0),
        face(1, None, 2.0, 1.0),
    ];
    Mesh::from_faces(Dimension::Two, &faces, &[cell(0.5), cell(1.5)]).unwrap()
}

fn fluxes(mesh: &Mesh) -> (FaceField, CellField) {
    let flux = mesh
        .correct_face_flux_with_boundary(
            &Conditions::uniform(mesh, Condition::ZeroGradient),
            &FaceField::new(mesh, vec![2.0, -1.0, 1.0]),
            &FaceField::new(mesh, vec![0.5, 0.0, 0.0]),
            &CellField::new(mesh, vec![1.0, 3.0]),
        )
        .unwrap();
    let outflow = mesh.integrated_divergence(&flux).unwrap();
    (flux, outflow)
}

fn bits(values: &[f64]) -> Vec<u64> {
    values.iter().map(|x| x.to_bits()).collect()
}

#[test]
fn the_sheet_has_the_bits_of_document_01() {
    let mesh = sheet();
    let (flux, outflow) = fluxes(&mesh);
    let expected = [0x3ff0000000000000, 0xbff0000000000000, 0x3ff0000000000000];
    assert_eq!(bits(flux.values()), expected);
    assert_eq!(bits(outflow.values()), [0, 0]);
}

#[test]
fn outflows_can_be_left_in_a_field() {
    let mesh = sheet();
    let (flux, outflow) = fluxes(&mesh);
    let mut field = CellField::uniform(&mesh, 7.0);
    mesh.integrated_divergence_into(&flux, &mut field).unwrap();
    assert_eq!(field, outflow);
    let other = sheet();
    let refusal = mesh.integrated_divergence_into(&flux, &mut CellField::uniform(&other, 7.0));
    assert_eq!(refusal.unwrap_err().kind.number(), 3);
}

#[test]
fn its_balance_is_that_of_the_document_on_the_balance() {
    let mesh = sheet();
    let (flux, outflow) = fluxes(&mesh);
    let balance = Balance::of(&mesh, &flux, &outflow).unwrap();
    assert!(balance.holds());
    for cell in &balance.cells {
        assert_eq!(cell.terms, 2);
        assert_eq!(cell.exact, Amount::zero());
        assert_eq!(cell.difference, Amount::zero());
        assert_eq!(Some(&cell.bound), Amount::of(2f64.powi(-52)).as_ref());
    }
    assert_eq!(balance.total.boundary, Amount::zero());
    assert_eq!(balance.total.difference, Amount::zero());
    assert_eq!(Some(balance.total.bound), Amount::of(2f64.powi(-51)));
}

#[test]
fn roots_are_the_correctly_rounded_ones() {
    assert_eq!(juvandeer::root(2.0).to_bits(), 0x3ff6a09e667f3bcd);
    assert_eq!(juvandeer::root(4.0), 2.0);
    assert_eq!(juvandeer::root(f64::from_bits(1)), 2f64.powi(-537));
    assert!(juvandeer::root(-1.0).is_nan());
}
