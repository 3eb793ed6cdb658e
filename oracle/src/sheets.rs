//! Sheets of the sheet program, compared as made cases are: the calls that the form of a sheet makes and, where
//! its step is accepted, every other entry, lent what the Rust's step handed out; values of faces are its fluxes.

use crate::calls::Outcome;
use crate::compare;
use crate::entry::Entry;
use crate::lent::{Counts, Lent, Slices};
use crate::port::Port;
use engine::{Conditions, Dimension, Mesh};
use sheet::{AnySheet, CorrectionFields, FaceValues, Fields, Momentum, StepFields};
use std::path::Path;

/// Compares on every file, and gives whether all were read and all agreed.
pub fn run(port: &Port, files: &[String]) -> bool {
    let mut total = 0;
    let mut all = !files.is_empty();
    for file in files {
        match read(file) {
            Ok(sheet) => {
                let (entries, lent) = lent(&sheet);
                let (compared, agreed) = compare::on(port, file, &entries, &lent);
                total += compared;
                all &= agreed && compared == entries.len() as u64;
            }
            Err(mistake) => {
                println!("{mistake}");
                all = false;
            }
        }
    }
    println!(
        "sheets: {total} calls compared, {}",
        if all { "none differs" } else { "not all agree" }
    );
    all
}

fn read(file: &str) -> Result<AnySheet, String> {
    sheet::files::contents(Path::new(file))
        .and_then(|bytes| AnySheet::read(&bytes).map_err(|mistake| mistake.in_file(file)))
}

/// The fluxes that the Rust gives for a sheet, as the sheet program marks them; none where it refuses.
pub fn fluxes(file: &str) -> Option<String> {
    let (_, lent) = lent(&read(file).ok()?);
    if lent.slices.flux.is_empty() {
        return None;
    }
    let fluxes = lent.slices.flux.iter().enumerate();
    let lines = fluxes.map(|(face, flux)| format!("{face} {:016x}\n", flux.to_bits()));
    let title = format!("# The fluxes of {file}, as the original Rust gives them.\nface flux\n");
    Some(title + &lines.collect::<String>())
}

/// What a sheet lends, and the entries that it lends enough for.
fn lent(sheet: &AnySheet) -> (Vec<Entry>, Lent) {
    match sheet {
        AnySheet::Fluxes(sheet) => {
            let mut lent = of_mesh(&sheet.mesh, &sheet.conditions);
            let entries = match &sheet.fields {
                Fields::Step(fields) => of_step(fields, &mut lent),
                Fields::Correction(fields) => of_correction(fields, &mut lent),
            };
            (entries, lent)
        }
        AnySheet::Gradient(sheet) => {
            let absent = Conditions::absent(&sheet.mesh);
            let conditions = sheet.conditions.as_ref().unwrap_or(&absent);
            let mut lent = of_mesh(&sheet.mesh, conditions);
            (of_gradient(&sheet.values, &mut lent), lent)
        }
    }
}

fn of_mesh(mesh: &Mesh, conditions: &Conditions) -> Lent {
    let counts = Counts {
        mesh: mesh.number(),
        dimension: match mesh.dimension() {
            Dimension::Two => 2,
            Dimension::Three => 3,
        },
        cells: mesh.cell_count(),
        faces: mesh.face_count(),
        face_records: mesh.facing().len() / 2,
        neighbour_records: mesh.bordering().len() / 2,
    };
    let slices = Slices {
        adjacency: mesh.adjacency().to_vec(),
        geometry: mesh.geometry_under(conditions).to_vec(),
        heads: mesh.heads().to_vec(),
        places: mesh.places().to_vec(),
        facing: mesh.facing().to_vec(),
        bordering: mesh.bordering().to_vec(),
        codes: conditions.codes().to_vec(),
        values: conditions.values().to_vec(),
        ..Slices::default()
    };
    Lent::of(counts, mesh.stencil_room(), slices)
}

fn of_gradient(values: &FaceValues, lent: &mut Lent) -> Vec<Entry> {
    match values {
        FaceValues::Given(values) => {
            lent.slices.face_values = values.values().to_vec();
            vec![Entry::GaussGradientFromFaces]
        }
        FaceValues::Pressure(pressure) => {
            lent.slices.pressure = pressure.values().to_vec();
            vec![
                Entry::PressureCouplingGradient,
                Entry::PressureCouplingGradientWithoutConditions,
            ]
        }
    }
}

fn of_step(fields: &StepFields, lent: &mut Lent) -> Vec<Entry> {
    let slices = &mut lent.slices;
    slices.velocity = fields.velocity.values().to_vec();
    slices.pressure = fields.pressure.values().to_vec();
    slices.walls = fields.walls.values().to_vec();
    slices.correction = fields.correction.values().to_vec();
    let mut entries = Vec::new();
    match &fields.momentum {
        Momentum::Response(responses) => slices.responses = responses.values().to_vec(),
        Momentum::Diagonal(diagonal) => {
            slices.diagonal = diagonal.clone();
            entries.push(Entry::MomentumInverseDiagonal);
            if !handed_on(Entry::MomentumInverseDiagonal, lent) {
                return entries;
            }
        }
    }
    entries.push(Entry::Step);
    if handed_on(Entry::Step, lent) {
        lent.slices.face_values.clone_from(&lent.slices.flux);
        let others = Entry::ALL.into_iter();
        entries.extend(
            others.filter(|&entry| entry != Entry::MomentumInverseDiagonal && entry != Entry::Step),
        );
    }
    entries
}

fn of_correction(fields: &CorrectionFields, lent: &mut Lent) -> Vec<Entry> {
    let slices = &mut lent.slices;
    slices.predicted = fields.predicted.values().to_vec();
    slices.coefficients = fields.coefficients.values().to_vec();
    slices.correction = fields.correction.values().to_vec();
    let mut entries = vec![
        Entry::CorrectFaceFluxInPlace,
        Entry::CorrectFaceFluxWithBoundary,
    ];
    if handed_on(Entry::CorrectFaceFluxWithBoundary, lent) {
        entries.extend([Entry::IntegratedDivergence, Entry::ContinuityMetrics]);
    }
    entries
}

/// Lends what the Rust hands out for an entry, where it accepts, and says whether it does.
fn handed_on(entry: Entry, lent: &mut Lent) -> bool {
    let outputs = compare::patterned(entry, lent);
    match compare::expected(entry, lent, &outputs) {
        Outcome::Accepted(handed) => {
            for &part in entry.outputs() {
                lent.slices.take(part, &handed);
            }
            true
        }
        Outcome::Refused(_) => false,
    }
}
