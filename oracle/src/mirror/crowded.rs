//! Copies of the port that are wrong about 14.

use super::Sham;
use crate::calls;
use crate::checks::{self, MOST};
use crate::entry::{Entry, Part};
use crate::lent::{Lent, Slices};
use crate::port::Answer;

/// Where 14 refuses, another cell is named, or none.
macro_rules! miscounted {
    ($name:literal, $entry:ident, $cell:expr) => {
        Sham {
            name: $name,
            entry: Entry::$entry,
            fault: |lent, _, outputs, answer| match answer {
                Answer::Refused(14, _) => {
                    let cell: fn(Entry, &Lent) -> Option<usize> = $cell;
                    named(Entry::$entry, lent, outputs, cell(Entry::$entry, lent))
                }
                answer => answer,
            },
        }
    };
}

/// What a call answers where 14 names this cell, or none and what comes after it decides.
fn named(entry: Entry, lent: &Lent, outputs: &mut Slices, cell: Option<usize>) -> Answer {
    if let Some(cell) = cell {
        return Answer::Refused(14, cell);
    }
    if let Some(face) = bad_link(entry, lent) {
        return Answer::Refused(6, face);
    }
    if let Some(&face) = checks::wrong_distances(entry, lent).first() {
        return Answer::Refused(20, face);
    }
    let outcome = calls::run(entry, lent);
    *outputs = outcome.contents(entry, outputs);
    outcome.answer()
}

fn bad_link(entry: Entry, lent: &Lent) -> Option<usize> {
    let links = match entry.lends(Part::Codes) {
        true => checks::bad_links(lent),
        false => Vec::new(),
    };
    links.first().copied()
}

fn over(found: &[usize], most: usize) -> Option<usize> {
    found.iter().position(|&found| found > most)
}

/// The lower of two cells, where there are two.
fn lower(a: Option<usize>, b: Option<usize>) -> Option<usize> {
    a.into_iter().chain(b).min()
}

/// The lowest cell of over `most` records, where chains are lent.
fn listed(entry: Entry, lent: &Lent, most: usize) -> Option<usize> {
    match entry.lends(Part::Facing) {
        true => over(&checks::face_records(lent), most),
        false => None,
    }
}

/// One more face and one more record allowed.
fn one_more(entry: Entry, lent: &Lent) -> Option<usize> {
    let named = over(&checks::namings(lent), MOST + 1);
    lower(named, listed(entry, lent, MOST + 1))
}

fn highest(entry: Entry, lent: &Lent) -> Option<usize> {
    let crowded = checks::crowded(entry, lent);
    crowded.iter().flatten().max().copied()
}

/// Only the faces before `end` counted, by their owners or by both cells.
fn counted(entry: Entry, lent: &Lent, end: usize, by_owner: bool) -> Option<usize> {
    let mut few = lent.clone();
    few.slices.adjacency.truncate(2 * end);
    if by_owner {
        let faces = few.slices.adjacency.chunks_exact_mut(2);
        faces.for_each(|face| face[1] = 0);
    }
    lower(
        over(&checks::namings(&few), MOST),
        listed(entry, lent, MOST),
    )
}

fn owners(entry: Entry, lent: &Lent) -> Option<usize> {
    counted(entry, lent, lent.counts.faces, true)
}

/// The count of a cell's faces kept in a byte.
fn in_bytes(entry: Entry, lent: &Lent) -> Option<usize> {
    let named: Vec<usize> = checks::namings(lent).iter().map(|&n| n % 256).collect();
    lower(over(&named, MOST), listed(entry, lent, MOST))
}

fn without_last(entry: Entry, lent: &Lent) -> Option<usize> {
    counted(entry, lent, lent.counts.faces - 1, false)
}

fn by_faces(_: Entry, lent: &Lent) -> Option<usize> {
    over(&checks::namings(lent), MOST)
}

fn by_records(entry: Entry, lent: &Lent) -> Option<usize> {
    listed(entry, lent, MOST)
}

/// The records looked at only where no cell has too many faces.
fn faces_first(entry: Entry, lent: &Lent) -> Option<usize> {
    by_faces(entry, lent).or(by_records(entry, lent))
}

/// A face counted a single time in a chain.
fn distinct(entry: Entry, lent: &Lent) -> Option<usize> {
    let heads = lent.slices.heads.chunks_exact(2);
    let found: Vec<usize> = heads
        .map(|heads| {
            let mut chain = Lent::chain(&lent.slices.facing, heads[0]);
            chain.sort_unstable();
            chain.dedup();
            chain.len()
        })
        .collect();
    lower(by_faces(entry, lent), over(&found, MOST))
}

fn none(_: Entry, _: &Lent) -> Option<usize> {
    None
}

/// The bad link named, where there is one too.
const fn links_first(entry: Entry) -> Sham {
    Sham {
        name: "6 before 14",
        entry,
        fault: |lent, _, _, answer| match answer {
            Answer::Refused(14, _) => checks::bad_links(lent)
                .first()
                .map_or(answer, |&face| Answer::Refused(6, face)),
            answer => answer,
        },
    }
}

/// A crowded cell named before a chain is walked.
const fn before_chains(entry: Entry) -> Sham {
    Sham {
        name: "14 before 5",
        entry,
        fault: |lent, _, _, answer| match answer {
            Answer::Refused(5, _) => {
                over(&checks::namings(lent), MOST).map_or(answer, |cell| Answer::Refused(14, cell))
            }
            answer => answer,
        },
    }
}

/// A crowded cell named where a code is unknown: the faces counted before all of 4 is tested.
const fn before_codes(entry: Entry) -> Sham {
    Sham {
        name: "14 before the codes of 4",
        entry,
        fault: |lent, _, _, answer| match answer {
            Answer::Refused(4, face) if lent.slices.codes[2 * face] > 2 => {
                let cells = lent.counts.cells;
                let faces = lent.slices.adjacency.chunks_exact(2);
                let mut good = lent.clone();
                good.slices.adjacency = faces
                    .filter(|face| face[0] < cells && face[1] <= cells)
                    .flatten()
                    .copied()
                    .collect();
                over(&checks::namings(&good), MOST).map_or(answer, |cell| Answer::Refused(14, cell))
            }
            answer => answer,
        },
    }
}

pub const SHAMS: &[Sham] = &[
    miscounted!("no limit of faces", PressureFaceCoefficients, none),
    miscounted!("no limit of faces", RhieChowPredictedFlux, none),
    miscounted!("27 faces accepted", LeastSquaresStencil, one_more),
    miscounted!("27 faces accepted", IntegratedDivergence, one_more),
    miscounted!("27 faces accepted", CorrectFaceFluxInPlace, one_more),
    miscounted!("27 faces accepted", Step, one_more),
    miscounted!("27 faces accepted", GaussGradientFromFaces, one_more),
    miscounted!(
        "the highest crowded cell",
        PressureFaceCoefficientsWithBoundary,
        highest
    ),
    miscounted!("the highest crowded cell", ContinuityMetrics, highest),
    miscounted!("the highest crowded cell", Step, highest),
    miscounted!(
        "the highest crowded cell",
        PressureCouplingGradient,
        highest
    ),
    miscounted!("only owners counted", CorrectFaceFluxWithBoundary, owners),
    miscounted!("only owners counted", IntegratedDivergence, owners),
    miscounted!("only owners counted", Step, owners),
    miscounted!(
        "only owners counted",
        PressureCouplingGradientWithoutConditions,
        owners
    ),
    miscounted!(
        "the last face not counted",
        RhieChowPredictedFlux,
        without_last
    ),
    miscounted!(
        "faces counted in a byte",
        PressureFaceCoefficients,
        in_bytes
    ),
    miscounted!(
        "the chains of faces not counted",
        LeastSquaresStencil,
        by_faces
    ),
    miscounted!("the chains of faces not counted", Step, by_faces),
    miscounted!("only the chains of faces counted", Step, by_records),
    miscounted!("faces before records", LeastSquaresStencil, faces_first),
    miscounted!("a face counted once in a chain", Step, distinct),
    links_first(Entry::LeastSquaresStencil),
    links_first(Entry::PressureFaceCoefficientsWithBoundary),
    links_first(Entry::CorrectFaceFluxWithBoundary),
    links_first(Entry::CorrectFaceFluxInPlace),
    links_first(Entry::Step),
    links_first(Entry::PressureCouplingGradient),
    before_chains(Entry::LeastSquaresStencil),
    before_chains(Entry::RhieChowPredictedFlux),
    before_chains(Entry::Step),
    before_codes(Entry::CorrectFaceFluxWithBoundary),
    Sham {
        name: "outputs cleared by 14",
        entry: Entry::ContinuityMetrics,
        fault: |_, _, outputs, answer| {
            if let Answer::Refused(14, _) = answer {
                outputs.outflow.fill(0.0);
            }
            answer
        },
    },
];
