//! What to do about a refusal, in the words of a sheet.

use crate::run::Refused;
use engine::RefusalKind;

/// What to change in the sheet.
pub fn advice(refused: &Refused) -> String {
    let index = refused.refusal.index;
    match refused.refusal.kind {
        RefusalKind::Size => "a mesh needs a cell, and at most 65,535 each of: faces counted cell by cell, neighbours counted cell by cell, equations of the stencil; take fewer cells or faces".to_string(),
        RefusalKind::BadLink => "in `links`, pair two different faces that have one cell each".to_string(),
        RefusalKind::DegenerateDistance => format!("look at the points of face {index} and its cells, or at the centres in `faces` and `cells`, and at the translation in `links`: these centres must not be in one place"),
        RefusalKind::SingularLeastSquaresStencil => format!("look at the faces of cell {index} and at `dimension`: its neighbours, links and conditions have to lie in as many directions as the mesh has"),
        RefusalKind::InvalidPressureFaceCoefficient => match refused.peer {
            Some(peer) => linked_coefficient(index, peer),
            None => coefficient(refused.by, index),
        },
        RefusalKind::MissingBoundaryCondition => format!("give face {index} a condition in `conditions`, or link it in `links`"),
        RefusalKind::InvalidMomentumDiagonal => format!("give cell {index} a `momentum-diagonal` that is finite and above 0"),
        RefusalKind::InvalidCellMeasure => volume(refused.by, index),
        RefusalKind::CrowdedCell => format!("split cell {index} into smaller ones, or join several of its faces into one: in `faces`, at most 26 may name a cell"),
        _ => "no sheet is known that meets this: keep the sheet and report it".to_string(),
    }
}

/// What the functions of the engine ask of a volume.
fn volume(by: &str, index: usize) -> String {
    match by {
        "step" | "continuity_metrics" => format!("give cell {index} a volume that is finite and above 0 in `cells`: its outflow is divided by it"),
        _ => format!("give cell {index} a volume above 0 in `cells`: its gradient is divided by it"),
    }
}

/// What the functions of the engine mean by a bad coefficient.
fn coefficient(by: &str, index: usize) -> String {
    match by {
        "correct_face_flux_with_boundary" => format!("look at face {index}: its `face-coefficient` has to be finite and above 0, and its `predicted-flux` and the `pressure-correction` of its cells so small that its flux stays finite"),
        "continuity_metrics" => "take smaller fluxes: an outflow, its square or its quotient with the volume is not finite; 0 names no face".to_string(),
        _ if index == 0 => "look at face 0 as at any such face (area vector out of its owner, responses above 0); where it is sound, look at every face and cell for values of velocity, pressure, wall flux or correction that are not finite, or so large that a flux or an outflow is not".to_string(),
        _ => format!("look at face {index}: its area vector has to lead out of its owner, towards the other side, the responses of its cells have to be above 0, and velocity, pressure, wall flux and correction so small that fluxes and outflows stay finite"),
    }
}

/// What the step means by it at a face that is linked.
fn linked_coefficient(index: usize, peer: usize) -> String {
    let beyond = format!("towards the cell beyond its link to face {peer}, which the translation in `links` moves back");
    match index {
        0 => format!("look at face 0 as at any such face (area vector out of its owner, {beyond}; responses above 0); where it is sound, look at every face and cell for values of velocity, pressure, wall flux or correction that are not finite, or so large that a flux or an outflow is not"),
        _ => format!("look at face {index}: its area vector has to lead out of its owner, {beyond}, the responses of both cells have to be above 0, and velocity, pressure and correction so small that fluxes and outflows stay finite; no wall flux is read there"),
    }
}
