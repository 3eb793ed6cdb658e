//! Cyclic patches, whose faces are linked one by one.

use super::boundary::Patch;
use crate::mistake::{quoted, Mistake};
use engine::{Face, Mesh, Vec3};

/// How far the area vectors of two faces may be from being opposite, by the larger of their numbers.
const TOLERANCE: f64 = 1e-4;

/// Two faces, and the way from the first one's centre to the second one's.
#[derive(Clone, Copy, Debug, PartialEq)]
pub struct Link {
    pub face: usize,
    pub peer: usize,
    pub translation: Vec3,
}

/// The links of all cyclic patches, each pair once.
pub fn links(patches: &[Patch], mesh: &Mesh) -> Result<Vec<Link>, Mistake> {
    let mut links = Vec::new();
    for (at, patch) in patches.iter().enumerate() {
        if patch.kind != "cyclic" {
            continue;
        }
        let other = partner(patches, at)?;
        if other < at {
            continue;
        }
        for (face, peer) in patch.faces.clone().zip(patches[other].faces.clone()) {
            let found = link(mesh, face, peer);
            let told = |reason: String| Mistake::new(patch.line, reason);
            links.push(found.map_err(told)?);
        }
    }
    Ok(links)
}

/// The patch that a cyclic patch is joined to, and that is joined to it.
fn partner(patches: &[Patch], at: usize) -> Result<usize, Mistake> {
    let patch = &patches[at];
    let name = quoted(&patch.name);
    let told = |reason: String| Err(Mistake::new(patch.line, reason));
    let Some(neighbour) = &patch.neighbour else {
        return told(format!("the cyclic patch {name} has no `neighbourPatch`"));
    };
    let Some(other) = patches.iter().position(|patch| patch.name == *neighbour) else {
        let other = quoted(neighbour);
        return told(format!(
            "the cyclic patch {name} names {other}, and there is no such patch"
        ));
    };
    let back = &patches[other];
    if other == at || back.kind != "cyclic" || back.neighbour.as_ref() != Some(&patch.name) {
        let other = quoted(neighbour);
        return told(format!(
            "the cyclic patch {name} names {other}, which is no cyclic patch that names it back"
        ));
    }
    if back.faces.len() != patch.faces.len() {
        return told(format!(
            "the cyclic patch {name} has {} faces and {} has {}: expected as many",
            patch.faces.len(),
            quoted(neighbour),
            back.faces.len()
        ));
    }
    Ok(other)
}

/// A link between two faces that a translation brings together.
fn link(mesh: &Mesh, face: usize, peer: usize) -> Result<Link, String> {
    let (Some(from), Some(to)) = (mesh.face(face), mesh.face(peer)) else {
        return Err(format!("there is no face {face} or no face {peer}"));
    };
    if !are_opposite(&from, &to) {
        return Err(format!(
            "no translation brings face {face} to face {peer}: their areas are not opposite"
        ));
    }
    Ok(Link {
        face,
        peer,
        translation: [0, 1, 2].map(|axis| to.center[axis] - from.center[axis]),
    })
}

fn are_opposite(a: &Face, b: &Face) -> bool {
    let size = a
        .area_vector
        .iter()
        .fold(0.0, |size: f64, x| size.max(x.abs()));
    let pairs = a.area_vector.iter().zip(b.area_vector);
    pairs
        .into_iter()
        .all(|(x, y)| (x + y).abs() <= TOLERANCE * size)
}
