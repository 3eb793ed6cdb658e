//! Meshes of OpenFOAM: a polyMesh folder, read as text and printed as a sheet.

mod boundary;
mod cyclic;
mod folder;
mod header;
mod lists;
mod tokens;
mod write;

use crate::closed::unclosed;
use crate::mistake::Mistake;
use crate::MOST_CELL_FACES;
use boundary::{check_cover, patches, Patch};
use engine::{BuildError, Dimension, Mesh, Vec3};
use folder::Folder;
use lists::{cells, face, file, list, point, List};
use std::path::Path;

/// The mesh of a folder.
pub(crate) struct PolyMesh {
    points: Vec<Vec3>,
    faces: Vec<Vec<usize>>,
    patches: Vec<Patch>,
    links: Vec<cyclic::Link>,
    mesh: Mesh,
}

/// Reads a polyMesh folder and gives a sheet of `form step` with its mesh: conditions by patch, cyclic patches
/// as links, and fields that are the same everywhere, to be edited.
///
/// # Errors
///
/// What is wrong, with the file and the line.
pub fn import(folder: &Path) -> Result<String, String> {
    let folder = Folder::at(folder);
    let mesh = read(&folder)?;
    Ok(write::sheet(&folder.name(), &mesh))
}

/// The lists of a folder, each element with its line.
struct Lists {
    points: List<Vec3>,
    faces: List<Vec<usize>>,
    owners: List<usize>,
    neighbours: List<usize>,
}

fn read(folder: &Folder<'_>) -> Result<PolyMesh, String> {
    let lists = Lists {
        points: folder.read("points", |text| {
            file(text, "points", |tokens| list(tokens, "points", point))
        })?,
        faces: folder.read("faces", |text| {
            file(text, "faces", |tokens| list(tokens, "faces", face))
        })?,
        owners: folder.read("owner", |text| {
            file(text, "owners", |tokens| cells(tokens, "owners"))
        })?,
        neighbours: folder.read("neighbour", |text| {
            file(text, "neighbours", |tokens| cells(tokens, "neighbours"))
        })?,
    };
    let patches = folder.read("boundary", patches)?;
    check_counts(folder, &lists)?;
    let told = |mistake: Mistake| folder.told("boundary", &mistake);
    check_cover(&patches, lists.neighbours.len()..lists.faces.len()).map_err(told)?;
    let mesh = build(folder, &lists)?;
    Ok(PolyMesh {
        links: cyclic::links(&patches, &mesh).map_err(told)?,
        points: values(&lists.points),
        faces: values(&lists.faces),
        patches,
        mesh,
    })
}

/// The mesh, with its geometry worked out, every cell closed and none with too many faces.
fn build(folder: &Folder<'_>, lists: &Lists) -> Result<Mesh, String> {
    let mesh = Mesh::from_points(
        Dimension::Three,
        &values(&lists.points),
        &values(&lists.faces),
        &values(&lists.owners),
        &values(&lists.neighbours),
    );
    let mesh = mesh.map_err(|error| unbuilt(folder, lists, &error))?;
    if let Some(found) = unclosed(&mesh) {
        let face = found.turned.and_then(|face| lists.faces.get(face));
        let line = face.map_or(0, |(line, _)| *line);
        return Err(folder.told("faces", &Mistake::new(line, found.to_string())));
    }
    match crowded(&mesh) {
        None => Ok(mesh),
        Some((cell, faces)) => Err(format!(
            "{}: cell {cell} has {faces} faces, and at most {MOST_CELL_FACES} are taken: split it, or merge its faces",
            folder.name()
        )),
    }
}

/// The lowest cell with more faces than the engine takes, and how many it has.
fn crowded(mesh: &Mesh) -> Option<(usize, usize)> {
    let mut faces = vec![0; mesh.cell_count()];
    for pair in mesh.adjacency().chunks_exact(2) {
        faces[pair[0]] += 1;
        if let Some(neighbour) = pair[1].checked_sub(1) {
            faces[neighbour] += 1;
        }
    }
    let cell = faces.iter().position(|&count| count > MOST_CELL_FACES)?;
    Some((cell, faces[cell]))
}

fn values<T: Clone>(list: &List<T>) -> Vec<T> {
    list.iter().map(|(_, value)| value.clone()).collect()
}

/// Sees that every face has an owner, and that there are no more neighbours than faces.
fn check_counts(folder: &Folder<'_>, lists: &Lists) -> Result<(), String> {
    let faces = lists.faces.len();
    let (owners, neighbours) = (lists.owners.len(), lists.neighbours.len());
    if owners != faces {
        let reason = format!("{owners} owners for {faces} faces: expected one for each");
        return Err(format!("{}: {reason}", folder.path("owner")));
    }
    if neighbours > faces {
        let reason =
            format!("{neighbours} neighbours for {faces} faces: expected no more than that");
        return Err(format!("{}: {reason}", folder.path("neighbour")));
    }
    Ok(())
}

/// An error of the mesh, at the line of the face that it names.
fn unbuilt(folder: &Folder<'_>, lists: &Lists, error: &BuildError) -> String {
    let in_faces = |face: &usize| lists.faces.get(*face).map(|(line, _)| ("faces", *line));
    let in_owners = |face: &usize| lists.owners.get(*face).map(|(line, _)| ("owner", *line));
    let place = match error {
        BuildError::MissingPoint { face, .. }
        | BuildError::FacePoints { face, .. }
        | BuildError::NoArea { face } => in_faces(face),
        BuildError::MissingCell { face, .. } | BuildError::NeighbourIsOwner { face } => {
            in_owners(face)
        }
        _ => None,
    };
    match place {
        Some((file, line)) => format!("{}:{line}: {error}", folder.path(file)),
        None => format!("{}: {error}", folder.name()),
    }
}
