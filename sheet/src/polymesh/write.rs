//! An imported mesh as a sheet.

use super::boundary::Patch;
use super::PolyMesh;
use crate::mistake::quoted;
use crate::number::decimal;
use engine::Vec3;

/// The fields of an imported sheet: accepted as they stand, and to be edited.
const FIELDS: &str = "\
# Fields of a fluid at rest, to be edited: give a value for each cell or face below the word, in place of
# `uniform` and its value, or write `default` for `uniform` and name the cells or faces that differ.
velocity uniform 0 0 0
pressure uniform 0
momentum-diagonal uniform 1
wall-flux uniform 0               # out of the mesh, at faces with one cell and no link
pressure-correction uniform 0
";

/// The sheet of a mesh.
pub fn sheet(folder: &str, mesh: &PolyMesh) -> String {
    let mut text = format!(
        "# The mesh of {}: points {}, faces {}, cells {}.\nform step\ndimension 3\n\n",
        folder.escape_debug(),
        mesh.points.len(),
        mesh.faces.len(),
        mesh.mesh.cell_count()
    );
    points(&mut text, &mesh.points);
    faces(&mut text, mesh);
    conditions(&mut text, &mesh.patches);
    links(&mut text, mesh);
    text + FIELDS
}

fn points(text: &mut String, points: &[Vec3]) {
    *text += "points                            # point: x y z\n";
    for (at, &point) in points.iter().enumerate() {
        *text += &format!("{at}  {}\n", vector(point));
    }
    text.push('\n');
}

fn faces(text: &mut String, mesh: &PolyMesh) {
    *text += "faces                             # face: owner, neighbour or -, points\n";
    let cells = mesh.mesh.adjacency().chunks_exact(2);
    for (at, (points, pair)) in mesh.faces.iter().zip(cells).enumerate() {
        let neighbour = match pair[1].checked_sub(1) {
            None => "-".to_string(),
            Some(cell) => cell.to_string(),
        };
        let points: Vec<String> = points.iter().map(usize::to_string).collect();
        *text += &format!("{at}  {} {neighbour}  {}\n", pair[0], points.join(" "));
    }
    text.push('\n');
}

/// A line for each patch: a zero gradient, but for cyclic ones, which are linked.
fn conditions(text: &mut String, patches: &[Patch]) {
    *text += "# Conditions of the pressure and of its correction, by patch: zero-gradient, or fixed-value and a number.\n";
    *text += "conditions\n";
    for patch in patches {
        let (name, kind) = (quoted(&patch.name), quoted(&patch.kind));
        *text += &format!("# patch {name}, type {kind}");
        match (patch.kind.as_str(), faces_of(patch)) {
            (_, None) => *text += ", without faces\n",
            ("cyclic", Some(faces)) => *text += &format!(", faces {faces}: linked\n"),
            (_, Some(faces)) => *text += &format!("\n{faces}  zero-gradient\n"),
        }
    }
    text.push('\n');
}

/// The faces of a patch as a range.
fn faces_of(patch: &Patch) -> Option<String> {
    let last = patch.faces.end.checked_sub(1)?;
    match patch.faces.len() {
        0 => None,
        1 => Some(last.to_string()),
        _ => Some(format!("{}-{last}", patch.faces.start)),
    }
}

fn links(text: &mut String, mesh: &PolyMesh) {
    if mesh.links.is_empty() {
        return;
    }
    *text +=
        "links                             # face, peer, translation from the one to the other\n";
    for link in &mesh.links {
        let translation = vector(link.translation);
        *text += &format!("{} {}  {translation}\n", link.face, link.peer);
    }
    text.push('\n');
}

fn vector(vector: Vec3) -> String {
    vector.map(decimal).join(" ")
}
