//! A cell's own order of faces.

use crate::entries::Entry;
use crate::items::{items, within};
use crate::mistake::{quoted, AtLine, Mistake};
use crate::number::index;
use engine::Mesh;

/// The mesh with a cell's faces in the order given; other cells keep the order of the faces.
pub fn ordered(mesh: Mesh, entry: &Entry<'_>) -> Result<Mesh, Mistake> {
    entry.bare()?;
    let mut order = in_face_order(&mesh);
    for (cell, item) in items(entry, "cell")? {
        within(cell, mesh.cell_count(), "cell").at(item.line)?;
        let given = item.words.iter().map(|word| index(word, "face"));
        let given = given.collect::<Result<Vec<_>, _>>().at(item.line)?;
        let mut sorted = given.clone();
        sorted.sort_unstable();
        if sorted != order[cell] {
            let due = order[cell].iter().map(usize::to_string).collect::<Vec<_>>();
            let reason = format!(
                "expected the faces of cell {cell}, each once: {}",
                quoted(&due.join(" "))
            );
            return Err(Mistake::new(item.line, reason));
        }
        order[cell] = given;
    }
    let ordered = mesh.with_face_order(&order);
    ordered.map_err(|error| Mistake::new(entry.line, error.to_string()))
}

/// The faces of each cell.
fn in_face_order(mesh: &Mesh) -> Vec<Vec<usize>> {
    let mut order = vec![Vec::new(); mesh.cell_count()];
    for (face, pair) in mesh.adjacency().chunks_exact(2).enumerate() {
        order[pair[0]].push(face);
        if let Some(neighbour) = pair[1].checked_sub(1) {
            order[neighbour].push(face);
        }
    }
    order
}
