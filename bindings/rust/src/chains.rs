//! The chains of a cell's faces and of its neighbours, and the room that a stencil needs.

use crate::mesh::Dimension;

/// The most equation records that the engine takes.
const MOST_RECORDS: usize = 65_535;

/// Records chained by a next index: they count from 1, and 0 ends a chain.
#[derive(Clone, Debug)]
pub(crate) struct Chains {
    /// Per cell: first face record, first neighbour record.
    pub heads: Vec<usize>,
    /// Per face record: face, next.
    pub facing: Vec<usize>,
    /// Per neighbour record: cell, next.
    pub bordering: Vec<usize>,
}

impl Chains {
    /// Of each cell's faces and neighbours.
    pub fn of(faces: &[Vec<usize>], neighbours: &[Vec<usize>]) -> Self {
        let mut chains = Self {
            heads: Vec::with_capacity(2 * faces.len()),
            facing: Vec::new(),
            bordering: Vec::new(),
        };
        for (faces, neighbours) in faces.iter().zip(neighbours) {
            let first_face = append(&mut chains.facing, faces);
            let first_neighbour = append(&mut chains.bordering, neighbours);
            chains.heads.extend([first_face, first_neighbour]);
        }
        chains
    }
}

/// Appends a record for each of `named` and gives the first one's number, 0 where there is none.
fn append(records: &mut Vec<usize>, named: &[usize]) -> usize {
    let first = records.len() / 2 + 1;
    let last = records.len() / 2 + named.len();
    for (record, &name) in (first..).zip(named) {
        let next = if record == last { 0 } else { record + 1 };
        records.extend([name, next]);
    }
    if named.is_empty() {
        0
    } else {
        first
    }
}

/// The faces of each cell, in face order. Every cell that is named has to be there.
pub(crate) fn faces_of_cells(adjacency: &[usize], cells: usize) -> Vec<Vec<usize>> {
    let mut faces = vec![Vec::new(); cells];
    for (face, pair) in adjacency.chunks_exact(2).enumerate() {
        faces[pair[0]].push(face);
        if let Some(neighbour) = pair[1].checked_sub(1) {
            faces[neighbour].push(face);
        }
    }
    faces
}

/// The neighbours of each cell, in cell order, each once.
pub(crate) fn neighbours_of_cells(adjacency: &[usize], cells: usize) -> Vec<Vec<usize>> {
    let mut neighbours = vec![Vec::new(); cells];
    for pair in adjacency.chunks_exact(2) {
        if let Some(neighbour) = pair[1].checked_sub(1) {
            neighbours[pair[0]].push(neighbour);
            neighbours[neighbour].push(pair[0]);
        }
    }
    for cells in &mut neighbours {
        cells.sort_unstable();
        cells.dedup();
    }
    neighbours
}

/// Records that hold every stencil of the mesh, or as many as the engine takes. A face gives a cell at most one
/// equation: its neighbour's, its fixed value's or its zero gradient's. In 2D a cell whose faces do not fix its
/// gradient also takes the cells of its second ring.
pub(crate) fn room(dimension: Dimension, faces: &[Vec<usize>], neighbours: &[Vec<usize>]) -> usize {
    let mut room = faces.iter().map(Vec::len).sum::<usize>();
    if dimension == Dimension::Two {
        let mut seen = vec![usize::MAX; neighbours.len()];
        for (cell, near) in neighbours.iter().enumerate() {
            if room >= MOST_RECORDS {
                break;
            }
            room += ring(cell, near, neighbours, &mut seen);
        }
    }
    room.min(MOST_RECORDS)
}

/// How many cells are neighbours of a cell's neighbours, itself and its neighbours aside. A place of `seen`
/// names the cell that met it last.
fn ring(cell: usize, near: &[usize], neighbours: &[Vec<usize>], seen: &mut [usize]) -> usize {
    seen[cell] = cell;
    for &neighbour in near {
        seen[neighbour] = cell;
    }
    let mut count = 0;
    for &other in near.iter().flat_map(|&neighbour| &neighbours[neighbour]) {
        if seen[other] != cell {
            seen[other] = cell;
            count += 1;
        }
    }
    count
}
