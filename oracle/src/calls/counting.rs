//! How many equations the Rust's stencil has appended by the time it refuses. This decides between its
//! refusal and 1, where the lent slices hold few records.

use crate::lent::Lent;
use flursys::mesh::access::from_parts;
use flursys::numerics::access::{conditions as conditions_of, equations};
use flursys::periodic::access::cyclic_map;
use flursys::{
    Face, LeastSquaresGradientStencil, MeshDimension, NumericsError,
    ResolvedScalarBoundaryConditions, ScalarBoundaryCondition, UnstructuredMesh, Vec3,
};

/// How many equations the Rust appends before it refuses.
pub fn equations_before(
    mesh: &UnstructuredMesh,
    conditions: &ResolvedScalarBoundaryConditions,
    (number, index): (u64, usize),
) -> usize {
    let (cell, before) = refusing_cell(mesh, conditions);
    let until = (number != 8).then_some(index);
    let direct = direct_equations(mesh, conditions, cell, until);
    if number != 8 {
        return before + direct;
    }
    before + direct + ring(mesh, cell) + closing_normals(mesh, conditions, cell)
}

/// A number of equations that no stencil of the mesh passes, built or refused.
pub fn equations_at_most(
    mesh: &UnstructuredMesh,
    conditions: &ResolvedScalarBoundaryConditions,
) -> usize {
    let of_cell = |cell| {
        direct_equations(mesh, conditions, cell, None)
            + ring(mesh, cell)
            + closing_normals(mesh, conditions, cell)
    };
    (0..mesh.cell_count()).map(of_cell).sum()
}

/// Equations that the faces of a cell give directly, those before the face `until` where one is named.
fn direct_equations(
    mesh: &UnstructuredMesh,
    conditions: &ResolvedScalarBoundaryConditions,
    cell: usize,
    until: Option<usize>,
) -> usize {
    let appends = |&&face: &&usize| {
        mesh.faces()[face].neighbour.is_some()
            || conditions.cyclic_neighbour(mesh, face).is_some()
            || matches!(
                conditions.condition(face),
                Some(ScalarBoundaryCondition::FixedValue(_))
            )
    };
    let faces = mesh.cells()[cell].faces.iter();
    faces
        .take_while(|&&face| Some(face) != until)
        .filter(appends)
        .count()
}

/// How many equations each cell of a stencil has.
pub fn equation_counts(stencil: &LeastSquaresGradientStencil) -> Vec<usize> {
    let cells = equations(stencil);
    cells.iter().map(Vec::len).collect()
}

/// The cell at which the Rust refuses, and the equations that all cells before it have. It is found by
/// building the stencil of ever other meshes, in which the cells from some cell on are closed.
fn refusing_cell(
    mesh: &UnstructuredMesh,
    conditions: &ResolvedScalarBoundaryConditions,
) -> (usize, usize) {
    let mut built = 0;
    let mut before = 0;
    let mut refused = mesh.cell_count();
    while refused - built > 1 {
        let open = (built + refused) / 2;
        match closed_from(mesh, conditions, open) {
            Ok(stencil) => {
                before = equation_counts(&stencil)[..open].iter().sum();
                built = open;
            }
            Err(_) => refused = open,
        }
    }
    (built, before)
}

/// The stencil of the mesh in which the cells from `first` on have three zero-gradient faces, one in each
/// direction, in place of their own. Such a cell is never refused, and the cells before it keep theirs.
fn closed_from(
    mesh: &UnstructuredMesh,
    conditions: &ResolvedScalarBoundaryConditions,
    first: usize,
) -> Result<LeastSquaresGradientStencil, NumericsError> {
    let count = mesh.face_count();
    let mut faces = mesh.faces().to_vec();
    let mut cells = mesh.cells().to_vec();
    let mut wanted: Vec<_> = (0..count).map(|face| conditions.condition(face)).collect();
    for normal in [[1.0, 0.0, 0.0], [0.0, 1.0, 0.0], [0.0, 0.0, 1.0]] {
        let normal = Vec3::new(normal[0], normal[1], normal[2]);
        faces.push(Face {
            vertices: Vec::new(),
            owner: 0,
            neighbour: None,
            center: Vec3::ZERO,
            area: 1.0,
            normal,
            area_vector: normal,
        });
        wanted.push(Some(ScalarBoundaryCondition::ZeroGradient));
    }
    for cell in &mut cells[first..] {
        cell.faces = vec![count, count + 1, count + 2];
    }
    let links = (0..count + 3)
        .map(|face| conditions.cyclic_link(face))
        .collect();
    let map = cyclic_map(mesh.id(), links);
    let conditions = conditions_of(mesh.id(), wanted, Some(map));
    let closed = from_parts(mesh.id(), mesh.dimension(), faces, cells);
    LeastSquaresGradientStencil::new(&closed, &conditions)
}

/// Equations that the second ring of a cell gives in 2D.
fn ring(mesh: &UnstructuredMesh, cell: usize) -> usize {
    if mesh.dimension() == MeshDimension::ThreeD {
        return 0;
    }
    let cells = mesh.cells();
    let near = &cells[cell].neighbours;
    let mut second: Vec<usize> = near
        .iter()
        .flat_map(|&neighbour| cells[neighbour].neighbours.iter().copied())
        .filter(|other| *other != cell && !near.contains(other))
        .collect();
    second.sort_unstable();
    second.dedup();
    let distances = second
        .iter()
        .map(|&other| (cells[other].center - cells[cell].center).norm_squared());
    distances.filter(|&square| is_far(square)).count()
}

/// Equations that the zero-gradient faces of a cell give when they close its stencil.
fn closing_normals(
    mesh: &UnstructuredMesh,
    conditions: &ResolvedScalarBoundaryConditions,
    cell: usize,
) -> usize {
    let closes = |&&face: &&usize| {
        mesh.faces()[face].neighbour.is_none()
            && conditions.cyclic_neighbour(mesh, face).is_none()
            && conditions.condition(face) == Some(ScalarBoundaryCondition::ZeroGradient)
            && is_far(mesh.faces()[face].normal.norm())
    };
    mesh.cells()[cell].faces.iter().filter(closes).count()
}

fn is_far(length: f64) -> bool {
    length.is_finite() && length > f64::EPSILON
}

/// Whether the counting of equations agrees with a stencil that the Rust builds: each cell has the direct
/// ones, these and the ring, or these and the closing ones too; and closing the cells from some cell on
/// changes nothing before it.
pub fn counts_agree(lent: &Lent) -> bool {
    let mesh = lent.mesh();
    let conditions = lent.conditions();
    let Ok(stencil) = LeastSquaresGradientStencil::new(&mesh, &conditions) else {
        return true;
    };
    let found = equation_counts(&stencil);
    let of_cell = |cell: usize| {
        let direct = direct_equations(&mesh, &conditions, cell, None);
        let extended = direct + ring(&mesh, cell);
        let closed = extended + closing_normals(&mesh, &conditions, cell);
        [direct, extended, closed].contains(&found[cell])
    };
    let half = mesh.cell_count() / 2;
    let closed = closed_from(&mesh, &conditions, half);
    (0..mesh.cell_count()).all(of_cell)
        && closed.is_ok_and(|stencil| equation_counts(&stencil)[..half] == found[..half])
}
