//! Seeded makers of meshes, links, conditions and fields. Meshes are built by the Rust's
//! `UnstructuredMesh::from_cells` (`apart` alone is not), links by its `periodic::resolve`.

mod crowded;
mod grid;
mod special;
mod values;

pub use grid::{distorted_quads, hexes, linked_quads, quads};
pub use values::{canonical, fill, float, root_argument, Style};

use crate::lent::Lent;
use crate::random::Random;
use flursys::periodic::CyclicMap;
use flursys::{
    numerics, Cell, CellDefinition, Face, MeshDimension, Point, ResolvedScalarBoundaryConditions,
    ScalarBoundaryCondition, UnstructuredMesh, Vec3,
};

/// A mesh, with its links where it has some.
pub struct Made {
    pub name: String,
    pub mesh: UnstructuredMesh,
    pub links: Option<CyclicMap>,
}

/// Points and cells that `from_cells` may refuse.
struct Draft {
    name: String,
    dimension: MeshDimension,
    points: Vec<[f64; 3]>,
    cells: Vec<CellDefinition>,
}

impl Draft {
    fn built(self) -> Option<Made> {
        let points = self
            .points
            .iter()
            .map(|&[x, y, z]| Point::new(x, y, z))
            .collect();
        let mesh = UnstructuredMesh::from_cells(self.dimension, points, self.cells).ok()?;
        Some(Made {
            name: self.name,
            mesh,
            links: None,
        })
    }
}

/// A mesh of at most about `most` cells; drafts that the Rust refuses to build are passed over.
pub fn mesh(random: &mut Random, most: usize) -> Made {
    loop {
        let made = if random.chance(1, 4) {
            special::random(random)
        } else {
            grid::random(random, most)
        };
        if let Some(made) = made {
            return made;
        }
    }
}

/// Every mesh that is made by hand, in a fixed order, but those of many faces to a cell.
pub fn specials() -> Vec<Made> {
    special::all()
}

/// Meshes made by hand that have cells of 26 or 27 faces.
pub fn crowded_specials() -> Vec<Made> {
    crowded::all()
}

/// A mesh with a cell of 24 to 28 faces.
pub fn crowded(random: &mut Random) -> Made {
    loop {
        if let Some(made) = crowded::random(random) {
            return made;
        }
    }
}

/// So many cells and faces, with a face and a neighbour each, which no mesh of the Rust has: the cells
/// stand apart. It is made from its parts.
pub fn apart(count: usize) -> Made {
    let at = |cell: usize, height: f64| Vec3::new(cell as f64, height, 0.0);
    let up = Vec3::new(0.0, 1.0, 0.0);
    let face = |cell: usize| Face {
        vertices: Vec::new(),
        owner: cell,
        neighbour: None,
        center: at(cell, 0.5),
        area: 1.0,
        normal: up,
        area_vector: up,
    };
    let cell = |cell: usize| Cell {
        faces: vec![cell],
        neighbours: vec![(cell + 1) % count],
        center: at(cell, 0.0),
        volume: 1.0,
    };
    let id = flursys::mesh::access::mesh_id(count as u64);
    let faces = (0..count).map(face).collect();
    let cells = (0..count).map(cell).collect();
    Made {
        name: format!("{count} cells apart"),
        mesh: flursys::mesh::access::from_parts(id, MeshDimension::TwoD, faces, cells),
        links: None,
    }
}

/// How the conditions of a mesh are chosen.
#[derive(Clone, Copy, Debug, PartialEq, Eq)]
pub enum Walls {
    Fixed,
    ZeroGradient,
    Mixed,
    /// Mixed, some absent.
    Absent,
    /// Mixed, with values of every kind.
    Wild,
}

pub const WALLS: [Walls; 5] = [
    Walls::Fixed,
    Walls::ZeroGradient,
    Walls::Mixed,
    Walls::Absent,
    Walls::Wild,
];

/// The mesh in the lent form, with a condition for each one-cell face and the mesh's links. Conditions that
/// the Rust's constructor refuses, absent ones and values that are not finite, are made past it.
pub fn lent(random: &mut Random, made: &Made, walls: Walls) -> Lent {
    let conditions: Vec<_> = made
        .mesh
        .faces()
        .iter()
        .map(|face| match face.neighbour {
            Some(_) => None,
            None => condition(random, walls),
        })
        .collect();
    let mut resolved =
        ResolvedScalarBoundaryConditions::from_face_conditions(&made.mesh, conditions.clone())
            .unwrap_or_else(|_| numerics::access::conditions(made.mesh.id(), conditions, None));
    if let Some(links) = &made.links {
        numerics::access::set_cyclic(&mut resolved, links.clone());
    }
    Lent::new(&made.mesh, &resolved)
}

fn condition(random: &mut Random, walls: Walls) -> Option<ScalarBoundaryCondition> {
    let style = match walls {
        Walls::Wild => Style::Wild,
        _ => Style::Ordinary,
    };
    let fixed = match walls {
        Walls::Fixed => true,
        Walls::ZeroGradient => false,
        _ => random.chance(1, 2),
    };
    if walls == Walls::Absent && random.chance(1, 6) {
        None
    } else if fixed {
        Some(ScalarBoundaryCondition::FixedValue(float(random, style)))
    } else {
        Some(ScalarBoundaryCondition::ZeroGradient)
    }
}
