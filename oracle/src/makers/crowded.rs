//! Meshes with a cell, or two, of about as many faces as 14 allows.
//!
//! Rectangles of one width stand on each other, in storeys. The lines below, between and above them are divided
//! into edges, so that a storey has the edges of two lines and two sides. From the first edges of the lowest line
//! hang cells of four edges, the teeth. In 3D each edge is a strip, and each cell has two ends more.

use super::{Draft, Made};
use crate::random::Random;
use flursys::periodic::{resolve, TranslationalCyclicPair};
use flursys::{BoundaryPatch, BoundaryType, CellDefinition, MeshDimension, Vec3};

const WIDTH: f64 = 24.0;
const HEIGHT: f64 = 6.0;

/// Those made by hand: a cell of 26 and of 27 faces, which is the first cell or the last and then not the owner
/// of all its faces; two such cells; and one in 3D.
pub fn all() -> Vec<Made> {
    let mut made = Vec::new();
    for edges in [[23, 1], [24, 1]] {
        made.push(flat(&edges, 3).built());
        made.push(reversed(flat(&edges, 5)).built().and_then(linked));
    }
    for edges in [[1, 23, 1], [2, 23, 1], [1, 24, 1]] {
        made.push(reversed(flat(&edges, 1)).built().and_then(linked));
    }
    for edges in [[21, 1], [22, 1]] {
        made.push(reversed(spatial(flat(&edges, 4))).built().and_then(linked));
    }
    let built = made
        .into_iter()
        .map(|made| made.expect("storeys are a mesh"));
    built.collect()
}

/// One with a storey of 24 to 28 faces, its points moved and scaled, its cells in some order.
pub fn random(random: &mut Random) -> Option<Made> {
    let in_space = random.chance(1, 3);
    let faces = random.pick(&[24, 25, 26, 26, 26, 27, 27, 28]);
    let mut edges = [0; 4].map(|_| random.pick(&[1, 2, 5, 11]));
    edges[1] = faces - edges[0] - if in_space { 4 } else { 2 };
    let lines = random.between(2, edges.len());
    let teeth = random.below(edges[0] + 1);
    let mut draft = flat(&edges[..lines], teeth);
    if in_space {
        draft = spatial(draft);
    }
    let noise = random.pick(&[0.0, 0.01, 0.1]);
    let scale = random.pick(&[1.0, 1.0, 1.0, 0.125, 1e3, 3e-4, 1e100]);
    draft.name = format!("{}, noise {noise} scale {scale}", draft.name);
    for point in &mut draft.points {
        let is_within = point[0] > 0.0 && point[0] < WIDTH;
        for coordinate in point {
            *coordinate += if is_within {
                random.range(-noise, noise)
            } else {
                0.0
            };
            *coordinate *= scale;
        }
    }
    for last in (1..draft.cells.len()).rev() {
        draft.cells.swap(last, random.below(last + 1));
    }
    let made = draft.built();
    if random.chance(1, 2) {
        made.and_then(linked)
    } else {
        made
    }
}

/// Storeys between lines of so many edges, the lowest first, and then their teeth.
fn flat(edges: &[usize], teeth: usize) -> Draft {
    let mut points = Vec::new();
    let mut line = |height: f64, edges: usize, count: usize| -> Vec<usize> {
        let first = points.len();
        points.extend((0..count).map(|at| [WIDTH * at as f64 / edges as f64, height, 0.0]));
        (first..points.len()).collect()
    };
    let lines: Vec<Vec<usize>> = edges
        .iter()
        .enumerate()
        .map(|(storey, &edges)| line(HEIGHT * storey as f64, edges, edges + 1))
        .collect();
    let tips = line(-1.0, edges[0], teeth + 1);
    let mut cells: Vec<CellDefinition> = lines
        .windows(2)
        .map(|pair| {
            pair[0]
                .iter()
                .chain(pair[1].iter().rev())
                .copied()
                .collect()
        })
        .map(CellDefinition::Polygon)
        .collect();
    for (tip, root) in tips.windows(2).zip(lines[0].windows(2)) {
        cells.push(CellDefinition::Polygon(vec![
            tip[0], tip[1], root[1], root[0],
        ]));
    }
    Draft {
        name: format!("storeys between lines of {edges:?} edges, {teeth} teeth"),
        dimension: MeshDimension::TwoD,
        points,
        cells,
    }
}

/// The same polygons as the ends of polyhedra.
fn spatial(flat: Draft) -> Draft {
    let count = flat.points.len();
    let behind = flat.points.iter().map(|&[x, y, _]| [x, y, 4.0]);
    let solid = |cell: &CellDefinition| {
        let CellDefinition::Polygon(front) = cell else {
            unreachable!("a cell in 2D is a polygon");
        };
        let mut faces = vec![
            front.clone(),
            front.iter().map(|point| point + count).collect(),
        ];
        let next = front.iter().cycle().skip(1);
        faces.extend(
            front
                .iter()
                .zip(next)
                .map(|(&a, &b)| vec![a, b, b + count, a + count]),
        );
        CellDefinition::Polyhedron(faces)
    };
    Draft {
        name: format!("{}, in 3D", flat.name),
        dimension: MeshDimension::ThreeD,
        points: flat.points.iter().copied().chain(behind).collect(),
        cells: flat.cells.iter().map(solid).collect(),
    }
}

/// With the teeth first, and the lowest storey last.
fn reversed(mut draft: Draft) -> Draft {
    draft.name += ", reversed";
    draft.cells.reverse();
    draft
}

/// With the two sides of each storey linked.
fn linked(made: Made) -> Option<Made> {
    let points = made.mesh.points();
    let ends = points.iter().map(|point| point.position.x);
    let width = ends.fold(0.0, f64::max);
    let side = |name: &str, x: f64| BoundaryPatch {
        name: name.to_string(),
        face_indices: (0..made.mesh.face_count())
            .filter(|&face| {
                let mut corners = made.mesh.faces()[face].vertices.iter();
                corners.all(|&corner| {
                    let place = points[corner].position;
                    place.x == x && place.y >= 0.0
                })
            })
            .collect(),
        boundary_type: BoundaryType::Wall,
    };
    let patches = vec![side("left", 0.0), side("right", width)];
    let pair = TranslationalCyclicPair {
        first: "left".to_string(),
        second: "right".to_string(),
        translation: Vec3::new(width, 0.0, 0.0),
        tolerance: width * 1e-6,
    };
    let mesh = made.mesh.clone().with_boundary_patches(patches).ok()?;
    let links = resolve(&mesh, &[pair]).ok()?;
    Some(Made {
        name: made.name + ", linked",
        mesh,
        links: Some(links),
    })
}
