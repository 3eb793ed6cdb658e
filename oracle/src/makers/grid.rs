//! Meshes cut from a grid of points: perturbed, stretched, scaled, periodic, in 2D and 3D.

use super::{Draft, Made};
use crate::random::Random;
use flursys::periodic::{resolve, TranslationalCyclicPair};
use flursys::{BoundaryPatch, BoundaryType, CellDefinition, MeshDimension, UnstructuredMesh, Vec3};

#[derive(Clone, Copy, Debug, PartialEq, Eq)]
enum Shape {
    Quads,
    Triangles,
    /// Pairs of quads in rows that are shifted like bricks: six corners a cell.
    Bricks,
    Hexes,
    Tets,
    Prisms,
    Pyramids,
    Polyhedra,
}

const FLAT: [Shape; 4] = [
    Shape::Quads,
    Shape::Triangles,
    Shape::Triangles,
    Shape::Bricks,
];
const SPATIAL: [Shape; 5] = [
    Shape::Hexes,
    Shape::Tets,
    Shape::Prisms,
    Shape::Pyramids,
    Shape::Polyhedra,
];

/// Points at the crossings of lines, moved by noise, then scaled and shifted.
struct Grid {
    shape: Shape,
    counts: [usize; 3],
    lines: [Vec<f64>; 3],
    noise: f64,
    scale: [f64; 3],
    shift: [f64; 3],
    periodic: [bool; 3],
}

/// Points with their places in the grid, where they have one.
struct Points {
    positions: Vec<[f64; 3]>,
    places: Vec<Option<[usize; 3]>>,
}

/// A perturbed, stretched, sometimes scaled or periodic mesh of at most about `most` cells.
pub fn random(random: &mut Random, most: usize) -> Option<Made> {
    let flat = random.chance(1, 2);
    let shape = if flat {
        random.pick(&FLAT)
    } else {
        random.pick(&SPATIAL)
    };
    let counts = counts(random, shape, most);
    let lines = counts.map(|count| lines(random, count));
    let grid = Grid {
        shape,
        counts,
        lines,
        noise: random.pick(&[0.0, 0.05, 0.2, 0.4]),
        scale: scale(random),
        shift: random.pick(&[[0.0; 3], [0.0; 3], [3.5, -2.25, 1.0], [1e4, 1e4, -1e4]]),
        periodic: [0, 1, 2].map(|axis| random.chance(1, 4) && (axis < 2 || !flat)),
    };
    build(random, &grid)
}

/// Squares of side 1.
pub fn quads(columns: usize, rows: usize) -> Made {
    plain(Shape::Quads, [columns, rows, 0], 0.0)
}

/// Quadrilaterals: the corners of squares of side 1, moved by up to 0.1 each way.
pub fn distorted_quads(columns: usize, rows: usize) -> Made {
    plain(Shape::Quads, [columns, rows, 0], 0.2)
}

/// Squares of side 1, the faces of the left side linked with those of the right.
pub fn linked_quads(columns: usize, rows: usize) -> Made {
    let mut grid = even(Shape::Quads, [columns, rows, 0], 0.0);
    grid.periodic[0] = true;
    build(&mut Random::new(0), &grid).expect("a grid of such cells is a mesh")
}

/// Cubes of side 1.
pub fn hexes(columns: usize, rows: usize, layers: usize) -> Made {
    plain(Shape::Hexes, [columns, rows, layers], 0.0)
}

fn plain(shape: Shape, counts: [usize; 3], noise: f64) -> Made {
    let grid = even(shape, counts, noise);
    build(&mut Random::new(0), &grid).expect("a grid of such cells is a mesh")
}

/// Lines at a distance of 1.
fn even(shape: Shape, counts: [usize; 3], noise: f64) -> Grid {
    Grid {
        shape,
        counts,
        lines: counts.map(|count| (0..=count).map(|at| at as f64).collect()),
        noise,
        scale: [1.0; 3],
        shift: [0.0; 3],
        periodic: [false; 3],
    }
}

fn counts(random: &mut Random, shape: Shape, most: usize) -> [usize; 3] {
    let per_box = match shape {
        Shape::Tets | Shape::Pyramids => 6,
        Shape::Triangles | Shape::Prisms => 2,
        _ => 1,
    };
    let flat = FLAT.contains(&shape);
    loop {
        let side = if random.chance(1, 3) { 2 } else { 6 };
        let [x, y] = [random.between(1, side), random.between(1, side)];
        let z = if flat { 0 } else { random.between(1, 3) };
        if x * y * z.max(1) * per_box <= most.max(per_box) {
            return [x, y, z];
        }
    }
}

/// Where the lines of one direction stand: even, growing, or at random.
fn lines(random: &mut Random, count: usize) -> Vec<f64> {
    let kind = random.below(3);
    let growth = random.range(0.4, 2.5);
    let mut at = 0.0;
    let mut step = 1.0;
    let mut lines = vec![at];
    for _ in 0..count {
        at += step;
        lines.push(at);
        step = match kind {
            0 => 1.0,
            1 => step * growth,
            _ => random.range(0.3, 2.0),
        };
    }
    lines
}

/// Mostly 1; else thin in one direction, around the distances that are too near, or large to where
/// products overflow.
fn scale(random: &mut Random) -> [f64; 3] {
    let mut scale = [1.0; 3];
    match random.below(8) {
        0 => {
            let near = f64::EPSILON.sqrt();
            let thin = random.pick(&[near, near * 0.5, near * 2.0, 1e-8, 3e-9, 1e-10]);
            scale[random.below(3)] = thin;
        }
        1 => {
            let power = random.between(90, 155) as i32;
            scale = [10f64.powi(power); 3];
        }
        2 => {
            for axis in &mut scale {
                *axis = 10f64.powi(random.between(0, 164) as i32 - 9);
            }
        }
        3 => scale = [random.pick(&[1e-3, 1e-2, 1e3, 1e6]); 3],
        _ => {}
    }
    scale
}

fn build(random: &mut Random, grid: &Grid) -> Option<Made> {
    let mut points = points(random, grid);
    let cells = cells(random, grid, &mut points);
    let flat = FLAT.contains(&grid.shape);
    let [x, y, z] = grid.counts;
    let draft = Draft {
        name: format!(
            "{:?} {x}x{y}x{z} noise {} scale {:?} shift {:?} periodic {:?}",
            grid.shape, grid.noise, grid.scale, grid.shift, grid.periodic
        ),
        dimension: if flat {
            MeshDimension::TwoD
        } else {
            MeshDimension::ThreeD
        },
        points: points.positions.clone(),
        cells,
    };
    let made = draft.built()?;
    if grid.periodic == [false; 3] {
        return Some(made);
    }
    link(made, grid, &points)
}

/// The points of the grid. Those of the last line of a periodic direction are those of its first,
/// translated.
fn points(random: &mut Random, grid: &Grid) -> Points {
    let [nx, ny, nz] = grid.counts;
    let mut noise = Vec::new();
    for _ in 0..(nx + 1) * (ny + 1) * (nz + 1) {
        noise.push([0; 3].map(|_| random.range(-0.5, 0.5) * grid.noise));
    }
    let lifted = grid.noise > 0.0 && random.chance(1, 2);
    let mut points = Points {
        positions: Vec::new(),
        places: Vec::new(),
    };
    for k in 0..=nz {
        for j in 0..=ny {
            for i in 0..=nx {
                let place = [i, j, k];
                let home: [usize; 3] = std::array::from_fn(|axis| {
                    if grid.periodic[axis] {
                        place[axis] % grid.counts[axis]
                    } else {
                        place[axis]
                    }
                });
                let moved = noise[index(grid, home)];
                let position = std::array::from_fn(|axis| {
                    let moved = if grid.counts[axis] > 0 || lifted {
                        moved[axis]
                    } else {
                        0.0
                    };
                    (grid.lines[axis][place[axis]] + moved * gap(grid, axis, home[axis]))
                        * grid.scale[axis]
                        + grid.shift[axis]
                });
                points.positions.push(position);
                points.places.push(Some(place));
            }
        }
    }
    points
}

/// The least distance from a line to those beside it; in a direction without cells 1.
fn gap(grid: &Grid, axis: usize, at: usize) -> f64 {
    let lines = &grid.lines[axis];
    let above = (at + 1 < lines.len()).then(|| lines[at + 1] - lines[at]);
    let below = (at > 0).then(|| lines[at] - lines[at - 1]);
    let around = if grid.periodic[axis] && at == 0 {
        Some(lines[lines.len() - 1] - lines[lines.len() - 2])
    } else {
        None
    };
    let gaps = [above, below, around];
    let least = gaps.into_iter().flatten().fold(f64::INFINITY, f64::min);
    if least.is_finite() {
        least
    } else {
        1.0
    }
}

fn index(grid: &Grid, [i, j, k]: [usize; 3]) -> usize {
    let [nx, ny, _] = grid.counts;
    i + (nx + 1) * (j + (ny + 1) * k)
}

fn cells(random: &mut Random, grid: &Grid, points: &mut Points) -> Vec<CellDefinition> {
    let [nx, ny, nz] = grid.counts;
    let mut cells = Vec::new();
    match grid.shape {
        Shape::Bricks => {
            for j in 0..ny {
                bricks(grid, j, &mut cells);
            }
        }
        Shape::Polyhedra => {
            for k in 0..nz {
                for j in 0..ny {
                    blocks(grid, j, k, &mut cells);
                }
            }
        }
        _ => {
            let turned = random.chance(1, 2);
            for k in 0..nz.max(1) {
                for j in 0..ny {
                    for i in 0..nx {
                        let turn = turned && random.chance(1, 2);
                        cut(grid, [i, j, k], turn, points, &mut cells);
                    }
                }
            }
        }
    }
    cells
}

/// The cells of one box of the grid.
fn cut(
    grid: &Grid,
    [i, j, k]: [usize; 3],
    turn: bool,
    points: &mut Points,
    cells: &mut Vec<CellDefinition>,
) {
    let at = |x, y, z| index(grid, [i + x, j + y, k + z]);
    let base = [at(0, 0, 0), at(1, 0, 0), at(1, 1, 0), at(0, 1, 0)];
    let [a, b, c, d] = base;
    if FLAT.contains(&grid.shape) {
        match (grid.shape, turn) {
            (Shape::Quads, _) => cells.push(CellDefinition::Polygon(base.to_vec())),
            (_, false) => {
                cells.push(CellDefinition::Polygon(vec![a, b, c]));
                cells.push(CellDefinition::Polygon(vec![a, c, d]));
            }
            (_, true) => {
                cells.push(CellDefinition::Polygon(vec![a, b, d]));
                cells.push(CellDefinition::Polygon(vec![b, c, d]));
            }
        }
        return;
    }
    let [e, f, g, h] = [at(0, 0, 1), at(1, 0, 1), at(1, 1, 1), at(0, 1, 1)];
    match grid.shape {
        Shape::Hexes => cells.push(CellDefinition::Hexahedron([a, b, c, d, e, f, g, h])),
        Shape::Prisms => {
            cells.push(CellDefinition::Prism([a, b, c, e, f, g]));
            cells.push(CellDefinition::Prism([a, c, d, e, g, h]));
        }
        Shape::Tets => {
            for [p, q] in [[b, c], [c, d], [d, h], [h, e], [e, f], [f, b]] {
                cells.push(CellDefinition::Tetrahedron([a, p, q, g]));
            }
        }
        _ => {
            let apex = points.positions.len();
            let corners = [a, b, c, d, e, f, g, h];
            points.positions.push(middle(&points.positions, &corners));
            points.places.push(None);
            for [p, q, r, s] in [
                [a, b, c, d],
                [e, f, g, h],
                [a, b, f, e],
                [b, c, g, f],
                [c, d, h, g],
                [d, a, e, h],
            ] {
                cells.push(CellDefinition::Pyramid([p, q, r, s, apex]));
            }
        }
    }
}

fn middle(positions: &[[f64; 3]], corners: &[usize]) -> [f64; 3] {
    std::array::from_fn(|axis| {
        let parts = corners
            .iter()
            .map(|&corner| positions[corner][axis] / corners.len() as f64);
        parts.sum()
    })
}

/// A row of cells of two boxes each, of one box where the shift leaves one over.
fn bricks(grid: &Grid, j: usize, cells: &mut Vec<CellDefinition>) {
    for (first, last) in runs(grid.counts[0], j % 2) {
        let below = (first..=last).map(|i| index(grid, [i, j, 0]));
        let above = (first..=last).rev().map(|i| index(grid, [i, j + 1, 0]));
        cells.push(CellDefinition::Polygon(below.chain(above).collect()));
    }
}

/// A row of polyhedra of one or two boxes each, by their faces.
fn blocks(grid: &Grid, j: usize, k: usize, cells: &mut Vec<CellDefinition>) {
    for (first, last) in runs(grid.counts[0], (j + k) % 2) {
        let at = |i: usize, y: usize, z: usize| index(grid, [i, j + y, k + z]);
        let mut faces = Vec::new();
        for i in [first, last] {
            faces.push(vec![at(i, 0, 0), at(i, 1, 0), at(i, 1, 1), at(i, 0, 1)]);
        }
        for i in first..last {
            for side in 0..2 {
                faces.push(vec![
                    at(i, side, 0),
                    at(i + 1, side, 0),
                    at(i + 1, side, 1),
                    at(i, side, 1),
                ]);
                faces.push(vec![
                    at(i, 0, side),
                    at(i + 1, 0, side),
                    at(i + 1, 1, side),
                    at(i, 1, side),
                ]);
            }
        }
        cells.push(CellDefinition::Polyhedron(faces));
    }
}

/// Cuts `count` boxes into runs of two after a first run of `shift`, as first and last line.
fn runs(count: usize, shift: usize) -> Vec<(usize, usize)> {
    let mut runs = Vec::new();
    let mut at = 0;
    while at < count {
        let length = if at == 0 && shift == 1 { 1 } else { 2 };
        let end = (at + length).min(count);
        runs.push((at, end));
        at = end;
    }
    runs
}

/// Names the first and last faces of each periodic direction and lets the Rust match them.
fn link(made: Made, grid: &Grid, points: &Points) -> Option<Made> {
    let mut patches = Vec::new();
    let mut pairs = Vec::new();
    for axis in (0..3).filter(|&axis| grid.periodic[axis]) {
        let [first, second] = [format!("{axis} first"), format!("{axis} last")];
        for (name, line) in [(&first, 0), (&second, grid.counts[axis])] {
            patches.push(BoundaryPatch {
                name: name.clone(),
                face_indices: faces_on(&made.mesh, points, axis, line),
                boundary_type: BoundaryType::Wall,
            });
        }
        let lines = &grid.lines[axis];
        let length = (lines[lines.len() - 1] - lines[0]) * grid.scale[axis];
        let mut translation = [0.0; 3];
        translation[axis] = length;
        pairs.push(TranslationalCyclicPair {
            first,
            second,
            translation: Vec3::new(translation[0], translation[1], translation[2]),
            tolerance: length * 1e-6,
        });
    }
    let mesh = made.mesh.with_boundary_patches(patches).ok()?;
    let links = resolve(&mesh, &pairs).ok()?;
    Some(Made {
        name: made.name,
        mesh,
        links: Some(links),
    })
}

/// The one-cell faces whose points all lie on one line of the grid.
fn faces_on(mesh: &UnstructuredMesh, points: &Points, axis: usize, line: usize) -> Vec<usize> {
    let is_on = |&vertex: &usize| points.places[vertex].is_some_and(|place| place[axis] == line);
    (0..mesh.face_count())
        .filter(|&face| {
            let face = &mesh.faces()[face];
            face.neighbour.is_none() && face.vertices.iter().all(is_on)
        })
        .collect()
}
