//! Small meshes made by hand, for branches of the Rust that a grid seldom or never takes.

use super::{Draft, Made};
use crate::random::Random;
use flursys::{CellDefinition, MeshDimension};

/// One of them, scaled, with its cells in some order.
pub fn random(random: &mut Random) -> Option<Made> {
    let mut drafts = drafts();
    let mut draft = drafts.swap_remove(random.below(drafts.len()));
    let scale = random.pick(&[1.0, 1.0, 1.0, 0.125, 1e3, 3e-4, 1e100]);
    for coordinate in draft.points.iter_mut().flatten() {
        *coordinate *= scale;
    }
    for last in (1..draft.cells.len()).rev() {
        draft.cells.swap(last, random.below(last + 1));
    }
    draft.built()
}

/// All of them, as they stand.
pub fn all() -> Vec<Made> {
    drafts()
        .into_iter()
        .map(|draft| {
            let name = draft.name.clone();
            draft
                .built()
                .unwrap_or_else(|| panic!("the Rust does not build: {name}"))
        })
        .collect()
}

fn drafts() -> Vec<Draft> {
    let mut drafts = vec![
        triangle(),
        square(),
        pentagon(),
        two_squares("two squares", 1.0),
        two_squares("two cells 2^-26 apart", 2f64.powi(-26)),
        two_squares("two cells 2^-25 apart", 2f64.powi(-25)),
        two_triangles(),
        strip(),
        fan(),
        two_shared_faces(),
        collinear(),
        coincident_ring(),
        endless_ring(),
        undefined_ring(),
        far_face(),
        flat_triangle(),
        undefined_normals(),
        zero_normals(),
        vast_square(),
        own_neighbour(),
    ];
    drafts.extend(solids());
    drafts
}

fn flat(name: &str, points: &[[f64; 2]], cells: &[&[usize]]) -> Draft {
    Draft {
        name: name.to_string(),
        dimension: MeshDimension::TwoD,
        points: points.iter().map(|&[x, y]| [x, y, 0.0]).collect(),
        cells: cells
            .iter()
            .map(|cell| CellDefinition::Polygon(cell.to_vec()))
            .collect(),
    }
}

fn solid(name: &str, points: &[[f64; 3]], cells: Vec<CellDefinition>) -> Draft {
    Draft {
        name: name.to_string(),
        dimension: MeshDimension::ThreeD,
        points: points.to_vec(),
        cells,
    }
}

fn triangle() -> Draft {
    flat(
        "one triangle",
        &[[0.0, 0.0], [1.0, 0.0], [0.25, 1.0]],
        &[&[0, 1, 2]],
    )
}

fn square() -> Draft {
    flat(
        "one square",
        &[[0.0, 0.0], [1.0, 0.0], [1.0, 1.0], [0.0, 1.0]],
        &[&[0, 1, 2, 3]],
    )
}

fn pentagon() -> Draft {
    let mut draft = flat(
        "one pentagon, lifted",
        &[[0.0, 0.0], [2.0, 0.0], [3.0, 1.5], [1.0, 3.0], [-1.0, 1.5]],
        &[&[0, 1, 2, 3, 4]],
    );
    for (point, height) in draft.points.iter_mut().zip([0.5, -0.25, 1.0, 0.0, 2.0]) {
        point[2] = height;
    }
    draft
}

/// Two cells of this width and height 1, side by side.
fn two_squares(name: &str, width: f64) -> Draft {
    let (one, two) = (width, 2.0 * width);
    flat(
        name,
        &[
            [0.0, 0.0],
            [one, 0.0],
            [two, 0.0],
            [0.0, 1.0],
            [one, 1.0],
            [two, 1.0],
        ],
        &[&[0, 1, 4, 3], &[1, 2, 5, 4]],
    )
}

fn two_triangles() -> Draft {
    flat(
        "two triangles",
        &[[0.0, 0.0], [1.0, 0.0], [1.0, 1.0], [0.0, 1.0]],
        &[&[0, 1, 2], &[0, 2, 3]],
    )
}

/// Triangles in a row: the end ones have one neighbour and a second ring of one cell.
fn strip() -> Draft {
    flat(
        "a strip of five triangles",
        &[
            [0.0, 0.0],
            [1.0, 0.0],
            [0.5, 1.0],
            [1.5, 1.0],
            [2.0, 0.0],
            [2.5, 1.0],
            [3.0, 0.0],
        ],
        &[&[0, 1, 2], &[1, 3, 2], &[1, 4, 3], &[4, 5, 3], &[4, 6, 5]],
    )
}

fn fan() -> Draft {
    flat(
        "a fan of five triangles",
        &[
            [0.0, 0.0],
            [1.0, 0.1],
            [0.4, 1.0],
            [-0.9, 0.6],
            [-0.7, -0.8],
            [0.5, -0.9],
        ],
        &[&[0, 1, 2], &[0, 2, 3], &[0, 3, 4], &[0, 4, 5], &[0, 5, 1]],
    )
}

fn two_shared_faces() -> Draft {
    flat(
        "two cells with two faces between them",
        &[[0.0, 0.0], [2.0, 0.0], [1.0, 1.0], [0.0, 2.0], [2.0, 2.0]],
        &[&[0, 1, 2, 3], &[1, 4, 3, 2]],
    )
}

/// The first cell's two neighbours and its one wall lie on a line through its centre, and nothing lies
/// beyond them: with a fixed value at that wall its stencil stays singular.
fn collinear() -> Draft {
    flat(
        "neighbours on a line",
        &[
            [1.0, -1.0],
            [1.0, 1.0],
            [-2.0, 0.0],
            [-11.0, -1.0],
            [-11.0, 1.0],
        ],
        &[&[0, 1, 2], &[1, 3, 2], &[0, 2, 4]],
    )
}

/// The one cell in the second ring of the first has the same centre.
fn coincident_ring() -> Draft {
    flat(
        "a second ring with the same centre",
        &[
            [0.0, 0.0],
            [1.0, 0.0],
            [2.0, 1.0],
            [0.0, 1.0],
            [-4.0, -3.0],
            [-3.0, -4.0],
        ],
        &[&[0, 1, 4], &[0, 1, 2, 3], &[0, 3, 5]],
    )
}

/// A small triangle, a square, and a cell so long that the square of the distance to it is infinite.
fn endless_ring() -> Draft {
    let mut points = vec![
        [0.0, 0.0],
        [0.0, 1e-3],
        [1.0, 1e-3],
        [1.0, 0.0],
        [0.5, -1.0],
    ];
    let mut long = vec![0, 1];
    for (height, steps) in [(1e-3, [1, 2, 3, 4]), (0.0, [4, 3, 2, 1])] {
        for step in steps {
            long.push(points.len());
            points.push([-1e154 * step as f64, height]);
        }
    }
    flat(
        "an endless second ring",
        &points,
        &[&[0, 3, 4], &[0, 3, 2, 1], &long],
    )
}

/// A small triangle, a triangle beside it, and a cell so large that its centre is not a number.
fn undefined_ring() -> Draft {
    flat(
        "an undefined second ring",
        &[
            [0.0, 0.0],
            [1.0, 0.0],
            [0.0, 1.0],
            [0.5, -1.0],
            [-1e150, 1e150],
            [-1e150, -1e150],
        ],
        &[&[0, 1, 3], &[0, 1, 2], &[0, 2, 4, 5]],
    )
}

/// Two long cells, one above the other, that share a face at their far end only: their centres are near,
/// the square of the distance to the face is infinite.
fn far_face() -> Draft {
    const STEP: f64 = 1e154;
    const HEIGHT: f64 = 1e-6;
    let mut points = Vec::new();
    let mut row = |height: f64, from: i32, to: i32| -> Vec<usize> {
        (from..=to)
            .map(|step| {
                points.push([STEP * f64::from(step), height]);
                points.len() - 1
            })
            .collect()
    };
    let top = row(HEIGHT, -2, 2);
    let upper = row(0.0, -2, 0);
    let shared = row(0.0, 1, 2);
    let lower = row(0.0, -2, 0);
    let bottom = row(-HEIGHT, -2, 2);
    let above: Vec<usize> = upper
        .iter()
        .chain(&shared)
        .chain(top.iter().rev())
        .copied()
        .collect();
    let below: Vec<usize> = bottom
        .iter()
        .chain(shared.iter().rev())
        .chain(lower.iter().rev())
        .copied()
        .collect();
    flat("a face at an endless distance", &points, &[&above, &below])
}

/// So flat that the offsets of its walls are one direction to rounding.
fn flat_triangle() -> Draft {
    flat(
        "a flat triangle",
        &[[0.0, 0.0], [10.0, 0.0], [2.0, 1e-8]],
        &[&[0, 1, 2]],
    )
}

/// Its long edges have no finite difference, so that their normals are not numbers.
fn undefined_normals() -> Draft {
    flat(
        "undefined normals",
        &[[-1e308, 0.0], [1e308, 0.0], [1e308, 1.0], [-1e308, 1.0]],
        &[&[0, 1, 2, 3]],
    )
}

/// Its long edges have an infinite length, so that their normals are zero; its centre is not a number.
fn zero_normals() -> Draft {
    flat(
        "zero normals",
        &[[-1e200, 0.0], [1e200, 0.0], [1e200, 1e120], [-1e200, 1e120]],
        &[&[0, 1, 2, 3]],
    )
}

/// Its edges are finite, its area is not.
fn vast_square() -> Draft {
    let side = 1.2e154;
    flat(
        "one vast square",
        &[[0.0, 0.0], [side, 0.0], [side, side], [0.0, side]],
        &[&[0, 1, 2, 3]],
    )
}

/// A large cell that walks one edge to and fro: the Rust makes it that face's owner and its neighbour.
fn own_neighbour() -> Draft {
    flat(
        "a cell that is its own neighbour",
        &[[0.0, 0.0], [1e120, 0.0], [2e120, 1e120], [0.0, 1e120]],
        &[&[0, 1, 2, 1, 3]],
    )
}

fn solids() -> Vec<Draft> {
    let cube = [
        [0.0, 0.0, 0.0],
        [1.0, 0.0, 0.0],
        [1.0, 1.0, 0.0],
        [0.0, 1.0, 0.0],
        [0.0, 0.0, 1.0],
        [1.0, 0.0, 1.0],
        [1.0, 1.0, 1.0],
        [0.0, 1.0, 1.0],
    ];
    let hex = CellDefinition::Hexahedron([0, 1, 2, 3, 4, 5, 6, 7]);
    let mut topped = cube.to_vec();
    topped.push([0.5, 0.5, 2.0]);
    topped.push([2.0, 0.5, 1.5]);
    let mut pair = cube.to_vec();
    pair.extend([
        [2.0, 0.0, 0.0],
        [2.0, 1.0, 0.0],
        [2.0, 0.0, 1.0],
        [2.0, 1.0, 1.0],
    ]);
    vec![
        solid("one cube", &cube, vec![hex.clone()]),
        solid(
            "two cubes",
            &pair,
            vec![
                hex.clone(),
                CellDefinition::Hexahedron([1, 8, 9, 2, 5, 10, 11, 6]),
            ],
        ),
        solid(
            "one tetrahedron",
            &cube,
            vec![CellDefinition::Tetrahedron([0, 1, 3, 4])],
        ),
        solid(
            "one prism",
            &cube,
            vec![CellDefinition::Prism([0, 1, 3, 4, 5, 7])],
        ),
        solid(
            "one pyramid",
            &cube,
            vec![CellDefinition::Pyramid([0, 1, 2, 3, 4])],
        ),
        solid(
            "a cube, a pyramid on it and a tetrahedron beside that",
            &topped,
            vec![
                hex,
                CellDefinition::Pyramid([4, 5, 6, 7, 8]),
                CellDefinition::Tetrahedron([5, 6, 8, 9]),
            ],
        ),
        solid(
            "a flat tetrahedron",
            &[
                [0.0, 0.0, 0.0],
                [10.0, 0.0, 0.0],
                [0.0, 10.0, 0.0],
                [3.0, 3.0, 1e-7],
            ],
            vec![CellDefinition::Tetrahedron([0, 1, 2, 3])],
        ),
        // the products of its two long edges are infinite: two normals are not numbers
        solid(
            "a tetrahedron with undefined normals",
            &[
                [0.0, 0.0, 0.0],
                [1.5e154, 0.0, 0.0],
                [0.0, 1.5e154, 0.0],
                [0.0, 0.0, 0.1],
            ],
            vec![CellDefinition::Tetrahedron([0, 1, 2, 3])],
        ),
    ]
}
