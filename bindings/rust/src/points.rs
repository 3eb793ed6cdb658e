//! A mesh from points, with its geometry worked out.

use crate::calls::root;
use crate::error::BuildError;
use crate::mesh::{check_cells, Cell, Dimension, Face, Mesh, Vec3};

impl Mesh {
    /// A mesh from points, faces and their cells, in the way of OpenFOAM: `owners` has a cell for each face,
    /// `neighbours` one for each of the first faces, which have two cells; the faces after these have one. Cells
    /// count from 0 to the highest that is named.
    ///
    /// In 3D the points of a face go round it so that they turn to the left for a viewer towards whom the face's
    /// area points, which is out of the owner. In 2D a face is two points, an edge, with the owner to its left
    /// and z = 0 throughout.
    ///
    /// The geometry is plain binary64 arithmetic, in the order in which it stands here:
    ///
    /// * Face of three points p, q, r: centre (p + q + r) / 3, area vector (q − p) × (r − p) · 0.5.
    /// * Face of more points: with e their mean, each edge from p to q makes a triangle with
    ///   n = (q − p) × (e − p). The area vector is Σ n · 0.5, the centre Σ |n| (p + q + e) / (3 Σ |n|).
    /// * Edge from p to q: centre (p + q) · 0.5, area vector (q.y − p.y, p.x − q.x, 0).
    /// * Normal: the area vector over its length, each number.
    /// * Cell: with e the mean of its faces' centres, each face of centre c and area vector S, out of the cell,
    ///   makes a pyramid, or in 2D a triangle, of w = S · (c − e). With d the dimension, the volume is Σ w / d,
    ///   the centre e + Σ (c − e) w · (d / (d + 1)) / Σ w.
    ///
    /// Sums go in the order of a face's points, and in face order.
    ///
    /// # Errors
    ///
    /// A list of the wrong length, a point or a cell that is not there, a face with too few points, a face
    /// without area, and a cell without faces or without volume, as of faces whose points turn the wrong way.
    pub fn from_points(
        dimension: Dimension,
        points: &[Vec3],
        faces: &[Vec<usize>],
        owners: &[usize],
        neighbours: &[usize],
    ) -> Result<Self, BuildError> {
        check_points(dimension, points)?;
        check_count("owners", faces.len(), owners.len(), false)?;
        check_count("neighbours", faces.len(), neighbours.len(), true)?;
        let count = count_cells(owners, neighbours)?;
        let mut records = Vec::with_capacity(faces.len());
        for (face, corners) in faces.iter().enumerate() {
            let neighbour = neighbours.get(face).copied();
            check_cells(face, owners[face], neighbour, count)?;
            let corners = corners_of(dimension, face, corners, points)?;
            let (center, area_vector) = face_geometry(&corners);
            let area = norm(area_vector);
            if !(area.is_finite() && area > 0.0) {
                return Err(BuildError::NoArea { face });
            }
            records.push(Face {
                owner: owners[face],
                neighbour,
                center,
                area_vector,
                normal: area_vector.map(|x| x / area),
            });
        }
        let cells = cells(dimension, &records, count)?;
        Self::from_faces(dimension, &records, &cells)
    }
}

fn check_points(dimension: Dimension, points: &[Vec3]) -> Result<(), BuildError> {
    let is_good = |point: &Vec3| {
        point.iter().all(|x| x.is_finite()) && (dimension == Dimension::Three || point[2] == 0.0)
    };
    match points.iter().position(|point| !is_good(point)) {
        None => Ok(()),
        Some(point) => Err(BuildError::BadPoint { point }),
    }
}

fn check_count(
    list: &'static str,
    expected: usize,
    found: usize,
    may_be_fewer: bool,
) -> Result<(), BuildError> {
    if found == expected || (may_be_fewer && found < expected) {
        return Ok(());
    }
    Err(BuildError::Count {
        list,
        expected,
        found,
    })
}

/// How many cells are named; each up to the highest has to be.
fn count_cells(owners: &[usize], neighbours: &[usize]) -> Result<usize, BuildError> {
    let mut named = [owners, neighbours].concat();
    named.sort_unstable();
    named.dedup();
    match named.iter().enumerate().position(|(at, &cell)| at != cell) {
        None => Ok(named.len()),
        Some(cell) => Err(BuildError::NoFace { cell }),
    }
}

/// The points of a face.
fn corners_of(
    dimension: Dimension,
    face: usize,
    corners: &[usize],
    points: &[Vec3],
) -> Result<Vec<Vec3>, BuildError> {
    let found = corners.len();
    let fits = match dimension {
        Dimension::Two => found == 2,
        Dimension::Three => found >= 3,
    };
    if !fits {
        return Err(BuildError::FacePoints { face, found });
    }
    let corner = |&point: &usize| {
        points.get(point).copied().ok_or(BuildError::MissingPoint {
            face,
            point,
            points: points.len(),
        })
    };
    corners.iter().map(corner).collect()
}

/// The centre and the area vector of a face, or of an edge where it has two points.
fn face_geometry(corners: &[Vec3]) -> (Vec3, Vec3) {
    match corners {
        [p, q] => (scaled(sum(*p, *q), 0.5), [q[1] - p[1], p[0] - q[0], 0.0]),
        [p, q, r] => (
            over(sum(sum(*p, *q), *r), 3.0),
            scaled(cross(from(*p, *q), from(*p, *r)), 0.5),
        ),
        _ => polygon(corners),
    }
}

fn polygon(corners: &[Vec3]) -> (Vec3, Vec3) {
    let mean = mean(corners);
    let mut twice_area = [0.0; 3];
    let mut weights = 0.0;
    let mut moments = [0.0; 3];
    for (&p, &q) in corners.iter().zip(corners.iter().cycle().skip(1)) {
        let normal = cross(from(p, q), from(p, mean));
        let weight = norm(normal);
        twice_area = sum(twice_area, normal);
        weights += weight;
        moments = sum(moments, scaled(sum(sum(p, q), mean), weight));
    }
    (over(moments, 3.0 * weights), scaled(twice_area, 0.5))
}

/// The centre and the volume of each cell.
fn cells(dimension: Dimension, faces: &[Face], count: usize) -> Result<Vec<Cell>, BuildError> {
    let mut centers = vec![Vec::new(); count];
    for face in faces {
        centers[face.owner].push(face.center);
        if let Some(neighbour) = face.neighbour {
            centers[neighbour].push(face.center);
        }
    }
    let means: Vec<Vec3> = centers.iter().map(|centers| mean(centers)).collect();
    let mut weights = vec![0.0; count];
    let mut moments = vec![[0.0; 3]; count];
    let mut add = |cell: usize, center: Vec3, outward: Vec3| {
        let arm = from(means[cell], center);
        let weight = dot(outward, arm);
        weights[cell] += weight;
        moments[cell] = sum(moments[cell], scaled(arm, weight));
    };
    for face in faces {
        add(face.owner, face.center, face.area_vector);
        if let Some(neighbour) = face.neighbour {
            add(neighbour, face.center, face.area_vector.map(|x| -x));
        }
    }
    let d = dimension.count() as f64;
    let cell = |cell: usize| {
        let volume = weights[cell] / d;
        if !(volume.is_finite() && volume > 0.0) {
            return Err(BuildError::NoVolume { cell, volume });
        }
        let offset = over(scaled(moments[cell], d / (d + 1.0)), weights[cell]);
        Ok(Cell {
            center: sum(means[cell], offset),
            volume,
        })
    };
    (0..count).map(cell).collect()
}

fn mean(points: &[Vec3]) -> Vec3 {
    let total = points.iter().fold([0.0; 3], |total, &p| sum(total, p));
    over(total, points.len() as f64)
}

fn sum(a: Vec3, b: Vec3) -> Vec3 {
    [a[0] + b[0], a[1] + b[1], a[2] + b[2]]
}

/// The way from one point to another.
fn from(a: Vec3, b: Vec3) -> Vec3 {
    [b[0] - a[0], b[1] - a[1], b[2] - a[2]]
}

fn scaled(a: Vec3, factor: f64) -> Vec3 {
    a.map(|x| x * factor)
}

fn over(a: Vec3, divisor: f64) -> Vec3 {
    a.map(|x| x / divisor)
}

fn dot(a: Vec3, b: Vec3) -> f64 {
    a[0] * b[0] + a[1] * b[1] + a[2] * b[2]
}

fn cross(a: Vec3, b: Vec3) -> Vec3 {
    [
        a[1] * b[2] - a[2] * b[1],
        a[2] * b[0] - a[0] * b[2],
        a[0] * b[1] - a[1] * b[0],
    ]
}

fn norm(a: Vec3) -> f64 {
    root(dot(a, a))
}
