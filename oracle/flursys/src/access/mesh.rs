//! Meshes made from their parts, with a number of choice.

use super::*;

pub fn mesh_id(number: u64) -> MeshId {
    MeshId(number)
}

/// A mesh with these faces and cells; it has no points, patches or measures of quality.
pub fn from_parts(
    id: MeshId,
    dimension: MeshDimension,
    faces: Vec<Face>,
    cells: Vec<Cell>,
) -> UnstructuredMesh {
    UnstructuredMesh {
        id,
        dimension,
        points: Vec::new(),
        faces,
        cells,
        boundary_patches: Vec::new(),
        quality: MeshQualityReport {
            min_cell_volume: 0.0,
            max_cell_volume: 0.0,
            max_aspect_ratio: 0.0,
            max_non_orthogonality_degrees: 0.0,
            average_non_orthogonality_degrees: 0.0,
            max_skewness: 0.0,
        },
    }
}
