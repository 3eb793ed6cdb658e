//! Links that were not found by matching.

use super::*;

pub fn cyclic_map(mesh_id: MeshId, links: Vec<Option<CyclicLink>>) -> CyclicMap {
    let pair_count = links.iter().flatten().count() / 2;
    CyclicMap {
        mesh_id,
        links,
        pair_count,
    }
}
