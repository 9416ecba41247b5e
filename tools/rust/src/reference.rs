//! The reference: the source's own text, included from the build folder, with
//! the three things that document 01 has the harness hand in (rings, welded
//! map, butterfly set) and stops for the paths that are not run.

use crate::fx::{FxBuildHasher, FxHashMap, FxHashSet};
use crate::mesh::{
    Dimension, Element, ElementId, ElementType, Handed, StitchError, UMeshView, point3,
};
use crate::nd;

mod snap {
    use crate::mesh::{IndirectIndexOwned, UMeshView};
    include!(concat!(env!("EXTRACTED"), "/snap.rs"));

    /// The welded map of document 01, in place of `canonical_nodes`.
    pub fn welded(mesh: &UMeshView, tol: f64) -> Vec<usize> {
        let mut map: Vec<usize> = (0..mesh.coords().nrows()).collect();
        if tol == 0.0 {
            return map;
        }
        for group in duplicates_dim_n::<3>(mesh, tol).iter() {
            for &node in group {
                map[node] = group[0];
            }
        }
        map
    }
}

mod slice {
    use super::{Element, ElementType};
    include!(concat!(env!("EXTRACTED"), "/slice.rs"));

    /// The rings of a cell in node numbers.
    pub fn rings(cell: &Element<'_>) -> Vec<Vec<usize>> {
        let conn = cell.connectivity();
        cell_faces(cell)
            .into_iter()
            .map(|ring| ring.into_iter().map(|local| conn[local]).collect())
            .collect()
    }
}

include!(concat!(env!("EXTRACTED"), "/conformance.rs"));
include!(concat!(env!("EXTRACTED"), "/hooked.rs"));

/// The bow-tie half of the source's test; edges piercing faces are left out.
fn cell_is_butterfly<S: nd::Data<Elem = f64>>(
    coords: &nd::ArrayBase<S, nd::Ix2>,
    rings: &[Vec<usize>],
    tol: f64,
) -> bool {
    let faces: Vec<Vec<[f64; 3]>> = rings
        .iter()
        .map(|ring| ring.iter().map(|&n| point3(coords, n)).collect())
        .collect();
    faces.iter().any(|points| face_self_intersects(points, tol))
}

/// The rings of every cell and the welded map, by the source's own functions.
pub fn made(mesh: &UMeshView, tol: f64) -> Handed {
    Handed {
        rings: mesh
            .elements_of_dim(Dimension::D3)
            .map(|cell| slice::rings(&cell))
            .collect(),
        map: snap::welded(mesh, tol),
    }
}

/// The welded map alone.
pub fn welded(mesh: &UMeshView, tol: f64) -> Vec<usize> {
    snap::welded(mesh, tol)
}

/// Whether nodes pass the area test.
pub fn spans(mesh: &UMeshView, nodes: &[u32], tol: f64) -> bool {
    let nodes: Vec<usize> = nodes.iter().map(|&n| n as usize).collect();
    common_nodes_span_area(&mesh.coords(), &nodes, tol)
}

/// The owners of every overfull face of a report, and the bits of its centre.
pub fn owners(mesh: &UMeshView, report: &ConformanceReport) -> Vec<(Vec<u32>, [u64; 3])> {
    let numbers = |cells: &[ElementId]| cells.iter().map(|&c| mesh.cell_number(c) as u32).collect();
    let mut lists = Vec::new();
    for issue in &report.issues {
        if let ConformanceIssue::OverlappingFaces { center, cells } = issue {
            lists.push((numbers(cells), center.map(f64::to_bits)));
        }
    }
    lists
}

pub use entry::is_conform_with;

/// The entry: the names it calls are the ones below.
mod entry {
    use super::*;
    use crate::way;

    include!(concat!(env!("EXTRACTED"), "/entry.rs"));

    fn collect_volume_faces(mesh: &UMeshView) -> Vec<VolumeCellFaces> {
        mesh.elements_of_dim(Dimension::D3)
            .enumerate()
            .map(|(number, cell)| VolumeCellFaces {
                id: cell.id(),
                rings: match &mesh.handed {
                    Some(handed) => handed.rings[number].clone(),
                    None => slice::rings(&cell),
                },
            })
            .collect()
    }

    fn canonical_nodes(mesh: &UMeshView, tol: f64) -> Vec<usize> {
        match &mesh.handed {
            Some(handed) => handed.map.clone(),
            None => snap::welded(mesh, tol),
        }
    }

    fn partially_shared_faces(
        mesh: &UMeshView,
        tol: f64,
        butterfly: &FxHashSet<ElementId>,
        cell_faces: &[VolumeCellFaces],
        seen: &mut FxHashMap<[ElementId; 2], ()>,
        sink: &mut IssueSink<'_>,
    ) {
        if way::is_hooked() {
            partially_shared_faces_by(mesh, tol, butterfly, cell_faces, seen, sink)
        } else {
            super::partially_shared_faces(mesh, tol, butterfly, cell_faces, seen, sink)
        }
    }

    fn is_conform_surface(
        _: &UMeshView,
        _: f64,
        _: usize,
        _: &[usize],
        _: ConformanceChecks,
    ) -> ConformanceReport {
        unreachable!("volume models only")
    }

    fn intersecting_cells(_: &UMeshView, _: &mut Vec<ConformanceIssue>, _: &mut usize, _: usize) {
        unreachable!("flags 1 and 2 only")
    }

    fn non_conforming_faces(
        _: &UMeshView,
        _: f64,
        _: &[usize],
        _: &FxHashSet<ElementId>,
        _: &[VolumeCellFaces],
        _: &mut FxHashMap<[ElementId; 2], ()>,
        _: &mut IssueSink<'_>,
    ) {
        unreachable!("flags 1 and 2 only")
    }
}
