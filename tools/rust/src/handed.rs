//! What is handed to the reference: our rings and our welded map, each compared with what the source's own functions make.

use crate::lenoshale;
use crate::mesh::{Handed, UMeshView};
use crate::model::{Model, SEPARATOR};
use crate::reference;
use crate::rng::Rng;

/// Faces up to which every ring is looked up; in larger models some are.
const EVERY_FACE: usize = 300;

/// Our welded map.
fn map(m: &Model) -> Result<Vec<u32>, String> {
    let nodes = m.node_count();
    let mut map = vec![0; nodes];
    let mut scratch = vec![170; 3 * nodes];
    lenoshale::weld(m.lent(), &mut map, &mut scratch)
        .map_err(|n| format!("welding refused {n}"))?;
    match scratch.iter().all(|&w| w == 0) {
        true => Ok(map),
        false => Err("scratch of welding is not zero".into()),
    }
}

/// Words in each ring of a cell.
fn ring_sizes(m: &Model, cell: usize) -> Vec<usize> {
    match m.kinds[cell] {
        1 => vec![3; 4],
        2 => vec![4; 6],
        3 => vec![3, 3, 4, 4, 4],
        _ => {
            let runs = m.cell_words(cell).split(|&w| w == SEPARATOR);
            runs.map(|run| run.len()).filter(|&n| n >= 3).collect()
        }
    }
}

/// Our ring lists, raw and welded.
fn lists(m: &Model) -> Result<[Vec<u32>; 2], String> {
    let needs = lenoshale::work_needed(m.lent()).map_err(|n| format!("counting refused {n}"))?;
    if needs.work != m.work_needed() {
        return Err(format!(
            "work needed {} and not {}",
            needs.work,
            m.work_needed()
        ));
    }
    let mut raw = vec![0; needs.ring_words];
    let mut welded = raw.clone();
    let mut work = vec![170; needs.work];
    let filled = lenoshale::fill_ring_lists(m.lent(), &mut raw, &mut welded, &mut work);
    if filled != Ok(needs.ring_words) || work.iter().any(|&w| w != 0) {
        return Err(format!("ring lists: {filled:?}, or work is not zero"));
    }
    Ok([raw, welded])
}

/// Looks rings up: each must be its part of both lists.
fn look_up(
    m: &Model,
    starts: &[usize],
    [raw, welded]: &[Vec<u32>; 2],
    rng: &mut Rng,
) -> Result<(), String> {
    let faces = starts.len() - 1;
    for turn in 0..faces.min(EVERY_FACE) {
        let face = if faces <= EVERY_FACE {
            turn
        } else {
            rng.below(faces)
        };
        let part = starts[face]..starts[face + 1];
        let ring = lenoshale::ring_lookup(m.lent(), raw, welded, face)
            .map_err(|n| format!("lookup refused {n}"))?;
        if ring.raw != &raw[part.clone()] || ring.welded != &welded[part] {
            return Err(format!("the ring of face {face} is another"));
        }
    }
    match lenoshale::ring_lookup(m.lent(), raw, welded, faces) {
        Err(12) => Ok(()),
        other => Err(format!("a face too many: {other:?}")),
    }
}

/// Our rings and map of a model, or how they differ from the source's.
pub fn of(m: &Model, mesh: &UMeshView, rng: &mut Rng) -> Result<Handed, String> {
    let map = map(m)?;
    let lists = lists(m)?;
    let mut starts = vec![0];
    let mut rings = Vec::new();
    for cell in 0..m.kinds.len() {
        let mut of_cell = Vec::new();
        for size in ring_sizes(m, cell) {
            let start = starts[starts.len() - 1];
            starts.push(start + size);
            let ring = &lists[0][start..start + size];
            of_cell.push(ring.iter().map(|&n| n as usize).collect());
        }
        rings.push(of_cell);
    }
    if starts[starts.len() - 1] != lists[0].len() {
        return Err("another number of ring words".into());
    }
    look_up(m, &starts, &lists, rng)?;
    if (0..lists[0].len()).any(|i| lists[1][i] != map[lists[0][i] as usize]) {
        return Err("a welded ring word isn't the map's".into());
    }
    let ours = Handed {
        rings,
        map: map.iter().map(|&n| n as usize).collect(),
    };
    let theirs = reference::made(mesh, m.tolerance);
    if ours.rings != theirs.rings {
        return Err("rings differ from those of cell_faces".into());
    }
    if ours.map != theirs.map {
        return Err("the map differs from that of duplicates_dim_n".into());
    }
    Ok(ours)
}
