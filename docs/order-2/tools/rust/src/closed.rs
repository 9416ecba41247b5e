//! Open cells, kind 5, which the reference does not seek: found again here by counting edges in a map. And polyhedra, closed or nearly.

use std::collections::BTreeMap;

use crate::families::{finish, patched};
use crate::finding::Finding;
use crate::generate::{box_rings, grid, hub, prisms};
use crate::model::{Model, SEPARATOR};
use crate::rng::Rng;

/// The flag that asks for open cells.
pub const CLOSED: u8 = 4;

/// Every other model is asked for its open cells too.
pub fn asked(rng: &mut Rng, mut m: Model) -> Model {
    if rng.one_in(2) {
        m.flags |= CLOSED;
    }
    m
}

/// The open cells of a model by the rings of its cells, in the numbers of the model.
pub fn open_cells(rings: &[Vec<Vec<usize>>]) -> Vec<Finding> {
    let each = rings.iter().enumerate();
    each.filter_map(|(cell, rings)| open(cell as u32, rings))
        .collect()
}

/// The finding of a cell that isn't closed: an edge is at fault if its opposite stands another number of times.
fn open(cell: u32, rings: &[Vec<usize>]) -> Option<Finding> {
    let mut counts: BTreeMap<(usize, usize), usize> = BTreeMap::new();
    for ring in rings {
        for (place, &p) in ring.iter().enumerate() {
            let q = ring[(place + 1) % ring.len()];
            if p != q {
                *counts.entry((p, q)).or_default() += 1;
            }
        }
    }
    let faulty = |&(&(p, q), n): &(&(usize, usize), &usize)| counts.get(&(q, p)) != Some(n);
    let edges: Vec<&(usize, usize)> = counts.iter().filter(faulty).map(|(e, _)| e).collect();
    let &&(a, b) = edges.first()?;
    Some(Finding {
        kind: 5,
        first: cell,
        a: a as u32,
        b: b as u32,
        count: edges.len() as u32,
        ..Finding::default()
    })
}

/// Polyhedra that are closed, some or all of them with a few changes.
pub fn nearly_closed(rng: &mut Rng, cells: usize) -> Model {
    let side = (1..).find(|s| s * s * s >= cells).unwrap();
    let whole = match rng.below(4) {
        0 => grid([side, side, side], |m, h, _| m.push_phed(&box_rings(h))),
        1 => prisms(3 + rng.below(10), cells.clamp(1, 1500)),
        2 => hub(cells.max(2), 3),
        _ => patched(rng, cells, 6),
    };
    let mut m = Model {
        coords: whole.coords.clone(),
        ..Model::default()
    };
    let part = rng.pick(&[1, 2, 6, 1_000_000]);
    for cell in 0..whole.kinds.len() {
        let (kind, words) = (whole.kinds[cell], whole.cell_words(cell));
        if kind < 4 || m.words.len() > 200_000 {
            m.push_cell(kind, words);
            continue;
        }
        let runs = words.split(|&w| w == SEPARATOR);
        let mut rings: Vec<Vec<u32>> = runs.map(<[u32]>::to_vec).collect();
        for _ in 0..rng.one_in(part) as usize * (1 + rng.below(3)) {
            change(&mut m, rng, &mut rings);
        }
        m.push_phed(&rings);
    }
    finish(rng, m)
}

/// A ring goes, is turned, comes again or both ways round; a node comes twice, is a copy in one ring, another in all rings or stands in
/// a run too short for a ring.
fn change(m: &mut Model, rng: &mut Rng, rings: &mut Vec<Vec<u32>>) {
    let at = rng.below(rings.len());
    let ring = rings[at].clone();
    let place = rng.below(ring.len());
    let node = ring[place];
    match rng.below(9) {
        0 if rings.len() > 1 => drop(rings.remove(at)),
        1 => rings[at].reverse(),
        2 => rings.insert(0, ring),
        3 => {
            rings.push(ring.iter().rev().copied().collect());
            rings.push(ring);
        }
        4 => rings[at].insert(place, node),
        5 => rings[at][place] = m.push_node(m.point(node)),
        6 => {
            let other = rings[rng.below(rings.len())][0];
            for n in rings.iter_mut().flatten().filter(|n| **n == node) {
                *n = other;
            }
        }
        7 => rings.push(vec![node; 1 + rng.below(2)]),
        _ => rings[at].swap(0, place),
    }
}
