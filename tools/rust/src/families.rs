//! Families of random models, all accepted.

use crate::generate::{
    box_rings, grid, hub, prisms, push_five_tets, push_six_tets, push_wedges, same,
};
use crate::loose::{scattered, sprinkled};
use crate::model::{MAX_CELLS, Model, SEPARATOR};
use crate::rng::Rng;
use crate::thresholds::{collinear, crossings};

/// A name, and a model of about that many cells.
pub type Family = (&'static str, fn(&mut Rng, usize) -> Model);

pub const FAMILIES: [Family; 11] = [
    ("soups", soups),
    ("grids", grids),
    ("near-duplicate nodes", near),
    ("bow-ties", bow_ties),
    ("collinear common nodes", collinear),
    ("hubs", hubs),
    ("third faces on a triple", triples),
    ("overfull faces", overfull),
    ("PHED edge cases", polyhedra),
    ("many common nodes", many_common),
    ("loose nodes", loose),
];

/// A model of a family, with loose nodes put among its nodes every so often.
pub fn made((_, make): Family, rng: &mut Rng, cells: usize) -> Model {
    let m = make(rng, cells);
    sprinkled(rng, m)
}

/// Scales and moves the nodes, and sets tolerance, flags and cap.
pub fn finish(rng: &mut Rng, mut m: Model) -> Model {
    m.sort_kinds();
    let mut scale = rng.pick(&[1.0, 1.0, 1.0, 0.3, 0.001, 1000.0, 1.5e5, 1e-160]);
    if m.coords.iter().any(|c| c * scale > 900_000.0) {
        scale = 1.0;
    }
    let near = rng.pick(&[0.0, 0.0, 1e-9, 0.001, 0.25]);
    for c in &mut m.coords {
        *c *= scale;
        if near > 0.0 && rng.one_in(4) {
            *c += near * scale * (rng.below(9) as f64 - 4.0) / 3.0;
        }
        if *c == 0.0 && rng.one_in(2) {
            *c = -0.0;
        }
    }
    m.tolerance = scale * rng.pick(&[0.0, -0.0, 1e-12, 1e-9, 0.001, 0.25, 0.5, 1.0, 1.5]);
    if rng.one_in(16) {
        m.tolerance = rng.pick(&[5e-324, 1e-200, 1e154, 1e300, f64::MAX]);
    }
    flags(rng, m)
}

/// Sets flags and cap.
pub fn flags(rng: &mut Rng, mut m: Model) -> Model {
    m.flags = rng.pick(&[3, 3, 3, 3, 3, 3, 1, 1, 2, 0]);
    m.cap = rng.pick(&[0, 1, 2, 5, 100, u16::MAX]);
    m
}

pub fn push_lattice_nodes(m: &mut Model, rng: &mut Rng, n: usize) {
    let side = 2 + rng.below(5);
    for _ in 0..n {
        let p = [0; 3].map(|_: u8| rng.below(side) as f64);
        m.push_node(p);
    }
}

/// Cells of all kinds on nodes drawn from a few, or from a window of many.
fn soup(rng: &mut Rng, cells: usize) -> Model {
    let mut m = Model::default();
    let n = rng.pick(&[8, 9, 12, 20, 60, 8 + cells, 8 + 3 * cells]);
    push_lattice_nodes(&mut m, rng, n);
    let window = rng.pick(&[8, 10, 16, n]).min(n);
    let kinds: &[u8] = rng.pick(&[&[1][..], &[2], &[3], &[1, 2, 3, 4], &[1, 2, 3, 4]]);
    for _ in 0..cells.clamp(1, MAX_CELLS) {
        let base = rng.below(n) as u32;
        let mut draw = |count| -> Vec<u32> {
            let drawn = rng.draw(count, window);
            drawn.iter().map(|p| (p + base) % n as u32).collect()
        };
        let kind = kinds[m.kinds.len() % kinds.len()];
        if kind < 4 {
            m.push_cell(kind, &draw([4, 8, 6][kind as usize - 1]));
        } else {
            m.push_phed(&[draw(3), draw(4), draw(5), draw(4)]);
        }
    }
    m
}

fn soups(rng: &mut Rng, cells: usize) -> Model {
    let m = soup(rng, cells);
    finish(rng, m)
}

/// A grid whose boxes are cut in different ways; every so often one has a change.
pub fn patched(rng: &mut Rng, cells: usize, changes: usize) -> Model {
    let mut side = 1;
    while (side + 1) * (side + 1) * (side + 1) * 3 <= cells.min(MAX_CELLS) {
        side += 1;
    }
    let boxes = grid([side, side, side], |m, h, _| m.push_cell(2, h));
    let mut m = Model {
        coords: boxes.coords.clone(),
        ..Model::default()
    };
    for cell in 0..boxes.kinds.len() {
        let mut h: [u32; 8] = boxes.cell_words(cell).try_into().unwrap();
        if rng.one_in(changes) {
            change(&mut m, rng, &mut h);
        }
        for _ in 0..1 + rng.one_in(6) as usize {
            match rng.below(6) {
                0 => push_six_tets(&mut m, &h),
                1 => push_five_tets(&mut m, &h, rng.one_in(2)),
                2 => push_wedges(&mut m, &h),
                3 => m.push_phed(&box_rings(&h)),
                _ => m.push_cell(2, &h),
            }
        }
    }
    m
}

/// Two nodes of a box change places, one is copied, or one stands twice.
fn change(m: &mut Model, rng: &mut Rng, h: &mut [u32; 8]) {
    let (p, q) = (rng.below(8), rng.below(8));
    match rng.below(3) {
        0 => h.swap(p, q),
        1 => h[p] = m.push_node(m.point(h[p])),
        _ => h[p] = h[q],
    }
}

fn grids(rng: &mut Rng, cells: usize) -> Model {
    let changes = rng.pick(&[2, 6, 1_000_000]);
    let m = patched(rng, cells, changes);
    finish(rng, m)
}

/// A grid or a soup with copies of nodes about the tolerance away, in a line or not, loose ones too.
fn near(rng: &mut Rng, cells: usize) -> Model {
    let mut m = patched(rng, cells, 4);
    m.sort_kinds();
    let tolerance = rng.pick(&[0.25, 0.5, 0.75, 0.001, 1e-9, 1.0]);
    let beside = [
        0.0,
        0.5,
        1.0 - f64::EPSILON / 2.0,
        1.0,
        1.0 + f64::EPSILON,
        1.5,
    ];
    let part = rng.pick(&[3, 8, 20]);
    for place in 0..m.words.len() {
        let node = m.words[place];
        if node == SEPARATOR || !rng.one_in(part) || m.node_count() > 60_000 {
            continue;
        }
        let mut p = m.point(node);
        for _ in 0..1 + rng.below(3) {
            let away = tolerance * rng.pick(&beside);
            let axis = rng.below(3);
            p[axis] += if rng.one_in(2) { away } else { -away };
            m.words[place] = m.push_node(p);
        }
    }
    m.tolerance = tolerance;
    flags(rng, m)
}

/// Boxes with crossed rings beside others, and rings about to cross.
fn bow_ties(rng: &mut Rng, cells: usize) -> Model {
    if rng.one_in(3) {
        return crossings(rng, cells);
    }
    let mut m = Model::default();
    let sound = patched(rng, cells, 3);
    m.coords = sound.coords.clone();
    for cell in 0..sound.kinds.len() {
        let mut words = sound.cell_words(cell).to_vec();
        if rng.one_in(3) {
            let (p, q) = (rng.below(words.len()), rng.below(words.len()));
            if words[p] != SEPARATOR && words[q] != SEPARATOR {
                words.swap(p, q);
            }
        }
        m.push_cell(sound.kinds[cell], &words);
    }
    finish(rng, m)
}

/// Pyramids round one node, some with a node more, some twice or left out.
fn hubs(rng: &mut Rng, cells: usize) -> Model {
    let every = 2 + rng.below(8);
    let whole = hub(cells.max(2), every);
    let mut m = Model {
        coords: whole.coords.clone(),
        ..Model::default()
    };
    for cell in 0..whole.kinds.len() {
        let words = whole.cell_words(cell);
        for _ in 0..rng.pick(&[1, 1, 1, 1, 1, 1, 0, 2]) {
            if rng.one_in(4) {
                m.push_cell(1, &[words[0], words[1], words[2], 0]);
            } else {
                m.push_cell(4, words);
            }
        }
    }
    if m.kinds.is_empty() {
        return hubs(rng, cells);
    }
    m = finish(rng, m);
    m.tolerance *= rng.pick(&[1.0, 1e-3, 1e-6, 0.0]);
    m
}

/// Rings that all have the same three nodes, or one of two triples, with others of their own.
fn triples(rng: &mut Rng, cells: usize) -> Model {
    let mut m = Model::default();
    let others = rng.pick(&[3, 6, 3 * cells]);
    push_lattice_nodes(&mut m, rng, 5 + others);
    for node in [[0.0, 0.0, 0.0], [2.0, 0.0, 0.0], [0.0, 3.0, 0.0]]
        .iter()
        .enumerate()
    {
        m.coords[3 * node.0..3 * node.0 + 3].copy_from_slice(node.1);
    }
    for _ in 0..cells.clamp(1, MAX_CELLS) {
        let triple = rng.pick(&[[0, 1, 2], [0, 1, 2], [0, 1, 2], [1, 2, 3], [0, 2, 4]]);
        let own = 1 + rng.below(2);
        let drawn = rng.draw(own, others);
        let own: Vec<u32> = drawn.iter().map(|p| p + 5).collect();
        if rng.one_in(4) {
            m.push_cell(1, &[triple[0], triple[1], triple[2], own[0]]);
            continue;
        }
        let mut ring = [&triple[..], &own].concat();
        rng.shuffle(&mut ring);
        let mut rings = vec![ring];
        if rng.one_in(3) {
            rings.push(vec![triple[0], triple[2], own[0]]);
        }
        m.push_phed(&rings);
    }
    finish(rng, m)
}

/// Rings out of a small store, turned and reversed, several of them in a cell, some twice.
fn overfull(rng: &mut Rng, cells: usize) -> Model {
    let mut m = Model::default();
    let n = 5 + rng.below(10);
    push_lattice_nodes(&mut m, rng, n);
    let store: Vec<Vec<u32>> = (0..2 + rng.below(8))
        .map(|_| {
            let count = 3 + rng.below(4);
            rng.draw(count, n)
        })
        .collect();
    for _ in 0..cells.clamp(1, MAX_CELLS) {
        if rng.one_in(4) {
            let words = rng.draw(4, 5);
            m.push_cell(1, &words);
            continue;
        }
        let rings: Vec<Vec<u32>> = (0..1 + rng.below(5))
            .map(|_| {
                let mut ring = store[rng.below(store.len())].clone();
                let at = rng.below(ring.len());
                ring.rotate_left(at);
                if rng.one_in(2) {
                    ring.reverse();
                }
                ring
            })
            .collect();
        m.push_phed(&rings);
    }
    finish(rng, m)
}

/// PHED with short, empty and long runs, nodes twice in a ring, separators at either end.
fn polyhedra(rng: &mut Rng, cells: usize) -> Model {
    let mut m = Model::default();
    let n = rng.pick(&[4, 7, 20, 70]);
    push_lattice_nodes(&mut m, rng, n);
    let mut rings: Vec<Vec<u32>> = Vec::new();
    while m.kinds.len() < cells.clamp(1, MAX_CELLS) && m.words.len() < 200_000 {
        let mut words = Vec::new();
        for _ in 0..1 + rng.below(6) {
            let mut ring = if !rings.is_empty() && rng.one_in(2) {
                rings[rng.below(rings.len())].clone()
            } else {
                let count = rng.pick(&[0, 1, 2, 3, 3, 4, 4, 5, 6, 7, 63, 64]);
                (0..count).map(|_| rng.below(n) as u32).collect()
            };
            alter(rng, &mut ring, n);
            rings.push(ring.clone());
            words.extend(ring);
            words.push(SEPARATOR);
        }
        if !rng.one_in(4) {
            words.pop();
        }
        if !words.is_empty() {
            m.push_cell(4, &words);
        }
    }
    finish(rng, m)
}

/// Turns, reverses, lengthens or shortens a ring, or leaves it.
fn alter(rng: &mut Rng, ring: &mut Vec<u32>, n: usize) {
    if ring.is_empty() {
        return;
    }
    let at = rng.below(ring.len());
    match rng.below(8) {
        0 => ring.rotate_left(at),
        1 => ring.reverse(),
        2 if ring.len() < 64 => ring.insert(at, rng.below(n) as u32),
        3 if ring.len() > 3 => drop(ring.remove(at)),
        4 => ring.swap(0, at),
        _ => {}
    }
}

/// Rings over one polygon with a node of their own, or stacks of prisms.
fn many_common(rng: &mut Rng, cells: usize) -> Model {
    let sides = 3 + rng.below(10);
    let m = if rng.one_in(2) {
        same(sides, cells.max(1))
    } else {
        prisms(sides, cells.max(1))
    };
    finish(rng, m)
}

/// A grid or a soup with nodes about the tolerance apart, and many loose ones about them: one that leads, or takes a node away from
/// another, would make other groups.
fn loose(rng: &mut Rng, cells: usize) -> Model {
    let m = if rng.one_in(2) {
        near(rng, cells)
    } else {
        let mut m = soup(rng, cells);
        m.sort_kinds();
        m.tolerance = rng.pick(&[0.001, 0.25, 1.0, 3.0]);
        let apart = m.tolerance * rng.pick(&[0.5, 0.75, 1.0, 1.25, 1.75]);
        m.coords.iter_mut().for_each(|c| *c *= apart);
        flags(rng, m)
    };
    let count = 1 + rng.below(2 * m.node_count());
    scattered(rng, m, count)
}
