//! Models to try and to time: grids of each kind, a hub, separate cells, stacks of prisms, rings
//! over the same nodes, quadrangles with a line in common, random cells, a few cells among loose nodes.

use crate::model::{MAX_CELLS, MAX_NODES, MAX_WORDS, Model};
use crate::rng::Rng;

/// The model of that name and size, as "grid 16 16 64"; nothing if there is none or it breaks a limit.
pub fn model(text: &str) -> Option<Model> {
    let (kind, sizes) = text.split_once(' ')?;
    let numbers: Vec<usize> = sizes
        .split(' ')
        .map(|w| w.parse().ok())
        .collect::<Option<_>>()?;
    let mut model = match (kind, numbers.as_slice()) {
        ("grid", &[x, y, z]) => grid([x, y, z], |m, h, _| m.push_cell(2, h)),
        ("tets", &[x, y, z]) => grid([x, y, z], |m, h, _| push_six_tets(m, h)),
        ("tets5", &[x, y, z]) => grid([x, y, z], push_five_tets),
        ("wedges", &[x, y, z]) => grid([x, y, z], |m, h, _| push_wedges(m, h)),
        ("checker", &[x, y, z]) => grid([x, y, z], |m, h, odd| {
            if odd {
                push_six_tets(m, h)
            } else {
                m.push_cell(2, h)
            }
        }),
        ("hub", &[n]) => hub(n, 8),
        ("isolated", &[n]) => isolated(n),
        ("prisms", &[sides, n]) => prisms(sides, n),
        ("same", &[sides, n]) => same(sides, n),
        ("line", &[n]) => line(n),
        ("loose", &[nodes, n]) => loose(nodes, n),
        ("soup4", &[n, nodes]) => soup(1, 4, n, nodes),
        ("soup8", &[n, nodes]) => soup(2, 8, n, nodes),
        ("rings6", &[n, nodes]) => soup(4, 6, n, nodes),
        _ => return None,
    };
    model.sort_kinds();
    (model.tolerance, model.flags, model.cap) = (0.001, 3, u16::MAX);
    model.is_sound().then_some(model)
}

/// A grid of unit boxes; `push` makes cells of a box's eight nodes, in the order
/// of a HEX8, and is told whether the sum of the box's places is odd.
pub fn grid([nx, ny, nz]: [usize; 3], push: impl Fn(&mut Model, &[u32; 8], bool)) -> Model {
    let mut m = Model::default();
    if nx.saturating_mul(ny).saturating_mul(nz) > MAX_CELLS {
        return m;
    }
    for k in 0..=nz {
        for j in 0..=ny {
            for i in 0..=nx {
                m.push_node([i as f64, j as f64, k as f64]);
            }
        }
    }
    let at = |i: usize, j: usize, k: usize| ((k * (ny + 1) + j) * (nx + 1) + i) as u32;
    for k in 0..nz {
        for j in 0..ny {
            for i in 0..nx {
                let low = [
                    at(i, j, k),
                    at(i + 1, j, k),
                    at(i + 1, j + 1, k),
                    at(i, j + 1, k),
                ];
                let up = at(0, 0, 1);
                let h = [
                    low[0],
                    low[1],
                    low[2],
                    low[3],
                    low[0] + up,
                    low[1] + up,
                    low[2] + up,
                    low[3] + up,
                ];
                push(&mut m, &h, (i + j + k) % 2 == 1);
            }
        }
    }
    m
}

fn push_each(m: &mut Model, kind: u8, h: &[u32; 8], cells: &[&[usize]]) {
    for cell in cells {
        let words: Vec<u32> = cell.iter().map(|&p| h[p]).collect();
        m.push_cell(kind, &words);
    }
}

/// Six tetrahedra round the diagonal 0-6; neighbouring boxes agree.
pub fn push_six_tets(m: &mut Model, h: &[u32; 8]) {
    let cells: [&[usize]; 6] = [
        &[0, 1, 2, 6],
        &[0, 2, 3, 6],
        &[0, 3, 7, 6],
        &[0, 7, 4, 6],
        &[0, 4, 5, 6],
        &[0, 5, 1, 6],
    ];
    push_each(m, 1, h, &cells);
}

/// Five tetrahedra, mirrored in every other box so that neighbours agree.
pub fn push_five_tets(m: &mut Model, h: &[u32; 8], odd: bool) {
    let even: [&[usize]; 5] = [
        &[0, 1, 3, 4],
        &[1, 2, 3, 6],
        &[1, 5, 6, 4],
        &[3, 6, 7, 4],
        &[1, 6, 3, 4],
    ];
    let mirrored: [&[usize]; 5] = [
        &[1, 2, 0, 5],
        &[2, 3, 0, 7],
        &[0, 5, 4, 7],
        &[2, 6, 5, 7],
        &[0, 2, 5, 7],
    ];
    push_each(m, 1, h, if odd { &mirrored } else { &even });
}

pub fn push_wedges(m: &mut Model, h: &[u32; 8]) {
    push_each(m, 3, h, &[&[0, 1, 2, 4, 5, 6], &[0, 2, 3, 4, 6, 7]]);
}

/// Pyramids from one node to patches of a band of the sphere. Every so many there is one with one
/// more node on a side, so that its neighbour's triangle is partly shared.
pub fn hub(n: usize, every: usize) -> Model {
    let mut m = Model::default();
    if n == 0 || n > MAX_CELLS {
        return m;
    }
    let across = (1..).find(|w| w * w >= n).unwrap();
    m.push_node([0.0; 3]);
    for j in 0..=n.div_ceil(across) {
        for i in 0..=across {
            let u = i as f64 * 5.0 / across as f64;
            let v = j as f64 * 2.0 / across as f64 - 1.0;
            m.push_node([v.cos() * u.cos(), v.cos() * u.sin(), v.sin()]);
        }
    }
    let at = |i: usize, j: usize| (1 + j * (across + 1) + i) as u32;
    for cell in 0..n {
        let (i, j) = (cell % across, cell / across);
        let q = [at(i, j), at(i + 1, j), at(i + 1, j + 1), at(i, j + 1)];
        let mut rings = vec![q.to_vec()];
        rings.extend((0..4).map(|s| vec![0, q[(s + 1) % 4], q[s]]));
        if cell % every == every - 1 {
            let middle =
                |k| (m.coords[3 * q[1] as usize + k] + m.coords[3 * q[2] as usize + k]) / 2.0;
            let extra = m.push_node([middle(0), middle(1), middle(2)]);
            rings[0] = vec![q[0], q[1], extra, q[2], q[3]];
            rings[2] = vec![0, q[2], extra, q[1]];
        }
        m.push_phed(&rings);
    }
    m
}

/// Separate boxes as PHED, with no node in common.
fn isolated(n: usize) -> Model {
    let mut m = Model::default();
    for cell in 0..n.min(MAX_CELLS + 1) {
        let corner = [cell % 25, cell / 25 % 25, cell / 625].map(|place| 2 * place);
        let h: [u32; 8] = std::array::from_fn(|p| {
            let step = [[0, 1, 1, 0][p % 4], [0, 0, 1, 1][p % 4], p / 4];
            m.push_node(std::array::from_fn(|k| (corner[k] + step[k]) as f64))
        });
        m.push_phed(&box_rings(&h));
    }
    m
}

pub fn box_rings(h: &[u32; 8]) -> Vec<Vec<u32>> {
    let places = [
        [0, 3, 2, 1],
        [4, 5, 6, 7],
        [0, 1, 5, 4],
        [2, 3, 7, 6],
        [1, 2, 6, 5],
        [3, 0, 4, 7],
    ];
    places
        .iter()
        .map(|ring| ring.iter().map(|&p| h[p]).collect())
        .collect()
}

/// A stack of prisms over a regular polygon.
pub fn prisms(sides: usize, n: usize) -> Model {
    let mut m = Model::default();
    if sides < 3 || n.saturating_mul(7 * sides) > MAX_WORDS || (n + 1) * sides > MAX_NODES {
        return m;
    }
    for level in 0..=n {
        for s in 0..sides {
            let u = s as f64 * std::f64::consts::TAU / sides as f64;
            m.push_node([10.0 * u.cos(), 10.0 * u.sin(), level as f64]);
        }
    }
    for level in 0..n {
        let at = |up: usize, s: usize| ((level + up) * sides + s % sides) as u32;
        let mut rings = vec![
            (0..sides).rev().map(|s| at(0, s)).collect(),
            (0..sides).map(|s| at(1, s)).collect(),
        ];
        rings.extend((0..sides).map(|s| vec![at(0, s), at(0, s + 1), at(1, s + 1), at(1, s)]));
        m.push_phed(&rings);
    }
    m
}

/// Cells of one ring each, over the same polygon with one node of their own
/// above it: every two share all but that node.
pub fn same(sides: usize, n: usize) -> Model {
    let mut m = prisms(sides, 1);
    let polygon: Vec<u32> = (0..sides as u32).collect();
    m = Model {
        coords: m.coords[..3 * sides.min(m.node_count())].to_vec(),
        ..Model::default()
    };
    for cell in 0..n.min(MAX_CELLS + 1) {
        let own = m.push_node([0.0, 0.0, cell as f64 + 1.0]);
        m.push_phed(&[[&polygon[..], &[own]].concat()]);
    }
    m
}

/// Quadrangles that have three nodes in a line in common: every two are candidates, and no common nodes span an area.
pub fn line(n: usize) -> Model {
    let mut m = Model::default();
    let common = [0.0, 1.0, 2.0].map(|x| m.push_node([x, 0.0, 0.0]));
    for cell in 0..n.min(MAX_CELLS + 1) {
        let own = m.push_node([1.0, 1.0, cell as f64]);
        m.push_phed(&[[&common[..], &[own]].concat()]);
    }
    m
}

/// Separate tetrahedra behind loose nodes: so many nodes in all. No two loose nodes are within the tolerance, but every two are by
/// their x, so welding them too would compare each with each.
fn loose(nodes: usize, n: usize) -> Model {
    let mut m = Model::default();
    if nodes > MAX_NODES || nodes < 4 * n {
        return m;
    }
    for node in 0..nodes - 4 * n {
        m.push_node([0.0, (node % 256) as f64, (node / 256) as f64]);
    }
    for cell in 0..n {
        let x = 2.0 * cell as f64;
        let corners = [
            [x, 0.0, 0.0],
            [x + 1.0, 0.0, 0.0],
            [x, 1.0, 0.0],
            [x, 0.0, 1.0],
        ];
        let t = corners.map(|p| m.push_node(p));
        m.push_cell(1, &t);
    }
    m
}

/// Cells of one kind on nodes drawn at random, each node once in a cell.
fn soup(kind: u8, places: usize, n: usize, nodes: usize) -> Model {
    let rng = &mut Rng(1);
    let mut m = Model::default();
    for node in 0..nodes {
        m.push_node([node % 5, node / 5 % 5, node / 25].map(|c| c as f64));
    }
    for _ in 0..n {
        let words = rng.draw(places, nodes);
        m.push_cell(kind, &words);
    }
    m
}
