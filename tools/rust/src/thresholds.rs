//! Models whose area tests and crossings lie at or next to their thresholds.

use crate::families::{finish, push_lattice_nodes};
use crate::model::{MAX_CELLS, Model};
use crate::rng::Rng;

const BESIDE: [f64; 7] = [
    0.5,
    0.75,
    1.0 - f64::EPSILON / 2.0,
    1.0,
    1.0 + f64::EPSILON,
    1.5,
    2.0,
];

fn begin(rng: &mut Rng) -> Model {
    Model {
        tolerance: rng.pick(&[0.0, 0.0, 1e-14, 0.25, 0.5, 1e-3]),
        flags: 3,
        cap: u16::MAX,
        ..Model::default()
    }
}

/// The least eps of the area test: 64 × 2^-52.
fn eps(m: &Model) -> f64 {
    m.tolerance.max(2f64.powi(-46))
}

/// Pairs of rings with three or more common nodes in a line, or about eps off it, or all within eps.
pub fn collinear(rng: &mut Rng, cells: usize) -> Model {
    if rng.one_in(4) {
        return on_lines(rng, cells);
    }
    let mut m = begin(rng);
    for _ in 0..cells.clamp(1, MAX_CELLS / 2) {
        let away = 8.0 * m.kinds.len() as f64 * rng.below(2) as f64;
        let unit = eps(&m) * if away > 1.0 { away } else { 1.0 };
        let long = match rng.below(6) {
            0 => unit * rng.pick(&BESIDE),
            1 => 0.5,
            2 => 0.75,
            _ => 1.0,
        };
        let height = unit * rng.pick(&BESIDE);
        let mut common = vec![
            m.push_node([0.0, 0.0, away]),
            m.push_node([long, 0.0, away]),
            m.push_node([long * rng.pick(&[0.0, 0.5, 1.0]), height, away]),
        ];
        if rng.one_in(3) {
            common.push(m.push_node([long * rng.pick(&[0.25, 0.5]), 0.0, away]));
        }
        let other = m.push_node([0.5, 3.0, away]);
        m.push_phed(&[common.clone()]);
        common.push(other);
        m.push_phed(&[common]);
    }
    m
}

/// Rings whose common nodes stand on a few lines of a lattice.
fn on_lines(rng: &mut Rng, cells: usize) -> Model {
    let mut m = Model::default();
    let lines = 1 + rng.below(3);
    for line in 0..lines {
        for step in 0..5 {
            let s = step as f64;
            m.push_node([[s, 0.0, 0.0], [s, s, 0.0], [1.0, s, 2.0 * s]][line]);
        }
    }
    let others = 2 + rng.below(6);
    push_lattice_nodes(&mut m, rng, others);
    for _ in 0..cells.clamp(1, MAX_CELLS) {
        let line = 5 * rng.below(lines) as u32;
        let count = 3 + rng.below(3);
        let mut ring: Vec<u32> = rng.draw(count, 5).iter().map(|p| p + line).collect();
        for p in rng.draw(1, others) {
            ring.push(5 * lines as u32 + p);
        }
        rng.shuffle(&mut ring);
        m.push_phed(&[ring]);
    }
    finish(rng, m)
}

/// Rings whose edges cross at an angle of about 2^-23, or lie beside one another.
pub fn crossings(rng: &mut Rng, cells: usize) -> Model {
    let mut m = begin(rng);
    for _ in 0..cells.clamp(1, MAX_CELLS / 2) {
        let away = 8.0 * m.kinds.len() as f64 * rng.below(2) as f64;
        let rise = 2f64.powi(-23) * rng.pick(&BESIDE);
        let about = eps(&m) * rng.pick(&BESIDE);
        let shift = rng.pick(&[0.0, 0.0, about]);
        let end = 1.0 + rng.pick(&[0.0, 1e-12, -1e-12, 5e-13, 2e-12]);
        let mut low = || rise * rng.pick(&[0.5, 0.0, 1.0]);
        let heights = [shift - low(), shift + low()];
        let ring = vec![
            m.push_node([0.0, 0.0, away]),
            m.push_node([1.0, 0.0, away]),
            m.push_node([end, heights[0], away]),
            m.push_node([0.0, heights[1], away]),
        ];
        m.push_phed(&[ring]);
    }
    m.flags = rng.pick(&[3, 3, 2]);
    m
}
