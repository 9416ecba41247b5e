//! Loose nodes, which no cell names, put among a model's nodes where a welding of all nodes would show them.

use crate::model::{MAX_NODES, Model, SEPARATOR};
use crate::rng::Rng;

/// How far from a used node, in tolerances.
const AWAY: [f64; 7] = [
    0.25,
    0.5,
    0.75,
    1.0 - f64::EPSILON / 2.0,
    1.0,
    1.0 + f64::EPSILON,
    1.5,
];

/// The largest coordinate that is accepted.
const FARTHEST: f64 = 1_000_000.0;

/// Nodes that are tried as the other end of a gap.
const TRIES: usize = 24;

type Point = [f64; 3];

fn distance(p: Point, q: Point) -> f64 {
    (0..3).map(|k| (p[k] - q[k]).powi(2)).sum::<f64>().sqrt()
}

/// Halfway to the nearest of some used nodes that are farther away than the tolerance, or the point itself.
fn between(rng: &mut Rng, m: &Model, used: &[u32], p: Point) -> Point {
    let tried: Vec<Point> = (0..TRIES).map(|_| m.point(rng.pick(used))).collect();
    let apart = |q: &Point| distance(p, *q) > m.tolerance;
    let nearest = tried.into_iter().filter(apart);
    let nearest = nearest.min_by(|q, r| distance(p, *q).total_cmp(&distance(p, *r)));
    nearest.map_or(p, |q| std::array::from_fn(|k| (p[k] + q[k]) / 2.0))
}

/// A place for a loose node: that of a used one, beside one, between two, or anywhere.
fn place(rng: &mut Rng, m: &Model, used: &[u32]) -> Point {
    let mut p = m.point(rng.pick(used));
    match rng.below(6) {
        0 => {}
        1 => p = p.map(|_| rng.below(2001) as f64 * 1000.0 - FARTHEST),
        2 | 3 => p = between(rng, m, used, p),
        _ => {
            let away = m.tolerance * rng.pick(&AWAY);
            p[rng.below(3)] += if rng.one_in(2) { away } else { -away };
        }
    }
    p.map(|c| c.clamp(-FARTHEST, FARTHEST))
}

/// The model with so many loose nodes more, first, last or anywhere between in number, or as many as the limit leaves room for.
/// The cells name the same points, in the same order.
pub fn scattered(rng: &mut Rng, mut m: Model, count: usize) -> Model {
    let named = m.named();
    let used: Vec<u32> = (0..named.len() as u32)
        .filter(|&n| named[n as usize])
        .collect();
    let nodes = m.node_count();
    if used.is_empty() {
        return m;
    }
    let mut loose: Vec<(usize, Point)> = (0..count.min(MAX_NODES - nodes))
        .map(|_| {
            let any = rng.below(nodes + 1);
            (rng.pick(&[0, any, any, nodes]), place(rng, &m, &used))
        })
        .collect();
    loose.sort_by_key(|l| l.0);
    let mut loose = loose.into_iter().peekable();
    let mut all = Model::default();
    let mut numbers = Vec::with_capacity(nodes);
    for old in 0..=nodes {
        while let Some((_, p)) = loose.next_if(|l| l.0 == old) {
            all.push_node(p);
        }
        if old < nodes {
            numbers.push(all.push_node(m.point(old as u32)));
        }
    }
    m.coords = all.coords;
    for w in m.words.iter_mut().filter(|w| **w != SEPARATOR) {
        *w = numbers[*w as usize];
    }
    m
}

/// One model in three gets a few loose nodes.
pub fn sprinkled(rng: &mut Rng, m: Model) -> Model {
    if !rng.one_in(3) {
        return m;
    }
    let count = 1 + rng.below(6);
    scattered(rng, m, count)
}
