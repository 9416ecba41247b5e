//! Pins: small models that each tell one wrong reading of document 01, by whose name the pin's begins.
//!
//! | reading | what is wrong in it |
//! |---|---|
//! | slack-alone, slack-squared | the slack of parallel edges is eps, or eps by the squared length, not eps by the edge's length |
//! | slack-less | a span that ends, or begins, exactly at the slack: < for ≤ |
//! | near-less, near-root | closest points within eps: < for ≤, or by the root of the squared distance |
//! | line-root | the distance from the other edge's line: by roots, not by squares |
//! | tiny-1e-9, tiny-1e-3, tiny-0 | the slack of a crossing's parameters is that, not 10^-12 |
//! | parallel-half, parallel-zero | edges are parallel up to 32 × 2^-52, or 0, not 64 × 2^-52 |
//! | eps-half, eps-zero | eps has 32 × 2^-52 × scale, or 0, not 64 × 2^-52 × scale |
//! | direction-equal | direction: root ≥ eps for > eps |
//! | direction-longest | direction: the longest difference, not the first that is long enough |
//! | sum-order | the squared distance in welding is dx² + (dy² + dz²) |

use crate::model::Model;

/// A large coordinate, of which eps has something to be seen beside coordinates of about 1.
const FAR: f64 = 524_288.0;
/// eps where the scale is `FAR`: 2^-27.
const STEP: f64 = FAR * GRAIN;
/// eps where the scale is 1: 64 × 2^-52.
const GRAIN: f64 = 64.0 * f64::EPSILON;

/// A pin's name and model.
pub type Pin = (String, Model);

type Point = [f64; 3];

/// A model of PHED cells of one ring each.
fn model(tolerance: f64, nodes: &[Point], rings: &[&[u32]]) -> Model {
    let mut m = Model {
        tolerance,
        flags: 3,
        cap: u16::MAX,
        ..Model::default()
    };
    for &p in nodes {
        m.push_node(p);
    }
    for ring in rings {
        m.push_phed(&[ring.to_vec()]);
    }
    m
}

/// One ring through the points, in their order.
fn ring(name: &str, tolerance: f64, points: &[Point]) -> Pin {
    let numbers: Vec<u32> = (0..points.len() as u32).collect();
    (name.into(), model(tolerance, points, &[&numbers]))
}

/// The same ring in a place and a direction that no axis has.
fn turned(reading: &str, (_, m): &Pin) -> Pin {
    let turn = |[x, y, z]: Point| {
        [
            (x + 2.0 * y + 2.0 * z) / 3.0 + 0.1,
            (2.0 * x + y - 2.0 * z) / 3.0 - 0.2,
            (2.0 * x - 2.0 * y + z) / 3.0 + 0.3,
        ]
    };
    let points: Vec<Point> = (0..m.node_count() as u32).map(|n| turn(m.point(n))).collect();
    ring(&format!("{reading}-turned"), m.tolerance, &points)
}

/// Points in a plane far away.
fn far(points: &[[f64; 2]]) -> Vec<Point> {
    points.iter().map(|p| [p[0], p[1], FAR]).collect()
}

/// Points in the plane z = 0.
fn flat(points: &[[f64; 2]]) -> Vec<Point> {
    points.iter().map(|p| [p[0], p[1], 0.0]).collect()
}

/// Two edges of a ring in one line, a gap between them: farther apart than eps, but less than eps of a long edge's length; or the
/// other way round for a short one.
fn slack_alone() -> Vec<Pin> {
    let long = |name, points: &[[f64; 2]]| ring(name, 0.25, &flat(points));
    let short = |name, points: &[[f64; 2]]| ring(name, 0.0, &far(points));
    let (half, end) = (STEP / 2.0, 0.25);
    let behind = [[0.0, 0.0], [4.0, 0.0], [4.25, 1.0], [4.5, 0.0], [8.5, 0.0], [4.0, -5.0]];
    let before = [[0.0, 0.0], [4.0, 0.0], [2.0, -5.0], [-4.5, 0.0], [-0.5, 0.0], [-0.25, 1.0]];
    let slanted = [[0.0, 0.0], [3.0, 4.0], [2.0, 6.0], [3.375, 4.5], [6.0, 8.0], [8.0, 1.0]];
    let behind_short = [[0.0, 0.0], [end, 0.0], [end, 1.0], [end + half, 0.0], [0.5, 0.0], [end, -1.0]];
    let before_short = [[0.0, 0.0], [end, 0.0], [0.5, -1.0], [-end, 0.0], [-half, 0.0], [-end, 1.0]];
    let at = [[0.0, 0.0], [0.5, 0.0], [0.5, 1.0], [0.5 + STEP, 0.0], [1.0, 0.0], [0.5, -1.0]];
    let first = long("slack-alone-behind", &behind);
    vec![
        turned("slack-alone", &first),
        first,
        long("slack-alone-before", &before),
        long("slack-alone-345", &slanted),
        short("slack-alone-short-behind", &behind_short),
        short("slack-alone-short-before", &before_short),
        short("slack-alone-short-at", &at),
    ]
}

/// A ring far away with two edges in one line, the first of that length, the second so far behind or before it.
fn gap(name: &str, length: f64, gap: f64, behind: bool) -> Pin {
    let points = match behind {
        true => [[0.0, 0.0], [length, 0.0], [length, 1.0], [length + gap, 0.0], [2.0 * length, 0.0], [length, -1.0]],
        false => [[0.0, 0.0], [length, 0.0], [1.0, -1.0], [-1.0, 0.0], [-gap, 0.0], [-1.0, 1.0]],
    };
    ring(name, 0.0, &far(&points))
}

/// A gap of exactly eps.
fn slack_less() -> Vec<Pin> {
    vec![
        gap("slack-less-before-half", 0.5, STEP, false),
        gap("slack-less-before-quarter", 0.25, STEP, false),
        gap("slack-less-before-long", 2.0, STEP, false),
        gap("slack-less-behind-quarter", 0.25, STEP, true),
        gap("slack-less-behind-one", 1.0, STEP, true),
        gap("slack-less-behind-long", 2.0, STEP, true),
    ]
}

/// A gap of half of eps at a long edge, of twice eps at a short one.
fn slack_squared() -> Vec<Pin> {
    vec![
        gap("slack-squared-long-behind", 4.0, STEP / 2.0, true),
        gap("slack-squared-long-before", 4.0, STEP / 2.0, false),
        gap("slack-squared-short-behind", 0.25, 2.0 * STEP, true),
        gap("slack-squared-short-before", 0.25, 2.0 * STEP, false),
    ]
}

/// Edges that pass each other at a distance whose root is the tolerance, and whose square is one unit above the tolerance's. Sought among
/// points with one decimal.
fn near_root() -> Vec<Pin> {
    let first = [[-1.2, -1.0, -1.9], [-0.1, -0.2, 1.4], [0.1, 0.6, 0.0], [0.6, -0.2, -0.9]];
    let second = [[-1.3, -1.2, 1.4], [2.0, 1.7, -1.6], [-1.8, 1.8, -0.2], [1.1, -0.7, -0.1]];
    let third = [[-0.5, -0.1, -1.2], [-0.6, 1.0, 1.4], [-1.7, -1.5, 1.2], [0.5, 1.1, -1.1]];
    vec![
        ring("near-root-1", 1.222928615558018, &first),
        ring("near-root-2", 0.1563985603859582, &second),
        ring("near-root-3", 0.26711635919223997, &third),
    ]
}

/// Parallel edges at a distance that is the tolerance by squares and not by roots, or the other way round. Sought as those.
fn line_root() -> Vec<Pin> {
    let first = [[0.9, 0.6, -0.5], [-1.1, -2.2, 3.5], [-3.5, -1.0, 2.9], [-1.0, -1.3, 2.4], [0.0, 0.1, 0.4], [-1.5, 1.8, -1.1]];
    let second = [[0.8, 0.1, -1.0], [3.2, -0.3, -0.2], [5.6, 1.5, -0.2], [3.0, 0.1, -0.4], [1.8, 0.3, -0.8], [3.2, 1.9, -1.0]];
    let third = [[-0.7, 0.3, 0.0], [2.5, 0.7, 0.8], [-0.5, 1.3, -2.2], [1.2, 0.7, 0.1], [-0.4, 0.5, -0.3], [-3.7, 0.9, -3.0]];
    let fourth = [[0.4, -0.5, 0.2], [1.2, -4.1, 2.2], [-1.8, -4.1, 2.2], [0.5, -3.2, 1.7], [0.1, -1.4, 0.7], [-2.6, -0.5, 0.2]];
    vec![
        ring("line-root-apart-1", 0.4572531681356784, &first),
        ring("line-root-apart-2", 0.37741094895384775, &second),
        ring("line-root-near-1", 0.4025282418753327, &third),
        ring("line-root-near-2", 0.4908249086070215, &fourth),
    ]
}

/// Two edges of a ring that pass each other at a distance of exactly eps.
fn near_less() -> Vec<Pin> {
    let upright = |name, t: f64, w: f64, z: f64, above: f64| {
        ring(name, t, &[[0.0, 0.0, z], [2.0 * w, 0.0, z], [w, w, above], [w, -w, above]])
    };
    let slanted = [[-2.0, 0.0, 0.0], [2.0, 0.0, 0.0], [0.0, 4.75, -2.0], [0.0, -3.25, 4.0]];
    let slanted = ring("near-less-345", 1.25, &slanted);
    vec![
        upright("near-less-quarter", 0.25, 1.0, 0.0, 0.25),
        upright("near-less-0.6875", 0.6875, 2.0, 0.0, 0.6875),
        upright("near-less-scale", 0.0, 1.0, FAR, FAR - STEP),
        turned("near-less", &slanted),
        slanted,
    ]
}

/// Edges whose lines cross at `off` outside one of them.
fn tiny(reading: &str, off: f64) -> Vec<Pin> {
    let pin = |place: &str, c: [f64; 2], d: [f64; 2]| {
        let points = flat(&[[0.0, 0.0], [1.0, 0.0], c, d]);
        ring(&format!("{reading}-{place}"), 0.0, &points)
    };
    let first = pin("first-end", [1.0 + off, 1.0], [1.0 + off, -1.0]);
    vec![
        turned(reading, &first),
        first,
        pin("first-start", [-off, 1.0], [-off, -1.0]),
        pin("second-end", [0.5, 1.0], [0.5, off]),
        pin("second-start", [0.5, off], [0.5, 1.0]),
    ]
}

/// Edges whose squared sine is (2 × `k`)² / 64 of the grain, or about that: they cross in the middle, but count as parallel and off each other's line; or
/// they don't cross, but one begins on the other's line.
fn parallel(reading: &str, k: f64, k345: f64) -> Vec<Pin> {
    let name = |end: &str| format!("{reading}-{end}");
    let h = k * 2f64.powi(-26);
    let q = k345 * 2f64.powi(-28);
    let cross = flat(&[[0.0, 0.0], [1.0, 0.0], [1.0, h], [0.0, -h]]);
    let cross345 = flat(&[[0.0, 0.0], [3.0, 4.0], [3.0 - 4.0 * q, 4.0 + 3.0 * q], [4.0 * q, -3.0 * q]]);
    let along_y = [[0.0, -1.0, 0.0], [0.0, 1.0, 0.0], [0.0, 1.0, 2.0 * h], [0.0, -1.0, -2.0 * h]];
    let low = STEP / 2.0;
    let touch = far(&[[1.0, 0.0], [0.0, 0.0], [0.0, 1.0], [0.25, low], [0.75, low + h], [1.0, 1.0]]);
    vec![
        ring(&name("cross"), 0.0, &cross),
        ring(&name("cross-345"), 0.0, &cross345),
        ring(&name("cross-y"), 0.0, &along_y),
        ring(&name("touch"), 0.0, &touch),
    ]
}

/// Edges, and the common nodes of two rings, at a `part` of eps.
fn eps(reading: &str, part: f64) -> Vec<Pin> {
    let name = |end: &str| format!("{reading}-{end}");
    let (up, at) = (part * GRAIN, part * STEP);
    let near = [[0.0, 0.0, 0.0], [1.0, 0.0, 0.0], [0.5, 0.5, up], [0.5, -0.5, up]];
    let line = far(&[[0.0, 0.0], [1.0, 0.0], [1.0, 1.0], [0.75, at], [0.25, at], [0.0, 1.0]]);
    let slack = far(&[[0.0, 0.0], [1.0, 0.0], [1.0, 1.0], [1.0 + at, 0.0], [2.0, 0.0], [1.0, -1.0]]);
    let corner = flat(&[[0.0, 0.0], [up, 0.0], [0.0, up], [1.0, 1.0]]);
    let near = ring(&name("near"), 0.0, &near);
    vec![
        turned(reading, &near),
        near,
        ring(&name("line"), 0.0, &line),
        ring(&name("slack"), 0.0, &slack),
        (name("pair"), model(0.0, &corner, &[&[0, 1, 2], &[0, 1, 3, 2]])),
    ]
}

/// Rings whose common nodes have differences of exactly eps, or a first that is long enough and a longer one.
fn directions() -> Vec<Pin> {
    let equal = |name: &str, points: &[[f64; 2]]| -> Pin {
        (name.into(), model(0.0, &far(points), &[&[0, 1, 3, 2], &[0, 1, 3, 4, 2]]))
    };
    let thin = flat(&[[0.0, 0.0], [0.3125, 0.0], [1.0, 0.0], [0.0, 0.75], [-4.0, 2.0]]);
    let spans = flat(&[[0.0, 0.0], [0.125, 0.25], [0.9375, -0.25], [1.0, 0.0], [1.5, 2.0]]);
    let slanted = [[0.0, 0.0], [0.6 * STEP, 0.8 * STEP], [-0.8, 0.6], [0.6, 0.8], [1.0, 2.0]];
    vec![
        equal("direction-equal-pair", &[[0.0, 0.0], [STEP, 0.0], [0.0, 1.0], [1.0, 0.0], [1.0, 1.0]]),
        equal("direction-equal-pair-345", &slanted),
        ("direction-longest-pair-thin".into(), model(0.25, &thin, &[&[0, 1, 2, 3], &[0, 1, 2, 3, 4]])),
        ("direction-longest-pair-spans".into(), model(0.25, &spans, &[&[0, 2, 3, 1], &[0, 2, 3, 4, 1]])),
    ]
}

/// A tetrahedron with two corners whose squared distance is the tolerance's or one unit above it, by the order of its sum.
fn sum_order() -> Vec<Pin> {
    let pin = |name: &str, tolerance, d: Point| -> Pin {
        let mut m = model(tolerance, &[[0.0; 3], d, [9.0, 0.0, 0.0], [0.0, 9.0, 0.0]], &[]);
        m.push_cell(1, &[0, 1, 2, 3]);
        (name.into(), m)
    };
    vec![
        pin("sum-order-apart", 1.9, [0.1, 0.6, 1.8]),
        pin("sum-order-welded", 1.9, [1.8, 0.6, 0.1]),
        pin("sum-order-far-apart", 3.9, [1.4, 2.2, 2.9]),
    ]
}

/// All pins.
pub fn all() -> Vec<Pin> {
    let half = parallel("parallel-half", 3.0, 12.0);
    let zero = parallel("parallel-zero", 2.0, 9.0);
    [
        slack_alone(),
        slack_less(),
        slack_squared(),
        near_less(),
        near_root(),
        line_root(),
        tiny("tiny-1e-9", 2f64.powi(-31)),
        tiny("tiny-1e-3", 2f64.powi(-11)),
        tiny("tiny-0", 2f64.powi(-41)),
        vec![turned("parallel-half", &half[0]), turned("parallel-zero", &zero[2])],
        half,
        zero,
        eps("eps-half", 0.75),
        eps("eps-zero", 0.375),
        directions(),
        sum_order(),
    ]
    .concat()
}
