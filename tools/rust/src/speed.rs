//! Our check and the reference timed side by side on the same models, runs of both in turn.

use std::hint::black_box;
use std::time::Instant;

use crate::generate;
use crate::lenoshale::{self, RECORD};
use crate::mesh::UMeshView;
use crate::model::Model;
use crate::reference::{ConformanceChecks, ConformanceOptions, is_conform_with};
use crate::way::{self, Way};

/// A model and one of about a quarter of its cells.
const MODELS: [[&str; 2]; 13] = [
    ["grid 16 16 64", "grid 16 16 16"],
    ["tets 13 14 15", "tets 7 7 14"],
    ["wedges 16 16 32", "wedges 16 16 8"],
    ["hub 12945", "hub 3236"],
    ["isolated 8191", "isolated 2048"],
    ["prisms 60 600", "prisms 60 150"],
    ["same 20 1000", "same 20 250"],
    ["soup4 16384 60", "soup4 4096 60"],
    ["soup8 10000 200", "soup8 2500 200"],
    ["rings6 16000 300", "rings6 4000 300"],
    ["rings6 16000 3000", "rings6 4000 3000"],
    ["line 16384", "line 4096"],
    ["loose 65535 25", "loose 16384 6"],
];

/// Models whose files are read and written.
const FILES: [&str; 5] = [
    "grid 16 16 64",
    "tets 13 14 15",
    "hub 12945",
    "isolated 8191",
    "prisms 60 600",
];

/// No further run of a model is begun after so many seconds.
const MOST_SECONDS: f64 = 8.0;

/// Best times in milliseconds on a model.
struct Times {
    cells: usize,
    total: u64,
    rust: f64,
    ours: f64,
    /// Ours, with the lent memory taken from the system in each run.
    fresh: f64,
}

fn milliseconds(run: impl FnOnce()) -> f64 {
    let start = Instant::now();
    run();
    start.elapsed().as_secs_f64() * 1e3
}

/// The reference on a model: how many findings.
fn reference_total(mesh: &UMeshView, m: &Model) -> u64 {
    let checks = ConformanceChecks::from_bits_truncate(m.flags);
    let options = ConformanceOptions::new(checks).with_max_issues(Some(m.cap as usize));
    let report = is_conform_with(mesh, m.tolerance, options).expect("a sound tolerance");
    black_box(report).n_issues as u64
}

/// Our check on a model: how many findings.
fn our_total(m: &Model, findings: &mut [u8], work: &mut [u32]) -> u64 {
    let report = lenoshale::check(m.lent(), m.cap, findings, work);
    report.expect("an accepted model").total
}

/// The times of both, best of `runs` runs in turn.
fn measure(name: &str, runs: usize) -> Times {
    let m = generate::model(name).expect("a model within the limits");
    let mesh = UMeshView::new(&m);
    let mut findings = vec![0; m.cap as usize * RECORD];
    let mut work = vec![0; m.work_needed()];
    let (mut total, mut theirs) = (0, 0);
    let mut best = [f64::INFINITY; 3];
    let start = Instant::now();
    for run in 0..runs {
        if run > 0 && start.elapsed().as_secs_f64() > MOST_SECONDS {
            break;
        }
        let took = [
            milliseconds(|| theirs = reference_total(&mesh, &m)),
            milliseconds(|| total = our_total(&m, &mut findings, &mut work)),
            milliseconds(|| {
                let mut findings = vec![0; m.cap as usize * RECORD];
                let mut work = vec![0; m.work_needed()];
                our_total(&m, &mut findings, &mut work);
            }),
        ];
        assert!(total == theirs, "{name}: totals differ");
        for (b, t) in best.iter_mut().zip(took) {
            *b = b.min(t);
        }
    }
    Times {
        cells: m.kinds.len(),
        total,
        rust: best[0],
        ours: best[1],
        fresh: best[2],
    }
}

fn print_line(name: &str, t: &Times) {
    print!("{name:<17} {:>6} {:>8}", t.cells, t.total);
    print!(
        " {:>10.2} {:>10.2} {:>8.2}",
        t.rust,
        t.ours,
        t.ours / t.rust
    );
    print!(" {:>10.2} {:>8.2}", t.fresh, t.fresh / t.rust);
}

/// Reading and writing a model's file and copying its bytes: best milliseconds of each.
fn measure_file(m: &Model, runs: usize) -> [f64; 3] {
    let bytes = m.write();
    let mut copy = vec![0; bytes.len()];
    let mut read = m.clone();
    let mut best = [f64::INFINITY; 3];
    for _ in 0..runs {
        let took = [
            milliseconds(|| copy.copy_from_slice(black_box(&bytes))),
            milliseconds(|| {
                let lists = (
                    &mut read.coords,
                    &mut read.kinds,
                    &mut read.ends,
                    &mut read.words,
                );
                lenoshale::read(&bytes, lists.0, lists.1, lists.2, lists.3).expect("a good file");
            }),
            milliseconds(|| {
                lenoshale::write(m.lent(), m.cap, &mut copy).expect("an accepted model");
            }),
        ];
        for (b, t) in best.iter_mut().zip(took) {
            *b = b.min(t);
        }
    }
    assert!(copy == bytes && read.write() == bytes);
    best
}

/// Files against memcpy; a ratio of 0.5 is half of memcpy's speed.
fn print_files(runs: usize) {
    print!("{:<17} {:>8} {:>10}", "file", "bytes", "memcpy ms");
    println!(
        " {:>10} {:>8} {:>10} {:>8}",
        "read ms", "ratio", "write ms", "ratio"
    );
    for name in FILES {
        let m = generate::model(name).expect("a model within the limits");
        let [copy, read, write] = measure_file(&m, runs);
        print!("{name:<17} {:>8} {copy:>10.3}", m.write().len());
        println!(
            " {read:>10.3} {:>8.2} {write:>10.3} {:>8.2}",
            copy / read,
            copy / write
        );
    }
}

/// Prints a line for each model, or for those whose names begin so; the growth is 1 where time grows as the cells do.
pub fn run(runs: usize, only: Option<&str>) -> bool {
    way::set(Way::Unhooked);
    print!("{:<17} {:>6} {:>8}", "model", "cells", "findings");
    print!(" {:>10} {:>10} {:>8}", "Rust ms", "ours ms", "ratio");
    print!(" {:>10} {:>8}", "fresh ms", "ratio");
    println!(" {:>12} {:>12}", "Rust growth", "our growth");
    for [name, quarter] in MODELS {
        if only.is_some_and(|o| !name.starts_with(o)) {
            continue;
        }
        let part = measure(quarter, runs);
        print_line(quarter, &part);
        println!();
        let whole = measure(name, runs);
        print_line(name, &whole);
        let times = whole.cells as f64 / part.cells as f64;
        let growth = [whole.rust / part.rust, whole.ours / part.ours].map(|g| g / times);
        println!(" {:>12.2} {:>12.2}", growth[0], growth[1]);
    }
    if only.is_none_or(|o| o == "files") {
        print_files(10 * runs);
    }
    true
}
