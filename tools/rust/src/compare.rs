//! Our check compared with the reference on generated models.

use std::time::Instant;

use crate::families::{FAMILIES, made};
use crate::finding::{difference, reported, tied};
use crate::generate;
use crate::handed;
use crate::mesh::UMeshView;
use crate::model::Model;
use crate::others;
use crate::ours;
use crate::reference::{
    ConformanceChecks, ConformanceOptions, ConformanceReport, is_conform_with, welded,
};
use crate::rng::Rng;
use crate::way::{self, Figures, Way};

/// Forcing a way is left out where its figure is over this: it would take minutes or much memory.
const NODE_WORK_MOST: usize = 20_000_000;
const TRIPLE_WORK_MOST: usize = 4_000_000;

/// Roots that are compared with the machine's.
const ROOTS: usize = 1_000_000;

/// The largest models, and random ones of some thousands of cells.
const LARGE: [&str; 15] = [
    "grid 16 16 64",
    "tets 13 14 15",
    "tets5 12 13 21",
    "wedges 16 16 32",
    "checker 16 16 18",
    "hub 12945",
    "isolated 8191",
    "prisms 60 600",
    "same 10 300",
    "same 20 200",
    "same 40 40",
    "soup4 16384 60",
    "soup4 16384 5000",
    "soup8 4000 200",
    "loose 65535 25",
];

/// The reference's report by a way, and its figures where it was asked for a way and sought pairs.
pub fn reference(mesh: &UMeshView, m: &Model, by: Way) -> (ConformanceReport, Option<Figures>) {
    let checks = ConformanceChecks::from_bits_truncate(m.flags);
    let options = ConformanceOptions::new(checks).with_max_issues(None);
    way::set(by);
    let report = is_conform_with(mesh, m.tolerance, options).expect("a sound tolerance");
    assert!(report.n_issues == report.issues.len());
    (report, way::figures())
}

/// Counts of a family.
#[derive(Default)]
struct Tally {
    models: usize,
    cells: usize,
    agree: usize,
    kinds: [usize; 4],
    ties: usize,
    by_nodes: usize,
    by_triples: usize,
    forced: usize,
    owners: usize,
    areas: usize,
    loose: usize,
    telling: usize,
    telling_used: usize,
}

impl Tally {
    fn add(&mut self, other: &Tally) {
        self.models += other.models;
        self.cells += other.cells;
        self.agree += other.agree;
        for k in 0..4 {
            self.kinds[k] += other.kinds[k];
        }
        self.ties += other.ties;
        self.by_nodes += other.by_nodes;
        self.by_triples += other.by_triples;
        self.forced += other.forced;
        self.owners += other.owners;
        self.areas += other.areas;
        self.loose += other.loose;
        self.telling += other.telling;
        self.telling_used += other.telling_used;
    }

    /// Counts a model with a loose node; whether its map would be another if all nodes were welded, and a used node's number.
    fn loose_nodes(&mut self, m: &Model, map: &[usize]) {
        let named = m.named();
        if named.iter().all(|&n| n) {
            return;
        }
        let all = welded(&UMeshView::new(&m.all_named()), m.tolerance);
        self.loose += 1;
        self.telling += (all != map) as usize;
        self.telling_used += (0..all.len()).any(|n| named[n] && all[n] != map[n]) as usize;
    }

    /// Counts the way that the source takes; the other one, and whether it can be forced.
    fn other_way(&mut self, f: Figures) -> (Way, bool) {
        if f.own() == Way::Nodes {
            self.by_nodes += 1;
            (Way::Triples, f.triple_work <= TRIPLE_WORK_MOST)
        } else {
            self.by_triples += 1;
            (Way::Nodes, f.node_work <= NODE_WORK_MOST)
        }
    }

    fn print(&self, name: &str) {
        print!("{name:<24} {:>7} {:>8}", self.models, self.cells);
        for k in self.kinds {
            print!(" {k:>8}");
        }
        print!(
            " {:>7} {:>7} {:>7}",
            self.ties, self.by_nodes, self.by_triples
        );
        println!(" {:>7} {:>7}", self.forced, self.models - self.agree);
    }
}

fn print_head() {
    print!("{:<24} {:>7} {:>8}", "family", "models", "cells");
    print!(
        " {:>8} {:>8} {:>8} {:>8}",
        "kind 1", "kind 2", "kind 3", "kind 4"
    );
    println!(
        " {:>7} {:>7} {:>7} {:>7} {:>7}",
        "ties", "nodes", "triples", "both", "differ"
    );
}

/// Everything that is compared on a model; what differs.
fn compared(m: &Model, rng: &mut Rng, t: &mut Tally) -> Result<(), String> {
    let mut mesh = UMeshView::new(m);
    let handed = handed::of(m, &mesh, rng)?;
    t.loose_nodes(m, &handed.map);
    mesh.handed = Some(handed);
    others::file(m)?;
    t.areas += others::area(m, &mesh, rng)?;
    let ours = ours::findings(m, rng)?;
    let agree = |by: Way| {
        let (report, figures) = reference(&mesh, m, by);
        let theirs = reported(&mesh, &report);
        match difference(&ours, &theirs) {
            Some(text) => Err(format!("{by:?}: {text}")),
            None => Ok((report, theirs, figures)),
        }
    };
    let (report, theirs, _) = agree(Way::Unhooked)?;
    for f in &theirs {
        t.kinds[f.kind as usize - 1] += 1;
    }
    t.ties += theirs.windows(2).filter(|w| tied(&w[0], &w[1])).count();
    t.owners += others::face_owners(m, &ours.first, &mesh, &report)?;
    let (_, _, figures) = agree(Way::Seen)?;
    if let Some((other, within)) = figures.map(|f| t.other_way(f))
        && within
    {
        agree(other)?;
        t.forced += 1;
    }
    Ok(())
}

/// Compares a model and counts it; a line where something differs.
fn count(m: &Model, rng: &mut Rng, name: &str, t: &mut Tally) {
    assert!(m.is_sound(), "{name}: a model that is refused");
    t.models += 1;
    t.cells += m.kinds.len();
    match compared(m, rng, t) {
        Ok(()) => t.agree += 1,
        Err(text) => println!("{name}: {text}"),
    }
}

/// About how many cells the next small model has.
fn size(rng: &mut Rng) -> usize {
    let most = rng.pick(&[4, 12, 12, 40, 40, 120]);
    1 + rng.below(most)
}

/// Small models of a family, by their number.
fn small(seed: u64, place: usize, models: usize) -> Tally {
    let (name, _) = FAMILIES[place];
    let mut t = Tally::default();
    for number in 0..models {
        let mut rng = Rng(seed ^ ((place as u64 + 1) << 40) ^ number as u64);
        let cells = size(&mut rng);
        let m = made(FAMILIES[place], &mut rng, cells);
        count(&m, &mut rng, &format!("{name} {number}"), &mut t);
    }
    t.print(name);
    t
}

/// Two models of some thousands of cells of each family.
fn large(seed: u64) -> Tally {
    let mut t = Tally::default();
    for family in FAMILIES {
        for number in 0..2 {
            let mut rng = Rng(seed ^ number);
            let cells = 1000 + rng.below(3000);
            let m = made(family, &mut rng, cells);
            let name = format!("{}, large {number}", family.0);
            count(&m, &mut rng, &name, &mut t);
        }
    }
    t.print("thousands of cells");
    t
}

/// The models of `LARGE`.
fn at_limits(seed: u64) -> Tally {
    let mut whole = Tally::default();
    for name in LARGE {
        let mut t = Tally::default();
        let m = generate::model(name).expect("a model within the limits");
        count(&m, &mut Rng(seed), name, &mut t);
        t.print(name);
        whole.add(&t);
    }
    whole
}

/// Compares `models` small models, as many of each family, and the large ones; whether all agree.
pub fn run(seed: u64, models: usize) -> bool {
    let start = Instant::now();
    let mut whole = Tally::default();
    println!("seed {seed}");
    print_head();
    for place in 0..FAMILIES.len() {
        whole.add(&small(seed, place, models.div_ceil(FAMILIES.len())));
    }
    whole.add(&large(seed));
    whole.add(&at_limits(seed));
    whole.print("all");
    let roots = others::roots(seed, ROOTS);
    println!("{ROOTS} roots: {roots} differ");
    println!(
        "{} area tests and {} lists of owners compared",
        whole.areas, whole.owners
    );
    println!(
        "{} models have a loose node: with all nodes welded {} would have another map, {} another number for a used node",
        whole.loose, whole.telling, whole.telling_used
    );
    println!("{} s", start.elapsed().as_secs());
    println!("{} models: {} agree", whole.models, whole.agree);
    whole.models == whole.agree && roots == 0
}
