//! Small models written with the reference's answers, for crate replay.
//!
//! A file is entries one after the other: the model file's length / 32 and the number of records, 16
//! bits each, little-endian; the model file; the records, 64 bytes each, with the fields that the
//! Rust does not have zero and ties in our order.

use std::fs;

use crate::compare::reference;
use crate::families::{FAMILIES, Family, made};
use crate::finding::{Finding, difference, reported};
use crate::handed;
use crate::mesh::UMeshView;
use crate::model::Model;
use crate::ours;
use crate::pins;
use crate::rng::Rng;
use crate::way::Way;

const MOST_BYTES: usize = 2048;
const MOST_FINDINGS: usize = 16;
/// Models of each family.
const MODELS: usize = 30;
/// How many of them are wanted by the way that the reference takes: nodes, triples, no pairs sought.
const WANTED: [usize; 3] = [14, 14, 2];
/// After so many models tried, any way will do.
const TRIES: usize = 2000;
/// Bytes of a file at most.
const MOST_FILE: usize = 65_536;

/// Overfull faces tied on their first cell put in our order. Both lists have the same findings.
fn in_our_order(theirs: &[Finding], ours: &[Finding]) -> Vec<Finding> {
    let mut left = theirs.to_vec();
    let mut ordered = Vec::new();
    for f in ours {
        let at = left.iter().position(|t| *t == f.comparable());
        ordered.push(left.remove(at.expect("lists that agree")));
    }
    ordered
}

/// The entry of a model, and its place in `WANTED`, if it is small and both checks agree.
fn entry(m: &Model, rng: &mut Rng) -> Option<(Vec<u8>, usize)> {
    let file = m.write();
    if file.len() > MOST_BYTES {
        return None;
    }
    let mut mesh = UMeshView::new(m);
    mesh.handed = Some(handed::of(m, &mesh, rng).expect("rings and map that agree"));
    let (report, _) = reference(&mesh, m, Way::Unhooked);
    let theirs = reported(&mesh, &report);
    let (_, figures) = reference(&mesh, m, Way::Seen);
    if theirs.len() > MOST_FINDINGS {
        return None;
    }
    let ours = ours::findings(m, rng).expect("an accepted model");
    assert!(difference(&ours, &theirs).is_none());
    let mut bytes = ((file.len() / 32) as u16).to_le_bytes().to_vec();
    bytes.extend((theirs.len() as u16).to_le_bytes());
    bytes.extend(file);
    for f in in_our_order(&theirs, &ours.first) {
        bytes.extend(f.record());
    }
    let way = match figures.map(|f| f.own()) {
        Some(Way::Nodes) => 0,
        Some(_) => 1,
        None => 2,
    };
    Some((bytes, way))
}

/// The entries of a family. Where a way is rare in small models, the other makes up for it.
fn chosen(family: Family, rng: &mut Rng, counts: &mut [usize; 3]) -> Vec<Vec<u8>> {
    let mut left = WANTED;
    let mut entries = Vec::new();
    for tried in 0.. {
        if entries.len() == MODELS {
            break;
        }
        let cells = 1 + rng.below(14);
        let mut m = made(family, rng, cells);
        m.cap = u16::MAX;
        let Some((bytes, way)) = entry(&m, rng) else {
            continue;
        };
        let no_findings = bytes[2] == 0 && bytes[3] == 0;
        let full = left[way] == 0 && tried < TRIES;
        if full || (no_findings && way != 2 && !rng.one_in(8)) {
            continue;
        }
        left[way] = left[way].saturating_sub(1);
        counts[way] += 1;
        entries.push(bytes);
    }
    entries
}

/// Writes the file pins into a folder: before each entry the length of the pin's name in a byte, and the name.
fn record_pins(folder: &str, seed: u64) {
    let rng = &mut Rng(seed);
    let mut bytes = Vec::new();
    let pins = pins::all();
    for (name, model) in &pins {
        let (entry, _) = entry(model, rng).expect("a small model");
        bytes.push(name.len() as u8);
        bytes.extend(name.bytes());
        bytes.extend(entry);
    }
    assert!(bytes.len() <= MOST_FILE);
    fs::write(format!("{folder}/pins"), &bytes).expect("a folder to write to");
    println!("{} pins, {} bytes", pins.len(), bytes.len());
}

/// Writes the files part-0, part-1, .. and pins into a folder.
pub fn run(folder: &str, seed: u64) {
    let mut parts = vec![Vec::new()];
    let mut counts = [0; 3];
    for (place, family) in FAMILIES.iter().enumerate() {
        let rng = &mut Rng(seed ^ ((place as u64 + 1) << 40));
        for bytes in chosen(*family, rng, &mut counts) {
            if parts[parts.len() - 1].len() + bytes.len() > MOST_FILE {
                parts.push(Vec::new());
            }
            parts.last_mut().unwrap().extend(bytes);
        }
    }
    for (number, part) in parts.iter().enumerate() {
        fs::write(format!("{folder}/part-{number}"), part).expect("a folder to write to");
    }
    let bytes: usize = parts.iter().map(Vec::len).sum();
    let [nodes, triples, none] = counts;
    println!("by nodes {nodes}, by triples {triples}, no pairs sought {none}");
    println!("{} files, {bytes} bytes", parts.len());
    record_pins(folder, seed);
}
