//! The other operations: files, face owners, the area test, the root.

use crate::finding::Finding;
use crate::lenoshale::{self, Area};
use crate::mesh::UMeshView;
use crate::model::Model;
use crate::reference::{ConformanceReport, owners, spans};
use crate::rng::Rng;

/// Overfull faces up to which all owners are compared.
const MOST_OVERFULL: usize = 300;
/// Lists of nodes drawn for the area test in each model.
const AREA_TESTS: usize = 4;

/// Our file is the harness's, and read again it is the model.
pub fn file(m: &Model) -> Result<(), String> {
    let bytes = m.write();
    let mut out = vec![170; bytes.len()];
    if lenoshale::write(m.lent(), m.cap, &mut out) != Ok(bytes.len()) || out != bytes {
        return Err("another file is written".into());
    }
    let (nodes, cells, words) = (m.node_count(), m.kinds.len(), m.words.len());
    let mut read = Model {
        coords: vec![0.0; 3 * nodes],
        kinds: vec![0; cells],
        ends: vec![0; cells],
        words: vec![0; words],
        ..Model::default()
    };
    let found = lenoshale::read(
        &bytes,
        &mut read.coords,
        &mut read.kinds,
        &mut read.ends,
        &mut read.words,
    )
    .map_err(|n| format!("reading refused {n}"))?;
    (read.tolerance, read.flags, read.cap) = (found.tolerance, found.flags, found.cap);
    if (found.nodes, found.cells, found.words) != (nodes, cells, words) || read.write() != bytes {
        return Err("another model is read".into());
    }
    Ok(())
}

/// All owners of each overfull face, by our lookup of its first face and by the reference; as sets.
pub fn face_owners(
    m: &Model,
    ours: &[Finding],
    mesh: &UMeshView,
    report: &ConformanceReport,
) -> Result<usize, String> {
    let overfull: Vec<&Finding> = ours.iter().filter(|f| f.kind == 2).collect();
    if overfull.len() > MOST_OVERFULL {
        return Ok(0);
    }
    let mut lists = Vec::new();
    for f in &overfull {
        let mut list = vec![0; f.count as usize];
        let count = lenoshale::face_owners(m.lent(), f.a as usize, &mut list);
        if count != Ok(list.len()) {
            return Err(format!("owners of face {}: {count:?}", f.a));
        }
        lists.push((list, f.centre));
    }
    let mut theirs = owners(mesh, report);
    lists.sort_unstable();
    theirs.sort_unstable();
    match lists == theirs {
        true => Ok(lists.len()),
        false => Err("owners of overfull faces differ".into()),
    }
}

/// The area test on some nodes of the model, by ours and the source's.
pub fn area(m: &Model, mesh: &UMeshView, rng: &mut Rng) -> Result<usize, String> {
    for _ in 0..AREA_TESTS {
        let count = 1 + rng.below(8);
        let mut nodes = rng.draw(count, m.node_count());
        nodes.sort_unstable();
        let says = lenoshale::area_test(&m.coords, &nodes, m.tolerance);
        let theirs = spans(mesh, &nodes, m.tolerance);
        if says.map(|a| a == Area::Spans) != Ok(theirs) {
            return Err(format!(
                "area test of {nodes:?}: {says:?}, the Rust's {theirs}"
            ));
        }
    }
    Ok(AREA_TESTS)
}

/// Roots of random bit patterns compared with the machine's: how many differ.
pub fn roots(seed: u64, count: usize) -> usize {
    let rng = &mut Rng(seed);
    let differs = |bits: u64| {
        let x = f64::from_bits(bits);
        let expected = match x.sqrt() {
            r if r.is_nan() => Err(13),
            r => Ok(r.to_bits()),
        };
        lenoshale::root(x).map(f64::to_bits) != expected
    };
    (0..count).filter(|_| differs(rng.next())).count()
}
