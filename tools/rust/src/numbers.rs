//! The source's answers written into the lists of crate numbers: the welded numbers of node sets, and whether nodes span an area.
//!
//! A list is entries one after the other: the length of a name in a byte, the name, a size in 4 bytes, the entry. Both kinds begin with
//! two numbers of 4 bytes, the first the number of nodes, the tolerance and three coordinates a node. In a set as many words follow as its
//! second number says, 4 bytes each, the words of one PHED; it ends with a welded number a node, 4 bytes each. In an area test as many
//! listed nodes follow as its second number says, 4 bytes each; it ends with document 01's answer in a byte, and the source's. All
//! little-endian. What tools/weld_sets.py and tools/area_sets.py wrote there is their own reading's.

use std::fs;
use std::ops::Range;

use crate::mesh::UMeshView;
use crate::model::Model;
use crate::reference;

fn number(bytes: &[u8], at: usize) -> usize {
    u32::from_le_bytes(bytes[at..at + 4].try_into().unwrap()) as usize
}

fn float(bytes: &[u8], at: usize) -> f64 {
    f64::from_le_bytes(bytes[at..at + 8].try_into().unwrap())
}

/// The name and the place of each entry.
fn entries(list: &[u8]) -> Vec<(String, Range<usize>)> {
    let mut found = Vec::new();
    let mut at = 0;
    while at < list.len() {
        let name = at + 1..at + 1 + list[at] as usize;
        let from = name.end + 4;
        at = from + number(list, name.end);
        found.push((String::from_utf8(list[name].to_vec()).unwrap(), from..at));
    }
    found
}

/// The nodes of an entry, and where the bytes behind them start.
fn nodes(entry: &[u8]) -> (Model, usize) {
    let behind = 16 + 24 * number(entry, 0);
    let model = Model {
        coords: (16..behind).step_by(8).map(|at| float(entry, at)).collect(),
        tolerance: float(entry, 8),
        ..Model::default()
    };
    (model, behind)
}

/// The numbers from a place on, as many as the second number of the entry says, and where they end.
fn listed(entry: &[u8], from: usize) -> (Vec<u32>, usize) {
    let to = from + 4 * number(entry, 4);
    let list = (from..to).step_by(4).map(|at| number(entry, at) as u32);
    (list.collect(), to)
}

/// Writes the welded numbers of a set.
fn weld(entry: &mut [u8]) {
    let (mut model, behind) = nodes(entry);
    let (words, behind) = listed(entry, behind);
    model.push_cell(4, &words);
    assert!(model.is_sound());
    let map = reference::welded(&UMeshView::new(&model), model.tolerance);
    let bytes: Vec<u8> = map.iter().flat_map(|&n| (n as u32).to_le_bytes()).collect();
    entry[behind..].copy_from_slice(&bytes);
}

/// Writes whether the listed nodes of an area test span an area.
fn area(entry: &mut [u8]) {
    let (model, behind) = nodes(entry);
    let last = entry.len() - 1;
    let (listed, behind) = listed(entry, behind);
    assert_eq!(behind, last - 1);
    entry[last] = reference::spans(&UMeshView::new(&model), &listed, model.tolerance) as u8;
}

/// Answers a list, and says what was another before: the other reading disagrees.
fn answer(path: String, write: fn(&mut [u8])) -> bool {
    let mut list = fs::read(&path).expect("a list");
    let mut good = true;
    for (name, place) in entries(&list) {
        let before = list[place.clone()].to_vec();
        write(&mut list[place.clone()]);
        if list[place] != before[..] {
            println!("{name}: the Rust's answer is another");
            good = false;
        }
    }
    fs::write(path, list).expect("a folder to write to");
    good
}

/// Answers the lists of a folder; whether all answers were there before.
pub fn run(folder: &str) -> bool {
    let welds = answer(format!("{folder}/welds"), weld);
    answer(format!("{folder}/areas"), area) && welds
}
