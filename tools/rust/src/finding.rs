//! Findings of both checks, in one form.

use crate::lenoshale::RECORD;
use crate::mesh::{ElementId, UMeshView};
use crate::ours::Listed;
use crate::reference::{ConformanceIssue, ConformanceReport};

/// The fields of a record; the centre as bits. Fields that a kind does not have are zero.
#[derive(Clone, Copy, Debug, Default, PartialEq, Eq, PartialOrd, Ord)]
pub struct Finding {
    pub kind: u8,
    pub first: u32,
    pub second: u32,
    pub a: u32,
    pub b: u32,
    pub count: u32,
    pub centre: [u64; 3],
}

impl Finding {
    pub fn from_record(r: &[u8]) -> Finding {
        let word = |at: usize| u32::from_le_bytes(r[at..at + 4].try_into().unwrap());
        let bits = |at: usize| u64::from_le_bytes(r[at..at + 8].try_into().unwrap());
        Finding {
            kind: r[0],
            first: word(4),
            second: word(8),
            a: word(12),
            b: word(16),
            count: word(20),
            centre: [bits(32), bits(40), bits(48)],
        }
    }

    pub fn record(&self) -> [u8; RECORD] {
        let mut r = [0; RECORD];
        r[0] = self.kind;
        let words = [self.first, self.second, self.a, self.b, self.count];
        for (i, word) in words.iter().enumerate() {
            r[4 + 4 * i..8 + 4 * i].copy_from_slice(&word.to_le_bytes());
        }
        for (i, bits) in self.centre.iter().enumerate() {
            r[32 + 8 * i..40 + 8 * i].copy_from_slice(&bits.to_le_bytes());
        }
        r
    }

    /// The same with the fields that the Rust does not have set to zero: a and b of kinds 2 and 3,
    /// the count of kind 3.
    pub fn comparable(mut self) -> Finding {
        if self.kind == 2 || self.kind == 3 {
            (self.a, self.b) = (0, 0);
        }
        if self.kind == 3 {
            self.count = 0;
        }
        self
    }
}

/// The findings of the reference's report, in its order.
pub fn reported(mesh: &UMeshView, report: &ConformanceReport) -> Vec<Finding> {
    report
        .issues
        .iter()
        .map(|issue| of_issue(mesh, issue))
        .collect()
}

fn of_issue(mesh: &UMeshView, issue: &ConformanceIssue) -> Finding {
    let number = |id: &ElementId| mesh.cell_number(*id) as u32;
    let (kind, cells, nodes, count, centre) = match issue {
        ConformanceIssue::ButterflyCell { cell, .. } => (1, [number(cell), 0], [0; 2], 0, [0.0; 3]),
        ConformanceIssue::OverlappingFaces { center, cells } => {
            let owners = [number(&cells[0]), number(&cells[1])];
            (2, owners, [0; 2], cells.len(), *center)
        }
        ConformanceIssue::NonConformingFaces { center, cells } => (
            3,
            [number(&cells[0]), number(&cells[1])],
            [0; 2],
            0,
            *center,
        ),
        ConformanceIssue::MergedNodes {
            center,
            nodes,
            cells_a,
            cells_b,
        } => {
            assert!(cells_a.len() == 1 && cells_a == cells_b);
            let cell = number(&cells_a[0]);
            (4, [cell, cell], nodes.map(|n| n as u32), 2, *center)
        }
        other => panic!("not a finding of a volume model: {other:?}"),
    };
    Finding {
        kind,
        first: cells[0],
        second: cells[1],
        a: nodes[0],
        b: nodes[1],
        count: count as u32,
        centre: centre.map(f64::to_bits),
    }
}

/// Whether two findings are overfull faces tied on their first cell.
pub fn tied(a: &Finding, b: &Finding) -> bool {
    a.kind == 2 && b.kind == 2 && a.first == b.first
}

/// Overfull faces tied on their first cell sorted, everything else left in its place.
pub fn with_ties_sorted(list: &[Finding]) -> Vec<Finding> {
    let mut sorted: Vec<Finding> = list.to_vec();
    for tie in sorted.chunk_by_mut(tied) {
        if tie.len() > 1 {
            tie.sort_unstable();
        }
    }
    sorted
}

/// What first differs between our findings and the reference's, if anything: in the total or in the first ones, which are compared up to
/// the last that is not tied with one that the cap left out.
pub fn difference(ours: &Listed, theirs: &[Finding]) -> Option<String> {
    if ours.total != theirs.len() {
        return Some(format!("total: ours {}, the Rust's {}", ours.total, theirs.len()));
    }
    let mut most = ours.first.len();
    while 0 < most && most < theirs.len() && tied(&theirs[most - 1], &theirs[most]) {
        most -= 1;
    }
    let ours: Vec<Finding> = ours.first[..most].iter().map(|f| f.comparable()).collect();
    let (ours, theirs) = (with_ties_sorted(&ours), with_ties_sorted(&theirs[..most]));
    let at = (0..ours.len().max(theirs.len())).find(|&i| ours.get(i) != theirs.get(i))?;
    Some(format!(
        "finding {at} of {} and {}: ours {:?}, the Rust's {:?}",
        ours.len(),
        theirs.len(),
        ours.get(at),
        theirs.get(at)
    ))
}
