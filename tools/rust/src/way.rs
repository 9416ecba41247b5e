//! The choice between the two ways of seeking pairs, seen or forced.

use std::cell::Cell;

#[derive(Clone, Copy, Debug, PartialEq)]
pub enum Way {
    /// The source's function as it stands.
    Unhooked,
    /// The source's choice, with its figures kept.
    Seen,
    Nodes,
    Triples,
}

thread_local! {
    static WAY: Cell<Way> = const { Cell::new(Way::Unhooked) };
    static FIGURES: Cell<Option<Figures>> = const { Cell::new(None) };
}

/// The two figures that the source compares.
#[derive(Clone, Copy)]
pub struct Figures {
    pub node_work: usize,
    pub triple_work: usize,
}

impl Figures {
    /// The way that the source takes.
    pub fn own(self) -> Way {
        if self.node_work <= self.triple_work.saturating_mul(4) {
            Way::Nodes
        } else {
            Way::Triples
        }
    }
}

pub fn set(way: Way) {
    WAY.set(way);
    FIGURES.set(None);
}

pub fn is_hooked() -> bool {
    WAY.get() != Way::Unhooked
}

/// Called in place of the source's comparison.
pub fn by_nodes(node_work: usize, triple_work: usize) -> bool {
    let figures = Figures {
        node_work,
        triple_work,
    };
    FIGURES.set(Some(figures));
    match WAY.get() {
        Way::Nodes => true,
        Way::Triples => false,
        _ => figures.own() == Way::Nodes,
    }
}

/// The figures of the last hooked run, if pairs were sought.
pub fn figures() -> Option<Figures> {
    FIGURES.get()
}
