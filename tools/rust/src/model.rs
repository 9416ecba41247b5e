//! A model, its file as document 01 lays it out, and whether it is accepted.

use crate::lenoshale::Lent;

pub const SEPARATOR: u32 = u32::MAX;
const FILE_SEPARATOR: u16 = u16::MAX;
const RECORD: usize = 32;
const RECORD_WORDS: usize = 14;

pub const MAX_NODES: usize = 65_535;
pub const MAX_CELLS: usize = 16_384;
pub const MAX_WORDS: usize = 262_144;
pub const MAX_RING: usize = 64;

#[derive(Clone, Default)]
pub struct Model {
    pub coords: Vec<f64>,
    pub kinds: Vec<u8>,
    pub words: Vec<u32>,
    pub ends: Vec<u32>,
    pub tolerance: f64,
    pub flags: u8,
    pub cap: u16,
}

impl Model {
    pub fn lent(&self) -> Lent<'_> {
        Lent {
            coords: &self.coords,
            kinds: &self.kinds,
            ends: &self.ends,
            words: &self.words,
            tolerance: self.tolerance,
            flags: self.flags,
        }
    }

    pub fn node_count(&self) -> usize {
        self.coords.len() / 3
    }

    pub fn point(&self, node: u32) -> [f64; 3] {
        let at = 3 * node as usize;
        [self.coords[at], self.coords[at + 1], self.coords[at + 2]]
    }

    pub fn push_node(&mut self, p: [f64; 3]) -> u32 {
        self.coords.extend(p);
        (self.node_count() - 1) as u32
    }

    pub fn push_cell(&mut self, kind: u8, words: &[u32]) {
        self.kinds.push(kind);
        self.words.extend(words);
        self.ends.push(self.words.len() as u32);
    }

    /// Appends a PHED of these rings.
    pub fn push_phed(&mut self, rings: &[Vec<u32>]) {
        self.push_cell(4, &rings.join(&SEPARATOR));
    }

    pub fn cell_words(&self, cell: usize) -> &[u32] {
        let start = if cell == 0 { 0 } else { self.ends[cell - 1] };
        &self.words[start as usize..self.ends[cell] as usize]
    }

    /// Of each node whether some cell names it.
    pub fn named(&self) -> Vec<bool> {
        let mut named = vec![false; self.node_count()];
        for &w in self.words.iter().filter(|w| **w != SEPARATOR) {
            named[w as usize] = true;
        }
        named
    }

    /// The same nodes and tolerance, with one PHED that names all nodes.
    pub fn all_named(&self) -> Model {
        let nodes: Vec<u32> = (0..self.node_count() as u32).collect();
        let mut all = Model {
            coords: self.coords.clone(),
            tolerance: self.tolerance,
            ..Model::default()
        };
        let runs: Vec<Vec<u32>> = nodes.chunks(MAX_RING).map(<[u32]>::to_vec).collect();
        all.push_phed(&runs);
        all
    }

    /// Puts the cells in the order of their kinds, each kind in its old order.
    pub fn sort_kinds(&mut self) {
        let mut order: Vec<usize> = (0..self.kinds.len()).collect();
        order.sort_by_key(|&c| self.kinds[c]);
        let mut sorted = Model::default();
        for c in order {
            sorted.push_cell(self.kinds[c], self.cell_words(c));
        }
        self.kinds = sorted.kinds;
        self.words = sorted.words;
        self.ends = sorted.ends;
    }

    /// Faces and ring words.
    pub fn face_counts(&self) -> (usize, usize) {
        let (mut faces, mut ring_words) = (0, 0);
        for (cell, &kind) in self.kinds.iter().enumerate() {
            if kind < 4 {
                let fixed = [(4, 12), (6, 24), (5, 18)][kind as usize - 1];
                faces += fixed.0;
                ring_words += fixed.1;
                continue;
            }
            for run in self.cell_words(cell).split(|&w| w == SEPARATOR) {
                if run.len() >= 3 {
                    faces += 1;
                    ring_words += run.len();
                }
            }
        }
        (faces, ring_words)
    }

    /// Words of work that the check asks for: 8R + 4F + 8C + 4N + 4M + 16.
    pub fn work_needed(&self) -> usize {
        let (faces, ring_words) = self.face_counts();
        let (nodes, cells, words) = (self.node_count(), self.kinds.len(), self.words.len());
        8 * ring_words + 4 * faces + 8 * cells + 4 * nodes + 4 * words + 16
    }

    /// The file of a model whose node numbers fit 16 bits.
    pub fn write(&self) -> Vec<u8> {
        let mut out = Vec::new();
        for p in self.coords.chunks_exact(3) {
            let mut r = [0u8; RECORD];
            r[0] = b'N';
            for k in 0..3 {
                r[8 + 8 * k..16 + 8 * k].copy_from_slice(&p[k].to_le_bytes());
            }
            out.extend(r);
        }
        for (cell, &kind) in self.kinds.iter().enumerate() {
            write_cell(&mut out, kind, self.cell_words(cell));
        }
        let mut r = [0u8; RECORD];
        (r[0], r[1]) = (b'T', self.flags);
        r[2..4].copy_from_slice(&self.cap.to_le_bytes());
        r[8..16].copy_from_slice(&self.tolerance.to_le_bytes());
        out.extend(r);
        out
    }

    /// Whether the check accepts the model, given work enough.
    pub fn is_sound(&self) -> bool {
        let within = self.node_count() <= MAX_NODES
            && self.kinds.len() <= MAX_CELLS
            && self.words.len() <= MAX_WORDS;
        let ascending = self.kinds.windows(2).all(|w| w[0] <= w[1]);
        within
            && ascending
            && self.tolerance.is_finite()
            && self.tolerance >= 0.0
            && self.coords.iter().all(|c| c.abs() <= 1_000_000.0)
            && !self.kinds.is_empty()
            && self.flags <= 3
            && (0..self.kinds.len()).all(|c| self.cell_is_sound(self.kinds[c], self.cell_words(c)))
    }

    fn cell_is_sound(&self, kind: u8, words: &[u32]) -> bool {
        let counted = match kind {
            1 => words.len() == 4,
            2 => words.len() == 8,
            3 => words.len() == 6,
            4 => !words.is_empty(),
            _ => false,
        };
        let named = |&w: &u32| (w as usize) < self.node_count() || (kind == 4 && w == SEPARATOR);
        counted
            && words.iter().all(named)
            && words
                .split(|&w| w == SEPARATOR)
                .all(|run| run.len() <= MAX_RING)
    }
}

/// The records of a cell: C, then K as often as needed.
fn write_cell(out: &mut Vec<u8>, kind: u8, words: &[u32]) {
    let parts = words.len().div_ceil(RECORD_WORDS).max(1);
    for part in 0..parts {
        let from = part * RECORD_WORDS;
        let here = &words[from..words.len().min(from + RECORD_WORDS)];
        let mut r = [0u8; RECORD];
        (r[0], r[1]) = if part == 0 { (b'C', kind) } else { (b'K', 0) };
        r[2] = here.len() as u8;
        for (i, &w) in here.iter().enumerate() {
            let w = if w == SEPARATOR {
                FILE_SEPARATOR
            } else {
                w as u16
            };
            r[4 + 2 * i..6 + 2 * i].copy_from_slice(&w.to_le_bytes());
        }
        out.extend(r);
    }
}
