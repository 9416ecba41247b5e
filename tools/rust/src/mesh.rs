//! Stand-ins for the mesh types that the reference reads: element types in the
//! order of `ElementType`, ids by type and place, blocks by type.

use std::collections::BTreeMap;

use crate::fx::FxHashSet;
use crate::model::{Model, SEPARATOR};
use crate::nd;

#[derive(Clone, Copy, Debug, PartialEq, Eq, PartialOrd, Ord)]
#[allow(dead_code)]
pub enum Dimension {
    D0,
    D1,
    D2,
    D3,
}

#[derive(Clone, Copy, Debug, PartialEq, Eq, PartialOrd, Ord, Hash)]
#[allow(dead_code, clippy::upper_case_acronyms)]
pub enum ElementType {
    VERTEX,
    SEG2,
    SEG3,
    SEG4,
    PLINE,
    TRI3,
    TRI6,
    TRI7,
    QUAD4,
    QUAD8,
    QUAD9,
    PGON,
    TET4,
    TET10,
    HEX8,
    HEX21,
    WEDGE6,
    WEDGE15,
    PHED,
}

impl ElementType {
    pub fn dimension(self) -> Dimension {
        use ElementType::*;
        match self {
            VERTEX => Dimension::D0,
            SEG2 | SEG3 | SEG4 | PLINE => Dimension::D1,
            TRI3 | TRI6 | TRI7 | QUAD4 | QUAD8 | QUAD9 | PGON => Dimension::D2,
            _ => Dimension::D3,
        }
    }
}

#[derive(Clone, Copy, Debug, PartialEq, Eq, PartialOrd, Ord, Hash)]
pub struct ElementId(ElementType, usize);

pub struct Element<'a> {
    connectivity: &'a [usize],
    id: ElementId,
}

impl<'a> Element<'a> {
    pub fn id(&self) -> ElementId {
        self.id
    }

    pub fn element_type(&self) -> ElementType {
        self.id.0
    }

    pub fn connectivity(&self) -> &'a [usize] {
        self.connectivity
    }

    /// Centres of butterfly cells are not compared: zero, as document 01 has it.
    pub fn centroid3(&self) -> [f64; 3] {
        [0.0; 3]
    }
}

/// The cells of one type: words one after the other, and where each cell ends.
struct Block {
    data: Vec<usize>,
    ends: Vec<usize>,
    /// Number of the block's first cell in the whole model.
    first_cell: usize,
}

impl Block {
    fn get(&self, et: ElementType, i: usize) -> Element<'_> {
        let start = if i == 0 { 0 } else { self.ends[i - 1] };
        Element {
            connectivity: &self.data[start..self.ends[i]],
            id: ElementId(et, i),
        }
    }
}

/// What document 01 has the harness hand to the reference: the rings of every cell, the welded map.
pub struct Handed {
    pub rings: Vec<Vec<Vec<usize>>>,
    pub map: Vec<usize>,
}

pub struct UMeshView<'a> {
    coords: nd::ArrayView2<'a, f64>,
    element_blocks: BTreeMap<ElementType, Block>,
    /// Where there is nothing, the reference makes rings and map by the source's own functions.
    pub handed: Option<Handed>,
}

impl<'a> UMeshView<'a> {
    /// The mesh of a model whose cells stand with kinds ascending.
    pub fn new(model: &'a Model) -> Self {
        let mut element_blocks: BTreeMap<ElementType, Block> = BTreeMap::new();
        let mut start = 0;
        for (cell, (&kind, &end)) in model.kinds.iter().zip(&model.ends).enumerate() {
            let et = match kind {
                1 => ElementType::TET4,
                2 => ElementType::HEX8,
                3 => ElementType::WEDGE6,
                _ => ElementType::PHED,
            };
            let block = element_blocks.entry(et).or_insert_with(|| Block {
                data: Vec::new(),
                ends: Vec::new(),
                first_cell: cell,
            });
            let words = &model.words[start..end as usize];
            block.data.extend(words.iter().map(|&w| match w {
                SEPARATOR => usize::MAX,
                node => node as usize,
            }));
            block.ends.push(block.data.len());
            start = end as usize;
        }
        Self {
            coords: nd::ArrayView2::from_rows(&model.coords, 3),
            element_blocks,
            handed: None,
        }
    }

    /// Number of a cell in the whole model.
    pub fn cell_number(&self, id: ElementId) -> usize {
        self.element_blocks[&id.0].first_cell + id.1
    }

    pub fn coords(&self) -> nd::ArrayView2<'_, f64> {
        self.coords.view()
    }

    pub fn space_dimension(&self) -> usize {
        self.coords.ncols()
    }

    pub fn topological_dimension(&self) -> Option<Dimension> {
        let max_et = self.element_blocks.keys().max()?;
        Some(max_et.dimension())
    }

    pub fn element(&self, id: ElementId) -> Element<'_> {
        self.element_blocks[&id.0].get(id.0, id.1)
    }

    pub fn elements_of_dim(&self, dim: Dimension) -> impl Iterator<Item = Element<'_>> {
        self.element_blocks
            .iter()
            .filter(move |(k, _)| k.dimension() == dim)
            .flat_map(|(&et, block)| (0..block.ends.len()).map(move |i| block.get(et, i)))
    }

    fn elements(&self) -> impl Iterator<Item = Element<'_>> {
        self.element_blocks
            .iter()
            .flat_map(|(&et, block)| (0..block.ends.len()).map(move |i| block.get(et, i)))
    }
}

// `used_nodes`, the nodes that are welded.
include!(concat!(env!("EXTRACTED"), "/used_nodes.rs"));

/// Rows of unequal length, one after the other.
pub struct IndirectIndexOwned<T> {
    data: Vec<T>,
    offsets: Vec<usize>,
}

impl<T: Copy> IndirectIndexOwned<T> {
    pub fn new() -> Self {
        Self {
            data: Vec::new(),
            offsets: vec![0],
        }
    }

    pub fn push(&mut self, row: &[T]) {
        self.data.extend_from_slice(row);
        self.offsets.push(self.data.len());
    }

    pub fn iter(&self) -> impl Iterator<Item = &[T]> {
        self.offsets.windows(2).map(|w| &self.data[w[0]..w[1]])
    }
}

#[derive(Debug)]
#[allow(dead_code)]
pub enum StitchError {
    InvalidTolerance { tol: f64 },
}

/// Coordinates of a node, with z 0 in a plane mesh.
#[inline]
pub fn point3<S: nd::Data<Elem = f64>>(coords: &nd::ArrayBase<S, nd::Ix2>, n: usize) -> [f64; 3] {
    let z = if coords.ncols() > 2 {
        coords[(n, 2)]
    } else {
        0.0
    };
    [coords[(n, 0)], coords[(n, 1)], z]
}
