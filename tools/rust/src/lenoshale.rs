//! The C interface of crate capi (include/lenoshale.h), safe to call from Rust.
//!
//! Each function gives what the operation answers, or the refusal's number; at a refusal nothing that was lent has changed.
//! include/lenoshale.h says of each what it fills, how much must be lent, and which refusals there are.

#[rustfmt::skip]
unsafe extern "C" {
    fn lenoshale_version() -> u32;
    fn lenoshale_read(bytes: *const u8, bytes_len: usize, coords: *mut f64, coords_len: usize, kinds: *mut u8, kinds_len: usize,
        ends: *mut u32, ends_len: usize, words: *mut u32, words_len: usize, node_count: *mut u64, cell_count: *mut u64,
        word_count: *mut u64, tolerance: *mut f64, flags: *mut u8, cap: *mut u16) -> u32;
    fn lenoshale_write(coords: *const f64, coords_len: usize, kinds: *const u8, kinds_len: usize, ends: *const u32, ends_len: usize,
        words: *const u32, words_len: usize, tolerance: f64, flags: u8, cap: u16, out: *mut u8, out_len: usize, size: *mut u64) -> u32;
    fn lenoshale_work_needed(coords: *const f64, coords_len: usize, kinds: *const u8, kinds_len: usize, ends: *const u32,
        ends_len: usize, words: *const u32, words_len: usize, tolerance: f64, flags: u8, need: *mut u64, ring_words: *mut u64,
        faces: *mut u64) -> u32;
    fn lenoshale_check(coords: *const f64, coords_len: usize, kinds: *const u8, kinds_len: usize, ends: *const u32, ends_len: usize,
        words: *const u32, words_len: usize, tolerance: f64, flags: u8, cap: u16, findings: *mut u8, findings_len: usize,
        work: *mut u32, work_len: usize, total: *mut u64, kept: *mut u64) -> u32;
    fn lenoshale_fill_ring_lists(coords: *const f64, coords_len: usize, kinds: *const u8, kinds_len: usize, ends: *const u32,
        ends_len: usize, words: *const u32, words_len: usize, tolerance: f64, flags: u8, raw: *mut u32, raw_len: usize,
        welded: *mut u32, welded_len: usize, work: *mut u32, work_len: usize, count: *mut u32) -> u32;
    fn lenoshale_ring_lookup(coords: *const f64, coords_len: usize, kinds: *const u8, kinds_len: usize, ends: *const u32,
        ends_len: usize, words: *const u32, words_len: usize, tolerance: f64, flags: u8, raw: *const u32, raw_len: usize,
        welded: *const u32, welded_len: usize, face: usize, start: *mut u64, size: *mut u64) -> u32;
    fn lenoshale_face_owners(coords: *const f64, coords_len: usize, kinds: *const u8, kinds_len: usize, ends: *const u32,
        ends_len: usize, words: *const u32, words_len: usize, tolerance: f64, flags: u8, face: usize, owners: *mut u32,
        owners_len: usize, count: *mut u32) -> u32;
    fn lenoshale_weld(coords: *const f64, coords_len: usize, kinds: *const u8, kinds_len: usize, ends: *const u32, ends_len: usize,
        words: *const u32, words_len: usize, tolerance: f64, map: *mut u32, map_len: usize, scratch: *mut u32,
        scratch_len: usize) -> u32;
    fn lenoshale_area_test(coords: *const f64, coords_len: usize, nodes: *const u32, nodes_len: usize, tolerance: f64,
        says: *mut u32) -> u32;
    fn lenoshale_root(x: f64, root: *mut f64) -> u32;
    fn lenoshale_report(findings: *const u8, findings_len: usize, total: u64, kept: u64, out: *mut u8, out_len: usize,
        size: *mut u64) -> u32;
    fn lenoshale_run(input: *const u8, input_len: usize, out: *mut u8, out_len: usize, size: *mut u64) -> u32;
}

/// The interface that this wrapper declares; version() is the linked library's.
pub const VERSION: u32 = 2;
/// Bytes of a file's record, the most words that it holds, and the most records of a file.
pub const FILE_RECORD: usize = 32;
pub const FILE_RECORD_WORDS: usize = 14;
pub const FILE_RECORDS: usize = 131_072;
/// Bytes of a finding's record.
pub const RECORD: usize = 64;
/// The program's limits: bytes of input, finding records, words of work, bytes of output.
pub const RUN_INPUT: usize = 32_768;
pub const RUN_FINDINGS: usize = 512;
pub const RUN_WORK: usize = 16_384;
pub const RUN_OUTPUT: usize = 65_600;

/// Bytes that hold the text of a report with so many records kept.
pub const fn text_room(kept: usize) -> usize {
    128 * kept + 64
}

/// A model: coordinates, three a node; kind and end place of each cell; all words; tolerance, flags.
#[derive(Clone, Copy)]
pub struct Lent<'a> {
    pub coords: &'a [f64],
    pub kinds: &'a [u8],
    pub ends: &'a [u32],
    pub words: &'a [u32],
    pub tolerance: f64,
    pub flags: u8,
}

/// What a file holds besides the lists, and how far these are filled.
#[derive(Clone, Copy, Debug, PartialEq)]
pub struct Found {
    pub nodes: usize,
    pub cells: usize,
    pub words: usize,
    pub tolerance: f64,
    pub flags: u8,
    pub cap: u16,
}

/// What has to be lent for a model: words of work, words of each ring list; and its faces.
#[derive(Clone, Copy, Debug, PartialEq)]
pub struct Needs {
    pub work: usize,
    pub ring_words: usize,
    pub faces: usize,
}

/// How many findings a model has, and how many records were kept.
#[derive(Clone, Copy, Debug, PartialEq)]
pub struct Report {
    pub total: u64,
    pub kept: u64,
}

/// A face's ring, as a part of each of the two ring lists.
#[derive(Clone, Copy, Debug, PartialEq)]
pub struct Ring<'a> {
    pub raw: &'a [u32],
    pub welded: &'a [u32],
}

/// What the area test says.
#[derive(Clone, Copy, Debug, PartialEq)]
pub enum Area {
    TooFew,
    Together,
    NoDirection,
    Thin,
    Spans,
}

/// The value where the answer is 0, else the refusal's number.
fn told<T>(answer: u32, value: T) -> Result<T, u32> {
    if answer == 0 { Ok(value) } else { Err(answer) }
}

// SAFETY of each call below: every pointer comes from a slice with its length, or from a variable. What is written is borrowed
// mutably, so it overlaps nothing else.

/// Reads a file into the first parts of the lists.
pub fn read(bytes: &[u8], coords: &mut [f64], kinds: &mut [u8], ends: &mut [u32], words: &mut [u32]) -> Result<Found, u32> {
    let (mut nodes, mut cells, mut count) = (0, 0, 0);
    let (mut tolerance, mut flags, mut cap) = (0.0, 0, 0);
    #[rustfmt::skip]
    let answer = unsafe {
        lenoshale_read(bytes.as_ptr(), bytes.len(), coords.as_mut_ptr(), coords.len(), kinds.as_mut_ptr(), kinds.len(),
            ends.as_mut_ptr(), ends.len(), words.as_mut_ptr(), words.len(), &mut nodes, &mut cells, &mut count, &mut tolerance,
            &mut flags, &mut cap)
    };
    let (nodes, cells, words) = (nodes as usize, cells as usize, count as usize);
    told(answer, Found { nodes, cells, words, tolerance, flags, cap })
}

/// Writes a model's file, and gives its length.
pub fn write(m: Lent, cap: u16, out: &mut [u8]) -> Result<usize, u32> {
    let mut size = 0;
    #[rustfmt::skip]
    let answer = unsafe {
        lenoshale_write(m.coords.as_ptr(), m.coords.len(), m.kinds.as_ptr(), m.kinds.len(), m.ends.as_ptr(), m.ends.len(),
            m.words.as_ptr(), m.words.len(), m.tolerance, m.flags, cap, out.as_mut_ptr(), out.len(), &mut size)
    };
    told(answer, size as usize)
}

/// What has to be lent to check a model and to fill its ring lists.
pub fn work_needed(m: Lent) -> Result<Needs, u32> {
    let (mut work, mut ring_words, mut faces) = (0, 0, 0);
    #[rustfmt::skip]
    let answer = unsafe {
        lenoshale_work_needed(m.coords.as_ptr(), m.coords.len(), m.kinds.as_ptr(), m.kinds.len(), m.ends.as_ptr(), m.ends.len(),
            m.words.as_ptr(), m.words.len(), m.tolerance, m.flags, &mut work, &mut ring_words, &mut faces)
    };
    told(answer, Needs { work: work as usize, ring_words: ring_words as usize, faces: faces as usize })
}

/// The version of the library.
pub fn version() -> u32 {
    unsafe { lenoshale_version() }
}

/// Checks a model: the records kept go to findings.
pub fn check(m: Lent, cap: u16, findings: &mut [u8], work: &mut [u32]) -> Result<Report, u32> {
    let (mut total, mut kept) = (0, 0);
    #[rustfmt::skip]
    let answer = unsafe {
        lenoshale_check(m.coords.as_ptr(), m.coords.len(), m.kinds.as_ptr(), m.kinds.len(), m.ends.as_ptr(), m.ends.len(),
            m.words.as_ptr(), m.words.len(), m.tolerance, m.flags, cap, findings.as_mut_ptr(), findings.len(), work.as_mut_ptr(),
            work.len(), &mut total, &mut kept)
    };
    told(answer, Report { total, kept })
}

/// Fills the first words of both lists with all rings, and gives how many words that are.
pub fn fill_ring_lists(m: Lent, raw: &mut [u32], welded: &mut [u32], work: &mut [u32]) -> Result<usize, u32> {
    let mut count = 0;
    #[rustfmt::skip]
    let answer = unsafe {
        lenoshale_fill_ring_lists(m.coords.as_ptr(), m.coords.len(), m.kinds.as_ptr(), m.kinds.len(), m.ends.as_ptr(), m.ends.len(),
            m.words.as_ptr(), m.words.len(), m.tolerance, m.flags, raw.as_mut_ptr(), raw.len(), welded.as_mut_ptr(), welded.len(),
            work.as_mut_ptr(), work.len(), &mut count)
    };
    told(answer, count as usize)
}

/// A face's ring in the two lists.
pub fn ring_lookup<'a>(m: Lent, raw: &'a [u32], welded: &'a [u32], face: usize) -> Result<Ring<'a>, u32> {
    let (mut start, mut size) = (0, 0);
    #[rustfmt::skip]
    let answer = unsafe {
        lenoshale_ring_lookup(m.coords.as_ptr(), m.coords.len(), m.kinds.as_ptr(), m.kinds.len(), m.ends.as_ptr(), m.ends.len(),
            m.words.as_ptr(), m.words.len(), m.tolerance, m.flags, raw.as_ptr(), raw.len(), welded.as_ptr(), welded.len(), face,
            &mut start, &mut size)
    };
    let part = start as usize..(start + size) as usize;
    told(answer, Ring { raw: &raw[part.clone()], welded: &welded[part] })
}

/// The cells that hold a face's sorted ring, as many as fit; gives the whole count.
pub fn face_owners(m: Lent, face: usize, owners: &mut [u32]) -> Result<usize, u32> {
    let mut count = 0;
    #[rustfmt::skip]
    let answer = unsafe {
        lenoshale_face_owners(m.coords.as_ptr(), m.coords.len(), m.kinds.as_ptr(), m.kinds.len(), m.ends.as_ptr(), m.ends.len(),
            m.words.as_ptr(), m.words.len(), m.tolerance, m.flags, face, owners.as_mut_ptr(), owners.len(), &mut count)
    };
    told(answer, count as usize)
}

/// The welded numbers of all nodes go to the first words of the map, a loose node's its own. The flags are not asked.
pub fn weld(m: Lent, map: &mut [u32], scratch: &mut [u32]) -> Result<(), u32> {
    #[rustfmt::skip]
    let answer = unsafe {
        lenoshale_weld(m.coords.as_ptr(), m.coords.len(), m.kinds.as_ptr(), m.kinds.len(), m.ends.as_ptr(), m.ends.len(),
            m.words.as_ptr(), m.words.len(), m.tolerance, map.as_mut_ptr(), map.len(), scratch.as_mut_ptr(), scratch.len())
    };
    told(answer, ())
}

/// What the area test says of ascending nodes.
pub fn area_test(coords: &[f64], nodes: &[u32], tolerance: f64) -> Result<Area, u32> {
    let mut says = 0;
    let answer = unsafe { lenoshale_area_test(coords.as_ptr(), coords.len(), nodes.as_ptr(), nodes.len(), tolerance, &mut says) };
    let areas = [Area::TooFew, Area::Together, Area::NoDirection, Area::Thin, Area::Spans];
    told(answer, areas[says as usize])
}

/// The square root of IEEE 754.
pub fn root(x: f64) -> Result<f64, u32> {
    let mut root = 0.0;
    let answer = unsafe { lenoshale_root(x, &mut root) };
    told(answer, root)
}

/// The text of a report goes to the first bytes of out; gives its length.
pub fn report(findings: &[u8], r: Report, out: &mut [u8]) -> Result<usize, u32> {
    let mut size = 0;
    #[rustfmt::skip]
    let answer = unsafe {
        lenoshale_report(findings.as_ptr(), findings.len(), r.total, r.kept, out.as_mut_ptr(), out.len(), &mut size)
    };
    told(answer, size as usize)
}

/// The program's output from its input goes to the first bytes of out; gives its length.
pub fn run(input: &[u8], out: &mut [u8]) -> Result<usize, u32> {
    let mut size = 0;
    let answer = unsafe { lenoshale_run(input.as_ptr(), input.len(), out.as_mut_ptr(), out.len(), &mut size) };
    told(answer, size as usize)
}
