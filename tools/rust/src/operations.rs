//! Calls each operation through the wrapper, on document 01's example (examples/two_cells.in) and its lines to try, and compares what it
//! answers and what it leaves in lent memory: accepted, and refused. Ends at the first that differs.
//!
//!   operations FILE

mod lenoshale;

use lenoshale::{Area, Found, Lent, Needs, RECORD, RUN_FINDINGS, RUN_INPUT, RUN_OUTPUT, RUN_WORK, Report, Ring};
use lenoshale::{FILE_RECORD, FILE_RECORD_WORDS, FILE_RECORDS};

const EXAMPLE: &str = "3 0 1 3 5 3\ntotal 1 kept 1\n";

/// The lists of the example.
struct Lists {
    coords: Vec<f64>,
    kinds: Vec<u8>,
    ends: Vec<u32>,
    words: Vec<u32>,
}

fn model(l: &Lists, f: Found) -> Lent<'_> {
    Lent { coords: &l.coords, kinds: &l.kinds, ends: &l.ends, words: &l.words, tolerance: f.tolerance, flags: f.flags }
}

fn read(bytes: &[u8]) -> (Lists, Found) {
    let mut l = Lists { coords: vec![7.0; 27], kinds: vec![7; 2], ends: vec![7; 2], words: vec![7; 12] };
    assert_eq!(bytes.len(), 12 * FILE_RECORD);
    assert!(12 <= FILE_RECORDS && 8 <= FILE_RECORD_WORDS);
    let short = lenoshale::read(bytes, &mut l.coords, &mut l.kinds, &mut l.ends, &mut l.words[..11]);
    assert_eq!((short, l.words[0], l.kinds[0]), (Err(4), 7, 7));
    let f = lenoshale::read(bytes, &mut l.coords, &mut l.kinds, &mut l.ends, &mut l.words).unwrap();
    assert_eq!(f, Found { nodes: 9, cells: 2, words: 12, tolerance: 0.001, flags: 3, cap: 9 });
    assert_eq!((&l.kinds[..], &l.ends[..]), (&[1, 2][..], &[4, 12][..]));
    assert_eq!(l.words, [4, 5, 6, 8, 0, 1, 2, 3, 4, 5, 6, 7]);
    assert_eq!(l.coords[15..], [1.0, 0.0, 1.0, 1.0, 1.0, 1.0, 0.0, 1.0, 1.0, 0.0, 0.0, 2.0]);
    (l, f)
}

fn write(m: Lent, cap: u16, bytes: &[u8]) {
    let mut out = vec![7; bytes.len() + 1];
    assert_eq!(lenoshale::write(m, cap, &mut out[..bytes.len() - 1]), Err(4));
    assert_eq!(out[0], 7);
    assert_eq!(lenoshale::write(m, cap, &mut out), Ok(bytes.len()));
    assert_eq!((&out[..bytes.len()], out[bytes.len()]), (bytes, 7));
}

fn check(m: Lent, cap: u16, needs: Needs) {
    let (mut findings, mut work) = (vec![7; 2 * RECORD], vec![7; needs.work + 1]);
    assert_eq!(lenoshale::check(m, cap, &mut findings, &mut work[1..needs.work]), Err(11));
    assert_eq!((findings[0], work[1]), (7, 7));
    let r = lenoshale::check(m, cap, &mut findings, &mut work).unwrap();
    assert_eq!(r, Report { total: 1, kept: 1 });
    assert_eq!((findings[0], findings[20], findings[RECORD]), (3, 3, 7));
    assert_eq!((work[0], work[needs.work - 1], work[needs.work]), (0, 0, 7));
    let mut text = vec![7; lenoshale::text_room(1)];
    assert_eq!(lenoshale::report(&findings[..RECORD - 1], r, &mut text), Err(4));
    assert_eq!(lenoshale::report(&findings, r, &mut text[1..]), Err(4));
    assert_eq!(lenoshale::report(&findings, Report { total: 1, kept: u64::MAX }, &mut text), Err(4));
    assert_eq!(lenoshale::report(&findings, r, &mut text), Ok(EXAMPLE.len()));
    assert_eq!((&text[..EXAMPLE.len()], text[EXAMPLE.len()]), (EXAMPLE.as_bytes(), 7));
    assert!(1 <= RUN_FINDINGS && needs.work <= RUN_WORK);
}

fn rings(m: Lent, needs: Needs) {
    let (mut raw, mut welded, mut work) = (vec![7; 37], vec![7; 37], vec![7; needs.work]);
    assert_eq!(lenoshale::fill_ring_lists(m, &mut raw, &mut welded[..35], &mut work), Err(4));
    assert_eq!((raw[0], work[0]), (7, 7));
    assert_eq!(lenoshale::fill_ring_lists(m, &mut raw, &mut welded, &mut work), Ok(36));
    assert_eq!((raw[36], welded[36], work[0]), (7, 7, 0));
    let (raw, welded) = (&raw[..36], &welded[..36]);
    let ring = Ring { raw: &[4, 5, 6, 7], welded: &[4, 5, 6, 7] };
    assert_eq!(lenoshale::ring_lookup(m, raw, welded, 5), Ok(ring));
    assert_eq!(lenoshale::ring_lookup(m, raw, welded, 10), Err(12));
    assert_eq!(lenoshale::ring_lookup(m, raw, &welded[1..], 5), Err(4));
    let mut owners = [7; 2];
    assert_eq!((lenoshale::face_owners(m, 5, &mut owners), owners), (Ok(1), [1, 7]));
    assert_eq!((lenoshale::face_owners(m, 5, &mut []), owners), (Ok(1), [1, 7]));
    assert_eq!((lenoshale::face_owners(m, 10, &mut owners), owners), (Err(12), [1, 7]));
}

/// Nodes in a line that one cell names; a loose node that would lead two of a tetrahedron's, which are farther apart than the tolerance.
fn welding() {
    let line = [0.0, 0.0, 0.0, 0.75, 0.0, 0.0, 1.5, 0.0, 0.0];
    let m = Lent { coords: &line, kinds: &[4], ends: &[3], words: &[0, 1, 2], tolerance: 1.0, flags: 255 };
    let (mut map, mut scratch) = ([7; 4], [7; 10]);
    assert_eq!(lenoshale::weld(m, &mut map, &mut scratch[..8]), Err(4));
    assert_eq!(lenoshale::weld(m, &mut map[..2], &mut scratch), Err(4));
    assert_eq!(lenoshale::weld(Lent { kinds: &[], ends: &[], words: &[], ..m }, &mut map[..2], &mut scratch), Err(8));
    assert_eq!(lenoshale::weld(Lent { kinds: &[5], ..m }, &mut map[..2], &mut scratch), Err(9));
    assert_eq!(lenoshale::weld(Lent { words: &[0, 1, 3], ..m }, &mut map[..2], &mut scratch), Err(9));
    assert_eq!((map, scratch), ([7; 4], [7; 10]));
    assert_eq!((lenoshale::weld(m, &mut map, &mut scratch), map), (Ok(()), [0, 0, 2, 7]));
    assert_eq!(scratch, [0, 0, 0, 0, 0, 0, 0, 0, 0, 7]);
    let leads = [0.0, 0.0, 0.0, 0.5, 0.75, 0.0, 0.5, -0.75, 0.0, 0.0, 9.0, 0.0, 9.0, 9.0, 0.0];
    let loose = Lent { coords: &leads, kinds: &[1], ends: &[4], words: &[1, 2, 3, 4], ..m };
    let (mut map, mut scratch) = ([7; 5], [7; 15]);
    assert_eq!((lenoshale::weld(loose, &mut map, &mut scratch), map), (Ok(()), [0, 1, 2, 3, 4]));
    let dropped = Lent { kinds: &[4], ends: &[6], words: &[0, u32::MAX, 1, 2, 3, 4], ..loose };
    assert_eq!((lenoshale::weld(dropped, &mut map, &mut scratch), map), (Ok(()), [0, 0, 0, 3, 4]));
    assert_eq!(scratch, [0; 15]);
}

fn nodes() {
    let corner = [0.0, 0.0, 0.0, 1.0, 0.0, 0.0, 0.0, 0.5, 0.0];
    assert_eq!(lenoshale::area_test(&corner, &[0, 1, 2], 0.5), Ok(Area::Thin));
    assert_eq!(lenoshale::area_test(&corner, &[0, 1, 2], 0.25), Ok(Area::Spans));
    assert_eq!(lenoshale::area_test(&corner, &[0, 1, 2], 2.0), Ok(Area::Together));
    assert_eq!(lenoshale::area_test(&corner, &[0, 1], 0.5), Ok(Area::TooFew));
    assert_eq!(lenoshale::area_test(&corner, &[0, 2, 1], 0.5), Err(12));
    assert_eq!(lenoshale::root(4.0), Ok(2.0));
    assert_eq!(lenoshale::root(2.0).map(f64::to_bits), Ok(0x3FF6_A09E_667F_3BCD));
    assert_eq!(lenoshale::root(-0.0).map(f64::to_bits), Ok((-0.0_f64).to_bits()));
    assert_eq!((lenoshale::root(-1.0), lenoshale::root(f64::NAN)), (Err(13), Err(13)));
}

fn run(bytes: &[u8]) {
    let mut out = vec![7; RUN_OUTPUT];
    assert_eq!((lenoshale::run(bytes, &mut out[1..]), out[1]), (Err(4), 7));
    assert_eq!(lenoshale::run(bytes, &mut out), Ok(EXAMPLE.len()));
    assert_eq!((&out[..EXAMPLE.len()], out[EXAMPLE.len()]), (EXAMPLE.as_bytes(), 7));
    let size = lenoshale::run(&vec![0; RUN_INPUT + 1], &mut out).unwrap();
    assert_eq!(&out[..size], b"refused 1\n");
}

fn main() -> std::io::Result<()> {
    let bytes = std::fs::read(std::env::args().nth(1).expect("usage: operations FILE"))?;
    assert_eq!(lenoshale::version(), lenoshale::VERSION);
    let (lists, found) = read(&bytes);
    let m = model(&lists, found);
    assert_eq!(lenoshale::work_needed(Lent { flags: 4, ..m }), Err(10));
    let needs = lenoshale::work_needed(m).unwrap();
    assert_eq!(needs, Needs { work: 444, ring_words: 36, faces: 10 });
    write(m, found.cap, &bytes);
    check(m, found.cap, needs);
    rings(m, needs);
    welding();
    nodes();
    run(&bytes);
    println!("12 operations and the version answer as they must");
    Ok(())
}
