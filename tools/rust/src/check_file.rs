//! Checks a model file and prints its report as the program does; examples/check_file.c is the same in C.
//!
//!   check_file FILE                a file of any size, with all the memory that its model needs and its cap asks for
//!   check_file --as-program FILE   the same operations, with no more memory than the program has
//!   check_file --run FILE          the program's whole run

#[allow(dead_code)]
mod lenoshale;

use lenoshale::{FILE_RECORD, FILE_RECORD_WORDS, FILE_RECORDS, Lent, RECORD, RUN_FINDINGS, RUN_INPUT, RUN_OUTPUT, RUN_WORK};
use std::io::Write;

/// The report of a model, with room for so many findings and words of work.
fn check_model(m: Lent, cap: u16, records: usize, work: usize) -> Result<Vec<u8>, u32> {
    let mut findings = vec![0; RECORD * records];
    let mut work = vec![0; work];
    let r = lenoshale::check(m, cap, &mut findings, &mut work)?;
    let mut text = vec![0; lenoshale::text_room(r.kept as usize)];
    let size = lenoshale::report(&findings, r, &mut text)?;
    text.truncate(size);
    Ok(text)
}

/// The report of a file, with what its model needs or, as the program, with what the program has.
fn check_bytes(bytes: &[u8], as_program: bool) -> Result<Vec<u8>, u32> {
    if as_program && bytes.len() > RUN_INPUT {
        return Err(1);
    }
    let n = (bytes.len() / FILE_RECORD).min(FILE_RECORDS);
    let (mut coords, mut kinds) = (vec![0.0; 3 * n], vec![0; n]);
    let (mut ends, mut words) = (vec![0; n], vec![0; FILE_RECORD_WORDS * n]);
    let f = lenoshale::read(bytes, &mut coords, &mut kinds, &mut ends, &mut words)?;
    let m = Lent {
        coords: &coords[..3 * f.nodes],
        kinds: &kinds[..f.cells],
        ends: &ends[..f.cells],
        words: &words[..f.words],
        tolerance: f.tolerance,
        flags: f.flags,
    };
    if as_program {
        return check_model(m, f.cap, RUN_FINDINGS, RUN_WORK);
    }
    let needs = lenoshale::work_needed(m)?;
    check_model(m, f.cap, f.cap.into(), needs.work)
}

/// The program's whole run.
fn run_bytes(bytes: &[u8]) -> Result<Vec<u8>, u32> {
    let mut out = vec![0; RUN_OUTPUT];
    let size = lenoshale::run(bytes, &mut out)?;
    out.truncate(size);
    Ok(out)
}

fn main() -> std::io::Result<()> {
    let args: Vec<String> = std::env::args().skip(1).collect();
    let (option, name) = match &args[..] {
        [name] => ("", name),
        [option, name] if option == "--as-program" || option == "--run" => (option.as_str(), name),
        _ => {
            eprintln!("usage: check_file [--as-program | --run] FILE");
            std::process::exit(2);
        }
    };
    let bytes = std::fs::read(name)?;
    let answer = if option == "--run" { run_bytes(&bytes) } else { check_bytes(&bytes, option == "--as-program") };
    let text = answer.unwrap_or_else(|n| format!("refused {n}\n").into_bytes());
    std::io::stdout().write_all(&text)
}
