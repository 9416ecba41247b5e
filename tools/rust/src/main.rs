//! Our check and the Rust reference in one program: compared, timed, and answers recorded.

mod compare;
mod families;
mod finding;
mod fx;
mod generate;
mod handed;
#[allow(dead_code)]
mod lenoshale;
mod loose;
mod mesh;
mod model;
mod nd;
mod numbers;
mod others;
mod ours;
/// Laid out by hand: the points of a ring stand in a line.
#[rustfmt::skip]
mod pins;
mod record;
#[allow(dead_code)]
mod reference;
mod rng;
mod speed;
mod thresholds;
mod way;

use std::process::exit;

const USAGE: &str = "\
compare compare [--seed S] [--count N]   findings of both on N generated models (30,000) and large ones
compare speed [--runs N] [--only MODEL]  times of both on the same models, best of N runs (9); files alone: --only files
compare record REPLAY NUMBERS [--seed S] small models with the reference's answers, and its answers to recorded sets and tests
";

fn fail(message: &str) -> ! {
    eprint!("{message}\n{USAGE}");
    exit(2)
}

/// The number behind an option, or the usual one.
fn option(args: &[String], name: &str, usual: u64) -> u64 {
    let Some(at) = args.iter().position(|a| a == name) else {
        return usual;
    };
    args.get(at + 1)
        .and_then(|n| n.parse().ok())
        .unwrap_or_else(|| fail(&format!("{name} needs a number")))
}

/// The word behind an option, if it is there.
fn word<'a>(args: &'a [String], name: &str) -> Option<&'a str> {
    let at = args.iter().position(|a| a == name)?;
    args.get(at + 1).map(String::as_str)
}

fn main() {
    let args: Vec<String> = std::env::args().skip(1).collect();
    let seed = option(&args, "--seed", 2026);
    let good = match args.first().map(String::as_str) {
        Some("compare") => compare::run(seed, option(&args, "--count", 30_000) as usize),
        Some("speed") => {
            let runs = option(&args, "--runs", 9) as usize;
            speed::run(runs, word(&args, "--only"))
        }
        Some("record") => match args.get(1..3) {
            Some([replay, lists]) => {
                record::run(replay, seed);
                numbers::run(lists)
            }
            _ => fail("a folder is missing"),
        },
        _ => fail("what is to be done?"),
    };
    exit(if good { 0 } else { 1 })
}
