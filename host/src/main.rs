//! Compares the exported calls of the Rattle crates with the original, in which document 01's exp and log
//! stand in for libm, the check of fractions with another tolerance than the original's with document 02's words, what a
//! panel shows with exact whole numbers, and the import of a supplier's list with the places of all its faults. Prints a
//! line for each comparison; the exit status is 0 only if nothing differs.
//!
//! usage: compare [--cases N] [--seed S]    N random inputs of exp, log and millionths each, beside the edges (default
//!                                          1000000), N/4 calls of a model, N/10 of UNIFAC, N/150 strips, N fields of
//!                                          sound lists, N/3 other lists
//!        compare --store DIR               write the lists that the program `replay` reads
//!        compare --histories PROGRAM [--calls N] [--seed S]
//!                                          random histories of the mixture's calls, N in all (default 200000), run
//!                                          by the program `histories`
//!        compare --store-history DIR       write a short history, and what `histories` has to write for it

mod book;
mod calls;
mod case;
mod cases;
mod compare;
mod compositions;
mod differences;
mod documented;
mod exports;
mod fields;
mod heads;
mod histories;
mod history;
mod inputs;
mod memory;
mod millionths;
mod models;
mod papers;
mod random;
mod rust;
mod steps;
mod stored;
mod strip;
mod strips;
mod suppliers;
mod texts;
mod tolerance;

use random::Random;
use std::path::Path;
use std::process::ExitCode;

const USAGE: &str = "usage: compare [--cases N] [--seed S] | compare --store DIR
       compare --histories PROGRAM [--calls N] [--seed S] | compare --store-history DIR";

/// What the words of the command line say.
struct Asked {
    cases: usize,
    calls: usize,
    seed: u64,
    /// A word other than these three, and the path after it.
    other: Option<(String, String)>,
}

fn asked() -> Option<Asked> {
    let (cases, calls, seed) = (1_000_000, 200_000, 1);
    let mut asked = Asked {
        cases,
        calls,
        seed,
        other: None,
    };
    let mut words = std::env::args().skip(1);
    while let Some(word) = words.next() {
        let value = words.next()?;
        match word.as_str() {
            "--cases" => asked.cases = value.parse().ok()?,
            "--calls" => asked.calls = value.parse().ok()?,
            "--seed" => asked.seed = value.parse().ok()?,
            "--store" | "--histories" | "--store-history" => asked.other = Some((word, value)),
            _ => return None,
        }
    }
    Some(asked)
}

fn compare_all(cases: usize, seed: u64) -> bool {
    let random = &mut Random::new(seed);
    let mut same = true;
    same &= compare::compare("exp", &inputs::exp(random, cases), libm::exp, exports::exp);
    same &= compare::compare("log", &inputs::log(random, cases), libm::log, exports::log);
    same &= models::compare_all(cases, random);
    same &= millionths::compare(cases, &mut Random::new(seed));
    same &= suppliers::compare(cases, &mut Random::new(seed));
    same &= differences::compare_all();
    same &= strips::compare_all(cases / 150, seed);
    same
}

/// Does what is asked, and answers whether all agree.
fn run(asked: &Asked) -> std::io::Result<bool> {
    let Some((word, path)) = &asked.other else {
        return Ok(compare_all(asked.cases, asked.seed));
    };
    let path = Path::new(path);
    match word.as_str() {
        "--store" => stored::write_all(path).map(|()| true),
        "--store-history" => histories::write_stored(path).map(|()| true),
        _ => histories::compare_all(path, asked.calls, asked.seed),
    }
}

fn main() -> ExitCode {
    let Some(asked) = asked() else {
        eprintln!("{USAGE}");
        return ExitCode::from(2);
    };
    match run(&asked) {
        Ok(true) => ExitCode::SUCCESS,
        Ok(false) => ExitCode::FAILURE,
        Err(error) => {
            let path = asked.other.map_or(String::new(), |(_, path)| path);
            eprintln!("compare: {path}: {error}");
            ExitCode::FAILURE
        }
    }
}
