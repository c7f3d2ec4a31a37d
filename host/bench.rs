//! Measures the port against the original, in one run and on the same inputs: for each model, size and quantity
//! the original's call, the port's plain call, and a query of the port's mixture with all cells fresh, after
//! one entry was set again, and after T was set again. Prints nanoseconds per call, medians of rounds that take
//! turns, and how many times as long as the port the original takes. The exit status is 0 only if both sides gave the same bits.
//!
//! usage: bench [--boundary | --import] [--rounds R] [--row TEXT] [--names] [--only COLUMN] [--times N]
//!
//! `--boundary` prints another table: the port's calls are made in Rattle and one by one through C, in the same rounds, and each
//! has a line with both times and the difference. `--row` takes the rows whose names have the text; `--names` prints their
//! names alone; `--only` runs one column (original, plain, fresh, entry, temperature; through C plain-c and so on) N times
//! and prints nothing, for `host/bench --instructions`. `--import` prints another: the import of a supplier's list beside
//! what Rust's own library reads of it.
//!
//! How buffers are prepared: the original's models are made before the clock starts. The port has no heap: one
//! exported call decodes the values into arrays on the stack, opens, loads and sets T and the fractions, and then makes
//! its calls one after another. That start is timed by itself, as a call with one turn, and taken off each chunk. Through
//! C the benchmark does the same with arrays of its own.

mod bench_boundary;
mod bench_import;
mod bench_inputs;
mod bench_port;

use bench_inputs::{Case, Model};
use bench_port::{Change, Prepared};
use std::hint::black_box;
use std::process::ExitCode;
use std::time::Instant;

/// Who makes a column's calls: the original, one exported call that repeats them, or the benchmark through C.
#[derive(Clone, Copy)]
enum Call {
    Original,
    Rattle(Change),
    C(Change),
}

use Call::{Original, Rattle, C};

/// The port's calls, by the names of their columns and by their titles.
const PORT: [(&str, &str, Change); 4] = [
    ("plain", "plain", Change::Plain),
    ("fresh", "kept, fresh", Change::Nothing),
    ("entry", "entry set", Change::Entry),
    ("temperature", "T set", Change::Temperature),
];

/// About how long a chunk takes.
const CHUNK_NS: f64 = 1.5e6;

/// Places of the stack, 272 bytes apart, so that they go over a page: at about one of them a setting takes longer.
const PLACES: usize = 16;

/// The column of a name.
fn column(name: &str) -> Option<Call> {
    if name == "original" {
        return Some(Original);
    }
    let (name, through): (_, fn(Change) -> Call) = match name.strip_suffix("-c") {
        Some(name) => (name, C),
        None => (name, Rattle),
    };
    let found = PORT.iter().find(|port| port.0 == name);
    found.map(|&(_, _, change)| through(change))
}

/// A row's call, as each side takes it.
struct Row<'a> {
    case: &'a Case,
    model: Model,
    port: Prepared,
}

impl<'a> Row<'a> {
    fn new(case: &'a Case) -> Self {
        let (model, port) = (Model::new(case), Prepared::new(case));
        Self { case, model, port }
    }

    /// The original's calls; the last value.
    fn original(&self, times: usize) -> f64 {
        let Case { t, x, quantity, .. } = self.case;
        let mut last = 0.0;
        for _ in 0..times {
            last = black_box(&self.model).ask(black_box(*t), black_box(x), *quantity);
        }
        last
    }

    /// Runs a column's calls, and answers how many nanoseconds they took and the last value.
    fn run(&self, column: Call, times: usize) -> (f64, f64) {
        match column {
            Original => timed(|| self.original(times)),
            Rattle(change) => {
                let temperatures = self.port.temperatures(times);
                timed(|| self.port.repeat(change, &temperatures))
            }
            C(change) => {
                let temperatures = vec![self.case.t; times];
                // a refusal differs from every row's value
                let value = |all: Result<f64, _>| all.unwrap_or(f64::NAN);
                timed(|| value(bench_boundary::repeat(self.case, change, &temperatures)))
            }
        }
    }

    /// Nanoseconds per call: those of n calls and one, less those of one, over n; and whether both gave the value.
    fn time(&self, column: Call, n: usize, expected: u64) -> (f64, bool) {
        let (one, first) = self.run(column, 1);
        let (all, last) = self.run(column, n + 1);
        let same = bits(first) == expected && bits(last) == expected;
        ((all - one).max(0.0) / n as f64, same)
    }

    /// So many calls that a chunk takes about CHUNK_NS, by the least of three readings.
    fn calls(&self, column: Call) -> usize {
        let guess = if let Original = column { 1 } else { 100 };
        let least = (0..3)
            .map(|_| self.run(column, guess).0)
            .fold(f64::MAX, f64::min);
        let each = (least / guess as f64).max(1.0);
        ((CHUNK_NS / each) as usize).clamp(1, 50_000)
    }

    /// Of each column the nanoseconds per call, by rounds that take turns, and whether every value was the original's. The
    /// rounds go through so many places of the stack.
    #[rustfmt::skip]
    fn rounds<const N: usize>(&self, columns: [Call; N], rounds: usize, places: usize) -> [(Vec<f64>, bool); N] {
        let expected = bits(self.run(Original, 1).1);
        let times = columns.map(|column| self.calls(column));
        let mut all = [const { (Vec::new(), true) }; N];
        for round in 0..rounds {
            for (k, (each, same)) in all.iter_mut().enumerate() {
                let (ns, fine) = deeper(round % places, &|| self.time(columns[k], times[k], expected));
                each.push(ns);
                *same &= fine;
            }
        }
        all
    }

    /// Measures the row; answers whether every value was the original's.
    fn measure(&self, rounds: usize) -> bool {
        let [p, f, e, t] = PORT.map(|port| Rattle(port.2));
        let all = self.rounds([Original, p, f, e, t], rounds, 1);
        let same = all.iter().all(|column| column.1);
        let ns = all.map(|column| median(column.0));
        print!("{:<22} {:>11.1}", self.case.name(), ns[0]);
        for &each in &ns[1..] {
            print!("  {each:>9.1} {:>7.2}", ns[0] / each);
        }
        println!("{}", differs(same));
        same
    }

    /// The same from Rattle and through C, with a line for each of the port's calls.
    #[rustfmt::skip]
    fn measure_boundary(&self, rounds: usize) -> bool {
        let [p, f, e, t] = PORT.map(|port| port.2);
        let columns = [Original, Rattle(p), C(p), Rattle(f), C(f), Rattle(e), C(e), Rattle(t), C(t)];
        let all = self.rounds(columns, rounds, PLACES);
        let original = median(all[0].0.clone());
        for (port, both) in PORT.iter().zip(all[1..].chunks(2)) {
            print!("{:<24} {:<11} {original:>11.1}", self.case.name(), port.1);
            for column in both {
                let each = median(column.0.clone());
                print!("  {each:>9.1} {:>7.2}", original / each);
            }
            let longer = both[1].0.iter().zip(&both[0].0).map(|(c, rattle)| c - rattle);
            println!("  {:>9.1}{}", median(longer.collect()), differs(both[0].1 && both[1].1));
        }
        all.iter().all(|column| column.1)
    }
}

/// What f answers where the stack is so many frames deeper.
#[inline(never)]
fn deeper<T>(frames: usize, f: &dyn Fn() -> T) -> T {
    let room = black_box([0u8; 240]);
    let answer = match frames {
        0 => f(),
        _ => deeper(frames - 1, f),
    };
    black_box(&room);
    answer
}

/// How many nanoseconds the calls took, and their last value.
fn timed(calls: impl FnOnce() -> f64) -> (f64, f64) {
    let start = Instant::now();
    let last = calls();
    (start.elapsed().as_nanos() as f64, last)
}

/// Bits, with one pattern for every NaN.
fn bits(v: f64) -> u64 {
    if v.is_nan() {
        f64::NAN.to_bits()
    } else {
        v.to_bits()
    }
}

fn median(mut all: Vec<f64>) -> f64 {
    all.sort_by(f64::total_cmp);
    all[all.len() / 2]
}

/// The end of a line.
fn differs(same: bool) -> &'static str {
    if same {
        ""
    } else {
        "  DIFFERS"
    }
}

struct Options {
    boundary: bool,
    import: bool,
    rounds: usize,
    row: String,
    names: bool,
    only: Option<Call>,
    times: usize,
}

/// The options; None for a wrong word.
fn options() -> Option<Options> {
    let (boundary, import, rounds) = (false, false, 15);
    let (row, names, only, times) = (String::new(), false, None, 1);
    let mut o = Options {
        boundary,
        import,
        rounds,
        row,
        names,
        only,
        times,
    };
    let mut words = std::env::args().skip(1);
    while let Some(word) = words.next() {
        let mut value = || words.next().unwrap_or_default();
        match word.as_str() {
            "--boundary" => o.boundary = true,
            "--import" => o.import = true,
            "--names" => o.names = true,
            "--rounds" => o.rounds = value().parse().unwrap_or(o.rounds),
            "--row" => o.row = value(),
            "--only" => o.only = column(&value()),
            "--times" => o.times = value().parse().unwrap_or(o.times),
            _ => return None,
        }
    }
    Some(o)
}

/// What stands above the table.
fn print_titles(boundary: bool, rounds: usize) {
    println!(
        "nanoseconds per call (medians of {rounds} rounds), and the original's over the port's"
    );
    println!(
        "buffers: models of the original made before the clock starts; the port's start taken off"
    );
    if boundary {
        println!(
            "longer: what a call takes longer through C, the median of the rounds' differences"
        );
        print!("{:<36} {:>11}", "", "original");
        println!(
            "  {:>17}  {:>17}  {:>9}",
            "from Rattle", "through C", "longer"
        );
        return;
    }
    print!("{:<22} {:>11}", "", "original");
    for (_, title, _) in PORT {
        print!("  {title:>17}");
    }
    println!();
}

/// Says whether all values are what they should be, for a reader and for a script.
fn ended(same: bool, whose: &str) -> ExitCode {
    if same {
        println!("all values are {whose}");
        ExitCode::SUCCESS
    } else {
        println!("SOME VALUES DIFFER");
        ExitCode::FAILURE
    }
}

fn main() -> ExitCode {
    let Some(o) = options() else {
        eprintln!("usage: bench [--boundary | --import] [--rounds R] [--row TEXT] [--names] [--only COLUMN] [--times N]");
        return ExitCode::from(2);
    };
    let cases = bench_inputs::all();
    let chosen = cases.iter().filter(|c| c.name().contains(&o.row));
    if o.names || o.only.is_some() {
        for case in chosen {
            match o.only {
                Some(column) => _ = black_box(Row::new(case).run(column, o.times)),
                None => println!("{}", case.name()),
            }
        }
        return ExitCode::SUCCESS;
    }
    let rounds = o.rounds.max(1);
    if o.import {
        return ended(bench_import::measure(rounds), "those of Rust's reader");
    }
    print_titles(o.boundary, rounds);
    let mut same = true;
    for case in chosen {
        let row = Row::new(case);
        same &= match o.boundary {
            true => row.measure_boundary(rounds),
            false => row.measure(rounds),
        };
    }
    ended(same, "the original's")
}
