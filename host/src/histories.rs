//! Random histories of calls, run by the program `histories` and held line by line against the book and the model
//! of the memory: every answer, and a digest of the whole memory and the head after every step.

use crate::calls::{Call, Name, Step, CALLS};
use crate::case::NAMES;
use crate::history::{Expected, History, Reference, Turn};
use crate::tolerance::{by_source, is_off, naive, tolerance_fault, WIDEST};
use std::io::{self, Write};
use std::path::Path;
use std::process::{Command, Stdio};

/// How many steps a history has.
const STEPS: usize = 400;

/// What comes up of tolerances.
const TOLERANCES: [&str; 9] = [
    "fractions accepted that are off by 2e-6 to 1e-3",
    "values on these",
    "values on these after the tolerance was narrowed",
    "fractions refused 6 that are off by as much",
    "fractions refused 6 that the Rust accepts",
    "fractions off by more than 1e-3 accepted by a tolerance that no call sets",
    "fractions refused 6 by one that the Rust accepts",
    "tolerances refused 1 that are 14 too",
    "tolerances refused 8 that are 14 too",
];

/// What came up: answers by call and number (0 where it was accepted), values by model, kinds of values, and
/// `TOLERANCES` by place.
#[derive(Default)]
struct Tally {
    calls: usize,
    answers: [[usize; 15]; 5],
    values: [usize; 4],
    worked: usize,
    infinite: usize,
    nan: usize,
    put_in_place: usize,
    on_other_heads: usize,
    unknown: usize,
    tolerances: [usize; 9],
}

impl Tally {
    /// Adds a call that answers with the number, 0 where it was accepted, to `tolerances`.
    fn add_tolerance(&mut self, turn: &Turn, call: &Call, number: u32) {
        let (accepted, off) = (number == 0, number == 6);
        let unset = tolerance_fault(turn.tolerance) != 0;
        let classes = match call {
            Call::Fractions(x) => vec![
                (0, accepted && turn.by_book && is_off(x)),
                (3, off && turn.by_book && is_off(x)),
                (4, off && turn.by_book && by_source(x) == 0),
                (5, accepted && unset && naive(WIDEST, x) != 0),
                (6, off && unset && by_source(x) == 0),
            ],
            Call::Query(_) => vec![
                (1, accepted && turn.has_off.0),
                (2, accepted && turn.has_off.1),
            ],
            Call::Set(Name::Tolerance, v) if tolerance_fault(v[0]) != 0 => {
                vec![(7, number == 1), (8, number == 8)]
            }
            _ => Vec::new(),
        };
        for (class, is) in classes {
            self.tolerances[class] += usize::from(is);
        }
    }

    fn add_value(&mut self, turn: &Turn, value: Option<u64>, count: usize) {
        self.values[turn.model - 1] += 1;
        self.worked += count;
        self.on_other_heads += usize::from(!turn.by_book);
        match value.map(f64::from_bits) {
            None => self.unknown += 1,
            Some(v) if v.is_nan() => self.nan += 1,
            Some(v) if v.is_infinite() => self.infinite += 1,
            Some(_) => (),
        }
    }

    fn add(&mut self, turn: &Turn) {
        let Step::Call(_, call) = &turn.step else {
            self.put_in_place += 1;
            return;
        };
        self.calls += 1;
        let number = match turn.expected {
            Expected::Refused(number) => number,
            Expected::Done => 0,
            Expected::Value(value, count) => {
                self.add_value(turn, value, count);
                0
            }
        };
        self.answers[call.kind()][number as usize] += 1;
        self.add_tolerance(turn, call, number);
    }

    /// The calls and numbers of document 01, "What each call declines", and of document 02 that never came up.
    fn missing(&self) -> Vec<String> {
        let declined: [&[usize]; 5] = [
            &[0, 1],
            &[0, 1, 2, 3, 4],
            &[0, 1, 8, 10, 14, 4],
            &[0, 1, 8, 5, 6, 7],
            &[0, 1, 8, 9, 7],
        ];
        let mut missing = Vec::new();
        for ((name, numbers), answers) in CALLS.iter().zip(declined).zip(&self.answers) {
            let absent = numbers.iter().filter(|number| answers[**number] == 0);
            missing.extend(absent.map(|number| format!("{name} {number}")));
        }
        let absent = TOLERANCES.iter().zip(self.tolerances);
        missing.extend(
            absent
                .filter(|class| class.1 == 0)
                .map(|class| class.0.to_string()),
        );
        missing
    }

    fn print(&self) {
        for (name, answers) in CALLS.iter().zip(&self.answers) {
            let refused = answers
                .iter()
                .enumerate()
                .skip(1)
                .filter(|(_, count)| **count > 0);
            let refused: Vec<String> = refused
                .map(|(number, count)| format!(", {count} refused {number}"))
                .collect();
            println!("  {name}: {} accepted{}", answers[0], refused.concat());
        }
        let values: Vec<String> = NAMES
            .iter()
            .zip(self.values)
            .map(|(name, count)| format!("{count} {name}"))
            .collect();
        let Self {
            worked,
            infinite,
            nan,
            ..
        } = self;
        println!(
            "  values: {} ({infinite} infinite, {nan} NaN), {worked} cells worked",
            values.join(", ")
        );
        let Self {
            put_in_place,
            on_other_heads,
            unknown,
            ..
        } = self;
        println!(
            "  {put_in_place} memories and heads put in place, {on_other_heads} values on them"
        );
        println!(
            "  of these, {unknown} that no call of the original gives: held by count and memory"
        );
        for (class, count) in TOLERANCES.iter().zip(self.tolerances) {
            println!("  {count} {class}");
        }
    }
}

/// What the program writes for a script.
fn run(program: &Path, script: &[u8]) -> io::Result<String> {
    let mut child = Command::new(program)
        .stdin(Stdio::piped())
        .stdout(Stdio::piped())
        .spawn()?;
    let mut input = child.stdin.take().unwrap();
    // A program that ends before it has read all of it leaves lines out: the write's own error says no more.
    let output = std::thread::scope(|scope| {
        scope.spawn(move || input.write_all(script).ok());
        child.wait_with_output()
    })?;
    if !output.status.success() {
        return Err(io::Error::other(format!("ended with {}", output.status)));
    }
    String::from_utf8(output.stdout).map_err(io::Error::other)
}

/// How many lines differ from what is expected. The first that does is printed where `print` says so.
fn differing(history: &History, text: &str, print: bool) -> usize {
    let mut lines = text.lines();
    let mut differ = 0;
    for (place, turn) in history.turns.iter().enumerate() {
        let line = lines.next().unwrap_or("");
        if !turn.expected.agrees(turn.digest, line) {
            differ += 1;
            if print && differ == 1 {
                let Turn {
                    step,
                    expected,
                    digest,
                    ..
                } = turn;
                println!("step {place}: {step}");
                if let Some(before) = place.checked_sub(1) {
                    println!("  after {}", history.turns[before].step);
                }
                println!("  expected: {}\n  got:      {line}", expected.line(*digest));
                println!("  (the answer, and the digest of memory and head)");
            }
        }
    }
    differ + lines.count()
}

/// Compares random histories of at least so many calls, prints what came of it, and answers whether all agree.
pub fn compare_all(program: &Path, calls: usize, seed: u64) -> io::Result<bool> {
    let mut tally = Tally::default();
    let (mut histories, mut differ) = (0, 0);
    while tally.calls < calls {
        let own = seed.wrapping_mul(1_000_000).wrapping_add(histories);
        let history = History::draw(own, STEPS, |_, _| true);
        history.turns.iter().for_each(|turn| tally.add(turn));
        let text = run(program, &history.script())?;
        let more = differing(&history, &text, differ == 0);
        if more > 0 && differ == 0 {
            println!("that is history {histories} of seed {seed}");
        }
        differ += more;
        histories += 1;
    }
    println!(
        "histories: {} calls in {histories} histories, {differ} differ",
        tally.calls
    );
    tally.print();
    let missing = tally.missing();
    if !missing.is_empty() {
        println!("histories: these never came up: {}", missing.join(", "));
    }
    Ok(differ == 0 && missing.is_empty())
}

/// Whether every number of the mixture's calls comes up, and a value on fractions that the tolerance, narrowed,
/// refuses.
fn has_all(history: &History) -> bool {
    let refused = |number| {
        let is = |turn: &Turn| matches!(turn.expected, Expected::Refused(k) if k == number);
        history.turns.iter().any(is)
    };
    let narrowed = |turn: &Turn| matches!(turn.expected, Expected::Value(..)) && turn.has_off.1;
    (1..=10).chain([14]).all(refused) && history.turns.iter().any(narrowed)
}

/// Writes a short history as the script `stdin`, and as `stdout` what the program has to write for it.
pub fn write_stored(folder: &Path) -> io::Result<()> {
    std::fs::create_dir_all(folder)?;
    let mut histories = (1..).map(|seed| History::draw(seed, 300, Reference::can_store));
    let history = histories.find(has_all).unwrap();
    let line = |turn: &Turn| turn.expected.line(turn.digest) + "\n";
    let lines: String = history.turns.iter().map(line).collect();
    std::fs::write(folder.join("stdin"), history.script())?;
    std::fs::write(folder.join("stdout"), lines)
}
