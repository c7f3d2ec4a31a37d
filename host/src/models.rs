//! The comparison of the models' plain calls.

use crate::case::{Answer, Case, NAMES, UNIFAC};
use crate::cases::{Draw, Sizes};
use crate::compare::{bits, SHOWN};
use crate::compositions;
use crate::exports;
use crate::random::Random;
use crate::rust;
use crate::tolerance::{by_source, is_off, is_usual, naive, tolerance_fault, WIDEST};
use std::fmt;

/// What comes up with other tolerances than the original's; the last with UNIFAC alone.
const CLASSES: [&str; 8] = [
    "values",
    "values of fractions that the Rust refuses, held by the number",
    "of these off by 2e-6 to 1e-3",
    "refused 6 off by as much",
    "refused 6 that the Rust accepts",
    "refused 14 that are 5, 6 or 7 too",
    "refused 2 that are 14 too",
    "refused 3 or 4 that are 14 too",
];

/// How many of the expected answers were of each kind.
#[derive(Default)]
struct Tally {
    finite: usize,
    infinite: usize,
    nan: usize,
    refused: [usize; 15],
    /// By place in `CLASSES`.
    others: [usize; 8],
}

/// Which of `CLASSES` a case with another tolerance is.
fn classes(case: &Case, expected: Option<Answer>) -> [bool; 8] {
    let (x, bad) = (&case.x.all, tolerance_fault(case.tolerance) != 0);
    let is = |number| expected == Some(Answer::Refused(number));
    [
        matches!(expected, Some(Answer::Value(_))),
        expected.is_none(),
        expected.is_none() && is_off(x),
        is(6) && is_off(x),
        is(6) && by_source(x) == 0,
        is(14) && (naive(WIDEST, x) != 0 || x.len() != case.n),
        is(2) && bad,
        (is(3) || is(4)) && bad,
    ]
}

impl Tally {
    fn add(&mut self, case: &Case, expected: Option<Answer>) {
        if !is_usual(case.tolerance) {
            let classes = classes(case, expected);
            (0..8).for_each(|class| self.others[class] += usize::from(classes[class]));
        }
        match expected {
            None => (),
            Some(Answer::Refused(number)) => self.refused[number as usize] += 1,
            Some(Answer::Value(bits)) => {
                let v = f64::from_bits(bits);
                if v.is_nan() {
                    self.nan += 1
                } else if v.is_infinite() {
                    self.infinite += 1
                } else {
                    self.finite += 1
                }
            }
        }
    }

    /// Prints what came up with other tolerances, and answers whether a class never did.
    fn print_others(&self, model: u32) -> bool {
        let classes = if model == UNIFAC { 8 } else { 7 };
        let others = CLASSES.iter().zip(self.others).take(classes);
        let counts: Vec<String> = others
            .map(|(class, count)| format!("{count} {class}"))
            .collect();
        println!("  with other tolerances: {}", counts.join("; "));
        let never = self.others[..classes].contains(&0);
        if never {
            println!("  one of these never came up");
        }
        never
    }
}

impl fmt::Display for Tally {
    fn fmt(&self, f: &mut fmt::Formatter) -> fmt::Result {
        let values = self.finite + self.infinite + self.nan;
        let Self { infinite, nan, .. } = self;
        write!(f, "{values} values ({infinite} infinite, {nan} NaN)")?;
        for (number, count) in self.refused.iter().enumerate() {
            if *count > 0 {
                write!(f, ", {count} refused {number}")?;
            }
        }
        Ok(())
    }
}

/// What the Rattle call answers, and whether a refused one left the result as it was, bit for bit.
pub fn rattle(case: &Case, before: u64) -> (Answer, bool) {
    let mut value = f64::from_bits(before);
    match exports::plain(case, &mut value) {
        0 => (Answer::Value(bits(value)), true),
        number => (Answer::Refused(number), value.to_bits() == before),
    }
}

/// Compares `cases` random calls of a model, prints what came of it with the smallest that differ, and answers
/// whether all agree.
fn compare_model(model: u32, cases: usize, random: &mut Random) -> bool {
    let name = NAMES[model as usize - 1];
    let sizes = match model {
        UNIFAC => Sizes::Small,
        _ => Sizes::UpTo(12),
    };
    let mut draw = Draw::new(random, sizes);
    let mut tally = Tally::default();
    let (mut differ, mut smallest) = (0, Vec::new());
    for _ in 0..cases {
        let mut case = draw.case(model);
        if draw.one_in(4) {
            draw.change_tolerance(&mut case);
        }
        let expected = rust::answer_at(&case);
        tally.add(&case, expected);
        let (got, kept) = rattle(&case, draw.bits());
        let agrees = match expected {
            Some(answer) => got == answer,
            None => matches!(got, Answer::Value(_)),
        };
        if !agrees || !kept {
            differ += 1;
            let expected = expected.map_or("any value".to_string(), |answer| answer.to_string());
            let left = if kept { "" } else { " and another result" };
            let text = format!("{case}\n  Rust: {expected}\n  Rattle: {got}{left}");
            smallest.push((case.values.all.len(), text));
            smallest.sort();
            smallest.truncate(SHOWN);
        }
    }
    for (_, text) in smallest {
        println!("{name}: {text}");
    }
    println!("{name}: {cases} cases, {differ} differ; {tally}");
    let never = tally.print_others(model);
    differ == 0 && !never
}

/// Compares N/4 random compositions, N/4 calls of each model, and N/10 of UNIFAC, which takes the original
/// milliseconds at its largest size.
pub fn compare_all(n: usize, random: &mut Random) -> bool {
    let mut same = compositions::compare(n / 4, random);
    for model in 1..=4 {
        let cases = if model == UNIFAC { n / 10 } else { n / 4 };
        same &= compare_model(model, cases, random);
    }
    same
}
