//! The comparison of the check of a composition, called alone and as a plain call makes it.

use crate::case::{Answer, Case, Quantity, WILSON};
use crate::cases::{Draw, Sizes};
use crate::compare::SHOWN;
use crate::exports;
use crate::inputs::{around, special};
use crate::models::rattle;
use crate::random::Random;
use crate::tolerance::{by_source, check_fault, is_off, is_usual, naive, off, USUAL, WIDEST};

/// A call of Wilson in which nothing but the tolerance and the composition is at fault, or its length.
fn call_with(tolerance: f64, x: &[f64]) -> Case {
    let n = x.len().clamp(1, 12);
    let mut values = vec![0.0; n * n];
    values.extend(vec![1.0; n]);
    Case {
        model: WILSON,
        n,
        ng: 0,
        lens: Vec::new(),
        groups: Vec::new(),
        values: values.into(),
        t: 300.0,
        tolerance,
        x: x.to_vec().into(),
        quantity: Quantity::ExcessGibbs,
    }
}

/// A tolerance and fractions, at the original's tolerance or at any.
fn draw_check(draw: &mut Draw) -> (f64, Vec<f64>) {
    let x = draw.composition();
    if draw.one_in(2) {
        return (USUAL, x);
    }
    let tolerance = draw.tolerance();
    match x.is_empty() || draw.one_in(2) {
        true => (tolerance, x),
        false => (tolerance, draw.off(x, tolerance)),
    }
}

/// The checks for the stored list: every special number as a tolerance and as a fraction, the edges of a tolerance and
/// some that a sum meets exactly, and random ones.
pub fn stored(random: &mut Random, count: usize) -> Vec<(f64, Vec<f64>)> {
    let mut draw = Draw::new(random, Sizes::UpTo(12));
    let edges = [USUAL, WIDEST, 0.5f64.powi(10), 0.5f64.powi(20)];
    let edges = edges.into_iter().flat_map(|v| around(v, 1));
    let mut checks = Vec::new();
    for tolerance in special().into_iter().chain(edges) {
        let x = vec![0.25, 0.75];
        checks.push((tolerance, draw.off(x.clone(), tolerance)));
        checks.push((tolerance, x));
    }
    checks.extend(special().into_iter().map(|v| (USUAL, vec![v])));
    while checks.len() < count {
        checks.push(draw_check(&mut draw));
    }
    checks
}

/// What has to come up: the numbers, and what shows that the tolerance is read, and how.
const CLASSES: [&str; 10] = [
    "pass",
    "refused 5",
    "refused 6",
    "refused 14",
    "refused 14 that are 5 or 6 too",
    "pass that the Rust refuses",
    "pass off by 2e-6 to 1e-3",
    "refused 6 off by as much",
    "refused 6 that the Rust accepts",
    "pass that are off by just the tolerance",
];

/// Which of `CLASSES` a check is.
fn classes(tolerance: f64, x: &[f64], number: u32) -> [bool; 10] {
    [
        number == 0,
        number == 5,
        number == 6,
        number == 14,
        number == 14 && naive(WIDEST, x) != 0,
        number == 0 && by_source(x) != 0,
        number == 0 && is_off(x),
        number == 6 && is_off(x),
        number == 6 && by_source(x) == 0,
        number == 0 && tolerance > 0.0 && off(x) == tolerance,
    ]
}

/// The 14, 5 or 6 of a plain call.
fn called(tolerance: f64, x: &[f64]) -> u32 {
    match rattle(&call_with(tolerance, x), 0).0 {
        Answer::Refused(number @ (14 | 5 | 6)) => number,
        _ => 0,
    }
}

/// Compares the check alone, the numbers of a call, and at the original's tolerance the host's own lines with it.
pub fn compare(cases: usize, random: &mut Random) -> bool {
    let mut draw = Draw::new(random, Sizes::UpTo(12));
    let (mut differ, mut counts) = (0, [0; 10]);
    for _ in 0..cases {
        let (tolerance, x) = draw_check(&mut draw);
        let expected = check_fault(tolerance, &x);
        let classes = classes(tolerance, &x, expected);
        (0..10).for_each(|class| counts[class] += usize::from(classes[class]));
        let alone = exports::check_composition(tolerance, &x);
        let called = called(tolerance, &x);
        let lines = if is_usual(tolerance) {
            naive(USUAL, &x)
        } else {
            expected
        };
        if [alone, called, lines] != [expected; 3] {
            differ += 1;
            if differ <= SHOWN {
                println!("composition: tolerance {tolerance:e}, {x:?}\n  expected: {expected}");
                println!("  alone: {alone}\n  in a call: {called}\n  by the host's lines: {lines}");
            }
        }
    }
    let shown = CLASSES.iter().zip(counts);
    let shown: Vec<String> = shown
        .map(|(class, count)| format!("{count} {class}"))
        .collect();
    println!(
        "composition: {cases} cases, {differ} differ; {}",
        shown.join(", ")
    );
    let never = counts.contains(&0);
    if never {
        println!("composition: one of these never came up");
    }
    differ == 0 && !never
}
