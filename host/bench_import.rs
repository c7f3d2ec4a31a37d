//! The import of a supplier's list, beside what Rust's own library reads of the same text: that takes more forms of a
//! number and counts neither fields nor digits.

use crate::bench_inputs::Draw;
use crate::{bits, differs, median, timed};
use std::hint::black_box;

unsafe extern "C" {
    fn kiltgrit_import(
        text: *const u8,
        text_len: usize,
        n: usize,
        entries: *mut f64,
        entries_len: usize,
    ) -> u32;
}

/// So many lists are read in turn, so often in a round.
const LISTS: usize = 64;
const TIMES: usize = 20;

/// How many digits a field has, and how many of them stand behind the point.
type Form = (usize, usize);

const ROWS: [(&str, Form, usize); 4] = [
    ("161.88, 2", (5, 2), 2),
    ("161.88, 12", (5, 2), 12),
    ("15 digits, 2", (15, 12), 2),
    ("15 digits, 12", (15, 12), 12),
];

fn list(draw: &mut Draw, (digits, behind): Form, n: usize) -> String {
    let mut text = String::new();
    for k in 0..n * n {
        let (value, sign) = (draw.bits() % 10u64.pow(digits as u32), draw.bits() % 2);
        let field = format!("{value:0digits$}");
        let (whole, rest) = field.split_at(digits - behind);
        let end = if (k + 1) % n == 0 { "\n" } else { "," };
        text += &format!("{}{whole}.{rest}{end}", if sign == 0 { "" } else { "-" });
    }
    text
}

fn imported(text: &str, n: usize, entries: &mut [f64]) {
    // SAFETY: both pointers come from slices that outlive the call, with their lengths, and don't overlap.
    let refused = unsafe {
        kiltgrit_import(
            text.as_ptr(),
            text.len(),
            n,
            entries.as_mut_ptr(),
            entries.len(),
        )
    };
    assert_eq!(refused, 0, "the list is sound");
}

fn parsed(text: &str, entries: &mut [f64]) {
    let fields = text.lines().flat_map(|line| line.split(','));
    for (entry, field) in entries.iter_mut().zip(fields) {
        *entry = field.parse().expect("the field is a number");
    }
}

/// Nanoseconds per list of one reader, and the last list's last entry.
fn run(lists: &[String], entries: &mut [f64], read: &dyn Fn(&str, &mut [f64])) -> (f64, f64) {
    let (ns, last) = timed(|| {
        for _ in 0..TIMES {
            for text in lists {
                read(black_box(text), black_box(&mut *entries));
            }
        }
        entries[entries.len() - 1]
    });
    (ns / (TIMES * LISTS) as f64, last)
}

/// Prints a line for each form and size, and answers whether both readers gave the same bits.
pub fn measure(rounds: usize) -> bool {
    println!("an import of n·n fields: ns, medians of {rounds} rounds; Rust's lines, split and parse; how many times as long");
    let (mut draw, mut all) = (Draw(1), true);
    for (name, form, n) in ROWS {
        let lists: Vec<String> = (0..LISTS).map(|_| list(&mut draw, form, n)).collect();
        let (mut entries, mut same) = (vec![0.0; n * n], true);
        let (mut ours, mut theirs) = (Vec::new(), Vec::new());
        for _ in 0..rounds {
            let (ns, last) = run(&lists, &mut entries, &|text, entries| {
                imported(text, n, entries)
            });
            ours.push(ns);
            let (ns, other) = run(&lists, &mut entries, &parsed);
            theirs.push(ns);
            same &= bits(last) == bits(other);
        }
        let (ours, theirs) = (median(ours), median(theirs));
        println!(
            "{name:16} {ours:8.0} {theirs:8.0} {:6.2}{}",
            theirs / ours,
            differs(same)
        );
        all &= same;
    }
    all
}
