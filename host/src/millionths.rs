//! What a panel shows, held to exact whole numbers: document 02, Change 1.

use crate::compare::SHOWN;
use crate::exports;
use crate::inputs;
use crate::random::Random;
use std::cmp::Ordering;

/// The millionths, or the number of the refusal.
pub type Shown = Result<i64, u32>;

/// The largest number that is shown.
const MOST: i64 = 2_048_000_000;

/// How an answer comes about.
#[derive(Clone, Copy)]
enum Kind {
    Nan,
    Infinite,
    Large,
    Zero,
    Tiny,
    Exact,
    Down,
    Up,
    TieDown,
    TieUp,
}

const KINDS: [&str; 10] = [
    "refused as NaN",
    "refused as infinite",
    "refused from 2048 on",
    "zeros",
    "tiny",
    "exact",
    "rounded down",
    "rounded up",
    "ties down",
    "ties up",
];

/// The size of q / 2^d in millionths, below 2048. The product with 10^6 has at most 73 bits, so that from d = 74 on
/// it is less than a half.
fn size(q: u64, d: u32) -> (i64, Kind) {
    if q == 0 {
        return (0, Kind::Zero);
    }
    if d >= 74 {
        return (0, Kind::Tiny);
    }
    let (product, unit) = (u128::from(q) * 1_000_000, 1u128 << d);
    let (below, rest) = ((product / unit) as i64, product % unit);
    match (rest * 2).cmp(&unit) {
        _ if rest == 0 => (below, Kind::Exact),
        Ordering::Less => (below, Kind::Down),
        Ordering::Greater => (below + 1, Kind::Up),
        Ordering::Equal if below % 2 == 0 => (below, Kind::TieDown),
        Ordering::Equal => (below + 1, Kind::TieUp),
    }
}

/// The answer for v, and how it comes about: v is ±q·2^(e - 1075) by its three fields.
fn worked(v: f64) -> (Shown, Kind) {
    let bits = v.to_bits();
    let (field, fraction) = (bits >> 52 & 0x7FF, bits & 0xF_FFFF_FFFF_FFFF);
    let (q, e) = match field {
        0x7FF if fraction != 0 => return (Err(11), Kind::Nan),
        0x7FF => return (Err(11), Kind::Infinite),
        0 => (fraction, 1),
        _ => (fraction | 1 << 52, field as u32),
    };
    // from e = 1075 on v is at least 2^52
    let d = 1075u32.saturating_sub(e);
    if d == 0 || d < 64 && u128::from(q) >= 2048u128 << d {
        return (Err(11), Kind::Large);
    }
    let (size, kind) = size(q, d);
    (Ok(if v.is_sign_negative() { -size } else { size }), kind)
}

pub fn shown(v: f64) -> Shown {
    worked(v).0
}

/// Compares what the panel shows on the inputs, prints what came of it, and answers whether all agree and every kind of
/// answer came up with both signs, the largest number too.
pub fn compare(cases: usize, random: &mut Random) -> bool {
    let inputs = inputs::millionths(random, cases);
    let (mut differ, mut counts, mut most) = (0, [[0; 2]; KINDS.len()], [0; 2]);
    for &v in &inputs {
        let (expected, kind) = worked(v);
        let negative = usize::from(v.is_sign_negative());
        counts[kind as usize][negative] += 1;
        most[negative] += usize::from(expected.is_ok_and(|z| z.abs() == MOST));
        let got = exports::millionths(v);
        if got != expected {
            differ += 1;
            if differ <= SHOWN {
                let bits = v.to_bits();
                println!("millionths of {bits:016x} ({v:e}): {expected:?}, Rattle {got:?}");
            }
        }
    }
    let each: Vec<String> = KINDS
        .iter()
        .zip(counts)
        .map(|(kind, [positive, negative])| format!("{} {kind}", positive + negative))
        .collect();
    println!(
        "millionths: {} inputs, {differ} differ; {}",
        inputs.len(),
        each.join(", ")
    );
    let missing = counts
        .iter()
        .chain([&most])
        .flatten()
        .any(|&count| count == 0);
    if missing {
        println!("millionths: a kind of answer never came up: {counts:?} {most:?}");
    }
    differ == 0 && !missing
}
