//! What exp, log and millionths are compared on: every edge that the documents' steps have, every exponent, and random
//! numbers of each kind.

use crate::random::Random;
use std::f64::consts::LN_2;

/// The bits of M of document 01.
const M: u64 = 0x3FE6_A09E_0000_0000;

/// One step of the exponent in a double's bits.
const BINADE: u64 = 1 << 52;

/// v and the doubles up to `reach` places from it on both sides; a zero comes as +0.
pub fn around(v: f64, reach: i64) -> impl Iterator<Item = f64> {
    // Doubles in order as whole numbers in order.
    let bits = v.to_bits() as i64;
    let place = if bits < 0 { i64::MIN - bits } else { bits };
    (-reach..=reach).filter_map(move |d| {
        let p = place.checked_add(d)?;
        Some(f64::from_bits(if p < 0 { i64::MIN - p } else { p } as u64))
    })
}

/// Zeros, ones, the ends of the normal and of the subnormal numbers, infinities, and NaNs of many payloads.
pub fn special() -> Vec<f64> {
    let mut all = vec![-0.0];
    for v in [0.0, 1.0, 2.0, 0.5, f64::MIN_POSITIVE, f64::MAX] {
        all.extend(around(v, 2));
        all.extend(around(-v, 2));
    }
    for bits in [
        0x7FF0_0000_0000_0000, // infinity; the rest are NaNs
        0x7FF0_0000_0000_0001,
        0x7FF4_0000_0000_0000,
        0x7FF7_FFFF_FFFF_FFFF,
        0x7FF8_0000_0000_0000,
        0x7FF8_0000_0000_0001,
        0x7FFC_0000_0000_0123,
        0x7FFF_FFFF_FFFF_FFFF,
    ] {
        all.push(f64::from_bits(bits));
        all.push(f64::from_bits(bits | 1 << 63));
    }
    all
}

/// `each` numbers, and the first and the last, of every exponent from `step` to `step`, of both signs.
fn exponents(random: &mut Random, step: usize, each: usize) -> Vec<f64> {
    let mut all = Vec::new();
    for exponent in (0..2048u64).step_by(step) {
        for sign in [0, 1 << 63] {
            let first = sign | exponent << 52;
            all.push(f64::from_bits(first));
            all.push(f64::from_bits(first + 1));
            all.push(f64::from_bits(first + BINADE - 1));
            for _ in 0..each {
                all.push(f64::from_bits(first | random.bits() % BINADE));
            }
        }
    }
    all
}

/// Subnormal numbers with their leading 1 at each place: alone, with all ones below it, and `each` others.
fn subnormals(random: &mut Random, each: usize) -> Vec<f64> {
    let mut all = Vec::new();
    for place in 0..52 {
        let leading = 1u64 << place;
        all.push(f64::from_bits(leading));
        all.push(f64::from_bits(leading + (leading - 1)));
        for _ in 0..each {
            all.push(f64::from_bits(leading + random.below(leading)));
        }
    }
    all
}

/// The edges of exp's branches, and of k: v near (k ± 1/2)·ln 2 and near k·ln 2, for each `step`th k and each
/// near the k at which the scaling changes.
fn exp_edges(step: i64, reach: i64) -> Vec<f64> {
    let mut all = special();
    let tiny = f64::from_bits((1023 - 28) << 52);
    for v in [709.782712893383973096, -745.13321910194110842, tiny, -tiny] {
        all.extend(around(v, 4));
    }
    // On both sides of 2^-28 the two branches differ where 1 + v is a tie, a quarter or a half past a double.
    for quarter in (1 << 26) - 40..(1 << 26) + 40 {
        let v = f64::from(quarter) * (f64::EPSILON / 4.0);
        all.extend([v, -v]);
    }
    for k in -1077..=1026i64 {
        let near = [-1075, -1022, 0, 1023]
            .iter()
            .any(|edge| (k - edge).abs() <= 2);
        if near || k % step == 0 {
            all.extend(around((k as f64 - 0.5) * LN_2, reach));
            all.extend(around(k as f64 * LN_2, 1));
        }
    }
    all
}

/// The edges of log's branches, and of m: the powers of two and M·2^k, for each `step`th exponent, those near
/// 1 and the first and last ones, and for every subnormal place.
fn log_edges(step: u64, reach: i64) -> Vec<f64> {
    let mut all = special();
    all.extend(around(1.0, 40));
    all.extend(around(f64::from_bits(M), 40));
    for exponent in 1..=2046u64 {
        let near = [1, 1023, 2046]
            .iter()
            .any(|&edge| exponent.abs_diff(edge) <= 2);
        if near || exponent % step == 0 {
            all.extend(around(f64::from_bits(exponent << 52), reach));
            all.extend(around(f64::from_bits(exponent << 52 | M % BINADE), reach));
        }
    }
    for place in 1..=52 {
        all.extend(around(f64::from_bits(BINADE >> place), reach));
        all.extend(around(
            f64::from_bits((BINADE | M % BINADE) >> place),
            reach,
        ));
    }
    all
}

/// A random input of exp: any bits, any number for which it is finite, a small one, one whose answer is
/// subnormal, or one beside an edge of k.
fn exp_random(random: &mut Random) -> f64 {
    match random.below(8) {
        0 | 1 => f64::from_bits(random.bits()),
        2 | 3 | 4 => random.between(-746.0, 710.0),
        5 => {
            // exponents from 2^-32 to 2^9
            let exponent = 1023 - 32 + random.below(42);
            f64::from_bits(random.bits() & 1 << 63 | exponent << 52 | random.bits() % BINADE)
        }
        6 => random.between(-745.2, -708.3),
        _ => {
            let k = random.below(2103) as f64 - 1077.0;
            (k + 0.5) * LN_2 * (1.0 + random.between(-1e-15, 1e-15))
        }
    }
}

/// A random input of log: any bits, any positive number, one near 1, one beside an edge of m, or a subnormal.
fn log_random(random: &mut Random) -> f64 {
    match random.below(8) {
        0 => f64::from_bits(random.bits()),
        1 | 2 | 3 => f64::from_bits(random.bits() >> 1),
        4 => random.between(0.4, 2.2),
        5 => 1.0 + random.between(-1.0, 1.0) * f64::from_bits((1023 - random.below(54)) << 52),
        6 => {
            let edge = (1 + random.below(2046)) << 52 | M % BINADE;
            f64::from_bits(edge - 32 + random.below(64))
        }
        _ => f64::from_bits(random.bits() % BINADE >> random.below(52)),
    }
}

/// The inputs of exp for a comparison: all edges, and `cases` random ones.
pub fn exp(random: &mut Random, cases: usize) -> Vec<f64> {
    let mut all = exp_edges(1, 8);
    all.extend(exponents(random, 1, 16));
    all.extend(subnormals(random, 16));
    all.extend((0..cases).map(|_| exp_random(random)));
    all
}

/// The inputs of log for a comparison: all edges, and `cases` random ones.
pub fn log(random: &mut Random, cases: usize) -> Vec<f64> {
    let mut all = log_edges(1, 4);
    all.extend(exponents(random, 1, 16));
    all.extend(subnormals(random, 16));
    all.extend((0..cases).map(|_| log_random(random)));
    all
}

/// The inputs of exp for the stored list: a part of the edges, and `cases` random ones.
pub fn exp_stored(random: &mut Random, cases: usize) -> Vec<f64> {
    let mut all = exp_edges(12, 1);
    all.extend(exponents(random, 37, 0));
    all.extend((0..cases).map(|_| exp_random(random)));
    all
}

/// The inputs of log for the stored list: a part of the edges, and `cases` random ones.
pub fn log_stored(random: &mut Random, cases: usize) -> Vec<f64> {
    let mut all = log_edges(16, 1);
    all.extend(subnormals(random, 1));
    all.extend((0..cases).map(|_| log_random(random)));
    all
}

/// How many multiples of 2^-7 are below 2048. The odd ones are the ties of millionths, since 10^6 is 2^6 times an odd
/// number; the even ones, and no others, are a whole number of them.
const MULTIPLES: u64 = 2048 * 128;

fn multiple(k: u64) -> f64 {
    k as f64 / 128.0
}

/// About k and a half millionths, which is no f64 but at a tie.
fn half_millionth(k: u64) -> f64 {
    (k as f64 + 0.5) / 1e6
}

/// v and its neighbours, of both signs.
fn both(v: f64, reach: i64) -> impl Iterator<Item = f64> {
    around(v, reach).chain(around(-v, reach))
}

/// A random input of millionths: any bits, a number that is shown, an ln γ, one of an exponent at which something is
/// shown or about it, one next to a half millionth, or a multiple of 2^-7.
fn millionths_random(random: &mut Random) -> f64 {
    let v = match random.below(8) {
        0 => f64::from_bits(random.bits()),
        1 | 2 => random.between(0.0, 2048.5),
        3 => random.between(0.0, 10.0),
        4 | 5 => f64::from_bits((998 + random.below(40)) << 52 | random.bits() % BINADE),
        6 => half_millionth(random.below(2_048_000_000)),
        _ => multiple(random.below(MULTIPLES)),
    };
    if random.below(2) == 0 {
        v
    } else {
        -v
    }
}

/// The inputs of millionths for a comparison: all multiples and edges, and `cases` random ones.
pub fn millionths(random: &mut Random, cases: usize) -> Vec<f64> {
    let mut all = special();
    all.extend((0..MULTIPLES).flat_map(|k| both(multiple(k), 1)));
    all.extend(exponents(random, 1, 16));
    all.extend(both(2048.0, 1000));
    all.extend((0..10_000).flat_map(|k| both(half_millionth(k), 2)));
    all.extend((2_047_990_000..2_048_000_000).flat_map(|k| both(half_millionth(k), 2)));
    all.extend((0..cases).map(|_| millionths_random(random)));
    all
}

/// The inputs of millionths for the stored list: a part of the multiples and edges, and `cases` random ones.
pub fn millionths_stored(random: &mut Random, cases: usize) -> Vec<f64> {
    let mut all = special();
    all.extend(
        (1..MULTIPLES)
            .step_by(4001)
            .flat_map(|k| both(multiple(k), 1)),
    );
    all.extend(exponents(random, 31, 0));
    all.extend(both(2048.0, 3));
    all.extend((0..20).flat_map(|k| both(half_millionth(k), 1)));
    all.extend((0..cases).map(|_| millionths_random(random)));
    all
}
