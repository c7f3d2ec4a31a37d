//! The check of a composition with a tolerance (document 02, Change 3). The source has 1e-6 alone, and there its own
//! check is the measure; elsewhere the document's words are, in the few lines here.

use crate::rust;

/// The source's tolerance, and a mixture's after a load.
pub const USUAL: f64 = 1e-6;

pub const WIDEST: f64 = 1e-3;

pub fn is_usual(tolerance: f64) -> bool {
    tolerance.to_bits() == USUAL.to_bits()
}

/// 14: NaN, below 0 (-0 passes) or above 1e-3.
pub fn tolerance_fault(tolerance: f64) -> u32 {
    match (0.0..=WIDEST).contains(&tolerance) {
        true => 0,
        false => 14,
    }
}

/// How far the sum is off 1.
pub fn off(x: &[f64]) -> f64 {
    (x.iter().fold(0.0, |s, v| s + v) - 1.0).abs()
}

/// Whether the sum is off by more than the source accepts, and not just at that edge, but within 1e-3.
pub fn is_off(x: &[f64]) -> bool {
    (2.0 * USUAL..=WIDEST).contains(&off(x))
}

/// 5 and 6 in the document's words, with any float for a tolerance.
pub fn naive(tolerance: f64, x: &[f64]) -> u32 {
    match x.is_empty() {
        true => 5,
        false if off(x) > tolerance => 6,
        false => 0,
    }
}

/// 5 and 6 by the source's own check.
pub fn by_source(x: &[f64]) -> u32 {
    original::check_composition(x).map_or_else(rust::number, |()| 0)
}

/// 5 and 6: by the source where it has the tolerance, else by the document's words.
pub fn composition_fault(tolerance: f64, x: &[f64]) -> u32 {
    match is_usual(tolerance) {
        true => by_source(x),
        false => naive(tolerance, x),
    }
}

/// The check called alone: 14, then 5 and 6.
pub fn check_fault(tolerance: f64, x: &[f64]) -> u32 {
    match tolerance_fault(tolerance) {
        0 => composition_fault(tolerance, x),
        number => number,
    }
}
