//! The calls that the Rattle crates export, each in a safe wrapper. Nothing checks these declarations
//! against the Rattle source, so they stand here alone and are few.
//!
//! A slice of bytes passes as a pointer and then its length.

use crate::case::{Case, Quantity};
use crate::millionths::Shown;

/// kiltgrit_shown of the header.
#[repr(C)]
struct CShown {
    millionths: i64,
    refused: u32,
    unused: u32,
}

extern "C" {
    fn kiltgrit_exp(v: f64) -> f64;
    fn kiltgrit_log(v: f64) -> f64;
    fn kiltgrit_millionths(v: f64) -> CShown;

    fn kiltgrit_import(
        text: *const u8,
        text_len: usize,
        n: usize,
        entries: *mut f64,
        entries_len: usize,
    ) -> u32;

    fn kiltgrit_check_composition(tolerance: f64, x: *const f64, x_len: usize) -> u32;

    fn kiltgrit_run(strip: *const u8, strip_len: usize, out: *mut u8, out_len: usize) -> usize;

    fn kiltgrit_ln_gamma(
        model: u32,
        n: usize,
        ng: usize,
        lens: *const u8,
        lens_len: usize,
        groups: *const u8,
        groups_len: usize,
        values: *const u8,
        values_len: usize,
        t: f64,
        tolerance: f64,
        x: *const u8,
        x_len: usize,
        i: usize,
        value: *mut f64,
    ) -> u32;

    fn kiltgrit_gamma(
        model: u32,
        n: usize,
        ng: usize,
        lens: *const u8,
        lens_len: usize,
        groups: *const u8,
        groups_len: usize,
        values: *const u8,
        values_len: usize,
        t: f64,
        tolerance: f64,
        x: *const u8,
        x_len: usize,
        i: usize,
        value: *mut f64,
    ) -> u32;

    fn kiltgrit_excess_gibbs(
        model: u32,
        n: usize,
        ng: usize,
        lens: *const u8,
        lens_len: usize,
        groups: *const u8,
        groups_len: usize,
        values: *const u8,
        values_len: usize,
        t: f64,
        tolerance: f64,
        x: *const u8,
        x_len: usize,
        value: *mut f64,
    ) -> u32;
}

pub fn exp(v: f64) -> f64 {
    // SAFETY: a number goes in and a number comes back; the call has no `requires`.
    unsafe { kiltgrit_exp(v) }
}

pub fn log(v: f64) -> f64 {
    // SAFETY: as for `exp`.
    unsafe { kiltgrit_log(v) }
}

/// The millionths of a number; a refusal has none beside its number.
pub fn millionths(v: f64) -> Shown {
    // SAFETY: as for `exp`.
    let shown = unsafe { kiltgrit_millionths(v) };
    assert_eq!(shown.unused, 0);
    if shown.refused == 0 {
        return Ok(shown.millionths);
    }
    assert_eq!(shown.millionths, 0);
    Err(shown.refused)
}

/// The number that the import of a supplier's list answers, 0 for none; `entries` is what it leaves there.
pub fn import(text: &[u8], n: usize, entries: &mut [f64]) -> u32 {
    // SAFETY: each pointer comes from a slice that outlives the call, with the length of that slice, and `entries` is
    // lent to nothing else. The call has no `requires`.
    unsafe {
        kiltgrit_import(
            text.as_ptr(),
            text.len(),
            n,
            entries.as_mut_ptr(),
            entries.len(),
        )
    }
}

/// The number that the check of a composition answers, 0 for none.
pub fn check_composition(tolerance: f64, x: &[f64]) -> u32 {
    // SAFETY: the pointer comes from a slice that outlives the call, with the length of that slice. The call has no
    // `requires`.
    unsafe { kiltgrit_check_composition(tolerance, x.as_ptr(), x.len()) }
}

/// Stores a strip's text into `out`, as far as it fits, and answers how long it is.
pub fn run(strip: &[u8], out: &mut [u8]) -> usize {
    // SAFETY: each pointer comes from a slice that outlives the call, with the length of that slice, and `out` is
    // lent to nothing else. The call has no `requires`.
    unsafe { kiltgrit_run(strip.as_ptr(), strip.len(), out.as_mut_ptr(), out.len()) }
}

/// The number that the plain call answers, 0 for none; `value` is what it leaves there.
pub fn plain(case: &Case, value: &mut f64) -> u32 {
    let (values, x) = (case.values.bytes(), case.x.bytes());
    macro_rules! call {
        ($name:ident $(, $i:ident)?) => {
            // SAFETY: each pointer comes from a slice that outlives the call, with the length of that slice,
            // and `value` is lent to nothing else. The call has no `requires`.
            unsafe {
                $name(
                    case.model,
                    case.n,
                    case.ng,
                    case.lens.as_ptr(),
                    case.lens.len(),
                    case.groups.as_ptr(),
                    case.groups.len(),
                    values.as_ptr(),
                    values.len(),
                    case.t,
                    case.tolerance,
                    x.as_ptr(),
                    x.len(),
                    $($i,)?
                    value,
                )
            }
        };
    }
    match case.quantity {
        Quantity::LnGamma(i) => call!(kiltgrit_ln_gamma, i),
        Quantity::Gamma(i) => call!(kiltgrit_gamma, i),
        Quantity::ExcessGibbs => call!(kiltgrit_excess_gibbs),
    }
}
