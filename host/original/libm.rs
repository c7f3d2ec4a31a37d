//! Stands in for the crate `libm`: `exp` and `log` by the steps of document 01, "Arithmetic", which are
//! condensed from FreeBSD msun's `e_exp.c` and `e_log.c`. Each written operation rounds once, in the order
//! written; Rust fuses none.

const L1: f64 = 6.93147180369123816490e-01;
const L2: f64 = 1.90821492927058770002e-10;

const P1: f64 = 1.66666666666666019037e-01;
const P2: f64 = -2.77777777770155933842e-03;
const P3: f64 = 6.61375632143793436117e-05;
const P4: f64 = -1.65339022054652515390e-06;
const P5: f64 = 4.13813679705723846039e-08;

const G1: f64 = 6.666666666666735130e-01;
const G2: f64 = 3.999999999940941908e-01;
const G3: f64 = 2.857142874366239149e-01;
const G4: f64 = 2.222219843214978396e-01;
const G5: f64 = 1.818357216161805012e-01;
const G6: f64 = 1.531383769920937332e-01;
const G7: f64 = 1.479819860511658591e-01;

/// The bits of M: `log` takes v as m·2^k with M ≤ m < 2·M.
const M: i64 = 0x3FE6_A09E_0000_0000;

/// How many low bits of a double hold its fraction.
const FRACTION: u32 = 52;

/// 2^k, for −1022 ≤ k ≤ 1023.
#[inline(always)]
fn power(k: i32) -> f64 {
    f64::from_bits(((k + 1023) as u64) << FRACTION)
}

/// e to the power v.
#[inline]
pub fn exp(v: f64) -> f64 {
    if v.is_nan() {
        return f64::NAN;
    }
    if v > 709.782712893383973096 {
        return f64::INFINITY;
    }
    if v < -745.13321910194110842 {
        return 0.0;
    }
    if v.abs() <= power(-28) {
        return 1.0 + v;
    }
    let h = if v < 0.0 { -0.5 } else { 0.5 };
    let k = (1.4426950408889634 * v + h) as i32; // cuts toward zero
    let n = f64::from(k);
    let hi = v - n * L1;
    let lo = n * L2;
    let r = hi - lo;
    let q = r * r;
    let c = r - q * (P1 + q * (P2 + q * (P3 + q * (P4 + q * P5))));
    let y = 1.0 + (r * c / (2.0 - c) - lo + hi);
    if k > 1023 {
        y * power(1023) * power(k - 1023)
    } else if k < -1022 {
        y * power(k + 1000) * power(-1000)
    } else {
        y * power(k)
    }
}

/// The natural logarithm of v.
#[inline]
pub fn log(v: f64) -> f64 {
    if v.is_nan() || v < 0.0 {
        return f64::NAN;
    }
    if v == 0.0 {
        return f64::NEG_INFINITY;
    }
    if v == f64::INFINITY {
        return v;
    }
    if v == 1.0 {
        return 0.0;
    }
    // A subnormal's leading 1 is moved up to bit 52, and k makes up for it; a normal number stays as it is.
    let bits = v.to_bits();
    let moved = bits.leading_zeros().saturating_sub(63 - FRACTION);
    let bits = (bits << moved) as i64;
    // Bits in order are numbers in order, and 2^52 more in the bits doubles the number.
    let twos = (bits - M) >> FRACTION;
    let m = f64::from_bits((bits - (twos << FRACTION)) as u64);
    let k = twos as i32 - moved as i32;

    let n = f64::from(k);
    let f = m - 1.0;
    let p = 0.5 * f * f;
    let s = f / (2.0 + f);
    let z = s * s;
    let w = z * z;
    let t1 = w * (G2 + w * (G4 + w * G6));
    let t2 = z * (G1 + w * (G3 + w * (G5 + w * G7)));
    let r = t2 + t1;
    s * (p + r) + n * L2 - p + f + n * L1
}
