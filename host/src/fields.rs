//! Fields of a supplier's list that the import takes: an optional minus, and 1 to 15 digits with or without a point.

use crate::random::Random;

/// A field of so many digits, a part of them behind a point.
fn written(minus: bool, value: u64, digits: usize, behind: usize) -> Vec<u8> {
    let mut field = format!("{value:0digits$}");
    if behind != 0 {
        field.insert(digits - behind, '.');
    }
    if minus {
        field.insert(0, '-');
    }
    field.into_bytes()
}

/// A field as near to the middle of two f64 as one with so many digits behind the point can be. It is v/10^d and
/// v·2^k/10^d is below 2^53 and not below 2^52, so that v·2^k by 10^d decides: it is 2^d times v·2^(k - d) by 5^d, and
/// so nearest to half of 10^d where that is half of 5^d, rounded down or up.
fn middle(random: &mut Random, behind: usize, up: bool) -> Vec<u8> {
    let (five, ten) = (5u128.pow(behind as u32), 10u128.pow(behind as u32));
    let digits = behind + 1 + random.below(15 - behind as u64) as usize;
    loop {
        let about = u128::from(random.below(10u64.pow(digits as u32)).max(1));
        let mut k = behind;
        let mut value = five / 2 + u128::from(up);
        while about << k < ten << 52 {
            k += 1;
            // half of it by 5^d
            value = (value + value % 2 * five) / 2;
        }
        value += about - about % five;
        let product = value << k;
        if ten << 52 <= product && product < ten << 53 && value < 10u128.pow(digits as u32) {
            return written(random.below(2) == 0, value as u64, digits, behind);
        }
    }
}

/// A field that is taken: of any digits, with leading zeros, a zero, next to the middle of two f64, or an energy.
pub fn field(random: &mut Random) -> Vec<u8> {
    let digits = 1 + random.below(15) as usize;
    let (behind, minus) = (random.below(digits as u64) as usize, random.below(2) == 0);
    let value = random.below(10u64.pow(digits as u32));
    match random.below(8) {
        0 => written(
            minus,
            value / 10u64.pow(random.below(15) as u32),
            digits,
            behind,
        ),
        1 => written(minus, 0, digits, behind),
        2 | 3 => {
            let (behind, up) = (1 + random.below(14) as usize, minus);
            middle(random, behind, up)
        }
        4 => written(minus, random.below(1_000_000), 6, 2),
        _ => written(minus, value, digits, behind),
    }
}

/// Fields of every number of digits with every place of the point and both signs: any digits, zeros, a 1 behind zeros,
/// and nines; then those next to a middle.
pub fn edges(random: &mut Random) -> Vec<Vec<u8>> {
    let mut all = Vec::new();
    for digits in 1..=15 {
        let past = 10u64.pow(digits as u32);
        for behind in 0..digits {
            for value in [random.below(past), 0, 1, past - 1] {
                all.extend([false, true].map(|minus| written(minus, value, digits, behind)));
            }
        }
    }
    for behind in 1..=14 {
        for turn in 0..40 {
            all.push(middle(random, behind, turn % 2 == 0));
        }
    }
    all
}
