//! Holding answers bit for bit against each other, with all NaNs as one.

/// How many differing inputs a comparison prints.
pub const SHOWN: usize = 5;

/// The bits of an answer. Which of the NaNs it is stays free, so that all of them count as one.
pub fn bits(v: f64) -> u64 {
    if v.is_nan() {
        0x7FF8_0000_0000_0000
    } else {
        v.to_bits()
    }
}

/// Compares two functions of one number on the inputs, prints what came of it, and answers whether they agree.
pub fn compare(name: &str, inputs: &[f64], rust: fn(f64) -> f64, rattle: fn(f64) -> f64) -> bool {
    let mut differ = 0;
    for &v in inputs {
        let (expected, got) = (bits(rust(v)), bits(rattle(v)));
        if expected != got {
            differ += 1;
            if differ <= SHOWN {
                println!(
                    "{name} of {:016x} ({v:e}): Rust {expected:016x}, Rattle {got:016x}",
                    v.to_bits()
                );
            }
        }
    }
    println!("{name}: {} inputs, {differ} differ", inputs.len());
    differ == 0
}
