//! The kept mixture in a Rust program: examples/acetone-methanol.charge, answered in the words of the program charge, and
//! the same charge as a strip that is run whole.
//!
//!     (cd crates/kiltgrit && rt lib); mkdir -p target
//!     rustc --edition 2021 examples/embed.rs -L native=crates/kiltgrit/out -l static=kiltgrit -o target/embed_rs
//!     examples/run --strip examples/acetone-methanol.charge >target/charge.strip && target/embed_rs target/charge.strip

mod kiltgrit;

use kiltgrit::{
    check_composition, floats_ok, import, millionths, plain, plain_within, run, Asked, Data,
    Mixture, Model, Refused, Setting,
};

fn said(done: Result<(), Refused>) -> String {
    match done {
        Ok(()) => "ok\n".into(),
        Err(Refused(number)) => format!("refused {number}\n"),
    }
}

fn asked(answer: Result<(f64, usize), Refused>) -> String {
    match answer {
        Ok((value, cells)) if value.is_nan() => format!("nan {cells}\n"),
        Ok((value, cells)) => format!("{:016x} {cells}\n", value.to_bits()),
        Err(Refused(number)) => format!("refused {number}\n"),
    }
}

/// The digits of a panel: the whole number of millionths with its point.
fn panel(ln_gamma: f64) -> Result<String, Refused> {
    let shown = millionths(ln_gamma)?;
    let (sign, size) = (if shown < 0 { "-" } else { "" }, shown.unsigned_abs());
    Ok(format!(
        "{sign}{}.{:06}",
        size / 1_000_000,
        size % 1_000_000
    ))
}

/// A query of the mixture; the plain call, which keeps nothing, gives the same bits, and a panel six digits of ln γ.
fn ask(still: &mut Mixture, data: &Data, x: &[f64], what: Asked) -> String {
    let answer = still.query(what);
    if let Ok((value, _)) = &answer {
        let at_once = plain(data, KELVIN, x, what).expect("the plain call answers too");
        assert_eq!(
            value.to_bits(),
            at_once.to_bits(),
            "the plain call says the same"
        );
        if let Asked::LnGamma(_) = what {
            let digits = panel(*value).expect("a panel shows it");
            assert_eq!(digits, format!("{value:.6}"), "a panel shows its digits");
        }
    }
    asked(answer)
}

/// Fractions weighed by hand, off 1 by 1e-5. A tolerance of 0.01 is refused and changes nothing; one of 1e-4 takes
/// them, and the answer is that of the plain call with this tolerance.
fn by_hand(still: &mut Mixture, data: &Data) -> Result<(), Refused> {
    let (x, within) = ([0.78001, 0.22], 1e-4);
    assert!(matches!(
        still.set(Setting::Tolerance(0.01)),
        Err(Refused(14))
    ));
    assert!(matches!(still.fractions(&x), Err(Refused(6))));
    still.set(Setting::Tolerance(within))?;
    check_composition(within, &x)?;
    still.fractions(&x)?;
    let (value, _) = still.query(Asked::LnGamma(0))?;
    let at_once = plain_within(data, KELVIN, within, &x, Asked::LnGamma(0))?;
    assert_eq!(value.to_bits(), at_once.to_bits(), "with its tolerance");
    Ok(())
}

const KELVIN: f64 = 328.7;

/// A supplier's list, in cal/mol.
const LIST: &[u8] = b"0,-161.88\n583.11,0\n";

fn main() {
    let strip = std::env::args().nth(1).expect("usage: embed_rs STRIP");
    let strip = std::fs::read(strip).expect("the strip can be read");
    assert!(
        floats_ok(),
        "floats are not rounded to nearest, or subnormals not kept"
    );
    let mut still = Mixture::open();
    // energies by rows, in kelvin, then the molar volumes
    let mut values = [0.0, 0.0, 0.0, 0.0, 74.05, 40.73];
    import(LIST, 2, &mut values[..4]).expect("the list is sound");
    for energy in &mut values[..4] {
        *energy /= 1.987204;
    }
    let data = Data {
        model: Model::Wilson,
        n: 2,
        ng: 0,
        lens: &[],
        groups: &[],
        values: &values,
    };
    let mut text = said(still.load(&data));
    text += &said(still.set(Setting::Temperature(KELVIN)));
    for x in [[0.78, 0.22], [0.01, 0.99], [0.99, 0.01]] {
        text += &said(still.fractions(&x));
        for i in 0..2 {
            text += &ask(&mut still, &data, &x, Asked::LnGamma(i));
            text += &ask(&mut still, &data, &x, Asked::Gamma(i));
        }
        text += &ask(&mut still, &data, &x, Asked::ExcessGibbs);
    }
    by_hand(&mut still, &data).expect("fractions weighed by hand are taken");
    print!("{text}");
    assert_eq!(text, run(&strip), "the strip run whole says the same");
}
