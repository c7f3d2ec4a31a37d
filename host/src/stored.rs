//! Writing a list of the Rust's answers, which the program `replay` runs again without Rust.
//!
//! A line is a record of words, a word is 16 hexadecimal digits, and each is followed by one blank, or by LF at
//! the end of its line. So a word takes 17 bytes.

use crate::case::{Answer, Case, Quantity, NAMES, NRTL, UNIFAC};
use crate::cases::{Draw, Sizes};
use crate::compare::bits;
use crate::compositions;
use crate::inputs;
use crate::millionths::shown;
use crate::random::Random;
use crate::rust;
use crate::strip;
use crate::strips::Strips;
use crate::suppliers::{answer, number_of};
use crate::texts::{self, Asked};
use crate::tolerance::check_fault;
use std::io;
use std::path::Path;

fn write(path: &Path, lines: &[Vec<u64>]) -> io::Result<()> {
    let mut text = String::new();
    for line in lines {
        let words: Vec<String> = line.iter().map(|word| format!("{word:016x}")).collect();
        text += &words.join(" ");
        text += "\n";
    }
    std::fs::write(path, text)?;
    println!("{}: {} answers", path.display(), lines.len());
    Ok(())
}

/// A line for each input: its bits, and those of the answer.
fn of_numbers(inputs: &[f64], rust: fn(f64) -> f64) -> Vec<Vec<u64>> {
    let line = |v: &f64| vec![v.to_bits(), bits(rust(*v))];
    inputs.iter().map(line).collect()
}

/// A line for each input: its bits, the number of the refusal, 0 for none, and the millionths, 0 for none, by sign
/// (1 where they are below 0) and size.
fn of_shown(inputs: &[f64]) -> Vec<Vec<u64>> {
    let line = |v: &f64| {
        let (number, z) = match shown(*v) {
            Ok(z) => (0, z),
            Err(number) => (u64::from(number), 0),
        };
        vec![v.to_bits(), number, u64::from(z < 0), z.unsigned_abs()]
    };
    inputs.iter().map(line).collect()
}

/// Whether `replay` has room for a case, and its model is the list's.
fn storable(case: &Case, model: u32) -> bool {
    case.model == model
        && case.lens.len() <= 16
        && case.groups.len() <= 160
        && case.values.all.len() <= 5328
        && case.values.rest.is_empty()
        && case.x.all.len() <= 16
        && case.x.rest.is_empty()
}

/// A case's line: what is asked, i, n, ng, then four rows, each after its length, with T before the last; then
/// the number of the refusal, 0 for none, and the value, 0 for none.
fn line(case: &Case) -> Vec<u64> {
    let (asked, i) = match case.quantity {
        Quantity::LnGamma(i) => (0, i),
        Quantity::Gamma(i) => (1, i),
        Quantity::ExcessGibbs => (2, 0),
    };
    let mut line = vec![asked, i as u64, case.n as u64, case.ng as u64];
    for row in [&case.lens, &case.groups] {
        line.push(row.len() as u64);
        line.extend(row.iter().map(|&b| u64::from(b)));
    }
    line.push(case.values.all.len() as u64);
    line.extend(case.values.all.iter().map(|v| v.to_bits()));
    line.push(case.t.to_bits());
    line.push(case.x.all.len() as u64);
    line.extend(case.x.all.iter().map(|v| v.to_bits()));
    line.extend(match rust::answer(case) {
        Answer::Value(bits) => [0, bits],
        Answer::Refused(number) => [u64::from(number), 0],
    });
    line
}

/// The line of a case of a size whose answer is a finite value.
fn of_size(model: u32, size: usize, random: &mut Random) -> Vec<u64> {
    let mut draw = Draw::new(random, Sizes::Exactly(size));
    loop {
        let case = draw.sound(model);
        if let Answer::Value(bits) = rust::answer(&case) {
            if f64::from_bits(bits).is_finite() {
                return line(&case);
            }
        }
    }
}

/// Lines of a model: a value of each size, and then random cases, most of them small.
fn of_model(model: u32, random: &mut Random) -> Vec<Vec<u64>> {
    let (sizes, cases, most) = match model {
        UNIFAC => (vec![1, 2, 4, 8, 16, 32], 400, 4),
        NRTL => ((1..=12).collect(), 400, 4),
        _ => ((1..=12).collect(), 700, 5),
    };
    let of_size = |size| of_size(model, size, random);
    let mut lines: Vec<Vec<u64>> = sizes.into_iter().map(of_size).collect();
    let mut draw = Draw::new(random, Sizes::UpTo(most));
    while lines.len() < cases {
        let case = draw.case(model);
        if storable(&case, model) {
            lines.push(line(&case));
        }
    }
    lines
}

/// A line for each check of a composition: the tolerance, the fractions after their length, and the number that is
/// given, 0 for none.
fn of_checks(checks: &[(f64, Vec<f64>)]) -> Vec<Vec<u64>> {
    let line = |(tolerance, x): &(f64, Vec<f64>)| {
        let mut line = vec![tolerance.to_bits(), x.len() as u64];
        line.extend(x.iter().map(|v| v.to_bits()));
        line.push(u64::from(check_fault(*tolerance, x)));
        line
    };
    checks.iter().map(line).collect()
}

/// Strips with their texts: for each a line with the two lengths, then the bytes of both.
fn of_strips(strips: &[Vec<u8>]) -> Vec<u8> {
    let mut list = Vec::new();
    for bytes in strips {
        let text = strip::text(bytes);
        list.extend(format!("{:016x} {:016x}\n", bytes.len(), text.len()).into_bytes());
        list.extend(bytes);
        list.extend(text.into_bytes());
    }
    list
}

/// Suppliers' lists with their answers: for each a line with n, the entries lent and the text's length, the bytes of
/// the text, and a line with the number of values, these, and the number that is given, 0 for none.
fn of_suppliers(lists: &[Asked]) -> Vec<u8> {
    let mut all = Vec::new();
    for asked in lists {
        let answer = answer(asked);
        let values = answer.as_deref().unwrap_or_default();
        let (n, entries, length) = (asked.n, asked.entries, asked.text.len());
        all.extend(format!("{n:016x} {entries:016x} {length:016x}\n").into_bytes());
        all.extend(&asked.text);
        let mut words = vec![values.len() as u64];
        words.extend(values.iter().map(|v| v.to_bits()));
        words.push(u64::from(number_of(&answer)));
        let words: Vec<String> = words.iter().map(|word| format!("{word:016x}")).collect();
        all.extend((words.join(" ") + "\n").into_bytes());
    }
    all
}

/// Writes a list whose records aren't lines alone.
fn write_bytes(path: &Path, bytes: &[u8], records: usize) -> io::Result<()> {
    println!("{}: {records} answers", path.display());
    std::fs::write(path, bytes)
}

/// Writes the lists to a folder.
pub fn write_all(folder: &Path) -> io::Result<()> {
    std::fs::create_dir_all(folder)?;
    let random = &mut Random::new(1);
    let exp = of_numbers(&inputs::exp_stored(random, 1000), libm::exp);
    let log = of_numbers(&inputs::log_stored(random, 1000), libm::log);
    write(&folder.join("exp.txt"), &exp)?;
    write(&folder.join("log.txt"), &log)?;
    for (name, model) in NAMES.iter().zip(1..) {
        write(
            &folder.join(name).with_extension("txt"),
            &of_model(model, random),
        )?;
    }
    let shown = inputs::millionths_stored(&mut Random::new(1), 1000);
    write(&folder.join("millionths.txt"), &of_shown(&shown))?;
    let checks = compositions::stored(&mut Random::new(1), 500);
    write(&folder.join("checks.txt"), &of_checks(&checks))?;
    let lists = texts::stored(&mut Random::new(1), 400);
    write_bytes(
        &folder.join("suppliers.bin"),
        &of_suppliers(&lists),
        lists.len(),
    )?;
    let strips = Strips::new(1).stored(240);
    write_bytes(
        &folder.join("strips.bin"),
        &of_strips(&strips),
        strips.len(),
    )
}
