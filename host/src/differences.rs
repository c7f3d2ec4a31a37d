//! Holds the papers' forms, the source, the port and docs/DIFFERENCES.md itself to the inputs of `documented`: each
//! entry of the document has an input there, and says each number and text.

use crate::case::{Answer, Case};
use crate::compare::bits;
use crate::documented::{refusals, taken, values, Refusal, Taken, Value, TEXTS};
use crate::models::rattle;
use crate::rust;
use original::unifac::UnifacVariant::{Dortmund, Original};
use std::collections::BTreeMap;
use tpt_thermo_core::error::ThermoError;

const DOCUMENT: &str = include_str!("../../docs/DIFFERENCES.md");

/// The entry that has no input: which NaN it is stays free.
const NO_INPUT: &str = "NaN";

/// A number as the document writes it.
fn written(v: f64) -> String {
    let text = match v.abs() {
        small if 0.0 < small && small < 1e-4 => format!("{v:e}"),
        _ => format!("{v}"),
    };
    match text.strip_prefix('-') {
        Some(digits) => format!("−{digits}"),
        None => text,
    }
}

/// What the text doesn't say of the words that it has to.
fn unsaid(text: &str, words: &[String]) -> Vec<String> {
    let missing = words
        .iter()
        .filter(|word| !text.contains(&format!(" {word} ")));
    missing
        .map(|word| format!("the document doesn't say {word}"))
        .collect()
}

/// Whether the port answers otherwise.
fn port_fault(case: &Case, port: Answer) -> Option<String> {
    let got = rattle(case, 0).0;
    (got != port).then(|| format!("Rattle: {got} for {port}\n  {case}"))
}

/// What is wrong with an input, of an entry with that text. The source is asked with either variant of UNIFAC.
fn value_faults(value: &Value, text: &str) -> Vec<String> {
    let (paper, given, source) = (value.paper, value.given, value.source);
    let mut faults = Vec::new();
    if bits(paper) != bits(given) {
        faults.push(format!("paper: {} for {}", written(paper), written(given)));
    }
    for asked in [Original, Dortmund].map(|variant| rust::asked_as(&value.case, variant)) {
        if asked != Answer::Value(bits(source)) {
            faults.push(format!("Rust: {asked} for {}", written(source)));
        }
    }
    faults.extend(port_fault(&value.case, value.port));
    let port = match value.port {
        Answer::Value(bits) => written(f64::from_bits(bits)),
        Answer::Refused(number) => number.to_string(),
    };
    faults.extend(unsaid(text, &[written(given), written(source), port]));
    faults
}

/// The same. The numbers of the source's texts are those by which random calls are compared.
fn refusal_faults(refusal: &Refusal, entry: &str, text: &str) -> Vec<String> {
    let (said, words, number) = (refusal.said, refusal.text, refusal.number);
    let mut faults = Vec::new();
    if said != Err(ThermoError::InvalidInput(words)) {
        faults.push(format!("Rust: {said:?} for {words:?}"));
    } else if entry == TEXTS && said.map_err(rust::number) != Err(number) {
        faults.push(format!("rust::number: not {number} for {words:?}"));
    }
    faults.extend(port_fault(&refusal.case, Answer::Refused(number)));
    faults.extend(unsaid(text, &[format!("\"{words}\""), number.to_string()]));
    faults
}

/// The same of an input that the port alone takes.
fn taken_faults(taken: &Taken, text: &str) -> Vec<String> {
    let (said, words) = (taken.said, taken.text);
    let mut faults = Vec::new();
    if said != Err(ThermoError::InvalidInput(words)) {
        faults.push(format!("Rust: {said:?} for {words:?}"));
    }
    if bits(taken.paper) != bits(taken.given) {
        faults.push(format!(
            "paper: {} for {}",
            written(taken.paper),
            written(taken.given)
        ));
    }
    faults.extend(port_fault(&taken.case, Answer::Value(bits(taken.port))));
    let said = [
        format!("\"{words}\""),
        written(taken.given),
        written(taken.port),
    ];
    faults.extend(unsaid(text, &said));
    faults
}

/// The document's entries by title: their words, without the marks around them, each between blanks.
fn entries() -> BTreeMap<&'static str, String> {
    let compared = DOCUMENT.split("\n## Not compared").next().unwrap();
    let entry = |part: &'static str| {
        let (title, text) = part.split_once(".**").unwrap_or((part, ""));
        let words = text.split_whitespace();
        let bare = words.map(|word| word.trim_matches([',', ';', ':', '.', '(', ')']));
        (title, format!(" {} ", bare.collect::<Vec<_>>().join(" ")))
    };
    compared.split("\n**").skip(1).map(entry).collect()
}

/// Each input: its entry, and what is wrong with it.
fn inputs(entries: &BTreeMap<&str, String>) -> Vec<(&'static str, Vec<String>)> {
    let text = |entry| entries.get(entry).map_or("", String::as_str);
    let mut all = Vec::new();
    for (entry, values) in values() {
        let faults = values.iter().map(|value| value_faults(value, text(entry)));
        all.extend(faults.map(|faults| (entry, faults)));
    }
    for (entry, inputs) in taken() {
        let faults = inputs.iter().map(|taken| taken_faults(taken, text(entry)));
        all.extend(faults.map(|faults| (entry, faults)));
    }
    for (entry, refusals) in refusals() {
        let faults = refusals
            .iter()
            .map(|refusal| refusal_faults(refusal, entry, text(entry)));
        all.extend(faults.map(|faults| (entry, faults)));
    }
    all
}

/// Holds all of it, prints what came of it, and answers whether all agree.
pub fn compare_all() -> bool {
    let entries = entries();
    let inputs = inputs(&entries);
    for (entry, faults) in &inputs {
        for fault in faults {
            println!("docs/DIFFERENCES.md, {entry}: {fault}");
        }
    }
    let has_input = |title: &str| title == NO_INPUT || inputs.iter().any(|input| input.0 == title);
    let without: Vec<&str> = entries
        .into_keys()
        .filter(|title| !has_input(title))
        .collect();
    for title in &without {
        println!("docs/DIFFERENCES.md, {title}: no input");
    }
    let differ = inputs.iter().filter(|input| !input.1.is_empty()).count();
    println!(
        "docs/DIFFERENCES.md: {} cases, {differ} differ",
        inputs.len()
    );
    differ == 0 && without.is_empty()
}
