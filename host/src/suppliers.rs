//! The import of a supplier's list, held to the places of all the faults that its text has, and to exact whole numbers:
//! document 02, Change 2.

use crate::compare::SHOWN;
use crate::exports;
use crate::inputs;
use crate::random::Random;
use crate::texts::{self, Asked, KINDS};

/// The entries, or the number of the refusal.
pub type Imported = Result<Vec<f64>, u32>;

const BAD_FIELD: u32 = 12;
const TOO_MANY_DIGITS: u32 = 13;

// ---- the answer, by the places of all faults

/// What of two faults at one place comes first: what shouldn't be there, the form of what should, what isn't there.
#[derive(PartialEq, Eq, PartialOrd, Ord)]
enum Rank {
    Surplus,
    Form,
    Missing,
}

/// The byte at which a fault is, its rank, and its number.
type Fault = (usize, Rank, u32);

/// The digits before a point and behind it of a field that has the form, whatever their number.
fn parts(field: &[u8]) -> Option<[&[u8]; 2]> {
    let unsigned = field.strip_prefix(b"-").unwrap_or(field);
    let parts: Vec<&[u8]> = unsigned.split(|&b| b == b'.').collect();
    let digits = |part: &&[u8]| !part.is_empty() && part.iter().all(u8::is_ascii_digit);
    match parts[..] {
        [whole] if digits(&whole) => Some([whole, b""]),
        [whole, behind] if digits(&whole) && digits(&behind) => Some([whole, behind]),
        _ => None,
    }
}

/// The number that a field is refused with for itself.
fn form_fault(field: &[u8]) -> Option<u32> {
    match parts(field) {
        None => Some(BAD_FIELD),
        Some([whole, behind]) => (whole.len() + behind.len() > 15).then_some(TOO_MANY_DIGITS),
    }
}

/// The faults of a line that begins at a place, in a list of n columns.
fn line_faults(n: usize, line: &[u8], start: usize) -> Vec<Fault> {
    let (mut faults, mut place) = (Vec::new(), start);
    let fields: Vec<&[u8]> = line.split(|&b| b == b',').collect();
    if fields.len() < n {
        faults.push((start + line.len(), Rank::Missing, BAD_FIELD));
    }
    for (column, field) in fields.into_iter().enumerate() {
        faults.extend(form_fault(field).map(|number| (place, Rank::Form, number)));
        if column >= n {
            faults.push((place, Rank::Surplus, BAD_FIELD));
        }
        place += field.len() + 1;
    }
    faults
}

/// All faults of a text of n rows.
fn faults(n: usize, text: &[u8]) -> Vec<Fault> {
    let (mut faults, mut place) = (Vec::new(), 0);
    let lines: Vec<&[u8]> = text.split_inclusive(|&b| b == b'\n').collect();
    if lines.len() < n || !text.ends_with(b"\n") {
        faults.push((text.len(), Rank::Missing, BAD_FIELD));
    }
    for (row, line) in lines.into_iter().enumerate() {
        let inside = line.strip_suffix(b"\n").unwrap_or(line);
        faults.extend(line_faults(n, inside, place));
        if row >= n {
            faults.push((place, Rank::Surplus, BAD_FIELD));
        }
        place += line.len();
    }
    faults
}

/// The fields of a sound text.
fn fields(text: &[u8]) -> impl Iterator<Item = &[u8]> {
    let lines = text.strip_suffix(b"\n").unwrap_or(text);
    lines.split(|b| b",\n".contains(b))
}

/// A field of the form as the nearest f64, which is what the library's own reader gives.
fn value(field: &[u8]) -> f64 {
    let text = std::str::from_utf8(field).expect("a field of the form is ASCII");
    text.parse().expect("a field of the form is a number")
}

/// The number that a list is given, 0 where it is accepted.
pub fn number_of(answer: &Imported) -> u32 {
    answer.as_ref().err().copied().unwrap_or(0)
}

pub fn answer(asked: &Asked) -> Imported {
    let n = asked.n;
    if !(1..=12).contains(&n) || asked.entries != n * n {
        return Err(2);
    }
    match faults(n, &asked.text).into_iter().min() {
        Some((_, _, number)) => Err(number),
        None => Ok(fields(&asked.text).map(value).collect()),
    }
}

// ---- what came up

/// How often each came up of the fields that are taken.
struct Fields {
    /// By their digits, all and behind the point.
    forms: [[usize; 16]; 16],
    /// By their sign.
    zeros: [usize; 2],
    /// As near to the middle of two f64 as any, by the digits behind the point, and rounded down or up.
    middles: [[usize; 2]; 15],
}

impl Fields {
    fn new() -> Self {
        Self {
            forms: [[0; 16]; 16],
            zeros: [0; 2],
            middles: [[0; 2]; 15],
        }
    }

    /// Takes in a field and its value, and answers whether that is the nearest f64, by whole numbers: v/10^d is the
    /// field and q/2^e the value, both without sign; times 10^d·2^e, the f64 next to q/2^e is 10^d away.
    fn nearest(&mut self, field: &[u8], value: f64) -> bool {
        let [whole, behind] = parts(field).expect("a field of the form");
        let (d, bits) = (behind.len(), value.to_bits());
        self.forms[whole.len() + d][d] += 1;
        if value.is_sign_negative() != field.starts_with(b"-") {
            return false;
        }
        let digits = whole.iter().chain(behind);
        let v = digits.fold(0, |v, b| v * 10 + u128::from(b - b'0'));
        if v == 0 {
            self.zeros[usize::from(value.is_sign_negative())] += 1;
            return value == 0.0;
        }
        let (q, exponent) = (bits % (1 << 52) | 1 << 52, bits >> 52 & 0x7FF);
        // the exponents from 10^-14 to 10^15
        if !(1075 - 99..=1075 - 3).contains(&exponent) {
            return false;
        }
        let unit = 10u128.pow(d as u32);
        let (exact, got) = (v << (1075 - exponent), u128::from(q) * unit);
        let twice = 2 * exact.abs_diff(got);
        if d > 0 && twice + (1 << d) == unit {
            self.middles[d][usize::from(got > exact)] += 1;
        }
        // the f64 below a power of two stands twice as close
        let halved = q == 1 << 52 && exact < got;
        twice < if halved { unit / 2 } else { unit }
    }

    /// What never came up.
    fn missing(&self) -> Vec<String> {
        let mut missing = Vec::new();
        for digits in 1..=15 {
            let unseen = (0..digits).filter(|&behind| self.forms[digits][behind] == 0);
            missing.extend(
                unseen.map(|behind| format!("{digits} digits, {behind} of them behind the point")),
            );
        }
        for (sign, _) in ["+0", "-0"]
            .iter()
            .zip(self.zeros)
            .filter(|(_, count)| *count == 0)
        {
            missing.push(sign.to_string());
        }
        for behind in 1..=14 {
            let ways = ["down", "up"].iter().zip(self.middles[behind]);
            let unseen = ways.filter(|(_, count)| *count == 0);
            missing.extend(unseen.map(|(way, _)| {
                format!("{behind} digits behind the point, next to a middle, {way}")
            }));
        }
        missing
    }
}

/// How often each came up of the lists.
struct Lists {
    sound: usize,
    /// The fields of those.
    fields: usize,
    kinds: [usize; KINDS.len()],
    /// By the number that they are given.
    numbers: [usize; 14],
    /// Accepted ones by n.
    sizes: [usize; 13],
    /// Refused for too many digits, by n and the place of the first field that has them.
    places: [[usize; 144]; 13],
    /// The bytes of those that aren't sound.
    bytes: [usize; 256],
}

impl Lists {
    fn new() -> Self {
        Self {
            sound: 0,
            fields: 0,
            kinds: [0; KINDS.len()],
            numbers: [0; 14],
            sizes: [0; 13],
            places: [[0; 144]; 13],
            bytes: [0; 256],
        }
    }

    fn take(&mut self, asked: &Asked, answer: &Imported) {
        if let Some(kind) = asked.kind {
            self.kinds[kind] += 1;
            for &b in &asked.text {
                self.bytes[usize::from(b)] += 1;
            }
        } else {
            self.sound += 1;
            self.fields += asked.entries;
        }
        self.numbers[number_of(answer) as usize] += 1;
        match number_of(answer) {
            0 => self.sizes[asked.n] += 1,
            TOO_MANY_DIGITS => {
                let long = |field| form_fault(field) == Some(TOO_MANY_DIGITS);
                let place = fields(&asked.text).position(long).expect("a long field");
                self.places[asked.n][place] += 1;
            }
            _ => {}
        }
    }

    /// What never came up, or too seldom.
    fn missing(&self, cases: usize) -> Vec<String> {
        let mut missing = Vec::new();
        let refused = self.numbers[12] + self.numbers[13];
        if self.fields < cases || refused < cases / 5 {
            missing.push(format!("{cases} fields, {} refusals", cases / 5));
        }
        let kinds = KINDS.iter().zip(self.kinds);
        let unseen = kinds.filter(|(_, count)| *count == 0);
        missing.extend(unseen.map(|(kind, _)| kind.name.to_string()));
        let unseen = [0, 2, 12, 13].into_iter().filter(|&k| self.numbers[k] == 0);
        missing.extend(unseen.map(|number| format!("the number {number}")));
        for n in 1..=12 {
            if self.sizes[n] == 0 {
                missing.push(format!("an accepted list of {n}"));
            }
            let unseen = (0..n * n).filter(|&place| self.places[n][place] == 0);
            missing
                .extend(unseen.map(|place| format!("too many digits at {place} in a list of {n}")));
        }
        let unseen = (0..256).filter(|&byte| self.bytes[byte] == 0);
        missing.extend(unseen.map(|byte| format!("the byte {byte}")));
        missing
    }
}

// ---- the comparison

/// Places on both sides of the slice that the import is lent.
const GUARDS: usize = 8;

/// Any content: NaNs of many payloads, zeros of both signs, infinities, anything.
fn content(random: &mut Random, special: &[f64], count: usize) -> Vec<f64> {
    let one = |random: &mut Random| match random.below(4) {
        0 => f64::from_bits(random.bits() | 0x7FF0_0000_0000_0001),
        1 => f64::from_bits(random.bits()),
        _ => special[random.below(special.len() as u64) as usize],
    };
    (0..count).map(|_| one(random)).collect()
}

/// What the import does otherwise than the answer says: its number, or a place in memory, in the slice or beside it.
fn difference(asked: &Asked, answer: &Imported, before: Vec<f64>) -> Option<String> {
    let lent = GUARDS..GUARDS + asked.entries;
    let (mut expected, mut memory) = (before.clone(), before);
    if let Ok(values) = answer {
        expected[lent.clone()].copy_from_slice(values);
    }
    let number = number_of(answer);
    let got = exports::import(&asked.text, asked.n, &mut memory[lent]);
    if got != number {
        return Some(format!("{number}, Rattle {got}"));
    }
    let place = (0..memory.len()).find(|&k| expected[k].to_bits() != memory[k].to_bits())?;
    let (expected, got) = (expected[place].to_bits(), memory[place].to_bits());
    let entry = place as isize - GUARDS as isize;
    Some(format!("entry {entry} {expected:016x}, Rattle {got:016x}"))
}

/// What is wrong with the answer itself, by the list's kind or by the nearest f64 of a field.
fn own_fault(asked: &Asked, answer: &Imported, tally: &mut Fields) -> Option<String> {
    let (number, said) = (
        number_of(answer),
        asked.kind.map_or(Some(0), |kind| KINDS[kind].number),
    );
    if said.is_some_and(|said| said != number) {
        return Some(format!("{number}, but {said:?} by its kind"));
    }
    for (field, &value) in fields(&asked.text).zip(answer.as_ref().ok()?) {
        if !tally.nearest(field, value) {
            return Some(format!(
                "{value:e} isn't the nearest to {}",
                field.escape_ascii()
            ));
        }
    }
    None
}

/// Compares the import on sound lists and on others, prints what came of it, and answers whether all agree and
/// everything came up: every kind, number, size, form of a field, byte, and place of too many digits.
pub fn compare(cases: usize, random: &mut Random) -> bool {
    let (mut differ, mut tally, mut tally_fields) = (0, Lists::new(), Fields::new());
    let special = inputs::special();
    let mut lists = texts::all_sound(random, cases);
    lists.extend(texts::all_others(random, cases / 3));
    for asked in &lists {
        let answer = answer(asked);
        tally.take(asked, &answer);
        let before = content(random, &special, asked.entries + 2 * GUARDS);
        let fault = own_fault(asked, &answer, &mut tally_fields)
            .or_else(|| difference(asked, &answer, before));
        if let Some(fault) = fault {
            differ += 1;
            if differ <= SHOWN {
                let name = asked.kind.map_or("sound", |kind| KINDS[kind].name);
                let (n, entries, text) = (asked.n, asked.entries, asked.text.escape_ascii());
                println!("suppliers ({name}): {fault}\n  n {n}, {entries} entries: \"{text}\"");
            }
        }
    }
    let (all, sound, fields) = (lists.len(), tally.sound, tally.fields);
    let [accepted, two, twelve, thirteen] = [0, 2, 12, 13].map(|number| tally.numbers[number]);
    println!(
        "suppliers: {sound} sound lists of {fields} fields and {} of {} kinds, {differ} differ; {accepted} accepted, \
         {two} refused with 2, {twelve} with 12, {thirteen} with 13",
        all - sound,
        KINDS.len()
    );
    let missing = [tally.missing(cases), tally_fields.missing()].concat();
    if !missing.is_empty() {
        println!("suppliers: never came up: {}", missing.join("; "));
    }
    differ == 0 && missing.is_empty()
}
