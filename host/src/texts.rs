//! Lists as suppliers might send them: sound ones, and others of known kinds, most with a fault.

use crate::fields::{edges, field};
use crate::random::Random;

/// What the import is asked: a list of n components, for a slice of so many entries.
pub struct Asked {
    pub n: usize,
    pub entries: usize,
    pub text: Vec<u8>,
    /// The place of its kind in `KINDS`; none for a sound list of any fields.
    pub kind: Option<usize>,
}

/// A kind of list, of at least so many components, and the number that it is given, if the kind alone says so.
pub struct Kind {
    pub name: &'static str,
    pub number: Option<u32>,
    least: usize,
    make: Make,
}

type Text = fn(&mut Random, &mut Sheet) -> Vec<u8>;
type Room = fn(&mut Random, usize) -> (usize, usize);

/// How a list of a kind is made of a sound one.
enum Make {
    /// One of these stands in place of any field.
    Forms(&'static [&'static str]),
    Text(Text),
    /// Another n, and so many entries.
    Room(Room),
}

const fn kind(number: Option<u32>, name: &'static str, least: usize, make: Make) -> Kind {
    Kind {
        name,
        number,
        least,
        make,
    }
}

const fn form(number: u32, name: &'static str, forms: &'static [&'static str]) -> Kind {
    kind(Some(number), name, 1, Make::Forms(forms))
}

const fn text(number: u32, name: &'static str, make: Text) -> Kind {
    kind(Some(number), name, 1, Make::Text(make))
}

/// Of two components at least.
const fn wide(number: u32, name: &'static str, make: Text) -> Kind {
    kind(Some(number), name, 2, Make::Text(make))
}

/// A kind of which some are sound, or have faults of other numbers.
const fn any(name: &'static str, make: Text) -> Kind {
    kind(None, name, 1, Make::Text(make))
}

const fn room(name: &'static str, make: Room) -> Kind {
    kind(Some(2), name, 1, Make::Room(make))
}

/// A field that is too long.
const LONG: &str = "1234567890123456";

/// The places of two kinds in the table.
const SIXTEEN: usize = 0;
const BYTE: usize = 1;

pub const KINDS: &[Kind] = &[
    form(13, "16 digits", &[LONG, "-9007199254740993"]),
    any("a byte in a field", byte_inside),
    // fields that are taken
    form(0, "15 digits", &["123456789012345", "-999999999999999"]),
    form(0, "15 digits and a point", &["12345678901234.5"]),
    form(0, "leading zeros", &["007", "-00.10", "000000000000001"]),
    form(0, "a zero", &["0", "0.0", "000000000000000"]),
    form(0, "a minus zero", &["-0", "-0.0", "-00000000000000.0"]),
    // fields of another form
    form(12, "an empty field", &[""]),
    form(12, "a minus alone", &["-"]),
    form(12, "a point first", &[".5", "-.5", ".", "-."]),
    form(12, "a point last", &["5.", "-5.", "0."]),
    form(12, "two points", &["1..2", "1.2.3", "1.2."]),
    form(12, "a plus sign", &["+5", "+0.5", "5+"]),
    form(12, "a minus elsewhere", &["--1", "1-", "1-2", "1.-5"]),
    form(12, "an exponent", &["1e3", "1E3", "1.5e-3", "1e"]),
    form(12, "a blank", &["1 ", " 1", " ", "1 000", "- 1"]),
    form(12, "a tab", &["1\t", "\t1"]),
    form(12, "a CR", &["1\r", "\r1", "\r"]),
    form(12, "a quotation mark", &["\"1\"", "'1", "\""]),
    form(
        12,
        "a word",
        &["inf", "NaN", "x", "0x10", "1_0", "−1", "１"],
    ),
    // fields of more digits
    text(13, "16 digits and a point", long_and_point),
    form(
        13,
        "16 digits by zeros",
        &["0000000000000000", "0.000000000000001"],
    ),
    text(13, "a great many digits", very_long),
    form(
        12,
        "16 digits and a letter",
        &["1234567890123456x", "12345678e90123456"],
    ),
    form(
        12,
        "16 digits and a blank",
        &["1234567890123456 ", "1234567890123456\r"],
    ),
    form(12, "16 digits and a plus", &["+1234567890123456"]),
    form(12, "16 digits, then a point", &["1234567890123456."]),
    form(12, "a point, then 16 digits", &[".1234567890123456"]),
    form(12, "16 digits and two points", &["12345678.9012345.6"]),
    // lines and what ends them
    text(12, "an empty text", |_, _| Vec::new()),
    text(12, "an empty line", empty_line),
    text(12, "no last line feed", |_, sheet| sheet.unended()),
    text(12, "a line feed more", |_, sheet| sheet.and(b"\n")),
    text(12, "a byte more", |random, sheet| {
        sheet.and(&[random.bits() as u8])
    }),
    text(12, "cut", cut),
    text(12, "CR LF", |_, sheet| sheet.joined(",", "\r\n")),
    text(12, "CR for LF", |_, sheet| sheet.joined(",", "\r")),
    text(12, "a comma behind each row", |_, sheet| {
        sheet.joined(",", ",\n")
    }),
    wide(12, "blanks behind commas", |_, sheet| {
        sheet.joined(", ", "\n")
    }),
    wide(12, "semicolons", |_, sheet| sheet.joined(";", "\n")),
    text(12, "decimal commas", |_, sheet| sheet.with_commas(",")),
    text(12, "semicolons and decimal commas", |_, sheet| {
        sheet.with_commas(";")
    }),
    text(12, "a byte order mark", marked),
    // fields and rows missing or surplus
    text(12, "a field missing", field_missing),
    text(12, "a surplus field", |random, sheet| {
        field_more(random, sheet, "0")
    }),
    text(12, "a surplus field of 16 digits", |random, sheet| {
        field_more(random, sheet, LONG)
    }),
    text(12, "a row missing", row_missing),
    text(12, "a surplus row", |_, sheet| sheet.and(&sheet.text())),
    text(12, "a surplus row of 16 digits", |_, sheet| {
        sheet.and(LONG.as_bytes())
    }),
    // more faults than one: the first is given
    wide(13, "16 digits in a short row", long_in_short),
    text(13, "16 digits in a long row", long_in_long),
    text(13, "16 digits, no last line feed", long_unended),
    wide(13, "16 digits, then a row missing", long_then_row),
    wide(12, "16 digits behind a short row", long_behind_short),
    wide(12, "16 digits behind another form", |_, sheet| {
        first_two(sheet, "1e3", LONG)
    }),
    wide(13, "another form behind 16 digits", |_, sheet| {
        first_two(sheet, LONG, "1e3")
    }),
    // the number of components and the slice
    room("an entry too few", |_, n| (n, n * n - 1)),
    room("an entry too many", |_, n| (n, n * n + 1)),
    room("entries for another n", |_, n| (n, (n + 1) * (n + 1))),
    room("entries for two lists", |_, n| (n, 2 * n * n)),
    room("no entries", |_, n| (n, 0)),
    room("no components", |random, n| {
        (0, one_of(random, [0, 1, n * n]))
    }),
    room("13 components", |random, _| {
        (13, one_of(random, [169, 144, 0]))
    }),
    room("above 13 components", |random, n| {
        (13 + n, one_of(random, [(13 + n) * (13 + n), n * n, 0]))
    }),
    room("2^32 components", |random, n| {
        (1 << 32, one_of(random, [0, 1, n * n]))
    }),
    room("2^63 components", |random, n| {
        (1 << 63, one_of(random, [0, 1, n * n]))
    }),
    room("2^64 - 1 components", |random, n| {
        (usize::MAX, one_of(random, [0, 1, n * n]))
    }),
    room("components of more bits", |random, n| {
        (
            n + one_of(random, [1 << 8, 1 << 16, 1 << 32, 1 << 63]),
            n * n,
        )
    }),
    // any damage
    any("a byte changed, dropped or inserted", |random, sheet| {
        damaged(random, sheet, 1)
    }),
    any("several bytes changed", |random, sheet| {
        damaged(random, sheet, 4)
    }),
];

/// A list by its rows, each of its fields as it is written.
struct Sheet {
    rows: Vec<Vec<Vec<u8>>>,
}

impl Sheet {
    /// A sound list of n components.
    fn new(random: &mut Random, n: usize) -> Self {
        let mut row = || (0..n).map(|_| field(random)).collect();
        Self {
            rows: (0..n).map(|_| row()).collect(),
        }
    }

    fn joined(&self, comma: &str, end: &str) -> Vec<u8> {
        let line = |row: &Vec<Vec<u8>>| [&row.join(comma.as_bytes()), end.as_bytes()].concat();
        self.rows.iter().flat_map(line).collect()
    }

    fn text(&self) -> Vec<u8> {
        self.joined(",", "\n")
    }

    fn and(&self, more: &[u8]) -> Vec<u8> {
        [&self.text(), more].concat()
    }

    fn unended(&self) -> Vec<u8> {
        let mut text = self.text();
        text.pop();
        text
    }

    /// With a comma in every point's place; the first field has one.
    fn with_commas(&mut self, comma: &str) -> Vec<u8> {
        self.rows[0][0] = b"1.5".to_vec();
        let bytes = self.rows.iter_mut().flatten().flatten();
        bytes.filter(|b| **b == b'.').for_each(|b| *b = b',');
        self.joined(comma, "\n")
    }

    /// Any row, and its place.
    fn row(&mut self, random: &mut Random) -> (usize, &mut Vec<Vec<u8>>) {
        let place = random.below(self.rows.len() as u64) as usize;
        (place, &mut self.rows[place])
    }

    fn any(&mut self, random: &mut Random) -> &mut Vec<u8> {
        let row = self.row(random).1;
        let column = random.below(row.len() as u64) as usize;
        &mut row[column]
    }
}

// ---- how a sound list becomes one of a kind

fn byte_inside(random: &mut Random, sheet: &mut Sheet) -> Vec<u8> {
    let field = sheet.any(random);
    let at = random.below(field.len() as u64 + 1) as usize;
    field.insert(at, random.bits() as u8);
    sheet.text()
}

fn long_and_point(random: &mut Random, sheet: &mut Sheet) -> Vec<u8> {
    let field = sheet.any(random);
    *field = LONG.into();
    field.insert(1 + random.below(15) as usize, b'.');
    sheet.text()
}

fn very_long(random: &mut Random, sheet: &mut Sheet) -> Vec<u8> {
    let digit = b'0' + random.below(10) as u8;
    *sheet.any(random) = vec![digit; 17 + random.below(300) as usize];
    sheet.text()
}

fn empty_line(random: &mut Random, sheet: &mut Sheet) -> Vec<u8> {
    let place = sheet.row(random).0;
    sheet.rows.insert(place, Vec::new());
    sheet.text()
}

fn cut(random: &mut Random, sheet: &mut Sheet) -> Vec<u8> {
    let mut text = sheet.text();
    text.truncate(random.below(text.len() as u64) as usize);
    text
}

fn marked(_: &mut Random, sheet: &mut Sheet) -> Vec<u8> {
    [b"\xEF\xBB\xBF", &sheet.text()[..]].concat()
}

fn field_missing(random: &mut Random, sheet: &mut Sheet) -> Vec<u8> {
    sheet.row(random).1.pop();
    sheet.text()
}

fn field_more(random: &mut Random, sheet: &mut Sheet, field: &str) -> Vec<u8> {
    sheet.row(random).1.push(field.into());
    sheet.text()
}

fn row_missing(random: &mut Random, sheet: &mut Sheet) -> Vec<u8> {
    let place = sheet.row(random).0;
    sheet.rows.remove(place);
    sheet.text()
}

/// Makes a field of a row too long.
fn lengthen(random: &mut Random, row: &mut [Vec<u8>]) {
    row[random.below(row.len() as u64) as usize] = LONG.into();
}

fn long_in_short(random: &mut Random, sheet: &mut Sheet) -> Vec<u8> {
    let row = sheet.row(random).1;
    row.pop();
    lengthen(random, row);
    sheet.text()
}

fn long_in_long(random: &mut Random, sheet: &mut Sheet) -> Vec<u8> {
    let row = sheet.row(random).1;
    lengthen(random, row);
    row.push(b"0".to_vec());
    sheet.text()
}

fn long_unended(random: &mut Random, sheet: &mut Sheet) -> Vec<u8> {
    *sheet.any(random) = LONG.into();
    sheet.unended()
}

fn long_then_row(random: &mut Random, sheet: &mut Sheet) -> Vec<u8> {
    sheet.rows.pop();
    *sheet.any(random) = LONG.into();
    sheet.text()
}

fn long_behind_short(random: &mut Random, sheet: &mut Sheet) -> Vec<u8> {
    let place = random.below(sheet.rows.len() as u64 - 1) as usize;
    sheet.rows[place].pop();
    lengthen(random, &mut sheet.rows[place + 1]);
    sheet.text()
}

fn first_two(sheet: &mut Sheet, first: &str, second: &str) -> Vec<u8> {
    sheet.rows[0][..2].clone_from_slice(&[first.into(), second.into()]);
    sheet.text()
}

fn one_of<const N: usize>(random: &mut Random, all: [usize; N]) -> usize {
    all[random.below(N as u64) as usize]
}

/// Changes, drops or inserts a byte.
fn damage(random: &mut Random, text: &mut Vec<u8>) {
    let at = random.below(text.len() as u64 + 1) as usize;
    let byte = match random.below(8) {
        0 => random.bits() as u8,
        k => b",\n.-0;1"[k as usize - 1],
    };
    match random.below(3) {
        0 if at < text.len() => text[at] = byte,
        1 if at < text.len() => drop(text.remove(at)),
        _ => text.insert(at, byte),
    }
}

fn damaged(random: &mut Random, sheet: &Sheet, most: u64) -> Vec<u8> {
    let mut text = sheet.text();
    for _ in 0..=random.below(most) {
        damage(random, &mut text);
    }
    text
}

// ---- lists

/// A list of a kind. Most have few components.
fn of_kind(random: &mut Random, place: usize, most: usize) -> Asked {
    let kind = &KINDS[place];
    let below = if random.below(4) == 0 {
        most
    } else {
        most.min(4)
    };
    let n = (1 + random.below(below as u64) as usize).max(kind.least);
    let mut sheet = Sheet::new(random, n);
    let (mut room, mut text) = ((n, n * n), Vec::new());
    match kind.make {
        Make::Forms(forms) => {
            *sheet.any(random) = forms[random.below(forms.len() as u64) as usize].into();
            text = sheet.text();
        }
        Make::Text(make) => text = make(random, &mut sheet),
        Make::Room(other) => {
            // whatever the text is
            room = other(random, n);
            if random.below(4) != 0 {
                text = sheet.text();
            }
            if random.below(4) == 0 {
                damage(random, &mut text);
            }
        }
    }
    Asked {
        n: room.0,
        entries: room.1,
        text,
        kind: Some(place),
    }
}

fn sound(sheet: &Sheet) -> Asked {
    let n = sheet.rows.len();
    Asked {
        n,
        entries: n * n,
        text: sheet.text(),
        kind: None,
    }
}

/// Sound lists of all edges, and then of so many fields at least, with n from 1 to 12 in turn.
pub fn all_sound(random: &mut Random, fields: usize) -> Vec<Asked> {
    let mut edges = edges(random);
    let (mut all, mut count) = (Vec::new(), 0);
    for n in (1..=12).cycle() {
        if count >= fields && edges.is_empty() {
            return all;
        }
        let mut sheet = Sheet::new(random, n);
        for field in sheet.rows.iter_mut().flatten() {
            *field = edges.pop().unwrap_or(std::mem::take(field));
        }
        count += n * n;
        all.push(sound(&sheet));
    }
    all
}

/// A field of 16 digits at every place of a list of n components, for each n.
fn at_every_place(random: &mut Random) -> Vec<Asked> {
    let mut all = Vec::new();
    for n in 1..=12 {
        for place in 0..n * n {
            let mut sheet = Sheet::new(random, n);
            sheet.rows[place / n][place % n] = LONG.into();
            let kind = Some(SIXTEEN);
            all.push(Asked {
                kind,
                ..sound(&sheet)
            });
        }
    }
    all
}

/// Every byte before a field, in it and behind it.
fn with_every_byte(random: &mut Random) -> Vec<Asked> {
    let mut all = Vec::new();
    for byte in 0..=255 {
        for at in 0..=3 {
            let mut sheet = Sheet::new(random, 2);
            let field = sheet.any(random);
            *field = b"1.5".to_vec();
            field.insert(at, byte);
            let kind = Some(BYTE);
            all.push(Asked {
                kind,
                ..sound(&sheet)
            });
        }
    }
    all
}

/// So many lists at least, of every kind in turn.
pub fn all_others(random: &mut Random, lists: usize) -> Vec<Asked> {
    let mut all = at_every_place(random);
    all.extend(with_every_byte(random));
    all.extend((0..lists).map(|k| of_kind(random, k % KINDS.len(), 12)));
    all
}

/// The lists that are stored: a sound one of each n, and others, each kind in turn, of few components.
pub fn stored(random: &mut Random, lists: usize) -> Vec<Asked> {
    let mut all: Vec<Asked> = (1..=12).map(|n| sound(&Sheet::new(random, n))).collect();
    let others = lists - all.len();
    all.extend((0..others).map(|k| of_kind(random, k % KINDS.len(), 4)));
    all
}
