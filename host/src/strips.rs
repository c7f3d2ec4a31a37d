//! Random strips, run by the exported call and held against the text that document 01 gives them.

use crate::calls::WHOLE;
use crate::exports;
use crate::memory::Memory;
use crate::random::Random;
use crate::steps::Steps;
use crate::strip::{self, put_head, MOST};
use std::panic::{catch_unwind, AssertUnwindSafe};

/// What is done to a strip of whole records.
const CHANGES: [&str; 12] = [
    "none",
    "a kind outside 1 to 11",
    "a bit from 16 to 27",
    "a field that should be 0",
    "a query's j above 2",
    "an excess energy with i",
    "a 12 or 13 of another kind",
    "a bit more in a 12 or 13",
    "cut",
    "bytes left over",
    "any bits turned",
    "any bytes",
];

/// A strip, with the places of its records' head words and of its 12s and 13s.
struct Drawn {
    bytes: Vec<u8>,
    heads: Vec<usize>,
    listed: Vec<usize>,
}

pub struct Strips {
    random: Random,
    steps: Steps,
}

impl Strips {
    pub fn new(seed: u64) -> Self {
        Self {
            random: Random::new(seed),
            steps: Steps::new(seed ^ 0x5712_4950),
        }
    }

    fn below(&mut self, n: usize) -> usize {
        self.random.below(n as u64) as usize
    }

    /// A strip of so many whole records, all well formed, of at most `most` bytes.
    fn sound(&mut self, records: usize, most: usize) -> Drawn {
        let mut memory = Memory::new();
        let (bytes, heads, listed) = (Vec::new(), Vec::new(), Vec::new());
        let mut drawn = Drawn {
            bytes,
            heads,
            listed,
        };
        for _ in 0..records {
            let call = self.steps.call(&memory);
            let start = drawn.bytes.len();
            strip::put(&mut drawn.bytes, &call);
            if drawn.bytes.len() > most {
                drawn.bytes.truncate(start);
            }
            // what the strip says, which is the call but for indices above 255 and a load's lengths
            if let Some(call) = strip::first_call(&drawn.bytes[start..]) {
                memory.call(WHOLE, &call);
                drawn.heads.push(start);
                let lists = strip::list_words(&drawn.bytes[start..]);
                drawn.listed.extend(lists.iter().map(|place| start + place));
            }
        }
        drawn
    }

    /// One of the bits, if there are any.
    fn one_of(&mut self, bits: u32) -> u32 {
        let places: Vec<u32> = (0..32).filter(|k| bits >> k & 1 == 1).collect();
        match places.len() {
            0 => 0,
            n => 1 << places[self.below(n)],
        }
    }

    /// The word at one of the places, if there are any, without the bits of `clear`, with those of `set`, and with some of `some`.
    fn turn(&mut self, bytes: &mut [u8], places: &[usize], clear: u32, set: u32, some: u32) {
        if places.is_empty() {
            return;
        }
        let place = places[self.below(places.len())];
        let word = &mut bytes[place..place + 4];
        let old = u32::from_le_bytes([word[0], word[1], word[2], word[3]]);
        let more = match self.below(2) {
            0 => self.random.bits() as u32 & some,
            _ => self.one_of(some),
        };
        word.copy_from_slice(&(old & !clear | set | more).to_le_bytes());
    }

    /// The strip changed in one of the ways of `CHANGES`.
    fn changed(&mut self, mut drawn: Drawn, change: usize) -> Vec<u8> {
        let bytes = &mut drawn.bytes;
        let kind = |bytes: &[u8], place: &usize| u32::from(bytes[place + 3] >> 4);
        let heads = drawn.heads.clone();
        let of = |bytes: &[u8], kinds: &[u32]| -> Vec<usize> {
            let wanted = heads
                .iter()
                .filter(|place| kinds.contains(&kind(bytes, place)));
            wanted.copied().collect()
        };
        match change {
            1 => {
                let kinds: [u32; 5] = [0, 12, 13, 14, 15];
                let other = kinds[self.below(5)] << 28;
                self.turn(bytes, &heads, 0xF << 28, other, 0);
            }
            2 => self.turn(bytes, &heads, 0, 0, 0x0FFF_0000),
            3 => {
                let places = of(bytes, &[1, 2, 3, 5, 6]);
                self.turn(bytes, &places, 0, 0, 0xFF00);
                let places = of(bytes, &[5]);
                self.turn(bytes, &places, 0, 0, 0x00FF);
            }
            4 => {
                let places = of(bytes, &[11]);
                let j = [3, 3 + self.below(253)][self.below(2)] as u32;
                self.turn(bytes, &places, 0xFF00, j << 8, 0);
            }
            5 => put_head(bytes, 11, 1 + self.below(255), 2),
            6 => self.turn(bytes, &drawn.listed, 0xF << 28, 0, 0xF << 28),
            7 => self.turn(bytes, &drawn.listed, 0, 0, 0x0FFF_FF00),
            8 => {
                let length = self.below(bytes.len() + 1);
                bytes.truncate(length);
            }
            9 => {
                let more = 1 + self.below(3);
                bytes.extend((0..more).map(|k| k as u8));
            }
            10 => {
                for _ in 0..1 + self.below(4) {
                    let place = self.below(bytes.len().max(1));
                    if let Some(byte) = bytes.get_mut(place) {
                        *byte ^= 1 << self.random.below(8);
                    }
                }
            }
            11 => {
                let length = self.below(200);
                *bytes = (0..length).map(|_| self.random.bits() as u8).collect();
            }
            _ => (),
        }
        drawn.bytes
    }

    fn next(&mut self, change: usize) -> Vec<u8> {
        let records = 1 + self.below(30);
        let drawn = self.sound(records, MOST);
        self.changed(drawn, change)
    }

    /// A strip of exactly so many bytes: a model, and queries to the end.
    fn long(&mut self, length: usize) -> Vec<u8> {
        let mut bytes = self.sound(40, length.saturating_sub(4)).bytes;
        while bytes.len() + 4 <= length {
            put_head(&mut bytes, 11, 0, self.below(2));
        }
        bytes.resize(length, 0);
        bytes
    }

    /// Short strips, for those that are stored.
    pub fn stored(&mut self, count: usize) -> Vec<Vec<u8>> {
        let mut strips = vec![Vec::new()];
        while strips.len() < count {
            let records = 1 + self.below(24);
            let drawn = self.sound(records, 1500);
            strips.push(self.changed(
                drawn,
                if strips.len() % 3 == 0 {
                    strips.len() % CHANGES.len()
                } else {
                    0
                },
            ));
        }
        strips
    }
}

/// Strips run, those that end with `broken`, answers, and those whose text differs.
#[derive(Default)]
struct Tally {
    strips: usize,
    broken: usize,
    lines: usize,
    values: usize,
    refused: [usize; 11],
    differ: usize,
}

impl Tally {
    /// What is done with the reader of strips; where the reader panics, that is a difference and nothing more.
    fn read<T>(&mut self, what: impl FnOnce() -> T) -> Option<T> {
        let done = catch_unwind(AssertUnwindSafe(what)).ok();
        self.differ += usize::from(done.is_none());
        done
    }

    /// Runs a strip into a buffer that has room for the text, or `less` bytes less; past the text nothing is written.
    fn run(&mut self, bytes: &[u8], less: usize) {
        let Some(text) = self.read(|| strip::text(bytes)) else {
            return;
        };
        let mut out = vec![0xA5; (text.len() + 32).saturating_sub(less)];
        let length = exports::run(bytes, &mut out);
        let fits = length.min(out.len());
        let same = length == text.len()
            && out[..fits] == text.as_bytes()[..fits]
            && out[fits..].iter().all(|byte| *byte == 0xA5);
        self.strips += 1;
        self.broken += usize::from(text.ends_with("broken\n"));
        self.lines += text.lines().count();
        self.values += text
            .lines()
            .filter(|line| line.contains(' ') && !line.starts_with('r'))
            .count();
        for line in text.lines() {
            if let Some(number) = line.strip_prefix("refused ") {
                self.refused[number.parse::<usize>().unwrap()] += 1;
            }
        }
        self.differ += usize::from(!same);
        if !same && self.differ == 1 {
            let got = String::from_utf8_lossy(&out[..fits]);
            println!(
                "strip {bytes:02x?}\n  expected, {} bytes:\n{text}  got, {length} bytes:\n{got}",
                text.len()
            );
        }
    }

    fn print(&self, name: &str) {
        let Self {
            strips,
            broken,
            lines,
            values,
            refused,
            ..
        } = self;
        println!("  {name}: {strips} strips, {broken} of them broken; {lines} lines, {values} of them values and {} refusals", refused.iter().sum::<usize>());
    }
}

/// Compares at least so many random strips, every truncation of some, and the lengths about the limit. Prints what came of
/// it, and answers whether all agree and every change broke some strip.
pub fn compare_all(count: usize, seed: u64) -> bool {
    let mut strips = Strips::new(seed);
    let (mut all, mut idle) = (Tally::default(), Vec::new());
    let mut add = |name: &str, tally: &Tally| {
        tally.print(name);
        all.strips += tally.strips;
        for (number, count) in all.refused.iter_mut().zip(tally.refused) {
            *number += count;
        }
        all.differ += tally.differ;
    };
    for (change, name) in CHANGES.iter().enumerate() {
        let mut tally = Tally::default();
        for _ in 0..count / CHANGES.len() + 1 {
            let Some(bytes) = tally.read(|| strips.next(change)) else {
                continue;
            };
            let less = if strips.below(8) == 0 {
                strips.below(400)
            } else {
                0
            };
            tally.run(&bytes, less);
        }
        if (change > 0) != (tally.broken > 0) {
            idle.push(*name);
        }
        add(name, &tally);
    }
    let mut tally = Tally::default();
    for _ in 0..12 {
        if let Some(drawn) = tally.read(|| strips.sound(12, 1200)) {
            (0..=drawn.bytes.len()).for_each(|length| tally.run(&drawn.bytes[..length], 0));
        }
    }
    add("every length of some", &tally);
    let mut tally = Tally::default();
    for length in [0, 65_532, 65_535, 65_536, 65_537, 65_540, 131_072] {
        if let Some(bytes) = tally.read(|| strips.long(length)) {
            tally.run(&bytes, 0);
            tally.run(&bytes, 1000);
        }
    }
    add("lengths about the limit", &tally);
    println!(
        "strips: {} strips, {} differ; refusals from 2 on: {:?}",
        all.strips,
        all.differ,
        &all.refused[2..]
    );
    // 1 never comes up, as the slices aren't short and the head is made by calls
    let never = (2..=10).filter(|number| all.refused[*number] == 0);
    let never: Vec<String> = never.map(|number| format!("refused {number}")).collect();
    idle.extend(never.iter().map(String::as_str));
    if !idle.is_empty() {
        println!(
            "strips: these did nothing, or too much: {}",
            idle.join(", ")
        );
    }
    all.differ == 0 && idle.is_empty()
}
