//! A history of calls with what the program `histories` has to write for it: by the book, and by the model of the
//! memory where the book has no say.

use crate::book::{Book, Told};
use crate::calls::{Call, Head, Lent, Step};
use crate::case::Answer;
use crate::memory::{Memory, Outcome};
use crate::rust;
use crate::steps::Steps;

/// An answer that the program has to give. The value is none where the original has no call that gives it: on a
/// head that no call made, whose fresh cells aren't what their inputs give, or whose fractions or counts no call
/// accepts.
#[derive(Clone, Copy)]
pub enum Expected {
    Refused(u32),
    Done,
    Value(Option<u64>, usize),
}

impl Expected {
    /// The line but for the digest.
    fn text(&self) -> String {
        match self {
            Self::Refused(number) => format!("refused {number}"),
            Self::Done => "ok".to_string(),
            Self::Value(None, count) => format!("? {count}"),
            Self::Value(Some(bits), count) if f64::from_bits(*bits).is_nan() => {
                format!("nan {count}")
            }
            Self::Value(Some(bits), count) => format!("{bits:016x} {count}"),
        }
    }

    pub fn line(&self, digest: u64) -> String {
        format!("{} {digest:016x}", self.text())
    }

    /// Whether a line is as expected; in place of a value that isn't known any value may stand.
    pub fn agrees(&self, digest: u64, line: &str) -> bool {
        let expected = self.line(digest);
        match self {
            Self::Value(None, _) => {
                let value = line.split(' ').next().unwrap_or("");
                let is_hex =
                    value.len() == 16 && value.bytes().all(|b| b"0123456789abcdef".contains(&b));
                (value == "nan" || is_hex) && line[value.len()..] == expected[1..]
            }
            _ => line == expected,
        }
    }
}

/// What the calls have to answer: the memory by places, and the book, from an accepted opening or load on and until
/// a memory or a head is put in place.
pub struct Reference {
    memory: Memory,
    book: Option<Book>,
}

impl Reference {
    fn new() -> Self {
        let memory = Memory::new();
        Self { memory, book: None }
    }

    /// The answer to a call, by the memory alone and by the book. Where there is a book, it decides.
    fn call(&mut self, lent: Lent, call: &Call) -> Expected {
        let by_places = self.memory.call(lent, call);
        let begins = matches!(call, Call::Open | Call::Load(_));
        if self.book.is_none() && begins && matches!(by_places, Outcome::Done) {
            self.book = Some(Book::default());
        }
        let Some(book) = &mut self.book else {
            return by_memory(by_places);
        };
        if lent.is_short() {
            return Expected::Refused(1);
        }
        match (book.tell(call), by_places) {
            (Told::Refused(number), Outcome::Refused(other)) if number == other => {
                Expected::Refused(number)
            }
            (Told::Done, Outcome::Done) => Expected::Done,
            (Told::Value(bits, count), Outcome::Value(other, Some(_))) if count == other => {
                Expected::Value(Some(bits), count)
            }
            _ => panic!("the book and the model of the memory differ: {call}"),
        }
    }

    /// Whether a step belongs into a stored history: no long load, and no value that the original doesn't tell.
    pub fn can_store(&self, step: &Step) -> bool {
        match step {
            Step::Call(_, Call::Load(load)) => load.values.len() <= 150,
            Step::Call(lent, call @ Call::Query(_)) if self.book.is_none() => {
                let told = by_memory(self.memory.clone().call(*lent, call));
                !matches!(told, Expected::Value(None, _))
            }
            _ => true,
        }
    }

    fn step(&mut self, step: &Step) -> Expected {
        match step.clone() {
            Step::Call(lent, call) => return self.call(lent, &call),
            Step::Memory(values, cells, marks) => {
                let head = self.memory.head.clone();
                self.memory = Memory {
                    values,
                    cells,
                    marks,
                    head,
                };
            }
            Step::Head(head) => self.memory.head = head,
        }
        self.book = None;
        Expected::Done
    }
}

/// An answer on a head that no call made.
fn by_memory(outcome: Outcome) -> Expected {
    match outcome {
        Outcome::Refused(number) => Expected::Refused(number),
        Outcome::Done => Expected::Done,
        Outcome::Value(count, plain) => {
            let value = plain.and_then(|case| match rust::asked(&case) {
                Answer::Value(bits) => Some(bits),
                Answer::Refused(_) => None,
            });
            Expected::Value(value, count)
        }
    }
}

/// A step, with the answer and the digest after it.
pub struct Turn {
    pub step: Step,
    pub expected: Expected,
    pub digest: u64,
    /// The head's model and tolerance before it, and whether a book told the answer.
    pub model: usize,
    pub tolerance: f64,
    pub by_book: bool,
    /// Of the book after it: see `Book::has_off`.
    pub has_off: (bool, bool),
}

pub struct History {
    reference: Reference,
    pub turns: Vec<Turn>,
}

impl History {
    fn push(&mut self, step: Step) {
        let Head {
            model, tolerance, ..
        } = self.reference.memory.head;
        let expected = self.reference.step(&step);
        let book = self.reference.book.as_ref();
        self.turns.push(Turn {
            step,
            expected,
            digest: self.reference.memory.digest(),
            model: model.into(),
            tolerance,
            by_book: book.is_some(),
            has_off: book.map_or((false, false), Book::has_off),
        });
    }

    /// A memory of any content, a head, mostly an opening, and then random steps, of which `keep` keeps some.
    pub fn draw(seed: u64, steps: usize, keep: fn(&Reference, &Step) -> bool) -> Self {
        let mut draw = Steps::new(seed);
        let (reference, turns) = (Reference::new(), Vec::new());
        let mut history = Self { reference, turns };
        history.push(draw.memory());
        history.push(draw.head(&history.reference.memory));
        if seed % 8 != 0 {
            history.push(Step::Call(draw.lent(), Call::Open));
        }
        while history.turns.len() < steps {
            let step = draw.step(&history.reference.memory);
            if keep(&history.reference, &step) {
                history.push(step);
            }
        }
        history
    }

    pub fn script(&self) -> Vec<u8> {
        let mut script = Vec::new();
        self.turns
            .iter()
            .for_each(|turn| turn.step.put(&mut script));
        script
    }
}
