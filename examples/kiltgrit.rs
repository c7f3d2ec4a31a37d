//! The exported calls in Rust: put this file beside a program's own, say `mod kiltgrit;`, and link libkiltgrit.a.
//!
//! `raw` has the calls and structs of include/kiltgrit.h; `Mixture`, `plain`, `check_composition`, `import`,
//! `millionths` and `run` are a safe wrapper over them. Ask `floats_ok` at the start of each thread that calls.
#![allow(dead_code)] // a program may use some of it

/// Of include/kiltgrit.h; another version's archive is no longer laid out as `raw` has it.
const VERSION: u32 = 1 << 16 | 3 << 8;

/// How long the lent slices are, with room for what later versions lend.
const VALUES: usize = 5328;
const CELLS: usize = 1408;
const MARKS: usize = 1036;

/// By how much the sum of fractions may be off 1 after a load.
pub const USUAL_TOLERANCE: f64 = 1e-6;

/// The longest text of a strip.
const TEXT: usize = 655_367;

mod raw {
    #[repr(C)]
    #[derive(Clone, Copy)]
    pub struct Head {
        pub model: u8,
        pub form: u8,
        pub unused: [u8; 6],
        pub n: usize,
        pub ng: usize,
        pub lens: [u8; 12],
        pub groups: [u8; 144],
        pub changes: u32,
        pub t: f64,
        pub x: [f64; 12],
        pub has_t: u8,
        pub has_x: u8,
        pub also_unused: [u8; 6],
        pub tolerance: f64,
    }

    #[repr(C)]
    pub struct Answer {
        pub value: f64,
        pub cells_worked: usize,
        pub renewed: usize,
        pub refused: u32,
        pub unused: u32,
    }

    #[repr(C)]
    pub struct Reply {
        pub head: Head,
        pub answer: Answer,
    }

    #[repr(C)]
    #[derive(Clone, Copy)]
    pub struct Setting {
        pub v: [f64; 5],
        pub i: usize,
        pub j: usize,
        pub kind: u32,
        pub unused: u32,
    }

    #[repr(C)]
    pub struct Value {
        pub value: f64,
        pub refused: u32,
        pub unused: u32,
    }

    #[repr(C)]
    pub struct Shown {
        pub millionths: i64,
        pub refused: u32,
        pub unused: u32,
    }

    const _: () = assert!(size_of::<Head>() == 304 && size_of::<Reply>() == 336);
    const _: () = assert!(std::mem::offset_of!(Head, changes) == 180);
    const _: () = assert!(std::mem::offset_of!(Head, has_t) == 288);
    const _: () = assert!(size_of::<Answer>() == 32 && size_of::<Setting>() == 64);
    const _: () = assert!(size_of::<Value>() == 16 && size_of::<Shown>() == 16);

    #[rustfmt::skip]
    unsafe extern "C" {
        pub fn kiltgrit_version() -> u32;
        pub fn kiltgrit_exp(v: f64) -> f64;
        pub fn kiltgrit_log(v: f64) -> f64;
        pub fn kiltgrit_millionths(v: f64) -> Shown;
        pub fn kiltgrit_mixture_open(values: *const f64, values_len: usize, cells: *const f64, cells_len: usize,
            marks: *const u8, marks_len: usize, head: Head) -> Reply;
        pub fn kiltgrit_mixture_load(values: *mut f64, values_len: usize, cells: *const f64, cells_len: usize,
            marks: *mut u8, marks_len: usize, head: Head, model: u32, form: u32, n: usize, ng: usize,
            lens: *const u8, lens_len: usize, groups: *const u8, groups_len: usize,
            given: *const f64, given_len: usize) -> Reply;
        pub fn kiltgrit_mixture_set(values: *mut f64, values_len: usize, cells: *const f64, cells_len: usize,
            marks: *mut u8, marks_len: usize, head: Head, s: Setting) -> Reply;
        pub fn kiltgrit_mixture_fractions(values: *const f64, values_len: usize, cells: *const f64, cells_len: usize,
            marks: *const u8, marks_len: usize, head: Head, x: *const f64, x_len: usize) -> Reply;
        pub fn kiltgrit_mixture_query(values: *const f64, values_len: usize, cells: *mut f64, cells_len: usize,
            marks: *mut u8, marks_len: usize, head: Head, asked: u32, i: usize) -> Answer;
        pub fn kiltgrit_plain(model: u32, form: u32, n: usize, ng: usize, lens: *const u8, lens_len: usize,
            groups: *const u8, groups_len: usize, values: *const f64, values_len: usize, t: f64, tolerance: f64,
            x: *const f64, x_len: usize, asked: u32, i: usize) -> Value;
        pub fn kiltgrit_check_composition(tolerance: f64, x: *const f64, x_len: usize) -> u32;
        pub fn kiltgrit_import(text: *const u8, text_len: usize, n: usize, entries: *mut f64, entries_len: usize) -> u32;
        pub fn kiltgrit_run(strip: *const u8, strip_len: usize, out: *mut u8, out_len: usize) -> usize;
    }
}

/// Whether floats are rounded to nearest even and subnormals kept, which every answer rests on (see kiltgrit_floats_ok).
pub fn floats_ok() -> bool {
    let [least, one, ulp] = std::hint::black_box([f64::MIN_POSITIVE, 1.0, f64::EPSILON]);
    let half = least * 0.5;
    // SAFETY: two functions of numbers.
    let (exp, log) = unsafe { (raw::kiltgrit_exp(-1.0), raw::kiltgrit_log(3.0)) };
    half > 0.0
        && half + half == least
        && one + ulp * 0.5 == 1.0
        && (one + ulp) + ulp * 0.5 == 1.0 + 2.0 * ulp
        && -one - ulp * 0.5 == -1.0
        && exp == 0.36787944117144233
        && log == 1.0986122886681096
}

/// The documents' number of a refusal; the call has changed nothing.
#[derive(Debug)]
pub struct Refused(pub u32);

fn unless<T>(refused: u32, answer: T) -> Result<T, Refused> {
    if refused == 0 {
        Ok(answer)
    } else {
        Err(Refused(refused))
    }
}

#[derive(Clone, Copy)]
pub enum Model {
    Wilson = 1,
    Uniquac = 2,
    Nrtl = 3,
    Unifac = 4,
}

#[derive(Clone, Copy)]
pub enum Asked {
    LnGamma(usize),
    Gamma(usize),
    ExcessGibbs,
}

impl Asked {
    fn raw(self) -> (u32, usize) {
        match self {
            Asked::LnGamma(i) => (0, i),
            Asked::Gamma(i) => (1, i),
            Asked::ExcessGibbs => (2, 0),
        }
    }
}

#[derive(Clone, Copy)]
pub enum Setting {
    Temperature(f64),
    Entry(usize, usize, f64),
    TdEntry(usize, usize, [f64; 5]),
    Size(usize, usize, f64),
    Count(usize, usize, f64),
    Tolerance(f64),
}

impl Setting {
    fn raw(self) -> raw::Setting {
        let one = |v| [v, 0.0, 0.0, 0.0, 0.0];
        let (kind, i, j, v) = match self {
            Setting::Temperature(kelvin) => (5, 0, 0, one(kelvin)),
            Setting::Entry(i, j, v) => (7, i, j, one(v)),
            Setting::TdEntry(i, j, five) => (8, i, j, five),
            Setting::Size(i, which, v) => (9, i, which, one(v)),
            Setting::Count(i, place, v) => (10, i, place, one(v)),
            Setting::Tolerance(v) => (14, 0, 0, one(v)),
        };
        let unused = 0;
        raw::Setting {
            v,
            i,
            j,
            kind,
            unused,
        }
    }
}

/// What a load brings, in the header's order; for models other than UNIFAC ng is 0, and the lists are empty.
pub struct Data<'a> {
    pub model: Model,
    pub n: usize,
    pub ng: usize,
    pub lens: &'a [u8],
    pub groups: &'a [u8],
    pub values: &'a [f64],
}

/// A mixture that keeps its exponentials, with the memory that it lends and the head that the last call gave back.
pub struct Mixture {
    values: [f64; VALUES],
    cells: [f64; CELLS],
    marks: [u8; MARKS],
    head: raw::Head,
}

/// A call on a mixture, with what it takes beside the memory and the head.
macro_rules! call {
    ($name:ident, $mixture:expr $(, $more:expr)*) => {{
        let Mixture { values, cells, marks, head } = $mixture;
        // SAFETY: each pointer comes from a slice that lives to the end of the call, with its length; those of the
        // mixture overlap no other. The call refuses what it can't take.
        unsafe {
            raw::$name(
                values.as_mut_ptr(), VALUES, cells.as_mut_ptr(), CELLS, marks.as_mut_ptr(), MARKS, *head $(, $more)*
            )
        }
    }};
}

impl Mixture {
    pub fn open() -> Self {
        // SAFETY: it takes nothing.
        assert_eq!(
            unsafe { raw::kiltgrit_version() },
            VERSION,
            "libkiltgrit.a is another version's"
        );
        // SAFETY: a head is numbers, of which none is out of range; any will do.
        let head = unsafe { std::mem::zeroed() };
        let (values, cells, marks) = ([0.0; VALUES], [0.0; CELLS], [0; MARKS]);
        let mut opened = Self {
            values,
            cells,
            marks,
            head,
        };
        let reply = call!(kiltgrit_mixture_open, &mut opened);
        opened.took(reply).expect("the memory is long enough");
        opened
    }

    fn took(&mut self, reply: raw::Reply) -> Result<(), Refused> {
        self.head = reply.head;
        unless(reply.answer.refused, ())
    }

    #[rustfmt::skip]
    pub fn load(&mut self, d: &Data) -> Result<(), Refused> {
        let reply = call!(
            kiltgrit_mixture_load, &mut *self, d.model as u32, 0, d.n, d.ng, d.lens.as_ptr(), d.lens.len(),
            d.groups.as_ptr(), d.groups.len(), d.values.as_ptr(), d.values.len()
        );
        self.took(reply)
    }

    pub fn set(&mut self, setting: Setting) -> Result<(), Refused> {
        let reply = call!(kiltgrit_mixture_set, &mut *self, setting.raw());
        self.took(reply)
    }

    pub fn fractions(&mut self, x: &[f64]) -> Result<(), Refused> {
        let reply = call!(kiltgrit_mixture_fractions, &mut *self, x.as_ptr(), x.len());
        self.took(reply)
    }

    /// The value, and how many exponentials were worked out for it.
    pub fn query(&mut self, asked: Asked) -> Result<(f64, usize), Refused> {
        let (asked, i) = asked.raw();
        let answer = call!(kiltgrit_mixture_query, self, asked, i);
        unless(answer.refused, (answer.value, answer.cells_worked))
    }
}

/// The same at once, with nothing kept, by the usual tolerance.
pub fn plain(d: &Data, kelvin: f64, x: &[f64], asked: Asked) -> Result<f64, Refused> {
    plain_within(d, kelvin, USUAL_TOLERANCE, x, asked)
}

/// And by another tolerance.
#[rustfmt::skip]
pub fn plain_within(d: &Data, kelvin: f64, tolerance: f64, x: &[f64], asked: Asked) -> Result<f64, Refused> {
    let (asked, i) = asked.raw();
    // SAFETY: each pointer comes from a slice that lives to the end of the call, with its length.
    let answer = unsafe {
        raw::kiltgrit_plain(
            d.model as u32, 0, d.n, d.ng, d.lens.as_ptr(), d.lens.len(), d.groups.as_ptr(), d.groups.len(),
            d.values.as_ptr(), d.values.len(), kelvin, tolerance, x.as_ptr(), x.len(), asked, i,
        )
    };
    unless(answer.refused, answer.value)
}

/// The check of fractions alone: 14 of the tolerance, then 5 and 6.
pub fn check_composition(tolerance: f64, x: &[f64]) -> Result<(), Refused> {
    // SAFETY: the pointer comes from a slice that lives to the end of the call, with its length.
    let refused = unsafe { raw::kiltgrit_check_composition(tolerance, x.as_ptr(), x.len()) };
    unless(refused, ())
}

/// ln γ as a panel shows it: a whole number of millionths, a tie to the even one.
pub fn millionths(v: f64) -> Result<i64, Refused> {
    // SAFETY: a function of a number.
    let shown = unsafe { raw::kiltgrit_millionths(v) };
    unless(shown.refused, shown.millionths)
}

/// The energies of a supplier's list, by rows, into exactly n·n entries, which a refused call leaves as they were.
pub fn import(text: &[u8], n: usize, entries: &mut [f64]) -> Result<(), Refused> {
    let (into, len) = (entries.as_mut_ptr(), entries.len());
    // SAFETY: each pointer comes from a slice that lives to the end of the call, with its length, and they don't overlap.
    let refused = unsafe { raw::kiltgrit_import(text.as_ptr(), text.len(), n, into, len) };
    unless(refused, ())
}

/// The text of a strip that is run whole.
pub fn run(strip: &[u8]) -> String {
    let mut out = vec![0; TEXT];
    // SAFETY: as above; `out` overlaps no other slice.
    let length =
        unsafe { raw::kiltgrit_run(strip.as_ptr(), strip.len(), out.as_mut_ptr(), out.len()) };
    String::from_utf8_lossy(&out[..length]).into_owned()
}
