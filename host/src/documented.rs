//! The inputs of docs/DIFFERENCES.md, all at 300 K, by its entries: what it says that paper, source and port give.

use crate::case::{Answer, Case, Quantity, NRTL, UNIFAC, UNIQUAC, WILSON};
use crate::compare::bits;
use crate::tolerance::{USUAL, WIDEST};
use crate::{papers, rust};
use original::nrtl::Nrtl;
use original::parameters::{InteractionMatrix, TdMatrix, TdParam, Volumes};
use original::unifac::{GroupTable, UnifacModel, UnifacVariant};
use original::uniquac::{StructuralParams, Uniquac};
use original::wilson::Wilson;
use tpt_thermo_core::error::ThermoError;
use Quantity::{ExcessGibbs, LnGamma};

/// An input that the source answers: the paper's value as worked out and as given, the source's, the port's answer.
pub struct Value {
    pub case: Case,
    pub paper: f64,
    pub given: f64,
    pub source: f64,
    pub port: Answer,
}

/// An input that the source refuses: what it says, the text that is given, and the port's number.
pub struct Refusal {
    pub said: Result<(), ThermoError>,
    pub text: &'static str,
    pub case: Case,
    pub number: u32,
}

/// An input that the source refuses and the port takes: what the source says, the text that is given, the paper's
/// value as worked out and as given, and the port's.
pub struct Taken {
    pub said: Result<(), ThermoError>,
    pub text: &'static str,
    pub case: Case,
    pub paper: f64,
    pub given: f64,
    pub port: f64,
}

/// An entry's title, and its inputs.
pub type Entry<T> = (&'static str, Vec<T>);

// ---- how an input is made

/// A case of a model without groups.
fn call(model: u32, values: Vec<f64>, x: &[f64], quantity: Quantity) -> Case {
    Case {
        model,
        n: x.len(),
        ng: 0,
        lens: Vec::new(),
        groups: Vec::new(),
        values: values.into(),
        t: 300.0,
        tolerance: USUAL,
        x: x.to_vec().into(),
        quantity,
    }
}

/// UNIQUAC of two components: the energies, then r, r, q, q.
fn uniquac(a: [f64; 4], sizes: [f64; 4], x: [f64; 2], quantity: Quantity) -> Case {
    call(UNIQUAC, [a, sizes].concat(), &x, quantity)
}

/// NRTL's ln γ of 0 in two components, half of each.
fn nrtl(tau_01: [f64; 5], tau_10: [f64; 5], alpha_01: f64, alpha_10: f64) -> Case {
    let none = [0.0; 5];
    let mut values = [none, tau_01, tau_10, none].concat();
    values.extend([0.0, alpha_01, alpha_10, 0.0]);
    call(NRTL, values, &[0.5, 0.5], LnGamma(0))
}

/// UNIFAC's ln γ of 0, with a = 0 and R = Q, which are given for each group.
fn unifac(sizes: &[f64], lists: &[&[(u8, f64)]], x: &[f64]) -> Case {
    let (ng, pairs) = (sizes.len(), lists.concat());
    let mut values = [sizes, sizes].concat();
    values.extend(vec![0.0; 5 * ng * ng]);
    values.extend(pairs.iter().map(|pair| pair.1));
    let mut case = call(UNIFAC, values, x, LnGamma(0));
    case.ng = ng;
    case.lens = lists.iter().map(|list| list.len() as u8).collect();
    case.groups = pairs.iter().map(|pair| pair.0).collect();
    case
}

/// The same with the five of a_mn.
fn with_a(m: usize, n: usize, five: [f64; 5], mut case: Case) -> Case {
    let place = 2 * case.ng + 5 * (m * case.ng + n);
    case.values.all[place..][..5].copy_from_slice(&five);
    case
}

/// One group with R = Q = 1, which component 0 lists once and component 1 twice.
fn once_and_twice(x: [f64; 2]) -> Case {
    unifac(&[1.0], &[&[(0, 1.0)], &[(0, 2.0)]], &x)
}

/// Two groups with R = Q = 1 and two components, half of each, each of one group.
fn two_groups() -> Case {
    unifac(&[1.0; 2], &[&[(0, 1.0)], &[(1, 1.0)]], &[0.5, 0.5])
}

/// UNIFAC's a that is a number.
fn number(a: f64) -> [f64; 5] {
    [a, 0.0, 0.0, 0.0, 0.0]
}

// ---- values

/// Source and port give the same.
fn agree(case: Case, given: f64, source: f64) -> Value {
    let paper = papers::value(&case);
    let port = Answer::Value(bits(source));
    Value {
        case,
        paper,
        given,
        source,
        port,
    }
}

/// The same, beside the published Dortmund form with a c of its own for a_01.
fn agree_dortmund(case: Case, c_01: f64, given: f64, source: f64) -> Value {
    let paper = papers::dortmund(&case, c_01);
    Value {
        paper,
        ..agree(case, given, source)
    }
}

/// The port's range ends before the source's.
fn narrower(case: Case, given: f64, source: f64) -> Value {
    let port = Answer::Refused(2);
    Value {
        port,
        ..agree(case, given, source)
    }
}

fn of_uniquac() -> Vec<Entry<Value>> {
    let diagonal = uniquac([0.0, 0.0, 0.0, 300.0], [1.0; 4], [0.5; 2], LnGamma(0));
    let a_ii = agree(diagonal, -0.23105857863000479, -0.38905592832827274);
    let like = |quantity| uniquac([0.0; 4], [1.0; 4], [0.0, 1.0], quantity);
    let at_zero = vec![
        agree(like(LnGamma(0)), 0.0, f64::NAN),
        agree(like(LnGamma(1)), 0.0, 0.0),
        agree(like(ExcessGibbs), 0.0, f64::NAN),
    ];
    vec![
        ("UNIQUAC subtracts a_ii", vec![a_ii]),
        ("UNIQUAC at a zero fraction", at_zero),
    ]
}

fn of_forms() -> Vec<Entry<Value>> {
    let a = [0.0, 100.0, -50.0, 0.0];
    let excess = uniquac(a, [2.0, 1.0, 1.5, 1.25], [0.25, 0.75], ExcessGibbs);
    let (half, none) = (once_and_twice([0.5, 0.5]), once_and_twice([0.0, 1.0]));
    let equal = vec![
        agree(excess, 0.17004003803759918, 0.17004003803759937),
        agree(half, -0.07213177477483113, -0.07213177477483107),
        agree(none, -0.1931471805599453, -0.1931471805599453),
    ];
    let with_v = [&a[..], &[1.0, 2.0]].concat();
    let binary = call(WILSON, with_v, &[0.3, 0.7], ExcessGibbs);
    let notation = agree(binary, 0.012277038480301927, 0.012277038480302052);
    let group = unifac(&[1.0], &[&[(0, 1.0)]], &[1.0000005]);
    let alone = |model, values, quantity| call(model, values, &[1.0000005], quantity);
    let wilson = |quantity| alone(WILSON, vec![0.0, 1.0], quantity);
    let uniquac = alone(UNIQUAC, vec![0.0, 1.0, 1.0], LnGamma(0));
    let nrtl = alone(NRTL, vec![0.0; 6], LnGamma(0));
    let ln_x = -4.999998750475805e-7;
    let off_one = vec![
        agree(group, ln_x, -1.2499991670305406e-13),
        agree(wilson(ExcessGibbs), 0.0, -5.000001250698682e-7),
        agree(
            wilson(LnGamma(0)),
            -5.00000000069889e-7,
            -4.999998750587764e-7,
        ),
        agree(uniquac, ln_x, ln_x),
        agree(nrtl, 0.0, 0.0),
    ];
    vec![
        ("Algebraically equal forms", equal),
        ("Wilson's notation", vec![notation]),
        ("Fractions that don't sum to 1 exactly", off_one),
    ]
}

fn of_groups() -> Vec<Entry<Value>> {
    let below_zero = |quantity| {
        let case = unifac(&[2.0, 1.0], &[&[(0, 1.0)], &[(1, 3.0)]], &[2.0, -1.0]);
        Case { quantity, ..case }
    };
    let guard = vec![
        agree(below_zero(LnGamma(0)), -0.3068528194400547, f64::NAN),
        agree(below_zero(LnGamma(1)), -0.9013877113318904, f64::NAN),
    ];
    let pure = |list| with_a(0, 1, number(300.0), unifac(&[1.0; 2], &[list], &[1.0]));
    let (apart, added) = ([(0, 1.0), (1, 1.0), (1, 1.0)], [(0, 1.0), (1, 2.0)]);
    let twice = vec![
        agree(pure(&apart), 0.0, -0.05547743823372231),
        agree(pure(&added), 0.0, 0.0),
    ];
    let diagonal = with_a(0, 0, number(300.0), two_groups());
    let a_mm = agree(diagonal, 0.0, -0.38905592832827274);
    vec![
        ("Amounts of groups not above 0", guard),
        ("A group listed twice", twice),
        ("UNIFAC's a_mm", vec![a_mm]),
    ]
}

fn of_parameters() -> Vec<Entry<Value>> {
    let (over_t, none) = ([0.0, 300.0, 0.0, 0.0, 0.0], [0.0; 5]);
    let alphas = nrtl(over_t, over_t, 0.2, 0.4);
    let five = nrtl([0.1, 300.0, 0.05, 0.001, 900.0], none, 0.3, 0.3);
    let linear = || with_a(0, 1, [100.0, 0.0, 0.0, 0.5, 0.0], two_groups());
    let wider = vec![
        agree(alphas, 0.4501660026875221, 0.40856816685787883),
        agree(five, 0.24445831169074586, 0.3975348978854768),
        agree(linear(), 0.08257020646231461, 0.19705928396540728),
    ];
    let half = once_and_twice([0.5, 0.5]);
    let variant = agree_dortmund(half, 0.0, -0.03910811856082802, -0.07213177477483107);
    let square = agree_dortmund(linear(), 0.001, 0.2564535292304042, 0.19705928396540728);
    vec![
        ("Wider than the papers", wider),
        ("The dropped variant", vec![variant]),
        ("Dortmund's c·T²", vec![square]),
    ]
}

fn of_range() -> Vec<Entry<Value>> {
    let (mut first, values) = ([0.0; 13], [vec![0.0; 169], vec![1.0; 13]]);
    first[0] = 1.0;
    let thirteen = call(WILSON, values.concat(), &first, LnGamma(0));
    let pure = |ng, list| unifac(&vec![1.0; ng], &[list], &[1.0]);
    let range = vec![
        narrower(thirteen, 0.0, 0.0),
        narrower(pure(33, &[(0, 1.0)]), 0.0, 0.0),
        narrower(pure(0, &[]), f64::NAN, f64::NAN),
        narrower(pure(1, &[(0, 1.0); 13]), 0.0, 0.0),
    ];
    vec![("A narrower range", range)]
}

pub fn values() -> Vec<Entry<Value>> {
    let agree = [of_uniquac(), of_forms(), of_groups(), of_parameters()];
    agree.into_iter().flatten().chain(of_range()).collect()
}

// ---- refusals

/// The source makes the model and is asked.
fn asked(text: &'static str, number: u32, case: Case) -> Refusal {
    let said = rust::ask_model(&case, UnifacVariant::Original).map(drop);
    Refusal {
        said,
        text,
        case,
        number,
    }
}

/// A constructor is given wrong sizes, and the port as many numbers.
fn sized<T>(made: Result<T, ThermoError>, text: &'static str, case: Case) -> Refusal {
    let (said, number) = (made.map(drop), 2);
    Refusal {
        said,
        text,
        case,
        number,
    }
}

const OFF_ONE: &str = "composition does not sum to 1";

/// UNIFAC of one component and one group, with a sum that is off 1 by 2^-10.
fn off_by_a_thousandth(tolerance: f64) -> Case {
    let case = unifac(&[1.0], &[&[(0, 1.0)]], &[1.0009765625]);
    Case { tolerance, ..case }
}

fn of_calls() -> Vec<Refusal> {
    let alone = |x: &[f64], quantity| {
        let case = call(WILSON, vec![0.0, 1.0], x, quantity);
        Case { n: 1, ..case }
    };
    let pure = |pair| unifac(&[1.0], &[&[pair]], &[1.0]);
    let (none, half, both) = (&[], &[0.5], &[0.5, 0.5]);
    vec![
        asked("UNIFAC group index out of range", 3, pure((1, 1.0))),
        asked("UNIFAC negative group count", 4, pure((0, -1.0))),
        asked("empty composition", 5, alone(none, LnGamma(0))),
        asked(OFF_ONE, 6, alone(half, LnGamma(0))),
        asked("composition/ index mismatch", 7, alone(&[1.0], LnGamma(1))),
        asked("composition length mismatch", 7, alone(both, ExcessGibbs)),
    ]
}

const NOT_SQUARE: &str = "InteractionMatrix must be square and non-empty";
const NOT_SQUARE_TD: &str = "TdMatrix must be square and non-empty";

/// Of two components, but for one part that is short.
fn of_sizes() -> Vec<Refusal> {
    let (both, td) = ([0.5, 0.5], TdParam::default());
    let numbers = |model, count| call(model, vec![0.0; count], &both, ExcessGibbs);
    let energies = InteractionMatrix::zeros(2);
    let wilson = Wilson::new(energies.clone(), Volumes::new(vec![1.0]));
    let uniquac = Uniquac::new(StructuralParams::new(vec![(1.0, 1.0)]), energies);
    let nrtl = Nrtl::new(TdMatrix::zeros(2), vec![vec![0.0; 2]]);
    let full = InteractionMatrix::from_full(vec![vec![0.0; 2], vec![0.0]]);
    let full_td = TdMatrix::from_full(vec![vec![td; 2], vec![td]]);
    let alpha = "NRTL α matrix must match τ matrix size";
    vec![
        sized(
            wilson,
            "Wilson volumes length mismatch",
            numbers(WILSON, 4 + 1),
        ),
        sized(
            uniquac,
            "UNIQUAC matrix size mismatch",
            numbers(UNIQUAC, 4 + 2),
        ),
        sized(nrtl, alpha, numbers(NRTL, 20 + 2)),
        sized(full, NOT_SQUARE, numbers(WILSON, 3 + 2)),
        sized(full_td, NOT_SQUARE_TD, numbers(NRTL, 15 + 4)),
    ]
}

/// The same of UNIFAC: a Q, or a list.
fn of_unifac_sizes() -> Vec<Refusal> {
    let fives = vec![vec![TdParam::default(); 2]; 2];
    let table = |qs| GroupTable::new(vec![1.0; 2], vec![1.0; qs], fives.clone());
    let lists = vec![vec![(0, 1.0)]];
    let model =
        table(2).and_then(|table| UnifacModel::new(2, lists, table, UnifacVariant::Original));
    let mut one_q = two_groups();
    one_q.values.all.remove(3);
    let one_list = unifac(&[1.0; 2], &[&[(0, 1.0)]], &[0.5, 0.5]);
    vec![
        sized(table(1), "UNIFAC group table dimension mismatch", one_q),
        sized(model, "UNIFAC component/group count mismatch", one_list),
    ]
}

/// Of no component at all.
fn of_nothing() -> Vec<Refusal> {
    let nothing = |model| call(model, Vec::new(), &[], LnGamma(0));
    let full = InteractionMatrix::from_full(Vec::new());
    let full_td = TdMatrix::from_full(Vec::new());
    let empty = asked("empty composition", 2, nothing(WILSON));
    vec![
        empty,
        sized(full, NOT_SQUARE, nothing(WILSON)),
        sized(full_td, NOT_SQUARE_TD, nothing(NRTL)),
    ]
}

/// The entry of the source's texts.
pub const TEXTS: &str = "One number where the source has texts";

pub fn refusals() -> Vec<Entry<Refusal>> {
    let texts = [of_calls(), of_sizes(), of_unifac_sizes()];
    let texts = texts.into_iter().flatten().collect();
    let wider = vec![
        asked(OFF_ONE, 6, off_by_a_thousandth(USUAL)),
        asked(OFF_ONE, 14, off_by_a_thousandth(0.01)),
    ];
    vec![
        ("A narrower range", of_nothing()),
        (TEXTS, texts),
        ("A tolerance", wider),
    ]
}

pub fn taken() -> Vec<Entry<Taken>> {
    let case = off_by_a_thousandth(WIDEST);
    let said = rust::ask_model(&case, UnifacVariant::Original).map(drop);
    let group = Taken {
        said,
        text: OFF_ONE,
        paper: papers::value(&case),
        case,
        given: -0.0009760859730554598,
        port: -4.7621695789795e-7,
    };
    vec![("A tolerance", vec![group])]
}
