//! The calls of refusals.txt: wrong lengths, sizes, orders, counts, limits, exponents, kinds and
//! functions, one at a time and together, and right ones beside them.
use crate::functions::Function;
use crate::refusals::{offered, parts, wanted_lengths};

/// The longest buffer that a case lends: four floats a record at n = 34, and one more.
const LONGEST: u64 = 4 * 34 * 34 + 1;

#[derive(Copy, Clone, PartialEq)]
#[rustfmt::skip]
pub enum Entry {
    Lu = 1, Solve = 2, Determinant = 3, Inverse = 4, Jacobi = 5,
    ByNumber = 6, Operator = 7, Sum = 8, Product = 9, RootOfWord = 0xa, Root = 0xb,
    HyperDualLu = 0x11, HyperDualSolve = 0x12, HyperDualDeterminant = 0x13, HyperDualInverse = 0x14,
}
use Entry::*;

/// A call. The lengths are those of the first and the second input, the order, the result, and
/// Jacobi's values. The order is 0, 1, .., two places exchanged, and one place set to a value.
#[derive(Copy, Clone)]
pub struct Case {
    pub entry: Entry,
    /// The size, the kind of record, or the word of a float.
    pub n: u64,
    /// Inputs are all 1.0 (0), or whole numbers from -15 to 15 (1).
    pub style: u64,
    pub first: u64,
    pub second: u64,
    pub order: u64,
    pub result: u64,
    pub values: u64,
    pub exchanged: [u64; 2],
    pub set: Option<(u64, u64)>,
    /// powi's exponent.
    pub exponent: i32,
    /// The swap count, the sweep limit, or the function.
    pub count: u64,
}

pub fn cases() -> Vec<Case> {
    let mut all = vec![];
    for width in [2, 4] {
        all.extend(matrix_cases(width));
    }
    all.extend(jacobi_cases());
    all.extend(record_cases());
    all.extend(operator_cases());
    all.extend(run_cases());
    all.extend(root_cases());
    all.into_iter().filter(|case| case.lengths().iter().all(|length| *length <= LONGEST)).collect()
}

impl Case {
    /// A call of a matrix entry with the right lengths and the order 0, 1, ..
    pub fn matrix(entry: Entry, width: u64, n: u64) -> Self {
        let (square, vector) = (width * n * n, width * n);
        let case = Case {
            entry,
            n,
            style: 1,
            first: square,
            second: 0,
            order: n,
            result: square,
            values: 0,
            exchanged: [0, 0],
            set: None,
            exponent: 0,
            count: 0,
        };
        match entry {
            Solve | HyperDualSolve => Case { second: vector, result: vector, ..case },
            Determinant | HyperDualDeterminant => Case { result: width, ..case },
            Jacobi => Case { order: 0, values: vector, count: 50, ..case },
            _ => case,
        }
    }

    /// With the lengths of another size.
    fn with_size(self, n: u64) -> Self {
        Case { n, ..self }
    }

    pub fn lengths(&self) -> [u64; 5] {
        [self.first, self.second, self.order, self.result, self.values]
    }

    fn with_lengths(self, [first, second, order, result, values]: [u64; 5]) -> Self {
        Case { first, second, order, result, values, ..self }
    }

    /// Each length that the call takes, wrong in each way: one short, one long, none, and those of
    /// other calls.
    fn wrong_lengths(self, others: &[Self]) -> Vec<Self> {
        let right = self.lengths();
        let mut all = vec![];
        for place in self.taken().iter().copied() {
            let length = right[place];
            let near = [length.wrapping_sub(1), length + 1, 0];
            for wrong in near.into_iter().chain(others.iter().map(|other| other.lengths()[place])) {
                if wrong != length && wrong <= LONGEST {
                    let mut lengths = right;
                    lengths[place] = wrong;
                    all.push(self.with_lengths(lengths));
                }
            }
        }
        all
    }

    /// The places of the lengths that the entry is lent.
    pub fn taken(&self) -> &'static [usize] {
        match self.entry {
            Lu | HyperDualLu => &[0, 2, 3],
            Solve | HyperDualSolve => &[0, 1, 2, 3],
            Determinant | HyperDualDeterminant => &[0, 2],
            Inverse | HyperDualInverse => &[0, 2, 3],
            Jacobi => &[0, 3, 4],
            ByNumber => &[0, 1, 3],
            Operator | Sum | Product => &[0, 3],
            RootOfWord | Root => &[],
        }
    }

    pub fn reads_order(&self) -> bool {
        !matches!(self.entry, Lu | HyperDualLu) && self.taken().contains(&2)
    }

    /// Orders that are none: a number twice, the first or the last missing, numbers of n and above.
    fn wrong_orders(self) -> Vec<Self> {
        let n = self.n;
        let mut all = vec![];
        for place in [0, n / 2, n.wrapping_sub(1)] {
            let values =
                [0, 1, n / 2, n - 1, n, n + 1, 31, 32, 33, 63, 64, 1 << 32, (1 << 32) + place];
            for value in values.into_iter().chain([1 << 63, u64::MAX]) {
                if value != place {
                    all.push(Case { set: Some((place, value)), ..self });
                }
            }
        }
        all
    }
}

/// Sizes above 32 with the size whose lengths are lent: the next ones, and some whose square wraps.
#[rustfmt::skip]
const TOO_LARGE: [(u64, u64); 16] = [
    (33, 33), (33, 32), (33, 0), (34, 34), (34, 2), (64, 0), (65, 1), (1 << 16, 0), (1 << 31, 0),
    (1 << 32, 0), (1 << 32, 32), ((1 << 32) + 1, 1), (1 << 63, 0), (1 << 63, 2), (u64::MAX, 1),
    (u64::MAX, 0),
];

const SIZES: [u64; 4] = [0, 1, 2, 32];

#[rustfmt::skip]
const COUNTS: [u64; 7] =
    [1 << 8, 1 << 32, (1 << 32) + 1, 1 << 63, (1 << 63) + 1, u64::MAX - 1, u64::MAX];

fn matrix_cases(width: u64) -> Vec<Case> {
    let entries = match width {
        2 => [Lu, Solve, Determinant, Inverse],
        _ => [HyperDualLu, HyperDualSolve, HyperDualDeterminant, HyperDualInverse],
    };
    let mut all = vec![];
    for entry in entries {
        let right = |n| Case::matrix(entry, width, n);
        for n in [0, 1, 2, 3, 4, 5, 31, 32] {
            all.extend([right(n), Case { style: 0, ..right(n) }]);
        }
        all.extend(too_large(right));
        for n in SIZES {
            let other = Case::matrix(entry, 6 - width, n);
            let wrong = right(n).wrong_lengths(&[right(n.saturating_sub(1)), right(n + 1), other]);
            all.extend(wrong.iter().map(|case| Case { style: 0, ..*case }));
            if right(n).reads_order() && n > 0 {
                all.extend(with_orders(right(n), &wrong));
            }
        }
        if matches!(entry, Determinant | HyperDualDeterminant) {
            all.extend(with_counts(right));
        }
    }
    all
}

/// Sizes above 32, alone and with every other fault beside.
fn too_large(right: impl Fn(u64) -> Case) -> Vec<Case> {
    let with = |(n, lengths): (u64, u64)| {
        let case = right(lengths).with_size(n);
        [case, Case { count: 1001, set: Some((0, u64::MAX)), ..case }]
    };
    TOO_LARGE.into_iter().flat_map(with).collect()
}

/// Orders that are exchanged and are ones, that are none, and the latter beside a wrong length, with
/// a wrong count and without.
fn with_orders(right: Case, wrong: &[Case]) -> Vec<Case> {
    let n = right.n;
    let mut all = vec![];
    for (i, j) in [(0, 1), (0, n - 1), (n / 2, n - 1), (1, 2)] {
        if i < j && j < n {
            all.extend([0, 1].map(|count| Case { exchanged: [i, j], count, ..right }));
        }
    }
    let none = right.wrong_orders();
    all.extend(&none);
    for (k, case) in wrong.iter().enumerate() {
        all.push(Case { set: none[k % none.len()].set, count: [0, 33][k % 2], ..*case });
    }
    all
}

/// Counts of either parity and too large, beside orders of either parity, and beside none.
fn with_counts(right: impl Fn(u64) -> Case) -> Vec<Case> {
    let mut all = vec![];
    for n in [0, 1, 2, 3, 32] {
        let listed: Vec<u64> =
            if n == 2 { (0..36).collect() } else { vec![0, 1, 2, 31, 32, 33, 34] };
        for count in listed.into_iter().chain(COUNTS) {
            let case = Case { count, ..right(n) };
            all.push(case);
            if n > 1 {
                all.push(Case { exchanged: [0, n - 1], ..case });
            }
            if n > 1 && [1, 33, u64::MAX].contains(&count) {
                all.extend([n, 1].map(|value| Case { set: Some((0, value)), ..case }));
                all.push(Case { order: n + 1, ..case });
            }
        }
    }
    all
}

const LIMITS: [u64; 12] =
    [0, 1, 2, 999, 1000, 1001, 1002, 1 << 16, 1 << 32, (1 << 32) + 1, 1 << 63, u64::MAX];

fn jacobi_cases() -> Vec<Case> {
    let right = |n| Case::matrix(Jacobi, 2, n);
    let mut all = vec![];
    for n in [1, 2, 3, 8, 9, 32] {
        all.extend([right(n), Case { style: 0, ..right(n) }]);
    }
    all.extend(too_large(right));
    for n in SIZES {
        let wrong = right(n).wrong_lengths(&[right(n.saturating_sub(1)), right(n + 1)]);
        for count in if n == 32 { vec![0, 1000, 1001, u64::MAX] } else { LIMITS.to_vec() } {
            all.push(Case { count, ..right(n) });
        }
        all.extend(wrong.iter().flat_map(|case| [*case, Case { count: 1001, ..*case }]));
    }
    all
}

fn record_call(kind: u64, function: u64, [first, second, result]: [u64; 3]) -> Case {
    Case {
        entry: ByNumber,
        n: kind,
        count: function,
        first,
        second,
        result,
        order: 0,
        exponent: 3,
        ..Case::matrix(ByNumber, 0, 0)
    }
}

const KINDS: [u64; 10] = [0, 1, 2, 3, 4, 5, 6, 8, 1 << 16 | 1, 0xffff_ffff];

const EXPONENTS: [i32; 14] =
    [-1025, -1024, -1, 0, 1, 2, 3, 1024, 1025, 1 << 16, i32::MAX, i32::MIN, i32::MIN + 1, -2048];

/// sph_j1_series, which two kinds alone have.
const SERIES: u64 = Function::SphJ1Series as u64;

/// Every function of every kind with the right lengths; of `Dual`, and of some others, with wrong
/// ones too.
fn record_cases() -> Vec<Case> {
    let mut all = unknown_cases();
    all.extend(series_cases());
    for kind in 1..=5 {
        let width = parts(kind).expect("a kind");
        for function in 0..0x48 {
            let Some(lengths) = wanted_lengths(kind, function) else { continue };
            let right = record_call(kind, function, lengths);
            all.push(right);
            let wrong_too = [Function::Powi as u64, SERIES].contains(&function);
            if kind == 1 || (function + kind) % 16 == 0 || wrong_too {
                let longer = record_call(kind, function, lengths.map(|length| length + width));
                all.extend(right.wrong_lengths(&[longer]));
                all.push(Case { exponent: 4000, ..right });
            }
        }
        let powi = Function::Powi as u64;
        let right = record_call(kind, powi, wanted_lengths(kind, powi).expect("powi"));
        let wrong = right.wrong_lengths(&[]);
        all.extend(EXPONENTS.map(|exponent| Case { exponent, ..right }));
        all.extend(wrong.iter().map(|case| Case { exponent: 1025, ..*case }));
    }
    all
}

/// Numbers that no function has, those that a kind does not offer, and kinds that are none.
fn unknown_cases() -> Vec<Case> {
    let mut all = vec![];
    for kind in KINDS {
        let width = parts(kind).unwrap_or(4);
        let one = [[width, 0, width], [0, 0, width], [width, 0, 1], [width, 1, width]];
        let functions = [
            0,
            3,
            5,
            6,
            7,
            8,
            0x13,
            0x14,
            0x39,
            0x3a,
            SERIES,
            0x45,
            0x80,
            0x105,
            1 << 16 | 5,
            0xffff_ffff,
        ];
        // without its two floats sph_j1_series is refused by the kinds that have it too
        let refused = |function: &u64| *function == SERIES || offered(kind, *function).is_none();
        for function in functions.into_iter().filter(refused) {
            let some = if parts(kind).is_some() { &one[..] } else { &one[..1] };
            all.extend(some.iter().map(|lengths| record_call(kind, function, *lengths)));
        }
        if parts(kind).is_none() {
            let known = [1, 4, 9, 0x1b, 0x28, 0x3b];
            let like =
                [1, 4, 5].into_iter().flat_map(|like| known.map(|function| (like, function)));
            let lengths = |(like, function)| wanted_lengths(like, function).expect("a function");
            all.extend(like.map(|call| record_call(kind, call.1, lengths(call))));
        }
    }
    all
}

/// sph_j1_series for the kinds that have it not, with the lengths that the others want.
fn series_cases() -> Vec<Case> {
    let without = KINDS.into_iter().filter(|kind| offered(*kind, SERIES).is_none());
    let calls = without.flat_map(|kind| widths(kind).into_iter().map(move |width| (kind, width)));
    calls.map(|(kind, width)| record_call(kind, SERIES, [width, 2, width])).collect()
}

/// The widths that a call of this kind is tried with: its own; of a kind that is none, every one.
fn widths(kind: u64) -> Vec<u64> {
    parts(kind).map_or(vec![2, 3, 4, 8], |width| vec![width])
}

fn operator_cases() -> Vec<Case> {
    let mut all = vec![];
    for (kind, function) in KINDS.into_iter().flat_map(|kind| (9..13).map(move |f| (kind, f))) {
        let call = |first, result| Case {
            entry: Operator,
            ..record_call(kind, function, [first, 0, result])
        };
        for width in widths(kind) {
            all.push(call(2 * width, width));
        }
        if let Some(width) = parts(kind) {
            let right = call(2 * width, width);
            all.extend([
                Case { style: 0, ..right },
                call(width, 2 * width),
                call(width, width - 1),
            ]);
            all.extend(right.wrong_lengths(&[call(3 * width, 2 * width), call(4, 2)]));
        }
    }
    all
}

fn run_cases() -> Vec<Case> {
    let mut all = vec![];
    for (kind, entry) in KINDS.into_iter().flat_map(|kind| [(kind, Sum), (kind, Product)]) {
        let call = |run, out| Case { entry, ..record_call(kind, 0, [run, 0, out]) };
        for width in widths(kind) {
            all.extend([call(0, width), call(2 * width, width)]);
        }
        if let Some(width) = parts(kind) {
            all.extend((0..=3 * width + 1).map(|run| call(run, width)));
            all.extend([width - 1, width + 1, 0].map(|out| call(2 * width, out)));
            all.push(call(2 * width + 1, width + 1));
        }
    }
    all
}

/// The exports' root, by words and by floats: each of document 01's cases, and NaNs of other bits.
fn root_cases() -> Vec<Case> {
    let floats = [0.0, -0.0, 1.0, 2.0, 49.0, -1.0, f64::MIN_POSITIVE, f64::MAX, f64::INFINITY];
    let words = [1, 0x8000_0000_0000_0001, 0xfff0_0000_0000_0000, 0x7ff0_0000_0000_0001, u64::MAX];
    let words = floats.map(f64::to_bits).into_iter().chain(words);
    let case = |entry, n| Case { entry, n, ..record_call(0, 0, [0, 0, 0]) };
    words.flat_map(|n| [case(RootOfWord, n), case(Root, n)]).collect()
}
