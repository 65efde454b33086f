//! One sheet, answered by the Rust, with the counts of the counting copy beside it.
use crate::sheet_file::{Alternative, Choice, Sheet};
use counted::record::{self, Record};

/// What a line of the sheet program says, but for the index.
#[derive(Default)]
pub struct Line {
    pub refusal: u32,
    pub place: usize,
    pub statistic: f64,
    pub p: f64,
    pub path: u32,
    pub fallback: bool,
    pub kept: usize,
    pub sweeps: u64,
    pub bisections: u64,
    pub evaluations: u64,
    pub settled: bool,
}

impl Line {
    pub fn refused(refusal: u32, place: usize) -> Line {
        Line { refusal, place, ..Line::default() }
    }
}

impl Sheet {
    pub fn rows(&self) -> usize {
        self.residuals.len()
    }

    /// Whether the exact path is due, refusals apart.
    pub fn is_exact(&self) -> bool {
        let chosen = match self.choice {
            Choice::Default => self.rows() < 100,
            Choice::Exact => true,
            Choice::Normal => false,
        };
        chosen && self.rows() >= 3
    }

    pub fn column_slices(&self) -> Vec<&[f64]> {
        self.columns.iter().map(Vec::as_slice).collect()
    }
}

/// The bits of a number; every NaN has one pattern.
pub fn bits(x: f64) -> u64 {
    if x.is_nan() {
        0x7ff8_0000_0000_0000
    } else {
        x.to_bits()
    }
}

pub fn same_run(a: &[f64], b: &[f64]) -> bool {
    a.len() == b.len() && a.iter().zip(b).all(|(&x, &y)| bits(x) == bits(y))
}

/// The call of one copy of the Rust. The two copies are two crates, so their types are two.
macro_rules! call {
    ($copy:ident, $sheet:expr) => {{
        use $copy::parametric::Alternative as Theirs;
        let alternative = match $sheet.alternative {
            Alternative::Greater => Theirs::Greater,
            Alternative::Less => Theirs::Less,
            Alternative::TwoSided => Theirs::TwoSided,
        };
        let exact = match $sheet.choice {
            Choice::Default => None,
            Choice::Exact => Some(true),
            Choice::Normal => Some(false),
        };
        $copy::timeseries::dwtest::durbin_watson_test(
            &$sheet.residuals,
            &$sheet.column_slices(),
            alternative,
            exact,
        )
        .map(|r| (r.statistic.unwrap(), r.p_value.unwrap()))
        .map_err(|e| format!("{e:?}"))
    }};
}

/// Document 01's number and place of an error of the Rust, which knows it by its text.
fn refusal(error: &str, sheet: &Sheet, record: &Record) -> (u32, usize) {
    let index = |after: &str| -> usize {
        let (_, rest) = error.split_once(after).unwrap();
        rest.chars().take_while(char::is_ascii_digit).collect::<String>().parse().unwrap()
    };
    let known = [
        ("x must have at least one column", 1),
        ("of x has length", 3),
        ("non-finite value in x at index ", 4),
        ("EmptyData", 5),
        ("InsufficientData", 6),
        ("non-finite value in residuals at index ", 7),
        ("undefined when all residuals are zero", 8),
        ("need more observations than columns", 10),
        ("rank deficient", 11),
    ];
    for (text, number) in known {
        if error.contains(text) {
            let place = match number {
                4 => record.column * sheet.rows() + index(text),
                7 => index(text),
                11 => record.pivots.len() - 1,
                _ => 0,
            };
            return (number, place);
        }
    }
    panic!("an error of the Rust that has no number: {error}");
}

fn path(sheet: &Sheet, record: &Record) -> u32 {
    match (sheet.rows(), record.normal) {
        (0..=2, _) => 1,
        (_, false) => 2,
        (3..=4, true) => 4,
        (_, true) => 3,
    }
}

/// An integral has ended where its final error sum is at most this: the Rust's `0.5 * IMHOF_TOL`.
const TOLERANCE: f64 = 5e-12;

/// Whether no index was left with a coupling and the integral, where one was made, has ended. A NaN among the errors has not.
fn settled(record: &Record) -> bool {
    !record.stuck && record.error_sum() <= TOLERANCE
}

/// The Rust's answer to a sheet, and what the counting copy met on the way.
/// An error is a difference between the two copies, which would be a fault of the oracle.
pub fn answer(sheet: &Sheet) -> Result<(Line, Record), String> {
    let plain = call!(answers, sheet);
    record::take();
    let counting = call!(counted, sheet);
    let record = record::take();
    match (&plain, &counting) {
        (Ok(a), Ok(b)) if bits(a.0) == bits(b.0) && bits(a.1) == bits(b.1) => {}
        (Err(a), Err(b)) if a == b => {}
        _ => return Err(format!("the counting copy answers {counting:?}, the plain copy {plain:?}")),
    }
    let line = match plain {
        Err(error) => {
            let (number, place) = refusal(&error, sheet, &record);
            Line::refused(number, place)
        }
        Ok((statistic, p)) => Line {
            refusal: 0,
            place: 0,
            statistic,
            p,
            path: path(sheet, &record),
            fallback: sheet.is_exact() && record.normal,
            kept: record.kept.len(),
            sweeps: record.sweeps,
            bisections: record.bisections,
            evaluations: record.evaluations,
            settled: settled(&record),
        },
    };
    Ok((line, record))
}

/// Asks the opened functions of the plain copy once more, step by step, and compares with the record.
pub fn check_steps(sheet: &Sheet, record: &Record) -> Result<(), String> {
    use answers::timeseries::dwtest::{imhof_prob_below_zero, ma_eigenvalues, xtx_inverse};
    let columns = sheet.column_slices();
    if record.inverse.is_empty() {
        return Ok(());
    }
    let inverse = xtx_inverse(&columns).map_err(|e| format!("{e:?}"))?;
    if !same_run(&inverse.concat(), &record.inverse) {
        return Err("the inverse of the counting copy differs".into());
    }
    if let Some(imhof) = record.imhof {
        let kept = ma_eigenvalues(&columns, &inverse);
        if !same_run(&kept, &record.kept) {
            return Err("an eigenvalue of the counting copy differs".into());
        }
        if bits(imhof_prob_below_zero(&record.weights)) != bits(imhof) {
            return Err("Imhof's probability of the counting copy differs".into());
        }
    }
    Ok(())
}
