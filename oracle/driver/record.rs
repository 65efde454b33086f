//! What a call of the counting copy met on its way. It becomes a module of that copy, whose added
//! calls note values and change none; the driver checks that the answers have the same bits.
use std::cell::{Cell, RefCell};

/// One part of the integral's range.
pub type Part = (f64, f64, f64, f64);

#[derive(Default)]
pub struct Record {
    /// The column whose numbers were looked at last.
    pub column: usize,
    /// The sum of squares, and of squared differences.
    pub sums: Option<(f64, f64)>,
    /// Each Cholesky pivot, with its column's sum of squares.
    pub pivots: Vec<(f64, f64)>,
    /// (X'X)^-1, row after row.
    pub inverse: Vec<f64>,
    /// M A M, row after row.
    pub product: Vec<f64>,
    /// Diagonal and couplings after Householder's steps.
    pub diagonal: Vec<f64>,
    pub couplings: Vec<f64>,
    /// The n numbers that the QL step delivers, before they are put in order and cut.
    pub delivered: Vec<f64>,
    /// The eigenvalues kept, falling.
    pub kept: Vec<f64>,
    /// The weights that are not zero.
    pub weights: Vec<f64>,
    /// The ends of the integral's range.
    pub range: Option<(f64, f64)>,
    /// Whether a part's value or error estimate was not finite.
    pub estimate_not_finite: bool,
    /// The parts at the end: low end, high end, value, error estimate.
    pub parts: Vec<Part>,
    pub integral: Option<f64>,
    /// Imhof's probability before it is clamped.
    pub imhof: Option<f64>,
    /// Whether the normal approximation was asked for.
    pub normal: bool,
    /// Its mean and variance.
    pub law: Option<(f64, f64)>,
    pub sweeps: u64,
    /// Whether an index still had a coupling left after its 60 sweeps.
    pub stuck: bool,
    pub bisections: u64,
    /// Bisections at which another part had the greatest error too.
    pub ties: u64,
    pub evaluations: u64,
}

impl Record {
    /// The sum of the parts' errors at the end, first to last; 0 where no integral was made.
    pub fn error_sum(&self) -> f64 {
        self.parts.iter().fold(0.0, |sum, part| sum + part.3)
    }
}

thread_local! {
    static RECORD: RefCell<Record> = RefCell::new(Record::default());
    static EVALUATIONS: Cell<u64> = const { Cell::new(0) };
}

fn note(change: impl FnOnce(&mut Record)) {
    RECORD.with(|record| change(&mut record.borrow_mut()));
}

/// The record of the calls since it was taken last.
pub fn take() -> Record {
    let mut record = RECORD.with(|record| record.take());
    record.evaluations = EVALUATIONS.with(|count| count.take());
    record
}

pub fn column(j: usize) {
    note(|r| r.column = j);
}

pub fn sums(squares: f64, differences: f64) {
    note(|r| r.sums = Some((squares, differences)));
}

pub fn pivot(pivot: f64, scale: f64) {
    note(|r| r.pivots.push((pivot, scale)));
}

pub fn inverse(rows: &[Vec<f64>]) {
    note(|r| r.inverse = rows.concat());
}

pub fn product(rows: &[Vec<f64>]) {
    note(|r| r.product = rows.concat());
}

pub fn tridiagonal(diagonal: &[f64], couplings: &[f64]) {
    note(|r| {
        r.diagonal = diagonal.to_vec();
        r.couplings = couplings.to_vec();
    });
}

pub fn sweep() {
    note(|r| r.sweeps += 1);
}

/// An index is left with a coupling: its block is looked at after its 60th sweep, and is not the index alone.
pub fn stuck() {
    note(|r| r.stuck = true);
}

pub fn delivered(numbers: &[f64]) {
    note(|r| r.delivered = numbers.to_vec());
}

pub fn kept(eigenvalues: &[f64]) {
    note(|r| r.kept = eigenvalues.to_vec());
}

pub fn weights(weights: &[f64]) {
    note(|r| r.weights = weights.to_vec());
}

pub fn range(low: f64, high: f64) {
    note(|r| r.range = Some((low, high)));
}

pub fn evaluation() {
    EVALUATIONS.with(|count| count.set(count.get() + 1));
}

pub fn estimate(estimate: (f64, f64)) -> (f64, f64) {
    if !(estimate.0.is_finite() && estimate.1.is_finite()) {
        note(|r| r.estimate_not_finite = true);
    }
    estimate
}

pub fn bisection() {
    note(|r| r.bisections += 1);
}

/// The part that is to be split, by its place.
pub fn worst(parts: &[Part], place: usize) {
    let equals = parts.iter().filter(|p| p.3.to_bits() == parts[place].3.to_bits()).count();
    note(|r| r.ties += (equals > 1) as u64);
}

pub fn parts(parts: &[Part]) {
    note(|r| r.parts = parts.to_vec());
}

pub fn integral(integral: f64) -> f64 {
    note(|r| r.integral = Some(integral));
    integral
}

pub fn imhof(probability: f64) -> f64 {
    note(|r| r.imhof = Some(probability));
    probability
}

pub fn normal() {
    note(|r| r.normal = true);
}

pub fn law(mean: f64, variance: f64) {
    note(|r| r.law = Some((mean, variance)));
}
