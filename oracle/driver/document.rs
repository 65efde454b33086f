//! What document 01 asks of the port, read from the Rust's answer and from what its steps held: the
//! Rust's refusals with the added ones (2, 9, 12, 13, 14) in document 01's order. It shares nothing
//! with the port's own code.
use crate::answer::Line;
use crate::sheet_file::Sheet;
use counted::record::Record;

const MOST_ROWS: usize = 256;
const MOST_COLUMNS: usize = 8;

fn finite(numbers: &[f64]) -> bool {
    numbers.iter().all(|x| x.is_finite())
}

fn finite_pair(pair: Option<(f64, f64)>) -> bool {
    pair.is_none_or(|(a, b)| a.is_finite() && b.is_finite())
}

/// The lengths of the two rooms that a caller lends.
#[derive(Clone, Copy)]
pub struct Rooms {
    pub matrix: usize,
    pub parts: usize,
}

/// Four runs of 2,001 numbers: the parts of 2,000 bisections.
pub const PART_ROOM: usize = 8004;

/// The matrix room that so many rows want: two lower triangles.
fn matrix_room(rows: usize) -> usize {
    rows * (rows + 1)
}

impl Rooms {
    /// Matrix room for so many rows, and full part room.
    pub fn of_rows(rows: usize) -> Rooms {
        Rooms { matrix: matrix_room(rows), parts: PART_ROOM }
    }
}

/// The refusals that turn on sizes alone: number and place.
pub fn refusal_of_sizes(rows: usize, columns: usize) -> Option<(u32, usize)> {
    let when = |test: bool, number, place| test.then_some((number, place));
    when(columns == 0, 1, 0).or(when(rows > MOST_ROWS, 2, 0)).or(when(columns > MOST_COLUMNS, 2, 1))
}

/// The first refusal of document 01, number and place, for a caller that lends these rooms.
fn refusal(sheet: &Sheet, rust: &Line, record: &Record, rooms: Rooms) -> Option<(u32, usize)> {
    let (rows, columns) = (sheet.rows(), sheet.columns.len());
    let rust_says = |numbers: &[u32]| numbers.contains(&rust.refusal).then_some((rust.refusal, rust.place));
    let when = |test: bool, number, place| test.then_some((number, place));

    refusal_of_sizes(rows, columns)
        .or(rust_says(&[3, 4, 5, 6, 7, 8]))
        .or(when(!finite_pair(record.sums), 9, 0))
        .or(rust_says(&[10, 11]))
        .or(when(!finite(&record.inverse), 13, 1))
        .or(when(sheet.is_exact() && rooms.matrix < matrix_room(rows), 12, 1))
        .or(when(sheet.is_exact() && rooms.parts < PART_ROOM, 12, 2))
        .or(when(!finite(&record.product), 13, 2))
        .or(when(!finite(&record.delivered), 13, 3))
        .or(when(!finite_pair(record.range) || record.estimate_not_finite, 13, 4))
        .or(when(!finite_pair(record.law), 13, 5))
        .or(when(record.law.is_some_and(|(_, variance)| variance <= 0.0), 14, 0))
}

pub fn line(sheet: &Sheet, rust: Line, record: &Record, rooms: Rooms) -> Line {
    match refusal(sheet, &rust, record, rooms) {
        Some((number, place)) => Line::refused(number, place),
        None => rust,
    }
}

/// Whether a call sets the first numbers of both rooms to +0: exact, three rows at least, and past refusal 12.
pub fn clears_rooms(sheet: &Sheet, line: &Line) -> bool {
    sheet.is_exact() && matches!((line.refusal, line.place), (0, _) | (13, 2..) | (14, _))
}

/// Whether document 01 bounds the distance of p between the port and the shipped Rust: the call is
/// settled, n - k >= 2, every pivot exceeds 1e-6 of its column's scale, and no eigenvalue that was
/// worked out lies within 1e-6 of the statistic or between 1e-11 and 1e-9.
pub fn is_comparable(sheet: &Sheet, line: &Line, record: &Record) -> bool {
    let clear_of = |&v: &f64| (v - line.statistic).abs() > 1e-6 && !(1e-11..=1e-9).contains(&v);
    line.refusal == 0
        && line.settled
        && sheet.rows() >= sheet.columns.len() + 2
        && record.pivots.iter().all(|&(pivot, scale)| pivot > 1e-6 * scale.max(f64::MIN_POSITIVE))
        && record.delivered.iter().all(clear_of)
}
