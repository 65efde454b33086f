//! Calls of the test with any run lengths, any k and rooms of any lengths, in the format of crates/try_dwtest:
//! seven words of eight bytes, little-endian (residuals, column numbers, k, alternative, choice, lengths of the
//! matrix and the part room), then the numbers. Answered as document 01 asks of the port; the refusals that turn
//! on lengths are said here, since the Rust's own call can't be wrong in them.
use crate::answer::{self, bits, Line};
use crate::document::{self, Rooms};
use crate::{numbers, words};
use crate::lines;
use crate::sheet_file::{Alternative, Choice, Sheet};
use counted::record::Record;
use std::io::{Read, Write};

/// More numbers than any call has.
const MOST_NUMBERS: u64 = 1 << 20;

struct Head {
    residuals: usize,
    numbers: usize,
    k: u64,
    alternative: Alternative,
    choice: Choice,
    rooms: Rooms,
}

/// The next call's head, or None where the input ends.
fn head(input: &mut impl Read) -> Result<Option<Head>, String> {
    let Some(word) = words::<7>(input)? else {
        return Ok(None);
    };
    if word[0] > MOST_NUMBERS || word[1] > MOST_NUMBERS {
        return Err(format!("{} and {} numbers; is this a call?", word[0], word[1]));
    }
    Ok(Some(Head {
        residuals: word[0] as usize,
        numbers: word[1] as usize,
        k: word[2],
        alternative: match word[3] {
            0 => Alternative::Greater,
            1 => Alternative::Less,
            _ => Alternative::TwoSided,
        },
        choice: match word[4] {
            0 => Choice::Default,
            1 => Choice::Exact,
            _ => Choice::Normal,
        },
        rooms: Rooms { matrix: word[5] as usize, parts: word[6] as usize },
    }))
}

/// The answer to a call, what it met on the way (None where the lengths refuse it), whether it clears the rooms
/// and whether document 01 bounds the distance of p.
struct Answer {
    line: Line,
    record: Option<Record>,
    clears: bool,
    comparable: bool,
}

fn answer(head: &Head, residuals: Vec<f64>, columns: Vec<f64>) -> Result<Answer, String> {
    let rows = head.residuals;
    let k = usize::try_from(head.k).unwrap_or(usize::MAX);
    let wrong_run = || (columns.len() != k * rows).then_some((3, 0));
    if let Some((number, place)) = document::refusal_of_sizes(rows, k).or_else(wrong_run) {
        return Ok(Answer { line: Line::refused(number, place), record: None, clears: false, comparable: false });
    }
    let sheet = Sheet {
        positions: None,
        residuals,
        columns: (0..k).map(|j| columns[j * rows..(j + 1) * rows].to_vec()).collect(),
        alternative: head.alternative,
        choice: head.choice,
    };
    let (rust, record) = answer::answer(&sheet)?;
    let comparable = document::is_comparable(&sheet, &rust, &record);
    let line = document::line(&sheet, rust, &record, head.rooms);
    let clears = document::clears_rooms(&sheet, &line);
    Ok(Answer { line, record: Some(record), clears, comparable })
}

/// The words behind the sheet program's fields: n, alternative, the law's mean and variance, the two rooms.
fn more(head: &Head, answer: &Answer) -> String {
    let accepted = answer.line.refusal == 0;
    let law = match (&answer.record, answer.line.path) {
        (Some(record), 3) if accepted => record.law.unwrap(),
        _ => (0.0, 0.0),
    };
    let n = if accepted { head.residuals } else { 0 };
    let alternative = match head.alternative {
        Alternative::Less if accepted => 1,
        Alternative::TwoSided if accepted => 2,
        _ => 0,
    };
    let room = u8::from(answer.clears);
    format!("{n} {alternative} {:016x} {:016x} {room} {room}", bits(law.0), bits(law.1))
}

/// Answers each call of `input`. The error says which call could not be.
pub fn run(mut input: impl Read, comparable: bool, out: &mut impl Write) -> Result<(), String> {
    for index in 0.. {
        let about = |e: String| format!("call {index}: {e}");
        let Some(head) = head(&mut input).map_err(about)? else {
            return Ok(());
        };
        let residuals = numbers(&mut input, head.residuals).map_err(about)?;
        let columns = numbers(&mut input, head.numbers).map_err(about)?;
        let answer = answer(&head, residuals, columns).map_err(about)?;
        let mut text = format!("{} {}", lines::line(index, &answer.line), more(&head, &answer));
        if comparable {
            text += if answer.comparable { " 1" } else { " 0" };
        }
        writeln!(out, "{text}").map_err(|e| e.to_string())?;
    }
    Ok(())
}
