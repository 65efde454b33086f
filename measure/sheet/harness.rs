//! Asks the port's reader (crates/sheet and crates/lines, their clauses cut out) and the oracle's (oracle/driver/sheet_file.rs) the same files, and stops at
//! the first on which they disagree. Standard input is a stream of sheet files, each after its length in four bytes.
#[allow(dead_code)]
mod sheet_file;

use lines::{FIELDS, LONGEST};
use sheet::file::{Entry, FileRefusal};
use sheet_file::{Alternative, Choice, Sheet};
use std::io::{self, BufReader, Read};
use std::process::ExitCode;

/// The numbers that a run holds; no body of 65,536 bytes has more.
const ROOM: usize = 8192;
/// What a run holds beforehand, and beyond what was read afterwards.
const UNTOUCHED: u64 = 0x1234_5678_9abc_def0;

#[derive(Default)]
struct Counts {
    refused: [u64; 9],
    accepted: u64,
    sheets: u64,
    positions: u64,
    numbers: u64,
    lines: u64,
}

fn agree(what: &str, ours: u64, theirs: u64) -> Result<(), String> {
    if ours == theirs {
        return Ok(());
    }
    Err(format!("{what}: the port has {ours}, where {theirs} is due"))
}

/// Two numbers are the same value: equal bits, or both a NaN.
fn same_numbers(what: &str, run: &[f64], theirs: &[f64]) -> Result<(), String> {
    for (place, (ours, theirs)) in run.iter().zip(theirs).enumerate() {
        if ours.to_bits() != theirs.to_bits() && !(ours.is_nan() && theirs.is_nan()) {
            return Err(format!("{what} {place}: the port has {:016x}, the oracle {:016x}", ours.to_bits(), theirs.to_bits()));
        }
    }
    match run[theirs.len()..].iter().all(|x| x.to_bits() == UNTOUCHED) {
        true => Ok(()),
        false => Err(format!("{what}: numbers beyond those read changed")),
    }
}

/// Position `t` of an entry read plainly: bytes past the file's end count as 0.
fn plain_position(file: &[u8], entry: Entry, t: usize) -> u64 {
    let start = u128::from(entry.offset) + 8 * t as u128;
    let byte = |at: u128| usize::try_from(at).ok().and_then(|at| file.get(at)).copied().unwrap_or(0);
    (0..8).map(|b| u64::from(byte(start + b)) << (8 * b)).sum()
}

/// Any place may be asked for its position: some about the file's end, some about the largest place, and two drawn.
fn compare_any_positions(file: &[u8], entry: Entry, seed: u64) -> Result<(), String> {
    let end = file.len().saturating_sub(entry.offset as usize) / 8;
    for t in [0, end.saturating_sub(1), end, end + 1, usize::MAX / 8, usize::MAX / 8 + 1, usize::MAX, (seed % 256) as usize, seed as usize] {
        agree("position", sheet::file::position_at(file, entry, t), plain_position(file, entry, t))
            .map_err(|e| format!("offset {}, place {t}: {e}", entry.offset))?;
    }
    Ok(())
}

/// Any bytes may be asked for any entry, and an entry need not be one of the file's.
fn compare_any_entry(file: &[u8], i: usize, seed: u64) -> Result<(), String> {
    let Some(entry) = sheet::reader::read_entry(file, i) else {
        return Ok(());
    };
    agree("positions byte", entry.positions.into(), file[4 + 16 * i + 10].into())?;
    let about_end = (file.len() as u64 + seed % 24).saturating_sub(16) as u32;
    compare_any_positions(file, entry, seed)?;
    compare_any_positions(file, Entry { offset: about_end, ..entry }, seed)
}

fn compare_positions(file: &[u8], entry: Entry, sheet: &Sheet) -> Result<u64, String> {
    agree("positions byte", entry.positions.into(), sheet.positions.is_some().into())?;
    let positions = sheet.positions.as_deref().unwrap_or_default();
    for (t, &theirs) in positions.iter().enumerate() {
        agree("position", sheet::file::position_at(file, entry, t), theirs).map_err(|e| format!("place {t}: {e}"))?;
    }
    Ok(positions.len() as u64)
}

fn compare_numbers(file: &[u8], entry: Entry, sheet: &Sheet) -> Result<u64, String> {
    let columns = sheet.columns.concat();
    let mut run = [f64::from_bits(UNTOUCHED); ROOM];
    agree("residuals", sheet::file::read_residuals(file, entry, &mut run) as u64, sheet.residuals.len() as u64)?;
    same_numbers("residual", &run, &sheet.residuals)?;
    let mut run = [f64::from_bits(UNTOUCHED); ROOM];
    agree("column numbers", sheet::file::read_columns(file, entry, &mut run) as u64, columns.len() as u64)?;
    same_numbers("column number", &run, &columns)?;
    Ok((sheet.residuals.len() + columns.len()) as u64)
}

fn compare_sheet(file: &[u8], entry: Entry, sheet: &Sheet, counts: &mut Counts) -> Result<(), String> {
    let alternative = match sheet.alternative {
        Alternative::Greater => 0,
        Alternative::Less => 1,
        Alternative::TwoSided => 2,
    };
    let choice = match sheet.choice {
        Choice::Default => 0,
        Choice::Exact => 1,
        Choice::Normal => 2,
    };
    agree("alternative", entry.alternative.into(), alternative)?;
    agree("choice", entry.choice.into(), choice)?;
    agree("rows", entry.rows.into(), sheet.residuals.len() as u64)?;
    agree("columns", entry.columns.into(), sheet.columns.len() as u64)?;
    counts.positions += compare_positions(file, entry, sheet)?;
    counts.numbers += compare_numbers(file, entry, sheet)?;
    counts.sheets += 1;
    Ok(())
}

/// The line that the port writes must be `text`, with the rest of the buffer as it was; a buffer one byte short must stay as it was.
fn compare_line(text: &str, write: impl Fn(&mut [u8]) -> usize) -> Result<(), String> {
    let mut out = [b'#'; LONGEST + 3];
    let length = write(&mut out);
    if &out[..length] != text.as_bytes() || out[length..].iter().any(|&b| b != b'#') {
        return Err(format!("the line should be {text:?}"));
    }
    let mut short = [b'#'; LONGEST - 1];
    match write(&mut short) == 0 && short.iter().all(|&b| b == b'#') {
        true => Ok(()),
        false => Err("a buffer one byte short was written to".to_string()),
    }
}

fn compare_refusal(refusal: FileRefusal, theirs: &sheet_file::FileRefusal) -> Result<(), String> {
    agree("file refusal", refusal.number(), theirs.number.into())?;
    agree("entry index", refusal.index() as u64, theirs.index as u64)?;
    compare_line(&format!("file {} {}\n", theirs.number, theirs.index), |out| lines::write_file_refusal(refusal, out))
}

/// A line of as many words as a sheet's, two of them patterns, drawn from `seed`: short and long numbers, and those beside a power of ten.
fn compare_words(seed: u64) -> Result<(), String> {
    let mut word = seed;
    let mut draw = || {
        word = word.wrapping_mul(6364136223846793005).wrapping_add(1442695040888963407);
        let high = word >> 33;
        match high % 4 {
            0 => high % 100,
            1 => 10u64.pow((high / 4 % 20) as u32),
            2 => 10u64.pow((high / 4 % 20) as u32) - 1,
            _ => word.rotate_left((high % 64) as u32) >> (high / 64 % 64),
        }
    };
    let words: [u64; FIELDS] = std::array::from_fn(|_| draw());
    let patterns = [3, 4];
    let shown = |(t, n): (usize, &u64)| if patterns.contains(&t) { format!("{n:016x}") } else { n.to_string() };
    let text = words.iter().enumerate().map(shown).collect::<Vec<_>>().join(" ") + "\n";
    compare_line(&text, |out| lines::write_words(&words, &patterns, out))
}

fn compare_file(file: &[u8], counts: &mut Counts) -> Result<(), String> {
    match (sheet::file::check_file(file), sheet_file::read(file)) {
        (Err(refusal), Err(theirs)) => {
            compare_refusal(refusal, &theirs)?;
            counts.refused[theirs.number as usize] += 1;
        }
        (Ok(count), Ok(sheets)) => {
            agree("entries", count as u64, sheets.len() as u64)?;
            for (i, sheet) in sheets.iter().enumerate() {
                match sheet::reader::read_entry(file, i) {
                    Some(entry) => compare_sheet(file, entry, sheet, counts).map_err(|e| format!("entry {i}: {e}"))?,
                    None => return Err(format!("entry {i}: the port's reader is at its end")),
                }
            }
            if sheet::reader::read_entry(file, count).is_some() {
                return Err("the port's reader goes on past the last entry".to_string());
            }
            counts.accepted += 1;
        }
        (Err(refusal), Ok(_)) => return Err(format!("the port refuses it with {}, the oracle accepts it", refusal.number())),
        (Ok(_), Err(theirs)) => return Err(format!("the port accepts it, the oracle refuses it with {}", theirs.number)),
    }
    let seed = file.iter().fold(file.len() as u64, |h, &b| h.wrapping_mul(257).wrapping_add(b.into()));
    compare_words(seed)?;
    counts.lines += 1;
    [seed % 8, seed % 70, seed].into_iter().try_for_each(|i| compare_any_entry(file, i as usize, seed))
}

/// The next file of a stream, or None at its end.
fn next_file(stream: &mut impl Read) -> io::Result<Option<Vec<u8>>> {
    let mut length = [0; 4];
    if stream.read(&mut length[..1])? == 0 {
        return Ok(None);
    }
    stream.read_exact(&mut length[1..])?;
    let mut file = vec![0; u32::from_le_bytes(length) as usize];
    stream.read_exact(&mut file)?;
    Ok(Some(file))
}

fn run() -> Result<Counts, String> {
    let mut stream = BufReader::with_capacity(1 << 16, io::stdin().lock());
    let mut counts = Counts::default();
    for index in 0u64.. {
        match next_file(&mut stream).map_err(|e| format!("file {index}: {e}"))? {
            None => break,
            Some(file) => compare_file(&file, &mut counts).map_err(|e| format!("file {index}, {} bytes: {e}", file.len()))?,
        }
    }
    match counts.lines {
        0 => Err("no file on standard input".to_string()),
        _ => Ok(counts),
    }
}

fn main() -> ExitCode {
    match run() {
        Ok(counts) => {
            let refused: u64 = counts.refused.iter().sum();
            println!("{} files, no disagreement", counts.accepted + refused);
            println!("accepted {}, with {} sheets, {} positions and {} numbers", counts.accepted, counts.sheets, counts.positions, counts.numbers);
            for (number, count) in counts.refused.iter().enumerate().skip(1) {
                println!("file refusal {number}: {count}");
            }
            println!("{} lines of drawn words", counts.lines);
            ExitCode::SUCCESS
        }
        Err(message) => {
            eprintln!("harness: {message}");
            ExitCode::FAILURE
        }
    }
}
