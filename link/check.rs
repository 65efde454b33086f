//! Reads sheet files, asks the library each sheet, and compares the words with the sheet program's lines:
//! `check FILE.sheet FILE.txt ..`. Then a result of a wrong length and wrong codes, and matrix rooms of other lengths. Prints each check that fails, then `N passed, M failed`.
use fields::{Field, FIELDS};
use std::{env, fs, process};

/// The line's fields, which link/check has tools/line.py write.
#[path = "../target/link/fields.rs"]
mod fields;

/// The result has a word for each field but the index, which is the first.
const WORDS: usize = FIELDS.len() - 1;

fn word(result: &[u64], field: Field) -> u64 {
    result[field as usize - 1]
}

extern "C" {
    fn dwexport_test(
        residuals: *const f64, residuals_len: usize,
        columns: *const f64, columns_len: usize,
        k: usize, alternative: u32, choice: u32,
        matrix: *mut f64, matrix_len: usize,
        parts: *mut f64, parts_len: usize,
        result: *mut u64, result_len: usize,
    ) -> u32;
}

/// The return code and what `result` holds. Slices are what the library asks for: as many numbers as their lengths say, and no overlap.
fn test(residuals: &[f64], columns: &[f64], k: usize, alternative: u32, choice: u32, matrix: &mut [f64], parts: &mut [f64], result: &mut [u64]) -> u32 {
    unsafe {
        dwexport_test(
            residuals.as_ptr(), residuals.len(),
            columns.as_ptr(), columns.len(),
            k, alternative, choice,
            matrix.as_mut_ptr(), matrix.len(),
            parts.as_mut_ptr(), parts.len(),
            result.as_mut_ptr(), result.len(),
        )
    }
}

fn number(file: &[u8], at: usize, bytes: usize) -> u64 {
    file[at..at + bytes].iter().rev().fold(0, |n, b| n << 8 | u64::from(*b))
}

fn numbers(file: &[u8], at: usize, count: usize) -> Vec<f64> {
    (0..count).map(|t| f64::from_bits(number(file, at + 8 * t, 8))).collect()
}

/// The line of sheet `i`, as the sheet program prints it; it lends matrix room for 64 rows.
fn line(file: &[u8], i: usize) -> String {
    let at = 4 + 16 * i;
    let (offset, n, k) = (number(file, at, 4) as usize, number(file, at + 4, 2) as usize, number(file, at + 6, 2) as usize);
    let (alternative, choice) = (u32::from(file[at + 8]), u32::from(file[at + 9]));
    // The library gets no positions: with a 1 here, n of them stand before the residuals.
    let start = offset + 8 * n * usize::from(file[at + 10]);
    let residuals = numbers(file, start, n);
    let columns = numbers(file, start + 8 * n, n * k);
    let (mut matrix, mut parts, mut w) = (vec![1.0; 64 * 65], vec![1.0; 8004], [1; WORDS]);
    let code = test(&residuals, &columns, k, alternative, choice, &mut matrix, &mut parts, &mut w);
    if code != 0 {
        return format!("{} is not answered: {}", i, code);
    }
    fields::line(|field| match field {
        Field::Index => i as u64,
        _ => word(&w, field),
    })
}

struct Tally {
    passed: usize,
    failed: usize,
}

impl Tally {
    fn check(&mut self, name: &str, found: &str, wanted: &str) {
        if found == wanted {
            self.passed += 1;
        } else {
            self.failed += 1;
            println!("FAILED {}: {} where {} was due", name, found, wanted);
        }
    }
}

fn read(path: &str) -> Vec<u8> {
    fs::read(path).unwrap_or_else(|e| {
        eprintln!("check: {}: {}", path, e);
        process::exit(2)
    })
}

fn main() {
    let given: Vec<String> = env::args().skip(1).collect();
    if given.is_empty() || given.len() % 2 != 0 {
        eprintln!("usage: check FILE.sheet FILE.txt ..");
        process::exit(2);
    }
    let mut tally = Tally { passed: 0, failed: 0 };
    for pair in given.chunks(2) {
        let file = read(&pair[0]);
        let text = String::from_utf8_lossy(&read(&pair[1])).into_owned();
        let lines: Vec<&str> = text.lines().collect();
        let count = number(&file, 0, 4) as usize;
        tally.check(&pair[0], &count.to_string(), &lines.len().to_string());
        for (i, wanted) in lines.iter().enumerate().take(count) {
            tally.check(&pair[0], &line(&file, i), wanted);
        }
    }
    for (name, words, alternative, choice, code) in [("a word short", WORDS - 1, 0, 0, "1"), ("a word long", WORDS + 1, 0, 0, "1"), ("alternative 3", WORDS, 3, 0, "2"), ("choice 3", WORDS, 0, 3, "3"), ("sound", WORDS, 0, 0, "0")] {
        let (mut matrix, mut parts, mut result) = (vec![1.0; 12], vec![1.0; 8004], vec![7; words]);
        let found = test(&[1.0, -1.0, 0.0], &[1.0; 3], 1, alternative, choice, &mut matrix, &mut parts, &mut result);
        tally.check(name, &found.to_string(), code);
        tally.check(name, &result.iter().all(|w| *w == 7).to_string(), &(code != "0").to_string());
        tally.check(name, &matrix.iter().chain(&parts).all(|x| *x == 1.0).to_string(), &(code != "0").to_string());
    }
    // Three rows want 12 numbers of matrix room. With 18, as two full matrices would want, the words are the same, and the other 6 stay.
    for (lent, cleared, refusal) in [(11, 0, "12 1"), (12, 12, "0 0"), (13, 12, "0 0"), (17, 12, "0 0"), (18, 12, "0 0")] {
        let name = format!("three rows, {} numbers of matrix room", lent);
        let (mut matrix, mut parts, mut w) = (vec![1.0; lent], vec![1.0; 8004], [7; WORDS]);
        let code = test(&[1.0, -1.0, 0.0], &[1.0; 3], 1, 0, 1, &mut matrix, &mut parts, &mut w);
        tally.check(&name, &format!("{} {} {}", code, word(&w, Field::Refusal), word(&w, Field::Place)), &format!("0 {}", refusal));
        let p: u64 = if cleared > 0 { 0x3fe5555555554755 } else { 0 };
        tally.check(&name, &format!("{:016x}", word(&w, Field::P)), &format!("{:016x}", p));
        let held = matrix.iter().enumerate().all(|(t, x)| x.to_bits() == if t < cleared { 0 } else { 1.0f64.to_bits() });
        tally.check(&name, &held.to_string(), "true");
    }
    println!("{} passed, {} failed", tally.passed, tally.failed);
    process::exit(i32::from(tally.failed != 0));
}
