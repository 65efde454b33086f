//! Eigenvalues of designs, in the format of crates/try_eigen: n, k and whether the inverse is given, each a word of
//! eight bytes, little-endian; 64 numbers, the inverse in the first k of 8 rows and columns; the columns' k n numbers.
//! An inverse that no X'X has reaches the steps that a whole call may not: refusal 13, stages 2 and 3.
use crate::answer::{bits, same_run};
use crate::{numbers, words};
use counted::record;
use std::io::{Read, Write};

fn finite(numbers: &[f64]) -> bool {
    numbers.iter().all(|x| x.is_finite())
}

/// The line behind the index: refusal and place, or the count, the sweeps, 1 where an index was left with a coupling
/// and else 0, and the eigenvalues.
fn line(columns: &[&[f64]], given: Option<Vec<Vec<f64>>>) -> Result<String, String> {
    record::take();
    let inverse = match given {
        Some(inverse) => inverse,
        None => match counted::timeseries::dwtest::xtx_inverse(columns) {
            Ok(inverse) => inverse,
            Err(_) => return Ok(format!("11 {}", record::take().pivots.len() - 1)),
        },
    };
    let worked_out = !record::take().pivots.is_empty();
    if worked_out && !finite(&inverse.concat()) {
        return Ok("13 1".into());
    }
    let kept = counted::timeseries::dwtest::ma_eigenvalues(columns, &inverse);
    let record = record::take();
    if !same_run(&kept, &answers::timeseries::dwtest::ma_eigenvalues(columns, &inverse)) {
        return Err("an eigenvalue of the counting copy differs".into());
    }
    if !finite(&record.product) {
        return Ok("13 2".into());
    }
    if !finite(&record.delivered) {
        return Ok("13 3".into());
    }
    let patterns: String = kept.iter().map(|&x| format!(" {:016x}", bits(x))).collect();
    Ok(format!("0 0 {} {} {}{}", kept.len(), record.sweeps, u8::from(record.stuck), patterns))
}

/// Answers each design of `input`. The error says which could not be.
pub fn run(mut input: impl Read, out: &mut impl Write) -> Result<(), String> {
    for index in 0.. {
        let about = |e: String| format!("design {index}: {e}");
        let Some([n, k, given]) = words::<3>(&mut input).map_err(about)? else {
            return Ok(());
        };
        if !(3..=256).contains(&n) || !(1..=8).contains(&k) || k > n {
            return Err(about(format!("{n} rows and {k} columns")));
        }
        let (n, k) = (n as usize, k as usize);
        let inverse = numbers(&mut input, 64).map_err(about)?;
        let run = numbers(&mut input, k * n).map_err(about)?;
        let columns: Vec<&[f64]> = run.chunks(n).collect();
        let rows = || (0..k).map(|i| inverse[8 * i..8 * i + k].to_vec()).collect();
        let text = line(&columns, (given != 0).then(rows)).map_err(about)?;
        writeln!(out, "{index} {text}").map_err(|e| e.to_string())?;
    }
    Ok(())
}
