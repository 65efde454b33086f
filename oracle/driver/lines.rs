//! What is printed for an entry: the sheet program's line, then the named lines that were asked for.
use crate::answer::{bits, Line};
use crate::fields::{self, Field};
use counted::record::Record;
use std::io::{self, Write};

/// The sheet program's line, without its newline.
pub fn line(index: usize, line: &Line) -> String {
    fields::line(|field| match field {
        Field::Index => index as u64,
        Field::Refusal => line.refusal.into(),
        Field::Place => line.place as u64,
        Field::Statistic => bits(line.statistic),
        Field::P => bits(line.p),
        Field::Path => line.path.into(),
        Field::Fallback => line.fallback.into(),
        Field::Kept => line.kept as u64,
        Field::Sweeps => line.sweeps,
        Field::Bisections => line.bisections,
        Field::Evaluations => line.evaluations,
        Field::Settled => line.settled.into(),
    })
}

pub fn print_line(out: &mut impl Write, index: usize, entry: &Line) -> io::Result<()> {
    writeln!(out, "{}", line(index, entry))
}

/// `NAME COUNT BITS ..`
fn print_named(out: &mut impl Write, name: &str, numbers: &[f64]) -> io::Result<()> {
    write!(out, "{} {}", name, numbers.len())?;
    for &x in numbers {
        write!(out, " {:016x}", bits(x))?;
    }
    writeln!(out)
}

pub fn print_eigenvalues(out: &mut impl Write, record: &Record) -> io::Result<()> {
    print_named(out, "eigenvalues", &record.kept)
}

/// Every value that the record holds, in the order of the steps; a step that did not run has none.
pub fn print_record(out: &mut impl Write, record: &Record) -> io::Result<()> {
    let pair = |pair: Option<(f64, f64)>| pair.map_or(vec![], |(a, b)| vec![a, b]);
    let pivots: Vec<f64> = record.pivots.iter().flat_map(|&(pivot, scale)| [pivot, scale]).collect();
    let parts: Vec<f64> = record.parts.iter().flat_map(|&(lo, hi, value, error)| [lo, hi, value, error]).collect();
    print_named(out, "sums", &pair(record.sums))?;
    print_named(out, "pivots", &pivots)?;
    print_named(out, "inverse", &record.inverse)?;
    print_named(out, "product", &record.product)?;
    print_named(out, "diagonal", &record.diagonal)?;
    print_named(out, "couplings", &record.couplings)?;
    print_named(out, "delivered", &record.delivered)?;
    print_eigenvalues(out, record)?;
    print_named(out, "weights", &record.weights)?;
    print_named(out, "range", &pair(record.range))?;
    print_named(out, "parts", &parts)?;
    print_named(out, "integral", record.integral.as_slice())?;
    print_named(out, "imhof", record.imhof.as_slice())?;
    print_named(out, "law", &pair(record.law))
}
