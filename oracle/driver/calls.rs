//! Single functions, asked by lines of text: `NAME BITS ..`, answered by the bits of what they give.
use crate::answer::bits;
use answers::timeseries::dwtest::{imhof_prob_below_zero, symmetric_eigenvalues};
use counted::record;
use std::io::{self, BufRead, Write};

fn symmetric(numbers: &[f64]) -> Option<Vec<f64>> {
    let n = numbers.len().isqrt();
    (n * n == numbers.len() && n > 0).then(|| symmetric_eigenvalues(numbers.chunks(n).map(<[f64]>::to_vec).collect()))
}

/// Imhof's probability with what the counting copy notes of it: how it ended (0 no weight is left, 1 a number that document 01 asks to be
/// finite is not, 2 a probability), the probability before it is clamped, bisections, evaluations, bisections at which the greatest error
/// stood twice, the ends of the range, the integral, the sum of the parts' errors. Where no integral was needed the last four are 0.
fn counted_imhof(weights: &[f64]) -> Vec<u64> {
    record::take();
    let probability = counted::timeseries::dwtest::imhof_prob_below_zero(weights);
    let met = record::take();
    assert_eq!(bits(probability), bits(imhof_prob_below_zero(weights)), "the counting copy gives another probability");
    let (low, high) = met.range.unwrap_or((0.0, 0.0));
    let finite = low.is_finite() && high.is_finite() && !met.estimate_not_finite;
    let ended = if met.weights.is_empty() { 0 } else if finite { 2 } else { 1 };
    let mut words = vec![ended, bits(probability), met.bisections, met.evaluations, met.ties];
    words.extend([low, high, met.integral.unwrap_or(0.0), met.error_sum()].map(bits));
    words
}

/// What the function gives, or None where there is no such function of so many numbers.
fn call(name: &str, numbers: &[f64]) -> Option<Vec<f64>> {
    let value = match (name, numbers) {
        ("sqrt", &[x]) => functions::sqrt(x),
        ("hypot", &[x, y]) => functions::hypot(x, y),
        ("exp", &[x]) => functions::exp(x),
        ("ln", &[x]) => functions::ln(x),
        ("ln_1p", &[x]) => functions::ln_1p(x),
        ("atan", &[x]) => functions::atan(x),
        ("sin", &[x]) => functions::sin(x),
        ("lower_tail", &[mean, variance, x]) => functions::lower_tail(mean, variance, x),
        ("upper_tail", &[mean, variance, x]) => functions::upper_tail(mean, variance, x),
        ("imhof", weights) => imhof_prob_below_zero(weights),
        ("eigenvalues", numbers) => return symmetric(numbers),
        _ => return None,
    };
    Some(vec![value])
}

fn number(word: &str) -> Option<f64> {
    (word.len() == 16).then(|| u64::from_str_radix(word, 16).ok()).flatten().map(f64::from_bits)
}

fn answer(line: &str) -> Option<Vec<u64>> {
    let mut words = line.split_ascii_whitespace();
    let name = words.next()?;
    let numbers = words.map(number).collect::<Option<Vec<f64>>>()?;
    if name == "imhof_counts" {
        return Some(counted_imhof(&numbers));
    }
    Some(call(name, &numbers)?.into_iter().map(bits).collect())
}

/// Answers each line of `input`. The error says which line could not be.
pub fn run(input: impl BufRead, out: &mut impl Write) -> Result<(), String> {
    let failed = |e: io::Error| e.to_string();
    for (index, line) in input.lines().enumerate() {
        let line = line.map_err(failed)?;
        let Some(values) = answer(&line) else {
            return Err(format!("line {}: no such call: {}", index + 1, line));
        };
        let words: Vec<String> = values.iter().map(|word| format!("{word:016x}")).collect();
        writeln!(out, "{}", words.join(" ")).map_err(failed)?;
    }
    Ok(())
}
