//! Works out Imhof's probability for many statistics. Usage: integral SIDE WEIGHTS CALLS
//! SIDE: `kit` (the port as the kit compiles it), `port` (its sources by rustc), `rust` (the Rust of docs/src over the C library's functions), or
//! `same`, which works nothing out: what it takes is to be taken off. `evaluations` prints how many of the integrand a call takes, in the mean.
//! The eigenvalues are those of a design with an intercept alone, 2 - 2 cos(pi j / n); the statistics go evenly from 1.2 to 2.8.
use std::hint::black_box;

#[link(name = "integral", kind = "static")]
extern "C" {
    fn counted_probability(eigenvalues: *const f64, count: usize, d: f64, parts: *mut f64, room: usize) -> f64;
    fn counted_evaluations(eigenvalues: *const f64, count: usize, d: f64, parts: *mut f64, room: usize) -> usize;
}

fn kit(eigenvalues: &[f64], d: f64, parts: &mut [f64]) -> f64 {
    unsafe { counted_probability(eigenvalues.as_ptr(), eigenvalues.len(), d, parts.as_mut_ptr(), parts.len()) }
}

fn port(eigenvalues: &[f64], d: f64, parts: &mut [f64]) -> f64 {
    imhof::prob_below_zero(eigenvalues, d, parts).map_or(0.0, |estimate| estimate.probability)
}

/// As `durbin_watson_test` has it.
fn rust(eigenvalues: &[f64], d: f64, _: &mut [f64]) -> f64 {
    let shifted: Vec<f64> = eigenvalues.iter().map(|l| l - d).collect();
    source::imhof_prob_below_zero(&shifted).clamp(0.0, 1.0)
}

fn same(_: &[f64], d: f64, _: &mut [f64]) -> f64 {
    d
}

fn evaluations(eigenvalues: &[f64], d: f64, parts: &mut [f64]) -> f64 {
    unsafe { counted_evaluations(eigenvalues.as_ptr(), eigenvalues.len(), d, parts.as_mut_ptr(), parts.len()) as f64 }
}

fn refuse(message: &str) -> ! {
    eprintln!("integral: {message}");
    std::process::exit(2)
}

fn main() {
    let words: Vec<String> = std::env::args().collect();
    let [_, side, weights, calls] = &words[..] else { refuse("usage: integral SIDE WEIGHTS CALLS") };
    let number = |word: &String| word.parse::<usize>().unwrap_or_else(|_| refuse("no number: give WEIGHTS and CALLS"));
    let (weights, calls) = (number(weights), number(calls));
    if !(1..=256).contains(&weights) || calls == 0 {
        refuse("1 to 256 weights, and at least one call");
    }
    let work: fn(&[f64], f64, &mut [f64]) -> f64 = match side.as_str() {
        "kit" => kit,
        "port" => port,
        "rust" => rust,
        "same" => same,
        "evaluations" => evaluations,
        _ => refuse("no such side"),
    };
    let work = black_box(work);
    let eigenvalues: Vec<f64> =
        (1..=weights).rev().map(|j| 2.0 - 2.0 * (std::f64::consts::PI * j as f64 / (weights + 1) as f64).cos()).collect();
    let mut parts = vec![0.0; 8004];
    let mut sum = 0.0;
    for t in 0..calls {
        sum += work(&eigenvalues, 1.2 + 1.6 * (t as f64 + 0.5) / calls as f64, &mut parts);
    }
    println!("{:.1} {:016x}", sum / calls as f64, sum.to_bits());
}
